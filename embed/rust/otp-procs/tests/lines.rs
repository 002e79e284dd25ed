//! What processes write: whole lines in the log, nothing lost that isn't told, and nobody kept waiting.

mod common;

use common::daemon::{Daemon, HUP, Line, PATIENCE, PROGRAM, TERM, new_folder, wait_until, write_program};
use std::fs::{self, File};
use std::io::Read;
use std::os::unix::fs::OpenOptionsExt;
use std::path::Path;
use std::process::Command;
use std::thread;
use std::time::{Duration, Instant};

const TREE: &str = "intensity = 3\nperiod = 60\n[[child]]\nid = \"a\"\nstart = \"a\"\n";

/// A folder with the tree, and the commands, in which `{folder}` is its name. The program of `a` is this script of Python.
fn folder_of(script: &str, more: &str) -> std::path::PathBuf {
    let folder = new_folder();
    fs::write(folder.join("tree.toml"), TREE).unwrap();
    let script = format!("import os, sys, time\nout = sys.stdout.buffer\n{script}\nout.flush()\ntime.sleep(1000)\n");
    write_program(&folder.join("script.py"), &script);
    let commands = format!("[a]\ncommand = ['python3', '{{folder}}/script.py']\n{more}\n");
    fs::write(folder.join("commands.toml"), commands.replace("{folder}", folder.to_str().unwrap())).unwrap();
    folder
}

fn start(script: &str, more: &str) -> Daemon {
    Daemon::start_in(folder_of(script, more), &["--json", "--log", "log", "--control", "control"])
}

/// A pipe with a name, open at both ends, so that nobody who opens it waits.
fn pipe_in(folder: &Path, name: &str) -> File {
    assert!(Command::new("mkfifo").arg(folder.join(name)).status().unwrap().success());
    // `O_NONBLOCK`.
    File::options().read(true).write(true).custom_flags(0o4000).open(folder.join(name)).unwrap()
}

/// What a slow reader reads up to this text.
fn read_up_to(reader: &mut File, end: &str) -> String {
    let (mut text, mut room) = (Vec::new(), [0; 5000]);
    let begun = Instant::now();
    while !text.ends_with(end.as_bytes()) {
        match reader.read(&mut room) {
            Ok(count) => text.extend_from_slice(&room[..count]),
            Err(_) => thread::sleep(Duration::from_millis(10)),
        }
        assert!(begun.elapsed() < PATIENCE, "no {end} behind {} bytes", text.len());
    }
    String::from_utf8(text).unwrap()
}

/// Runs the daemon of the folder with its output into the pipe `out` there.
fn start_into_pipe(folder: std::path::PathBuf) -> Daemon {
    let mut shell = Command::new("sh");
    shell.args(["-c", "exec \"$0\" \"$@\" > out", PROGRAM]);
    Daemon::start_by(folder, shell, &["--json", "--log", "log", "--control", "control"])
}

fn says(daemon: &Daemon) -> Vec<Line> {
    daemon.log().into_iter().filter(|line| line.get("remark") == "says").collect()
}

#[test]
fn lines_are_whole_and_longer_ones_are_cut_between_characters_and_marked() {
    let script = "for n in range(200): out.write(b'%d ' % n + b'x' * 1500 + b'\\n'); out.flush()\n\
                  out.write(b'y' * 8192 + b'\\n' + ('a' + 'é' * 10000).encode() + b'\\nend\\n')";
    let mut daemon = start(script, "output = 'log'");
    daemon.wait_for("the last line", |line| line.get("line") == "end");
    let lines = says(&daemon);
    for (number, line) in lines[..200].iter().enumerate() {
        assert_eq!(line.get("line"), format!("{number} {}", "x".repeat(1500)));
        assert_eq!(line.get("part"), "");
    }
    assert_eq!((lines[200].get("line").len(), lines[200].get("part")), (8192, ""));
    let parts: Vec<&str> = lines[201..204].iter().map(|line| line.get("part")).collect();
    assert_eq!(parts, ["1", "2", ""]);
    let whole: String = lines[201..204].iter().map(|line| line.get("line")).collect();
    assert_eq!(whole, format!("a{}", "é".repeat(10000)));
    assert_eq!((lines.len(), daemon.stop()), (205, 0));
    // For people the pieces that go on have a mark.
    let mut daemon = Daemon::start_in(folder_of(script, "output = 'log'"), &["--log", "log", "--no-control"]);
    wait_until("the last line", || daemon.read("log").contains("#1 end\n"));
    assert_eq!(daemon.read("log").lines().filter(|line| line.ends_with("é ..")).count(), 2);
    assert_eq!(daemon.stop(), 0);
}

#[test]
fn a_line_that_tells_that_it_is_up_may_be_long_or_come_in_pieces() {
    for before in [1020, 3000, 8184, 8187, 30000] {
        let script =
            format!("out.write(b'z' * {before} + b'it is'); out.flush(); time.sleep(0.1); out.write(b' up\\n')");
        for output in ["log", "null"] {
            let more = format!("output = '{output}'\nready = 'line'\nready_line = 'it is up'\nready_within = 20000");
            let mut daemon = start(&script, &more);
            daemon.wait_ready();
            assert_eq!(daemon.stop(), 0);
        }
    }
}

#[test]
fn last_words_without_an_end_are_in_the_log() {
    // Another process keeps the pipe open.
    let script = "os.system('setsid sleep 1000 &')\nout.write(b'one\\nlast words')\nout.flush()\nos._exit(3)";
    let mut daemon = start(script, "output = 'log'");
    daemon.wait_for("last words", |line| line.get("line") == "last words");
    daemon.wait();
    let count = says(&daemon).iter().filter(|line| line.get("line") == "last words").count();
    assert_eq!(count, 4);
}

/// Writes so many lines, and then a file.
const MANY: &str = "for n in range(40000): out.write(b'line %d\\n' % n)\nout.flush()\nopen('written', 'w')";

#[test]
fn nothing_is_lost_where_the_output_is_passed_on_to_a_slow_reader() {
    let folder = folder_of(MANY, "ready = 'line'\nready_line = 'line 0'");
    let mut reader = pipe_in(&folder, "out");
    let mut daemon = start_into_pipe(folder);
    daemon.wait_ready();
    thread::sleep(Duration::from_millis(300));
    // The process has to wait for the reader, and the daemon for nobody.
    assert!(!daemon.folder.join("written").exists());
    assert!(daemon.ctl(&["status"]).0);
    let text = read_up_to(&mut reader, "line 39999\n");
    let wanted: String = (0..40000).map(|number| format!("line {number}\n")).collect();
    assert!(text == wanted);
    assert_eq!(daemon.stop(), 0);
    assert!(daemon.log().iter().all(|line| line.get("remark") != "lost"));
}

#[test]
fn the_last_words_of_a_process_wait_for_a_slow_reader_too() {
    let script = format!("{MANY}\nos._exit(0)").replace("40000", "8000");
    let folder = folder_of(&script, "ready = 'line'\nready_line = 'line 0'");
    fs::write(folder.join("tree.toml"), format!("{TREE}restart = \"transient\"\n")).unwrap();
    let mut reader = pipe_in(&folder, "out");
    let mut daemon = start_into_pipe(folder);
    daemon.wait_for("the end", |line| line.get("event") == "exit");
    let text = read_up_to(&mut reader, "line 7999\n");
    let wanted: String = (0..8000).map(|number| format!("line {number}\n")).collect();
    assert!(text == wanted);
    assert_eq!(daemon.stop(), 0);
    assert!(daemon.log().iter().all(|line| line.get("remark") != "lost"));
}

#[test]
fn what_can_not_be_written_where_it_goes_is_counted_for_each_process() {
    let more = "output = 'file'\noutput_file = '/dev/full'\nready = 'line'\nready_line = 'line 0'";
    let mut daemon = start(MANY, more);
    wait_until("all was written", || daemon.folder.join("written").exists());
    assert_eq!(daemon.stop(), 0);
    let lost: Vec<Line> = daemon.log().into_iter().filter(|line| line.get("remark") == "lost").collect();
    assert!(lost[0].get("text").contains("No space left") && lost[0].get("path") == "a", "{lost:?}");
    let all: usize = (0..40000).map(|number| format!("line {number}\n").len()).sum();
    assert_eq!(lost.iter().map(|line| line.number("bytes")).sum::<u64>(), all as u64);
    // A file that can't be opened is a failed start, as for a process that writes there itself.
    let mut daemon = start(MANY, &more.replace("/dev/full", "/nowhere/at/all"));
    assert_eq!(daemon.wait(), 4);
    assert_eq!(daemon.story()[1], "-> fail a #1 error:no_output");
    daemon.replay();
}

#[test]
fn what_a_daemon_can_not_pass_on_at_its_end_is_told() {
    let script = format!("{MANY}\nos._exit(0)").replace("40000", "8000");
    let folder = folder_of(&script, "ready = 'line'\nready_line = 'line 0'");
    fs::write(folder.join("tree.toml"), format!("{TREE}restart = \"transient\"\n")).unwrap();
    let reader = pipe_in(&folder, "out");
    let mut daemon = start_into_pipe(folder);
    daemon.wait_for("the end", |line| line.get("event") == "exit");
    assert_eq!(daemon.stop(), 0);
    daemon.wait_for("lost", |line| line.get("remark") == "lost" && line.number("bytes") > 1000);
    daemon.replay();
    drop(reader);
}

#[test]
fn a_full_disk_leaves_neither_an_empty_line_nor_half_of_one() {
    let folder = folder_of("", "");
    // The log may have 4 KiB; what it is emptied, there is room again.
    let mut shell = Command::new("bash");
    shell.args(["-c", "trap '' XFSZ; ulimit -f 4; exec \"$0\" \"$@\"", PROGRAM]);
    let mut daemon = Daemon::start_by(folder, shell, &["--json", "--log", "log", "--control", "control"]);
    daemon.wait_ready();
    wait_until("the log is full", || {
        daemon.signal(HUP);
        daemon.read("log").len() >= 4096
    });
    let full = daemon.read("log");
    thread::sleep(Duration::from_millis(100));
    File::options().write(true).open(daemon.folder.join("log")).unwrap().set_len(0).unwrap();
    daemon.signal(TERM);
    assert_eq!(daemon.wait(), 0);
    let text = daemon.read("log");
    assert!(text.lines().all(|line| line.starts_with("{\"time\"") && line.ends_with('}')), "{text}");
    assert!(text.lines().next().unwrap().contains("\"remark\":\"lost\",\"lines\":"), "{text}");
    assert!(full.lines().rev().skip(1).all(|line| line.ends_with('}')), "{full}");
}
