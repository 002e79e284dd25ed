//! Those who ask a daemon: that there is a place for who asks for an end, that no answer looks whole which isn't, and that what is
//! wrong is said with a remedy.

mod common;

use common::daemon::{CONT, Daemon, KILL, PROGRAM, STOP, new_folder, send, wait_until};
use std::fs;
use std::io::{Read, Write};
use std::os::unix::net::{UnixListener, UnixStream};
use std::path::Path;
use std::process::{Command, Output, Stdio};
use std::thread;
use std::time::Duration;

const TREE: &str = "intensity = 3\nperiod = 60\n[[child]]\nid = \"a\"\nstart = \"a\"\nshutdown = \"infinity\"\n";
const COMMANDS: &str =
    "[a]\ncommand = ['sh', '-c', 'trap \"\" TERM; echo >&3; while :; do sleep 1; done']\nready = 'notify'\n";
const STEADY: &str = "[a]\ncommand = ['sleep', '1000']\n";

fn connect(daemon: &Daemon) -> UnixStream {
    UnixStream::connect(daemon.folder.join("control/socket")).unwrap()
}

fn asks(daemon: &Daemon, line: &str) -> UnixStream {
    let mut stream = connect(daemon);
    stream.write_all(format!("{line}\n").as_bytes()).unwrap();
    stream
}

fn whole(mut stream: UnixStream) -> String {
    let mut text = String::new();
    stream.read_to_string(&mut text).unwrap();
    text
}

fn ctl(control: &Path, words: &[&str]) -> Output {
    Command::new(PROGRAM).args(["ctl", "--control"]).arg(control).args(words).output().unwrap()
}

fn errors_of(output: &Output) -> (Option<i32>, String) {
    (output.status.code(), String::from_utf8(output.stderr.clone()).unwrap())
}

#[test]
fn those_who_follow_leave_places_for_others() {
    let mut daemon = Daemon::start(TREE, STEADY);
    daemon.wait_ready();
    let followers: Vec<UnixStream> = (0..40).map(|_| asks(&daemon, "tail -f")).collect();
    let mut refused = 0;
    for mut follower in &followers {
        let mut head = [0; 9];
        follower.read_exact(&mut head[..3]).unwrap();
        if &head[..3] == b"err" {
            refused += 1;
            assert!(whole(follower.try_clone().unwrap()).contains("busy: 16 clients follow"));
        }
    }
    assert_eq!(refused, 24);
    let (is_done, text) = daemon.ctl(&["status"]);
    assert!(is_done, "{text}");
    let (is_done, text) = daemon.ctl(&["tail", "-f"]);
    assert!(!is_done && text.contains("busy: 16 clients follow already"), "{text}");
    assert!(daemon.ctl(&["shutdown"]).0);
    assert_eq!(daemon.wait(), 0);
    // All who followed have the whole log, with its end.
    for follower in followers {
        let text = whole(follower);
        assert!(text.is_empty() || text.ends_with("end 0\n") && text.contains("\"order\":\"end\""), "{text}");
    }
}

#[test]
fn who_asks_for_an_end_always_has_a_place() {
    let mut daemon = Daemon::start(TREE, COMMANDS);
    daemon.wait_ready();
    // The child doesn't listen, so that all of these wait.
    let waiting: Vec<UnixStream> = (0..32).map(|_| asks(&daemon, "stop a")).collect();
    daemon.wait_for("the last", |_| daemon.read("log").matches("\"line\":\"stop a\"").count() == 32);
    let output = ctl(&daemon.folder.join("control"), &["status"]);
    let (status, text) = errors_of(&output);
    assert!(status == Some(1) && text.contains("busy: 32 clients") && text.contains("try again"), "{text}");
    let idle: Vec<UnixStream> = (0..40).map(|_| connect(&daemon)).collect();
    let mut end = asks(&daemon, "shutdown");
    daemon.wait_for("shutdown", |line| line.get("line") == "shutdown");
    let pid = daemon.wait_for("start", |line| line.get("order") == "start").number("pid");
    assert!(send(pid as i32, KILL));
    let mut text = String::new();
    end.read_to_string(&mut text).unwrap();
    assert!(text.ends_with("the tree has ended\nend 0\n"), "{text}");
    assert_eq!(daemon.wait(), 0);
    drop((waiting, idle));
}

#[test]
fn idle_clients_keep_nobodys_place_and_are_told() {
    let mut daemon = Daemon::start(TREE, STEADY);
    daemon.wait_ready();
    let idle: Vec<UnixStream> = (0..200).map(|_| connect(&daemon)).collect();
    for _ in 0..5 {
        let (is_done, text) = daemon.ctl(&["status"]);
        assert!(is_done, "{text}");
    }
    for one in idle {
        let text = whole(one);
        assert!(text.starts_with("error\n") && text.ends_with("end 1\n"), "{text}");
        assert!(text.contains("busy: another client") || text.contains("no request came within 5 s"), "{text}");
    }
    assert_eq!(daemon.stop(), 0);
}

#[test]
fn questions_are_not_in_the_log() {
    let mut daemon = Daemon::start(TREE, STEADY);
    daemon.wait_ready();
    let before = daemon.read("log");
    for words in [&["status"][..], &["status", "--json"], &["which"], &["count"], &["tail"]] {
        assert!(daemon.ctl(words).0);
    }
    assert_eq!(daemon.read("log"), before);
    assert!(daemon.ctl(&["restart", "a"]).0);
    daemon.wait_for("asked", |line| line.get("line") == "restart a");
    assert_eq!(daemon.stop(), 0);
    daemon.replay();
}

#[test]
fn an_answer_has_an_end_with_its_status() {
    let mut daemon = Daemon::start(TREE, STEADY);
    daemon.wait_ready();
    assert!(whole(asks(&daemon, "count")).ends_with("workers 1\nend 0\n"));
    assert!(whole(asks(&daemon, "stop x")).ends_with("\nend 1\n"));
    assert!(whole(asks(&daemon, "x")).starts_with("error\nthere is no request x"));
    assert_eq!(daemon.stop(), 0);
}

#[test]
fn an_answer_that_is_cut_off_is_told() {
    let folder = new_folder();
    let listener = UnixListener::bind(folder.join("socket")).unwrap();
    for (answer, words, wanted) in [
        ("ok\nhalf of it\n", &["status"][..], "cut off"),
        ("ok\nhalf of it\nend 0", &["status"], "cut off"),
        ("ok\nhalf of it\n", &["tail", "-f"], "cut off"),
        ("error\nit\n", &["status"], "cut off"),
        ("", &["status"], "cut off"),
        ("error\nit isn't done\nend 1\n", &["status"], "it isn't done"),
    ] {
        let listener = listener.try_clone().unwrap();
        let daemon = thread::spawn(move || {
            let (mut stream, _) = listener.accept().unwrap();
            let _ = stream.read(&mut [0; 100]);
            stream.write_all(answer.as_bytes()).unwrap();
        });
        let (status, text) = errors_of(&ctl(&folder, words));
        daemon.join().unwrap();
        assert!(status == Some(1) && text.contains(wanted), "{answer}: {text}");
    }
    fs::remove_dir_all(&folder).unwrap();
}

#[test]
fn who_follows_a_daemon_that_is_killed_is_told() {
    let daemon = Daemon::start(TREE, STEADY);
    daemon.wait_ready();
    let mut follow = Command::new(PROGRAM);
    follow.args(["ctl", "tail", "-f", "--control"]).arg(daemon.folder.join("control"));
    let mut follow = follow.stdout(Stdio::piped()).stderr(Stdio::piped()).spawn().unwrap();
    let mut some = [0; 10];
    follow.stdout.as_mut().unwrap().read_exact(&mut some).unwrap();
    daemon.signal(KILL);
    let (status, text) = errors_of(&follow.wait_with_output().unwrap());
    assert!(status == Some(1) && text.contains("cut off"), "{text}");
}

#[test]
fn a_pager_that_waits_gets_all_lines() {
    let commands = "[a]\ncommand = ['sh', '-c', 'i=0; while [ $i -lt 1000 ]; do echo line $i of some length, so that no pipe has room for all \
                    of them; i=$((i + 1)); done; exec sleep 1000']\noutput = 'log'\n";
    let mut daemon = Daemon::start(TREE, commands);
    daemon.wait_for("the last line", |line| line.get("line").starts_with("line 999 "));
    let mut tail = Command::new(PROGRAM);
    tail.args(["ctl", "tail", "1000", "--control"]).arg(daemon.folder.join("control"));
    let mut tail = tail.stdout(Stdio::piped()).spawn().unwrap();
    // Longer than a daemon waits for a client that doesn't read.
    thread::sleep(Duration::from_secs(6));
    let mut text = String::new();
    tail.stdout.as_mut().unwrap().read_to_string(&mut text).unwrap();
    assert_eq!((text.lines().count(), tail.wait().unwrap().code()), (1000, Some(0)));
    assert_eq!(daemon.stop(), 0);
}

#[test]
fn an_answer_is_waited_for_as_long_as_is_said() {
    let mut daemon = Daemon::start(TREE, STEADY);
    daemon.wait_ready();
    daemon.signal(STOP);
    let (status, text) = errors_of(&ctl(&daemon.folder.join("control"), &["--within", "200ms", "status"]));
    daemon.signal(CONT);
    assert!(status == Some(1) && text.contains("no answer within 0.2 s") && text.contains("--within"), "{text}");
    assert_eq!(ctl(&daemon.folder.join("control"), &["--within", "x", "status"]).status.code(), Some(2));
    assert_eq!(daemon.stop(), 0);
}

/// Asks with these variables and no others of the two.
fn ctl_with(variables: &[(&str, &Path)]) -> Output {
    let mut command = Command::new(PROGRAM);
    command.args(["ctl", "status"]).env_remove("XDG_RUNTIME_DIR").env_remove("OTP_CONTROL");
    command.envs(variables.iter().copied()).output().unwrap()
}

#[test]
fn the_folder_is_named_by_a_variable_or_looked_for() {
    let folder = new_folder();
    fs::write(folder.join("tree.toml"), TREE).unwrap();
    fs::write(folder.join("commands.toml"), STEADY).unwrap();
    let mut env = Command::new("env");
    env.arg(format!("OTP_CONTROL={}", folder.join("own").display())).arg(PROGRAM);
    let mut daemon = Daemon::start_by(folder.clone(), env, &["--json", "--log", "log"]);
    daemon.wait_ready();
    assert!(folder.join("own/socket").exists());
    let output = ctl_with(&[("OTP_CONTROL", &folder.join("own"))]);
    assert_eq!(output.status.code(), Some(0), "{output:?}");
    // Where none runs all folders are named that were tried.
    let (status, text) = errors_of(&ctl_with(&[("OTP_CONTROL", &folder.join("other"))]));
    assert!(status == Some(1) && text.contains("no daemon") && text.contains("/other has no socket"), "{text}");
    let output = ctl_with(&[("XDG_RUNTIME_DIR", &folder.join("run"))]);
    let (_, text) = errors_of(&output);
    // On this machine a daemon may run in the folder that all share.
    if output.status.code() == Some(1) {
        assert!(text.contains("/run/otp-procs has no socket") && text.contains("/tmp/otp-procs-"), "{text}");
    }
    assert_eq!(daemon.stop(), 0);
    wait_until("the socket is gone", || !folder.join("own/socket").exists());
}
