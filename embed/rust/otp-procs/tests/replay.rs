//! `otp-procs replay`: logs of several runs, of remarks alone, and such as a full disk or the end of the machine has left.

mod common;

use common::daemon::{Daemon, PROGRAM, new_folder};
use std::fs;
use std::path::Path;
use std::process::Command;

const TREE: &str = "intensity = 3\nperiod = 60\n[[child]]\nid = \"a\"\nstart = \"a\"\n";
const COMMANDS: &str = "[a]\ncommand = ['sh', '-c', 'echo up; exec sleep 1000']\noutput = 'log'\n";

fn folder() -> std::path::PathBuf {
    let folder = new_folder();
    fs::write(folder.join("tree.toml"), TREE).unwrap();
    fs::write(folder.join("commands.toml"), COMMANDS).unwrap();
    folder
}

/// One run of the tree of a folder, from its start to TERM; the log is written to its end.
fn run(folder: &Path) {
    let mut daemon = Daemon::start_in(folder.to_path_buf(), &["--json", "--log", "log", "--control", "control"]);
    let before = daemon.read("log").matches("\"order\":\"ready\"").count();
    common::daemon::wait_until("ready", || daemon.read("log").matches("\"order\":\"ready\"").count() > before);
    assert_eq!(daemon.stop(), 0);
    // The folder is used again.
    std::mem::forget(daemon);
}

fn replay(folder: &Path, log: &str, more: &[&str]) -> (Option<i32>, String) {
    let mut replay = Command::new(PROGRAM);
    let output = replay.args(["replay", "tree.toml", log]).args(more).current_dir(folder).output().unwrap();
    (output.status.code(), String::from_utf8([output.stdout, output.stderr].concat()).unwrap())
}

#[test]
fn a_log_of_several_runs_is_played_run_by_run() {
    let folder = folder();
    run(&folder);
    let log = fs::read_to_string(folder.join("log")).unwrap();
    let first = log.lines().next().unwrap();
    for key in
        ["\"remark\":\"began\"", "\"version\":\"", "\"library\":\"", "/tree.toml\"", "/commands.toml\"", "\"boot\":\""]
    {
        assert!(first.contains(key), "{first}");
    }
    let (status, text) = replay(&folder, "log", &[]);
    assert_eq!((status, text.as_str()), (Some(0), "3 events and 4 orders, as the rules give them\n"));
    run(&folder);
    run(&folder);
    let log = fs::read_to_string(folder.join("log")).unwrap();
    assert_eq!(log.matches("\"remark\":\"began\"").count(), 3);
    let (status, text) = replay(&folder, "log", &[]);
    assert!(status == Some(0) && text.starts_with("run 3 of 3 (lines "), "{text}");
    let (status, text) = replay(&folder, "log", &["--run", "2"]);
    assert!(status == Some(0) && text.starts_with("run 2 of 3 (lines "), "{text}");
    let (status, text) = replay(&folder, "log", &["--run", "4"]);
    assert!(status == Some(1) && text.contains("has 3 runs"), "{text}");
    assert_eq!(replay(&folder, "log", &["--run", "x"]).0, Some(2));
    // A fault of one run is not another's, and has its line in the file.
    fs::write(folder.join("changed"), log.replacen("\"order\":\"ask\"", "\"order\":\"kill\"", 1)).unwrap();
    let (status, text) = replay(&folder, "changed", &["--run", "1"]);
    assert!(status == Some(1) && text.contains("run 1 of 3") && text.contains("the tree orders ask"), "{text}");
    assert_eq!(replay(&folder, "changed", &[]).0, Some(0));
    fs::remove_dir_all(&folder).unwrap();
}

#[test]
fn what_can_not_be_compared_is_said() {
    let folder = folder();
    run(&folder);
    let log = fs::read_to_string(folder.join("log")).unwrap();
    let of = |text: &str| {
        fs::write(folder.join("changed"), text).unwrap();
        replay(&folder, "changed", &[])
    };
    let remarks: String =
        log.lines().filter(|line| line.contains("\"remark\"")).map(|line| format!("{line}\n")).collect();
    for text in [remarks.as_str(), "", "\n"] {
        let (status, told) = of(text);
        assert!(status == Some(1) && told.contains("nothing to compare"), "{told}");
    }
    // Empty lines don't matter, and a last one that is cut off is told of.
    assert_eq!(of(&format!("\n{}", log.replace('\n', "\n\n"))).0, Some(0));
    let (status, told) = of(&log[..log.len() - 9]);
    assert!(status == Some(0) && told.contains("cut off") && told.contains("no end"), "{told}");
    let half = &log[..log.find("\"event\":\"stop\"").unwrap()];
    let half = &half[..=half.rfind('\n').unwrap()];
    let (status, told) = of(half);
    assert!(status == Some(0) && told.contains("; the run has no end"), "{told}");
    // A run behind one that was cut off begins on a line of its own.
    fs::write(folder.join("log"), &log[..log.len() - 9]).unwrap();
    run(&folder);
    assert_eq!(replay(&folder, "log", &[]).0, Some(0));
    assert_eq!(replay(&folder, "log", &["--run", "1"]).0, Some(0));
    fs::remove_dir_all(&folder).unwrap();
}
