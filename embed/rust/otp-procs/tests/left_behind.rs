//! `otp-procs` after its death: what it has started doesn't run beside what the next daemon starts.

mod common;

use common::daemon::{Daemon, KILL, can_be_another_user, new_folder, wait_until};
use std::fs;

const TREE: &str = "[[child]]\nid = \"a\"\nstart = \"a\"\n";
const WITH_CONTROL: [&str; 5] = ["--json", "--log", "log", "--control", "control"];
const WITHOUT: [&str; 4] = ["--json", "--log", "log", "--no-control"];

/// It and two that it starts, one of which has a session of its own.
const FAMILY: &str =
    "[a]\ncommand = ['sh', '-c', 'setsid sleep 1000 & sleep 1000 & echo >&3; exec sleep 1000']\nready = 'notify'\n";

/// Kills the daemon and runs another one in its folder; so many processes are there in between, and afterwards.
fn die_and_live(mut daemon: Daemon, flags: &[&str], between: usize, after: usize) {
    daemon.wait_ready();
    daemon.signal(KILL);
    assert_eq!(daemon.wait(), -1);
    wait_until("the first generation is as it should be", || daemon.left().len() == between);
    let before = daemon.left();
    daemon.start_again(flags);
    daemon.wait_ready();
    wait_until("all has started", || daemon.left().len() == after);
    assert!(daemon.left().iter().all(|pid| !before.contains(pid)));
    let log = daemon.log();
    assert_eq!((log[1].get("remark"), log[1].number("killed")), ("strays", between as u64), "{}", daemon.read("log"));
    assert_eq!(daemon.stop(), 0);
    assert_eq!(daemon.left(), []);
    daemon.replay();
}

#[test]
fn descendants_of_a_dead_daemons_processes_are_ended_by_the_next_one() {
    die_and_live(Daemon::start(TREE, FAMILY), &WITH_CONTROL, 2, 3);
}

#[test]
fn without_a_control_folder_the_next_one_on_the_same_tree_does_so() {
    let folder = new_folder();
    fs::write(folder.join("tree.toml"), TREE).unwrap();
    fs::write(folder.join("commands.toml"), FAMILY).unwrap();
    die_and_live(Daemon::start_in(folder, &WITHOUT), &WITHOUT, 2, 3);
}

#[test]
fn what_was_started_as_another_user_is_ended_by_the_next_one() {
    if !can_be_another_user() {
        return;
    }
    let commands = "[a]\ncommand = ['setpriv', '--reuid=65534', '--regid=65534', '--clear-groups', \
                    'sh', '-c', 'trap \"\" TERM; echo >&3; while :; do sleep 0.1; done']\nready = 'notify'\n";
    let mut daemon = Daemon::start(TREE, commands);
    daemon.wait_ready();
    daemon.signal(KILL);
    daemon.wait();
    let pid = daemon.wait_for("start", |line| line.get("order") == "start").number("pid") as i32;
    // It doesn't listen to TERM.
    daemon.start_again(&WITH_CONTROL);
    daemon.wait_ready();
    assert!(!daemon.left().contains(&pid));
    assert_eq!(daemon.log()[1].get("remark"), "strays");
    assert_eq!(daemon.stop(), 0);
}

#[test]
fn processes_of_a_daemon_that_lives_are_left_alone() {
    let first = Daemon::start(TREE, FAMILY);
    first.wait_ready();
    let others = first.left();
    assert_eq!(others.len(), 3);
    // One has another control folder; two more have none, and the same tree.
    let beside = |flags: &[&str]| {
        let mut command = std::process::Command::new(common::daemon::PROGRAM);
        command.args(["run", "tree.toml", "commands.toml"]).args(flags).current_dir(&first.folder);
        command.stdin(std::process::Stdio::null()).spawn().unwrap()
    };
    let logs = ["log2", "log3", "log4"];
    let flags = [vec!["--control", "control2"], vec!["--no-control"], vec!["--no-control"]];
    let mut beside: Vec<_> = logs
        .iter()
        .zip(flags)
        .map(|(log, flags)| {
            let daemon = beside(&[&["--json", "--log", log], &flags[..]].concat());
            wait_until("ready", || first.read(log).contains("\"order\":\"ready\""));
            daemon
        })
        .collect();
    for log in logs {
        assert!(!first.read(log).contains("strays"), "{}", first.read(log));
    }
    assert_eq!(first.left(), others);
    for daemon in &mut beside {
        assert!(common::daemon::send(daemon.id() as i32, common::daemon::TERM));
        assert_eq!(daemon.wait().unwrap().code(), Some(0));
    }
    assert_eq!(first.left(), others);
}
