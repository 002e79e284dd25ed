//! `otp-procs` and processes that are hard to end: what left its group, stands still, or is another user's; what has left its
//! parent; and signals that nobody means as an end.

mod common;

use common::daemon::{
    Daemon, INT, KILL, PROGRAM, STOP, TERM, can_be_another_user, new_folder, send, wait_until, write_program,
};
use std::fs;
use std::os::unix::fs::chown;
use std::process::Command;
use std::thread;
use std::time::Duration;

const FLAGS: [&str; 5] = ["--json", "--log", "log", "--control", "control"];

fn tree_of(shutdown: &str) -> String {
    format!("[[child]]\nid = \"a\"\nstart = \"a\"\nshutdown = {shutdown}\n")
}

/// Moves into the group of the daemon, and tells that it has.
fn leaves_its_group(more: &str) -> String {
    let program = "import os, signal, sys, time; os.setpgid(0, os.getpgid(os.getppid())); {more}; \
                   print(\"moved\", flush=True); time.sleep(1000)";
    let command = format!("[a]\ncommand = ['python3', '-c', '{program}']\nready = 'line'\nready_line = 'moved'\n");
    command.replace("{more}", more) + "output = 'log'\n"
}

#[test]
fn a_process_that_has_left_its_group_is_asked() {
    let mut daemon = Daemon::start(&tree_of("\"infinity\""), &leaves_its_group("0"));
    daemon.wait_ready();
    assert_eq!(daemon.ctl(&["stop", "a"]), (true, "a: ok\n".to_string()));
    assert!(daemon.story().contains(&"-> exit a #1 shutdown".to_string()), "{:?}", daemon.story());
    assert_eq!(daemon.stop(), 0);
    daemon.replay();
}

#[test]
fn a_process_that_has_left_its_group_is_killed() {
    let deaf = leaves_its_group("signal.signal(15, signal.SIG_IGN)");
    let mut daemon = Daemon::start(&tree_of("100"), &deaf);
    daemon.wait_ready();
    assert_eq!(daemon.stop(), 0);
    assert!(daemon.story().contains(&"-> exit a #1 killed".to_string()), "{:?}", daemon.story());
    assert_eq!(daemon.left(), []);
    let mut daemon = Daemon::start(&tree_of("\"infinity\""), &deaf);
    daemon.wait_ready();
    daemon.signal(TERM);
    daemon.wait_for("ask", |line| line.get("order") == "ask");
    thread::sleep(Duration::from_millis(700));
    daemon.signal(TERM);
    assert_eq!(daemon.wait(), 6);
    assert_eq!(daemon.left(), []);
}

#[test]
fn a_process_of_another_user_is_given_up_after_a_second_signal() {
    if !can_be_another_user() {
        return;
    }
    let folder = new_folder();
    let (setpriv, program) = (folder.join("setpriv"), folder.join("program"));
    // The daemon is nobody's, and what it starts becomes root's. Copied by a process of its own, as `write_program` has it.
    let copy = "cp \"$(command -v setpriv)\" \"$1\" && chmod 4755 \"$1\" && cp \"$2\" \"$3\"";
    let mut copy_all = Command::new("sh");
    copy_all.args(["-c", copy, "sh"]).arg(&setpriv).arg(PROGRAM).arg(&program);
    assert!(copy_all.status().unwrap().success());
    let commands = format!(
        "[a]\ncommand = ['{}', '--reuid=0', '--regid=0', '--clear-groups', 'sleep', '1000']\n",
        setpriv.display()
    );
    fs::write(folder.join("commands.toml"), commands).unwrap();
    fs::write(folder.join("tree.toml"), tree_of("100")).unwrap();
    chown(&folder, Some(65534), Some(65534)).unwrap();
    let mut nobody = Command::new("setpriv");
    nobody.args(["--reuid=65534", "--regid=65534", "--clear-groups"]).arg(&program);
    let mut daemon = Daemon::start_by(folder, nobody, &FLAGS);
    let pid = daemon.wait_for("start", |line| line.get("order") == "start").number("pid") as i32;
    let is_roots = || fs::read_to_string(format!("/proc/{pid}/status")).is_ok_and(|text| text.contains("Uid:\t0\t0"));
    wait_until("it is root's", is_roots);
    daemon.signal(TERM);
    let kill = daemon.wait_for("kill", |line| line.get("order") == "kill");
    assert!(kill.get("text").contains("can't be signalled"), "{kill:?}");
    thread::sleep(Duration::from_millis(700));
    daemon.signal(TERM);
    assert_eq!(daemon.wait(), 6);
    let left = daemon.wait_for("left", |line| line.get("remark") == "left");
    assert_eq!((left.get("path"), left.number("pid") as i32), ("a", pid));
    assert!(send(pid, KILL));
    daemon.replay();
}

#[test]
fn a_process_that_stands_still_is_let_go_on_when_it_is_asked() {
    for to in ["group", "process"] {
        let commands = format!(
            "[a]\ncommand = ['sh', '-c', 'trap \"touch {{folder}}/bye; exit 0\" TERM; echo >&3; while :; do sleep 0.1; done']\n\
             ready = 'notify'\nsignal_to = '{to}'\n"
        );
        let mut daemon = Daemon::start(&tree_of("\"infinity\""), &commands);
        daemon.wait_ready();
        let pid = daemon.wait_for("start", |line| line.get("order") == "start").number("pid") as i32;
        assert!(send(pid, STOP));
        assert_eq!(daemon.stop(), 0);
        assert!(daemon.folder.join("bye").exists());
        assert!(daemon.story().contains(&"-> exit a #1 normal".to_string()), "{:?}", daemon.story());
    }
}

#[test]
fn signals_that_mean_nothing_to_it_end_nothing() {
    let mut daemon = Daemon::start(&tree_of("5000"), "[a]\ncommand = ['sleep', '1000']\n");
    daemon.wait_ready();
    let signals =
        [(3, "QUIT"), (10, "USR1"), (12, "USR2"), (14, "ALRM"), (25, "XFSZ"), (27, "PROF"), (30, "PWR"), (35, "35")];
    for (number, name) in signals {
        daemon.signal(number);
        let line = daemon.wait_for(name, |line| line.get("remark") == "signal" && line.get("name") == name);
        assert_eq!(line.number("from_pid"), u64::from(std::process::id()));
    }
    assert_eq!(daemon.story().len(), 3, "{:?}", daemon.story());
    assert_eq!(daemon.stop(), 0);
}

#[test]
fn an_interrupt_that_is_ignored_at_the_beginning_is_not_taken() {
    let folder = new_folder();
    fs::write(folder.join("tree.toml"), tree_of("5000")).unwrap();
    fs::write(folder.join("commands.toml"), "[a]\ncommand = ['sleep', '1000']\n").unwrap();
    let mut shell = Command::new("sh");
    shell.args(["-c", "trap '' INT HUP; exec \"$0\" \"$@\"", PROGRAM]);
    let mut daemon = Daemon::start_by(folder, shell, &FLAGS);
    daemon.wait_ready();
    daemon.signal(INT);
    // Of signals that wait the one with the least number comes first.
    daemon.signal(10);
    daemon.wait_for("USR1", |line| line.get("name") == "USR1");
    assert!(daemon.log().iter().all(|line| line.get("name") != "INT"));
    // HUP ends nothing, and is taken.
    daemon.signal(1);
    daemon.wait_for("HUP", |line| line.get("name") == "HUP");
    assert_eq!(daemon.story().len(), 3, "{:?}", daemon.story());
    assert_eq!(daemon.stop(), 0);
}

#[test]
fn what_has_left_its_parent_is_asked_before_it_is_killed() {
    let stray = "trap \"touch {folder}/asked; exit\" TERM; touch {folder}/there; while :; do sleep 0.1; done";
    let folder = new_folder();
    write_program(
        &folder.join("stray"),
        &format!("#!/bin/sh\n{}\n", stray.replace("{folder}", folder.to_str().unwrap())),
    );
    fs::write(folder.join("tree.toml"), tree_of("5000")).unwrap();
    let commands = format!("[a]\ncommand = ['sh', '-c', 'setsid {}/stray & exec sleep 1000']\n", folder.display());
    fs::write(folder.join("commands.toml"), commands).unwrap();
    let mut daemon = Daemon::start_in(folder, &FLAGS);
    wait_until("it is there", || daemon.folder.join("there").exists());
    assert_eq!(daemon.stop(), 0);
    assert!(daemon.folder.join("asked").exists());
    let line = daemon.wait_for("strays", |line| line.get("remark") == "strays");
    assert!(line.number("killed") >= 1, "{line:?}");
    assert_eq!(daemon.left(), []);
}

#[test]
fn members_of_a_group_that_is_killed_are_no_strays() {
    let commands = "[a]\ncommand = ['sh', '-c', 'trap \"\" TERM; for i in $(seq 100); do sleep 1000 & done; echo >&3; wait']\n\
                    ready = 'notify'\n";
    let mut daemon = Daemon::start(&tree_of("\"brutal_kill\""), commands);
    daemon.wait_ready();
    assert_eq!(daemon.stop(), 0);
    assert_eq!(daemon.left(), []);
    assert!(daemon.log().iter().all(|line| line.get("remark") != "strays"), "{}", daemon.read("log"));
}

#[test]
fn as_the_first_of_its_namespace_it_counts_its_own_children_alone() {
    let folder = new_folder();
    fs::write(folder.join("tree.toml"), tree_of("5000")).unwrap();
    fs::write(
        folder.join("commands.toml"),
        "[a]\ncommand = ['sh', '-c', 'setsid sh -c \"echo >&3; exec sleep 1000\" & exec sleep 1000']\nready = 'notify'\n",
    )
    .unwrap();
    // It has /proc of the machine, where others are children of number 1.
    if !Command::new("unshare").args(["--pid", "--fork", "true"]).status().is_ok_and(|status| status.success()) {
        println!("skipped: no namespace of processes can be made");
        return;
    }
    let mut unshare = Command::new("unshare");
    unshare.args(["--pid", "--fork", "--kill-child", PROGRAM]);
    let mut daemon = Daemon::start_by(folder, unshare, &FLAGS);
    daemon.wait_ready();
    let own = fs::read_to_string(format!("/proc/{0}/task/{0}/children", daemon.pid())).unwrap();
    assert!(send(own.trim().parse().unwrap(), TERM));
    assert_eq!(daemon.wait(), 0);
    let line = daemon.wait_for("strays", |line| line.get("remark") == "strays");
    assert_eq!(line.number("killed"), 1, "{line:?}");
    assert!(daemon.log().iter().all(|line| line.get("remark") != "left"), "{}", daemon.read("log"));
    assert_eq!(daemon.left(), []);
}
