//! `otp-procs` while a child takes its time to start: by the rules its supervisor does nothing else. What stands still is told, and
//! a stop waits for no start.

mod common;

use common::daemon::{Daemon, KILL, PROGRAM, TERM, send, wait_until};
use std::process::{Child, Command, Stdio};
use std::thread;
use std::time::Duration;

/// `a` is up at once, and `slow` never tells that it is.
const TREE: &str = "[[child]]\nid = \"a\"\nstart = \"a\"\n[[child]]\nid = \"slow\"\nstart = \"slow\"\nshutdown = {}\n";
const COMMANDS: &str = "[a]\ncommand = ['sleep', '1000']\n\
                        [slow]\ncommand = ['sh', '-c', '{}']\nready = 'notify'\nready_within = 'infinity'\n";

fn daemon_of(shutdown: &str, program: &str) -> Daemon {
    let daemon = Daemon::start(&TREE.replace("{}", shutdown), &COMMANDS.replace("{}", program));
    daemon.wait_for("the second start", |line| line.get("order") == "start" && line.get("path") == "slow");
    daemon
}

fn pid_of(daemon: &Daemon, number: u64) -> i32 {
    let line = daemon.wait_for("start", |line| line.get("order") == "start" && line.number("number") == number);
    line.number("pid") as i32
}

#[test]
fn a_child_that_has_ended_is_shown_so_and_who_asks_for_it_is_told_what_it_waits_for() {
    let mut daemon = daemon_of("5000", "exec sleep 1000");
    assert!(send(pid_of(&daemon, 1), KILL));
    daemon.wait_for("exit", |line| line.get("event") == "exit");
    let (_, text) = daemon.ctl(&["status"]);
    let line = text.lines().find(|line| line.trim_start().starts_with("a ")).unwrap();
    assert!(line.contains("ended, waits") && !line.contains("up") && !line.contains("pid"), "{text}");
    let (_, json) = daemon.ctl(&["status", "--json"]);
    assert!(json.contains("\"id\":\"a\",\"start\":\"a\",\"state\":\"ended\",\"number\":1,\"starts\":1,"), "{json}");
    for word in ["stop", "start"] {
        let mut ctl = ask(&daemon, &[word, "a"]);
        wait_until("it is told", || daemon.read("asked").contains("a waits: slow is starting, for "));
        ctl.kill().unwrap();
        ctl.wait().unwrap();
    }
    assert_eq!(daemon.stop(), 0);
    assert_eq!(daemon.left(), []);
    daemon.replay();
}

/// Asks for this by a process of its own, which writes what it is told to the file `asked`.
fn ask(daemon: &Daemon, words: &[&str]) -> Child {
    let errors = std::fs::File::create(daemon.folder.join("asked")).unwrap();
    let mut ctl = Command::new(PROGRAM);
    ctl.args(["ctl", "--control"]).arg(daemon.folder.join("control")).args(words).stdout(Stdio::null());
    ctl.stderr(errors).spawn().unwrap()
}

#[test]
fn who_asks_for_the_end_is_told_what_that_waits_for() {
    let tree = "[[child]]\nid = \"deaf\"\nstart = \"deaf\"\nshutdown = \"infinity\"\n";
    let commands =
        "[deaf]\ncommand = ['sh', '-c', 'trap \"\" TERM; echo >&3; while :; do sleep 0.1; done']\nready = 'notify'\n";
    let mut daemon = Daemon::start(tree, commands);
    daemon.wait_ready();
    let mut ctl = ask(&daemon, &["shutdown"]);
    wait_until("it is told", || daemon.read("asked").contains("the end waits: deaf was asked to end\n"));
    assert!(send(pid_of(&daemon, 1), KILL));
    assert_eq!(daemon.wait(), 0);
    assert!(ctl.wait().unwrap().success());
}

#[test]
fn a_stop_waits_for_no_start() {
    // By its signal, and by KILL where it doesn't listen to that.
    for (shutdown, program) in [
        ("\"infinity\"", "exec sleep 1000"),
        ("\"brutal_kill\"", "exec sleep 1000"),
        ("100", "trap \"\" TERM; while :; do sleep 0.1; done"),
    ] {
        for by_signal in [true, false] {
            let mut daemon = daemon_of(shutdown, program);
            if by_signal {
                daemon.signal(TERM);
            } else {
                assert_eq!(daemon.ctl(&["shutdown"]), (true, "the tree has ended\n".to_string()));
            }
            assert_eq!(daemon.wait(), 0);
            daemon.wait_for("cut short", |line| line.get("remark") == "cut_short" && line.get("path") == "slow");
            let story = daemon.story();
            let end = ["-> stop", "-> fail slow #2 error:stopped", "ask a #1", "-> exit a #1 shutdown"];
            assert_eq!(story[story.len() - 5..story.len() - 1], end, "{story:?}");
            assert_eq!(daemon.left(), []);
            daemon.replay();
        }
    }
}

#[test]
fn no_other_child_is_started_then() {
    let tree = TREE.replace("{}", "300") + "[[child]]\nid = \"c\"\nstart = \"a\"\n";
    // It is up as soon as it is asked to end.
    let program = "trap \"echo >&3\" TERM; while :; do sleep 0.1; done";
    let mut daemon = Daemon::start(&tree, &COMMANDS.replace("{}", program));
    daemon.wait_for("the second start", |line| line.get("order") == "start" && line.get("path") == "slow");
    thread::sleep(Duration::from_millis(200));
    assert!(send(pid_of(&daemon, 2), TERM));
    daemon.wait_for("up", |line| line.get("event") == "up" && line.get("path") == "c");
    assert_eq!(daemon.stop(), 0);
    let mut daemon = Daemon::start(&tree, &COMMANDS.replace("{}", program));
    daemon.wait_for("the second start", |line| line.get("order") == "start" && line.get("path") == "slow");
    thread::sleep(Duration::from_millis(200));
    assert_eq!(daemon.stop(), 0);
    assert!(daemon.story().iter().all(|line| !line.contains(" c ")), "{:?}", daemon.story());
    assert_eq!(daemon.left(), []);
}

/// A pool whose process is slow from its second start on, with a neighbour that takes a while to end.
const NESTED: &str = "[[child]]\nid = \"pool\"\nstart = \"x\"\n[child.tree]\nintensity = 3\nperiod = 60\n[[child.tree.child]]\nid = \"w\"\nstart = \"w\"\n\
                      [[child]]\nid = \"c\"\nstart = \"c\"\n";
const NESTED_COMMANDS: &str = "[w]\ncommand = ['sh', '-c', '[ $OTP_NUMBER -gt 3 ] || echo >&3; exec sleep 1000']\nready = 'notify'\nready_within = 'infinity'\n\
                               [c]\ncommand = ['sh', '-c', 'trap \"sleep 0.3; exit 0\" TERM; echo >&3; while :; do sleep 0.05; done']\nready = 'notify'\n";

fn nested() -> Daemon {
    let daemon = Daemon::start(NESTED, NESTED_COMMANDS);
    daemon.wait_ready();
    assert!(send(pid_of(&daemon, 2), KILL));
    pid_of(&daemon, 4);
    daemon
}

#[test]
fn each_stops_in_its_turn_and_a_restart_that_is_slow_keeps_none_waiting() {
    let mut daemon = nested();
    assert_eq!(daemon.stop(), 0);
    let story = daemon.story();
    let end = ["-> stop", "ask c #3", "-> exit c #3 normal", "-> fail pool/w #4 error:stopped", "end shutdown"];
    assert_eq!(story[story.len() - 5..], end, "{story:?}");
    assert_eq!(daemon.left(), []);
    daemon.replay();
}

#[test]
fn a_supervisor_that_is_stopped_waits_for_no_start_either() {
    let mut daemon = nested();
    assert_eq!(daemon.ctl(&["stop", "pool"]), (true, "pool: ok\n".to_string()));
    assert!(!daemon.left().contains(&pid_of(&daemon, 4)), "{}", daemon.read("log"));
    // It starts as slowly as before.
    let mut start = ask(&daemon, &["start", "pool"]);
    daemon.wait_for("start", |line| line.get("order") == "start" && line.number("number") == 6);
    thread::sleep(Duration::from_millis(300));
    assert!(
        daemon.log().iter().filter(|line| line.get("remark") == "cut_short").count() == 1,
        "{}",
        daemon.read("log")
    );
    assert_eq!(daemon.stop(), 0);
    start.wait().unwrap();
    assert_eq!(daemon.left(), []);
    daemon.replay();
}
