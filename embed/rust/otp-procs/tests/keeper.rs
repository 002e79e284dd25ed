//! What the daemon starts by calls of its own: one that fails alone, one that waits for others; and readiness that blocks nobody.

mod common;

use common::daemon::{Daemon, Line, PROGRAM, new_folder, send, wait_until};
use std::fs;
use std::process::Command;

fn child(id: &str, more: &str) -> String {
    format!("[[child]]\nid = \"{id}\"\nstart = \"{id}\"\n{more}\n")
}

const STEADY: &str = "command = ['sleep', '1000']\n";
const TRANSIENT: &str = "restart = \"transient\"";

fn starts(daemon: &Daemon, path: &str) -> Vec<Line> {
    daemon.log().into_iter().filter(|line| line.get("order") == "start" && line.get("path") == path).collect()
}

#[test]
fn one_that_crashes_for_ever_takes_nobody_with_it() {
    let tree = [child("a", ""), child("bad", TRANSIENT), child("b", "")].concat();
    let commands = format!("[a]\n{STEADY}[b]\n{STEADY}[bad]\ncommand = ['false']\nrestart_after = ['20ms', '200ms']\n");
    let mut daemon = Daemon::start(&tree, &commands);
    daemon.wait_ready();
    wait_until("it was started often", || starts(&daemon, "bad").len() >= 8);
    let exit = daemon.wait_for("its end", |line| line.get("event") == "exit");
    assert_eq!((exit.get("reason"), exit.get("ended")), ("shutdown:status_1", "status 1"));
    let times: Vec<u64> =
        daemon.log().iter().filter(|line| line.get("remark") == "later").map(|line| line.number("after_ms")).collect();
    assert!(times.windows(2).take(3).all(|two| two[0] < two[1]) && times.iter().all(|time| *time <= 220), "{times:?}");
    let (_, text) = daemon.ctl(&["status"]);
    assert!(text.contains("0 of 1 restarts"), "{text}");
    assert_eq!((starts(&daemon, "a").len(), starts(&daemon, "b").len()), (1, 1));
    // Stopped, it stays so; started, it goes on.
    assert!(daemon.ctl(&["stop", "bad"]).0);
    let count = starts(&daemon, "bad").len();
    std::thread::sleep(std::time::Duration::from_millis(500));
    assert_eq!(starts(&daemon, "bad").len(), count);
    assert!(daemon.ctl(&["wait", "bad", "down"]).0);
    assert!(daemon.ctl(&["start", "bad"]).0);
    wait_until("it goes on", || starts(&daemon, "bad").len() > count + 2);
    assert_eq!(daemon.stop(), 0);
    assert_eq!(daemon.left(), []);
    daemon.replay();
}

#[test]
fn one_whose_program_comes_later_is_left_out_until_then() {
    let tree = [child("late", TRANSIENT), child("a", "")].concat();
    let commands = format!("[a]\n{STEADY}[late]\ncommand = ['{{folder}}/program']\nrestart_after = '50ms'\n");
    let mut daemon = Daemon::start(&tree, &commands);
    daemon.wait_ready();
    assert_eq!(daemon.story()[..2], ["start late #1", "-> ignore late #1"]);
    wait_until("it is shown", || daemon.ctl(&["status"]).1.contains("down, start ") || daemon.log().len() > 100);
    common::daemon::write_program(&daemon.folder.join("program"), "#!/bin/sh\nexec sleep 1000\n");
    assert!(daemon.ctl(&["wait", "late", "up"]).0);
    assert_eq!(daemon.stop(), 0);
    daemon.replay();
}

#[test]
fn one_that_has_failed_often_enough_is_held_or_left_to_the_rules() {
    let tree = [child("bad", TRANSIENT), child("a", "")].concat();
    let commands = |more: &str| {
        format!("[a]\n{STEADY}[bad]\ncommand = ['false']\nrestart_after = ['10ms', '10s']\ngive_up_after = 3\n{more}")
    };
    let mut daemon = Daemon::start(&tree, &commands("on_give_up = 'hold'\n"));
    daemon.wait_for("held", |line| line.get("remark") == "held");
    assert_eq!(starts(&daemon, "bad").len(), 4);
    assert!(daemon.ctl(&["status"]).1.contains("held, after 4 ends in a row"));
    assert!(daemon.ctl(&["status", "--json"]).1.contains("\"held\":true"));
    assert!(daemon.ctl(&["wait", "bad", "down"]).0);
    assert!(daemon.ctl(&["start", "bad"]).0);
    wait_until("it is held again", || starts(&daemon, "bad").len() == 8);
    assert_eq!(daemon.stop(), 0);
    daemon.replay();
    // Its supervisor bears one restart, by default.
    let mut daemon = Daemon::start(&tree, &commands("on_give_up = 'escalate'\n"));
    assert_eq!(daemon.wait(), 3);
    daemon.replay();
}

#[test]
fn a_normal_end_is_the_last_unless_it_is_always_restarted() {
    let tree = [child("once", TRANSIENT), child("always", TRANSIENT)].concat();
    let commands = "[once]\ncommand = ['true']\nrestart_after = '10ms'\n[always]\ncommand = ['true']\nrestart_after = '10ms'\nrestart_always = true\n";
    let mut daemon = Daemon::start(&tree, commands);
    wait_until("one is restarted", || starts(&daemon, "always").len() >= 5);
    assert_eq!(starts(&daemon, "once").len(), 1);
    assert_eq!(daemon.stop(), 0);
    daemon.replay();
}

#[test]
fn one_that_is_never_restarted_is_held_at_once_and_some_statuses_are_normal() {
    let tree = [child("once", TRANSIENT), child("fine", TRANSIENT), child("a", "")].concat();
    let commands = format!(
        "[a]\n{STEADY}[once]\ncommand = ['false']\nrestart_after = '10ms'\ngive_up_after = 0\n\
         [fine]\ncommand = ['sh', '-c', 'exit 143']\nnormal_status = ['2', '143']\n"
    );
    let mut daemon = Daemon::start(&tree, &commands);
    daemon.wait_for("held", |line| line.get("remark") == "held");
    let exit = daemon.wait_for("its end", |line| line.get("event") == "exit" && line.get("path") == "fine");
    assert_eq!((exit.get("reason"), exit.get("ended")), ("normal", "status 143"));
    let (_, text) = daemon.ctl(&["status"]);
    assert!(text.contains("held, after 1 ends in a row") && text.contains("0 of 1 restarts"), "{text}");
    assert!(daemon.ctl(&["start", "once"]).0);
    wait_until("it was started again", || starts(&daemon, "once").len() == 2);
    assert_eq!((starts(&daemon, "fine").len(), daemon.stop()), (1, 0));
    daemon.replay();
}

#[test]
fn one_that_clients_start_is_left_alone_until_then() {
    let tree = [
        "strategy = \"one_for_all\"\nintensity = 9\n".to_string(),
        child("job", TRANSIENT),
        child("b", ""),
        child("a", ""),
    ];
    let commands = format!("[a]\n{STEADY}[job]\n{STEADY}autostart = false\n[b]\n{STEADY}after = ['job']\n");
    let mut daemon = Daemon::start(&tree.concat(), &commands);
    daemon.wait_ready();
    let (_, text) = daemon.ctl(&["status"]);
    assert!(text.contains("down, ctl start starts it") && text.contains("waits for job"), "{text}");
    assert!(daemon.ctl(&["status", "--json"]).1.contains("\"autostart\":false"));
    let crash = |path: &str| {
        let count = starts(&daemon, path).len();
        send(starts(&daemon, path).last().unwrap().number("pid") as i32, 9);
        wait_until("it is started again", || {
            starts(&daemon, path).len() > count && daemon.ctl(&["wait", path, "up"]).0
        });
    };
    // Who starts it anew with the others starts it as little.
    crash("a");
    assert!(daemon.ctl(&["status", "job"]).1.contains("down, ctl start starts it"));
    assert!(daemon.ctl(&["start", "job"]).0 && daemon.ctl(&["wait", "b", "up"]).0);
    crash("job");
    crash("a");
    assert!(daemon.ctl(&["wait", "job", "up"]).0);
    assert!(daemon.ctl(&["reexec"]).0);
    crash("job");
    assert!(daemon.ctl(&["stop", "job"]).0);
    crash("a");
    assert!(daemon.ctl(&["status", "job"]).1.contains("down, ctl start starts it"));
    // The files are read anew: one that is new isn't started either, and one that clients have to start no more is.
    let more = [tree.concat(), child("new", TRANSIENT)].concat();
    fs::write(daemon.folder.join("tree.toml"), more).unwrap();
    fs::write(
        daemon.folder.join("commands.toml"),
        format!("[a]\n{STEADY}[job]\n{STEADY}[b]\n{STEADY}[new]\n{STEADY}autostart = false\n"),
    )
    .unwrap();
    let (is_done, text) = daemon.ctl(&["reload"]);
    let wanted = "now     job: autostart\nnow     b: after\nlater   new: new, and ctl start starts it\nstart   job\n";
    assert!(is_done && text == wanted, "{text}");
    assert!(daemon.ctl(&["status", "job"]).0 && daemon.ctl(&["start", "new"]).0);
    assert_eq!(daemon.stop(), 0);
    assert_eq!(daemon.left(), []);
    daemon.replay();
}

#[test]
fn a_slow_one_blocks_nobody_but_those_who_wait_for_it() {
    let folder = new_folder();
    assert!(Command::new("mkfifo").arg(folder.join("fifo")).status().unwrap().success());
    let tree = [child("c", ""), child("b", ""), child("db", ""), child("a", "")].concat();
    let commands = format!(
        "[a]\n{STEADY}[b]\n{STEADY}after = ['db']\n[c]\n{STEADY}after = ['b']\n\
         [db]\ncommand = ['sh', '-c', 'read x < fifo; echo >&3; exec sleep 1000']\nready = 'notify'\nready_blocks = false\n"
    );
    fs::write(folder.join("tree.toml"), tree).unwrap();
    fs::write(folder.join("commands.toml"), commands).unwrap();
    let mut daemon = Daemon::start_in(folder, &["--json", "--log", "log", "--control", "control"]);
    daemon.wait_ready();
    let ups: Vec<String> = daemon.story().into_iter().filter(|line| line.starts_with("-> up")).collect();
    assert_eq!(ups, ["-> up db #3", "-> up a #4"]);
    let (_, text) = daemon.ctl(&["status"]);
    assert!(text.contains("not ready") && text.contains("waits for db") && text.contains("waits for b"), "{text}");
    assert!(daemon.ctl(&["wait", "db", "up"]).0);
    let (is_ready, _) = daemon.ctl(&["wait", "db", "ready", "--within", "200ms"]);
    assert!(!is_ready);
    fs::write(daemon.folder.join("fifo"), "x\n").unwrap();
    assert!(daemon.ctl(&["wait", "*", "ready"]).0);
    let order: Vec<String> = daemon.story().into_iter().filter(|line| line.starts_with("-> restart_child")).collect();
    assert_eq!(order, ["-> restart_child b", "-> restart_child c"]);
    // One that crashes is restarted, and whoever waits for it is left alone.
    let pid = starts(&daemon, "b").last().unwrap().number("pid");
    send(pid as i32, 9);
    wait_until("it is restarted", || starts(&daemon, "b").len() == 3);
    assert_eq!(daemon.stop(), 0);
    daemon.replay();
}

#[test]
fn one_that_is_not_ready_in_time_has_crashed_and_a_stop_waits_for_none() {
    let commands = "[a]\ncommand = ['sleep', '1000']\nready = 'notify'\nready_blocks = false\nready_within = 300\n";
    let mut daemon = Daemon::start(&child("a", ""), commands);
    let exit = daemon.wait_for("its end", |line| line.get("event") == "exit");
    assert_eq!(exit.get("reason"), "error:not_ready_in_time");
    assert_eq!(daemon.wait(), 3);
    let mut daemon = Daemon::start(&child("a", ""), &commands.replace("300", "'infinity'"));
    daemon.wait_ready();
    assert_eq!(daemon.stop(), 0);
}

#[test]
fn what_does_not_go_together_is_refused_with_its_line() {
    let folder = new_folder();
    let plain = format!("[a]\n{STEADY}[b]\n{STEADY}");
    for (a, b, tree_a, wanted) in [
        ("restart_after = '1s'\n", "", "", "c:3: [a] restart_after: child a is permanent"),
        (
            "restart_after = '1s'\n",
            "",
            "restart = \"transient\"\nsignificant = true",
            "c:3: [a] restart_after: child a is significant",
        ),
        ("after = ['x']\n", "", "", "c:3: [a] after: there is no child x"),
        ("after = ['a']\n", "", "", "c:3: [a] after: child a would wait for itself"),
        ("after = ['b']\n", "after = ['/a']\n", "", "would wait for itself, by b"),
        ("after = ['b']\n", "", "restart = \"temporary\"", "c:3: [a] after: child a is temporary"),
        ("autostart = false\n", "", "restart = \"temporary\"", "c:3: [a] autostart: child a is temporary"),
    ] {
        let auto = if tree_a.contains("significant") { "auto_shutdown = \"any_significant\"\n" } else { "" };
        fs::write(folder.join("t"), format!("{auto}{}{}", child("a", tree_a), child("b", ""))).unwrap();
        fs::write(folder.join("c"), plain.replacen(STEADY, &format!("{STEADY}{a}"), 1) + b).unwrap();
        let output = Command::new(PROGRAM).args(["check", "t", "c"]).current_dir(&folder).output().unwrap();
        let told = String::from_utf8(output.stderr).unwrap();
        assert!(output.status.code() == Some(1) && told.contains(wanted), "{told}\n{wanted}");
    }
    fs::remove_dir_all(&folder).unwrap();
}
