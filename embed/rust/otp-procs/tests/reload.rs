//! `ctl reload`: what each kind of change does, that a refused reload changes nothing, and what is said of both.

mod common;

use common::daemon::{Daemon, HUP, KILL, PATIENCE, PROGRAM, new_folder, send, wait_until, write_program};
use std::collections::{BTreeMap, BTreeSet};
use std::fs;
use std::os::unix::net::UnixDatagram;
use std::process::Command;

const COMMANDS: &str = "[s]\ncommand = ['sleep', '1000']\n[t]\ncommand = ['sleep', '1000']\n";

fn child(id: &str, more: &str) -> String {
    format!("[[child]]\nid = \"{id}\"\nstart = \"s\"\n{more}\n")
}

fn pool(id: &str, flags: &str, ids: &[&str]) -> String {
    let below: String = ids.iter().map(|id| format!("[[child.tree.child]]\nid = \"{id}\"\nstart = \"s\"\n")).collect();
    format!("[[child]]\nid = \"{id}\"\nstart = \"s\"\n[child.tree]\n{flags}\n{below}")
}

fn write(daemon: &Daemon, tree: &str) {
    fs::write(daemon.folder.join("tree.toml"), tree).unwrap();
}

fn write_commands(daemon: &Daemon, commands: &str) {
    fs::write(daemon.folder.join("commands.toml"), commands).unwrap();
}

/// The lines of `ctl status`, and the processes by the paths of their children.
fn status(daemon: &Daemon) -> (String, BTreeMap<String, i32>) {
    let (is_done, text) = daemon.ctl(&["status"]);
    assert!(is_done, "{text}");
    let (mut pids, mut above) = (BTreeMap::new(), Vec::<&str>::new());
    for line in text.lines().skip(1) {
        let level = (line.len() - line.trim_start().len()) / 2;
        let words: Vec<&str> = line.split_whitespace().collect();
        above.truncate(level - 1);
        let path = format!("{}{}", above.concat(), words[0]);
        if words[0].ends_with('/') {
            above.push(words[0]);
        }
        if let Some(at) = words.iter().position(|word| *word == "pid") {
            pids.insert(path, words[at + 1].parse().unwrap());
        }
    }
    (text, pids)
}

/// A dry run tells what a reload then does, to the byte; what it answers.
fn reload(daemon: &Daemon, words: &[&str]) -> String {
    let before = status(daemon).1;
    let (is_done, dry) = daemon.ctl(&[&["reload", "--dry-run"], words].concat());
    assert!(is_done, "{dry}");
    assert_eq!(status(daemon).1, before, "a dry run changes nothing");
    let (is_done, text) = daemon.ctl(&[&["reload"], words].concat());
    assert!(is_done, "{text}");
    assert_eq!(dry, text);
    text
}

/// Stops the daemon; its log, over all reloads, is that of the rules, and nothing is left running.
fn end(mut daemon: Daemon) {
    assert_eq!(daemon.stop(), 0);
    assert_eq!(daemon.left(), []);
    daemon.replay();
}

#[test]
fn what_comes_is_started_what_goes_is_stopped_and_the_rest_runs_on() {
    let daemon = Daemon::start(&[child("a", ""), child("b", ""), pool("p", "", &["x", "y"])].concat(), COMMANDS);
    daemon.wait_ready();
    let before = status(&daemon).1;
    write(&daemon, &[child("n", ""), child("b", ""), pool("p", "", &["y", "z"]), pool("q", "", &["x"])].concat());
    let text = reload(&daemon, &[]);
    assert_eq!(text, "stop    p/x\nstop    a\nstart   n\nstart   p/z\nstart   q\n");
    let after = status(&daemon).1;
    let paths: Vec<&str> = after.keys().map(String::as_str).collect();
    assert_eq!(paths, ["b", "n", "p/y", "p/z", "q/x"]);
    assert_eq!((after["b"], after["p/y"]), (before["b"], before["p/y"]));
    assert_eq!(reload(&daemon, &[]), "nothing changes\n");
    // The new ones are as the old ones are: a crash is followed by a restart.
    send(after["q/x"], KILL);
    wait_until("it is restarted", || status(&daemon).1.get("q/x").is_some_and(|pid| *pid != after["q/x"]));
    // A nested one that goes is stopped as a whole.
    write(&daemon, &child("b", ""));
    assert_eq!(reload(&daemon, &[]), "stop    q\nstop    p\nstop    n\n");
    assert_eq!(status(&daemon).1, BTreeMap::from([("b".to_string(), before["b"])]));
    end(daemon);
}

#[test]
fn flags_order_and_specifications_count_at_once() {
    let tree = format!(
        "intensity = 1\nperiod = 60\n{}{}{}",
        child("a", ""),
        child("b", ""),
        pool("p", "intensity = 1", &["x"])
    );
    let daemon = Daemon::start(&tree, COMMANDS);
    daemon.wait_ready();
    let before = status(&daemon).1;
    let spec = "restart = \"transient\"\nshutdown = 1234\nmodules = [\"m\"]";
    write(
        &daemon,
        &format!(
            "strategy = \"rest_for_one\"\nintensity = 7\nperiod = 60\n{}{}{}",
            child("b", spec),
            child("a", ""),
            pool("p", "intensity = 9", &["x"])
        ),
    );
    let text = reload(&daemon, &[]);
    let wanted = "now     /: strategy one_for_one -> rest_for_one, intensity 1 -> 7, order of its children\n\
                  now     b: restart permanent -> transient, shutdown 5000 -> 1234, modules s -> m\n\
                  now     p/: intensity 1 -> 9\n";
    assert_eq!(text, wanted);
    let (text, after) = status(&daemon);
    assert_eq!(before, after);
    assert!(text.starts_with("rest_for_one  0 of 7 restarts in 60 s") && text.contains("0 of 9 restarts"), "{text}");
    let places = ["  b ", "  a ", "  p/"].map(|name| text.find(name).unwrap());
    assert!(places.is_sorted(), "{text}");
    // It is transient now, so that its end by status 0 or a shutdown is no crash; and it has its new time to end.
    assert!(daemon.ctl(&["stop", "b"]).0);
    let ask = daemon.wait_for("ask", |line| line.get("order") == "ask" && line.get("path") == "b");
    assert_eq!(ask.number("within_ms"), 1234);
    end(daemon);
}

#[test]
fn another_command_counts_at_the_next_start_or_by_a_restart() {
    let daemon = Daemon::start(&[child("a", ""), "[[child]]\nid = 'b'\nstart = 't'\n".to_string()].concat(), COMMANDS);
    daemon.wait_ready();
    let before = status(&daemon).1;
    write_commands(&daemon, &COMMANDS.replacen("'1000'", "'1001'", 1).replacen("[s]\n", "[s]\nenv = ['X=1']\n", 1));
    let log = daemon.log().len();
    assert_eq!(reload(&daemon, &[]), "later   a: command, env\n");
    assert_eq!(status(&daemon).1, before);
    // The tree is the same one, so that its counts and numbers go on.
    assert!(!daemon.log()[log..].iter().any(|line| line.get("event") == "change"));
    assert!(status(&daemon).0.contains("runs older commands"), "{}", status(&daemon).0);
    let (_, json) = daemon.ctl(&["status", "--json"]);
    assert_eq!(json.matches("\"changed\":true").count(), 1, "{json}");
    let command = |pid: i32| fs::read(format!("/proc/{pid}/cmdline")).unwrap();
    assert_eq!(command(before["a"]), b"sleep\x001000\0");
    // Once more, though the files are the same: what runs is older.
    assert_eq!(reload(&daemon, &["--restart"]), "restart a: command, env\n");
    let after = status(&daemon).1;
    assert!(after["a"] != before["a"] && after["b"] == before["b"]);
    assert_eq!(command(after["a"]), b"sleep\x001001\0");
    assert_eq!(reload(&daemon, &["--restart"]), "nothing changes\n");
    // By a crash: the next start.
    write_commands(
        &daemon,
        &COMMANDS.replacen("[t]\ncommand = ['sleep', '1000']", "[t]\ncommand = ['sleep', '1002']", 1),
    );
    assert_eq!(reload(&daemon, &[]), "later   a: command, env\nlater   b: command\n");
    send(after["b"], KILL);
    wait_until("it is restarted", || status(&daemon).1.get("b").is_some_and(|pid| *pid != after["b"]));
    assert!(daemon.ctl(&["wait", "b", "up"]).0);
    assert_eq!(command(status(&daemon).1["b"]), b"sleep\x001002\0");
    end(daemon);
}

/// What runs is what the newest files say, though those between said something else: no process is touched, and the newest count.
#[test]
fn files_that_say_again_what_runs_are_taken() {
    let daemon = Daemon::start(&[child("a", ""), child("b", "")].concat(), COMMANDS);
    daemon.wait_ready();
    let before = status(&daemon).1;
    let other = COMMANDS.replacen("1000", "2000", 1);
    write_commands(&daemon, &other);
    assert_eq!(reload(&daemon, &[]), "later   a: command\nlater   b: command\n");
    write_commands(&daemon, COMMANDS);
    assert_eq!(reload(&daemon, &["--restart"]), "nothing changes\n");
    let (text, after) = status(&daemon);
    assert!(after == before && !text.contains("older commands"), "{text}");
    send(after["a"], KILL);
    wait_until("it is restarted", || status(&daemon).1.get("a").is_some_and(|pid| *pid != after["a"]));
    let words = fs::read_to_string(format!("/proc/{}/cmdline", status(&daemon).1["a"])).unwrap();
    assert!(words.contains("1000"), "{words}");
    // A table that nobody runs is one of the daemon's, too: a dry run tells nothing, and a new program reads it.
    write_commands(&daemon, &format!("{COMMANDS}[later]\ncommand = ['sleep', '3']\n"));
    assert_eq!(reload(&daemon, &[]), "nothing changes\n");
    end(daemon);
}

#[test]
fn what_changes_its_kind_is_stopped_and_started() {
    let simple = |id: &str| pool(id, "strategy = \"simple_one_for_one\"", &["w"]);
    let daemon =
        Daemon::start(&[child("a", ""), simple("d"), pool("p", "", &["x"]), child("z", "")].concat(), COMMANDS);
    daemon.wait_ready();
    assert!(daemon.ctl(&["start", "d/"]).0 && daemon.ctl(&["start", "d/"]).0);
    let before = status(&daemon).1;
    write(&daemon, &[pool("a", "", &["x"]), simple("d"), simple("p"), child("z", "")].concat());
    let text = reload(&daemon, &[]);
    assert_eq!(text, "restart p: it is simple_one_for_one now\nrestart a: it has a tree now\n");
    let after = status(&daemon).1;
    let of_d = |pids: &BTreeMap<String, i32>| -> Vec<i32> {
        pids.iter().filter(|(path, _)| path.starts_with("d/")).map(|(_, pid)| *pid).collect()
    };
    assert_eq!((after["z"], of_d(&after)), (before["z"], of_d(&before)));
    assert!(after.contains_key("a/x") && !after.contains_key("p/x"));
    // The processes that share a specification are restarted as others are.
    write_commands(&daemon, &COMMANDS.replace("1000", "1001"));
    let text = reload(&daemon, &["--restart"]);
    assert!(text.contains("restart d/: command (2 of it)\n"), "{text}");
    let last = status(&daemon).1;
    assert!(of_d(&last).len() == 2 && of_d(&last).iter().all(|pid| !of_d(&after).contains(pid)));
    end(daemon);
}

#[test]
fn the_processes_of_a_root_that_shares_one_specification_run_on() {
    let tree = |more: &str| format!("strategy = \"simple_one_for_one\"\n{more}{}", child("w", ""));
    let daemon = Daemon::start(&tree(""), COMMANDS);
    daemon.wait_ready();
    for _ in 0..3 {
        assert!(daemon.ctl(&["start", "/"]).0);
    }
    assert!(daemon.ctl(&["stop", "#2"]).0);
    assert!(daemon.ctl(&["start", "#1"]).1.contains("start / starts one more"));
    let before = status(&daemon).1;
    assert_eq!(before.len(), 2);
    write(&daemon, &tree("intensity = 5\nperiod = 3600\n"));
    assert_eq!(reload(&daemon, &[]), "now     /: intensity 1 -> 5, period 5 -> 3600\n");
    assert_eq!(status(&daemon).1, before);
    // Over a new program their restarts go on, too.
    for count in 1..=3 {
        let pids: BTreeSet<i32> = status(&daemon).1.into_values().collect();
        send(*pids.first().unwrap(), KILL);
        wait_until("it is restarted", || {
            let now: BTreeSet<i32> = status(&daemon).1.into_values().collect();
            now.len() == 2 && now != pids
        });
        let running: BTreeSet<i32> = status(&daemon).1.into_values().collect();
        let (is_done, text) = daemon.ctl(&["reexec"]);
        assert!(is_done, "{text}");
        assert_eq!(restarts(&daemon, ""), format!("{count} of 5"));
        assert_eq!(status(&daemon).1.into_values().collect::<BTreeSet<i32>>(), running);
    }
    end(daemon);
}

#[test]
fn what_is_down_stays_down() {
    let tree = |more: &str| {
        [
            format!("intensity = {more}\nperiod = 60\n"),
            child("by_hand", ""),
            "[[child]]\nid = 'over'\nstart = 'over'\nrestart = \"transient\"\n".to_string(),
            "[[child]]\nid = 'gone'\nstart = 'over'\nrestart = \"temporary\"\n".to_string(),
            pool("p", "", &["x"]),
            child("a", ""),
        ]
        .concat()
    };
    let commands = format!("{COMMANDS}[over]\ncommand = ['true']\n");
    let daemon = Daemon::start(&tree("1"), &commands);
    daemon.wait_ready();
    for path in ["over", "gone"] {
        daemon.wait_for("its end", |line| line.get("event") == "exit" && line.get("path") == path);
    }
    assert!(daemon.ctl(&["stop", "by_hand"]).0 && daemon.ctl(&["stop", "p"]).0);
    let before = status(&daemon).1;
    write(&daemon, &tree("5"));
    write_commands(&daemon, &commands.replace("'true'", "'true', 'x'"));
    let text = reload(&daemon, &[]);
    let wanted =
        "now     /: intensity 1 -> 5\nlater   over: command (it is down)\nlater   gone: command (it is down)\n";
    assert_eq!(text, wanted);
    let (text, after) = status(&daemon);
    assert_eq!(before, after);
    assert!(!text.contains("gone") && text.contains("down"), "{text}");
    assert!(daemon.ctl(&["start", "by_hand"]).0 && daemon.ctl(&["start", "p"]).0);
    assert!(daemon.ctl(&["wait", "p/x", "up"]).0);
    end(daemon);
}

#[test]
fn a_new_temporary_child_is_started_as_others_are() {
    let daemon = Daemon::start(&child("a", ""), COMMANDS);
    daemon.wait_ready();
    let before = status(&daemon).1;
    let job = "[[child]]\nid = 'job'\nstart = 'job'\nrestart = \"temporary\"\n";
    let bad = "[[child]]\nid = 'bad'\nstart = 'bad'\nrestart = \"temporary\"\n";
    write(&daemon, &[child("n", "").as_str(), job, &child("a", "")].concat());
    let more = "[job]\ncommand = ['sh', '-c', 'echo >&3; exec sleep 1000']\nready = 'notify'\n[bad]\ncommand = ['false']\n\
                ready = 'after'\nready_after = 60000\n";
    write_commands(&daemon, &format!("{COMMANDS}{more}"));
    assert_eq!(reload(&daemon, &[]), "start   n\nstart   job\n");
    let after = status(&daemon).1;
    assert!(after["a"] == before["a"] && after.contains_key("n") && after.contains_key("job"), "{after:?}");
    // One that doesn't start is told of, and stays down until the next reload.
    write(&daemon, &[bad, job, &child("a", "")].concat());
    let (is_done, text) = daemon.ctl(&["reload"]);
    let wanted = "stop    n\nstart   bad\nfailed  bad: the start failed: error:status_1\n";
    assert!(!is_done && text.ends_with(wanted), "{text}");
    assert_eq!(status(&daemon).1["job"], after["job"]);
    // With other commands it is stopped, forgotten by the rules, and there again.
    write(&daemon, &[job, &child("a", "")].concat());
    write_commands(&daemon, &format!("{COMMANDS}{}", more.replace("1000", "1001")));
    assert_eq!(reload(&daemon, &["--restart"]), "restart job: command\nforget  bad\n");
    let last = status(&daemon).1;
    assert!(last["job"] != after["job"] && last["a"] == before["a"] && last.len() == 2, "{last:?}");
    end(daemon);
}

/// What `status` says of the restarts of a supervisor, as `2 of 5`.
fn restarts(daemon: &Daemon, path: &str) -> String {
    let text = status(daemon).0;
    let line = text
        .lines()
        .find(|line| if path.is_empty() { !line.starts_with(' ') } else { line.trim_start().starts_with(path) });
    let words: Vec<&str> = line.unwrap().split_whitespace().collect();
    let at = words.iter().position(|word| *word == "restarts").unwrap();
    words[at - 3..at].join(" ")
}

#[test]
fn restarts_and_numbers_go_on() {
    let tree = |intensity: u64, of_pool: u64, more: &str| {
        let pool = pool("p", &format!("intensity = {of_pool}\nperiod = 3600"), &["x", "y"]);
        format!("intensity = {intensity}\nperiod = 3600\n{}{pool}{more}", child("a", ""))
    };
    let daemon = Daemon::start(&tree(5, 5, ""), COMMANDS);
    daemon.wait_ready();
    let crash = |path: &str| {
        let pid = status(&daemon).1[path];
        send(pid, KILL);
        wait_until("it is restarted", || status(&daemon).1.get(path).is_some_and(|other| *other != pid));
    };
    let number = |path: &str| {
        let line = status(&daemon).0.lines().find(|line| line.trim_start().starts_with(path)).unwrap().to_string();
        line.split_whitespace().find_map(|word| word.strip_prefix('#')).unwrap().parse::<u64>().unwrap()
    };
    for path in ["a", "a", "a", "p/x", "p/x"] {
        crash(path);
    }
    assert_eq!((restarts(&daemon, "").as_str(), restarts(&daemon, "p/").as_str()), ("3 of 5", "2 of 5"));
    let (before, of_a) = (status(&daemon).1, number("a "));
    write(&daemon, &tree(7, 5, &child("n", "")));
    assert_eq!(reload(&daemon, &[]), "now     /: intensity 5 -> 7\nstart   n\n");
    assert_eq!((restarts(&daemon, "").as_str(), restarts(&daemon, "p/").as_str()), ("3 of 7", "2 of 5"));
    assert_eq!((number("a "), status(&daemon).1["a"]), (of_a, before["a"]));
    // Each number is given once, so the new one has the next.
    let last = status(&daemon).0.matches('#').count() as u64;
    assert!(number("n ") > of_a && number("n ") >= last);
    // A lowered intensity ends nothing: so many of the last restarts count on. One more is too many.
    write(&daemon, &tree(2, 1, &child("n", "")));
    assert_eq!(reload(&daemon, &[]), "now     /: intensity 7 -> 2\nnow     p/: intensity 5 -> 1\n");
    assert_eq!((restarts(&daemon, "").as_str(), restarts(&daemon, "p/").as_str()), ("2 of 2", "1 of 1"));
    assert_eq!(status(&daemon).1["a"], before["a"]);
    write(&daemon, &tree(9, 1, ""));
    assert_eq!(reload(&daemon, &[]), "stop    n\nnow     /: intensity 2 -> 9\n");
    crash("p/x");
    assert_eq!(restarts(&daemon, "p/"), "0 of 1");
    assert_eq!(restarts(&daemon, ""), "3 of 9");
    // So they do over a new program, also by the times that the files of now leave.
    assert!(daemon.ctl(&["reexec"]).0);
    assert_eq!((restarts(&daemon, "").as_str(), restarts(&daemon, "p/").as_str()), ("3 of 9", "0 of 1"));
    crash("a");
    write(&daemon, &tree(8, 1, ""));
    assert_eq!(reload(&daemon, &[]), "now     /: intensity 9 -> 8\n");
    assert!(daemon.ctl(&["reexec"]).0);
    assert_eq!(restarts(&daemon, ""), "4 of 8");
    end(daemon);
}

#[test]
fn a_new_supervisor_is_started_as_a_whole_and_tried_again() {
    let daemon = Daemon::start(&child("a", ""), COMMANDS);
    daemon.wait_ready();
    write_program(&daemon.folder.join("program"), "#!/bin/sh\nexit 3\n");
    let commands = format!("{COMMANDS}[new]\ncommand = ['{}/program']\nready = 'notify'\n", daemon.folder.display());
    let new = "[[child]]\nid = 'p'\nstart = 's'\n[child.tree]\n[[child.tree.child]]\nid = 'x'\nstart = 's'\n\
               [[child.tree.child]]\nid = 'y'\nstart = 'new'\n";
    write(&daemon, &[new.to_string(), child("a", "")].concat());
    write_commands(&daemon, &commands);
    let (is_done, text) = daemon.ctl(&["reload"]);
    assert!(!is_done && text.contains("start   p\nfailed  p: the start failed: "), "{text}");
    assert_eq!(status(&daemon).1.keys().collect::<Vec<_>>(), ["a"]);
    // Nothing below it may be missing on this machine.
    write_commands(&daemon, &commands.replace("/program", "/none"));
    let (is_done, text) = daemon.ctl(&["reload"]);
    assert!(!is_done && text.contains("nothing is changed: ") && text.contains("[new] there is no program"), "{text}");
    write_program(&daemon.folder.join("program"), "#!/bin/sh\necho >&3\nexec sleep 1000\n");
    write_commands(&daemon, &commands);
    assert_eq!(reload(&daemon, &[]), "start   p\n");
    assert_eq!(status(&daemon).1.keys().collect::<Vec<_>>(), ["a", "p/x", "p/y"]);
    assert_eq!(reload(&daemon, &[]), "nothing changes\n");
    end(daemon);
}

#[test]
fn one_that_fails_alone_is_tried_at_once_with_what_is_new() {
    let tree = [child("a", ""), "[[child]]\nid = 'bad'\nstart = 'bad'\nrestart = \"transient\"\n".to_string()].concat();
    let commands = |more: &str| format!("{COMMANDS}[bad]\n{more}\n");
    let held = commands("command = ['false']\nrestart_after = '10ms'\ngive_up_after = 1");
    let daemon = Daemon::start(&tree, &held);
    daemon.wait_ready();
    daemon.wait_for("held", |line| line.get("remark") == "held");
    assert_eq!(reload(&daemon, &[]), "nothing changes\n");
    // Another tree, too: it is held in that as well.
    write(&daemon, &format!("intensity = 3\n{tree}"));
    assert_eq!(reload(&daemon, &[]), "now     /: intensity 1 -> 3\n");
    assert!(status(&daemon).0.contains("held, after"), "{}", status(&daemon).0);
    write_commands(&daemon, &commands("command = ['sleep', '1000']\nrestart_after = '10ms'"));
    assert_eq!(reload(&daemon, &[]), "now     bad: give_up_after\nstart   bad: command\n");
    assert!(status(&daemon).1.contains_key("bad"));
    end(daemon);
}

#[test]
fn who_waits_for_others_goes_on_to_wait() {
    let tree =
        |ids: &[&str]| -> String { ids.iter().map(|id| format!("[[child]]\nid = '{id}'\nstart = '{id}'\n")).collect() };
    let commands = "[db]\ncommand = ['sh', '-c', 'read x < {folder}/fifo; echo >&3; exec sleep 1000']\nready = 'notify'\n\
                    ready_blocks = false\nready_within = 'infinity'\n[web]\ncommand = ['sleep', '1000']\nafter = ['db']\n\
                    [new]\ncommand = ['sleep', '1000']\nafter = ['web']\n";
    let folder = new_folder();
    let fifo = folder.join("fifo");
    assert!(Command::new("mkfifo").arg(&fifo).status().unwrap().success());
    fs::write(folder.join("tree.toml"), tree(&["db", "web"])).unwrap();
    fs::write(folder.join("commands.toml"), commands.replace("{folder}", folder.to_str().unwrap())).unwrap();
    let daemon = Daemon::start_in(folder, &["--json", "--log", "log", "--control", "control"]);
    daemon.wait_ready();
    write(&daemon, &tree(&["new", "db", "web"]));
    assert_eq!(reload(&daemon, &[]), "start   new\n");
    let (text, _) = status(&daemon);
    assert!(text.contains("waits for web") && text.contains("waits for db"), "{text}");
    let pid = status(&daemon).1["db"];
    fs::write(&fifo, "x\n").unwrap();
    for path in ["db", "web", "new"] {
        assert!(daemon.ctl(&["wait", path, "ready"]).0);
    }
    assert_eq!(status(&daemon).1["db"], pid);
    end(daemon);
}

#[test]
fn a_refused_reload_changes_nothing() {
    let daemon = Daemon::start_by(
        {
            let folder = new_folder();
            fs::write(folder.join("tree.toml"), child("a", "")).unwrap();
            fs::write(folder.join("commands.toml"), COMMANDS).unwrap();
            folder
        },
        Command::new(PROGRAM),
        &["--json", "--log", "log", "--control", "control", "--main", "a"],
    );
    daemon.wait_ready();
    let (before, lines) = (status(&daemon).1, daemon.story());
    let (tree, a) = (child("a", ""), child("a", ""));
    for (tree, commands, wanted) in [
        (format!("{a}nonsense = 1\n"), COMMANDS.to_string(), "tree.toml:5: "),
        (format!("{a}{}", child("a", "")), COMMANDS.to_string(), "tree.toml:6: child a, id"),
        (tree.clone(), format!("{COMMANDS}nonsense = 1\n"), "commands.toml:5: [t] nonsense"),
        (tree.clone(), format!("{COMMANDS}restart_after = '1s'\n"), ""),
        (tree.clone(), COMMANDS.replace("[s]", "[other]"), "commands.toml has no table for s"),
        (
            format!("{a}{}", child("b", "")).replace("\"b\"\nstart = \"s\"", "\"b\"\nstart = \"x\""),
            format!("{COMMANDS}[x]\ncommand = ['/no/such/program']\n"),
            "commands.toml:5: [x] there is no program /no/such",
        ),
        (tree.clone(), format!("{COMMANDS}user = 'nobody-of-that-name'\n"), "commands.toml:5: [t] user"),
        (child("b", ""), COMMANDS.to_string(), "--main a: there is no such child"),
        (format!("strategy = \"simple_one_for_one\"\n{a}"), COMMANDS.to_string(), ""),
        (format!("include = ['no-such-file']\n{a}"), COMMANDS.to_string(), "no-such-file"),
    ] {
        write(&daemon, &tree);
        write_commands(&daemon, &commands);
        let (is_done, text) = daemon.ctl(&["reload"]);
        if wanted.is_empty() && is_done {
            continue;
        }
        assert!(!is_done && text.contains(wanted) && text.contains("nothing is changed: "), "{text}\n{wanted}");
        assert!(!daemon.ctl(&["reload", "--dry-run"]).0);
        assert_eq!(status(&daemon).1, before);
        assert_eq!(daemon.story(), lines);
    }
    for words in [&["reload", "now"][..], &["reload", "--within", "x"], &["reload", "--files", "x"]] {
        assert!(!daemon.ctl(words).0, "{words:?}");
    }
    // All runs for one process, whose status is that of the daemon.
    let mut daemon = daemon;
    assert_eq!(daemon.stop(), 128 + 15);
    assert_eq!(daemon.left(), []);
}

#[test]
fn what_can_not_be_started_is_told_and_tried_by_the_next_reload() {
    let tree =
        |ids: &[&str]| -> String { ids.iter().map(|id| format!("[[child]]\nid = '{id}'\nstart = '{id}'\n")).collect() };
    let commands = "[a]\ncommand = ['sleep', '1000']\n[new]\ncommand = ['{folder}/program']\nready = 'notify'\n";
    let daemon = Daemon::start(&tree(&["a"]), commands);
    daemon.wait_ready();
    write_program(&daemon.folder.join("program"), "#!/bin/sh\nexit 3\n");
    write(&daemon, &tree(&["a", "new"]));
    let (is_done, text) = daemon.ctl(&["reload"]);
    assert!(!is_done, "{text}");
    assert_eq!(text, "otp-procs: start   new\nfailed  new: the start failed: error:status_3\n");
    assert!(daemon.ctl(&["status", "new"]).1.contains("undefined"));
    // It is tried again, also with the files as they are.
    assert_eq!(daemon.ctl(&["reload", "--dry-run"]), (true, "start   new\n".to_string()));
    let better = commands.replace("'{folder}/program'", "'sleep', '1000'").replace("ready = 'notify'\n", "");
    write_commands(&daemon, &better);
    assert_eq!(reload(&daemon, &[]), "start   new: command, ready\n");
    assert!(status(&daemon).1.contains_key("new"));
    end(daemon);
}

#[test]
fn a_reload_waits_until_nothing_is_under_way_or_is_given_up() {
    let slow = "[[child]]\nid = 'slow'\nstart = 'slow'\n";
    let commands = format!(
        "{COMMANDS}[slow]\ncommand = ['sh', '-c', 'until [ -e {{folder}}/go ]; do sleep 0.1; done; echo >&3; exec sleep 1000']\n\
         ready = 'notify'\nready_within = 'infinity'\n"
    );
    let daemon = Daemon::start(&[&child("a", ""), slow].concat(), &commands);
    daemon.wait_for("start", |line| line.get("order") == "start" && line.get("path") == "slow");
    let before = status(&daemon).1;
    write(&daemon, &["intensity = 4\n", &child("b", ""), slow].concat());
    let (is_done, text) = daemon.ctl(&["reload", "--within", "100ms"]);
    assert!(!is_done && text.contains("given up: ") && text.contains("; nothing is changed"), "{text}");
    assert_eq!(status(&daemon).1, before);
    let waiting = std::thread::scope(|scope| {
        let waiting = scope.spawn(|| daemon.ctl(&["reload", "--within", "1h"]));
        daemon.wait_for("the request", |line| line.get("line").starts_with("reload --within 3600000"));
        let (is_done, text) = daemon.ctl(&["reload"]);
        assert!(!is_done && text.contains("another reload is under way"), "{text}");
        fs::write(daemon.folder.join("go"), "").unwrap();
        waiting.join().unwrap()
    });
    assert!(waiting.0, "{}", waiting.1);
    let after = status(&daemon).1;
    assert!(after["slow"] == before["slow"] && after.contains_key("b") && !after.contains_key("a"));
    end(daemon);
}

/// A line each 5 ms, with its number.
const TALKS: &str =
    "import sys, time\nn = 0\nwhile True:\n    n += 1\n    print(n, flush=True)\n    time.sleep(0.005)\n";

#[test]
fn no_line_of_a_process_is_lost_and_its_number_is_known() {
    let tree = "[[child]]\nid = 'd'\nstart = 'd'\n[child.tree]\nstrategy = \"simple_one_for_one\"\n[[child.tree.child]]\nid = 'w'\n\
                start = 'talks'\n[[child]]\nid = 'a'\nstart = 'file'\n";
    let commands = format!(
        "{COMMANDS}[talks]\ncommand = ['python3', '{{folder}}/talks.py']\noutput = 'log'\n[file]\n\
         command = ['python3', '{{folder}}/talks.py']\noutput = 'file'\noutput_file = '{{folder}}/out'\noutput_max = '10M'\n"
    );
    let folder = new_folder();
    fs::write(folder.join("talks.py"), TALKS).unwrap();
    fs::write(folder.join("tree.toml"), tree).unwrap();
    fs::write(folder.join("commands.toml"), commands.replace("{folder}", folder.to_str().unwrap())).unwrap();
    let daemon = Daemon::start_in(folder, &["--json", "--log", "log", "--control", "control"]);
    daemon.wait_ready();
    assert!(daemon.ctl(&["start", "d/"]).0);
    let said = || daemon.log().iter().filter(|line| line.get("remark") == "says").map(|line| line.number("line")).max();
    for round in 0..5u64 {
        let before = said().unwrap_or(0);
        write(&daemon, &format!("intensity = {}\n{}{tree}", round + 2, child(&format!("n{round}"), "")));
        assert!(reload(&daemon, &[]).contains("start "));
        wait_until("it talks on", || said().unwrap_or(0) > before + 10);
    }
    wait_until("it has written enough", || daemon.read("out").lines().count() > 60 && lines_of(&daemon).len() > 60);
    let path = status(&daemon).1.keys().find(|path| path.starts_with("d/#")).unwrap().clone();
    let (is_done, text) = daemon.ctl(&["tail", &path, "100000"]);
    assert!(is_done && text.starts_with("1\n"), "{path}: {text}");
    daemon.signal(HUP);
    daemon.wait_for("HUP", |line| line.get("remark") == "signal" && line.get("name") == "HUP");
    let text = daemon.read("out");
    let text = &text[..=text.rfind('\n').unwrap()];
    for lines in [text.lines().map(|line| line.parse().unwrap()).collect(), lines_of(&daemon)] {
        let all: Vec<u64> = lines;
        assert!(all.len() > 50 && all.iter().copied().eq(1..=all.len() as u64), "{all:?}");
    }
    end(daemon);
}

fn lines_of(daemon: &Daemon) -> Vec<u64> {
    daemon.log().iter().filter(|line| line.get("remark") == "says").map(|line| line.number("line")).collect()
}

#[test]
fn one_file_with_templates_instances_and_included_files_is_read_anew() {
    let folder = new_folder();
    let tree = |instances: &str, is_enabled: bool| {
        format!(
            "include = [\"more/*.toml\"]\n[[child]]\nid = \"web\"\nuse = \"server\"\ninstances = [{instances}]\nenv = [\"N={{i}}\"]\n\
             [[child]]\nid = \"mailer\"\ncommand = [\"sleep\", \"1000\"]\nenabled = {is_enabled}\n\
             [template.server]\ncommand = [\"sleep\", \"1000\"]\n"
        )
    };
    fs::create_dir(folder.join("more")).unwrap();
    fs::write(folder.join("more/clock.toml"), "[[child]]\nid = \"clock\"\ncommand = [\"sleep\", \"1000\"]\n").unwrap();
    fs::write(folder.join("tree.toml"), tree("\"1\", \"2\"", true)).unwrap();
    fs::write(folder.join("commands.toml"), "").unwrap();
    let daemon = Daemon::start_in(folder, &["--json", "--log", "log", "--control", "control"]);
    daemon.wait_ready();
    let before = status(&daemon).1;
    fs::write(daemon.folder.join("more/last.toml"), "[[child]]\nid = \"last\"\ncommand = [\"sleep\", \"1000\"]\n")
        .unwrap();
    write(&daemon, &tree("\"2\", \"3\"", false));
    assert_eq!(reload(&daemon, &[]), "stop    mailer\nstop    web-1\nstart   web-3\nstart   last\n");
    let after = status(&daemon).1;
    assert_eq!((after["web-2"], after["clock"]), (before["web-2"], before["clock"]));
    // The template's keys are those of each that uses it.
    write(&daemon, &tree("\"2\", \"3\"", false).replace("[template.server]", "[template.server]\numask = \"027\""));
    assert_eq!(reload(&daemon, &[]), "later   web-2: umask\nlater   web-3: umask\n");
    end(daemon);
}

#[test]
fn a_manager_is_told_when_it_begins_and_when_it_is_done() {
    let folder = new_folder();
    let manager = UnixDatagram::bind(folder.join("manager")).unwrap();
    manager.set_read_timeout(Some(PATIENCE)).unwrap();
    fs::write(folder.join("tree.toml"), child("a", "")).unwrap();
    fs::write(folder.join("commands.toml"), COMMANDS).unwrap();
    let mut command = Command::new(PROGRAM);
    command.env("NOTIFY_SOCKET", folder.join("manager"));
    let daemon = Daemon::start_by(folder, command, &["--json", "--log", "log", "--control", "control"]);
    let next = || {
        let mut room = [0; 4096];
        let count = manager.recv(&mut room).unwrap();
        String::from_utf8_lossy(&room[..count]).into_owned()
    };
    assert!(next().starts_with("READY=1"));
    write(&daemon, &[child("a", ""), child("b", "")].concat());
    assert_eq!(reload(&daemon, &[]), "start   b\n");
    let told = next();
    let time = told.strip_prefix("RELOADING=1\nMONOTONIC_USEC=").and_then(|rest| rest.lines().next()).unwrap();
    assert!(time.parse::<u64>().unwrap() > 0, "{told}");
    assert_eq!(next(), "READY=1\nSTATUS=2 processes are up");
    end(daemon);
}

#[test]
fn diff_says_what_a_reload_would_do() {
    let daemon = Daemon::start(&[child("a", ""), child("b", "")].concat(), COMMANDS);
    daemon.wait_ready();
    assert!(daemon.ctl(&["stop", "a"]).0);
    let folder = daemon.folder.join("a new % folder");
    fs::create_dir(&folder).unwrap();
    fs::write(folder.join("tree.toml"), [child("c", ""), child("b", "shutdown = 7")].concat()).unwrap();
    fs::write(folder.join("commands.toml"), COMMANDS.replace("1000", "1001")).unwrap();
    let diff = |words: &[&str]| {
        let mut command = Command::new(PROGRAM);
        command.arg("diff").args([folder.join("tree.toml"), folder.join("commands.toml")]).args(words);
        let output = command.current_dir(&daemon.folder).output().unwrap();
        (output.status.code(), String::from_utf8([output.stdout, output.stderr].concat()).unwrap())
    };
    let now = "now     b: shutdown 5000 -> 7\n";
    let wanted = format!("forget  a\n{now}later   b: command\nstart   c\n");
    assert_eq!(diff(&["--control", "control"]), (Some(0), wanted.clone()));
    let restart = format!("restart b: command\nforget  a\n{now}start   c\n");
    assert_eq!(diff(&["--control", "control", "--restart"]), (Some(0), restart));
    let old = ["--old", "tree.toml", "--old-commands", "commands.toml"];
    assert_eq!(diff(&old), (Some(0), wanted.replace("forget ", "stop   ")));
    assert_eq!(
        diff(&["--old", "a new % folder/tree.toml", "--old-commands", "a new % folder/commands.toml"]).1,
        "nothing changes\n"
    );
    for (words, status) in [(&["--control", "none"][..], 1), (&["--old", "none"], 1), (&["--old-commands", "x"], 2)] {
        assert_eq!(diff(words).0, Some(status), "{words:?}");
    }
    // What is compared is nobody's to run.
    assert!(!daemon.ctl(&["reload", "--files", "tree.toml"]).0);
    end(daemon);
}

#[test]
fn who_looks_at_the_tree_sees_the_new_one() {
    let daemon = Daemon::start(&[child("a", ""), child("b", "")].concat(), COMMANDS);
    daemon.wait_ready();
    let before = status(&daemon).1;
    send(before["b"], KILL);
    daemon.wait_for("its start", |line| line.get("path") == "b" && line.number("number") == 3);
    write(&daemon, &[pool("p", "", &["x"]), child("b", "")].concat());
    reload(&daemon, &[]);
    let (_, metrics) = daemon.ctl(&["metrics"]);
    assert!(metrics.contains("otp_procs_up{path=\"p/x\"} 1") && !metrics.contains("path=\"a\""), "{metrics}");
    // A process that runs on isn't counted as a start.
    assert!(metrics.contains("otp_procs_starts_total{path=\"b\"} 2"), "{metrics}");
    let (_, page) = daemon.ctl(&["page"]);
    assert!(page.contains("p/") && page.contains(&status(&daemon).1["b"].to_string()));
    assert!(daemon.ctl(&["events"]).1.contains("\"event\":\"change\""));
    assert!(daemon.ctl(&["wait", "p/x", "up"]).0 && !daemon.ctl(&["wait", "a", "up"]).0);
    assert!(daemon.ctl(&["stop", "p/x"]).0 && daemon.ctl(&["restart", "b"]).0);
    end(daemon);
}
