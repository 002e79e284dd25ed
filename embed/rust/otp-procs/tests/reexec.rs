//! `ctl reexec`: the program of a daemon is replaced, and its processes go on as if nothing had happened.

mod common;

use common::daemon::{Daemon, KILL, PROGRAM, copy_program, new_folder, send, wait_until, write_program};
use std::fs;
use std::path::Path;
use std::process::Command;
use std::time::Instant;

const FLAGS: [&str; 5] = ["--json", "--log", "log", "--control", "control"];

/// A daemon of a program of its own, with the files of its folder.
fn start(folder: &Path, tree: &str, commands: &str) -> Daemon {
    fs::write(folder.join("tree.toml"), tree).unwrap();
    fs::write(folder.join("commands.toml"), commands.replace("{folder}", folder.to_str().unwrap())).unwrap();
    let program = folder.join("otp-procs");
    copy_program(&program);
    Daemon::start_by(folder.to_path_buf(), Command::new(program), &FLAGS)
}

fn pid_of(daemon: &Daemon, path: &str) -> Option<i32> {
    let text = daemon.ctl(&["status", path]).1;
    let words: Vec<&str> = text.split_whitespace().collect();
    words.iter().position(|word| *word == "pid").map(|at| words[at + 1].parse().unwrap())
}

fn reexec(daemon: &Daemon) {
    let (is_done, text) = daemon.ctl(&["reexec", "--within", "60s"]);
    assert!(is_done, "{text}\n{}\n{}", daemon.read("log"), daemon.read("stderr"));
    assert!(text.contains(&format!("goes on as process {}, with ", daemon.pid())), "{text}");
}

fn end(mut daemon: Daemon) {
    assert_eq!(daemon.stop(), 0, "{}", daemon.read("stderr"));
    assert_eq!(daemon.left(), []);
    daemon.replay();
}

const TREE: &str = "intensity = 9\nperiod = 60\n[[child]]\nid = 'web'\nstart = 's'\n[[child]]\nid = 'down'\nstart = 's'\n\
    [[child]]\nid = 'bad'\nstart = 'bad'\nrestart = \"transient\"\n\
    [[child]]\nid = 'held'\nstart = 'held'\nrestart = \"transient\"\n\
    [[child]]\nid = 'pool'\nstart = 's'\n[child.tree]\nintensity = 3\n[[child.tree.child]]\nid = 'a'\nstart = 's'\n\
    [[child]]\nid = 'off'\nstart = 's'\n[child.tree]\n[[child.tree.child]]\nid = 'a'\nstart = 's'\n\
    [[child]]\nid = 'd'\nstart = 's'\n[child.tree]\nstrategy = \"simple_one_for_one\"\n[[child.tree.child]]\nid = 'w'\nstart = 's'\n";
const COMMANDS: &str = "[s]\ncommand = ['sleep', '1000']\n[bad]\ncommand = ['false']\nrestart_after = '1h'\n\
    [held]\ncommand = ['false']\nrestart_after = ['1ms', '1m']\ngive_up_after = 1\n";

#[test]
fn all_goes_on_as_it_stood() {
    let folder = new_folder();
    let daemon = start(&folder, TREE, COMMANDS);
    daemon.wait_ready();
    daemon.wait_for("held", |line| line.get("remark") == "held");
    daemon.wait_for("later", |line| line.get("remark") == "later" && line.get("path") == "bad");
    assert!(daemon.ctl(&["start", "d/"]).0 && daemon.ctl(&["stop", "down"]).0 && daemon.ctl(&["stop", "off"]).0);
    let stands = |daemon: &Daemon| -> Vec<String> {
        let (_, text) = daemon.ctl(&["status"]);
        let lines = text.lines().skip(1).map(|line| {
            // Without numbers and times.
            let line = line.split("2 in ").next().unwrap_or(line).replace(" 2 starts", "");
            let words = line.split_whitespace().filter(|word| !word.starts_with('#'));
            words.take_while(|word| !word.contains('.')).collect::<Vec<&str>>().join(" ")
        });
        lines.collect()
    };
    let before = stands(&daemon);
    assert!(before.iter().any(|line| line.contains("held")) && before.iter().any(|line| line.contains("down, start")));
    for _ in 0..3 {
        reexec(&daemon);
        assert_eq!(stands(&daemon), before);
    }
    // It is the same daemon by its rules, its control and its log.
    let (web, dynamic) = (pid_of(&daemon, "web").unwrap(), daemon.left().len());
    send(web, KILL);
    wait_until("it is restarted", || pid_of(&daemon, "web").is_some_and(|pid| pid != web));
    assert_eq!(daemon.left().len(), dynamic);
    assert!(daemon.ctl(&["start", "down"]).0 && daemon.ctl(&["start", "off"]).0 && daemon.ctl(&["start", "d/"]).0);
    assert!(daemon.ctl(&["tail", "5"]).0);
    // Its files are read anew as before.
    fs::write(daemon.folder.join("tree.toml"), TREE.replacen("intensity = 9", "intensity = 8", 1)).unwrap();
    let (is_done, text) = daemon.ctl(&["reload"]);
    assert!(is_done && text == "now     /: intensity 9 -> 8\n", "{text}");
    reexec(&daemon);
    assert_eq!(daemon.log().iter().filter(|line| line.get("remark") == "replaced").count(), 4);
    end(daemon);
}

/// A line each 2 ms, in two pieces.
const TALKS: &str = "import sys, time\nn = 0\nwhile True:\n    n += 1\n    sys.stdout.write(str(n))\n    sys.stdout.flush()\n    \
    time.sleep(0.001)\n    sys.stdout.write('.\\n')\n    sys.stdout.flush()\n    time.sleep(0.001)\n";

#[test]
fn no_byte_of_a_process_is_lost_or_cut() {
    let tree = "[[child]]\nid = 'log'\nstart = 'log'\n[[child]]\nid = 'file'\nstart = 'file'\n";
    let commands = "[log]\ncommand = ['python3', '{folder}/talks.py']\noutput = 'log'\n[file]\n\
        command = ['python3', '{folder}/talks.py']\noutput = 'file'\noutput_file = '{folder}/out'\noutput_max = '100M'\n";
    let folder = new_folder();
    fs::write(folder.join("talks.py"), TALKS).unwrap();
    let daemon = start(&folder, tree, commands);
    daemon.wait_ready();
    let said = || -> Vec<String> {
        let log = daemon.log();
        log.iter().filter(|line| line.get("remark") == "says").map(|line| line.get("line").to_string()).collect()
    };
    for _ in 0..6 {
        let before = said().len();
        reexec(&daemon);
        wait_until("it talks on", || said().len() > before + 20);
    }
    wait_until("both have said enough", || daemon.read("out").lines().count() > 120 && said().len() > 120);
    let (file, log) = (daemon.read("out"), said());
    let mut lines: Vec<String> = file.lines().map(str::to_string).collect();
    lines.pop();
    for lines in [lines, log] {
        assert!(lines.len() > 100);
        for (number, line) in (1..).zip(&lines) {
            assert_eq!(*line, format!("{number}."), "{lines:?}");
        }
    }
    let (is_done, tail) = daemon.ctl(&["tail", "log", "3"]);
    assert!(is_done && tail.lines().count() >= 3, "{tail}");
    end(daemon);
}

#[test]
fn one_that_tells_of_itself_is_heard_on() {
    let script = "import os, socket, time\ns = socket.socket(socket.AF_UNIX, socket.SOCK_DGRAM)\n\
        def tell(text):\n    s.sendto(text, '\\0' + os.environ['NOTIFY_SOCKET'][1:])\n\
        n = 0\nwhile True:\n    n += 1\n    tell(b'STATUS=%d' % n)\n    tell(b'WATCHDOG=1')\n    \
        if os.path.exists('{folder}/go'):\n        tell(b'READY=1')\n    time.sleep(0.01)\n";
    let folder = new_folder();
    fs::write(folder.join("tells.py"), script.replace("{folder}", folder.to_str().unwrap())).unwrap();
    let tree = "[[child]]\nid = 'a'\nstart = 'a'\n[[child]]\nid = 'b'\nstart = 'b'\n[[child]]\nid = 'c'\nstart = 'c'\n";
    let commands = "[a]\ncommand = ['python3', '{folder}/tells.py']\nready = 'sd_notify'\nready_blocks = false\nwatchdog = 60000\n\
        ready_within = 'infinity'\n[b]\ncommand = ['sh', '-c', 'until [ -e {folder}/go ]; do sleep 0.1; done; echo >&3; exec sleep 1000']\n\
        ready = 'notify'\nready_blocks = false\nready_within = 'infinity'\n[c]\ncommand = ['sleep', '1000']\nafter = ['a', 'b']\n";
    let daemon = start(&folder, tree, commands);
    daemon.wait_ready();
    let status = |path: &str| daemon.ctl(&["status", path]).1;
    wait_until("it tells", || status("a").contains("says "));
    reexec(&daemon);
    reexec(&daemon);
    assert!(
        status("a").contains("not ready") && status("b").contains("not ready") && status("c").contains("waits for")
    );
    let words = |text: &str| text.split("says ").nth(1).and_then(|rest| rest.trim().parse::<u64>().ok());
    let before = words(&status("a"));
    wait_until("it is heard", || words(&status("a")) > before);
    fs::write(daemon.folder.join("go"), "").unwrap();
    for path in ["a", "b", "c"] {
        assert!(daemon.ctl(&["wait", path, "ready"]).0);
    }
    // A new socket has a name of its own.
    send(pid_of(&daemon, "a").unwrap(), KILL);
    assert!(daemon.ctl(&["wait", "a", "ready"]).0);
    end(daemon);
}

#[test]
fn a_program_that_can_not_take_over_changes_nothing() {
    let folder = new_folder();
    let daemon = start(&folder, TREE, COMMANDS);
    daemon.wait_ready();
    daemon.wait_for("held", |line| line.get("remark") == "held");
    let (program, old) = (folder.join("otp-procs"), folder.join("old"));
    fs::rename(&program, &old).unwrap();
    let before = daemon.left();
    for (text, wanted) in [
        (None, "No such file"),
        (Some("no program"), "otp-procs: "),
        (Some("#!/bin/sh\necho too old >&2\nexit 2\n"), "can't take over: too old"),
        (Some("#!/bin/sh\nkill -9 $$\n"), "can't take over"),
    ] {
        if let Some(text) = text {
            write_program(&program, text);
        }
        let (is_done, told) = daemon.ctl(&["reexec"]);
        assert!(!is_done && told.contains(wanted) && told.contains("nothing is changed"), "{told}");
        assert_eq!((daemon.left(), daemon.ctl(&["status", "web"]).0), (before.clone(), true));
    }
    // Another one of the same name can, also where it isn't the one that has begun.
    fs::rename(&program, folder.join("bad")).unwrap();
    fs::rename(&old, &program).unwrap();
    reexec(&daemon);
    assert_eq!(daemon.left(), before);
    // What it is handed is no one else's.
    let output = Command::new(PROGRAM)
        .args(["run", "tree.toml", "commands.toml", "--take-over", "77"])
        .current_dir(&folder)
        .output();
    assert_eq!(output.unwrap().status.code(), Some(1));
    end(daemon);
}

/// The process of a path is killed, and the next one is there.
fn crash(daemon: &Daemon, path: &str) {
    let pid = pid_of(daemon, path).unwrap();
    send(pid, KILL);
    wait_until("it is restarted", || pid_of(daemon, path).is_some_and(|other| other != pid));
}

/// What is counted of all supervisors: the first words of their lines.
fn counts(daemon: &Daemon) -> Vec<String> {
    let (_, text) = daemon.ctl(&["status"]);
    let lines = text.lines().filter(|line| line.contains(" restarts in "));
    lines
        .map(|line| line.split("one_for_").nth(1).unwrap().split("  up ").next().unwrap().to_string())
        .map(without_number)
        .collect()
}

fn without_number(text: String) -> String {
    text.split_whitespace().filter(|word| !word.starts_with('#')).collect::<Vec<&str>>().join(" ")
}

/// A service, and a pool of two; all restarts count for an hour.
fn counted(intensity: u64, of_pool: u64) -> String {
    format!(
        "intensity = {intensity}\nperiod = 3600\n[[child]]\nid = 'web'\nstart = 's'\n\
         [[child]]\nid = 'pool'\nstart = 's'\n[child.tree]\nstrategy = \"one_for_all\"\nintensity = {of_pool}\nperiod = 3600\n\
         [[child.tree.child]]\nid = 'a'\nstart = 's'\n[[child.tree.child]]\nid = 'b'\nstart = 's'\n"
    )
}

#[test]
fn a_supervisor_ends_at_the_crash_at_which_it_would_without_it() {
    for times in [0, 1, 3] {
        let mut daemon = start(&new_folder(), &counted(2, 1), COMMANDS);
        daemon.wait_ready();
        let replaced = || (0..times).for_each(|_| reexec(&daemon));
        assert_eq!(counts(&daemon), ["one 0 of 2 restarts in 3600 s", "all 0 of 1 restarts in 3600 s"]);
        replaced();
        crash(&daemon, "pool/a");
        replaced();
        assert_eq!(counts(&daemon), ["one 0 of 2 restarts in 3600 s", "all 1 of 1 restarts in 3600 s"]);
        // The pool gives up, and begins anew.
        crash(&daemon, "pool/b");
        replaced();
        let anew = "all 0 of 1 restarts in 3600 s 2 starts last ended: intensity";
        assert_eq!(counts(&daemon), ["one 1 of 2 restarts in 3600 s", anew]);
        crash(&daemon, "web");
        crash(&daemon, "pool/a");
        replaced();
        let full = "all 1 of 1 restarts in 3600 s 2 starts last ended: intensity";
        assert_eq!(counts(&daemon), ["one 2 of 2 restarts in 3600 s", full]);
        // The next crash of the pool is one too many for the root, too.
        send(pid_of(&daemon, "pool/a").unwrap(), KILL);
        assert_eq!(daemon.wait(), 3);
        assert_eq!(daemon.left(), []);
        daemon.replay();
    }
}

#[test]
fn a_restart_leaves_its_period_when_it_would_without_it() {
    let tree = "intensity = 1\nperiod = 2\n[[child]]\nid = 'web'\nstart = 's'\n";
    let daemon = start(&new_folder(), tree, COMMANDS);
    daemon.wait_ready();
    for _ in 0..2 {
        crash(&daemon, "web");
        let of = |what: &str| daemon.log().iter().rfind(|line| !line.get(what).is_empty()).unwrap().number("ms");
        let (at, begun) = (of("event"), Instant::now());
        reexec(&daemon);
        // Its clock goes on, as the time of the replacement has passed.
        let replaced = daemon.log().iter().rfind(|line| line.get("remark") == "replaced").unwrap().number("ms");
        assert!(replaced >= at && replaced - at <= begun.elapsed().as_millis() as u64 + 1_000);
        wait_until("it counts no more", || counts(&daemon) == ["one 0 of 1 restarts in 2 s"]);
        daemon.ctl(&["start", "none"]);
        let asked = daemon.log().iter().rfind(|line| line.get("remark") == "asked").unwrap().number("ms");
        assert!(asked > at + 2_000, "{asked} {at}");
    }
    end(daemon);
}

#[test]
fn what_is_measured_goes_on() {
    let daemon = start(&new_folder(), &counted(9, 1), COMMANDS);
    daemon.wait_ready();
    for path in ["web", "pool/a", "pool/a", "web", "pool/b"] {
        crash(&daemon, path);
    }
    assert!(daemon.ctl(&["stop", "web"]).0);
    let measured = || -> Vec<String> {
        let (_, text) = daemon.ctl(&["metrics"]);
        let lines = text.lines().filter(|line| !line.starts_with("otp_procs_uptime"));
        lines.map(str::to_string).collect()
    };
    let json = || -> Vec<String> {
        let (_, text) = daemon.ctl(&["status", "--json"]);
        let fields = text.split(['{', ',', '}']).map(str::to_string);
        fields.filter(|field| !["\"number\"", "\"since_ms\""].iter().any(|key| field.starts_with(key))).collect()
    };
    let before = (measured(), json());
    assert!(before.0.contains(&"otp_procs_starts_total{path=\"web\"} 3".to_string()), "{before:?}");
    assert!(before.0.contains(&"otp_procs_exits_total{path=\"pool/a\"} 3".to_string()), "{before:?}");
    assert!(before.0.contains(&"otp_procs_supervisor_starts_total{supervisor=\"pool/\"} 2".to_string()), "{before:?}");
    assert!(
        ["\"restarts\":3", "\"starts\":2", "\"cause\":\"intensity\""]
            .iter()
            .all(|it| before.1.contains(&it.to_string()))
    );
    for _ in 0..2 {
        reexec(&daemon);
        assert_eq!((measured(), json()), before);
    }
    assert!(daemon.ctl(&["page"]).1.contains("2 restarts"));
    // A supervisor that is down is told with why.
    assert!(daemon.ctl(&["stop", "pool"]).0);
    reexec(&daemon);
    let words = "down 2 starts ended: asked stopping";
    let starts = "otp_procs_supervisor_starts_total{supervisor=\"pool/\"} 2".to_string();
    assert!(counts(&daemon)[1].ends_with(words) && measured().contains(&starts), "{:?}", counts(&daemon));
    assert!(daemon.ctl(&["start", "pool"]).0);
    assert_eq!(counts(&daemon)[1], "all 0 of 1 restarts in 3600 s 3 starts last ended: asked");
    end(daemon);
}

/// Of each supervisor of a log its restarts: each `exit` that nobody asked for is one here.
#[test]
fn no_restart_is_lost_beside_many_replacements() {
    let wild = |id: &str| format!("[[child]]\nid = '{id}'\nstart = 'wild'\n");
    let tree = format!(
        "intensity = 1000\nperiod = 3600\n{}{}[[child]]\nid = 'pool'\nstart = 's'\n[child.tree]\nintensity = 1000\nperiod = 3600\n\
         [[child.tree.child]]\nid = 'c'\nstart = 'wild'\n[[child.tree.child]]\nid = 'steady'\nstart = 's'\n",
        wild("a"),
        wild("b")
    );
    let commands = format!("{COMMANDS}[wild]\ncommand = ['sh', '-c', 'sleep 0.05; exit 1']\n");
    let daemon = start(&new_folder(), &tree, &commands);
    daemon.wait_ready();
    for number in 0.. {
        reexec(&daemon);
        if number >= 12 && daemon.log().iter().filter(|line| line.get("event") == "exit").count() > 40 {
            break;
        }
    }
    let calm = format!("{COMMANDS}[wild]\ncommand = ['sleep', '1000']\n");
    fs::write(daemon.folder.join("commands.toml"), calm).unwrap();
    assert!(daemon.ctl(&["reload", "--restart", "--within", "60s"]).0);
    reexec(&daemon);
    let (log, told) = (daemon.log(), counts(&daemon));
    let crashes = |of: fn(&str) -> bool| {
        let exits = log.iter().filter(|line| line.get("event") == "exit" && line.get("reason").starts_with("error"));
        exits.filter(|line| of(line.get("path"))).count()
    };
    let (root, pool) = (crashes(|path| !path.contains('/')), crashes(|path| path.contains('/')));
    assert!(root > 10 && pool > 5, "{root} {pool}");
    let wanted = [root, pool].map(|count| format!("one {count} of 1000 restarts in 3600 s"));
    assert_eq!(told, wanted);
    end(daemon);
}

#[test]
fn it_is_replaced_while_children_crash() {
    let wild = |id: &str| format!("[[child]]\nid = '{id}'\nstart = 'wild'\n");
    let tree =
        format!("intensity = 1000\nperiod = 1\n{}[[child]]\nid = 'steady'\nstart = 's'\n{}", wild("a"), wild("b"));
    let commands = format!("{COMMANDS}[wild]\ncommand = ['sh', '-c', 'sleep 0.03; exit 1']\n");
    let folder = new_folder();
    let daemon = start(&folder, &tree, &commands);
    daemon.wait_ready();
    let steady = pid_of(&daemon, "steady");
    for _ in 0..15 {
        reexec(&daemon);
    }
    assert_eq!(pid_of(&daemon, "steady"), steady);
    end(daemon);
}
