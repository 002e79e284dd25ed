//! `otp-procs` with real processes: starts, ends, signals, output, and what nobody should wait for.

mod common;

use common::daemon::{CONT, Daemon, HUP, INT, KILL, STOP, TERM, send, ticks_of, wait_until, write_program};
use std::fs;
use std::io::Read;
use std::os::unix::fs::OpenOptionsExt;
use std::thread;
use std::time::Duration;

/// Of Linux on x86-64.
const O_NONBLOCK: i32 = 0o4000;

fn tree_of(children: &str) -> String {
    format!("intensity = 3\nperiod = 60\n{children}")
}

fn child(id: &str, more: &str) -> String {
    format!("[[child]]\nid = \"{id}\"\nstart = \"{id}\"\n{more}\n")
}

const STEADY: &str = "[a]\ncommand = [\"sleep\", \"1000\"]\n";

#[test]
fn a_missing_command_is_a_failed_start() {
    let mut daemon = Daemon::start(&tree_of(&child("a", "")), "[a]\ncommand = [\"/nowhere/at/all\"]\n");
    assert_eq!(daemon.wait(), 4);
    assert_eq!(daemon.story(), ["start a #1", "-> fail a #1 error:no_command", "end shutdown:failed_to_start_child/a"]);
    let line = daemon.wait_for("fail", |line| line.get("event") == "fail");
    assert!(line.get("text").contains("/nowhere/at/all"), "{line:?}");
    daemon.replay();
}

#[test]
fn a_command_that_goes_missing_is_tried_again_as_the_rules_say() {
    let commands = "[a]\ncommand = [\"{folder}/program\"]\n";
    let folder = common::daemon::new_folder();
    fs::write(folder.join("tree.toml"), tree_of(&child("a", ""))).unwrap();
    fs::write(folder.join("commands.toml"), commands.replace("{folder}", folder.to_str().unwrap())).unwrap();
    std::os::unix::fs::symlink("/bin/cat", folder.join("program")).unwrap();
    // Its input is empty, so that it ends at once; but it is gone before it is started a second time.
    let script = folder.join("program");
    fs::remove_file(&script).unwrap();
    write_program(&script, "#!/bin/sh\nrm \"$0\"\nexit 1\n");
    let mut daemon = Daemon::start_in(folder, &["--json", "--log", "log", "--no-control"]);
    assert_eq!(daemon.wait(), 3);
    let story = daemon.story();
    let failed = |number: u32| format!("-> fail a #{number} error:no_command");
    assert_eq!(story[..4], ["start a #1", "-> up a #1", "ready", "-> exit a #1 error:status_1"]);
    // One restart after the crash, and two more tries: the fourth would be one too many.
    assert_eq!(
        story[4..],
        ["start a #2", &failed(2), "start a #3", &failed(3), "start a #4", &failed(4), "end shutdown"]
    );
    daemon.replay();
}

#[test]
fn readiness_is_waited_for() {
    let tree = tree_of(&[child("line", ""), child("told", ""), child("time", ""), child("a", "")].concat());
    let commands = "[line]\ncommand = ['sh', '-c', 'sleep 0.2; echo now it is up; exec sleep 1000']\nready = 'line'\nready_line = 'is up'\noutput = 'log'\n\
                    [told]\ncommand = ['sh', '-c', 'sleep 0.2; echo >&4; exec sleep 1000']\nready = 'notify'\nnotify_fd = 4\n\
                    [time]\ncommand = ['sleep', '1000']\nready = 'after'\nready_after = 200\n"
        .to_string()
        + STEADY;
    let mut daemon = Daemon::start(&tree, &commands);
    daemon.wait_ready();
    let ups: Vec<String> = daemon.story().into_iter().filter(|line| line.starts_with("-> up")).collect();
    assert_eq!(ups, ["-> up line #1", "-> up told #2", "-> up time #3", "-> up a #4"]);
    for number in 1..4 {
        let line = daemon.wait_for("up", |line| line.get("event") == "up" && line.number("number") == number);
        assert!(line.number("after_ms") >= 200, "{line:?}");
    }
    daemon.wait_for("what it says", |line| line.get("remark") == "says" && line.get("line") == "now it is up");
    assert_eq!(daemon.stop(), 0);
    daemon.replay();
}

#[test]
fn a_start_that_takes_too_long_has_failed() {
    let commands = "[a]\ncommand = ['sleep', '1000']\nready = 'notify'\nready_within = 300\n";
    let mut daemon = Daemon::start(&tree_of(&child("a", "")), commands);
    assert_eq!(daemon.wait(), 4);
    assert_eq!(daemon.story()[1], "-> fail a #1 error:not_up_in_time");
    assert_eq!(daemon.left(), []);
}

#[test]
fn an_early_end_is_a_failed_start_or_an_ignored_one() {
    let tree = tree_of(&[child("ignored", ""), child("a", "")].concat());
    let early = |status: u32| {
        format!("[ignored]\ncommand = ['sh', '-c', 'exit {status}']\nready = 'notify'\nignored_status = 7\n{STEADY}")
    };
    let mut daemon = Daemon::start(&tree, &early(7));
    daemon.wait_ready();
    assert_eq!(daemon.story()[1], "-> ignore ignored #1");
    assert_eq!(daemon.stop(), 0);
    let mut daemon = Daemon::start(&tree, &early(8));
    assert_eq!(daemon.wait(), 4);
    assert_eq!(daemon.story()[1], "-> fail ignored #1 error:status_8");
}

#[test]
fn a_process_gets_no_descriptor_and_no_blocked_signal() {
    let commands = "[a]\ncommand = ['sh', '-c', 'ls -l /proc/self/fd > {folder}/fds; grep Sig /proc/self/status > {folder}/signals; \
                    echo $OTP_CHILD $OTP_NUMBER $A $HOME > {folder}/env; pwd > {folder}/pwd; touch {folder}/done; exec sleep 1000']\n\
                    env = ['A=b c']\nfolder = '/'\nclear_env = true\n";
    let mut daemon = Daemon::start(&tree_of(&child("a", "")), commands);
    daemon.wait_ready();
    wait_until("done", || daemon.folder.join("done").exists());
    // 0, 1, 2, and the one by which ls reads the folder.
    let fds = daemon.read("fds");
    assert_eq!(fds.lines().filter(|line| line.contains("->")).count(), 4, "{fds}");
    let signals = daemon.read("signals");
    let mask = |word: &str| {
        let line = signals.lines().find_map(|line| line.strip_prefix(word)).unwrap();
        u64::from_str_radix(line.trim(), 16).unwrap()
    };
    let pipe = 1 << 12;
    assert_eq!((mask("SigBlk:"), mask("SigIgn:") & pipe), (0, 0), "{signals}");
    assert_eq!(daemon.read("env").trim_end(), "a 1 b c");
    assert_eq!(daemon.read("pwd"), "/\n");
    assert_eq!(daemon.stop(), 0);
}

#[test]
fn a_pipe_that_nobody_reads_is_no_place_for_output() {
    let commands = "[a]\ncommand = ['sleep', '1000']\noutput = 'file'\noutput_file = '{folder}/pipe'\n";
    let folder = common::daemon::new_folder();
    assert!(std::process::Command::new("mkfifo").arg(folder.join("pipe")).status().unwrap().success());
    fs::write(folder.join("tree.toml"), tree_of(&child("a", ""))).unwrap();
    fs::write(folder.join("commands.toml"), commands.replace("{folder}", folder.to_str().unwrap())).unwrap();
    let mut daemon = Daemon::start_in(folder, &["--json", "--log", "log", "--no-control"]);
    assert_eq!(daemon.wait(), 4);
    assert_eq!(daemon.story()[1], "-> fail a #1 error:no_output");
}

#[test]
fn signals_that_the_daemon_ignores_are_not_ignored_by_its_processes() {
    let folder = common::daemon::new_folder();
    fs::write(folder.join("tree.toml"), tree_of(&child("a", ""))).unwrap();
    let commands = format!(
        "[a]\ncommand = ['sh', '-c', 'grep SigIgn /proc/self/status > {0}/signals; touch {0}/done; exec sleep 1000']\nsignal = 'INT'\n",
        folder.display()
    );
    fs::write(folder.join("commands.toml"), commands).unwrap();
    let mut shell = std::process::Command::new("sh");
    shell.args(["-c", "trap '' INT QUIT TERM USR1; exec \"$0\" \"$@\"", common::daemon::PROGRAM]);
    let mut daemon = Daemon::start_by(folder, shell, &["--json", "--log", "log", "--no-control"]);
    wait_until("done", || daemon.folder.join("done").exists());
    // Signals 32 and 33 are the C library's own, and stay as they are.
    let ignored = daemon.read("signals").split_whitespace().nth(1).map(|mask| u64::from_str_radix(mask, 16).unwrap());
    assert_eq!(ignored.map(|mask| mask & !(3 << 31)), Some(0));
    // TERM reaches the daemon, and INT the process, which has 5 seconds: it isn't killed.
    assert_eq!(daemon.stop(), 0);
    assert!(daemon.story().iter().all(|line| !line.starts_with("kill")), "{:?}", daemon.story());
}

#[test]
fn what_the_daemon_was_started_with_is_not_passed_on() {
    let folder = common::daemon::new_folder();
    fs::write(folder.join("tree.toml"), tree_of(&child("a", ""))).unwrap();
    let commands = format!(
        "[a]\ncommand = ['sh', '-c', 'ls -l /proc/self/fd > {0}/fds; grep SigBlk /proc/self/status > {0}/signals; touch {0}/done; exec sleep 1000']\n",
        folder.display()
    );
    fs::write(folder.join("commands.toml"), commands).unwrap();
    // Two open descriptors, and two blocked signals.
    let mut starter = std::process::Command::new("env");
    starter.args(["--block-signal=USR1,HUP", "sh", "-c", "exec 5</dev/null 8</dev/null; exec \"$0\" \"$@\""]);
    starter.arg(common::daemon::PROGRAM);
    let mut daemon = Daemon::start_by(folder, starter, &["--json", "--log", "log", "--control", "control"]);
    wait_until("done", || daemon.folder.join("done").exists());
    let open = fs::read_dir(format!("/proc/{}/fd", daemon.pid())).unwrap();
    let open: Vec<String> = open.map(|entry| entry.unwrap().file_name().into_string().unwrap()).collect();
    assert!(open.contains(&"5".to_string()) && open.contains(&"8".to_string()), "{open:?}");
    let fds = daemon.read("fds");
    assert_eq!(fds.lines().filter(|line| line.contains("->")).count(), 4, "{fds}");
    assert_eq!(daemon.read("signals").split_whitespace().nth(1), Some("0000000000000000"));
    assert_eq!(daemon.stop(), 0);
}

#[test]
fn a_command_is_handed_to_no_shell() {
    let words = ["$(touch x)", "*", "a b; touch x", "|", "`touch x`", "", "~", "$HOME", "> x"];
    let folder = common::daemon::new_folder();
    let program = folder.join("program");
    write_program(&program, "#!/bin/sh\nprintf '%s\\n' \"$@\" > words\ntouch done\nexec sleep 1000\n");
    fs::write(folder.join("tree.toml"), tree_of(&child("a", ""))).unwrap();
    let quoted: Vec<String> = words.iter().map(|word| format!("'{word}'")).collect();
    fs::write(folder.join("commands.toml"), format!("[a]\ncommand = ['./program', {}]\n", quoted.join(", "))).unwrap();
    let mut daemon = Daemon::start_in(folder, &["--json", "--log", "log", "--no-control"]);
    wait_until("done", || daemon.folder.join("done").exists());
    assert_eq!(daemon.read("words").lines().collect::<Vec<_>>(), words);
    assert!(!daemon.folder.join("x").exists());
    assert_eq!(daemon.stop(), 0);
}

#[test]
fn an_interrupt_stops_in_reverse_order() {
    let tree = tree_of(&[child("a", ""), child("b", "")].concat());
    let mut daemon = Daemon::start(&tree, &(STEADY.to_string() + "[b]\ncommand = ['sleep', '1000']\n"));
    daemon.wait_ready();
    daemon.signal(INT);
    assert_eq!(daemon.wait(), 0);
    let story = daemon.story();
    let told = ["-> stop", "ask b #2", "-> exit b #2 shutdown", "ask a #1", "-> exit a #1 shutdown", "end shutdown"];
    assert_eq!(story[story.len() - told.len()..], told);
    assert_eq!(daemon.left(), []);
    daemon.replay();
}

#[test]
fn check_tells_what_is_missing_on_this_machine() {
    let folder = common::daemon::new_folder();
    fs::write(folder.join("tree.toml"), tree_of(&child("a", ""))).unwrap();
    let check = |commands: &str| {
        fs::write(folder.join("commands.toml"), commands).unwrap();
        let mut check = std::process::Command::new(common::daemon::PROGRAM);
        let output = check.args(["check", "tree.toml", "commands.toml"]).current_dir(&folder).output().unwrap();
        let told = String::from_utf8([output.stdout, output.stderr].concat()).unwrap();
        // What crashes cost, of files that are as they should be, is tests/check.rs's.
        let told = if told.starts_with("a crash of") { told.lines().skip(2).collect() } else { told };
        (output.status.code(), told)
    };
    assert_eq!(check(STEADY), (Some(0), String::new()));
    // Its folder is the daemon's, not the one in which the process works.
    let file = "[a]\ncommand = ['sleep', '1']\nfolder = '/'\noutput = 'file'\noutput_file = ";
    assert_eq!(check(&format!("{file}'out'")), (Some(0), String::new()));
    fs::create_dir(folder.join("logs")).unwrap();
    assert_eq!(check(&format!("{file}'logs/out'")), (Some(0), String::new()));
    let (status, told) = check(&format!("{STEADY}[z]\ncommand = ['sleep', '1']"));
    assert_eq!((status, told.as_str()), (Some(0), "commands.toml: [z] is run by no child of tree.toml"));
    for (commands, text) in [
        ("[b]\ncommand = ['sleep', '1']\n", "no table for a"),
        ("[a]\ncommand = ['no_such_program']\n", "[a] there is no program no_such_program"),
        ("[a]\ncommand = ['./sleep']\n", "[a] there is no program ./sleep"),
        ("[a]\ncommand = ['sleep', '1']\nfolder = '/nowhere'\n", "[a] there is no folder /nowhere"),
        (&format!("{file}'/nowhere/out'"), "[a] there can be no output_file /nowhere/out"),
        (&format!("{file}'logs'"), "[a] there can be no output_file logs"),
    ] {
        let (status, told) = check(commands);
        assert!(status == Some(1) && told.contains(text), "{told}");
    }
    fs::remove_dir_all(&folder).unwrap();
}

#[test]
fn a_script_without_its_interpreter_is_told_of() {
    let folder = common::daemon::new_folder();
    let script = folder.join("script");
    write_program(&script, "#!/nowhere/at/all\n");
    fs::write(folder.join("tree.toml"), tree_of(&child("a", ""))).unwrap();
    fs::write(folder.join("commands.toml"), format!("[a]\ncommand = ['{}']\n", script.display())).unwrap();
    let mut daemon = Daemon::start_in(folder, &["--json", "--log", "log", "--no-control"]);
    assert_eq!(daemon.wait(), 4);
    let line = daemon.wait_for("fail", |line| line.get("event") == "fail");
    assert!(line.get("text").contains("what it is to be run by is not"), "{line:?}");
}

#[test]
fn output_goes_where_the_file_says() {
    let tree = tree_of(&[child("file", ""), child("null", ""), child("log", ""), child("plain", "")].concat());
    let say = |id: &str, more: &str| {
        format!("[{id}]\ncommand = ['sh', '-c', 'echo out {id}; echo err {id} >&2; exec sleep 1000']\n{more}\n")
    };
    let commands = [
        say("file", "output = 'file'\noutput_file = '{folder}/out'"),
        say("null", "output = 'null'"),
        say("log", "output = 'log'"),
        say("plain", ""),
    ];
    let mut daemon = Daemon::start(&tree, &commands.concat());
    daemon.wait_ready();
    daemon.wait_for("log", |line| line.get("remark") == "says" && line.get("line") == "err log");
    wait_until("the outputs", || daemon.read("stdout") == "out plain\n" && daemon.read("stderr") == "err plain\n");
    wait_until("the file", || daemon.read("out") == "out file\nerr file\n");
    assert_eq!(daemon.stop(), 0);
}

#[test]
fn a_kill_reaches_what_a_process_has_started() {
    let commands = "[a]\ncommand = ['sh', '-c', 'trap \"\" TERM; sleep 1000 & (trap \"\" TERM; sleep 1000; sleep 1000) & setsid sleep 1000 & while :; do sleep 1; done']\n";
    let mut daemon = Daemon::start(&tree_of(&child("a", "shutdown = 200")), commands);
    daemon.wait_ready();
    wait_until("descendants", || daemon.left().len() >= 5);
    assert_eq!(daemon.stop(), 0);
    assert_eq!(daemon.left(), []);
}

#[test]
fn an_orphan_is_reaped() {
    let commands =
        "[a]\ncommand = ['sh', '-c', 'setsid sh -c \"sleep 0.1; exit 1\" & setsid sleep 0.2 & exit 1']\n".to_string();
    let mut daemon = Daemon::start(
        "intensity = 1\nperiod = 1\n[[child]]\nid = \"a\"\nstart = \"a\"\nrestart = \"temporary\"\n[[child]]\nid = \"b\"\nstart = \"b\"\n",
        &(commands + "[b]\ncommand = ['sleep', '1000']\n"),
    );
    daemon.wait_ready();
    let children = || fs::read_to_string(format!("/proc/{0}/task/{0}/children", daemon.pid())).unwrap();
    // Both orphans live on for a moment.
    thread::sleep(Duration::from_millis(500));
    wait_until("one child is left", || children().split_whitespace().count() == 1);
    assert_eq!(daemon.stop(), 0);
}

#[test]
fn many_that_ignore_their_signal_are_killed_at_their_deadline() {
    let mut tree = "strategy = \"one_for_one\"\n".to_string();
    for pool in 0..4 {
        tree += &format!("[[child]]\nid = \"pool{pool}\"\nstart = \"pool\"\n[child.tree]\n");
        for number in 0..16 {
            tree += &format!("[[child.tree.child]]\nid = \"c{number}\"\nstart = \"deaf\"\nshutdown = 20\n");
        }
    }
    let commands = "[deaf]\ncommand = ['sh', '-c', 'trap \"\" TERM; echo >&3; while :; do sleep 100; done']\nready = 'notify'\nsignal_to = 'process'\n";
    let mut daemon = Daemon::start(&tree, commands);
    daemon.wait_ready();
    assert_eq!(daemon.stop(), 0);
    let story = daemon.story();
    let kills: Vec<&String> = story.iter().filter(|line| line.starts_with("kill")).collect();
    assert_eq!(kills.len(), 64);
    assert!(kills[0].starts_with("kill pool3/c15 ") && kills[63].starts_with("kill pool0/c0 "));
    assert_eq!(daemon.left(), []);
    daemon.replay();
}

#[test]
fn a_second_signal_kills() {
    let commands =
        "[a]\ncommand = ['sh', '-c', 'trap \"\" TERM; echo >&3; while :; do sleep 1; done']\nready = 'notify'\n";
    let mut daemon = Daemon::start(&tree_of(&child("a", "shutdown = \"infinity\"")), commands);
    daemon.wait_ready();
    // One that comes with the first is the same: both are there when it looks.
    daemon.signal(STOP);
    daemon.signal(TERM);
    daemon.signal(INT);
    daemon.signal(CONT);
    daemon.wait_for("ask", |line| line.get("order") == "ask");
    daemon.wait_for("both", |line| line.get("name") == "TERM");
    thread::sleep(Duration::from_millis(700));
    assert!(!daemon.left().is_empty());
    daemon.signal(INT);
    assert_eq!(daemon.wait(), 6);
    assert_eq!(daemon.left(), []);
    daemon.replay();
}

#[test]
fn a_second_signal_ends_starts_that_never_tell() {
    // It doesn't listen to TERM, and has for ever to end.
    let commands = "[a]\ncommand = ['sh', '-c', 'trap \"\" TERM; touch {folder}/deaf; while :; do sleep 0.1; done']\n\
                    ready = 'notify'\nready_within = 'infinity'\n";
    let mut daemon = Daemon::start(&tree_of(&child("a", "shutdown = \"infinity\"")), commands);
    wait_until("it is deaf", || daemon.folder.join("deaf").exists());
    daemon.signal(TERM);
    daemon.wait_for("the signal", |line| line.get("name") == "TERM");
    thread::sleep(Duration::from_millis(700));
    daemon.signal(TERM);
    assert_eq!(daemon.wait(), 6);
    assert_eq!(daemon.left(), []);
}

#[test]
fn ends_have_their_reasons() {
    let tree = "intensity = 10\n[[child]]\nid = \"a\"\nstart = \"a\"\n[[child]]\nid = \"t\"\nstart = \"a\"\nrestart = \"transient\"\n";
    let mut daemon = Daemon::start(tree, STEADY);
    daemon.wait_ready();
    let pid_of = |number: u64| {
        let line = daemon.wait_for("start", |line| line.get("order") == "start" && line.number("number") == number);
        line.number("pid") as i32
    };
    assert!(send(pid_of(1), KILL));
    daemon.wait_for("exit", |line| line.get("event") == "exit" && line.get("reason") == "killed");
    assert!(send(pid_of(2), TERM));
    // Nobody asked it to, so that this is no shutdown: it is started again.
    daemon.wait_for("exit", |line| line.get("event") == "exit" && line.get("reason") == "error:signal_15");
    daemon.wait_for("up", |line| line.get("event") == "up" && line.number("number") == 4);
    assert_eq!(daemon.stop(), 0);
    let exits: Vec<String> =
        daemon.story().into_iter().filter(|line| line.ends_with(" shutdown") && line.starts_with("->")).collect();
    assert_eq!(exits.len(), 2);
    daemon.replay();
}

#[test]
fn statuses_say_how_the_root_has_ended() {
    let crash = "[a]\ncommand = ['sh', '-c', 'exit 1']\n";
    assert_eq!(Daemon::start(&tree_of(&child("a", "")), crash).wait(), 3);
    let significant = "auto_shutdown = \"any_significant\"\n[[child]]\nid = \"a\"\nstart = \"a\"\nrestart = \"temporary\"\nsignificant = true\n";
    assert_eq!(Daemon::start(significant, crash).wait(), 5);
    assert_eq!(Daemon::start("strategy = 1", STEADY).wait(), 1);
    assert_eq!(Daemon::start(&tree_of(&child("b", "")), STEADY).wait(), 1);
    assert_eq!(Daemon::start(&tree_of(&child("a", "")), "[a]\n").wait(), 1);
}

#[test]
fn it_sleeps_where_nothing_is_due_and_opens_its_log_anew_at_hup() {
    let mut daemon = Daemon::start(&tree_of(&child("a", "")), STEADY);
    daemon.wait_ready();
    thread::sleep(Duration::from_millis(300));
    let before = ticks_of(daemon.pid());
    thread::sleep(Duration::from_secs(2));
    assert_eq!(ticks_of(daemon.pid()), before);
    fs::rename(daemon.folder.join("log"), daemon.folder.join("log.1")).unwrap();
    daemon.signal(HUP);
    daemon.wait_for("HUP", |line| line.get("remark") == "signal" && line.get("name") == "HUP");
    assert!(!daemon.read("log.1").contains("HUP"));
    assert_eq!(daemon.stop(), 0);
    assert!(daemon.read("log").contains("\"order\":\"end\""));
}

#[test]
fn its_own_death_takes_the_processes_with_it() {
    let daemon = Daemon::start(&tree_of(&child("a", "")), STEADY);
    daemon.wait_ready();
    assert_eq!(daemon.left().len(), 1);
    daemon.signal(KILL);
    wait_until("nothing is left", || daemon.left().is_empty());
}

#[test]
fn a_full_disk_under_the_log_changes_nothing() {
    let folder = common::daemon::new_folder();
    fs::write(folder.join("tree.toml"), tree_of(&child("a", ""))).unwrap();
    let commands = format!("[a]\ncommand = ['sh', '-c', 'touch {0}/up; exec sleep 1000']\n", folder.display());
    fs::write(folder.join("commands.toml"), commands).unwrap();
    let mut daemon = Daemon::start_in(folder, &["--log", "/dev/full", "--control", "control"]);
    wait_until("up", || daemon.folder.join("up").exists());
    let (is_done, text) = daemon.ctl(&["tail"]);
    assert!(is_done && text.contains("ready"), "{text}");
    assert_eq!(daemon.stop(), 0);
    assert_eq!(daemon.left(), []);
}

#[test]
fn a_log_that_is_not_the_trees_is_told() {
    let mut daemon = Daemon::start(&tree_of(&child("a", "")), STEADY);
    daemon.wait_ready();
    assert_eq!(daemon.stop(), 0);
    assert!(daemon.replay().contains("3 events and 4 orders"));
    let log = daemon.read("log");
    let is_taken = |log: &str| {
        fs::write(daemon.folder.join("changed"), log).unwrap();
        let mut replay = std::process::Command::new(common::daemon::PROGRAM);
        let output = replay.args(["replay", "tree.toml", "changed"]).current_dir(&daemon.folder).output().unwrap();
        (output.status.success(), String::from_utf8_lossy(&output.stderr).into_owned())
    };
    assert!(is_taken(&log).0);
    for (old, new) in [
        ("\"order\":\"start\",\"path\":\"a\",\"number\":1", "\"order\":\"start\",\"path\":\"a\",\"number\":2"),
        ("\"order\":\"ask\"", "\"order\":\"kill\""),
        ("\"event\":\"up\"", "\"event\":\"ignore\""),
        ("\"order\":\"ready\"", "\"remark\":\"ready\""),
        ("\"event\":\"stop\"", "\"remark\":\"stop\""),
        ("{\"time\"", "\"time\""),
    ] {
        assert!(log.contains(old), "{old}");
        let (is_taken, text) = is_taken(&log.replacen(old, new, 1));
        assert!(!is_taken && text.contains("line "), "{new}: {text}");
    }
}

/// What can be read at once, however many reads it takes.
fn read_what_is_there(reader: &mut fs::File) -> String {
    let mut read = Vec::new();
    let end = reader.read_to_end(&mut read).unwrap_err();
    assert_eq!(end.kind(), std::io::ErrorKind::WouldBlock);
    String::from_utf8_lossy(&read).into_owned()
}

#[test]
fn a_log_that_nobody_reads_keeps_nobody_waiting() {
    let folder = common::daemon::new_folder();
    fs::write(folder.join("tree.toml"), tree_of(&child("a", ""))).unwrap();
    let commands = "[a]\ncommand = ['sh', '-c', 'i=0; while [ $i -lt 3000 ]; do echo line $i; i=$((i + 1)); done; touch {}; exec sleep 1000']\noutput = 'log'\n";
    fs::write(folder.join("commands.toml"), commands.replace("{}", folder.join("done").to_str().unwrap())).unwrap();
    assert!(std::process::Command::new("mkfifo").arg(folder.join("log")).status().unwrap().success());
    // Opened for both, so that the daemon's opening doesn't wait for a reader; and so that a read doesn't wait for a line.
    let mut reader =
        fs::File::options().read(true).write(true).custom_flags(O_NONBLOCK).open(folder.join("log")).unwrap();
    let mut daemon = Daemon::start_in(folder, &["--json", "--log", "log", "--control", "control"]);
    wait_until("all was said", || daemon.folder.join("done").exists());
    wait_until("the last line", || daemon.ctl(&["tail", "100"]).1.contains("line 2999"));
    // What there was room for (a page at least) is read; the next line says how many were lost.
    assert!(read_what_is_there(&mut reader).len() >= 4_096);
    let (_, text) = daemon.ctl(&["start", "a"]);
    assert!(text.contains("the child runs"), "{text}");
    let mut text = String::new();
    wait_until("the count of what was lost", || {
        text.push_str(&read_what_is_there(&mut reader));
        text.contains("\"remark\":\"lost\",\"lines\":")
    });
    assert_eq!(daemon.stop(), 0);
}
