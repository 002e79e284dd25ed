//! `ctl` for scripts: statuses, waits, signals, patterns, events and metrics; and `sd_notify`, both ways.

mod common;

use common::daemon::{Daemon, PATIENCE, PROGRAM, new_folder, send, wait_until};
use std::fs;
use std::io::{BufRead, BufReader, Read, Write};
use std::os::unix::net::{UnixDatagram, UnixStream};
use std::process::{Command, Stdio};

fn child(id: &str, more: &str) -> String {
    format!("[[child]]\nid = \"{id}\"\nstart = \"{id}\"\n{more}\n")
}

const POOL: &str =
    "[child.tree]\n[[child.tree.child]]\nid = \"a\"\nstart = \"a\"\n[[child.tree.child]]\nid = \"b\"\nstart = \"a\"\n";
const STEADY: &str = "[a]\ncommand = ['sleep', '1000']\n";

/// The exit status, and what was printed.
fn ctl(daemon: &Daemon, words: &[&str]) -> (i32, String) {
    let mut command = Command::new(PROGRAM);
    command.args(["ctl", "--control"]).arg(daemon.folder.join("control")).args(words);
    let output = command.output().unwrap();
    let text = String::from_utf8([output.stdout, output.stderr].concat()).unwrap();
    (output.status.code().unwrap(), text.split_inclusive('\n').filter(common::daemon::is_answer).collect())
}

fn pid_of(daemon: &Daemon, path: &str, count: usize) -> i32 {
    let is_it = |line: &common::daemon::Line| line.get("order") == "start" && line.get("path") == path;
    wait_until("it was started", || daemon.log().iter().filter(|line| is_it(line)).count() >= count);
    daemon.log().into_iter().filter(is_it).nth(count - 1).unwrap().number("pid") as i32
}

#[test]
fn a_status_tells_what_a_script_wants_to_know() {
    let mut daemon = Daemon::start(&[child("a", ""), child("pool", POOL)].concat(), STEADY);
    daemon.wait_ready();
    for (words, status, wanted) in [
        (&["status", "a"][..], 0, "a                          up"),
        (&["status", "/pool/a"], 0, "pool/a"),
        (&["status", "pool"], 0, "one_for_one"),
        (&["status", "/"], 0, "one_for_one"),
        (&["status", "pool/*"], 0, "pool/b"),
        (&["status", "a", "--json"], 0, "\"state\":\"up\""),
        (&["status", "x"], 4, "no such child"),
        (&["status", "x*"], 4, "no child has such a path"),
        (&["stop", "pool/b"], 0, "pool/b: ok"),
        (&["status", "pool/b"], 3, "undefined"),
        (&["status", "pool/*"], 3, "pool/a"),
        (&["status"], 0, "pool/"),
    ] {
        let (found, text) = ctl(&daemon, words);
        assert!(found == status && text.contains(wanted), "{words:?}: {found} {text}");
    }
    assert_eq!(daemon.stop(), 0);
    assert_eq!(ctl(&daemon, &["status", "a"]).0, 1);
}

#[test]
fn a_status_tells_how_often_a_child_was_started_and_how_it_ended_last() {
    let fails = "[b]\ncommand = ['/nowhere/program']\nrestart_after = '1h'\n";
    let mut daemon = Daemon::start(
        &[child("a", ""), child("b", "restart = \"transient\""), child("pool", POOL)].concat(),
        &format!("{STEADY}{fails}"),
    );
    daemon.wait_ready();
    let status = |words: &[&str]| ctl(&daemon, &[&["status"], words].concat()).1;
    assert!(status(&["a"]).ends_with(" s\n") && !status(&["a", "--json"]).contains("last_"));
    send(pid_of(&daemon, "a", 1), 9);
    pid_of(&daemon, "a", 2);
    assert!(ctl(&daemon, &["wait", "a", "up"]).0 == 0);
    assert!(status(&["a"]).ends_with("  2 starts  last ended: signal 9 (KILL)\n"), "{}", status(&["a"]));
    let json = status(&["a", "--json"]);
    assert!(json.contains(",\"starts\":2,\"last_end\":\"signal 9 (KILL)\",\"last_end_ms\":"), "{json}");
    assert!(status(&["b"]).contains("  last start failed: "), "{}", status(&["b"]));
    assert!(status(&["b", "--json"]).contains(",\"last_failed_start\":"));
    assert!(ctl(&daemon, &["stop", "pool/b"]).0 == 0);
    assert!(status(&["pool/b"]).ends_with("undefined  last ended: signal 15 (TERM)\n"), "{}", status(&["pool/b"]));
    assert_eq!(daemon.stop(), 0);
}

#[test]
fn patterns_mean_several_children_and_the_answer_comes_once() {
    let mut daemon = Daemon::start(&[child("a", ""), child("pool", POOL)].concat(), STEADY);
    daemon.wait_ready();
    let (status, text) = ctl(&daemon, &["restart", "pool/*"]);
    assert_eq!((status, text.lines().count()), (0, 2), "{text}");
    let (status, text) = ctl(&daemon, &["stop", "*"]);
    assert_eq!((status, text.lines().count()), (0, 2), "{text}");
    assert_eq!(ctl(&daemon, &["status", "*"]).0, 3);
    // One of two is refused.
    assert_eq!(ctl(&daemon, &["start", "a"]).0, 0);
    let (status, text) = ctl(&daemon, &["start", "*"]);
    assert!(status == 1 && text.contains("a: ") && text.contains("pool: "), "{text}");
    assert_eq!(ctl(&daemon, &["start", "x?"]).0, 1);
    assert_eq!(daemon.stop(), 0);
    daemon.replay();
}

#[test]
fn who_waits_is_told_once_it_is_so() {
    let commands = format!(
        "{STEADY}[slow]\ncommand = ['sh', '-c', 'read x < {{folder}}/fifo; echo >&3; exec sleep 1000']\nready = 'notify'\n"
    );
    let folder = new_folder();
    assert!(Command::new("mkfifo").arg(folder.join("fifo")).status().unwrap().success());
    fs::write(folder.join("tree.toml"), [child("a", ""), child("slow", "")].concat()).unwrap();
    fs::write(folder.join("commands.toml"), commands.replace("{folder}", folder.to_str().unwrap())).unwrap();
    let mut daemon = Daemon::start_in(folder, &["--json", "--log", "log", "--control", "control"]);
    pid_of(&daemon, "slow", 1);
    assert_eq!(ctl(&daemon, &["wait", "a", "up"]).0, 0);
    let (status, text) = ctl(&daemon, &["wait", "slow", "up", "--within", "300ms"]);
    assert!(status == 1 && text.contains("no answer within 0.3 s"), "{text}");
    assert_eq!(ctl(&daemon, &["wait", "x", "up"]).0, 1);
    let mut waiting = Command::new(PROGRAM);
    waiting.args(["ctl", "--control"]).arg(daemon.folder.join("control")).args(["wait", "*", "up"]);
    let mut waiting = waiting.spawn().unwrap();
    fs::write(daemon.folder.join("fifo"), "x\n").unwrap();
    assert!(waiting.wait().unwrap().success());
    assert_eq!(ctl(&daemon, &["stop", "a"]).0, 0);
    assert_eq!(ctl(&daemon, &["wait", "a", "down"]).0, 0);
    assert_eq!(daemon.stop(), 0);
}

#[test]
fn a_signal_is_sent_to_a_process() {
    let commands = "[a]\ncommand = ['sh', '-c', 'trap \"echo hupped\" HUP; echo >&3; while :; do sleep 0.1; done']\nready = 'notify'\noutput = 'log'\n";
    let mut daemon = Daemon::start(&child("a", ""), commands);
    daemon.wait_ready();
    let (status, text) = ctl(&daemon, &["signal", "a", "HUP"]);
    assert!(status == 0 && text.starts_with("a: HUP was sent to "), "{text}");
    daemon.wait_for("it", |line| line.get("line") == "hupped");
    for (words, wanted) in [
        (["signal", "a", "NONSENSE"], "there is no signal NONSENSE"),
        (["signal", "b", "HUP"], "no such child"),
        (["signal", "/", "HUP"], "is a supervisor"),
    ] {
        let (status, text) = ctl(&daemon, &words);
        assert!(status != 0 && text.contains(wanted), "{words:?}: {text}");
    }
    assert_eq!(daemon.stop(), 0);
}

#[test]
fn events_are_told_as_json_and_followed_by_path() {
    let folder = new_folder();
    fs::write(folder.join("tree.toml"), ["intensity = 5\n", &child("a", ""), &child("pool", POOL)].concat()).unwrap();
    fs::write(folder.join("commands.toml"), STEADY).unwrap();
    let mut daemon = Daemon::start_in(folder, &["--log", "log", "--control", "control"]);
    wait_until("ready", || daemon.read("log").contains(" ready"));
    let (status, text) = ctl(&daemon, &["events"]);
    assert!(status == 0 && text.lines().all(|line| line.starts_with("{\"time\":")), "{text}");
    assert!(text.contains("\"order\":\"ready\"") && text.contains("\"remark\":\"began\""), "{text}");
    let mut command = Command::new(PROGRAM);
    command.args(["ctl", "--control"]).arg(daemon.folder.join("control")).args(["events", "pool/", "-f"]);
    let mut follower = command.stdout(Stdio::piped()).spawn().unwrap();
    let mut lines = BufReader::new(follower.stdout.take().unwrap()).lines();
    let mut next = || lines.next().unwrap().unwrap();
    for _ in 0..5 {
        let line = next();
        assert!(line.contains("\"path\":\"pool/"), "{line}");
    }
    assert_eq!(ctl(&daemon, &["restart", "a"]).0, 0);
    assert_eq!(ctl(&daemon, &["stop", "pool/b"]).0, 0);
    let line = next();
    assert!(line.contains("\"path\":\"pool/b\"") && line.contains("terminate_child"), "{line}");
    assert_eq!(daemon.stop(), 0);
    assert!(follower.wait().unwrap().success());
}

#[test]
fn metrics_are_told_also_by_http() {
    let mut daemon = Daemon::start(&["intensity = 5\n", &child("a", ""), &child("pool", POOL)].concat(), STEADY);
    daemon.wait_ready();
    send(pid_of(&daemon, "a", 1), 9);
    pid_of(&daemon, "a", 2);
    assert_eq!(ctl(&daemon, &["stop", "pool/b"]).0, 0);
    let (_, text) = ctl(&daemon, &["metrics"]);
    for wanted in [
        "otp_procs_up{path=\"a\"} 1",
        "otp_procs_up{path=\"pool\"} 1",
        "otp_procs_up{path=\"pool/b\"} 0",
        "otp_procs_starts_total{path=\"a\"} 2",
        "otp_procs_exits_total{path=\"a\"} 1",
        "otp_procs_restarts_in_period{supervisor=\"\"} 1",
        "otp_procs_intensity{supervisor=\"\"} 5",
        "otp_procs_lost_lines_total 0",
    ] {
        assert!(text.lines().any(|line| line == wanted), "{wanted}\n{text}");
    }
    // Each line has a form that Prometheus reads, and each metric its type.
    for line in text.lines().filter(|line| !line.starts_with('#')) {
        let (name, value) = line.rsplit_once(' ').unwrap();
        let bare = name.split('{').next().unwrap();
        assert!(value.parse::<f64>().is_ok() && text.contains(&format!("# TYPE {bare} ")), "{line}");
    }
    let ask = |line: &str| {
        let mut stream = UnixStream::connect(daemon.folder.join("control/socket")).unwrap();
        // One who sends too much is cut off, and reads that behind its answer.
        let _ = stream.write_all(format!("{line}\r\nHost: x\r\n\r\n").as_bytes());
        let mut answer = Vec::new();
        let _ = stream.read_to_end(&mut answer);
        String::from_utf8(answer).unwrap()
    };
    let answer = ask("GET /metrics HTTP/1.1");
    let (head, body) = answer.split_once("\r\n\r\n").unwrap();
    assert!(
        head.starts_with("HTTP/1.1 200 OK\r\n") && head.contains(&format!("Content-Length: {}", body.len())),
        "{head}"
    );
    assert!(body.contains("otp_procs_up{path=\"a\"} 1\n"));
    let head = ask("HEAD /metrics HTTP/1.1");
    assert!(head.starts_with("HTTP/1.1 200 OK\r\n") && head.ends_with("\r\n\r\n"), "{head}");
    assert!(ask("GET /page HTTP/1.1").contains("<title>otp-procs</title>"));
    for (line, wanted) in [
        ("GET /other HTTP/1.1", "HTTP/1.1 404 Not Found\r\n"),
        ("GET /../metrics HTTP/1.1", "HTTP/1.1 404 Not Found\r\n"),
        ("POST /metrics HTTP/1.1", "HTTP/1.1 405 Method Not Allowed\r\n"),
        ("GET metrics HTTP/1.1", "HTTP/1.1 400 Bad Request\r\n"),
        ("GET /metrics HTTP/3", "HTTP/1.1 505 HTTP Version Not Supported\r\n"),
    ] {
        let answer = ask(line);
        assert!(answer.starts_with(wanted) && answer.contains("Connection: close\r\n"), "{line}: {answer}");
    }
    let endless = ask(&format!("GET /metrics HTTP/1.1\r\n{}", "x: y\r\n".repeat(2000)));
    assert!(endless.starts_with("HTTP/1.1 431 "), "{endless}");
    assert_eq!(daemon.stop(), 0);
}

/// Tells by the socket of `NOTIFY_SOCKET`, as a program of systemd does.
const TELLS: &str = "import os, socket, sys, time\n\
    s = socket.socket(socket.AF_UNIX, socket.SOCK_DGRAM)\n\
    name = os.environ['NOTIFY_SOCKET']\n\
    s.connect('\\0' + name[1:] if name[0] == '@' else name)\n\
    for text in sys.argv[1:]:\n\
    \u{20}   if text.startswith('sleep '): time.sleep(float(text[6:]))\n\
    \u{20}   else: s.send(text.encode())\n\
    time.sleep(1000)\n";

fn teller(folder: &std::path::Path, words: &[&str]) -> String {
    fs::write(folder.join("tells.py"), TELLS).unwrap();
    let words: Vec<String> = words.iter().map(|word| format!("'{word}'")).collect();
    format!("[a]\ncommand = ['python3', 'tells.py', {}]\nready = 'sd_notify'\n", words.join(", "))
}

fn start_teller(words: &[&str], more: &str) -> Daemon {
    let folder = new_folder();
    fs::write(folder.join("tree.toml"), child("a", "shutdown = 500")).unwrap();
    fs::write(folder.join("commands.toml"), teller(&folder, words) + more).unwrap();
    Daemon::start_in(folder, &["--json", "--log", "log", "--control", "control"])
}

#[test]
fn a_process_tells_that_it_is_up_and_how_it_is() {
    let mut daemon = start_teller(&["STATUS=warming up", "sleep 0.3", "READY=1", "STATUS=at work"], "");
    daemon.wait_ready();
    let up = daemon.wait_for("up", |line| line.get("event") == "up");
    assert!(up.number("after_ms") >= 300, "{up:?}");
    wait_until("its words", || ctl(&daemon, &["status", "a"]).1.contains("says at work"));
    assert!(ctl(&daemon, &["status", "--json"]).1.contains("\"says\":\"at work\""));
    assert_eq!(daemon.stop(), 0);
    daemon.replay();
}

#[test]
fn one_that_tells_nothing_in_time_has_failed() {
    let mut daemon = start_teller(&["STATUS=x"], "ready_within = 600\n");
    assert_eq!(daemon.wait(), 4);
    assert_eq!(daemon.story()[1], "-> fail a #1 error:not_up_in_time");
}

#[test]
fn one_whose_watchdog_is_silent_is_ended_and_restarted() {
    let mut daemon =
        start_teller(&["READY=1", "sleep 0.5", "WATCHDOG=1", "sleep 0.5", "WATCHDOG=1"], "watchdog = 5000\n");
    daemon.wait_ready();
    let line = daemon.wait_for("its end", |line| line.get("event") == "exit");
    assert_eq!(line.get("reason"), "error:watchdog", "{line:?}");
    assert!(line.get("ended") == "signal 6" && line.number("ms") >= 5000, "{line:?}");
    daemon.wait_for("ABRT", |line| line.get("remark") == "watchdog" && line.get("signal") == "ABRT");
    pid_of(&daemon, "a", 2);
    assert_eq!(daemon.stop(), 0);
    daemon.replay();
}

#[test]
fn the_manager_that_has_started_the_daemon_is_told_and_its_processes_are_not() {
    let folder = new_folder();
    let manager = UnixDatagram::bind(folder.join("manager")).unwrap();
    manager.set_read_timeout(Some(PATIENCE)).unwrap();
    fs::write(folder.join("tree.toml"), child("a", "")).unwrap();
    fs::write(folder.join("commands.toml"), "[a]\ncommand = ['sh', '-c', 'env > env; touch done; exec sleep 1000']\n")
        .unwrap();
    let mut command = Command::new(PROGRAM);
    command.env("NOTIFY_SOCKET", folder.join("manager")).env("WATCHDOG_USEC", "200000");
    let mut daemon = Daemon::start_by(folder, command, &["--json", "--log", "log", "--no-control"]);
    let mut told = Vec::new();
    let mut hear = |wanted: &str| {
        let mut room = [0; 500];
        while !told.last().is_some_and(|text: &String| text.starts_with(wanted)) {
            let count = manager.recv(&mut room).unwrap();
            told.push(String::from_utf8(room[..count].to_vec()).unwrap());
        }
    };
    hear("READY=1\nSTATUS=1 processes are up");
    hear("WATCHDOG=1");
    hear("READY=1".replace("READY", "WATCHDOG").as_str());
    wait_until("its variables", || daemon.folder.join("done").exists());
    assert!(!daemon.read("env").contains("NOTIFY_SOCKET") && !daemon.read("env").contains("WATCHDOG"));
    daemon.signal(common::daemon::TERM);
    hear("STOPPING=1");
    assert_eq!(daemon.wait(), 0);
}

#[test]
fn all_runs_for_one_process_as_in_a_container() {
    let folder = new_folder();
    let tree =
        format!("auto_shutdown = \"any_significant\"\n{}", child("a", "restart = \"transient\"\nsignificant = true"));
    fs::write(folder.join("tree.toml"), tree).unwrap();
    let script = "trap \"exit 7\" USR1; echo >&3; while :; do sleep 0.1; done";
    fs::write(
        folder.join("commands.toml"),
        format!("[a]\ncommand = ['sh', '-c', '{script}']\nready = 'notify'\n").replace("exit 7", "exit 0"),
    )
    .unwrap();
    let flags = ["--json", "--log", "log", "--no-control", "--main", "a"];
    let mut daemon = Daemon::start_in(folder.clone(), &flags);
    daemon.wait_ready();
    daemon.signal(10);
    assert_eq!(daemon.wait(), 0);
    daemon.wait_for("it", |line| line.get("remark") == "signal" && line.get("text") == "passed on to a");
    // A status of its own, at a stop.
    let commands = "[a]\ncommand = ['sh', '-c', 'trap \"exit 7\" TERM; echo >&3; while :; do sleep 0.1; done']\nready = 'notify'\n";
    fs::create_dir_all(&folder).unwrap();
    fs::write(folder.join("tree.toml"), child("a", "")).unwrap();
    fs::write(folder.join("commands.toml"), commands).unwrap();
    let mut daemon = Daemon::start_in(folder.clone(), &flags);
    wait_until("ready again", || daemon.read("log").matches("\"order\":\"ready\"").count() == 2);
    daemon.signal(common::daemon::TERM);
    assert_eq!(daemon.wait(), 7);
    let mut daemon = Daemon::start_in(folder, &["--no-control", "--main", "b"]);
    assert_eq!(daemon.wait(), 1);
    assert!(daemon.read("stderr").contains("--main b: there is no such child"));
}
