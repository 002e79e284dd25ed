//! Where output and errors of a process go: apart, to files that are begun anew, to the system's log; and `ctl tail PATH`.

mod common;

use common::daemon::{Daemon, HUP, PROGRAM, send, wait_until};
use std::fs;
use std::io::{BufRead, BufReader};
use std::os::unix::net::UnixDatagram;
use std::process::{Command, Stdio};

const TREE: &str = "intensity = 5\n[[child]]\nid = \"a\"\nstart = \"a\"\n";

#[test]
fn errors_go_apart_where_the_file_says_so() {
    let commands =
        "[a]\ncommand = ['sh', '-c', 'echo out; echo err >&2; echo >&3; exec sleep 1000']\nready = 'notify'\n";
    let mut daemon = Daemon::start(TREE, &format!("{commands}output = 'log'\nerrors = 'log'\n"));
    let said = |stream: &'static str| {
        move |line: &common::daemon::Line| line.get("remark") == "says" && line.get("stream") == stream
    };
    assert_eq!(daemon.wait_for("an error", said("errors")).get("line"), "err");
    assert_eq!(daemon.wait_for("a line", said("")).get("line"), "out");
    assert_eq!(daemon.stop(), 0);
    daemon.replay();
    let files = "output = 'file'\noutput_file = '{folder}/out'\nerrors = 'file'\nerrors_file = '{folder}/err'\n";
    for more in ["", "output_max = '1M'\n"] {
        let mut daemon = Daemon::start(TREE, &format!("{commands}{files}{more}"));
        wait_until("both files", || (daemon.read("out").as_str(), daemon.read("err").as_str()) == ("out\n", "err\n"));
        assert_eq!(daemon.stop(), 0);
    }
    let mut daemon = Daemon::start(TREE, &format!("{commands}output = 'null'\nerrors = 'log'\n"));
    assert_eq!(daemon.wait_for("an error", said("errors")).get("line"), "err");
    assert_eq!(daemon.stop(), 0);
    assert!(!daemon.log().iter().any(|line| line.get("line") == "out"));
}

/// It writes 20,000 numbered lines, then says that it is up.
const COUNTS: &str = "[a]\ncommand = ['sh', '-c', 'i=0; while [ $i -lt 20000 ]; do echo line $i of many; i=$((i+1)); done; echo >&3; exec sleep 1000']\nready = 'notify'\n";

#[test]
fn a_file_is_begun_anew_by_its_size_and_no_line_is_lost_or_cut() {
    let more = "output = 'file'\noutput_file = '{folder}/out'\noutput_max = '100K'\noutput_keep = 9\n";
    let mut daemon = Daemon::start(TREE, &format!("{COUNTS}{more}"));
    daemon.wait_ready();
    let (_, last) = daemon.ctl(&["tail", "a", "1"]);
    wait_until("the last line", || daemon.read("out").ends_with("line 19999 of many\n"));
    assert!(last.starts_with("line 19"), "{last}");
    let names: Vec<String> = (1..=9).rev().map(|number| format!("out.{number}")).chain(["out".to_string()]).collect();
    let text: String = names.iter().map(|name| daemon.read(name)).collect();
    let wanted: String = (0..20000).map(|number| format!("line {number} of many\n")).collect();
    assert!(text == wanted, "{} and {} bytes", text.len(), wanted.len());
    for name in &names {
        let part = daemon.read(name);
        assert!(part.len() <= (100 << 10) + 20 && (part.is_empty() || part.ends_with('\n')), "{name}");
    }
    assert!(!daemon.read("out.3").is_empty());
    // HUP opens it anew, and so does the next line after it was renamed.
    fs::rename(daemon.folder.join("out"), daemon.folder.join("mine")).unwrap();
    daemon.signal(HUP);
    wait_until("a new file", || daemon.folder.join("out").exists());
    assert_eq!(daemon.stop(), 0);
}

#[test]
fn the_log_is_begun_anew_by_its_size() {
    let folder = common::daemon::new_folder();
    fs::write(folder.join("tree.toml"), TREE).unwrap();
    fs::write(folder.join("commands.toml"), format!("{COUNTS}output = 'log'\n")).unwrap();
    let flags = ["--json", "--log", "log", "--log-max", "500K", "--log-keep", "20", "--no-control"];
    let mut daemon = Daemon::start_in(folder, &flags);
    wait_until("ready", || {
        let names = (1..=20).rev().map(|number| format!("log.{number}")).chain(["log".to_string()]);
        names.map(|name| daemon.read(&name)).collect::<String>().contains("\"order\":\"ready\"")
    });
    assert_eq!(daemon.stop(), 0);
    let names: Vec<String> = (1..=20).rev().map(|number| format!("log.{number}")).chain(["log".to_string()]).collect();
    let text: String = names.iter().map(|name| daemon.read(name)).collect();
    assert_eq!(text.matches("\"remark\":\"says\"").count(), 20000);
    assert!(names.iter().all(|name| daemon.read(name).len() <= 500 << 10) && !daemon.read("log.3").is_empty());
    fs::write(daemon.folder.join("log"), text).unwrap();
    daemon.replay();
}

#[test]
fn lines_go_to_the_systems_log_in_order() {
    for (word, wanted) in [("syslog", "<30>a["), ("journal", "MESSAGE=line 0 of many\nPRIORITY=6\n")] {
        let folder = common::daemon::new_folder();
        let server = UnixDatagram::bind(folder.join("socket")).unwrap();
        server.set_read_timeout(Some(common::daemon::PATIENCE)).unwrap();
        fs::write(folder.join("tree.toml"), TREE).unwrap();
        let commands = COUNTS.replace("20000", "2000");
        fs::write(folder.join("commands.toml"), format!("{commands}output = '{word}'\noutput_socket = 'socket'\n"))
            .unwrap();
        let mut daemon = Daemon::start_in(folder, &["--json", "--log", "log", "--control", "control"]);
        let mut room = [0; 1000];
        // A slow reader keeps the process waiting, and loses nothing.
        for number in 0..2000 {
            let count = server.recv(&mut room).unwrap();
            let text = std::str::from_utf8(&room[..count]).unwrap();
            assert!(text.contains(&format!("line {number} of many")), "{number}: {text}");
            assert!(number > 0 || text.starts_with(wanted), "{text}");
        }
        daemon.wait_ready();
        let pid = daemon.wait_for("start", |line| line.get("order") == "start").get("pid").to_string();
        assert!(std::str::from_utf8(&room).unwrap().contains(&pid));
        assert!(daemon.ctl(&["tail", "a", "2"]).1.ends_with("line 1998 of many\nline 1999 of many\n"));
        assert_eq!(daemon.stop(), 0);
        assert!(!daemon.log().iter().any(|line| line.get("remark") == "lost"));
    }
}

#[test]
fn what_nobody_hears_is_told_lost() {
    let commands = "[a]\ncommand = ['sh', '-c', 'echo hello; echo >&3; exec sleep 1000']\nready = 'notify'\noutput = 'syslog'\n\
                    output_socket = '{folder}/nobody'\n";
    let mut daemon = Daemon::start(TREE, commands);
    let lost = daemon.wait_for("lost", |line| line.get("remark") == "lost");
    assert!(lost.number("bytes") > 5 && lost.get("path") == "a", "{lost:?}");
    assert_eq!(daemon.stop(), 0);
}

#[test]
fn the_lines_of_one_process_are_told_and_followed() {
    let tree = format!("{TREE}[[child]]\nid = \"b\"\nstart = \"b\"\n[[child]]\nid = \"c\"\nstart = \"c\"\n");
    let commands = "[a]\ncommand = ['sh', '-c', 'echo first of $OTP_NUMBER; echo >&3; read x < {folder}/fifo; echo last; exec sleep 1000']\nready = 'notify'\noutput = 'log'\n\
                    [b]\ncommand = ['sh', '-c', 'echo other; exec sleep 1000']\noutput = 'log'\n\
                    [c]\ncommand = ['sleep', '1000']\noutput = 'null'\n";
    let folder = common::daemon::new_folder();
    assert!(Command::new("mkfifo").arg(folder.join("fifo")).status().unwrap().success());
    fs::write(folder.join("tree.toml"), tree).unwrap();
    fs::write(folder.join("commands.toml"), commands.replace("{folder}", folder.to_str().unwrap())).unwrap();
    let mut daemon = Daemon::start_in(folder, &["--json", "--log", "log", "--control", "control"]);
    daemon.wait_ready();
    wait_until("both have spoken", || daemon.ctl(&["tail", "b"]).1 == "other\n");
    assert_eq!(daemon.ctl(&["tail", "/a"]).1, "first of 1\n");
    let (is_taken, told) = daemon.ctl(&["tail", "c"]);
    assert!(!is_taken && told.contains("its output doesn't come by the daemon"), "{told}");
    let (is_taken, told) = daemon.ctl(&["tail", "d", "-f"]);
    assert!(!is_taken && told.contains("no such child"), "{told}");
    let mut command = Command::new(PROGRAM);
    command.args(["ctl", "--control"]).arg(daemon.folder.join("control")).args(["tail", "a", "-f"]);
    let mut follower = command.stdout(Stdio::piped()).spawn().unwrap();
    let mut lines = BufReader::new(follower.stdout.take().unwrap()).lines();
    assert_eq!(lines.next().unwrap().unwrap(), "first of 1");
    fs::write(daemon.folder.join("fifo"), "x\n").unwrap();
    assert_eq!(lines.next().unwrap().unwrap(), "last");
    // It is followed over a restart, too.
    let pid = daemon.wait_for("start", |line| line.get("path") == "a" && line.get("order") == "start").number("pid");
    send(pid as i32, 9);
    assert!(lines.next().unwrap().unwrap().starts_with("first of "));
    assert_eq!(daemon.stop(), 0);
    assert!(lines.next().is_none() && follower.wait().unwrap().success());
}
