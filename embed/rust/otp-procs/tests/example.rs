//! The worked example of `embed/example`: each order as it should be.

mod common;

use common::daemon::{Daemon, new_folder};
use std::fs;
use std::io::{Read, Write};
use std::net::{TcpListener, TcpStream};
use std::path::Path;

/// A port that nobody has just now.
fn free_port() -> u16 {
    TcpListener::bind("127.0.0.1:0").unwrap().local_addr().unwrap().port()
}

fn status_line(port: u16) -> String {
    let mut stream = TcpStream::connect(("127.0.0.1", port)).unwrap();
    stream.write_all(b"HEAD / HTTP/1.0\r\n\r\n").unwrap();
    let mut answer = String::new();
    stream.read_to_string(&mut answer).unwrap();
    answer.lines().next().unwrap_or("").to_string()
}

#[test]
fn the_worked_example_runs_as_told() {
    let example = Path::new(env!("CARGO_MANIFEST_DIR")).join("../../example");
    let (folder, port) = (new_folder(), free_port());
    for name in ["tree.toml", "web.py"] {
        fs::copy(example.join(name), folder.join(name)).unwrap();
    }
    let commands = fs::read_to_string(example.join("commands.toml")).unwrap();
    assert!(commands.contains("\"8420\""));
    fs::write(folder.join("commands.toml"), commands.replace("8420", &port.to_string())).unwrap();
    let mut daemon = Daemon::start_in(folder, &["--json", "--log", "log", "--control", "control"]);

    daemon.wait_ready();
    assert!(status_line(port).contains("200"));
    daemon.wait_for("the last start", |line| line.get("event") == "up" && line.number("number") == 9);
    let (is_done, status) = daemon.ctl(&["status"]);
    assert!(is_done && status.contains("1 of 2 restarts in 60 s"), "{status}");
    assert_eq!(daemon.stop(), 0);
    assert_eq!(
        daemon.story(),
        [
            "start web #1",
            "-> up web #1",
            "start pool/a #3",
            "-> up pool/a #3",
            "start pool/b #4",
            "-> up pool/b #4",
            "start stubborn #5",
            "-> up stubborn #5",
            "ready",
            "-> exit pool/a #3 error:status_1",
            "start pool/a #6",
            "-> up pool/a #6",
            "-> exit pool/a #6 error:status_1",
            "ask pool/b #4",
            "-> exit pool/b #4 shutdown",
            "start pool/a #8",
            "-> up pool/a #8",
            "start pool/b #9",
            "-> up pool/b #9",
            "-> stop",
            "ask stubborn #5",
            "kill stubborn #5",
            "-> exit stubborn #5 killed",
            "ask pool/b #9",
            "-> exit pool/b #9 shutdown",
            "ask pool/a #8",
            "-> exit pool/a #8 shutdown",
            "ask web #1",
            "-> exit web #1 shutdown",
            "end shutdown",
        ]
    );
    let asked = daemon.wait_for("ask", |line| line.get("order") == "ask" && line.get("path") == "stubborn");
    let killed = daemon.wait_for("kill", |line| line.get("order") == "kill");
    assert_eq!(asked.number("within_ms"), 500);
    assert!(killed.number("ms") - asked.number("ms") >= 500);
    assert_eq!(daemon.left(), []);
    daemon.replay();
}
