//! The control socket: what is answered, and who is kept out.

mod common;

use common::daemon::{CONT, Daemon, KILL, PROGRAM, STOP, can_be_another_user, exists, new_folder, wait_until};
use std::fs;
use std::io::{Read, Write};
use std::os::unix::fs::PermissionsExt;
use std::os::unix::net::UnixStream;
use std::process::Command;
use std::time::Duration;

const TREE: &str = "intensity = 3\nperiod = 60\n[[child]]\nid = \"a\"\nstart = \"a\"\n[[child]]\nid = \"pool\"\nstart = \"pool\"\n\
                    [child.tree]\nstrategy = \"simple_one_for_one\"\n[[child.tree.child]]\nid = \"w\"\nstart = \"a\"\n";
const COMMANDS: &str = "[a]\ncommand = [\"sleep\", \"1000\"]\n";

fn connect(daemon: &Daemon) -> UnixStream {
    UnixStream::connect(daemon.folder.join("control/socket")).unwrap()
}

#[test]
fn each_request_is_answered() {
    let mut daemon = Daemon::start(TREE, COMMANDS);
    daemon.wait_ready();
    let done = |words: &[&str]| {
        let (is_done, text) = daemon.ctl(words);
        assert!(is_done, "{words:?}: {text}");
        text
    };
    let refused = |words: &[&str]| {
        let (is_done, text) = daemon.ctl(words);
        assert!(!is_done, "{words:?}: {text}");
        text
    };
    assert_eq!(done(&["count"]), "specs 2 active 2 supervisors 1 workers 1\n");
    assert_eq!(done(&["which"]), "a,#1,worker,a\npool,#2,supervisor,pool\n");
    assert_eq!(done(&["start", "pool/"]), "pool/: ok #3\n");
    assert_eq!(done(&["which", "pool"]), "undefined,#3,worker,a\n");
    assert_eq!(done(&["stop", "pool/#3"]), "pool/#3: ok\n");
    assert_eq!(done(&["stop", "a"]), "a: ok\n");
    assert!(done(&["status"]).contains("undefined"));
    assert_eq!(done(&["start", "a"]), "a: ok #4\n");
    assert_eq!(done(&["restart", "a"]), "a: ok #5\n");
    assert_eq!(done(&["restart", "pool"]), "pool: ok #6\n");
    let json = done(&["status", "--json"]);
    assert!(json.contains("\"restarts_in_period\":0") && json.contains("\"pid\":"), "{json}");
    assert!(refused(&["start", "a"]).contains("the child runs"));
    assert!(refused(&["start", "nobody"]).contains("no such child"));
    assert!(refused(&["start", "nobody/x"]).contains("no such supervisor"));
    assert!(refused(&["start", "a/"]).contains("no such supervisor"));
    assert!(refused(&["start", "pool/w"]).contains("simple_one_for_one"));
    // No process ends by being started.
    assert_eq!(done(&["start", "pool/"]), "pool/: ok #7\n");
    assert!(refused(&["start", "pool/#7"]).contains("pool/#7: a dynamic child is not started by its number"));
    assert!(refused(&["restart", "pool/#7"]).contains("stop it, and start pool/"));
    assert_eq!(done(&["which", "pool"]), "undefined,#7,worker,a\n");
    assert!(refused(&["nonsense"]).contains("there is no request nonsense"));
    assert!(done(&["tail", "3"]).lines().count() == 3);
    assert!(done(&["shutdown"]).contains("the tree has ended"));
    assert_eq!(daemon.wait(), 0);
    assert!(!exists(&daemon.folder.join("control/socket")));
    daemon.replay();
}

#[test]
fn a_temporary_child_is_not_restarted_and_gone_once_it_is_stopped() {
    let tree = "[[child]]\nid = \"t\"\nstart = \"a\"\nrestart = \"temporary\"\n";
    let mut daemon = Daemon::start(tree, COMMANDS);
    daemon.wait_ready();
    let (is_done, text) = daemon.ctl(&["restart", "t"]);
    assert!(!is_done && text.contains("t is temporary"), "{text}");
    assert_eq!(daemon.ctl(&["which"]), (true, "t,#1,worker,a\n".to_string()));
    assert_eq!(daemon.ctl(&["stop", "t"]), (true, "t: ok; it was temporary, and is gone for good\n".to_string()));
    let (is_done, text) = daemon.ctl(&["start", "t"]);
    assert!(!is_done && text.contains("no such child"), "{text}");
    assert_eq!(daemon.stop(), 0);
    daemon.replay();
}

#[test]
fn rubbish_and_silence_keep_nobody_waiting() {
    let mut daemon = Daemon::start(TREE, COMMANDS);
    daemon.wait_ready();
    // They say nothing, or not enough, and go on standing there.
    let silent: Vec<UnixStream> = (0..10).map(|_| connect(&daemon)).collect();
    let mut half = connect(&daemon);
    half.write_all(b"stat").unwrap();
    let mut follower = connect(&daemon);
    follower.write_all(b"tail -f\n").unwrap();
    // Rubbish is refused; one who speaks HTTP by HTTP.
    let long = vec![b'x'; 100_000];
    for rubbish in [&b"\xff\xfe\x00\n"[..], &long, b"\n", b"stop\n", b"GET / HTTP/1.1\r\n\r\n"] {
        let mut stream = connect(&daemon);
        let _ = stream.write_all(rubbish);
        let mut answer = Vec::new();
        let _ = stream.read_to_end(&mut answer);
        let wanted = if rubbish.starts_with(b"GET") { &b"HTTP/1.1 404 "[..] } else { b"error\n" };
        assert!(answer.starts_with(wanted) || answer.is_empty(), "{:?}", String::from_utf8_lossy(&answer));
    }
    // Whoever goes away before the answer is missed by nobody.
    for _ in 0..100 {
        connect(&daemon).write_all(b"status\n").unwrap();
    }
    let (is_done, text) = daemon.ctl(&["status"]);
    assert!(is_done, "{text}");
    // A silent client is cut off in the end.
    let mut one = silent.into_iter().next().unwrap();
    one.set_read_timeout(Some(Duration::from_secs(60))).unwrap();
    let mut told = String::new();
    // A read to the end goes on where a signal comes between.
    one.read_to_string(&mut told).unwrap();
    assert!(told.starts_with("error\nno request came"), "{told}");
    assert_eq!(daemon.stop(), 0);
    daemon.replay();
}

#[test]
fn too_many_clients_are_turned_away() {
    let mut daemon = Daemon::start(TREE, COMMANDS);
    daemon.wait_ready();
    let many: Vec<UnixStream> = (0..100).map(|_| connect(&daemon)).collect();
    std::thread::sleep(Duration::from_millis(200));
    drop(many);
    let (is_done, text) = daemon.ctl(&["status"]);
    assert!(is_done, "{text}");
    assert_eq!(daemon.stop(), 0);
}

#[test]
fn clients_that_are_gone_take_nobodys_place() {
    let mut daemon = Daemon::start(TREE, COMMANDS);
    daemon.wait_ready();
    let silent: Vec<UnixStream> = (0..20).map(|_| connect(&daemon)).collect();
    assert!(daemon.ctl(&["count"]).0);
    // While it stands still, more come and go than it serves at once; the last one stays.
    daemon.signal(STOP);
    for _ in 0..84 {
        connect(&daemon).write_all(b"status\n").unwrap();
    }
    let mut last = connect(&daemon);
    last.write_all(b"count\n").unwrap();
    daemon.signal(CONT);
    let mut answer = String::new();
    last.read_to_string(&mut answer).unwrap();
    assert!(answer.starts_with("ok\nspecs 2"), "{answer}");
    drop(silent);
    assert_eq!(daemon.stop(), 0);
}

#[test]
fn who_follows_gets_each_line_and_who_does_not_read_is_cut_off() {
    // Twelve thousand lines, so many that nobody keeps them for a client that doesn't read.
    let commands = "[a]\ncommand = ['sh', '-c', 'n=0; while [ $n -lt 12 ]; do i=0; \
                    while [ $i -lt 1000 ]; do echo a line of some length, number $((n * 1000 + i)); i=$((i + 1)); done; \
                    n=$((n + 1)); sleep 0.05; done; exec sleep 1000']\noutput = 'log'\n\
                    [b]\ncommand = ['sleep', '1000']\nready = 'after'\nready_after = 1000\n";
    let tree = "[[child]]\nid = \"b\"\nstart = \"b\"\n[[child]]\nid = \"a\"\nstart = \"a\"\n";
    let mut daemon = Daemon::start(tree, commands);
    daemon.wait_for("the first start", |line| line.get("order") == "start");
    let follow = || {
        let mut stream = connect(&daemon);
        stream.write_all(b"tail -f\n").unwrap();
        stream
    };
    let (mut reads, mut deaf) = (follow(), follow());
    let reader = std::thread::spawn(move || {
        let mut text = String::new();
        reads.read_to_string(&mut text).unwrap();
        text
    });
    daemon.wait_for("the last line", |line| line.get("line").ends_with("number 11999"));
    assert_eq!(daemon.stop(), 0);
    let text = reader.join().unwrap();
    assert!(text.starts_with("ok\n"));
    assert_eq!(text.matches("a line of some length").count(), 12_000);
    let mut some = Vec::new();
    let _ = deaf.read_to_end(&mut some);
    let some = String::from_utf8_lossy(&some);
    assert!(some.matches("a line of some length").count() < 12_000);
}

#[test]
fn the_folder_is_the_owners_alone() {
    let mut daemon = Daemon::start(TREE, COMMANDS);
    daemon.wait_ready();
    let mode = |name: &str| fs::metadata(daemon.folder.join(name)).unwrap().permissions().mode() & 0o777;
    assert_eq!((mode("control"), mode("control/socket")), (0o700, 0o600));
    assert_eq!(daemon.stop(), 0);
    // A folder that others may enter is refused.
    let folder = new_folder();
    fs::write(folder.join("tree.toml"), TREE).unwrap();
    fs::write(folder.join("commands.toml"), COMMANDS).unwrap();
    fs::create_dir(folder.join("control")).unwrap();
    fs::set_permissions(folder.join("control"), fs::Permissions::from_mode(0o755)).unwrap();
    let mut open = Daemon::start_in(folder, &["--control", "control"]);
    assert_eq!(open.wait(), 1);
    assert!(open.read("stderr").contains("chmod 700"), "{}", open.read("stderr"));
}

#[test]
fn another_user_is_turned_away_also_where_the_modes_would_let_him_in() {
    if !can_be_another_user() {
        return;
    }
    let mut daemon = Daemon::start(TREE, COMMANDS);
    daemon.wait_ready();
    let control = daemon.folder.join("control");
    fs::set_permissions(&control, fs::Permissions::from_mode(0o755)).unwrap();
    fs::set_permissions(control.join("socket"), fs::Permissions::from_mode(0o666)).unwrap();
    // The program is copied to where that user may read it, by a process of its own, as `write_program` has it.
    let program = daemon.folder.join("program");
    assert!(Command::new("cp").arg(PROGRAM).arg(&program).status().unwrap().success());
    let mut other = Command::new("setpriv");
    other
        .args(["--reuid=65534", "--regid=65534", "--clear-groups"])
        .arg(&program)
        .args(["ctl", "--control"])
        .arg(&control);
    let output = other.arg("shutdown").output().unwrap();
    assert!(!output.status.success());
    daemon.wait_for("turned away", |line| line.get("remark") == "turned_away" && line.number("user") == 65534);
    assert_eq!(daemon.stop(), 0);
}

#[test]
fn a_stale_socket_is_taken_over_and_a_second_daemon_refused() {
    let first = Daemon::start(TREE, COMMANDS);
    first.wait_ready();
    let control = first.folder.join("control");
    let start = || {
        let folder = new_folder();
        fs::write(folder.join("tree.toml"), TREE).unwrap();
        fs::write(folder.join("commands.toml"), COMMANDS).unwrap();
        Daemon::start_in(folder, &["--json", "--log", "log", "--control", control.to_str().unwrap()])
    };
    let mut second = start();
    assert_eq!(second.wait(), 1);
    assert!(second.read("stderr").contains("another daemon"), "{}", second.read("stderr"));
    // Also where somebody has cleaned up.
    fs::remove_file(control.join("lock")).unwrap();
    let mut second = start();
    assert_eq!(second.wait(), 1);
    assert!(second.read("stderr").contains("another daemon"), "{}", second.read("stderr"));
    first.signal(KILL);
    wait_until("its processes are gone", || first.left().is_empty());
    assert!(exists(&control.join("socket")));
    let mut third = start();
    third.wait_ready();
    assert!(first.ctl(&["status"]).0);
    assert_eq!(third.stop(), 0);
}
