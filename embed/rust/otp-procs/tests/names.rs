//! What a client may call a child, and that a restart is one request.

mod common;

use common::daemon::{Daemon, PROGRAM};
use std::process::{Command, Stdio};

const TREE: &str = "intensity = 3\nperiod = 60\n[[child]]\nid = \"web\"\nstart = \"a\"\n[[child]]\nid = \"hall\"\nstart = \"x\"\n[child.tree]\n\
                    [[child.tree.child]]\nid = \"b\"\nstart = \"a\"\n[[child]]\nid = \"pool\"\nstart = \"x\"\n\
                    [child.tree]\nstrategy = \"simple_one_for_one\"\n[[child.tree.child]]\nid = \"w\"\nstart = \"a\"\n";
const STEADY: &str = "[a]\ncommand = [\"sleep\", \"1000\"]\n";

#[test]
fn what_status_prints_may_be_said() {
    let mut daemon = Daemon::start(TREE, STEADY);
    daemon.wait_ready();
    let status = daemon.ctl(&["status"]).1;
    assert!(status.contains(" hall/") && status.contains(" pool/"), "{status}");
    for (words, wanted) in [
        (["stop", "hall/"], "hall: ok\n"),
        (["start", "hall/"], "hall: ok #"),
        (["restart", "/hall/"], "/hall: ok #"),
        (["stop", "/web"], "/web: ok\n"),
        (["start", "web"], "web: ok #"),
        (["restart", "hall/b"], "hall/b: ok #"),
        (["start", "/pool/"], "/pool/: ok #"),
        (["stop", "pool/"], "pool: ok\n"),
        (["start", "pool"], "pool: ok #"),
        (["which", "/hall"], "b,#"),
        (["count", "hall/"], "specs 1"),
    ] {
        let (is_done, text) = daemon.ctl(&words);
        assert!(is_done && text.starts_with(wanted), "{words:?}: {text}");
    }
    assert_eq!(daemon.stop(), 0);
    daemon.replay();
}

#[test]
fn what_can_not_be_meant_is_refused_with_what_to_write() {
    let mut daemon = Daemon::start(TREE, STEADY);
    daemon.wait_ready();
    for (words, wanted) in [
        (["stop", "/"], "ctl shutdown stops it"),
        (["start", "/"], "start PATH"),
        (["restart", "wbe"], "did you mean web?"),
        (["stop", "hall/c"], "did you mean hall/b?"),
        (["stop", "hal/b"], "no such supervisor as hal/"),
        (["stop", "a b"], "takes one PATH"),
        (["start", "web/"], "write web"),
        (["which", "web"], "web is no supervisor"),
        (["count", "nobody"], "ctl status prints all names"),
        (["restart", "pool/#7"], "start pool/ starts one more"),
        (["start", "x!"], "no such child"),
    ] {
        let (is_done, text) = daemon.ctl(&words);
        assert!(!is_done && text.contains(wanted), "{words:?}: {text}");
    }
    assert!(daemon.ctl(&["stop", "pool"]).0);
    for words in [["start", "pool/"], ["which", "pool/"]] {
        let (is_done, text) = daemon.ctl(&words);
        assert!(!is_done && text.contains("is down"), "{text}");
    }
    assert_eq!(daemon.stop(), 0);
    daemon.replay();
}

/// Asks for the same several times at once; what each was answered.
fn at_once(daemon: &Daemon, requests: &[[&str; 2]]) -> Vec<(bool, String)> {
    let ask = |words: &[&str; 2]| {
        let mut command = Command::new(PROGRAM);
        command.args(["ctl", "--control"]).arg(daemon.folder.join("control")).args(words);
        command.stdout(Stdio::piped()).stderr(Stdio::piped()).spawn().unwrap()
    };
    let asked: Vec<_> = requests.iter().map(ask).collect();
    let answer = |child: std::process::Child| {
        let output = child.wait_with_output().unwrap();
        (output.status.success(), String::from_utf8([output.stdout, output.stderr].concat()).unwrap())
    };
    asked.into_iter().map(answer).collect()
}

/// Ends a second after it was asked to.
const SLOW: &str = "[a]\ncommand = ['sh', '-c', 'trap \"sleep 1; exit 0\" TERM; echo >&3; while :; do sleep 0.1; done']\nready = 'notify'\n\
                    signal_to = 'process'\n";

#[test]
fn ten_restarts_at_once_are_all_done() {
    let tree = "intensity = 3\nperiod = 60\n[[child]]\nid = \"a\"\nstart = \"a\"\n";
    for commands in [STEADY, SLOW] {
        let mut daemon = Daemon::start(tree, commands);
        daemon.wait_ready();
        for (is_done, text) in at_once(&daemon, &[["restart", "a"]; 10]) {
            assert!(is_done && text.contains("a: ok #"), "{text}");
        }
        assert_eq!(daemon.stop(), 0);
        daemon.replay();
    }
}

#[test]
fn a_stop_comes_after_the_restart_that_it_meets() {
    let tree = "intensity = 3\nperiod = 60\n[[child]]\nid = \"a\"\nstart = \"a\"\n";
    let mut daemon = Daemon::start(tree, SLOW);
    daemon.wait_ready();
    let restart = std::thread::scope(|scope| {
        let restart = scope.spawn(|| daemon.ctl(&["restart", "a"]));
        daemon.wait_for("the stop", |line| line.get("order") == "ask");
        // A start that meets it is that of the restart.
        let start = scope.spawn(|| daemon.ctl(&["start", "a"]));
        daemon.wait_for("start", |line| line.get("line") == "start a");
        let (is_done, text) = daemon.ctl(&["stop", "a"]);
        assert!(is_done && text.starts_with("a: ok\n"), "{text}");
        for (is_done, text) in [start.join().unwrap(), restart.join().unwrap()] {
            assert!(!is_done && text.contains("another client has stopped it meanwhile"), "{text}");
        }
        daemon.ctl(&["status"]).1
    });
    assert!(restart.contains("undefined"), "{restart}");
    assert!(daemon.story().iter().filter(|line| line.starts_with("start a")).count() == 1, "{:?}", daemon.story());
    assert_eq!(daemon.stop(), 0);
    daemon.replay();
}
