//! A storm: 200 processes under three levels of supervisors crash by chance, and are killed from outside. Afterwards no
//! process is left, and the log, played again on the proved library, has the orders that the rules give.
//!
//! It lasts `OTP_STORM_SECONDS`, or else 5.

mod common;

use common::Chance;
use common::daemon::{Daemon, KILL, TERM, send};
use std::fmt::Write;
use std::fs;
use std::thread;
use std::time::{Duration, Instant};

/// Five halls of four pools of ten workers. A pool bears 8 restarts in a second, a hall 3 of its pools, and the root any number.
fn tree() -> String {
    let mut text = "intensity = 1000\nperiod = 1\n".to_string();
    for hall in 0..5 {
        let strategy = ["one_for_one", "rest_for_one"][hall % 2];
        let _ = write!(
            text,
            "[[child]]\nid = \"hall{hall}\"\nstart = \"x\"\n[child.tree]\nstrategy = \"{strategy}\"\nintensity = 3\nperiod = 2\n"
        );
        for pool in 0..4 {
            let strategy = ["one_for_one", "one_for_one", "one_for_all", "rest_for_one"][pool];
            let _ = write!(
                text,
                "[[child.tree.child]]\nid = \"pool{pool}\"\nstart = \"x\"\n[child.tree.child.tree]\nstrategy = \"{strategy}\"\nintensity = 8\nperiod = 1\n"
            );
            for worker in 0..10 {
                let restart = ["permanent", "permanent", "transient"][worker % 3];
                let word = ["calm", "wild", "deaf", "calm"][worker % 4];
                let _ = write!(
                    text,
                    "[[child.tree.child.tree.child]]\nid = \"w{worker}\"\nstart = \"{word}\"\nrestart = \"{restart}\"\nshutdown = 300\n"
                );
            }
        }
    }
    text
}

/// Calm ones live long; wild ones end after a while with a status by their number; deaf ones don't listen to TERM.
const COMMANDS: &str = "\
[calm]\ncommand = ['sleep', '1000']\n\
[wild]\ncommand = ['sh', '-c', 'sleep $((OTP_NUMBER % 9)).$((OTP_NUMBER * 37 % 100)); exit $((OTP_NUMBER % 3))']\n\
[deaf]\ncommand = ['sh', '-c', 'trap \"\" TERM; while :; do sleep 5; done']\n";

/// The processes that the daemon has started.
fn started(daemon: &Daemon) -> Vec<i32> {
    let children = fs::read_to_string(format!("/proc/{0}/task/{0}/children", daemon.pid())).unwrap_or_default();
    children.split_whitespace().filter_map(|pid| pid.parse().ok()).collect()
}

#[test]
fn after_a_storm_nothing_is_left_and_each_order_was_right() {
    let seconds = std::env::var("OTP_STORM_SECONDS").ok().and_then(|text| text.parse().ok()).unwrap_or(5);
    let mut daemon = Daemon::start(&tree(), COMMANDS);
    daemon.wait_ready();
    let mut chance = Chance::new(u64::from(std::process::id()));
    let begun = Instant::now();
    let mut most = 0;
    while begun.elapsed() < Duration::from_secs(seconds) {
        let pids = started(&daemon);
        most = most.max(pids.len());
        if !pids.is_empty() {
            let pid = pids[chance.below(pids.len() as u64) as usize];
            send(pid, if chance.below(2) == 0 { KILL } else { TERM });
        }
        if chance.below(20) == 0 {
            let path = format!("hall{}/pool{}", chance.below(5), chance.below(4));
            let word = chance.one_of(&["stop", "start", "restart", "count"]);
            daemon.ctl(&[word, &path]);
        }
        thread::sleep(Duration::from_millis(chance.below(80)));
    }
    assert_eq!(daemon.stop(), 0);
    assert_eq!(daemon.left(), []);
    assert!(most >= 150, "only {most} processes ran at once");
    let story = daemon.story();
    let exits = story.iter().filter(|line| line.starts_with("-> exit")).count();
    assert!(exits as u64 > 200 + 5 * seconds, "only {exits} exits");
    // Whatever was started has ended, or never came up.
    let count = |head: &str| story.iter().filter(|line| line.starts_with(head)).count();
    assert_eq!(count("start "), count("-> exit ") + count("-> fail "));
    println!("{exits} exits; {}", daemon.replay());
}
