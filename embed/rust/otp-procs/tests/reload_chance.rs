//! Reloads by chance: of two random trees, from the first one to the second one. Afterwards all stands as in a daemon that has begun
//! with the second one; what both have keeps its process, nothing else runs, and the log, played again, has the orders of the rules.
//! Then the program is replaced, of which nothing is seen.
//!
//! `OTP_RELOADS` says how many pairs, and `OTP_RELOADS_FROM` with which seed they begin.

mod common;

use common::Chance;
use common::daemon::{Daemon, Line, send, wait_until};
use std::collections::{BTreeMap, BTreeSet};
use std::fmt::Write as _;
use std::fs;

/// Pairs where nobody says how many.
const PAIRS: u64 = 30;

#[derive(Clone, Debug)]
struct Supervisor {
    strategy: String,
    intensity: u64,
    children: Vec<Kid>,
}

#[derive(Clone, Debug)]
struct Kid {
    id: String,
    start: String,
    restart: String,
    shutdown: u64,
    tree: Option<Supervisor>,
}

const IDS: [&str; 5] = ["a", "b", "c", "d", "e"];
const STARTS: [&str; 3] = ["s", "t", "u"];
const STRATEGIES: [&str; 3] = ["one_for_one", "one_for_all", "rest_for_one"];
const COMMANDS: &str =
    "[s]\ncommand = ['sleep', '1000']\n[t]\ncommand = ['sleep', '1000']\n[u]\ncommand = ['sleep', '1000']\n";

impl Supervisor {
    fn new(chance: &mut Chance, level: u64) -> Self {
        let is_simple = level > 0 && chance.below(5) == 0;
        let strategy = if is_simple { "simple_one_for_one" } else { chance.one_of(&STRATEGIES) }.to_string();
        let mut children = Vec::new();
        for id in IDS {
            if is_simple || chance.below(2) == 0 {
                children.push(Kid::new(chance, id, if is_simple { 9 } else { level }));
            }
            if is_simple {
                break;
            }
        }
        Supervisor { strategy, intensity: chance.below(5), children }
    }

    fn is_simple(&self) -> bool {
        self.strategy == "simple_one_for_one"
    }

    /// Some changes of it.
    fn change(&mut self, chance: &mut Chance, level: u64) {
        if chance.below(3) == 0 {
            self.intensity = chance.below(5);
        }
        if self.is_simple() {
            if chance.below(4) == 0 {
                self.children[0].start = chance.one_of(&STARTS).into();
            }
            return;
        }
        if chance.below(4) == 0 {
            self.strategy = chance.one_of(&STRATEGIES).into();
        }
        if chance.below(4) == 0 && self.children.len() > 1 {
            let count = self.children.len() as u64;
            self.children.swap(chance.below(count) as usize, chance.below(count) as usize);
        }
        self.children.retain(|_| chance.below(5) > 0);
        for kid in &mut self.children {
            kid.change(chance, level);
        }
        for id in IDS {
            if chance.below(6) == 0 && !self.children.iter().any(|kid| kid.id == id) {
                let at = chance.below(self.children.len() as u64 + 1) as usize;
                self.children.insert(at, Kid::new(chance, id, level));
            }
        }
    }

    fn text(&self, head: &str) -> String {
        let mut text = format!("strategy = \"{}\"\nintensity = {}\nperiod = 3600\n", self.strategy, self.intensity);
        for kid in &self.children {
            let Kid { id, start, restart, .. } = kid;
            let _ = write!(text, "[[{head}child]]\nid = \"{id}\"\nstart = \"{start}\"\nrestart = \"{restart}\"\n");
            let _ = match &kid.tree {
                None => writeln!(text, "shutdown = {}", kid.shutdown),
                Some(tree) => write!(text, "[{head}child.tree]\n{}", tree.text(&format!("{head}child.tree."))),
            };
        }
        text
    }

    /// The paths of those that share a specification.
    fn simple(&self, above: &str, to: &mut Vec<String>) {
        for kid in &self.children {
            let Some(tree) = &kid.tree else { continue };
            let path = format!("{above}{}/", kid.id);
            if tree.is_simple() { to.push(path) } else { tree.simple(&path, to) }
        }
    }

    /// The children of both that have no tree in either: their paths, with their start words.
    fn common(&self, other: &Supervisor, above: &str, to: &mut Vec<(String, String, String)>) {
        if self.is_simple() || other.is_simple() {
            return;
        }
        for one in &self.children {
            let Some(two) = other.children.iter().find(|kid| kid.id == one.id) else { continue };
            match (&one.tree, &two.tree) {
                (None, None) => to.push((format!("{above}{}", one.id), one.start.clone(), two.start.clone())),
                (Some(old), Some(new)) if old.is_simple() == new.is_simple() => {
                    old.common(new, &format!("{above}{}/", one.id), to);
                }
                _ => {}
            }
        }
    }
}

impl Kid {
    fn new(chance: &mut Chance, id: &str, level: u64) -> Self {
        let tree = (level < 2 && chance.below(3) == 0).then(|| Supervisor::new(chance, level + 1));
        let restarts: &[&str] = if tree.is_some() {
            &["permanent", "transient"]
        } else {
            &["permanent", "permanent", "transient", "temporary"]
        };
        let (start, restart) = (chance.one_of(&STARTS).into(), chance.one_of(restarts).into());
        Kid { id: id.into(), start, restart, shutdown: 5000 + chance.below(3), tree }
    }

    fn change(&mut self, chance: &mut Chance, level: u64) {
        match chance.below(8) {
            0 => self.start = chance.one_of(&STARTS).into(),
            1 => self.shutdown = 5000 + chance.below(3),
            2 if self.tree.is_none() => self.restart = chance.one_of(&["permanent", "transient", "temporary"]).into(),
            3 if level < 2 => *self = Kid::new(chance, &self.id.clone(), level),
            _ => {}
        }
        if let Some(tree) = &mut self.tree {
            tree.change(chance, level + 1);
        }
    }
}

/// `ctl status` without numbers, processes and times; and the processes by the paths of their children.
fn status_of(daemon: &Daemon) -> (Vec<String>, BTreeMap<String, i32>) {
    let (is_done, text) = daemon.ctl(&["status"]);
    assert!(is_done, "{text}");
    let (mut plain, mut pids, mut above) = (Vec::new(), BTreeMap::new(), Vec::<&str>::new());
    for (index, line) in text.lines().enumerate() {
        let level = (line.len() - line.trim_start().len()) / 2;
        let words: Vec<&str> = line.split_whitespace().collect();
        if index == 0 {
            plain.push(words[..7].join(" "));
            continue;
        }
        above.truncate(level - 1);
        let path = format!("{}{}", above.concat(), words[0]);
        if words[0].ends_with('/') {
            above.push(words[0]);
            plain.push(format!("{path} {}", words[1..8].join(" ")));
        } else if !words[0].starts_with('#') {
            plain.push(format!("{path} {}", words[1]));
        }
        if let Some(at) = words.iter().position(|word| *word == "pid") {
            pids.insert(path, words[at + 1].parse().unwrap());
        }
    }
    (plain, pids)
}

/// Those that share a specification, of one supervisor.
fn shared(pids: &BTreeMap<String, i32>, above: &str) -> BTreeSet<i32> {
    let is_one = |path: &str| path.strip_prefix(above).is_some_and(|rest| rest.starts_with('#'));
    pids.iter().filter(|(path, _)| is_one(path)).map(|(_, pid)| *pid).collect()
}

/// A reload from one tree to another.
struct Pair {
    old: Supervisor,
    new: Supervisor,
    commands: String,
    restarts: bool,
    daemon: Daemon,
    told: String,
}

impl Pair {
    fn new(seed: u64, chance: &mut Chance) -> Self {
        let old = Supervisor::new(chance, 0);
        let mut new = old.clone();
        if chance.below(4) == 0 {
            new = Supervisor::new(chance, 0);
        } else {
            new.change(chance, 0);
        }
        let other = COMMANDS.replace("[t]\ncommand = ['sleep', '1000']", "[t]\ncommand = ['sleep', '1001']");
        let commands = if chance.below(2) == 0 { other } else { COMMANDS.to_string() };
        let told = format!("seed {seed}\n--- old\n{}\n--- new\n{}", old.text(""), new.text(""));
        let daemon = Daemon::start(&old.text(""), COMMANDS);
        daemon.wait_ready();
        Pair { old, new, commands, restarts: chance.below(3) == 0, daemon, told }
    }

    fn asks(&self, words: &[&str]) -> String {
        let (is_done, text) = self.daemon.ctl(words);
        assert!(is_done, "{words:?}: {text}\n{}", self.told);
        text
    }

    fn is_changed(&self, old: &str, new: &str) -> bool {
        let of = |commands: &str, word: &str| {
            let head = format!("[{word}]\n");
            commands.split_once(&head).unwrap().1.lines().next().unwrap().to_string()
        };
        of(COMMANDS, old) != of(&self.commands, new)
    }

    /// Reloads, and compares with a daemon that has begun so. The number of processes that were kept, and of those that might have been.
    fn play(mut self, chance: &mut Chance) -> [u64; 2] {
        let mut simple = Vec::new();
        self.old.simple("", &mut simple);
        for path in &simple {
            for _ in 0..chance.below(3) {
                self.asks(&["start", path]);
            }
        }
        let mut common = Vec::new();
        self.old.common(&self.new, "", &mut common);
        let stopped = (chance.below(2) == 0 && !common.is_empty())
            .then(|| common.remove(chance.below(common.len() as u64) as usize).0);
        if let Some(path) = &stopped {
            self.asks(&["stop", path]);
        }
        let before = status_of(&self.daemon).1;
        fs::write(self.daemon.folder.join("tree.toml"), self.new.text("")).unwrap();
        fs::write(self.daemon.folder.join("commands.toml"), &self.commands).unwrap();
        let words: &[&str] = if self.restarts { &["reload", "--restart"] } else { &["reload"] };
        let dry = self.asks(&[words, &["--dry-run"]].concat());
        let done = self.asks(words);
        assert_eq!(dry, done, "{}", self.told);
        self.told += &done;
        let (text, after) = status_of(&self.daemon);
        self.compare(stopped.as_deref(), &text);
        if let Some(path) = &stopped {
            assert!(!after.contains_key(path), "{path} was stopped\n{}", self.told);
        }
        let mut kept = [0, common.len() as u64];
        for (path, old, new) in &common {
            let is_kept = before[path] == after[path];
            assert_eq!(is_kept, !(self.restarts && self.is_changed(old, new)), "{path}\n{}", self.told);
            kept[0] += u64::from(is_kept);
        }
        self.compare_shared(&simple, &before, &after);
        let (mut text, mut after) = (text, after);
        for _ in 0..chance.below(4) {
            if after.is_empty() || !self.crash(*after.values().nth(chance.below(after.len() as u64) as usize).unwrap())
            {
                break;
            }
            (text, after) = status_of(&self.daemon);
        }
        if !self.daemon.is_running() {
            self.daemon.replay();
            return kept;
        }
        self.replace(&text, &after);
        // What the daemon doesn't know isn't there.
        let (left, known): (BTreeSet<i32>, BTreeSet<i32>) =
            (self.daemon.left().into_iter().collect(), after.values().copied().collect());
        assert_eq!(left, known, "{}", self.told);
        self.end(&after);
        kept
    }

    fn compare(&self, stopped: Option<&str>, text: &[String]) {
        let fresh = Daemon::start(&self.new.text(""), &self.commands);
        fresh.wait_ready();
        let wanted = status_of(&fresh).0;
        let others = |lines: &[String]| -> Vec<String> {
            let is_stopped = |line: &String| stopped.is_some_and(|path| line.starts_with(&format!("{path} ")));
            lines.iter().filter(|line| !is_stopped(line)).cloned().collect()
        };
        assert_eq!(others(text), others(&wanted), "{}", self.told);
    }

    /// A process is killed, and what comes of it is waited for. Whether the daemon runs on.
    fn crash(&mut self, pid: i32) -> bool {
        send(pid, 9);
        let is_told = |line: &Line| line.get("event") == "exit" && line.number("pid") == pid as u64;
        wait_until("its end is told", || self.daemon.log().iter().any(is_told));
        let is_calm = |daemon: &Daemon| {
            let (is_done, text) = daemon.ctl(&["status"]);
            let state = |line: &str| line.split_whitespace().nth(1).unwrap_or("").to_string();
            is_done
                && !text.lines().any(|line| ["starting", "asked", "killed", "ended,"].contains(&state(line).as_str()))
        };
        wait_until("it is calm", || !self.daemon.is_running() || is_calm(&self.daemon));
        self.daemon.is_running()
    }

    /// The program is replaced, and nothing is seen of it.
    fn replace(&self, text: &[String], before: &BTreeMap<String, i32>) {
        self.asks(&["reexec"]);
        let (now, after) = status_of(&self.daemon);
        assert_eq!(now, text, "{}", self.told);
        let all = |pids: &BTreeMap<String, i32>| -> BTreeSet<(String, i32)> {
            pids.iter().map(|(path, pid)| (path.split('#').next().unwrap_or("").to_string(), *pid)).collect()
        };
        assert_eq!(all(&after), all(before), "{}", self.told);
    }

    fn compare_shared(&self, simple: &[String], before: &BTreeMap<String, i32>, after: &BTreeMap<String, i32>) {
        let mut still = Vec::new();
        self.new.simple("", &mut still);
        for path in simple.iter().filter(|path| still.contains(path)) {
            let (old, new) = (shared(before, path), shared(after, path));
            assert!(old.len() == new.len() && (self.restarts || old == new), "{path}\n{}", self.told);
        }
    }

    /// It follows the new tree's rules from now on: a crash, and the end.
    fn end(mut self, after: &BTreeMap<String, i32>) {
        if let Some(pid) = after.values().next() {
            send(*pid, 9);
            let is_told = |daemon: &Daemon| {
                daemon.log().iter().any(|line| line.get("event") == "exit" && line.number("pid") == *pid as u64)
            };
            wait_until("its end is told", || is_told(&self.daemon));
        }
        let status = self.daemon.stop();
        assert!(status == 0 || status == 3, "{status}\n{}", self.told);
        assert_eq!(self.daemon.left(), [], "{}", self.told);
        self.daemon.replay();
    }
}

fn number_of(variable: &str, usual: u64) -> u64 {
    std::env::var(variable).ok().and_then(|text| text.parse().ok()).unwrap_or(usual)
}

#[test]
fn a_reloaded_tree_is_as_one_that_has_begun_so() {
    let (from, count) = (number_of("OTP_RELOADS_FROM", 1), number_of("OTP_RELOADS", PAIRS));
    let mut all = [0, 0];
    for seed in from..from + count {
        let mut chance = Chance::new(seed.wrapping_mul(0x9E37_79B9_7F4A_7C15));
        let kept = Pair::new(seed, &mut chance).play(&mut chance);
        all = [all[0] + kept[0], all[1] + kept[1]];
    }
    println!("{count} pairs: {} of {} processes of both run on", all[0], all[1]);
    assert!(count < 20 || all[0] > count, "{all:?}");
}

/// Four that crash all the time, two of them in a supervisor that gives up now and then.
fn crashing(round: u64) -> String {
    let one = |head: &str, id: &str| format!("[[{head}]]\nid = \"{id}\"\nstart = \"wild\"\n");
    format!(
        "intensity = 1000\nperiod = 1\n{}[[child]]\nid = \"steady\"\nstart = \"s\"\n{}[[child]]\nid = \"p\"\nstart = \"s\"\n\
         [child.tree]\nintensity = {}\nperiod = 1\n{}{}",
        one("child", "a"),
        one("child", &format!("n{}", round % 3)),
        5 + round % 2,
        one("child.tree.child", "x"),
        one("child.tree.child", &format!("y{}", round % 2)),
    )
}

#[test]
fn reloads_succeed_while_children_crash() {
    let commands = format!("{COMMANDS}[wild]\ncommand = ['sh', '-c', 'sleep 0.03; exit 1']\n");
    let mut daemon = Daemon::start(&crashing(0), &commands);
    daemon.wait_ready();
    let steady = status_of(&daemon).1["steady"];
    for round in 1..=20 {
        fs::write(daemon.folder.join("tree.toml"), crashing(round)).unwrap();
        let (is_done, text) = daemon.ctl(&["reload", "--within", "60s"]);
        assert!(is_done, "round {round}: {text}");
        assert!(text.contains(&format!("start   n{}\n", round % 3)) && text.contains("stop    p/y"), "{text}");
    }
    assert_eq!(status_of(&daemon).1["steady"], steady);
    assert_eq!(daemon.stop(), 0);
    assert_eq!(daemon.left(), []);
    assert!(daemon.replay().contains("20 reloads"));
}
