//! Control groups: what has left its process group is killed with it, also after the daemon's death, and what it takes is told.
//! Where no control groups of version 2 can be made this is left out.

mod common;

use common::daemon::{Daemon, KILL, PROGRAM, new_folder, send, wait_until};
use std::fs;
use std::path::{Path, PathBuf};
use std::process::Command;

const TREE: &str = "intensity = 5\n[[child]]\nid = \"p\"\nstart = \"p\"\n[child.tree]\nintensity = 5\n[[child.tree.child]]\nid = \"a\"\nstart = \"a\"\n";
/// It, and two that it starts; one has a session of its own, and none of its variables.
const FAMILY: &str = "[a]\ncommand = ['sh', '-c', 'env -i setsid sleep 1000 & sleep 1000 & echo >&3; exec sleep 1000']\nready = 'notify'\n";

/// A new control group, taken away at the end.
struct Room(PathBuf);

impl Room {
    fn new(name: &str) -> Option<Room> {
        let mounts = fs::read_to_string("/proc/self/mountinfo").unwrap_or_default();
        let mount = mounts.lines().find(|line| line.contains(" - cgroup2 ")).and_then(|line| line.split(' ').nth(4));
        let made = mount.and_then(|mount| {
            let folder = Path::new(mount).join(format!("otp-procs-{name}-{}", std::process::id()));
            fs::create_dir(&folder).ok().filter(|()| folder.join("cgroup.kill").exists()).map(|()| Room(folder))
        });
        if made.is_none() {
            println!("left out: no control group of version 2 can be made here");
        }
        made
    }

    fn flags(&self) -> Vec<String> {
        let folder = self.0.display().to_string();
        ["--json", "--log", "log", "--control", "control", "--cgroup", &folder].map(str::to_string).to_vec()
    }

    fn processes(&self, below: &str) -> Vec<i32> {
        let text = fs::read_to_string(self.0.join(below).join("cgroup.procs")).unwrap_or_default();
        text.lines().map(|pid| pid.parse().unwrap()).collect()
    }
}

impl Drop for Room {
    fn drop(&mut self) {
        for folder in ["tree/p#", "tree", "daemon", ""] {
            let _ = fs::remove_dir(self.0.join(folder));
        }
    }
}

fn run(room: &Room, commands: &str) -> Daemon {
    let folder = new_folder();
    fs::write(folder.join("tree.toml"), TREE).unwrap();
    fs::write(folder.join("commands.toml"), commands).unwrap();
    let flags = room.flags();
    Daemon::start_in(folder, &flags.iter().map(String::as_str).collect::<Vec<_>>())
}

fn lives(pid: i32) -> bool {
    fs::read_link(format!("/proc/{pid}/exe")).is_ok()
}

#[test]
fn what_has_left_its_process_group_ends_with_its_process() {
    let Some(room) = Room::new("ends") else { return };
    let mut daemon = run(&room, FAMILY);
    daemon.wait_ready();
    let first = room.processes("tree/p#/a#2");
    assert_eq!(first.len(), 3);
    let (_, text) = daemon.ctl(&["status", "--json"]);
    assert!(text.contains("\"processor_ms\":"), "{text}");
    send(first[0], KILL);
    daemon.wait_for("the next start", |line| line.get("order") == "start" && line.number("number") == 3);
    wait_until("all of the first are gone", || !first.iter().any(|&pid| lives(pid)));
    wait_until("three new ones are there", || room.processes("tree/p#/a#3").len() == 3);
    assert!(!room.0.join("tree/p#/a#2").exists());
    let second = room.processes("tree/p#/a#3");
    assert_eq!(daemon.stop(), 0);
    assert!(!second.iter().any(|&pid| lives(pid)));
    assert!(!room.0.join("tree/p#").exists());
    daemon.replay();
}

#[test]
fn the_next_daemon_ends_what_is_left_in_the_groups_of_a_killed_one() {
    let Some(room) = Room::new("left") else { return };
    let mut daemon = run(&room, FAMILY);
    daemon.wait_ready();
    let first = room.processes("tree/p#/a#2");
    daemon.signal(KILL);
    daemon.wait();
    // The system kills the child alone.
    wait_until("two are left", || first.iter().filter(|&&pid| lives(pid)).count() == 2);
    let flags = room.flags();
    daemon.start_again(&flags.iter().map(String::as_str).collect::<Vec<_>>());
    daemon.wait_ready();
    assert!(!first.iter().any(|&pid| lives(pid)));
    let strays = daemon.wait_for("strays", |line| line.get("remark") == "strays");
    assert_eq!(strays.number("killed"), 2, "{strays:?}");
    assert_eq!(daemon.stop(), 0);
}

#[test]
fn the_own_group_is_taken_and_the_daemon_moves_out_of_it() {
    let Some(room) = Room::new("own") else { return };
    let folder = new_folder();
    fs::write(folder.join("tree.toml"), TREE).unwrap();
    fs::write(folder.join("commands.toml"), FAMILY).unwrap();
    let mut command = Command::new("sh");
    let enter = format!("echo 0 > {}/cgroup.procs; exec \"$0\" \"$@\"", room.0.display());
    command.args(["-c", &enter, PROGRAM]);
    let mut daemon = Daemon::start_by(folder, command, &["--json", "--log", "log", "--no-control", "--cgroup", "auto"]);
    daemon.wait_ready();
    assert_eq!(room.processes("daemon"), [daemon.pid()]);
    assert_eq!((room.processes("").len(), room.processes("tree/p#/a#2").len()), (0, 3));
    assert_eq!(daemon.stop(), 0);
    daemon.replay();
}

#[test]
fn a_reload_and_another_program_leave_processes_in_their_groups() {
    let Some(room) = Room::new("reloads") else { return };
    let folder = new_folder();
    fs::write(folder.join("tree.toml"), TREE).unwrap();
    fs::write(folder.join("commands.toml"), FAMILY).unwrap();
    let mut command = Command::new("sh");
    let enter = format!("echo 0 > {}/cgroup.procs; exec \"$0\" \"$@\"", room.0.display());
    command.args(["-c", &enter, PROGRAM]);
    let flags = ["--json", "--log", "log", "--control", "control", "--cgroup", "auto"];
    let mut daemon = Daemon::start_by(folder, command, &flags);
    daemon.wait_ready();
    let first = room.processes("tree/p#/a#2");
    for intensity in [6, 7] {
        // By its numbers in the new tree the one that runs had another folder.
        let tree = TREE.replacen("intensity = 5", &format!("intensity = {intensity}"), 1);
        let new = "[[child]]\nid = \"n\"\nstart = \"a\"\n[[child]]";
        fs::write(daemon.folder.join("tree.toml"), tree.replacen("[[child]]", new, 1)).unwrap();
        for words in [&["reload"][..], &["reexec"]] {
            let (is_done, text) = daemon.ctl(words);
            assert!(is_done, "{text}\n{}", daemon.read("stderr"));
            assert_eq!((room.processes("tree/p#/a#2"), room.processes("daemon")), (first.clone(), vec![daemon.pid()]));
        }
    }
    assert_eq!(daemon.ctl(&["status", "--json"]).1.matches("\"processor_ms\":").count(), 4);
    send(first[0], KILL);
    wait_until("all of the first are gone", || !first.iter().any(|&pid| lives(pid)));
    assert!(daemon.ctl(&["wait", "p/a", "up"]).0);
    assert_eq!(daemon.stop(), 0);
    daemon.replay();
}

#[test]
fn what_cannot_be_had_is_refused_at_once() {
    let folder = new_folder();
    fs::write(folder.join("tree.toml"), TREE).unwrap();
    let refused = |commands: &str, group: &[&str]| {
        fs::write(folder.join("commands.toml"), commands).unwrap();
        let mut command = Command::new(PROGRAM);
        command.args(["run", "tree.toml", "commands.toml", "--no-control"]).args(group).current_dir(&folder);
        let output = command.output().unwrap();
        assert_eq!(output.status.code(), Some(1));
        String::from_utf8(output.stderr).unwrap()
    };
    let shares = format!("{FAMILY}memory_max = '64M'\n");
    let told = refused(&shares, &[]);
    assert!(told.contains("commands.toml:4: memory_max wants a control group: run with --cgroup auto"), "{told}");
    let told = refused(FAMILY, &["--cgroup", folder.to_str().unwrap()]);
    assert!(told.contains("is no control group of version 2"), "{told}");
    let Some(room) = Room::new("refused") else { return };
    let has_memory = fs::read_to_string(room.0.join("cgroup.controllers")).unwrap().contains("memory");
    if !has_memory {
        let told = refused(&shares, &["--cgroup", room.0.to_str().unwrap()]);
        assert!(told.contains("memory_max wants the controller memory, which "), "{told}");
    }
    let daemon = run(&room, FAMILY);
    daemon.wait_ready();
    let told = refused(FAMILY, &["--cgroup", room.0.to_str().unwrap()]);
    assert!(told.contains("another daemon has "), "{told}");
    drop(daemon);
    wait_until("no process is left in the group", || {
        room.processes("tree/p#/a#2").is_empty() || {
            fs::write(room.0.join("tree/cgroup.kill"), "1").unwrap();
            false
        }
    });
    let _ = fs::remove_dir(room.0.join("tree/p#/a#2"));
    fs::remove_dir_all(&folder).unwrap();
}
