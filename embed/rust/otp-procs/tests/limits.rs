//! `otp-procs` and the limits that the system sets: how many descriptors, and whether a process leaves its memory in a file.

mod common;

use common::daemon::{Daemon, PROGRAM, new_folder, wait_until};
use std::fmt::Write;
use std::fs;
use std::os::unix::process::ExitStatusExt;
use std::process::Command;

#[test]
fn it_has_as_many_descriptors_as_it_may_and_its_processes_as_many_as_before() {
    let folder = new_folder();
    let mut tree = String::new();
    for number in 0..60 {
        let _ = write!(tree, "[[child]]\nid = \"a{number}\"\nstart = \"a\"\n");
    }
    fs::write(folder.join("tree.toml"), tree).unwrap();
    let commands = "[a]\ncommand = ['sh', '-c', 'echo soft $(ulimit -Sn); exec sleep 1000']\noutput = 'log'\n";
    fs::write(folder.join("commands.toml"), commands).unwrap();
    let mut shell = Command::new("sh");
    shell.args(["-c", "ulimit -Sn 40; exec \"$0\" \"$@\"", PROGRAM]);
    let mut daemon = Daemon::start_by(folder, shell, &["--json", "--log", "log", "--no-control"]);
    daemon.wait_ready();
    wait_until("all have said it", || daemon.log().iter().filter(|line| line.get("line") == "soft 40").count() == 60);
    assert_eq!(daemon.stop(), 0);
}

#[test]
fn a_file_with_the_memory_of_a_process_is_told_of() {
    // Whether there is one is the system's to say: so it is asked.
    let command = "ulimit -c unlimited 2>/dev/null; kill -SEGV $$";
    let folder = new_folder();
    let status = Command::new("sh").args(["-c", command]).current_dir(&folder).status().unwrap();
    assert_eq!(status.signal(), Some(11));
    fs::remove_dir_all(&folder).unwrap();
    let tree = "[[child]]\nid = \"a\"\nstart = \"a\"\nrestart = \"temporary\"\n";
    let mut daemon = Daemon::start(tree, &format!("[a]\ncommand = ['sh', '-c', '{command}']\n"));
    let exit = daemon.wait_for("exit", |line| line.get("event") == "exit");
    assert_eq!(exit.get("reason"), "error:signal_11");
    assert_eq!(exit.get("core"), if status.core_dumped() { "1" } else { "" }, "{exit:?}");
    assert_eq!(daemon.stop(), 0);
    daemon.replay();
}
