//! As whom `otp-procs` runs a process, and within which limits. Who isn't root can't try another user.

mod common;

use common::daemon::{Daemon, KILL, can_be_another_user, copy_program, new_folder, wait_until};
use std::fs;
use std::process::Command;

const TREE: &str = "[[child]]\nid = \"a\"\nstart = \"a\"\n";

fn pid_of(daemon: &Daemon) -> i32 {
    daemon.wait_for("start", |line| line.get("order") == "start").number("pid") as i32
}

/// A line of the process's file `status`, in single spaces.
fn status_of(pid: i32, head: &str) -> String {
    let text = fs::read_to_string(format!("/proc/{pid}/status")).unwrap();
    let line = text.lines().find_map(|line| line.strip_prefix(head)).unwrap_or_default();
    line.split_ascii_whitespace().collect::<Vec<_>>().join(" ")
}

#[test]
fn limits_niceness_and_mask_are_those_of_the_file() {
    let commands = "[a]\ncommand = ['sh', '-c', 'echo >&4; exec sleep 1000']\nready = 'notify'\nnotify_fd = 4\numask = '027'\nnice = 7\n\
                    limits = ['nofile=64:99', 'core=0']\nno_new_privileges = true\n";
    let mut daemon = Daemon::start(TREE, commands);
    daemon.wait_ready();
    let pid = pid_of(&daemon);
    assert_eq!((status_of(pid, "Umask:"), status_of(pid, "NoNewPrivs:")), ("0027".into(), "1".into()));
    let stat = fs::read_to_string(format!("/proc/{pid}/stat")).unwrap();
    assert_eq!(stat.rsplit_once(')').unwrap().1.split_ascii_whitespace().nth(16), Some("7"));
    let limits = fs::read_to_string(format!("/proc/{pid}/limits")).unwrap();
    let values = |head: &str| {
        let line = limits.lines().find_map(|line| line.strip_prefix(head)).unwrap();
        line.split_ascii_whitespace().take(2).map(str::to_string).collect::<Vec<_>>()
    };
    assert_eq!(
        (values("Max open files"), values("Max core file size")),
        (vec!["64".into(), "99".into()], vec!["0".into(), "0".into()])
    );
    assert_eq!(daemon.stop(), 0);
    daemon.replay();
}

#[test]
fn another_user_has_its_groups_and_variables_and_dies_with_the_daemon() {
    if !can_be_another_user() {
        return;
    }
    let commands = "[a]\ncommand = ['sh', '-c', 'echo $HOME $USER $LOGNAME $X > {folder}/env; echo >&3; exec sleep 1000']\nready = 'notify'\n\
                    user = 'nobody'\ngroups = ['4321']\nenv = ['HOME=/own', 'X=y']\n";
    let folder = new_folder();
    fs::write(folder.join("env"), "").unwrap();
    fs::set_permissions(folder.join("env"), std::os::unix::fs::PermissionsExt::from_mode(0o666)).unwrap();
    fs::write(folder.join("tree.toml"), TREE).unwrap();
    fs::write(folder.join("commands.toml"), commands.replace("{folder}", folder.to_str().unwrap())).unwrap();
    let mut daemon = Daemon::start_in(folder, &["--json", "--log", "log", "--control", "control"]);
    daemon.wait_ready();
    let pid = pid_of(&daemon);
    assert_eq!(status_of(pid, "Uid:"), "65534 65534 65534 65534");
    assert_eq!(status_of(pid, "Gid:"), "65534 65534 65534 65534");
    assert_eq!(status_of(pid, "Groups:"), "4321 65534");
    assert_eq!(daemon.read("env").trim_end(), "/own nobody nobody y");
    daemon.signal(KILL);
    daemon.wait();
    wait_until("the system has killed it with the daemon", || !fs::exists(format!("/proc/{pid}/exe")).unwrap_or(false));
}

#[test]
fn a_step_that_the_system_refuses_is_a_failed_start_that_says_which() {
    if !can_be_another_user() {
        return;
    }
    let folder = new_folder();
    for (name, text) in
        [("tree.toml", TREE), ("commands.toml", "[a]\ncommand = ['sleep', '1000']\nlimits = ['nofile=1000000000']\n")]
    {
        fs::write(folder.join(name), text).unwrap();
    }
    fs::set_permissions(&folder, std::os::unix::fs::PermissionsExt::from_mode(0o777)).unwrap();
    let program = folder.join("otp-procs");
    copy_program(&program);
    let mut command = Command::new("setpriv");
    command.args(["--reuid=65534", "--regid=65534", "--clear-groups"]).arg(&program);
    let mut daemon = Daemon::start_by(folder, command, &["--json", "--log", "log", "--no-control"]);
    assert_eq!(daemon.wait(), 4);
    assert_eq!(daemon.story()[1], "-> fail a #1 error:not_started");
    let line = daemon.wait_for("fail", |line| line.get("event") == "fail");
    assert!(line.get("text").starts_with("limits: nofile can't be set: "), "{line:?}");
}

#[test]
fn who_is_not_root_is_told_at_once_that_it_can_start_nobody_else() {
    if !can_be_another_user() {
        return;
    }
    let folder = new_folder();
    fs::set_permissions(&folder, std::os::unix::fs::PermissionsExt::from_mode(0o777)).unwrap();
    fs::write(folder.join("tree.toml"), TREE).unwrap();
    copy_program(&folder.join("otp-procs"));
    let run = |keys: &str, status: i32| {
        fs::write(folder.join("commands.toml"), format!("[a]\ncommand = ['true']\n{keys}\n")).unwrap();
        let mut command = Command::new("setpriv");
        command.args([
            "--reuid=65534",
            "--regid=65534",
            "--clear-groups",
            "./otp-procs",
            "run",
            "tree.toml",
            "commands.toml",
            "--no-control",
        ]);
        let output = command.current_dir(&folder).output().unwrap();
        let text = String::from_utf8(output.stderr).unwrap();
        assert_eq!(output.status.code(), Some(status), "{keys}: {text}");
        text
    };
    for keys in ["user = 'root'", "group = 'root'", "user = 65534\ngroup = 0", "user = 'nobody'\ngroups = ['root']"] {
        let text = run(keys, 1);
        assert!(text.contains("commands.toml:3: only root can start a process with another user"), "{keys}: {text}");
    }
    // Its own it may name.
    run("user = 'nobody'", 3);
    fs::remove_dir_all(&folder).unwrap();
}
