//! A daemon that a test runs, with its files in a folder of its own.
#![allow(unsafe_code)]

use std::fs;
use std::io::Write;
use std::os::unix::fs::DirBuilderExt;
use std::os::unix::process::CommandExt;
use std::path::{Path, PathBuf};
use std::process::{Child, Command, Stdio};
use std::sync::atomic::{AtomicU32, Ordering};
use std::thread;
use std::time::{Duration, Instant};

pub const TERM: i32 = 15;
pub const KILL: i32 = 9;
pub const HUP: i32 = 1;
pub const INT: i32 = 2;
pub const CONT: i32 = 18;
pub const STOP: i32 = 19;

unsafe extern "C" {
    fn kill(pid: i32, signal: i32) -> i32;
    fn signal(number: i32, handler: usize) -> usize;
}

/// The program that is run takes INT, also where the tests run in the background of a script, which ignores it there.
fn takes_interrupts(command: &mut Command) {
    // SAFETY: it is safe between fork and exec, and 0 stands for what a signal does by itself.
    unsafe {
        command.pre_exec(|| {
            signal(INT, 0);
            Ok(())
        });
    }
}

/// Sends a signal; whether somebody was there.
pub fn send(pid: i32, signal: i32) -> bool {
    assert!(pid > 1);
    // SAFETY: no memory is handed over.
    unsafe { kill(pid, signal) == 0 }
}

pub const PROGRAM: &str = env!("CARGO_BIN_EXE_otp-procs");

static FOLDERS: AtomicU32 = AtomicU32::new(0);

/// How long something is waited for: a busy machine is no fault.
pub const PATIENCE: Duration = Duration::from_secs(60);

pub struct Daemon {
    child: Child,
    pub folder: PathBuf,
    /// The value of a variable that all processes of this daemon have.
    pub mark: String,
}

/// Whether another user can be tried. Where all has to be tried, it is no answer that he can't.
pub fn can_be_another_user() -> bool {
    let is_root = fs::metadata("/proc/self").is_ok_and(|own| std::os::unix::fs::MetadataExt::uid(&own) == 0);
    if !is_root {
        assert!(std::env::var_os("OTP_EMBED_WHOLE").is_none(), "only root can act as another user");
        println!("skipped: only root can act as another user");
    }
    is_root
}

/// An empty folder.
pub fn new_folder() -> PathBuf {
    let number = FOLDERS.fetch_add(1, Ordering::Relaxed);
    let folder = std::env::temp_dir().join(format!("otp-procs-test-{}-{number}", std::process::id()));
    let _ = fs::remove_dir_all(&folder);
    fs::DirBuilder::new().mode(0o755).create(&folder).unwrap();
    folder
}

/// Copies the program. As with `write_program` a process of its own does it.
pub fn copy_program(to: &Path) {
    assert!(Command::new("cp").arg("-p").arg(PROGRAM).arg(to).status().unwrap().success());
}

/// Writes a program that a daemon is to run. A process of its own does it: what this one has open to write, a test beside it that
/// forks just then keeps open for a moment, and the system runs no program that somebody may write to.
pub fn write_program(path: &Path, text: &str) {
    let mut writer = Command::new("sh");
    writer.args(["-c", "cat > \"$0\" && chmod 755 \"$0\""]).arg(path).stdin(Stdio::piped());
    let mut writer = writer.spawn().unwrap();
    writer.stdin.take().unwrap().write_all(text.as_bytes()).unwrap();
    assert!(writer.wait().unwrap().success());
}

impl Daemon {
    /// Runs the tree, with a log in JSON and a control socket. `{folder}` in the commands is the daemon's folder.
    pub fn start(tree: &str, commands: &str) -> Daemon {
        let folder = new_folder();
        let commands = commands.replace("{folder}", folder.to_str().unwrap());
        fs::write(folder.join("tree.toml"), tree).unwrap();
        fs::write(folder.join("commands.toml"), commands).unwrap();
        Daemon::start_in(folder, &["--json", "--log", "log", "--control", "control"])
    }

    /// Runs the tree and the commands of the folder.
    pub fn start_in(folder: PathBuf, flags: &[&str]) -> Daemon {
        Daemon::start_by(folder, Command::new(PROGRAM), flags)
    }

    /// Starts one by a command that runs the program with the words behind it.
    pub fn start_by(folder: PathBuf, mut command: Command, flags: &[&str]) -> Daemon {
        let mark = folder.file_name().unwrap().to_str().unwrap().to_string();
        command.args(["run", "tree.toml", "commands.toml"]).args(flags).current_dir(&folder);
        command.env("OTP_TEST_MARK", &mark).stdin(Stdio::null());
        command.stdout(fs::File::create(folder.join("stdout")).unwrap());
        command.stderr(fs::File::create(folder.join("stderr")).unwrap());
        takes_interrupts(&mut command);
        Daemon { child: command.spawn().unwrap(), folder, mark }
    }

    /// Runs the same files again once this daemon is dead, with a log of its own. What is seen as left is that of both.
    pub fn start_again(&mut self, flags: &[&str]) {
        self.wait();
        fs::rename(self.folder.join("log"), self.folder.join("log.1")).unwrap();
        let mut command = Command::new(PROGRAM);
        command.args(["run", "tree.toml", "commands.toml"]).args(flags).current_dir(&self.folder);
        command.env("OTP_TEST_MARK", &self.mark).stdin(Stdio::null());
        takes_interrupts(&mut command);
        self.child = command.spawn().unwrap();
    }

    pub fn pid(&self) -> i32 {
        self.child.id() as i32
    }

    pub fn signal(&self, signal: i32) {
        assert!(send(self.pid(), signal));
    }

    pub fn read(&self, name: &str) -> String {
        fs::read_to_string(self.folder.join(name)).unwrap_or_default()
    }

    pub fn log(&self) -> Vec<Line> {
        self.read("log").lines().map(|line| Line(line.to_string())).collect()
    }

    /// Waits for a line of the log.
    pub fn wait_for(&self, what: &str, is_it: impl Fn(&Line) -> bool) -> Line {
        let begun = Instant::now();
        loop {
            if let Some(line) = self.log().into_iter().find(|line| is_it(line)) {
                return line;
            }
            assert!(begun.elapsed() <= PATIENCE, "no {what}\n{}\n{}", self.read("log"), self.read("stderr"));
            thread::sleep(Duration::from_millis(10));
        }
    }

    pub fn wait_ready(&self) {
        self.wait_for("ready", |line| line.get("order") == "ready");
    }

    /// Waits for the end; the exit status.
    pub fn wait(&mut self) -> i32 {
        let begun = Instant::now();
        loop {
            if let Some(status) = self.child.try_wait().unwrap() {
                return status.code().unwrap_or(-1);
            }
            assert!(begun.elapsed() <= PATIENCE, "it doesn't end\n{}\n{}", self.read("log"), self.read("stderr"));
            thread::sleep(Duration::from_millis(10));
        }
    }

    pub fn is_running(&mut self) -> bool {
        self.child.try_wait().unwrap().is_none()
    }

    /// TERM, and then the end.
    pub fn stop(&mut self) -> i32 {
        self.signal(TERM);
        self.wait()
    }

    /// Asks for something; whether it was done, and what was printed.
    pub fn ctl(&self, words: &[&str]) -> (bool, String) {
        let mut command = Command::new(PROGRAM);
        command.args(["ctl", "--control"]).arg(self.folder.join("control")).args(words);
        let output = command.output().unwrap();
        let text = String::from_utf8([output.stdout, output.stderr].concat()).unwrap();
        (output.status.success(), text.split_inclusive('\n').filter(is_answer).collect())
    }

    /// The orders and events of the log, without times.
    pub fn story(&self) -> Vec<String> {
        self.log().iter().filter_map(Line::short).collect()
    }

    /// The processes that have this daemon's mark among their variables, the daemon itself left out.
    pub fn left(&self) -> Vec<i32> {
        let mark = format!("OTP_TEST_MARK={}", self.mark);
        let pids =
            fs::read_dir("/proc").unwrap().filter_map(|entry| entry.ok()?.file_name().to_str()?.parse::<i32>().ok());
        pids.filter(|pid| {
            let variables = fs::read(format!("/proc/{pid}/environ")).unwrap_or_default();
            *pid != self.pid() && variables.split(|&byte| byte == 0).any(|one| one == mark.as_bytes())
        })
        .collect()
    }

    /// The log, played again on the library, gives the same orders.
    pub fn replay(&self) -> String {
        let output =
            Command::new(PROGRAM).args(["replay", "tree.toml", "log"]).current_dir(&self.folder).output().unwrap();
        let text = String::from_utf8([output.stdout, output.stderr].concat()).unwrap();
        assert!(output.status.success(), "{text}");
        text
    }
}

impl Drop for Daemon {
    fn drop(&mut self) {
        let _ = self.child.kill();
        let _ = self.child.wait();
        // What its processes have started outlives it.
        for pid in self.left() {
            send(pid, KILL);
        }
        if !thread::panicking() {
            let _ = fs::remove_dir_all(&self.folder);
        }
    }
}

/// A line of the log in JSON.
#[derive(Clone, Debug)]
pub struct Line(pub String);

impl Line {
    /// The text or the number of this key; empty where there is none.
    pub fn get(&self, key: &str) -> &str {
        let head = format!("\"{key}\":");
        let Some(at) = self.0.find(&head) else {
            return "";
        };
        let rest = &self.0[at + head.len()..];
        match rest.strip_prefix('"') {
            Some(text) => text.split('"').next().unwrap_or(""),
            None => rest.split([',', '}']).next().unwrap_or(""),
        }
    }

    pub fn number(&self, key: &str) -> u64 {
        self.get(key).parse().unwrap_or(u64::MAX)
    }

    /// What it tells, in a few words; nothing of remarks.
    pub fn short(&self) -> Option<String> {
        let (order, event) = (self.get("order"), self.get("event"));
        let path = self.get("path");
        let reason = self.get("reason");
        match (order, event) {
            ("end", _) => Some(format!("end {reason}")),
            ("ready", _) => Some("ready".to_string()),
            ("", "stop") => Some("-> stop".to_string()),
            ("", "call") => Some(format!("-> {} {path}", self.get("call"))),
            ("reply", _) => Some(format!("reply {}", self.get("answer"))),
            ("", "") => None,
            ("", event) => Some(format!("-> {event} {path} #{} {reason}", self.get("number")).trim_end().to_string()),
            (order, _) => Some(format!("{order} {path} #{}", self.get("number"))),
        }
    }
}

/// Whether a line that `ctl` prints is of the answer: on a busy machine it says meanwhile what it waits for.
pub fn is_answer(line: &&str) -> bool {
    !(line.starts_with("otp-procs: ") && line.contains(" waits: "))
}

/// Waits until something is so.
pub fn wait_until(what: &str, mut is_so: impl FnMut() -> bool) {
    let begun = Instant::now();
    while !is_so() {
        assert!(begun.elapsed() < PATIENCE, "not so: {what}");
        thread::sleep(Duration::from_millis(10));
    }
}

/// The processor time of a process so far, in clock ticks.
pub fn ticks_of(pid: i32) -> u64 {
    let stat = fs::read_to_string(format!("/proc/{pid}/stat")).unwrap();
    let fields: Vec<&str> = stat.rsplit_once(')').unwrap().1.split_ascii_whitespace().collect();
    fields[11].parse::<u64>().unwrap() + fields[12].parse::<u64>().unwrap()
}

pub fn exists(path: &Path) -> bool {
    path.symlink_metadata().is_ok()
}
