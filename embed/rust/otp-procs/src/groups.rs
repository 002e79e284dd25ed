//! Control groups, version 2: each process has one of its own, below that of its supervisor, so that all it starts can be killed
//! at once, also what has left its process group, and what it takes can be read and bounded.
//!
//! A daemon has a folder that was handed to it (`--cgroup`). In it are `daemon`, where the daemon itself is if it was in the folder,
//! and `tree`, where a supervisor is `pool#` and its process `a#5`: no file of the system has a `#` in its name.

use crate::keys::Keys;
use crate::proc_files::Process;
use crate::subset::{BadLine, Place, Value};
use crate::who::value_of;
use std::fmt;
use std::fs::{self, File};
use std::io;
use std::os::fd::{AsRawFd, RawFd};
use std::path::{Path, PathBuf};

const CONTROLLERS: [&str; 3] = ["memory", "cpu", "pids"];
const TREE: &str = "tree";
const DAEMON: &str = "daemon";

/// Which folder is taken.
#[derive(Clone, Debug, PartialEq, Eq)]
pub enum Wanted {
    /// The one that this process is in.
    Own,
    /// This one.
    Folder(PathBuf),
}

/// Why there are no control groups.
#[derive(Debug)]
pub enum NoGroups {
    /// None of version 2 is mounted.
    NotMounted,
    /// The folder is none of theirs.
    NoGroup(PathBuf),
    /// The kernel can't kill a group.
    TooOld,
    /// Another daemon has it.
    Taken(PathBuf),
    /// The system refuses it.
    System(PathBuf, io::Error),
}

impl fmt::Display for NoGroups {
    fn fmt(&self, f: &mut fmt::Formatter<'_>) -> fmt::Result {
        match self {
            NoGroups::NotMounted => {
                f.write_str("--cgroup: no control groups of version 2 are mounted here; drop --cgroup")
            }
            NoGroups::NoGroup(folder) => write!(
                f,
                "--cgroup: {} is no control group of version 2; give a folder below the mount of type cgroup2, or auto",
                folder.display()
            ),
            NoGroups::TooOld => {
                f.write_str("--cgroup: this kernel can't kill a control group (Linux 5.14 can); drop --cgroup")
            }
            NoGroups::Taken(folder) => {
                write!(f, "--cgroup: another daemon has {}; stop it, or give another folder", folder.display())
            }
            NoGroups::System(path, error) => write!(
                f,
                "--cgroup: {}: {error}; the group has to be handed to the daemon, as systemd does by Delegate=yes",
                path.display()
            ),
        }
    }
}

impl std::error::Error for NoGroups {}

/// What a process may take.
#[derive(Clone, Debug, Default, PartialEq, Eq)]
pub struct Shares {
    /// The files of the group with what is written there, and where the file of commands says so.
    set: Vec<(&'static str, String, Place)>,
}

/// The keys with the files that they are written to.
const FILES: [(&str, &str); 4] =
    [("memory_max", "memory.max"), ("cpu_weight", "cpu.weight"), ("cpu_quota", "cpu.max"), ("pids_max", "pids.max")];

impl Shares {
    /// What the keys of a table say.
    pub fn of(keys: &Keys<'_>) -> Result<Self, BadLine> {
        let mut set = Vec::new();
        for (key, file) in FILES {
            let Some(entry) = keys.find(key) else { continue };
            let value = match (key, &entry.value) {
                ("memory_max", Value::Number(bytes)) if *bytes > 0 => Ok(bytes.to_string()),
                ("memory_max", Value::Text(text)) => match value_of(text) {
                    Some(u64::MAX) => Ok("max".to_string()),
                    Some(bytes) if bytes > 0 => Ok(bytes.to_string()),
                    _ => Err("memory_max is a number of bytes, as \"512M\", or \"infinity\""),
                },
                ("memory_max", _) => Err("memory_max is a number of bytes, as \"512M\", or \"infinity\""),
                ("cpu_weight", Value::Number(weight)) if (1..=10_000).contains(weight) => Ok(weight.to_string()),
                ("cpu_weight", _) => Err("cpu_weight is 1 to 10000; 100 is usual"),
                ("cpu_quota", Value::Text(text)) => {
                    let percent = text.strip_suffix('%').and_then(|digits| digits.parse::<u32>().ok());
                    let quota = percent.filter(|percent| *percent > 0).map(|percent| u64::from(percent) * 1000);
                    quota
                        .map(|quota| format!("{quota} 100000"))
                        .ok_or("cpu_quota is a share of one processor, as \"50%\" or \"200%\"")
                }
                ("cpu_quota", _) => Err("cpu_quota is a share of one processor, as \"50%\" or \"200%\""),
                (_, Value::Number(count)) if *count > 0 => Ok(count.to_string()),
                _ => Err("pids_max is how many processes and threads there may be, from 1"),
            };
            match value {
                Ok(value) => set.push((file, value, entry.place.clone())),
                Err(text) => return keys.bad(&entry.place, text),
            }
        }
        Ok(Shares { set })
    }

    /// Why the daemon can't see to them, if it can't.
    pub fn refusal(&self, groups: Option<&Groups>) -> Option<BadLine> {
        let (file, _, place) = match groups {
            None => self.set.first()?,
            Some(groups) => self.set.iter().find(|(file, ..)| !groups.has(controller_of(file)))?,
        };
        let key = FILES.iter().find(|(_, known)| known == file).map_or("", |(key, _)| key);
        let text = match groups {
            None => format!("{key} wants a control group: run with --cgroup auto, or drop it"),
            Some(groups) => format!(
                "{key} wants the controller {}, which {} doesn't have; let it be handed to the daemon, or drop the key",
                controller_of(file),
                groups.root.display()
            ),
        };
        Some(BadLine::new(place, text))
    }
}

fn controller_of(file: &str) -> &str {
    file.split('.').next().unwrap_or(file)
}

/// The folder of the group that this process is in.
fn own_folder() -> Option<PathBuf> {
    let own = fs::read_to_string("/proc/self/cgroup").ok()?;
    let mounts = fs::read_to_string("/proc/self/mountinfo").ok()?;
    folder_in(&own, &mounts)
}

/// The folder of its own group, by the texts of these files.
fn folder_in(own: &str, mounts: &str) -> Option<PathBuf> {
    let path = own.lines().find_map(|line| line.strip_prefix("0::"))?;
    mounts.lines().find_map(|line| {
        let (place, kind) = line.split_once(" - ")?;
        let mut fields = place.split(' ').skip(3);
        let (root, mount) = (fields.next()?, fields.next()?);
        let below = if root == "/" { path } else { path.strip_prefix(root)? };
        kind.starts_with("cgroup2 ").then(|| Path::new(mount).join(below.trim_start_matches('/')))
    })
}

/// The groups of a daemon.
#[derive(Debug)]
pub struct Groups {
    root: PathBuf,
    tree: PathBuf,
    controllers: Vec<&'static str>,
    /// The folder is locked as long as the daemon lives.
    _lock: File,
}

impl Groups {
    /// Takes the folder, and with it what a daemon that was killed has left there.
    pub fn open(wanted: &Wanted) -> Result<Self, NoGroups> {
        let root = match wanted {
            Wanted::Own => own_folder().ok_or(NoGroups::NotMounted)?,
            Wanted::Folder(folder) => folder.clone(),
        };
        let system = |error| NoGroups::System(root.clone(), error);
        if !root.exists() {
            fs::create_dir(&root).map_err(system)?;
        }
        if !root.join("cgroup.controllers").exists() {
            return Err(NoGroups::NoGroup(root));
        }
        let lock = File::open(&root).map_err(system)?;
        match lock.try_lock() {
            Ok(()) => {}
            Err(fs::TryLockError::WouldBlock) => return Err(NoGroups::Taken(root)),
            Err(fs::TryLockError::Error(error)) => return Err(system(error)),
        }
        let tree = root.join(TREE);
        make_folder(&tree).map_err(system)?;
        if !tree.join("cgroup.kill").exists() {
            return Err(NoGroups::TooOld);
        }
        let is_in_it = own_folder().is_some_and(|own| own.canonicalize().ok() == root.canonicalize().ok());
        // Only a group without processes hands controllers on; the outermost one may have them.
        if is_in_it && root.join("cgroup.type").exists() {
            let daemon = root.join(DAEMON);
            make_folder(&daemon).map_err(system)?;
            fs::write(daemon.join("cgroup.procs"), "0").map_err(system)?;
        }
        let controllers = CONTROLLERS.into_iter().filter(|name| hand_on(&root, name) && hand_on(&tree, name)).collect();
        Ok(Groups { root, tree, controllers, _lock: lock })
    }

    /// The folder that was handed to the daemon.
    pub fn folder(&self) -> &Path {
        &self.root
    }

    fn has(&self, controller: &str) -> bool {
        self.controllers.contains(&controller)
    }

    /// A group for a process with this path and number.
    pub fn make(&self, path: &str, number: u64, shares: &Shares) -> io::Result<Group> {
        let mut at = self.tree.clone();
        let (above, id) = path.rsplit_once('/').unwrap_or(("", path));
        for supervisor in above.split('/').filter(|id| !id.is_empty()) {
            at.push(format!("{supervisor}#"));
            make_folder(&at)?;
            for name in &self.controllers {
                hand_on(&at, name);
            }
        }
        let name = if id.starts_with('#') { id.to_string() } else { format!("{id}#{number}") };
        at = own_folder_in(&at, &name)?;
        let group = Group { procs: File::options().write(true).open(at.join("cgroup.procs"))?, folder: at };
        for (file, value, _) in &shares.set {
            fs::write(group.folder.join(file), value)?;
        }
        Ok(group)
    }

    /// All processes of the tree's groups.
    pub fn processes(&self) -> Vec<Process> {
        let mut found = Vec::new();
        each_below(&self.tree, &mut |folder| {
            let pids = fs::read_to_string(folder.join("cgroup.procs")).unwrap_or_default();
            let pids = pids.lines().filter_map(|pid| pid.parse().ok()).filter(|&pid: &i32| pid > 1);
            found.extend(pids.map(|pid| Process { pid, is_dying: false }));
        });
        found
    }

    /// Takes the folders away that have no process, but for the tree's own.
    pub fn clear(&self) {
        each_below(&self.tree, &mut |folder| {
            if folder != self.tree {
                let _ = fs::remove_dir(folder);
            }
        });
    }

    /// Takes all away that has no process.
    pub fn remove(&self) {
        self.clear();
        let _ = fs::remove_dir(&self.tree);
    }

    /// What the group of a supervisor with this path takes, all processes below it together.
    pub fn usage_of(&self, path: &str) -> Usage {
        let ids = path.split('/').filter(|id| !id.is_empty()).map(|id| format!("{id}#"));
        usage_in(&self.tree.join(ids.collect::<PathBuf>()))
    }
}

/// Whether a group has handed a controller on to those below it.
fn hand_on(folder: &Path, controller: &str) -> bool {
    let file = folder.join("cgroup.subtree_control");
    let has_it =
        || fs::read_to_string(&file).is_ok_and(|text| text.split_ascii_whitespace().any(|name| name == controller));
    has_it() || (fs::write(&file, format!("+{controller}")).is_ok() && has_it())
}

fn make_folder(folder: &Path) -> io::Result<()> {
    match fs::create_dir(folder) {
        Err(error) if error.kind() == io::ErrorKind::AlreadyExists => Ok(()),
        made => made,
    }
}

/// A folder with this name that nobody else has: numbers begin anew where another tree is read, and a process that goes on has one.
fn own_folder_in(above: &Path, name: &str) -> io::Result<PathBuf> {
    let mut count = 0u32;
    loop {
        let folder = above.join(if count == 0 { name.to_string() } else { format!("{name}.{count}") });
        // One that has no process any more is as good as none.
        let _ = fs::remove_dir(&folder);
        match fs::create_dir(&folder) {
            Err(error) if error.kind() == io::ErrorKind::AlreadyExists => count += 1,
            made => return made.map(|()| folder),
        }
    }
}

/// Does something with each folder below this one and with itself, the innermost first.
fn each_below(folder: &Path, then: &mut dyn FnMut(&Path)) {
    for entry in fs::read_dir(folder).into_iter().flatten().flatten() {
        if entry.file_type().is_ok_and(|kind| kind.is_dir()) {
            each_below(&entry.path(), then);
        }
    }
    then(folder);
}

/// What a group takes, as far as its files tell.
#[derive(Clone, Copy, Debug, Default, PartialEq, Eq)]
pub struct Usage {
    /// Bytes of memory.
    pub memory: Option<u64>,
    /// Milliseconds of processor time so far.
    pub processor_ms: Option<u64>,
}

fn usage_in(folder: &Path) -> Usage {
    let read = |file: &str| fs::read_to_string(folder.join(file)).ok();
    Usage {
        memory: read("memory.current").and_then(|text| text.trim().parse().ok()),
        processor_ms: read("cpu.stat").and_then(|text| value_in(&text, "usage_usec")).map(|time| time / 1000),
    }
}

/// The number behind a word at the head of a line.
fn value_in(text: &str, word: &str) -> Option<u64> {
    text.lines().find_map(|line| line.strip_prefix(word)?.trim().parse().ok())
}

/// The group of a process.
#[derive(Debug)]
pub struct Group {
    folder: PathBuf,
    procs: File,
}

impl Group {
    /// The group of a process which runs.
    pub fn left_by(folder: &Path) -> io::Result<Self> {
        let procs = File::options().write(true).open(folder.join("cgroup.procs"))?;
        Ok(Group { folder: folder.to_path_buf(), procs })
    }

    /// Its folder.
    pub fn folder(&self) -> &Path {
        &self.folder
    }

    /// By which a process comes into it.
    pub fn descriptor(&self) -> RawFd {
        self.procs.as_raw_fd()
    }

    /// Kills all that is in it.
    pub fn kill(&self) -> io::Result<()> {
        match fs::write(self.folder.join("cgroup.kill"), "1") {
            Err(error) if error.kind() != io::ErrorKind::NotFound => Err(error),
            _ => Ok(()),
        }
    }

    /// Whether a process is in it that lives.
    pub fn is_populated(&self) -> bool {
        let events = fs::read_to_string(self.folder.join("cgroup.events")).unwrap_or_default();
        value_in(&events, "populated") == Some(1)
    }

    /// Whether the system has killed one of it for want of memory.
    pub fn is_out_of_memory(&self) -> bool {
        let events = fs::read_to_string(self.folder.join("memory.events")).unwrap_or_default();
        value_in(&events, "oom_kill ").is_some_and(|count| count > 0)
    }

    /// What it takes.
    pub fn usage(&self) -> Usage {
        usage_in(&self.folder)
    }
}

/// It is taken away with the last process.
impl Drop for Group {
    fn drop(&mut self) {
        let _ = fs::remove_dir(&self.folder);
    }
}

#[cfg(test)]
mod tests {
    use super::*;
    use crate::plan::read;

    #[test]
    fn the_own_folder_is_found() {
        let mounts = "30 24 0:26 / /sys rw - sysfs sysfs rw\n41 31 0:38 / /sys/fs/cgroup rw,nosuid shared:4 - cgroup2 cgroup2 rw\n";
        let found = |own: &str, mounts: &str| folder_in(own, mounts).map(|path| path.display().to_string());
        assert_eq!(
            found("0::/system.slice/shop.service\n", mounts).as_deref(),
            Some("/sys/fs/cgroup/system.slice/shop.service")
        );
        assert_eq!(found("9:name=systemd:/\n0::/\n", mounts).as_deref(), Some("/sys/fs/cgroup/"));
        assert_eq!(found("0::/docker/x/y", "1 2 0:1 /docker/x /mnt rw - cgroup2 c rw").as_deref(), Some("/mnt/y"));
        assert_eq!((found("1:cpu:/\n", mounts), found("0::/\n", "")), (None, None));
    }

    #[test]
    fn shares_are_read_or_refused() {
        let shares =
            |lines: &str| read("f", &format!("[a]\ncommand = ['x']\n{lines}\n")).map(|plans| plans["a"].shares.clone());
        let set = shares("memory_max = '512M'\ncpu_weight = 50\ncpu_quota = '150%'\npids_max = 7").unwrap().set;
        let set: Vec<(&str, &str)> = set.iter().map(|(file, value, _)| (*file, value.as_str())).collect();
        let wanted =
            [("memory.max", "536870912"), ("cpu.weight", "50"), ("cpu.max", "150000 100000"), ("pids.max", "7")];
        assert_eq!(set, wanted);
        assert_eq!(shares("memory_max = 'infinity'").unwrap().set[0].1, "max");
        for lines in [
            "memory_max = '5x'",
            "memory_max = 0",
            "cpu_weight = 0",
            "cpu_quota = 50",
            "cpu_quota = '0%'",
            "pids_max = 0",
        ] {
            assert_eq!(shares(lines).map_err(|bad| bad.place.line), Err(3), "{lines}");
        }
        let told = shares("pids_max = 7").unwrap().refusal(None).unwrap().to_string();
        assert_eq!(told, "f:3: pids_max wants a control group: run with --cgroup auto, or drop it");
        assert!(shares("").unwrap().refusal(None).is_none());
    }

    #[test]
    fn no_two_processes_have_one_folder() {
        let above = std::env::temp_dir().join(format!("otp-procs-own-group-{}", std::process::id()));
        fs::create_dir_all(above.join("#3")).unwrap();
        // An empty one is taken; one that has something in it isn't.
        assert_eq!(own_folder_in(&above, "#3").unwrap(), above.join("#3"));
        fs::create_dir_all(above.join("#3").join("x")).unwrap();
        assert_eq!(own_folder_in(&above, "#3").unwrap(), above.join("#3.1"));
        assert!(own_folder_in(&above.join("none"), "#3").is_err());
        fs::remove_dir_all(&above).unwrap();
    }

    #[test]
    fn what_a_group_tells_is_read() {
        let folder = std::env::temp_dir().join(format!("otp-procs-group-{}", std::process::id()));
        fs::create_dir_all(&folder).unwrap();
        for (file, text) in [
            ("memory.current", "4096\n"),
            ("cpu.stat", "usage_usec 5123\nuser_usec 1\n"),
            ("cgroup.events", "populated 1\nfrozen 0\n"),
            ("memory.events", "oom 3\noom_kill 2\noom_group_kill 0\n"),
            ("cgroup.procs", ""),
        ] {
            fs::write(folder.join(file), text).unwrap();
        }
        let group = Group { procs: File::open(folder.join("cgroup.procs")).unwrap(), folder: folder.clone() };
        assert_eq!(group.usage(), Usage { memory: Some(4096), processor_ms: Some(5) });
        assert!(group.is_populated() && group.is_out_of_memory());
        fs::write(folder.join("memory.events"), "oom_kill 0\n").unwrap();
        assert!(!group.is_out_of_memory());
        fs::remove_dir_all(&folder).unwrap();
    }
}
