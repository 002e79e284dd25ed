//! What `/proc` tells of processes.

use std::fs;
use std::path::PathBuf;

/// `KILL` among the signals that wait for a process.
const KILL_BIT: u64 = 1 << 8;

/// A process as it stands.
#[derive(Clone, Copy, Debug, PartialEq, Eq)]
pub struct Process {
    /// Its number, as this process has to name it.
    pub pid: i32,
    /// It has ended, or was killed and is about to.
    pub is_dying: bool,
}

/// The lines of a file `status` that are wanted.
#[derive(Debug, PartialEq, Eq)]
struct Status {
    parent: i32,
    /// Its number in the namespace of these files, and in each one further in.
    numbers: Vec<i32>,
    is_dying: bool,
}

fn status_in(text: &str) -> Option<Status> {
    let line = |head: &str| text.lines().find_map(|line| line.strip_prefix(head)).map(str::trim);
    let is_dead = line("State:")?.starts_with(['Z', 'X']);
    let waiting = u64::from_str_radix(line("ShdPnd:")?, 16).ok()?;
    let numbers = line("NSpid:").or(line("Pid:"))?.split_ascii_whitespace();
    Some(Status {
        parent: line("PPid:")?.parse().ok()?,
        numbers: numbers.filter_map(|number| number.parse().ok()).collect(),
        is_dying: is_dead || waiting & KILL_BIT != 0,
    })
}

fn status_of(process: &str) -> Option<Status> {
    status_in(&String::from_utf8_lossy(&fs::read(format!("/proc/{process}/status")).ok()?))
}

/// The numbers of all processes, as these files name them.
fn all() -> impl Iterator<Item = i32> {
    let folder = fs::read_dir("/proc").ok().into_iter().flatten();
    folder.filter_map(|entry| entry.ok()?.file_name().to_str()?.parse().ok())
}

/// How these files name this process. It is another number than its own where they are of a namespace further out.
fn own_number() -> Option<i32> {
    fs::read_link("/proc/self").ok()?.to_str()?.parse().ok()
}

/// The children of this process that weren't reaped.
pub fn children() -> Vec<Process> {
    let Some((own, status)) = own_number().zip(status_of("self")) else { return Vec::new() };
    let depth = status.numbers.len().saturating_sub(1);
    let child = |number: i32| {
        let status = status_of(&number.to_string()).filter(|status| status.parent == own)?;
        Some(Process { pid: *status.numbers.get(depth)?, is_dying: status.is_dying })
    };
    all().filter_map(child).collect()
}

/// What stands behind the name in a process's file `stat`: its state first.
fn stat_of(pid: i32) -> Option<Vec<String>> {
    let stat = String::from_utf8_lossy(&fs::read(format!("/proc/{pid}/stat")).ok()?).into_owned();
    // The name may have any bytes.
    let (_, rest) = stat.rsplit_once(')')?;
    Some(rest.split_ascii_whitespace().map(str::to_string).collect())
}

/// When a process began, in ticks since the machine did: no two of the same number have the same. None where there is none, or it
/// has ended.
pub fn beginning_of(pid: i32) -> Option<u64> {
    let stat = stat_of(pid)?;
    let is_dead = matches!(stat.first()?.as_str(), "Z" | "X");
    if is_dead { None } else { stat.get(19)?.parse().ok() }
}

fn parent_of(pid: i32) -> Option<i32> {
    stat_of(pid)?.get(1)?.parse().ok()
}

/// The namespace of numbers in which a process is.
fn namespace_of(pid: i32) -> Option<PathBuf> {
    fs::read_link(format!("/proc/{pid}/ns/pid")).ok()
}

/// The processes of this one's namespace, itself and those above it left out, that have a variable with such a value. Those whose
/// variables it may not read are left out, too.
pub fn with_variable(name: &str, is_wanted: impl Fn(&[u8]) -> bool) -> Vec<Process> {
    let own = std::process::id() as i32;
    if own_number() != Some(own) {
        return Vec::new();
    }
    let own_space = namespace_of(own);
    let above: Vec<i32> = std::iter::successors(Some(own), |&pid| parent_of(pid).filter(|&pid| pid > 0)).collect();
    let head = format!("{name}=");
    let has_it = |pid: i32| {
        let variables = fs::read(format!("/proc/{pid}/environ")).unwrap_or_default();
        let mut values = variables.split(|&byte| byte == 0).filter_map(|one| one.strip_prefix(head.as_bytes()));
        values.any(&is_wanted)
    };
    let found = all().filter(|pid| !above.contains(pid) && has_it(*pid) && namespace_of(*pid) == own_space);
    let process = |pid: i32| {
        let status = status_of(&pid.to_string())?;
        Some(Process { pid, is_dying: status.is_dying })
    };
    found.filter_map(process).collect()
}

#[cfg(test)]
mod tests {
    use super::*;

    #[test]
    fn a_status_is_read() {
        let text =
            "Name:\ta b) Z\nState:\tS (sleeping)\nPid:\t40\nPPid:\t7\nNSpid:\t40\t3\nShdPnd:\t0000000000000100\n";
        assert_eq!(status_in(text), Some(Status { parent: 7, numbers: vec![40, 3], is_dying: true }));
        let text = "State:\tZ (zombie)\nPid:\t40\nPPid:\t7\nShdPnd:\t0000000000004000\n";
        assert_eq!(status_in(text), Some(Status { parent: 7, numbers: vec![40], is_dying: true }));
        assert_eq!(status_in("State:\tS\n"), None);
    }

    #[test]
    fn this_process_is_found_as_it_is() {
        let own = std::process::id() as i32;
        assert!(beginning_of(own).is_some_and(|ticks| ticks > 0));
        assert_eq!(parent_of(own), Some(std::os::unix::process::parent_id() as i32));
        // Neither itself nor those above it, though they have a path.
        assert!(with_variable("PATH", |_| true).iter().all(|found| found.pid != own));
    }
}
