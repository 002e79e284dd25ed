//! What is done in a child between the fork and its program.

use super::{DESCRIPTORS, Limit, checked, getppid, set_of};
use super::{LAST_SIGNAL, PR_SET_PDEATHSIG, RLIMIT_NOFILE, SIG_DFL, SIG_SETMASK, SIGKILL};
use super::{dup2, never_wait, prctl, setrlimit, signal, sigprocmask, waitpid, write};
use std::ffi::c_int;
use std::io::{self, PipeReader, Write};
use std::os::fd::{AsFd, RawFd};
use std::os::unix::process::CommandExt;
use std::panic::{AssertUnwindSafe, catch_unwind};
use std::process::Command;

const PRIO_PROCESS: c_int = 0;
const PR_SET_NO_NEW_PRIVS: c_int = 38;
const ESRCH: c_int = 3;
const EIO: c_int = 5;
/// The status of a child that couldn't become its program, as a shell has it.
const NO_PROGRAM: c_int = 127;

unsafe extern "C" {
    fn fork() -> c_int;
    fn _exit(status: c_int) -> !;
    fn setgroups(count: usize, groups: *const u32) -> c_int;
    fn setgid(gid: u32) -> c_int;
    fn setuid(uid: u32) -> c_int;
    fn setpriority(which: c_int, who: u32, value: c_int) -> c_int;
    fn umask(mask: u32) -> u32;
}

/// As whom a process runs; what isn't said stays as it is.
#[derive(Clone, Debug, Default, PartialEq, Eq)]
pub struct Become {
    /// The user.
    pub uid: Option<u32>,
    /// The group.
    pub gid: Option<u32>,
    /// The supplementary groups.
    pub groups: Option<Vec<u32>>,
}

/// A limit, by the system's number of what it bounds.
#[derive(Clone, Copy, Debug, PartialEq, Eq)]
pub struct Bound {
    /// What is bounded.
    pub resource: i32,
    /// What a process meets.
    pub soft: u64,
    /// Up to which it may raise that.
    pub hard: u64,
}

/// How a child is made ready.
#[derive(Clone, Debug, Default, PartialEq, Eq)]
pub struct Setup {
    /// A descriptor of this process, and the number that it gets in the child.
    pub notify: Option<(RawFd, RawFd)>,
    /// A control group's file `cgroup.procs`.
    pub cgroup: Option<RawFd>,
    /// The limits.
    pub limits: Vec<Bound>,
    /// The niceness.
    pub nice: Option<i32>,
    /// The mask of new files.
    pub umask: Option<u32>,
    /// As whom it runs.
    pub becomes: Become,
    /// It can gain no privileges, as by programs that become root.
    pub no_new_privileges: bool,
}

/// What may be refused.
#[derive(Clone, Copy, Debug, PartialEq, Eq)]
enum Step {
    Signals = 1,
    Notify,
    Cgroup,
    Nice,
    Groups,
    Group,
    User,
    Privileges,
    Death,
    /// Behind it stand the limits.
    Limits = 64,
}

/// The words for each step, with the keys of the file of commands.
const STEPS: [(Step, &str); 9] = [
    (Step::Signals, "signals can't be let through"),
    (Step::Notify, "notify_fd can't be set"),
    (Step::Cgroup, "it can't be put into its control group"),
    (Step::Nice, "nice can't be set"),
    (Step::Groups, "groups can't be set"),
    (Step::Group, "group can't be set"),
    (Step::User, "user can't be set"),
    (Step::Privileges, "no_new_privileges can't be set"),
    (Step::Death, "the daemon ends just now"),
];

/// An error's number stands in the lower 16 bits of what the child hands back, and the step above them.
const SHIFT: u32 = 16;

fn at(step: i32, answer: c_int) -> io::Result<()> {
    checked(answer)
        .map(drop)
        .map_err(|error| io::Error::from_raw_os_error(step << SHIFT | error.raw_os_error().unwrap_or(EIO)))
}

/// What was refused in a child before its program began, if it was that, and why.
pub fn refused_step(error: &io::Error, name_of: impl Fn(i32) -> String) -> Option<(String, io::Error)> {
    let code = error.raw_os_error()?;
    let (step, why) = (code >> SHIFT, io::Error::from_raw_os_error(code & 0xFFFF));
    if step >= Step::Limits as i32 {
        return Some((format!("limits: {} can't be set", name_of(step - Step::Limits as i32)), why));
    }
    STEPS.iter().find(|(known, _)| *known as i32 == step).map(|(_, text)| ((*text).to_string(), why))
}

/// Begins a child that becomes its program by what it is given here, which comes back only with a text: why it couldn't. The text is
/// read from the pipe, which never waits, and ends as soon as the program begins. This process has one thread, so the child may do whatever this one
/// may; and nothing of that, however long it takes, keeps this one waiting.
pub fn begin_child(become_program: impl FnOnce() -> String) -> io::Result<(i32, PipeReader)> {
    let (told, mut tells) = io::pipe()?;
    never_wait(told.as_fd())?;
    // SAFETY: it takes nothing, and there is no other thread that might have held a lock.
    let pid = checked(unsafe { fork() })?;
    if pid > 0 {
        return Ok((pid, told));
    }
    // SAFETY: this option takes a number. It is asked for again behind a change of user.
    unsafe { prctl(PR_SET_PDEATHSIG, SIGKILL as u64) };
    let why = catch_unwind(AssertUnwindSafe(become_program)).unwrap_or_default();
    let _ = tells.write_all(why.as_bytes());
    // SAFETY: it ends this child at once, which leaves all that it has of its parent alone.
    unsafe { _exit(NO_PROGRAM) }
}

/// Waits for a child that has told why it ends, and takes its number.
pub fn wait_for(pid: i32) {
    // SAFETY: no status is wanted.
    unsafe { waitpid(pid, std::ptr::null_mut(), 0) };
}

/// What is done in the child before its program begins: no signal is blocked or ignored; what the setup says; and, last, since a
/// change of user takes that back, that it is killed if the daemon ends, its parent. It may have as many descriptors as that might.
pub fn prepare_child(command: &mut Command, setup: Setup, parent: u32) {
    let none = set_of(&[]);
    let descriptors = DESCRIPTORS.get().copied();
    // SAFETY: between fork and exec only calls are made that are safe in a signal handler, and no memory is taken.
    unsafe {
        command.pre_exec(move || {
            // Those that can't be set (KILL, STOP, and two of the C library's own) are refused, which does nothing.
            for number in 1..=LAST_SIGNAL {
                signal(number, SIG_DFL);
            }
            at(Step::Signals as i32, sigprocmask(SIG_SETMASK, &raw const none, std::ptr::null_mut()))?;
            if let Some((from, to)) = setup.notify {
                at(Step::Notify as i32, dup2(from, to))?;
            }
            if let Some(procs) = setup.cgroup {
                at(Step::Cgroup as i32, write(procs, c"0".as_ptr().cast(), 1) as c_int)?;
            }
            if let Some(limit) = descriptors {
                at(Step::Limits as i32 + RLIMIT_NOFILE, setrlimit(RLIMIT_NOFILE, &raw const limit))?;
            }
            bound(&setup)?;
            become_another(&setup.becomes)?;
            if setup.no_new_privileges {
                at(Step::Privileges as i32, prctl(PR_SET_NO_NEW_PRIVS, 1u64, 0u64, 0u64, 0u64))?;
            }
            at(Step::Death as i32, prctl(PR_SET_PDEATHSIG, SIGKILL as u64))?;
            // The parent may have ended before it asked for that.
            if getppid() as u32 != parent {
                return Err(io::Error::from_raw_os_error((Step::Death as i32) << SHIFT | ESRCH));
            }
            Ok(())
        });
    }
}

/// Sets the limits, the niceness and the mask.
///
/// # Safety
/// In a child that has one thread.
unsafe fn bound(setup: &Setup) -> io::Result<()> {
    // SAFETY: these calls take numbers, and a limit of the form that they want.
    unsafe {
        for bound in &setup.limits {
            let limit = Limit { soft: bound.soft, hard: bound.hard };
            at(Step::Limits as i32 + bound.resource, setrlimit(bound.resource, &raw const limit))?;
        }
        if let Some(nice) = setup.nice {
            at(Step::Nice as i32, setpriority(PRIO_PROCESS, 0, nice))?;
        }
        if let Some(mask) = setup.umask {
            umask(mask);
        }
    }
    Ok(())
}

/// Groups first: who is another user may set none.
///
/// # Safety
/// In a child that has one thread.
unsafe fn become_another(becomes: &Become) -> io::Result<()> {
    // SAFETY: the count is that of the groups.
    unsafe {
        if let Some(groups) = &becomes.groups {
            at(Step::Groups as i32, setgroups(groups.len(), groups.as_ptr()))?;
        }
        if let Some(gid) = becomes.gid {
            at(Step::Group as i32, setgid(gid))?;
        }
        if let Some(uid) = becomes.uid {
            at(Step::User as i32, setuid(uid))?;
        }
    }
    Ok(())
}

#[cfg(test)]
mod tests {
    use super::*;

    #[test]
    fn a_step_that_is_refused_is_told_and_a_program_that_is_not_there_is_none() {
        let name = |resource: i32| format!("number {resource}");
        let told = |step: i32, code: i32| refused_step(&io::Error::from_raw_os_error(step << SHIFT | code), name);
        let (what, why) = told(Step::Limits as i32 + RLIMIT_NOFILE, 22).unwrap();
        assert_eq!((what.as_str(), why.kind()), ("limits: number 7 can't be set", io::ErrorKind::InvalidInput));
        let (what, why) = told(Step::User as i32, 1).unwrap();
        assert_eq!((what.as_str(), why.kind()), ("user can't be set", io::ErrorKind::PermissionDenied));
        assert!(told(0, 2).is_none() && refused_step(&io::Error::other("x"), name).is_none());
    }
}
