//! The calls of Linux that the standard library lacks, each behind a safe function. All `unsafe` of this program is here.
#![allow(unsafe_code)]

use std::ffi::{CStr, CString, c_char, c_int, c_void};
use std::fs::File;
use std::io::{self, Read};
use std::os::fd::{AsRawFd, BorrowedFd, FromRawFd, OwnedFd, RawFd};
use std::os::unix::fs::OpenOptionsExt;
use std::os::unix::net::UnixStream;
use std::os::unix::process::ExitStatusExt;
use std::path::Path;
use std::process::ExitStatus;
use std::sync::OnceLock;
use std::time::Duration;

mod child;
mod datagram;
mod users;

pub use child::{Become, Bound, Setup, begin_child, prepare_child, refused_step, wait_for};
pub use datagram::{pass_credentials, receive};
pub use users::{User, group_named, groups_of, own_group, user_named, user_numbered};

#[cfg(not(target_os = "linux"))]
compile_error!("otp-procs uses signalfd, SO_PEERCRED and the subreaper of Linux");

/// Signals by the numbers of Linux on x86-64 and `AArch64`.
pub const SIGHUP: i32 = 1;
/// As Ctrl-C sends it.
pub const SIGINT: i32 = 2;
/// Ends a process, which may leave a core file.
pub const SIGABRT: i32 = 6;
/// Ends a process that can do nothing against it.
pub const SIGKILL: i32 = 9;
/// Asks a process to end.
pub const SIGTERM: i32 = 15;
/// A child has ended.
pub const SIGCHLD: i32 = 17;
/// The window of a terminal has changed.
pub const SIGWINCH: i32 = 28;
/// Lets a process go on that stands still.
pub const SIGCONT: i32 = 18;

/// Signals that would end the daemon, and with it all processes, though nobody who sends one means that: rotation of a log, a
/// file that may not grow, a power failure. Those of faults (as SEGV) and of Ctrl-Z stay as they are.
const HARMLESS: [(c_int, &str); 11] = [
    (3, "QUIT"),
    (10, "USR1"),
    (12, "USR2"),
    (14, "ALRM"),
    (16, "STKFLT"),
    (24, "XCPU"),
    (25, "XFSZ"),
    (26, "VTALRM"),
    (27, "PROF"),
    (SIGWINCH, "WINCH"),
    (30, "PWR"),
];
/// `SIGIO` and the first of the realtime signals that the C library leaves to programs.
const SIGIO: c_int = 29;
const FIRST_REALTIME: c_int = 34;

/// Something can be read, or a client waits.
pub const READABLE: i16 = 1;
/// Something can be written.
pub const WRITABLE: i16 = 4;

/// `POLLERR`, `POLLHUP` and `POLLNVAL`.
const HUNG_UP: i16 = 0x38;

const SFD_FLAGS: c_int = 0o2_004_000; // non-blocking, closed on exec
const SIG_DFL: usize = 0;
const SIG_IGN: usize = 1;
const LAST_SIGNAL: c_int = 64;
const SIG_BLOCK: c_int = 0;
const SIG_SETMASK: c_int = 2;
const F_GETFD: c_int = 1;
const F_SETFD: c_int = 2;
const F_GETFL: c_int = 3;
const F_SETFL: c_int = 4;
const FD_CLOEXEC: c_int = 1;
const O_NONBLOCK: c_int = 0o4000;
const O_NOCTTY: c_int = 0o400;
const PR_SET_PDEATHSIG: c_int = 1;
const PR_SET_CHILD_SUBREAPER: c_int = 36;
const P_ALL: c_int = 0;
const WNOHANG: c_int = 1;
const WEXITED: c_int = 4;
const WNOWAIT: c_int = 0x0100_0000;
const CLOCK_MONOTONIC: c_int = 1;
const MFD_CLOEXEC: u32 = 1;
const RLIMIT_NOFILE: c_int = 7;
const SOL_SOCKET: c_int = 1;
const SO_PEERCRED: c_int = 17;
const ESRCH: i32 = 3;
const EPERM: i32 = 1;

/// A descriptor that is waited for, in the form of `poll`. A negative one is skipped.
#[repr(C)]
#[derive(Clone, Copy, Debug)]
pub struct Waited {
    fd: c_int,
    events: i16,
    seen: i16,
}

impl Waited {
    /// Waits until one of these things can be done.
    pub fn new(fd: RawFd, events: i16) -> Self {
        Waited { fd, events, seen: 0 }
    }

    /// Whether something was seen: what was waited for, an end or an error.
    pub fn is_seen(&self) -> bool {
        self.seen != 0
    }

    /// Whether nobody is at the other end any more.
    pub fn is_hung_up(&self) -> bool {
        self.seen & HUNG_UP != 0
    }

    /// Whether something can be read, or the end is reached.
    pub fn is_readable(&self) -> bool {
        self.seen & READABLE != 0
    }

    /// Whether it can be written to.
    pub fn is_writable(&self) -> bool {
        self.seen & WRITABLE != 0
    }
}

#[repr(C)]
struct SignalSet([u64; 16]);

#[repr(C, align(8))]
struct SignalInfo([u8; 128]);

#[repr(C)]
struct PeerUser {
    pid: i32,
    uid: u32,
    gid: u32,
}

#[repr(C)]
#[derive(Clone, Copy, Debug)]
struct Limit {
    soft: u64,
    hard: u64,
}

/// How many descriptors this process might have open when it began.
static DESCRIPTORS: OnceLock<Limit> = OnceLock::new();

unsafe extern "C" {
    fn poll(fds: *mut Waited, count: u64, milliseconds: c_int) -> c_int;
    fn kill(pid: c_int, signal: c_int) -> c_int;
    fn getpgid(pid: c_int) -> c_int;
    fn signal(signal: c_int, handler: usize) -> usize;
    fn sigemptyset(set: *mut SignalSet) -> c_int;
    fn sigaddset(set: *mut SignalSet, signal: c_int) -> c_int;
    fn sigprocmask(how: c_int, set: *const SignalSet, old: *mut SignalSet) -> c_int;
    fn signalfd(fd: c_int, set: *const SignalSet, flags: c_int) -> c_int;
    fn prctl(option: c_int, ...) -> c_int;
    fn fcntl(fd: c_int, command: c_int, ...) -> c_int;
    fn dup2(from: c_int, to: c_int) -> c_int;
    fn read(fd: c_int, room: *mut c_void, length: usize) -> isize;
    fn write(fd: c_int, from: *const c_void, length: usize) -> isize;
    fn waitid(kind: c_int, id: u32, info: *mut SignalInfo, options: c_int) -> c_int;
    fn waitpid(pid: c_int, status: *mut c_int, options: c_int) -> c_int;
    fn getrlimit(resource: c_int, limit: *mut Limit) -> c_int;
    fn setrlimit(resource: c_int, limit: *const Limit) -> c_int;
    fn getsockopt(fd: c_int, level: c_int, name: c_int, value: *mut c_void, length: *mut u32) -> c_int;
    fn geteuid() -> u32;
    fn umask(mask: u32) -> u32;
    fn getppid() -> c_int;
    fn memfd_create(name: *const c_char, flags: u32) -> c_int;
    fn execv(path: *const c_char, words: *const *const c_char) -> c_int;
    fn clock_gettime(clock: c_int, time: *mut [i64; 2]) -> c_int;
}

fn checked(answer: c_int) -> io::Result<c_int> {
    if answer < 0 { Err(io::Error::last_os_error()) } else { Ok(answer) }
}

/// Microseconds of the system's monotonic clock, as a manager wants them.
pub fn monotonic_microseconds() -> u64 {
    let mut time = [0; 2];
    // SAFETY: on 64 bits a `timespec` is two such numbers, and these are this function's own.
    let answer = unsafe { clock_gettime(CLOCK_MONOTONIC, &raw mut time) };
    if answer == 0 { (time[0] * 1_000_000 + time[1] / 1_000) as u64 } else { 0 }
}

fn set_of(signals: &[c_int]) -> SignalSet {
    let mut set = SignalSet([0; 16]);
    // SAFETY: `set` has the size of glibc's `sigset_t` (128 bytes), and is this function's own.
    unsafe {
        sigemptyset(&raw mut set);
        for &signal in signals {
            sigaddset(&raw mut set, signal);
        }
    }
    set
}

/// A signal that was sent to this process, and by whom.
#[derive(Clone, Copy, Debug, PartialEq, Eq)]
pub struct Sent {
    /// Its number.
    pub signal: i32,
    /// The sender's process; 0 where the system sent it.
    pub pid: u32,
}

/// Blocks the signals that would end the daemon or that it waits for, and gives a descriptor from which they are read. Before any
/// thread is started.
pub fn signals_as_descriptor() -> io::Result<OwnedFd> {
    let mut signals = vec![SIGHUP, SIGINT, SIGTERM, SIGCHLD, SIGIO];
    signals.extend(HARMLESS.iter().map(|(number, _)| *number));
    signals.extend(FIRST_REALTIME..=LAST_SIGNAL);
    let all = set_of(&signals);
    // SAFETY: the sets are initialised; the descriptor that comes back is nobody else's.
    unsafe {
        checked(sigprocmask(SIG_BLOCK, &raw const all, std::ptr::null_mut()))?;
        // Where SIGCHLD is ignored, as it may be inherited, the system itself reaps the children.
        signal(SIGCHLD, SIG_DFL);
        // A shell ignores INT for what it runs in the background: Ctrl-C is meant for others then. One that is blocked comes by
        // the descriptor though it is ignored, so it is left out. HUP is taken always: it ends nothing here.
        if signal(SIGINT, SIG_DFL) == SIG_IGN {
            signal(SIGINT, SIG_IGN);
            signals.retain(|&number| number != SIGINT);
        }
        let taken = set_of(&signals);
        Ok(OwnedFd::from_raw_fd(checked(signalfd(-1, &raw const taken, SFD_FLAGS))?))
    }
}

/// The name of a signal that the daemon blocks, as `USR1`; a realtime one has its number in the place of a name.
pub fn name_of(signal: i32) -> String {
    let own = [(SIGHUP, "HUP"), (SIGINT, "INT"), (SIGTERM, "TERM"), (SIGCHLD, "CHLD"), (SIGIO, "IO")];
    let found = own.iter().chain(&HARMLESS).find(|(number, _)| *number == signal);
    found.map_or_else(|| signal.to_string(), |(_, name)| (*name).to_string())
}

/// The next signal that was sent, if there is one.
pub fn next_signal(descriptor: &OwnedFd) -> Option<Sent> {
    let mut info = [0u8; 128];
    // SAFETY: the length is that of `info`.
    let count = unsafe { read(descriptor.as_raw_fd(), info.as_mut_ptr().cast(), info.len()) };
    if count != 128 {
        return None;
    }
    let word = |at: usize| u32::from_ne_bytes([info[at], info[at + 1], info[at + 2], info[at + 3]]);
    Some(Sent { signal: word(0) as i32, pid: word(12) })
}

/// Sleeps until something is seen or the time is over; without a time until something is seen. A signal handler may end it too.
pub fn wait(waited: &mut [Waited], time: Option<Duration>) -> io::Result<()> {
    let milliseconds = match time {
        None => -1,
        Some(time) => {
            let up = u128::from(time.subsec_nanos() % 1_000_000 > 0);
            (time.as_millis() + up).min(i32::MAX as u128) as c_int
        }
    };
    // SAFETY: the pointer and the count are those of one slice.
    match checked(unsafe { poll(waited.as_mut_ptr(), waited.len() as u64, milliseconds) }) {
        Err(error) if error.kind() != io::ErrorKind::Interrupted => Err(error),
        _ => Ok(()),
    }
}

/// Writes once, and says how many bytes were taken.
pub fn write_once(fd: BorrowedFd<'_>, bytes: &[u8]) -> io::Result<usize> {
    // SAFETY: the pointer and the length are those of one slice.
    let count = unsafe { write(fd.as_raw_fd(), bytes.as_ptr().cast(), bytes.len()) };
    usize::try_from(count).map_err(|_| io::Error::last_os_error())
}

/// Reads once into the room, and says how many bytes came; 0 at the end.
pub fn read_once(fd: BorrowedFd<'_>, room: &mut [u8]) -> io::Result<usize> {
    // SAFETY: the pointer and the length are those of one slice.
    let count = unsafe { read(fd.as_raw_fd(), room.as_mut_ptr().cast(), room.len()) };
    usize::try_from(count).map_err(|_| io::Error::last_os_error())
}

fn send(pid: c_int, signal: i32) -> io::Result<()> {
    // SAFETY: no memory is handed over.
    match checked(unsafe { kill(pid, signal) }) {
        Ok(_) => Ok(()),
        // Nobody is left there, which is what a signal is sent for.
        Err(error) if error.raw_os_error() == Some(ESRCH) => Ok(()),
        Err(error) => Err(error),
    }
}

/// Sends a signal to one process: a child that was not reaped, so that its number is still its own.
pub fn signal_process(pid: i32, signal: i32) -> io::Result<()> {
    send(pid.max(1), signal)
}

/// Sends a signal to all of the process group that a child has led from its start, and to the child itself where it has left
/// that. The child was not reaped. The group of number 1 or less is none.
pub fn signal_group(leader: i32, signal: i32) -> io::Result<()> {
    if leader <= 1 {
        return Err(io::Error::from_raw_os_error(EPERM));
    }
    let group = send(-leader, signal);
    // SAFETY: no memory is handed over.
    let is_member = unsafe { getpgid(leader) } == leader;
    // A group takes a signal where one of it may be signalled. Signal 0 asks whether the leader may be, and sends nothing.
    let alone = send(leader, if is_member { 0 } else { signal });
    group.and(alone)
}

/// Whose parent has ended becomes a child of this process, if it descends from it.
pub fn adopt_orphans() -> io::Result<()> {
    // SAFETY: this option takes a number.
    checked(unsafe { prctl(PR_SET_CHILD_SUBREAPER, 1u64, 0u64, 0u64, 0u64) }).map(|_| ())
}

/// A child that has ended and was not reaped, if there is one.
pub fn ended_child() -> Option<i32> {
    let mut info = SignalInfo([0; 128]);
    // SAFETY: `info` has the size and the alignment of `siginfo_t`.
    let answer = unsafe { waitid(P_ALL, 0, &raw mut info, WEXITED | WNOHANG | WNOWAIT) };
    let at = |at: usize| i32::from_ne_bytes([info.0[at], info.0[at + 1], info.0[at + 2], info.0[at + 3]]);
    // `si_pid` stands behind three numbers and four bytes of padding.
    (answer == 0 && at(16) > 0).then(|| at(16))
}

/// Takes the status of a child that has ended, and with it its number; nothing where there is none.
pub fn reap(pid: i32) -> Option<ExitStatus> {
    let mut status = 0;
    // SAFETY: the status is this function's own.
    let answer = unsafe { waitpid(pid, &raw mut status, WNOHANG) };
    (answer == pid).then(|| ExitStatus::from_raw(status))
}

/// The user that this process acts as.
pub fn own_user() -> u32 {
    // SAFETY: it has no argument and cannot fail.
    unsafe { geteuid() }
}

/// The user at the other end of a socket, as it was when it connected.
pub fn peer_user(stream: &UnixStream) -> io::Result<u32> {
    let mut peer = PeerUser { pid: 0, uid: u32::MAX, gid: u32::MAX };
    let mut length = size_of::<PeerUser>() as u32;
    // SAFETY: the length is that of `peer`, which has the form of `struct ucred`.
    checked(unsafe {
        getsockopt(stream.as_raw_fd(), SOL_SOCKET, SO_PEERCRED, (&raw mut peer).cast(), &raw mut length)
    })?;
    Ok(peer.uid)
}

/// Does something while new files have only the rights of this mode. No other thread may make any meanwhile.
pub fn with_rights<T>(mode: u32, deed: impl FnOnce() -> T) -> T {
    // SAFETY: these calls take a number, and cannot fail.
    let before = unsafe { umask(!mode & 0o777) };
    let done = deed();
    // SAFETY: the same.
    unsafe { umask(before) };
    done
}

/// A read or write of this descriptor never waits.
pub fn never_wait(fd: BorrowedFd<'_>) -> io::Result<()> {
    // SAFETY: the descriptor is open, and these commands take a number.
    unsafe {
        let flags = checked(fcntl(fd.as_raw_fd(), F_GETFL))?;
        checked(fcntl(fd.as_raw_fd(), F_SETFL, flags | O_NONBLOCK))?;
    }
    Ok(())
}

/// A write to this descriptor waits again where it has to.
pub fn may_wait(fd: BorrowedFd<'_>) -> io::Result<()> {
    // SAFETY: the descriptor is open, and these commands take a number.
    unsafe {
        let flags = checked(fcntl(fd.as_raw_fd(), F_GETFL))?;
        checked(fcntl(fd.as_raw_fd(), F_SETFL, flags & !O_NONBLOCK))?;
    }
    Ok(())
}

/// Opens a file to write to its end, and makes it where it isn't there. A pipe without a reader is refused, since to open it would
/// keep this process waiting; no terminal becomes this process's own.
pub fn append_to(file: &Path) -> io::Result<File> {
    File::options().append(true).create(true).custom_flags(O_NONBLOCK | O_NOCTTY).open(file)
}

/// Reads a file of at most so many bytes. What is no file, as a pipe that nobody writes to, is refused, and keeps nobody waiting.
pub fn read_file(file: &Path, most: u64) -> io::Result<Vec<u8>> {
    let opened = File::options().read(true).custom_flags(O_NONBLOCK | O_NOCTTY).open(file)?;
    if !opened.metadata()?.is_file() {
        return Err(io::Error::other("it is no file"));
    }
    let mut bytes = Vec::new();
    opened.take(most.saturating_add(1)).read_to_end(&mut bytes)?;
    if bytes.len() as u64 > most {
        return Err(io::Error::other(format!("it has more than {most} bytes")));
    }
    Ok(bytes)
}

/// No program that is started gets a descriptor that this process was started with, but the first three.
pub fn keep_descriptors() -> io::Result<()> {
    let open: Vec<c_int> = std::fs::read_dir("/proc/self/fd")?
        .filter_map(|entry| entry.ok()?.file_name().to_str()?.parse().ok())
        .collect();
    for fd in open.into_iter().filter(|&fd| fd > 2) {
        // SAFETY: these commands take a number; one that was closed meanwhile (that of the folder) is refused.
        unsafe {
            let flags = fcntl(fd, F_GETFD);
            if flags >= 0 {
                fcntl(fd, F_SETFD, flags | FD_CLOEXEC);
            }
        }
    }
    Ok(())
}

/// A file that is in memory alone.
pub fn memory_file() -> io::Result<File> {
    // SAFETY: the name ends with NUL; the descriptor that comes back is nobody else's.
    unsafe { Ok(File::from_raw_fd(checked(memfd_create(c"otp-procs".as_ptr(), MFD_CLOEXEC))?)) }
}

/// Whether a descriptor stays open where the program is replaced.
pub fn stays_open(fd: RawFd, stays: bool) {
    // SAFETY: this command takes a number; a descriptor that isn't open is refused.
    unsafe {
        fcntl(fd, F_SETFD, if stays { 0 } else { FD_CLOEXEC });
    }
}

/// A descriptor that an earlier program has left open for this one. It is taken once.
pub fn left_open(fd: RawFd) -> Option<OwnedFd> {
    // SAFETY: it is open, as its flags can be read, and was so when this program began, which takes each that was left once.
    let owned = unsafe { (fd > RESERVED && fcntl(fd, F_GETFD) >= 0).then(|| OwnedFd::from_raw_fd(fd)) };
    stays_open(fd, false);
    owned
}

/// Replaces the program. Blocked signals stay blocked, so that none is lost. It comes back only to say why that couldn't be done.
pub fn exec(program: &CStr, words: &[CString]) -> io::Error {
    let mut pointers: Vec<*const c_char> = words.iter().map(|word| word.as_ptr()).collect();
    pointers.push(std::ptr::null());
    // SAFETY: each word ends with NUL, and the list with a null pointer.
    unsafe { execv(program.as_ptr(), pointers.as_ptr()) };
    io::Error::last_os_error()
}

/// The limit of descriptors is what it was when the program began: so a program that replaces it finds that.
pub fn lower_descriptors() {
    if let Some(limit) = DESCRIPTORS.get() {
        // SAFETY: `limit` has the form of `struct rlimit`.
        unsafe { setrlimit(RLIMIT_NOFILE, std::ptr::from_ref(limit)) };
    }
}

/// The greatest number that a descriptor may get in a child.
pub const RESERVED: RawFd = 9;

/// Takes all free descriptors up to [`RESERVED`], as long as the answer lives. So a descriptor that is put there in a child
/// never takes the place of the one by which the standard library learns that its program didn't start.
pub fn reserve_descriptors() -> io::Result<Vec<File>> {
    let mut taken = Vec::new();
    loop {
        let file = File::open("/dev/null")?;
        if file.as_raw_fd() > RESERVED {
            return Ok(taken);
        }
        taken.push(file);
    }
}

/// This process may have as many descriptors open as the system allows: each child may take one or two. What it starts has the
/// limit that it began with.
pub fn raise_descriptors() -> io::Result<()> {
    let mut limit = Limit { soft: 0, hard: 0 };
    // SAFETY: `limit` has the form of `struct rlimit`.
    unsafe {
        checked(getrlimit(RLIMIT_NOFILE, &raw mut limit))?;
        let raised = Limit { soft: limit.hard, ..limit };
        checked(setrlimit(RLIMIT_NOFILE, &raw const raised))?;
    }
    DESCRIPTORS.get_or_init(|| limit);
    Ok(())
}
