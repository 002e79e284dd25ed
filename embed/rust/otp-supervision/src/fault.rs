//! Why something isn't taken. All is then as it was.

use crate::ids::SupervisorId;
use crate::place;
use crate::sys::{self, RawFault};
use std::fmt;

/// Why a call on a tree isn't taken. The tree is then as it was.
#[derive(Clone, Copy, Debug, PartialEq, Eq)]
#[non_exhaustive]
pub enum Fault {
    /// Memory was refused. The same call may be made again.
    Memory,
    /// Orders of that supervisor wait: take them, then make the call again.
    Full,
    /// 2^62 events or process numbers: the tree takes no more, ever.
    Spent,
    /// The clock's reading is above [`crate::Limits::reading`].
    BadReading,
    /// No supervisor has this number.
    NoSupervisor,
    /// The process is a supervisor of the tree itself, of which nobody tells from outside.
    Nested,
    /// The specification names more than four modules.
    TooManyModules,
    /// The library answers a status that its header doesn't list for this call: library and crate don't belong together.
    Unknown(u32),
}

/// What a struct counts as that has a number out of its list: library and crate don't belong together.
pub(crate) const STRANGE: Fault = Fault::Unknown(u32::MAX);

impl Fault {
    /// What a status says; nothing is wrong with 0.
    #[inline]
    pub(crate) fn check(status: u32) -> Result<(), Fault> {
        if status == sys::OK { Ok(()) } else { Err(Fault::of(status)) }
    }

    /// What a status says that isn't 0.
    #[cold]
    pub(crate) fn of(status: u32) -> Fault {
        match status {
            sys::MEMORY => Fault::Memory,
            sys::FULL => Fault::Full,
            sys::SPENT => Fault::Spent,
            sys::BAD_READING => Fault::BadReading,
            sys::NO_SUPERVISOR => Fault::NoSupervisor,
            sys::NESTED => Fault::Nested,
            status => Fault::Unknown(status),
        }
    }
}

impl fmt::Display for Fault {
    fn fmt(&self, f: &mut fmt::Formatter<'_>) -> fmt::Result {
        match self {
            Fault::Memory => f.write_str("memory was refused; the call may be made again"),
            Fault::Full => f.write_str("orders of the supervisor wait; take them first"),
            Fault::Spent => f.write_str("the tree has no more numbers of events or processes"),
            Fault::BadReading => f.write_str("the clock's reading is above 2^62"),
            Fault::NoSupervisor => f.write_str("no supervisor has this number"),
            Fault::Nested => f.write_str("the process is a supervisor of the tree itself"),
            Fault::TooManyModules => f.write_str("a specification names at most four modules"),
            Fault::Unknown(status) => write!(f, "the library answers status {status}"),
        }
    }
}

impl std::error::Error for Fault {}

/// Why a tree isn't opened.
#[derive(Clone, Debug, PartialEq, Eq)]
#[non_exhaustive]
pub enum OpenError {
    /// The tree file is refused.
    Refused(TreeFault),
    /// The library is of another version, whose interface isn't this crate's: eight bits each for the second and the third number.
    Version(u32),
    /// A period of a draft isn't whole seconds.
    Period,
    /// Memory was refused. It may be tried again.
    Memory,
    /// The library answers a status that its header doesn't list for this call: library and crate don't belong together.
    Unknown(u32),
}

impl fmt::Display for OpenError {
    fn fmt(&self, f: &mut fmt::Formatter<'_>) -> fmt::Result {
        match self {
            OpenError::Refused(fault) => write!(f, "tree refused: {fault}"),
            OpenError::Version(it) => {
                let (major, minor, patch) = (it >> 16, it >> 8 & 0xFF, it & 0xFF);
                let own = env!("CARGO_PKG_VERSION");
                write!(f, "the library is of version {major}.{minor}.{patch}, and this crate of {own}")
            }
            OpenError::Period => f.write_str("a period is whole seconds"),
            OpenError::Memory => f.write_str("memory was refused"),
            OpenError::Unknown(status) => write!(f, "the library answers status {status}"),
        }
    }
}

impl std::error::Error for OpenError {
    fn source(&self) -> Option<&(dyn std::error::Error + 'static)> {
        match self {
            OpenError::Refused(fault) => Some(fault),
            _ => None,
        }
    }
}

/// Why a tree doesn't go on under another file. It is then as it was. A supervisor that is named is one of the tree that runs.
#[derive(Clone, Debug, PartialEq, Eq)]
#[non_exhaustive]
pub enum ChangeError {
    /// The tree file is refused.
    Refused(TreeFault),
    /// Orders of this supervisor wait, or it starts or stops children. Take all orders, and make the call again once nothing is under
    /// way.
    Busy(SupervisorId),
    /// A child of this supervisor that the file doesn't have, or has with a tree or without one where it was otherwise, has a process
    /// still; or so has this supervisor itself. Terminate it first.
    Running(SupervisorId),
    /// This supervisor would become a `simple_one_for_one`, or cease to be one, and has children: terminate it first. The root can't be
    /// terminated.
    Turned(SupervisorId),
    /// The file has a start word of two points and a number, as this crate makes them, and the tree has children with numbers of their
    /// own ([`ChildSpec::tag`](crate::ChildSpec::tag)).
    Word,
    /// A period of a draft isn't whole seconds.
    Period,
    /// 2^62 events or process numbers: the tree takes no more, ever.
    Spent,
    /// Memory was refused. The same call may be made again.
    Memory,
    /// The library answers a status that its header doesn't list for this call: library and crate don't belong together.
    Unknown(u32),
}

impl ChangeError {
    /// What a status says that isn't 0; the fault is one of a file with this text.
    pub(crate) fn of(status: u32, fault: &RawFault, text: &[u8]) -> Self {
        let supervisor = SupervisorId::new(fault.table);
        match status {
            sys::MEMORY => ChangeError::Memory,
            sys::SPENT => ChangeError::Spent,
            sys::BAD_TREE => ChangeError::Refused(TreeFault::from_raw(fault, text)),
            sys::BUSY => ChangeError::Busy(supervisor),
            sys::RUNNING => ChangeError::Running(supervisor),
            sys::TURNED => ChangeError::Turned(supervisor),
            status => ChangeError::Unknown(status),
        }
    }
}

impl fmt::Display for ChangeError {
    fn fmt(&self, f: &mut fmt::Formatter<'_>) -> fmt::Result {
        match self {
            ChangeError::Refused(fault) => write!(f, "tree refused: {fault}"),
            ChangeError::Busy(it) => write!(f, "orders of supervisor {it} wait, or it starts or stops children"),
            ChangeError::Running(it) => {
                write!(f, "supervisor {it}, or a child of it, is gone or of another kind, and has a process still")
            }
            ChangeError::Turned(it) => {
                write!(f, "supervisor {it} has children, and can't become simple_one_for_one, nor cease to be one")
            }
            ChangeError::Word => {
                f.write_str("a start word of two points and a number may be another one of the tree's")
            }
            ChangeError::Period => f.write_str("a period is whole seconds"),
            ChangeError::Spent => f.write_str("the tree has no more numbers of events or processes"),
            ChangeError::Memory => f.write_str("memory was refused; the call may be made again"),
            ChangeError::Unknown(status) => write!(f, "the library answers status {status}"),
        }
    }
}

impl std::error::Error for ChangeError {
    fn source(&self) -> Option<&(dyn std::error::Error + 'static)> {
        match self {
            ChangeError::Refused(fault) => Some(fault),
            _ => None,
        }
    }
}

/// What is wrong in a tree file, and where: the fault for which it is refused, which is the first.
#[derive(Clone, Debug, PartialEq, Eq)]
#[non_exhaustive]
pub struct TreeFault {
    /// The number of the fault, as `otp check` prints it: 1 to 7 and 10 to 16 for E1 to E7 and E10 to E16.
    pub code: u32,
    /// The supervisor that has it.
    pub supervisor: SupervisorId,
    /// The place of the child among its children, from 0, where it is a child's fault.
    pub child: Option<u32>,
    /// The key whose value is at fault, or that is missing.
    pub key: Option<&'static str>,
    /// The sentence that tells it.
    pub text: String,
    /// Where it stands in the file, if that is known: it is of a file of the usual form, with heads such as `[[child]]`, and a key with
    /// its value on a line.
    pub place: Option<FaultPlace>,
}

/// Where a fault stands in a tree file.
#[derive(Clone, Debug, PartialEq, Eq)]
#[non_exhaustive]
pub struct FaultPlace {
    /// The line, from 1. A draft has none.
    pub line: Option<usize>,
    /// The path of who has it: the ids from below the root on, with a `/` behind a supervisor's; the root's is empty. A child without
    /// an id has its place in the path.
    pub path: String,
    /// The key that isn't known.
    pub unknown: Option<String>,
}

impl TreeFault {
    pub(crate) fn from_raw(raw: &RawFault, file: &[u8]) -> Self {
        let length = (raw.text_len as usize).min(raw.text.len());
        let mut fault = TreeFault {
            code: raw.code,
            supervisor: SupervisorId::new(raw.table),
            child: (raw.place == 3 || raw.place == 4).then_some(raw.index),
            key: match (raw.place, raw.key.checked_sub(1)) {
                (2, Some(key)) => place::SUPERVISOR_KEYS.get(key as usize).copied(),
                (4, Some(key)) => place::CHILD_KEYS.get(key as usize).copied(),
                _ => None,
            },
            text: String::from_utf8_lossy(&raw.text[..length]).into_owned(),
            place: None,
        };
        fault.place = std::str::from_utf8(file).ok().and_then(|text| place::of(text, &fault));
        fault
    }

    /// This fault of a file that nobody has seen: it has no line.
    pub(crate) fn without_line(self) -> Self {
        TreeFault { place: self.place.map(|place| FaultPlace { line: None, ..place }), ..self }
    }

    /// What is wrong, without where.
    pub fn what(&self) -> &str {
        let what = self.text.rsplit_once(": ").map_or(self.text.as_str(), |(_, what)| what);
        what.strip_prefix(&format!("table {}, ", self.supervisor)).unwrap_or(what)
    }

    /// Who has it, in words: `the root`, `supervisor pool/`, `child pool/a`.
    pub fn who(&self) -> String {
        match &self.place {
            Some(FaultPlace { path, .. }) if self.child.is_some() => format!("child {path}"),
            Some(FaultPlace { path, .. }) if !path.is_empty() => format!("supervisor {path}"),
            None if !self.supervisor.is_root() || self.child.is_some() => {
                let child = self.child.map_or_else(String::new, |child| format!(", child {child}"));
                format!("table {}{child}", self.supervisor)
            }
            _ => "the root".to_string(),
        }
    }
}

impl fmt::Display for TreeFault {
    fn fmt(&self, f: &mut fmt::Formatter<'_>) -> fmt::Result {
        let Some(place) = &self.place else { return write!(f, "E{}: {}", self.code, self.text) };
        if let Some(line) = place.line {
            write!(f, "line {line}: ")?;
        }
        f.write_str(&self.who())?;
        if let Some(key) = self.key.or(place.unknown.as_deref()) {
            write!(f, ", {key}")?;
        }
        write!(f, ": {} (E{})", self.what(), self.code)
    }
}

impl std::error::Error for TreeFault {}
