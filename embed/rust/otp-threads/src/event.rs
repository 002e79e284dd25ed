//! What a run tells: events, its end, and why it is refused.

use otp_supervision::{BadWord, Cause, EndCause, Fault, OpenError, ProcessId, Reason};
use std::fmt;

/// What happens in a tree. A path is the ids from below the root on: `pool/a`.
#[derive(Clone, Debug, PartialEq, Eq)]
#[non_exhaustive]
pub enum Event {
    /// A child was started.
    Started {
        /// Its path.
        path: String,
        /// The number of its process, which no other one has.
        number: ProcessId,
    },
    /// A child's start failed: there was no thread, or it failed before it was up.
    Failed {
        /// Its path.
        path: String,
        /// Why.
        reason: Reason,
    },
    /// A child returned before it was up, and that is well.
    Ignored {
        /// Its path.
        path: String,
        /// The number that it would have had.
        number: ProcessId,
    },
    /// A child was asked to stop.
    Asked {
        /// Its path.
        path: String,
        /// The number of its process.
        number: ProcessId,
    },
    /// A child has ended.
    Ended {
        /// Its path.
        path: String,
        /// The number of its process.
        number: ProcessId,
        /// With what.
        reason: Reason,
    },
    /// A child didn't return by its deadline, or wasn't to be cancelled. It goes on by itself, and is of no child from now on.
    GivenUp {
        /// Its path.
        path: String,
        /// The number of its process.
        number: ProcessId,
    },
    /// A nested supervisor was started.
    SupervisorStarted {
        /// Its path.
        path: String,
        /// For so many times by now.
        times: u64,
    },
    /// A nested supervisor has ended.
    SupervisorEnded {
        /// Its path.
        path: String,
        /// Why.
        cause: EndCause,
        /// The child that failed last below it, where it gave up or wasn't started.
        last: Option<Last>,
    },
    /// All children of the root are up.
    Ready,
}

impl fmt::Display for Event {
    fn fmt(&self, f: &mut fmt::Formatter<'_>) -> fmt::Result {
        match self {
            Event::Started { path, number } => write!(f, "start {path} #{number}"),
            Event::Failed { path, reason } => write!(f, "fail {path} {reason}"),
            Event::Asked { path, number } => write!(f, "ask {path} #{number}"),
            Event::Ended { path, number, reason } => write!(f, "exit {path} #{number} {reason}"),
            Event::GivenUp { path, number } => write!(f, "give up {path} #{number}"),
            Event::Ignored { path, number } => write!(f, "ignore {path} #{number}"),
            Event::SupervisorStarted { path, times } => write!(f, "begin {path} {times}"),
            Event::SupervisorEnded { path, cause, last: Some(last) } => write!(f, "end {path} {cause}: {last}"),
            Event::SupervisorEnded { path, cause, last: None } => write!(f, "end {path} {cause}"),
            Event::Ready => f.write_str("ready"),
        }
    }
}

/// The child on which a supervisor ended.
#[derive(Clone, Debug, PartialEq, Eq)]
pub struct Last {
    /// Its path.
    pub path: String,
    /// With what it ended.
    pub reason: Reason,
}

impl fmt::Display for Last {
    fn fmt(&self, f: &mut fmt::Formatter<'_>) -> fmt::Result {
        write!(f, "{}: {}", self.path, self.reason)
    }
}

/// How the root has ended.
#[derive(Clone, Debug, PartialEq, Eq)]
#[non_exhaustive]
pub struct Ended {
    /// What made it end.
    pub cause: Cause,
    /// With which reason.
    pub reason: Reason,
    /// The child on which it ended: the one that failed last before it gave up, that didn't start, or that was significant.
    pub last: Option<Last>,
}

/// Why a tree isn't run, or not any longer.
#[derive(Clone, Debug, PartialEq, Eq)]
#[non_exhaustive]
pub enum Refused {
    /// This isn't an id.
    Id(String, BadWord),
    /// The tree is refused.
    Tree(OpenError),
    /// The library refuses what was told.
    Fault(Fault),
}

impl fmt::Display for Refused {
    fn fmt(&self, f: &mut fmt::Formatter<'_>) -> fmt::Result {
        match self {
            Refused::Id(id, why) => write!(f, "{id:?} is no id: {why}"),
            Refused::Tree(why) => why.fmt(f),
            Refused::Fault(why) => why.fmt(f),
        }
    }
}

impl std::error::Error for Refused {}

impl From<OpenError> for Refused {
    fn from(why: OpenError) -> Self {
        Refused::Tree(why)
    }
}

impl From<Fault> for Refused {
    fn from(why: Fault) -> Self {
        Refused::Fault(why)
    }
}
