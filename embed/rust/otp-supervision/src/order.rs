//! What a tree is told, and what it orders.

use crate::call::Reply;
use crate::clock::Reading;
use crate::fault::{Fault, STRANGE};
use crate::ids::{ProcessId, SupervisorId};
use crate::name::{Name, Reason};
use crate::sys::RawOrder;
use crate::tags::Tags;
use crate::tree::ReplyRef;
use crate::watch::{Became, Last, Watch};
use std::fmt;

/// What a process tells the supervisor that ordered its start.
#[derive(Clone, Copy, Debug, PartialEq, Eq)]
#[non_exhaustive]
pub enum Note {
    /// It is up.
    Up(ProcessId),
    /// Its start was ignored: there is no process, and that is well.
    Ignored(ProcessId),
    /// Its start failed.
    Failed(ProcessId, Reason),
    /// It has ended.
    Exit(ProcessId, Reason),
}

impl Note {
    /// The number of the process.
    #[inline]
    pub fn number(&self) -> ProcessId {
        match self {
            Note::Up(number) | Note::Ignored(number) | Note::Failed(number, _) | Note::Exit(number, _) => *number,
        }
    }

    /// The number that stands for its kind in `otp.h`.
    #[doc(hidden)]
    #[inline]
    pub fn kind_number(&self) -> u32 {
        match self {
            Note::Up(_) => 1,
            Note::Ignored(_) => 2,
            Note::Failed(..) => 3,
            Note::Exit(..) => 4,
        }
    }
}

/// As a line of `otp sim`.
impl fmt::Display for Note {
    fn fmt(&self, f: &mut fmt::Formatter<'_>) -> fmt::Result {
        match self {
            Note::Up(number) => write!(f, "up {number}"),
            Note::Ignored(number) => write!(f, "ignore {number}"),
            Note::Failed(number, reason) => write!(f, "fail {number} {reason}"),
            Note::Exit(number, reason) => write!(f, "exit {number} {reason}"),
        }
    }
}

/// A process outside, as an order names it.
#[derive(Clone, Copy, Debug, PartialEq, Eq)]
#[non_exhaustive]
pub struct Process {
    /// The supervisor whose order it is.
    pub supervisor: SupervisorId,
    /// The child's id; a dynamic child has none.
    pub id: Option<Name>,
    /// The child's start word, as the tree file has it.
    pub start: Name,
    /// The caller's own number, which the child's specification has beside the start word ([`ChildSpec::tag`](crate::ChildSpec::tag)).
    pub tag: Option<u64>,
    /// The number of the process.
    pub number: ProcessId,
}

impl Process {
    /// The one with these numbers, where they were kept without it.
    pub fn new(supervisor: SupervisorId, id: Option<Name>, start: Name, number: ProcessId) -> Self {
        Process { supervisor, id, start, tag: None, number }
    }
}

/// An order of a tree for whoever drives it.
#[derive(Clone, Debug, PartialEq, Eq)]
#[non_exhaustive]
pub enum Order {
    /// Start this process, and tell [`Note::Up`], [`Note::Ignored`] or [`Note::Failed`].
    Start(Process),
    /// Ask it to shut down. Where it doesn't by the deadline, the order to kill it comes.
    Ask {
        /// The process.
        process: Process,
        /// When the order to kill it comes.
        deadline: Option<Reading>,
    },
    /// Kill it.
    Kill(Process),
    /// A call was answered.
    Reply(Reply),
    /// The root's children are up.
    Ready,
    /// A nested supervisor was started, or has ended. It comes of a tree that is watched ([`Tree::watch`](crate::Tree::watch)), and
    /// there is nothing to do.
    Nested(SupervisorId, Became),
    /// The root has ended, and with it the tree.
    End(End),
}

/// An order of a tree, read where the library has written it. The next one takes its place.
#[derive(Debug)]
#[non_exhaustive]
pub enum OrderRef<'a> {
    /// As [`Order::Start`].
    Start(ProcessRef<'a>),
    /// As [`Order::Ask`].
    Ask {
        /// The process.
        process: ProcessRef<'a>,
        /// When the order to kill it comes.
        deadline: Option<Reading>,
    },
    /// As [`Order::Kill`].
    Kill(ProcessRef<'a>),
    /// As [`Order::Reply`].
    Reply(ReplyRef<'a>),
    /// As [`Order::Ready`].
    Ready,
    /// As [`Order::Nested`].
    Nested(SupervisorId, Became),
    /// As [`Order::End`].
    End(EndRef<'a>),
}

impl OrderRef<'_> {
    /// This order, with a copy of what it names.
    ///
    /// # Errors
    /// [`Fault::Unknown`], where library and crate don't belong together.
    #[inline]
    pub fn into_order(self) -> Result<Order, Fault> {
        match self {
            OrderRef::Start(process) => Ok(Order::Start(process.to_process())),
            OrderRef::Ask { process, deadline } => Ok(Order::Ask { process: process.to_process(), deadline }),
            OrderRef::Kill(process) => Ok(Order::Kill(process.to_process())),
            OrderRef::Reply(reply) => reply.into_reply().map(Order::Reply),
            OrderRef::Ready => Ok(Order::Ready),
            OrderRef::Nested(supervisor, became) => Ok(Order::Nested(supervisor, became)),
            OrderRef::End(end) => end.to_end().map(Order::End).ok_or(STRANGE),
        }
    }
}

/// A process outside, as an order names it.
#[derive(Clone, Copy, Debug)]
pub struct ProcessRef<'a> {
    raw: &'a RawOrder,
    tags: &'a Tags,
}

impl<'a> ProcessRef<'a> {
    /// None where the start word is empty.
    #[inline]
    pub(crate) fn of(raw: &'a RawOrder, tags: &'a Tags) -> Option<Self> {
        (raw.start.len > 0).then_some(ProcessRef { raw, tags })
    }

    /// The supervisor whose order it is.
    #[inline]
    pub fn supervisor(self) -> SupervisorId {
        SupervisorId::new(self.raw.supervisor)
    }

    /// The number of the process.
    #[inline]
    pub fn number(self) -> ProcessId {
        ProcessId::new(self.raw.number)
    }

    /// The child's id; a dynamic child has none.
    pub fn id(self) -> Option<&'a str> {
        (self.raw.id.len > 0).then(|| self.raw.id.as_str())
    }

    /// The child's start word, as the tree file has it, and the caller's own number beside it.
    pub fn start(self) -> (Name, Option<u64>) {
        self.tags.of_word(Name::of_raw(&self.raw.start))
    }

    /// A copy of what it names.
    #[inline]
    pub fn to_process(self) -> Process {
        let (start, tag) = self.start();
        Process { supervisor: self.supervisor(), id: Name::from_raw(&self.raw.id), start, tag, number: self.number() }
    }
}

/// How the root has ended, as the order tells it.
#[derive(Clone, Copy, Debug)]
pub struct EndRef<'a> {
    raw: &'a RawOrder,
    watch: Option<&'a Watch>,
}

impl<'a> EndRef<'a> {
    #[inline]
    pub(crate) fn of(raw: &'a RawOrder, watch: Option<&'a Watch>) -> Self {
        EndRef { raw, watch }
    }

    /// A copy of it; none where library and crate don't belong together.
    pub fn to_end(self) -> Option<End> {
        let EndRef { raw, watch } = self;
        let cause = match raw.cause {
            1 => Cause::Intensity,
            2 => Cause::Significant(ProcessId::new(raw.number)),
            3 => Cause::Asked,
            4 => Cause::InitFailed(Name::from_raw(&raw.id)),
            _ => return None,
        };
        let end = End { reason: Reason::from_raw(raw.reason, &raw.text)?, cause, last: None };
        Some(watch.map_or(end, |watch| watch.end(end)))
    }
}

/// How the root has ended.
#[derive(Clone, Copy, Debug, PartialEq, Eq)]
#[non_exhaustive]
pub struct End {
    /// With which reason.
    pub reason: Reason,
    /// What made it end.
    pub cause: Cause,
    /// The child on which it ended: the one that failed last in the tree before it gave up, that didn't start, or that was significant.
    /// It is known of a tree that is watched ([`Tree::watch`](crate::Tree::watch)), and not where a nested supervisor was
    /// significant.
    pub last: Option<Last>,
}

/// What made the root end.
#[derive(Clone, Copy, Debug, PartialEq, Eq)]
#[non_exhaustive]
pub enum Cause {
    /// More restarts within the period than the intensity allows.
    Intensity,
    /// A significant child has ended, which was this process.
    Significant(ProcessId),
    /// It was told to shut down.
    Asked,
    /// This child didn't start when the supervisor was opened.
    InitFailed(Option<Name>),
}

impl fmt::Display for Cause {
    fn fmt(&self, f: &mut fmt::Formatter<'_>) -> fmt::Result {
        match self {
            Cause::Intensity => f.write_str("more restarts within the period than the intensity allows"),
            Cause::Significant(number) => write!(f, "the significant child #{number} has ended"),
            Cause::Asked => f.write_str("it was told to shut down"),
            Cause::InitFailed(Some(id)) => write!(f, "the child {id} didn't start"),
            Cause::InitFailed(None) => f.write_str("a child didn't start"),
        }
    }
}

/// The child's name and its number, as printed orders have them.
impl fmt::Display for Process {
    fn fmt(&self, f: &mut fmt::Formatter<'_>) -> fmt::Result {
        match self.id {
            Some(id) => write!(f, "{id} #{}", self.number),
            None => write!(f, "- #{}", self.number),
        }
    }
}

/// As a line of `otp sim`, which has none for nested supervisors: without the supervisor's number.
impl fmt::Display for Order {
    fn fmt(&self, f: &mut fmt::Formatter<'_>) -> fmt::Result {
        match self {
            Order::Start(process) => write!(f, "start {process}"),
            Order::Ask { process, .. } => write!(f, "ask {process}"),
            Order::Kill(process) => write!(f, "kill {process}"),
            Order::Reply(reply) => write!(f, "reply {} {}", reply.call, reply.answer),
            Order::Ready => f.write_str("ready"),
            Order::Nested(supervisor, became) => write!(f, "supervisor {supervisor} {became}"),
            Order::End(end) => write!(f, "end {}", end.reason),
        }
    }
}
