//! Calls on a supervisor, and what they are answered: OTP's manual, supervisor, `start_child/2` and those after it.

use crate::ids::{CallId, ProcessId, SupervisorId};
use crate::name::{Name, Reason};
use crate::spec::{ChildSpec, Kind, Modules, words};
use crate::sys::{RawAnswer, RawLine};
use std::fmt;
use std::marker::PhantomData;

/// A call that was made on a supervisor, and waits for its answer, a `Result<T, Refusal>`.
///
/// The answer comes with an [`Order::Reply`](crate::Order::Reply), whose [`Reply::answer_to`] reads it.
#[derive(Debug, PartialEq, Eq)]
pub struct Call<T> {
    number: CallId,
    answer: PhantomData<fn() -> T>,
}

impl<T> Clone for Call<T> {
    fn clone(&self) -> Self {
        *self
    }
}

impl<T> Copy for Call<T> {}

impl<T> Call<T> {
    pub(crate) fn new(number: u64) -> Self {
        Call { number: CallId::new(number), answer: PhantomData }
    }

    /// The number of the call.
    pub fn number(&self) -> CallId {
        self.number
    }
}

/// A supervisor has answered a call.
#[derive(Clone, Debug, PartialEq, Eq)]
#[non_exhaustive]
pub struct Reply {
    /// The supervisor.
    pub supervisor: SupervisorId,
    /// The call.
    pub call: CallId,
    /// The answer.
    pub answer: Answer,
}

impl Reply {
    /// The answer to this call, if it is that call's.
    pub fn answer_to<T: FromAnswer>(&self, call: Call<T>) -> Option<Result<T, Refusal>> {
        if self.call != call.number {
            return None;
        }
        match &self.answer {
            Answer::Refused(refusal) => Some(Err(*refusal)),
            answer => T::from_answer(answer).map(Ok),
        }
    }
}

/// An answer of any call.
#[derive(Clone, Debug, PartialEq, Eq)]
#[non_exhaustive]
pub enum Answer {
    /// It is done.
    Done,
    /// The child was started, as this process.
    Started(ProcessId),
    /// The child's start was ignored: it has no process.
    Undefined,
    /// It isn't done.
    Refused(Refusal),
    /// `which_children`.
    Which(Vec<ChildLine>),
    /// `count_children`.
    Count(Counts),
    /// `get_childspec`.
    Spec(Box<ChildSpec>),
}

impl fmt::Display for Answer {
    fn fmt(&self, f: &mut fmt::Formatter<'_>) -> fmt::Result {
        match self {
            Answer::Done => f.write_str("ok"),
            Answer::Started(number) => write!(f, "ok #{number}"),
            Answer::Undefined => f.write_str("ok undefined"),
            Answer::Refused(Refusal::NoProcess) => f.write_str("noproc"),
            Answer::Refused(refusal) => write!(f, "error {}", refusal.words()),
            Answer::Which(lines) => {
                f.write_str("which")?;
                lines.iter().try_for_each(|line| write!(f, " {line}"))
            }
            Answer::Count(counts) => write!(f, "count {counts}"),
            Answer::Spec(spec) => write!(
                f,
                "spec {} start {} restart {} significant {} shutdown {} type {} modules {}",
                spec.id, spec.start, spec.restart, spec.significant, spec.shutdown, spec.kind, spec.modules
            ),
        }
    }
}

/// What a call may be answered, if it isn't refused.
pub trait FromAnswer: Sized {
    /// None where the answer is another call's.
    fn from_answer(answer: &Answer) -> Option<Self>;
}

impl FromAnswer for () {
    fn from_answer(answer: &Answer) -> Option<Self> {
        matches!(answer, Answer::Done).then_some(())
    }
}

/// The number of the process that was started; nothing where its start was ignored.
impl FromAnswer for Option<ProcessId> {
    fn from_answer(answer: &Answer) -> Option<Self> {
        match answer {
            Answer::Started(number) => Some(Some(*number)),
            Answer::Undefined => Some(None),
            _ => None,
        }
    }
}

impl FromAnswer for Vec<ChildLine> {
    fn from_answer(answer: &Answer) -> Option<Self> {
        match answer {
            Answer::Which(lines) => Some(lines.clone()),
            _ => None,
        }
    }
}

impl FromAnswer for Counts {
    fn from_answer(answer: &Answer) -> Option<Self> {
        match answer {
            Answer::Count(counts) => Some(*counts),
            _ => None,
        }
    }
}

impl FromAnswer for ChildSpec {
    fn from_answer(answer: &Answer) -> Option<Self> {
        match answer {
            Answer::Spec(spec) => Some((**spec).clone()),
            _ => None,
        }
    }
}

words! {
    /// What is wrong with a specification that `start_child` is given.
    SpecFault {
        /// A flag of the supervisor.
        BadFlag = 1 "E1",
        /// A value of the specification.
        BadValue = 2 "E2",
        /// The id is another child's.
        DuplicateId = 3 "E3",
        /// It is significant and permanent.
        SignificantPermanent = 4 "E4",
        /// It is significant, and its supervisor ends by no child.
        SignificantNever = 5 "E5",
        /// `simple_one_for_one` has one specification alone.
        NotOne = 6 "E6",
        /// There are too many children.
        TooMany = 7 "E7",
    }
}

/// Why a call isn't done.
#[derive(Clone, Copy, Debug, PartialEq, Eq)]
#[non_exhaustive]
pub enum Refusal {
    /// There is no such child.
    NotFound,
    /// The child runs.
    Running,
    /// The child is being restarted.
    Restarting,
    /// The supervisor is a `simple_one_for_one`, of whose children this can't be asked.
    IsSimple,
    /// The supervisor is no `simple_one_for_one`.
    NotSimple,
    /// There is such a child, without a process.
    AlreadyPresent,
    /// There is such a child, and this is its process.
    AlreadyStarted(ProcessId),
    /// It would be the 257th child.
    TooManyChildren,
    /// The specification is refused.
    BadSpec(SpecFault),
    /// The start failed.
    StartFailed(Reason),
    /// The supervisor has ended.
    NoProcess,
}

impl Refusal {
    /// The words that `otp sim` prints for it.
    fn words(&self) -> String {
        match self {
            Refusal::NotFound => "not_found".into(),
            Refusal::Running => "running".into(),
            Refusal::Restarting => "restarting".into(),
            Refusal::IsSimple => "simple_one_for_one".into(),
            Refusal::NotSimple => "not_simple".into(),
            Refusal::AlreadyPresent => "already_present".into(),
            Refusal::AlreadyStarted(number) => format!("already_started #{number}"),
            Refusal::TooManyChildren => "too_many_children".into(),
            Refusal::BadSpec(fault) => format!("bad_spec {fault}"),
            Refusal::StartFailed(reason) => format!("start {reason}"),
            Refusal::NoProcess => "noproc".into(),
        }
    }
}

impl fmt::Display for Refusal {
    fn fmt(&self, f: &mut fmt::Formatter<'_>) -> fmt::Result {
        match self {
            Refusal::NotFound => f.write_str("there is no such child"),
            Refusal::Running => f.write_str("the child runs"),
            Refusal::Restarting => f.write_str("the child is being restarted"),
            Refusal::IsSimple => f.write_str("the supervisor is a simple_one_for_one"),
            Refusal::NotSimple => f.write_str("the supervisor is no simple_one_for_one"),
            Refusal::AlreadyPresent => f.write_str("the child is there, without a process"),
            Refusal::AlreadyStarted(number) => write!(f, "the child runs as #{number}"),
            Refusal::TooManyChildren => f.write_str("the supervisor has as many children as it may"),
            Refusal::BadSpec(fault) => write!(f, "the specification is refused: {fault}"),
            Refusal::StartFailed(reason) => write!(f, "the start failed: {reason}"),
            Refusal::NoProcess => f.write_str("the supervisor has ended"),
        }
    }
}

impl std::error::Error for Refusal {}

/// What a child has for a process.
#[derive(Clone, Copy, Debug, PartialEq, Eq)]
#[non_exhaustive]
pub enum ChildProcess {
    /// This one.
    Running(ProcessId),
    /// None: its start failed in a restart, and is tried again.
    Restarting,
    /// None.
    Undefined,
}

/// A line of `which_children`.
#[derive(Clone, Debug, PartialEq, Eq)]
#[non_exhaustive]
pub struct ChildLine {
    /// The child's id; a dynamic child has none.
    pub id: Option<Name>,
    /// Its process.
    pub process: ChildProcess,
    /// Whether it is a supervisor.
    pub kind: Kind,
    /// Its modules.
    pub modules: Modules,
}

impl ChildLine {
    pub(crate) fn from_raw(raw: &RawLine) -> Option<Self> {
        Some(ChildLine {
            id: Name::from_raw(&raw.id),
            process: match raw.process {
                1 => ChildProcess::Running(ProcessId::new(raw.number)),
                2 => ChildProcess::Restarting,
                3 => ChildProcess::Undefined,
                _ => return None,
            },
            kind: Kind::from_raw(raw.kind)?,
            modules: Modules::from_raw(raw.modules, &raw.module)?,
        })
    }
}

impl fmt::Display for ChildLine {
    fn fmt(&self, f: &mut fmt::Formatter<'_>) -> fmt::Result {
        match self.id {
            Some(id) => write!(f, "{id},")?,
            None => f.write_str("undefined,")?,
        }
        match self.process {
            ChildProcess::Running(number) => write!(f, "#{number}")?,
            ChildProcess::Restarting => f.write_str("restarting")?,
            ChildProcess::Undefined => f.write_str("undefined")?,
        }
        write!(f, ",{},{}", self.kind, self.modules)
    }
}

/// What `count_children` counts.
#[derive(Clone, Copy, Debug, Default, PartialEq, Eq)]
#[non_exhaustive]
pub struct Counts {
    /// Children, running or not.
    pub specs: u64,
    /// Those that have a process.
    pub active: u64,
    /// Those of type supervisor, running or not.
    pub supervisors: u64,
    /// Those of type worker, running or not.
    pub workers: u64,
}

impl fmt::Display for Counts {
    fn fmt(&self, f: &mut fmt::Formatter<'_>) -> fmt::Result {
        let Counts { specs, active, supervisors, workers } = self;
        write!(f, "specs {specs} active {active} supervisors {supervisors} workers {workers}")
    }
}

/// The refusal that an answer tells.
fn refusal_of(raw: &RawAnswer) -> Option<Refusal> {
    Some(match raw.fault {
        1 => Refusal::NotFound,
        2 => Refusal::Running,
        3 => Refusal::Restarting,
        4 => Refusal::IsSimple,
        5 => Refusal::NotSimple,
        6 => Refusal::AlreadyPresent,
        7 => Refusal::AlreadyStarted(ProcessId::new(raw.number)),
        8 => Refusal::TooManyChildren,
        9 => Refusal::BadSpec(SpecFault::from_raw(raw.spec_fault)?),
        10 => Refusal::StartFailed(Reason::from_raw(raw.reason, &raw.text)?),
        _ => return None,
    })
}

/// What a struct of the library says by itself; lines and specifications are read by calls of their own.
pub(crate) enum RawKind {
    Whole(Answer),
    Lines(u32),
    Spec,
}

pub(crate) fn kind_of(raw: &RawAnswer) -> Option<RawKind> {
    Some(match raw.kind {
        1 => RawKind::Whole(Answer::Done),
        2 => RawKind::Whole(Answer::Started(ProcessId::new(raw.number))),
        3 => RawKind::Whole(Answer::Undefined),
        4 => RawKind::Whole(Answer::Refused(refusal_of(raw)?)),
        5 => RawKind::Lines(raw.lines),
        6 => RawKind::Whole(Answer::Count(Counts {
            specs: raw.specs,
            active: raw.active,
            supervisors: raw.supervisors,
            workers: raw.workers,
        })),
        7 => RawKind::Spec,
        8 => RawKind::Whole(Answer::Refused(Refusal::NoProcess)),
        _ => return None,
    })
}
