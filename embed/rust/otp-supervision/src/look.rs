//! Supervisors and children as they stand.

use crate::call::{ChildLine, ChildProcess, Counts};
use crate::clock::Reading;
use crate::ids::{ProcessId, SupervisorId};
use crate::name::Name;
use crate::spec::{AutoShutdown, ChildSpec, Strategy, words};
use crate::sys::{RawChild, RawSupervisor};
use std::time::Duration;

words! {
    /// Where a supervisor is in its life.
    Phase {
        /// It was never started.
        Unopened = 1 "unopened",
        /// It runs.
        Runs = 2 "runs",
        /// It has ended.
        Ended = 3 "ended",
    }
}

words! {
    /// What a child's process does.
    ChildState {
        /// There is none.
        Undefined = 1 "undefined",
        /// It was ordered to start, and hasn't answered.
        Starting = 2 "starting",
        /// It runs.
        Up = 3 "up",
        /// It was asked to shut down, and hasn't ended.
        Asked = 4 "asked",
        /// It was killed, and its end hasn't been told.
        Killed = 5 "killed",
        /// There is none: its start failed in a restart, and is tried again.
        Restarting = 6 "restarting",
    }
}

words! {
    /// What made a supervisor end, without whose end it was.
    EndCause {
        /// More restarts within the period than the intensity allows.
        Intensity = 1 "intensity",
        /// A significant child has ended.
        Significant = 2 "significant",
        /// It was told to shut down.
        Asked = 3 "asked",
        /// A child didn't start when the supervisor was opened.
        InitFailed = 4 "init_failed",
    }
}

/// A supervisor as it stands.
#[derive(Clone, Copy, Debug, PartialEq, Eq)]
#[non_exhaustive]
pub struct Supervisor {
    /// Its id as its parent's child; the root has none.
    pub id: Option<Name>,
    /// Its parent; that of the root is the root.
    pub parent: SupervisorId,
    /// Which children are restarted with one that has to be.
    pub strategy: Strategy,
    /// So many restarts are allowed within a period.
    pub intensity: u64,
    /// The period, of whole seconds.
    pub period: Duration,
    /// Whether significant children end it.
    pub auto_shutdown: AutoShutdown,
    /// Where it is in its life.
    pub phase: Phase,
    /// Its own number, while it has a process; the root's is 0.
    pub process: Option<ProcessId>,
    /// It is wanted to shut down.
    pub is_stopping: bool,
    /// Children are being started or stopped: calls and ends wait meanwhile.
    pub has_open_work: bool,
    /// Why it ended last, also once it was started again; nothing where it never ended.
    pub cause: Option<EndCause>,
    /// What `count_children` would answer now.
    pub counts: Counts,
    /// Restarts since it was started last.
    pub restarts: u64,
    /// Those of them within the period that ends now: at most one more than the intensity.
    pub in_period: u64,
    /// How often its parent has started it; the root's is 0.
    pub starts: u64,
    /// How many children [`Tree::child`](crate::Tree::child) tells.
    pub children: u32,
}

impl Supervisor {
    pub(crate) fn from_raw(raw: &RawSupervisor) -> Option<Self> {
        Some(Supervisor {
            id: Name::from_raw(&raw.id),
            parent: SupervisorId::new(raw.parent),
            strategy: Strategy::from_raw(raw.strategy)?,
            intensity: raw.intensity,
            period: Duration::from_secs(raw.period),
            auto_shutdown: AutoShutdown::from_raw(raw.auto_shutdown)?,
            phase: Phase::from_raw(raw.phase)?,
            process: (raw.has_process != 0).then_some(ProcessId::new(raw.process)),
            is_stopping: raw.is_stopping != 0,
            has_open_work: raw.has_open_work != 0,
            cause: EndCause::from_raw(raw.cause),
            counts: Counts { specs: raw.specs, active: raw.active, supervisors: raw.supervisors, workers: raw.workers },
            restarts: raw.restarts,
            in_period: raw.in_period,
            starts: raw.starts,
            children: u32::try_from(raw.rows).ok()?,
        })
    }
}

/// A child as it stands.
#[derive(Clone, Debug, PartialEq, Eq)]
#[non_exhaustive]
pub struct Child {
    /// Its id; a dynamic child has none.
    pub id: Option<Name>,
    /// Its specification; a dynamic child has the one that all share.
    pub spec: ChildSpec,
    /// What its process does.
    pub state: ChildState,
    /// The number of its process, or of the retry that waits.
    pub number: Option<ProcessId>,
    /// Once it is asked to shut down: when it is killed.
    pub deadline: Option<Reading>,
    /// The supervisor that it is, where the tree file has a table for it.
    pub nested: Option<SupervisorId>,
}

impl Child {
    /// What `which_children` would say of it.
    pub fn line(&self) -> ChildLine {
        ChildLine {
            id: self.id,
            process: match (self.state, self.number) {
                (ChildState::Restarting, _) => ChildProcess::Restarting,
                (ChildState::Undefined, _) | (_, None) => ChildProcess::Undefined,
                (_, Some(number)) => ChildProcess::Running(number),
            },
            kind: self.spec.kind,
            modules: self.spec.modules.clone(),
        }
    }

    pub(crate) fn from_raw(raw: &RawChild) -> Option<Self> {
        Some(Child {
            id: Name::from_raw(&raw.id),
            spec: ChildSpec::from_raw(&raw.spec)?,
            state: ChildState::from_raw(raw.state)?,
            number: (raw.number > 0).then_some(ProcessId::new(raw.number)),
            deadline: (raw.has_deadline != 0).then_some(Reading::from_millis(raw.deadline)),
            nested: (raw.nested > 0).then_some(SupervisorId::new(raw.nested)),
        })
    }
}

/// The numbers that bound what the library takes.
#[derive(Clone, Copy, Debug, PartialEq, Eq)]
#[non_exhaustive]
pub struct Limits {
    /// Bytes of a [`Name`].
    pub name_size: u64,
    /// Bytes of a [`Text`](crate::Text).
    pub text_size: u64,
    /// Bytes of the sentence of a [`TreeFault`](crate::TreeFault).
    pub fault_size: u64,
    /// Children of a supervisor.
    pub children: u64,
    /// Supervisors of a tree.
    pub supervisors: u64,
    /// The clock's greatest reading.
    pub reading: Reading,
    /// Events of a supervisor that are kept in memory once its orders were taken.
    pub events: u64,
}

impl Limits {
    /// Those of the library that this crate is linked with.
    pub fn of_library() -> Self {
        use crate::sys::limit;
        Limits {
            name_size: limit(1),
            text_size: limit(2),
            fault_size: limit(3),
            children: limit(4),
            supervisors: limit(5),
            reading: Reading::from_millis(limit(6)),
            events: limit(7),
        }
    }
}
