//! What a tree remembers where it is watched: what became of its nested supervisors, and which child was last.

use crate::ids::{ProcessId, SupervisorId};
use crate::look::{ChildState, EndCause, Phase, Supervisor};
use crate::name::{Name, Reason};
use crate::order::{Cause, End, Note, Process};
use crate::spec::AutoShutdown;
use std::collections::{HashMap, VecDeque};
use std::fmt;

/// The child on which a supervisor ended, and with what that child did.
#[derive(Clone, Copy, Debug, PartialEq, Eq)]
#[non_exhaustive]
pub struct Last {
    /// Its process.
    pub process: Process,
    /// With what it ended, or why it didn't start.
    pub reason: Reason,
}

impl fmt::Display for Last {
    fn fmt(&self, f: &mut fmt::Formatter<'_>) -> fmt::Result {
        write!(f, "{}: {}", self.process, self.reason)
    }
}

/// What became of a nested supervisor.
#[derive(Clone, Copy, Debug, PartialEq, Eq)]
#[non_exhaustive]
pub enum Became {
    /// Its parent has started it, for so many times by now.
    Started(u64),
    /// It has ended, for this cause. Where that is the intensity, or a child that didn't start, the child is told that failed last
    /// below it.
    Ended(EndCause, Option<Last>),
}

impl fmt::Display for Became {
    fn fmt(&self, f: &mut fmt::Formatter<'_>) -> fmt::Result {
        match self {
            Became::Started(times) => write!(f, "started {times}"),
            Became::Ended(cause, Some(last)) => write!(f, "ended {cause} {last}"),
            Became::Ended(cause, None) => write!(f, "ended {cause}"),
        }
    }
}

/// A process that was ordered to start, and hasn't ended.
#[derive(Clone, Copy, Debug)]
struct Live {
    process: Process,
    /// It was asked to shut down, or killed: its end is no failure of its own.
    is_ordered_to_end: bool,
}

/// What is remembered of a supervisor.
#[derive(Clone, Debug)]
struct Seen {
    parent: SupervisorId,
    /// Significant children may end it.
    is_ended_by_children: bool,
    starts: u64,
    runs: bool,
    /// It gives up or shuts down: what fails below it from now on isn't what it ends on.
    is_ending: bool,
    /// The child that failed last below it.
    failed: Option<Last>,
    /// How its significant children ended, each the last time.
    significant: HashMap<Option<Name>, Last>,
}

/// What a look at the tree tells.
pub(crate) trait Looks {
    fn at(&self, number: SupervisorId) -> Option<Supervisor>;
    /// The processes outside of its children, and what each does.
    fn processes_of(&self, number: SupervisorId) -> Vec<(Process, ChildState)>;
}

/// What a watched tree remembers.
#[derive(Clone, Debug)]
pub(crate) struct Watch {
    live: HashMap<ProcessId, Live>,
    seen: Vec<Seen>,
    /// What became of supervisors, and wasn't told yet.
    pub(crate) untold: VecDeque<(SupervisorId, Became)>,
}

impl Watch {
    /// Begins with the tree as it stands.
    pub(crate) fn of(tree: &impl Looks, supervisors: u32) -> Self {
        let mut watch = Watch { live: HashMap::new(), seen: Vec::new(), untold: VecDeque::new() };
        for number in (0..supervisors).map(SupervisorId::new) {
            let Some(now) = tree.at(number) else { break };
            let is_ended_by_children = now.auto_shutdown != AutoShutdown::Never;
            let mut seen = Seen::of(now.parent, is_ended_by_children);
            seen.look(&now);
            (seen.starts, seen.runs) = (now.starts, now.phase == Phase::Runs);
            watch.seen.push(seen);
            for (process, state) in tree.processes_of(number) {
                let is_ordered_to_end = matches!(state, ChildState::Asked | ChildState::Killed);
                watch.live.insert(process.number, Live { process, is_ordered_to_end });
            }
        }
        watch
    }

    /// A process is ordered to start.
    pub(crate) fn started(&mut self, process: Process) {
        self.live.insert(process.number, Live { process, is_ordered_to_end: false });
    }

    /// A process is ordered to end.
    pub(crate) fn ordered_to_end(&mut self, number: ProcessId) {
        if let Some(live) = self.live.get_mut(&number) {
            live.is_ordered_to_end = true;
        }
    }

    /// A note was taken.
    pub(crate) fn noted(&mut self, tree: &impl Looks, note: &Note) {
        let reason = match *note {
            Note::Up(_) => return,
            Note::Exit(_, reason) | Note::Failed(_, reason) => reason,
            Note::Ignored(_) => Reason::Normal,
        };
        let Some(Live { process, is_ordered_to_end }) = self.live.remove(&note.number()) else { return };
        let last = Last { process, reason };
        if let Some(seen) = self.seen.get_mut(process.supervisor.number() as usize) {
            if seen.is_ended_by_children {
                seen.significant.insert(process.id, last);
            }
        }
        if !is_ordered_to_end && !reason.is_quiet() {
            self.failed(tree, last);
        }
    }

    /// A child has failed: that counts for each supervisor above it, up to the root.
    fn failed(&mut self, tree: &impl Looks, last: Last) {
        let mut at = last.process.supervisor;
        while let Some(seen) = self.seen.get_mut(at.number() as usize) {
            if !seen.is_ending {
                seen.failed = Some(last);
            }
            if let Some(now) = tree.at(at) {
                seen.look(&now);
            }
            if at.is_root() {
                break;
            }
            at = seen.parent;
        }
    }

    /// Looks at what became of the nested supervisors since the last time. Who stands below ends first, and begins last.
    pub(crate) fn look(&mut self, tree: &impl Looks) {
        let mut begun = Vec::new();
        for (place, seen) in self.seen.iter_mut().enumerate().rev() {
            let number = SupervisorId::new(place as u32);
            let Some(now) = tree.at(number) else { continue };
            let (runs, is_anew) = (now.phase == Phase::Runs, now.starts > seen.starts);
            if !number.is_root() && seen.runs && (!runs || is_anew) {
                self.untold.push_back((number, seen.ended(now.cause)));
            }
            if is_anew {
                seen.is_ending = false;
                if !runs {
                    begun.push((number, seen.ended(now.cause)));
                }
                begun.push((number, Became::Started(now.starts)));
            }
            (seen.starts, seen.runs) = (now.starts, runs);
            seen.look(&now);
        }
        self.untold.extend(begun.into_iter().rev());
    }

    /// The root's end, with the child on which it ended.
    pub(crate) fn end(&self, mut end: End) -> End {
        if let Some(root) = self.seen.first() {
            end.last = match end.cause {
                Cause::Intensity | Cause::InitFailed(_) => root.failed,
                Cause::Significant(number) => {
                    root.significant.values().find(|last| last.process.number == number).copied()
                }
                Cause::Asked => None,
            };
        }
        end
    }
}

impl Seen {
    fn of(parent: SupervisorId, is_ended_by_children: bool) -> Self {
        let significant = HashMap::new();
        Seen { parent, is_ended_by_children, starts: 0, runs: false, is_ending: false, failed: None, significant }
    }

    /// Looks whether it gives up or shuts down.
    fn look(&mut self, now: &Supervisor) {
        self.is_ending |= now.is_stopping || now.in_period > now.intensity;
    }

    /// How it has ended. What is remembered of it begins anew.
    fn ended(&mut self, cause: Option<EndCause>) -> Became {
        let cause = cause.unwrap_or(EndCause::Asked);
        let failed = self.failed.take().filter(|_| matches!(cause, EndCause::Intensity | EndCause::InitFailed));
        self.is_ending = false;
        self.significant.clear();
        Became::Ended(cause, failed)
    }
}
