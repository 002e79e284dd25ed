//! What the tree is told, and how the log tells it.

use crate::log::{Class, Record};
use otp_supervision::{CallId, Fault, Name, Note, ProcessId, Reading, SupervisorId, Tree};

/// A call on a supervisor.
#[derive(Clone, Copy, Debug, PartialEq, Eq)]
pub enum CallKind {
    /// `restart_child`.
    Restart(Name),
    /// `start_child` under `simple_one_for_one`.
    StartDynamic,
    /// `delete_child`.
    Delete(Name),
    /// `terminate_child` by id.
    Terminate(Name),
    /// `terminate_child` by process.
    TerminateProcess(ProcessId),
    /// `which_children`.
    Which,
    /// `count_children`.
    Count,
}

impl CallKind {
    /// Its word in the log.
    pub fn as_str(self) -> &'static str {
        match self {
            CallKind::Restart(_) => "restart_child",
            CallKind::StartDynamic => "start_child",
            CallKind::Delete(_) => "delete_child",
            CallKind::Terminate(_) => "terminate_child",
            CallKind::TerminateProcess(_) => "terminate_process",
            CallKind::Which => "which_children",
            CallKind::Count => "count_children",
        }
    }

    /// The call of a line of the log.
    pub fn from_log(word: &str, id: Option<Name>, number: Option<ProcessId>) -> Option<Self> {
        Some(match word {
            "restart_child" => CallKind::Restart(id?),
            "start_child" => CallKind::StartDynamic,
            "delete_child" => CallKind::Delete(id?),
            "terminate_child" => CallKind::Terminate(id?),
            "terminate_process" => CallKind::TerminateProcess(number?),
            "which_children" => CallKind::Which,
            "count_children" => CallKind::Count,
            _ => return None,
        })
    }

    /// Makes the call at this reading of the clock, and gives its number.
    pub fn make(self, tree: &mut Tree, reading: Reading, supervisor: SupervisorId) -> Result<CallId, Fault> {
        Ok(match self {
            CallKind::Restart(id) => tree.restart_child(reading, supervisor, id)?.number(),
            CallKind::StartDynamic => tree.start_dynamic(reading, supervisor)?.number(),
            CallKind::Delete(id) => tree.delete_child(reading, supervisor, id)?.number(),
            CallKind::Terminate(id) => tree.terminate_child(reading, supervisor, id)?.number(),
            CallKind::TerminateProcess(number) => tree.terminate_process(reading, supervisor, number)?.number(),
            CallKind::Which => tree.which_children(reading, supervisor)?.number(),
            CallKind::Count => tree.count_children(reading, supervisor)?.number(),
        })
    }
}

/// Something that the tree is told.
#[derive(Clone, Debug, PartialEq, Eq)]
pub enum Told {
    /// A process tells its supervisor this.
    Note(SupervisorId, Note),
    /// The root is to shut down.
    Stop,
    /// A supervisor is called.
    Call(SupervisorId, CallKind),
}

impl Told {
    /// The supervisor that is told.
    pub fn supervisor(&self) -> SupervisorId {
        match *self {
            Told::Note(supervisor, _) | Told::Call(supervisor, _) => supervisor,
            Told::Stop => SupervisorId::ROOT,
        }
    }

    /// Tells it as of this reading of the clock; the answer is the number of a call.
    pub fn tell(&self, tree: &mut Tree, reading: Reading) -> Result<Option<CallId>, Fault> {
        match *self {
            Told::Note(supervisor, note) => tree.note(reading, supervisor, note).map(|()| None),
            Told::Stop => tree.stop(reading).map(|()| None),
            Told::Call(supervisor, kind) => kind.make(tree, reading, supervisor).map(Some),
        }
    }

    /// The line of the log, without what only the daemon knows.
    pub fn record(&self, path: &str) -> Record {
        let event = |what| Record::new(Class::Event, what);
        match *self {
            Told::Stop => event("stop"),
            Told::Note(supervisor, note) => {
                let (what, reason) = match note {
                    Note::Up(_) => ("up", None),
                    Note::Ignored(_) => ("ignore", None),
                    Note::Failed(_, reason) => ("fail", Some(reason)),
                    Note::Exit(_, reason) => ("exit", Some(reason)),
                    // There is no other.
                    _ => ("note", None),
                };
                let line = event(what).text("path", path).number("number", note.number().number());
                line.maybe("reason", reason.map(|reason| reason.to_string()))
                    .number("supervisor", u64::from(supervisor.number()))
            }
            Told::Call(supervisor, kind) => {
                let line = event("call").text("path", path).text("call", kind.as_str());
                let line = match kind {
                    CallKind::Restart(id) | CallKind::Delete(id) | CallKind::Terminate(id) => {
                        line.text("id", id.to_string())
                    }
                    CallKind::TerminateProcess(number) => line.number("number", number.number()),
                    _ => line,
                };
                line.number("supervisor", u64::from(supervisor.number()))
            }
        }
    }
}
