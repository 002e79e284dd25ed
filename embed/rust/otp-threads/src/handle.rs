//! What other threads want of a tree that runs.

use crate::child::{Child, Returned};
use otp_supervision::{Answer, Fault, ProcessId, Refusal};
use std::fmt;
use std::sync::mpsc::{Receiver, Sender, channel};

/// A call, with the path of the child or supervisor that it is of.
pub(crate) enum Request {
    Terminate(String),
    Restart(String),
    Delete(String),
    Which(String),
    Count(String),
    Get(String),
    Start(String, String, Child),
    StartDynamic(String),
    TerminateProcess(String, ProcessId),
}

/// Where an answer is waited for.
pub(crate) type Asker = Sender<Result<Answer, CallError>>;

/// What a run is told.
pub(crate) enum Told {
    Up(ProcessId),
    Ended(ProcessId, Returned),
    Stop,
    Call(Request, Asker),
}

/// Why a call isn't done.
#[derive(Clone, Debug, PartialEq, Eq)]
#[non_exhaustive]
pub enum CallError {
    /// The supervisor refuses it.
    Refused(Refusal),
    /// Nothing has this path.
    NoSuchPath,
    /// The library doesn't take it, or this isn't an id.
    Fault(String),
    /// The tree has ended.
    Over,
}

impl fmt::Display for CallError {
    fn fmt(&self, f: &mut fmt::Formatter<'_>) -> fmt::Result {
        match self {
            CallError::Refused(why) => why.fmt(f),
            CallError::NoSuchPath => f.write_str("nothing has this path"),
            CallError::Fault(why) => f.write_str(why),
            CallError::Over => f.write_str("the tree has ended"),
        }
    }
}

impl std::error::Error for CallError {}

impl From<Fault> for CallError {
    fn from(why: Fault) -> Self {
        CallError::Fault(why.to_string())
    }
}

/// By this any thread stops a tree, and makes OTP's calls on it. A child mustn't wait for a call that would end it: its supervisor
/// waits for the child meanwhile.
#[derive(Clone)]
pub struct Handle(Sender<Told>);

impl Handle {
    pub(crate) fn new(told: Sender<Told>) -> Self {
        Handle(told)
    }

    /// Wants the root to shut down. It isn't waited for.
    pub fn stop(&self) {
        // Where the tree has ended it needs no stop.
        let _ = self.0.send(Told::Stop);
    }

    fn call(&self, request: Request) -> Result<Answer, CallError> {
        let (asker, answer): (Asker, Receiver<_>) = channel();
        self.0.send(Told::Call(request, asker)).map_err(|_| CallError::Over)?;
        answer.recv().unwrap_or(Err(CallError::Over))
    }

    /// `terminate_child`: stops the child of this path, and leaves it so.
    ///
    /// # Errors
    /// [`CallError`].
    pub fn terminate(&self, path: &str) -> Result<Answer, CallError> {
        self.call(Request::Terminate(path.to_string()))
    }

    /// `restart_child`: starts a child that has no process.
    ///
    /// # Errors
    /// [`CallError`].
    pub fn restart(&self, path: &str) -> Result<Answer, CallError> {
        self.call(Request::Restart(path.to_string()))
    }

    /// `delete_child`: forgets a child that has no process.
    ///
    /// # Errors
    /// [`CallError`].
    pub fn delete(&self, path: &str) -> Result<Answer, CallError> {
        self.call(Request::Delete(path.to_string()))
    }

    /// `start_child`: one more child of the supervisor of this path; the root's is empty.
    ///
    /// # Errors
    /// [`CallError`].
    pub fn start(&self, supervisor: &str, id: &str, child: Child) -> Result<Answer, CallError> {
        self.call(Request::Start(supervisor.to_string(), id.to_string(), child))
    }

    /// `start_child` under `simple_one_for_one`: one more child of the supervisor of this path.
    ///
    /// # Errors
    /// [`CallError`].
    pub fn start_dynamic(&self, supervisor: &str) -> Result<Answer, CallError> {
        self.call(Request::StartDynamic(supervisor.to_string()))
    }

    /// `terminate_child` under `simple_one_for_one`: stops this process of the supervisor of this path.
    ///
    /// # Errors
    /// [`CallError`].
    pub fn terminate_process(&self, supervisor: &str, process: ProcessId) -> Result<Answer, CallError> {
        self.call(Request::TerminateProcess(supervisor.to_string(), process))
    }

    /// `get_childspec` of the child of this path.
    ///
    /// # Errors
    /// [`CallError`].
    pub fn get(&self, path: &str) -> Result<Answer, CallError> {
        self.call(Request::Get(path.to_string()))
    }

    /// `which_children` of the supervisor of this path.
    ///
    /// # Errors
    /// [`CallError`].
    pub fn which(&self, supervisor: &str) -> Result<Answer, CallError> {
        self.call(Request::Which(supervisor.to_string()))
    }

    /// `count_children` of the supervisor of this path.
    ///
    /// # Errors
    /// [`CallError`].
    pub fn count(&self, supervisor: &str) -> Result<Answer, CallError> {
        self.call(Request::Count(supervisor.to_string()))
    }
}
