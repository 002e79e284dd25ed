//! By what a child and its supervisor hear of each other while the child runs.

use crate::child::Outcome;
use std::fmt;
use std::future::Future;
use std::pin::Pin;
use std::sync::{Arc, Condvar, Mutex, MutexGuard, PoisonError};
use std::task::{Context, Poll, Waker};
use std::time::Duration;

#[derive(Default)]
struct State {
    is_wanted: bool,
    /// How a subsystem has ended, as its bridge was told.
    ended: Option<Outcome>,
    /// What tells the supervisor that the child is up; it is told once.
    ready: Option<Box<dyn FnOnce() + Send>>,
    wakers: Vec<Waker>,
}

#[derive(Default)]
struct Shared {
    state: Mutex<State>,
    changed: Condvar,
}

impl Shared {
    fn state(&self) -> MutexGuard<'_, State> {
        self.state.lock().unwrap_or_else(PoisonError::into_inner)
    }
}

/// By this a child hears that it is to stop, and says that it is up.
#[derive(Clone, Default)]
pub struct Stop(Arc<Shared>);

impl Stop {
    pub(crate) fn telling(ready: impl FnOnce() + Send + 'static) -> Self {
        let stop = Stop::default();
        stop.0.state().ready = Some(Box::new(ready));
        stop
    }

    /// Whether it is to stop.
    pub fn is_wanted(&self) -> bool {
        self.0.state().is_wanted
    }

    /// Sleeps for so long, or until it is to stop; says whether it is.
    pub fn wait(&self, time: Duration) -> bool {
        let changed = &self.0.changed;
        let waited = changed.wait_timeout_while(self.0.state(), time, |state| !state.is_wanted);
        waited.unwrap_or_else(PoisonError::into_inner).0.is_wanted
    }

    /// A future that is ready once it is to stop.
    pub fn wanted(&self) -> Wanted {
        Wanted(self.clone())
    }

    /// Says that the child is up, if it was to ([`Child::wait_ready`](crate::Child::wait_ready)): the next child is started then.
    pub fn ready(&self) {
        let ready = self.0.state().ready.take();
        if let Some(ready) = ready {
            ready();
        }
    }

    pub(crate) fn want(&self) {
        let wakers = {
            let mut state = self.0.state();
            state.is_wanted = true;
            std::mem::take(&mut state.wakers)
        };
        self.0.changed.notify_all();
        wakers.into_iter().for_each(Waker::wake);
    }

    fn end(&self, outcome: Outcome) {
        self.0.state().ended.get_or_insert(outcome);
        self.0.changed.notify_all();
    }

    /// Waits until it is to stop, or until a subsystem has ended: then it says how.
    pub(crate) fn wait_for_end(&self) -> Option<Outcome> {
        let is_waiting = |state: &mut State| !state.is_wanted && state.ended.is_none();
        let waited = self.0.changed.wait_while(self.0.state(), is_waiting);
        waited.unwrap_or_else(PoisonError::into_inner).ended.take()
    }
}

impl fmt::Debug for Stop {
    fn fmt(&self, f: &mut fmt::Formatter<'_>) -> fmt::Result {
        f.debug_struct("Stop").field("is_wanted", &self.is_wanted()).finish_non_exhaustive()
    }
}

/// A future that is ready once a child is to stop ([`Stop::wanted`]).
#[derive(Clone, Debug)]
#[must_use = "a future does nothing until it is awaited"]
pub struct Wanted(Stop);

impl Future for Wanted {
    type Output = ();

    fn poll(self: Pin<&mut Self>, context: &mut Context<'_>) -> Poll<()> {
        let mut state = self.0.0.state();
        if state.is_wanted {
            return Poll::Ready(());
        }
        if !state.wakers.iter().any(|waker| waker.will_wake(context.waker())) {
            state.wakers.push(context.waker().clone());
        }
        Poll::Pending
    }
}

/// By this a subsystem says that it has ended ([`Child::bridge`](crate::Child::bridge)).
#[derive(Clone, Debug)]
pub struct Alarm(Stop);

impl Alarm {
    pub(crate) fn of(stop: &Stop) -> Self {
        Alarm(stop.clone())
    }

    /// It has ended so. What is said later counts for nothing.
    pub fn ended(&self, outcome: Outcome) {
        self.0.end(outcome);
    }
}
