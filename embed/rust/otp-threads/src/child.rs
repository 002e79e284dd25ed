//! What a child is: a body, and what its supervisor knows of it beforehand.

use crate::stop::{Alarm, Stop};
use otp_supervision::{ChildSpec, Name, Reason, Restart, Shutdown};
use std::any::Any;
use std::error::Error;
use std::panic::{AssertUnwindSafe, catch_unwind};
use std::sync::Arc;
use std::time::Duration;

/// What a child ends with. An `Err` is a crash, as is a panic. Where the error is a [`Reason`], the child ends with that.
pub type Outcome = Result<(), Box<dyn Error + Send + Sync>>;

pub(crate) type OnThread = Arc<dyn Fn(&Stop) -> Outcome + Send + Sync>;

/// What a child runs.
#[derive(Clone)]
pub(crate) enum Body {
    Thread(OnThread),
    #[cfg(feature = "tokio")]
    Task(crate::task::Task),
}

/// A child: what it runs, when it is started again, and how long it may take to stop.
#[derive(Clone)]
pub struct Child {
    pub(crate) body: Body,
    pub(crate) waits_for_ready: bool,
    restart: Restart,
    shutdown: Shutdown,
    is_significant: bool,
}

impl Child {
    /// A permanent child on a thread of its own, that is given 5 seconds to return: OTP's defaults.
    pub fn new(body: impl Fn(&Stop) -> Outcome + Send + Sync + 'static) -> Self {
        Child::of(Body::Thread(Arc::new(body)))
    }

    pub(crate) fn of(body: Body) -> Self {
        let shutdown = Duration::from_secs(5).into();
        Child { body, waits_for_ready: false, restart: Restart::Permanent, shutdown, is_significant: false }
    }

    /// A subsystem that runs by itself, as a child: OTP's `supervisor_bridge`. `start` starts it, and keeps the [`Alarm`] by which it
    /// says that it has ended; an `Err` is a start that failed. Once it is to stop, `stop` stops it, with what `start` has returned.
    ///
    /// ```
    /// use otp_threads::{Child, Reason, Supervisor};
    ///
    /// // A loop of somebody else's, which knows nothing of supervisors.
    /// let loop_of_others = Child::bridge(
    ///     |alarm| {
    ///         let alarm = alarm.clone();
    ///         Ok(std::thread::spawn(move || alarm.ended(Err("it broke".into()))))
    ///     },
    ///     |thread| drop(thread.join()),
    /// );
    /// let end = Supervisor::new().add("loop", loop_of_others).run()?;
    /// assert_eq!(end.last.map(|last| last.reason), Some(Reason::error("it_broke")));
    /// # Ok::<(), otp_threads::Refused>(())
    /// ```
    pub fn bridge<S>(
        start: impl Fn(&Alarm) -> Result<S, Box<dyn Error + Send + Sync>> + Send + Sync + 'static,
        stop: impl Fn(S) + Send + Sync + 'static,
    ) -> Self {
        let body = move |wanted: &Stop| {
            let subsystem = start(&Alarm::of(wanted))?;
            wanted.ready();
            wanted.wait_for_end().unwrap_or_else(|| {
                stop(subsystem);
                Ok(())
            })
        };
        Child::new(body).wait_ready()
    }

    /// It is up once it says so ([`Stop::ready`]), and the next child is started then. If it returns before, its start has failed; with
    /// an `Ok` its start was ignored, and that is well.
    #[must_use]
    pub fn wait_ready(mut self) -> Self {
        self.waits_for_ready = true;
        self
    }

    /// When it is started again.
    #[must_use]
    pub fn restart(mut self, when: Restart) -> Self {
        self.restart = when;
        self
    }

    /// How long it may take to return once it is asked to; then it is given up.
    #[must_use]
    pub fn shutdown(mut self, time: Duration) -> Self {
        self.shutdown = time.into();
        self
    }

    /// It may take as long as it likes.
    #[must_use]
    pub fn unhurried(mut self) -> Self {
        self.shutdown = Shutdown::Infinity;
        self
    }

    /// Its end may end its supervisor ([`Supervisor::auto_shutdown`](crate::Supervisor::auto_shutdown)). It can't be permanent.
    #[must_use]
    pub fn significant(mut self) -> Self {
        self.is_significant = true;
        self
    }

    /// Its specification, whose orders have the place of its body.
    pub(crate) fn spec(&self, id: Name, place: usize) -> ChildSpec {
        let mut spec = ChildSpec::worker(id, id).tag(place as u64).restart(self.restart).shutdown(self.shutdown);
        spec.significant = self.is_significant;
        spec
    }
}

/// How a child has returned.
#[derive(Clone, Copy, Debug)]
pub(crate) struct Returned {
    pub(crate) reason: Reason,
    /// It returned `Ok`: before it was up, that is no failure.
    pub(crate) is_ok: bool,
}

/// Runs a body until it returns.
pub(crate) fn play(body: &OnThread, stop: &Stop) -> Returned {
    match catch_unwind(AssertUnwindSafe(|| body(stop))) {
        Ok(outcome) => Returned::with(outcome, stop),
        Err(thrown) => Returned::by_panic(&*thrown),
    }
}

impl Returned {
    pub(crate) fn with(outcome: Outcome, stop: &Stop) -> Self {
        let is_ok = outcome.is_ok();
        let reason = match outcome {
            Ok(()) if stop.is_wanted() => Reason::Shutdown,
            Ok(()) => Reason::Normal,
            Err(error) => match error.downcast_ref::<Reason>() {
                Some(reason) => *reason,
                None => Reason::error(&error.to_string()),
            },
        };
        Returned { reason, is_ok }
    }

    pub(crate) fn by_panic(thrown: &(dyn Any + Send)) -> Self {
        let text = thrown.downcast_ref::<&str>().copied();
        let text = text.or_else(|| thrown.downcast_ref::<String>().map(String::as_str));
        let reason = Reason::error(&format!("panic:{}", text.unwrap_or("without_a_text")));
        Returned { reason, is_ok: false }
    }
}
