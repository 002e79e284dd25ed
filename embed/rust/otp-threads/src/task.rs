//! With the feature `tokio`: a child that is a task of tokio's.

use crate::child::{Body, Child, Outcome, Returned};
use crate::stop::Stop;
use otp_supervision::Reason;
use std::any::Any;
use std::future::Future;
use std::panic::{AssertUnwindSafe, catch_unwind};
use std::pin::Pin;
use std::sync::Arc;
use std::task::{Context, Poll};
use tokio::runtime::Handle;
use tokio::task::JoinHandle;

type Running = Pin<Box<dyn Future<Output = Outcome> + Send>>;

/// A task, and the runtime that it runs on.
#[derive(Clone)]
pub(crate) struct Task {
    body: Arc<dyn Fn(Stop) -> Running + Send + Sync>,
    runtime: Handle,
}

impl Child {
    /// A permanent child that is a task of this runtime. It is asked to stop, and cancelled if it isn't done by its deadline.
    ///
    /// The runtime has to go on as long as the tree: its end cancels all tasks.
    pub fn task<F>(runtime: &Handle, body: impl Fn(Stop) -> F + Send + Sync + 'static) -> Self
    where
        F: Future<Output = Outcome> + Send + 'static,
    {
        let body: Arc<dyn Fn(Stop) -> Running + Send + Sync> = Arc::new(move |stop| Box::pin(body(stop)));
        Child::of(Body::Task(Task { body, runtime: runtime.clone() }))
    }
}

impl Task {
    /// Starts it; its end is told, however it comes.
    pub(crate) fn start(&self, stop: &Stop, told: impl FnOnce(Returned) + Send + 'static) -> JoinHandle<()> {
        let (body, own, heard) = (self.body.clone(), stop.clone(), stop.clone());
        let mut teller = Teller(Some(Box::new(told)));
        // The body is called there, too, so that its panic is its task's.
        let running = Caught(Box::pin(async move { body(own).await }));
        self.runtime.spawn(async move {
            teller.tell(match running.await {
                Ok(outcome) => Returned::with(outcome, &heard),
                Err(thrown) => Returned::by_panic(&*thrown),
            });
        })
    }
}

/// Tells the end of a task. One that is cancelled is dropped.
struct Teller(Option<Box<dyn FnOnce(Returned) + Send>>);

impl Teller {
    fn tell(&mut self, returned: Returned) {
        if let Some(told) = self.0.take() {
            told(returned);
        }
    }
}

impl Drop for Teller {
    fn drop(&mut self) {
        self.tell(Returned { reason: Reason::Killed, is_ok: false });
    }
}

/// A future whose panic is what it is ready with.
struct Caught(Running);

impl Future for Caught {
    type Output = Result<Outcome, Box<dyn Any + Send>>;

    fn poll(mut self: Pin<&mut Self>, context: &mut Context<'_>) -> Poll<Self::Output> {
        match catch_unwind(AssertUnwindSafe(|| self.0.as_mut().poll(context))) {
            Ok(polled) => polled.map(Ok),
            Err(thrown) => Poll::Ready(Err(thrown)),
        }
    }
}
