//! A supervisor as it is put together.

use crate::child::{Child, Outcome};
use crate::event::{Ended, Event, Refused};
use crate::handle::{Handle, Told};
use crate::run::Run;
use crate::stop::Stop;
use otp_supervision::{AutoShutdown, Clock, Draft, Name, Order, Strategy, Tree};
use std::sync::mpsc::{Receiver, Sender, channel};
use std::time::Duration;

enum Member {
    Child(Child),
    Supervisor(Supervisor),
}

type Teller<T> = Box<dyn FnMut(&T) + Send>;

/// Who is told what happens.
#[derive(Default)]
pub(crate) struct Events {
    events: Option<Teller<Event>>,
    orders: Option<Teller<Order>>,
}

impl Events {
    pub(crate) fn tell(&mut self, event: &Event) {
        if let Some(told) = &mut self.events {
            told(event);
        }
    }

    pub(crate) fn heard(&mut self, order: &Order) {
        if let Some(told) = &mut self.orders {
            told(order);
        }
    }

    /// Each order is told, too.
    #[cfg(test)]
    pub(crate) fn with_orders(told: impl FnMut(&Order) + Send + 'static) -> Self {
        Events { events: None, orders: Some(Box::new(told)) }
    }
}

/// A supervisor and its children.
pub struct Supervisor {
    draft: Draft,
    members: Vec<(String, Member)>,
    events: Events,
    inbox: (Sender<Told>, Receiver<Told>),
}

impl Default for Supervisor {
    fn default() -> Self {
        Supervisor::new()
    }
}

impl Supervisor {
    /// OTP's defaults: `one_for_one`, one restart in five seconds, no automatic shutdown.
    pub fn new() -> Self {
        Supervisor { draft: Draft::new(), members: Vec::new(), events: Events::default(), inbox: channel() }
    }

    /// Which children are restarted with one that has to be.
    #[must_use]
    pub fn strategy(mut self, strategy: Strategy) -> Self {
        self.draft = self.draft.strategy(strategy);
        self
    }

    /// So many restarts are allowed within a period, of whole seconds.
    #[must_use]
    pub fn intensity(mut self, restarts: u64, period: Duration) -> Self {
        self.draft = self.draft.intensity(restarts, period);
        self
    }

    /// It ends once a significant child has ended, or with `all` once the last of them has.
    #[must_use]
    pub fn auto_shutdown(mut self, all: bool) -> Self {
        let when = if all { AutoShutdown::AllSignificant } else { AutoShutdown::AnySignificant };
        self.draft = self.draft.auto_shutdown(when);
        self
    }

    /// One more child, behind those that it has: so they are started in this order, and stopped in reverse.
    #[must_use]
    pub fn child(self, id: &str, body: impl Fn(&Stop) -> Outcome + Send + Sync + 'static) -> Self {
        self.add(id, Child::new(body))
    }

    /// Adds a child of which more is to be said.
    #[must_use]
    pub fn add(mut self, id: &str, child: Child) -> Self {
        self.members.push((id.to_string(), Member::Child(child)));
        self
    }

    /// One more child, which is a supervisor.
    #[must_use]
    pub fn supervisor(mut self, id: &str, below: Supervisor) -> Self {
        self.members.push((id.to_string(), Member::Supervisor(below)));
        self
    }

    /// What is told each event of the tree whose root this is. It is called by the thread of [`run`](Supervisor::run), which does
    /// nothing else meanwhile.
    #[must_use]
    pub fn events(mut self, told: impl FnMut(&Event) + Send + 'static) -> Self {
        self.events.events = Some(Box::new(told));
        self
    }

    /// By this any thread stops the tree whose root this is, and makes calls on it.
    pub fn handle(&self) -> Handle {
        Handle::new(self.inbox.0.clone())
    }

    /// The tree, with what its children run, each by the number that its orders have.
    fn into_draft(self, bodies: &mut Vec<Child>) -> Result<Draft, Refused> {
        let mut draft = self.draft;
        for (id, member) in self.members {
            let name = name_of(&id)?;
            draft = match member {
                Member::Child(child) => {
                    draft = draft.child(child.spec(name, bodies.len()));
                    bodies.push(child);
                    draft
                }
                Member::Supervisor(below) => draft.supervisor(name, below.into_draft(bodies)?),
            };
        }
        Ok(draft)
    }

    /// Runs the tree on this thread until its root has ended.
    ///
    /// # Errors
    /// [`Refused`] says what is wrong in the tree; then nothing was started.
    pub fn run(mut self) -> Result<Ended, Refused> {
        let events = std::mem::take(&mut self.events);
        let (told, inbox) = std::mem::replace(&mut self.inbox, channel());
        let (mut bodies, clock) = (Vec::new(), Clock::start());
        let draft = self.into_draft(&mut bodies)?;
        Run::new(Tree::of_draft(&draft)?, Box::new(move || clock.now()), bodies, told, inbox, events).run()
    }
}

pub(crate) fn name_of(id: &str) -> Result<Name, Refused> {
    Name::new(id).map_err(|why| Refused::Id(id.to_string(), why))
}
