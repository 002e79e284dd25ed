//! Supervision trees with the rules of Erlang/OTP 26, for programs whose processes are their own.
//!
//! What happened goes in: a process is up, one has ended, the clock is read, somebody calls, the tree is to stop. Orders
//! come out: start this, ask that to shut down, kill a third. Strategies, restart intensity, shutdown in reverse order with
//! deadlines, significant children and nested supervisors are OTP's. The decisions are made by a library that is proved
//! (`docs/PROVED.md` says what that means); this crate is a safe wrapper of its C calls, and is itself not proved.
//!
//! Each thing that is told carries the [`Reading`] of the clock at which it happens; so a tree counts right however long nothing
//! happened before.
//!
//! A whole program: it runs one child, the program `false`, which crashes at once. The second crash within five seconds is one
//! too many.
//!
//! ```
//! use otp_supervision::{Clock, Order, Process, Reason, Tree};
//! use std::process::{Child, Command, ExitStatus};
//! use std::time::Duration;
//!
//! fn reason_of(status: ExitStatus) -> Reason {
//!     if status.success() { Reason::Normal } else { Reason::error(&status.to_string()) }
//! }
//!
//! fn main() -> Result<(), Box<dyn std::error::Error>> {
//!     let mut tree = Tree::open("[[child]]\nid = \"job\"\nstart = \"false\"\n")?;
//!     let (clock, mut live) = (Clock::start(), Vec::<(Process, Child)>::new());
//!     loop {
//!         while let Some(order) = tree.next_order()? {
//!             println!("{order}");
//!             match order {
//!                 Order::Start(process) => match Command::new(process.start.as_str()).spawn() {
//!                     Ok(child) => {
//!                         tree.up(clock.now(), &process)?;
//!                         live.push((process, child));
//!                     }
//!                     Err(error) => tree.failed(clock.now(), &process, Reason::error(&error.to_string()))?,
//!                 },
//!                 // A gentler program sends TERM where it is to ask.
//!                 Order::Ask { process, .. } | Order::Kill(process) => {
//!                     if let Some((_, child)) = live.iter_mut().find(|(it, _)| it.number == process.number) {
//!                         child.kill()?;
//!                     }
//!                 }
//!                 Order::End(end) => {
//!                     println!("{}", end.cause); // more restarts within the period than the intensity allows
//!                     return Ok(());
//!                 }
//!                 _ => {}
//!             }
//!         }
//!         let wait = Duration::from_millis(20);
//!         std::thread::sleep(tree.time_left(clock.now()).map_or(wait, |left| left.min(wait)));
//!         tree.tick(clock.now())?;
//!         for place in (0..live.len()).rev() {
//!             if let Some(status) = live[place].1.try_wait()? {
//!                 let (process, _) = live.remove(place);
//!                 tree.exited(clock.now(), &process, reason_of(status))?;
//!             }
//!         }
//!     }
//! }
//! ```
//!
//! A program puts a tree together by [`Draft`], where no file says it. By a number of its own it finds what a child runs
//! ([`ChildSpec::tag`]). Once a tree is watched, orders tell of nested supervisors that give up or begin anew, and its end the child
//! on which it ended ([`Tree::watch`]). What a program has to do where a call is refused stands with [`Tree`].
//!
//! With the feature `serde` names, reasons, words, specifications and drafts are read and written in its formats.
//!
//! A loop that drives real processes is the program `otp-procs`, which has a package of its own.
#![deny(unsafe_code, unsafe_op_in_unsafe_fn, missing_docs)]

mod call;
mod clock;
mod draft;
mod fault;
mod ids;
mod look;
mod name;
mod order;
mod place;
#[cfg(feature = "serde")]
mod serde;
mod spec;
#[doc(hidden)]
pub mod sys;
mod tags;
mod tree;
mod watch;

pub use call::{Answer, Call, ChildLine, ChildProcess, Counts, FromAnswer, Refusal, Reply, SpecFault};
pub use clock::{Clock, Reading};
pub use draft::Draft;
pub use fault::{ChangeError, Fault, FaultPlace, OpenError, TreeFault};
pub use ids::{CallId, ProcessId, SupervisorId};
pub use look::{Child, ChildState, EndCause, Limits, Phase, Supervisor};
pub use name::{BadWord, Name, Reason, Text};
pub use order::{Cause, End, EndRef, Note, Order, OrderRef, Process, ProcessRef};
#[doc(hidden)]
pub use place::brackets;
pub use spec::{AutoShutdown, ChildSpec, Kind, Modules, Restart, Shutdown, Strategy};
pub use tree::{ReplyRef, Tree};
pub use watch::{Became, Last};

/// A sum of the library's bytes, as sixteen hexadecimal digits: a log says by it which library took the decisions.
pub const LIBRARY_SUM: &str = env!("OTP_LIBRARY_SUM");
