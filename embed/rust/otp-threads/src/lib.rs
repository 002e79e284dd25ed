//! Supervises threads by the rules of Erlang/OTP.
//!
//! A child is a function that is handed a [`Stop`], and returns once that is wanted. An `Err` or a panic is a crash: its
//! supervisor starts it again, until it is too often.
//!
//! ```
//! use otp_threads::{Cause, Supervisor};
//! use std::time::Duration;
//!
//! let shop = Supervisor::new()
//!     .intensity(2, Duration::from_secs(10))
//!     .child("db", |stop| {
//!         while !stop.wait(Duration::from_secs(1)) { /* work */ }
//!         Ok(())
//!     })
//!     .child("job", |_| Err("it can't be done".into()));
//! let end = shop.run()?;
//! assert_eq!(end.cause, Cause::Intensity);
//! assert_eq!(end.last.map(|last| last.to_string()).as_deref(), Some("job: error:it_can't_be_done"));
//! # Ok::<(), otp_threads::Refused>(())
//! ```
//!
//! The decisions are made by the library behind [`otp_supervision`]; this layer starts threads, asks and watches them, and is
//! tested. No thread can be killed: one that doesn't return by its deadline is given up, which an [`Event`] tells.
#![forbid(unsafe_code)]

mod child;
mod event;
mod handle;
mod run;
mod stop;
mod supervisor;
#[cfg(feature = "tokio")]
mod task;
#[cfg(test)]
mod transcripts;

pub use child::{Child, Outcome};
pub use event::{Ended, Event, Last, Refused};
pub use handle::{CallError, Handle};
pub use otp_supervision::{Answer, Cause, EndCause, ProcessId, Reason, Refusal, Restart, Strategy};
pub use stop::{Alarm, Stop, Wanted};
pub use supervisor::Supervisor;
