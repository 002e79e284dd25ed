//! Readings of a clock, by which a tree counts.

use std::fmt;
use std::ops::Add;
use std::time::{Duration, Instant};

/// What a clock reads: so many milliseconds since any beginning, the same for all readings that a tree is told.
#[derive(Clone, Copy, Debug, Default, PartialEq, Eq, PartialOrd, Ord, Hash)]
pub struct Reading(u64);

impl Reading {
    /// The beginning.
    pub const ZERO: Self = Reading(0);

    /// So many milliseconds after the beginning.
    #[inline]
    pub const fn from_millis(time: u64) -> Self {
        Reading(time)
    }

    /// The milliseconds since the beginning.
    #[inline]
    pub const fn as_millis(self) -> u64 {
        self.0
    }

    /// The time from an earlier reading to this one; none where that one isn't earlier.
    pub const fn since(self, earlier: Reading) -> Duration {
        Duration::from_millis(self.0.saturating_sub(earlier.0))
    }
}

/// The part of a millisecond doesn't count.
impl Add<Duration> for Reading {
    type Output = Reading;

    fn add(self, time: Duration) -> Reading {
        let time = u64::try_from(time.as_millis()).unwrap_or(u64::MAX);
        Reading(self.0.saturating_add(time))
    }
}

/// In milliseconds.
impl fmt::Display for Reading {
    fn fmt(&self, f: &mut fmt::Formatter<'_>) -> fmt::Result {
        self.0.fmt(f)
    }
}

/// A clock whose readings a tree takes, from when it was made. It never goes back.
#[derive(Clone, Copy, Debug)]
pub struct Clock(Instant);

impl Clock {
    /// A clock that begins now.
    pub fn start() -> Self {
        Clock(Instant::now())
    }

    /// What it reads.
    pub fn now(&self) -> Reading {
        Reading::ZERO + self.0.elapsed()
    }
}
