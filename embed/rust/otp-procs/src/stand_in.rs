//! A door for tests, which no help names: `otp-procs stand-in TREE < LOG` plays the daemon itself, with no process, no signal of its
//! tree's and no clock. Each line is one of a log with --json: its time is the clock's reading, and its event is told as if it had
//! happened then; its orders are left out, as the daemon gives its own. The log that comes of it goes to standard error.

use crate::daemon::Daemon;
use crate::log::{Class, Record};
use crate::replay::{fields_of, told_of};
use std::io::BufRead;
use std::time::{Duration, Instant};

/// Where the readings come from: milliseconds since the daemon began.
#[derive(Clone, Copy, Debug)]
pub(crate) enum Clock {
    /// The system's clock, since then.
    System(Instant),
    /// It is handed in; and where it is, no process is started.
    Told(Duration),
}

impl Clock {
    pub fn elapsed(self) -> Duration {
        match self {
            Clock::System(begun) => begun.elapsed(),
            Clock::Told(reading) => reading,
        }
    }

    /// Processes are stand-ins, of which the lines tell.
    pub fn is_told(self) -> bool {
        matches!(self, Clock::Told(_))
    }
}

impl Daemon {
    /// Plays lines, until the tree has ended or none is left.
    pub fn stand_in(mut self, lines: impl BufRead) -> Result<(), String> {
        self.clock = Clock::Told(Duration::ZERO);
        self.turn(&[], &[]);
        for (index, line) in lines.lines().enumerate() {
            let line = line.map_err(|error| error.to_string())?;
            self.play_line(&line).map_err(|text| format!("line {}: {text}", index + 1))?;
            if self.end.is_some() {
                break;
            }
        }
        self.log.flush();
        Ok(())
    }

    fn play_line(&mut self, line: &str) -> Result<(), String> {
        let fields = fields_of(line).ok_or("no line of a log with --json")?;
        let reading = fields.get("ms").and_then(|ms| ms.parse().ok()).ok_or("no time")?;
        self.clock = Clock::Told(Duration::from_millis(reading));
        // What is due by then comes first.
        self.turn(&[], &[]);
        if let Some(event) = fields.get("event") {
            let told = told_of(&fields, event).ok_or_else(|| format!("no event {event}"))?;
            let record = told.record(fields.get("path").map_or("", String::as_str));
            self.push(told, record);
            self.turn(&[], &[]);
        }
        Ok(())
    }
}

/// The first line of such a log.
pub(crate) fn began() -> Record {
    Record::new(Class::Remark, "began").text("text", "stand-ins for processes, and for the clock")
}
