//! What processes write: lines into the log, and what is passed on to where their output goes.

use crate::control::Control;
use crate::daemon::Daemon;
use crate::live::Live;
use crate::log::{Class, Log, Record, Said};
use crate::outlet::{Heard, Outlet, Stream};
use crate::tails::Tails;
use otp_supervision::ProcessId;

/// So many bytes are kept for those that have ended, all together.
const RESTS: usize = 1024 * 1024;

/// Of which process something is.
#[derive(Debug)]
pub(crate) struct Source {
    path: String,
    number: ProcessId,
}

/// Those who are told what is heard of processes.
struct Ears<'a> {
    log: &'a mut Log,
    tails: &'a mut Tails,
    control: Option<&'a mut Control>,
    reading: u64,
}

impl Ears<'_> {
    fn tell(&mut self, path: &str, number: ProcessId, heard: Heard<'_>) {
        match heard {
            Heard::Line(line, part, stream) => {
                let is_error = stream == Stream::Errors;
                self.log.tell(self.reading, &Said { path, number: number.number(), line, part, is_error });
            }
            Heard::Bytes(bytes) => {
                self.tails.add(path, bytes);
                if let Some(control) = &mut self.control {
                    control.tell_of(self.reading, path, bytes);
                }
            }
            Heard::Lost(bytes, why) => {
                let record = Record::new(Class::Remark, "lost").text("path", path).number("number", number.number());
                self.log.tell(self.reading, &record.number("bytes", bytes).text("text", why));
            }
        }
    }
}

impl Daemon {
    /// Reads what a process has written, and tells the tree if that says that it is up. Once it has ended it is the last time.
    pub(crate) fn read_output(&mut self, number: ProcessId, is_last: bool) {
        let (log, tails, control, reading) = (&mut self.log, &mut self.tails, self.control.as_mut(), self.reading);
        let mut ears = Ears { log, tails, control, reading };
        let Some(live) = self.live.get_mut(&number) else { return };
        self.pages.heard += 1;
        let is_up = live.begins(reading) && live.plan.is_up_at_once();
        let is_told = live.hear(reading);
        let is_ready = live.read(is_last, &mut self.room, &mut |path, heard| ears.tell(path, number, heard)) || is_told;
        if is_up {
            self.note_up(number);
            self.go_on();
        }
        if is_ready {
            self.is_up(number);
        }
    }

    /// A process has ended. What of its output waits for whoever reads it is kept, as far as there is room.
    pub(crate) fn keep_rest(&mut self, live: &mut Live) {
        for outlet in live.take_rest() {
            let from = Source { path: live.path.clone(), number: live.process.number };
            let kept: usize = self.rests.iter().map(|(_, outlet)| outlet.unwritten()).sum();
            if kept + outlet.unwritten() > RESTS {
                self.give_up(from, outlet);
            } else {
                self.rests.push((from, outlet));
            }
        }
        if live.process.id.is_none() {
            self.tails.forget(&live.path);
        }
    }

    /// Writes what is left of processes that have ended, as far as it is taken.
    pub(crate) fn write_rests(&mut self) {
        let (log, tails, control, reading) = (&mut self.log, &mut self.tails, self.control.as_mut(), self.reading);
        let mut ears = Ears { log, tails, control, reading };
        for (from, outlet) in &mut self.rests {
            outlet.take(true, &mut self.room, &mut |heard| ears.tell(&from.path, from.number, heard));
        }
        self.rests.retain(|(_, outlet)| !outlet.is_over());
    }

    /// Nothing more is written of processes that have ended.
    pub(crate) fn give_up_rests(&mut self) {
        for (from, outlet) in std::mem::take(&mut self.rests) {
            self.give_up(from, outlet);
        }
    }

    fn give_up(&mut self, from: Source, outlet: Outlet) {
        let (log, tails, control, reading) = (&mut self.log, &mut self.tails, self.control.as_mut(), self.reading);
        let mut ears = Ears { log, tails, control, reading };
        outlet.give_up(&mut |heard| ears.tell(&from.path, from.number, heard));
    }
}
