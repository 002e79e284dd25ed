//! The tree as a page of HTML. The daemon writes its parts, alone or for who serves it (`serve.rs`), and says once they differ.

pub mod frame;
pub mod html;
pub mod rows;

use crate::daemon::Daemon;
use crate::live::{Live, Stage, text_of};
use crate::metrics::Last;
use crate::page::frame::{Frame, around};
use crate::page::html::Times;
use crate::page::rows::{Item, Kid, Standing, State, Sup, Whole, body_of};
use crate::status::{Waits, has_ended, name_of};
use otp_supervision::{Child, ChildState, EndCause, Phase, Reading, Restart, Supervisor, SupervisorId};
use std::os::unix::process::ExitStatusExt;
use std::process::ExitStatus;
use std::time::{SystemTime, UNIX_EPOCH};

/// So many lines of each process are shown, and so many characters of each.
const LINES: usize = 8;
const LONGEST: usize = 240;
/// The calendar is read anew where it is so many milliseconds away from the daemon's clock, as once somebody has set it.
const JUMP: u64 = 1_000;

/// What the daemon knows of pages.
#[derive(Debug, Default)]
pub(crate) struct Pages {
    /// What it is called.
    pub title: String,
    /// So often a process has said something.
    pub heard: u64,
    /// Milliseconds from 1970 to reading 0.
    base: u64,
    /// Clients that wait for another page than the one with this mark.
    lookers: Vec<(u64, String)>,
}

impl Daemon {
    /// A whole page, for itself.
    pub(crate) fn page_alone(&mut self) -> String {
        let (head, end) = around(Frame::Alone);
        let body = self.page_body();
        format!("{head}{body}{end}")
    }

    /// For who serves it: its mark, for how many milliseconds it is so where nothing happens, and its parts.
    pub(crate) fn page_parts(&mut self) -> String {
        let (mark, body) = (self.page_mark(), self.page_body());
        format!("{mark} {}\n{body}", self.page_lasts())
    }

    /// A client wants a page once it differs from the one with this mark.
    pub(crate) fn look_for_page(&mut self, token: u64, mark: String) {
        let control = &self.control;
        self.pages.lookers.retain(|(token, _)| control.as_ref().is_some_and(|control| control.is_waiting(*token)));
        self.pages.lookers.push((token, mark));
        self.tell_lookers();
    }

    /// Whoever waits for another page gets it.
    pub(crate) fn tell_lookers(&mut self) {
        if self.pages.lookers.is_empty() {
            return;
        }
        let now = self.page_mark();
        let lookers = std::mem::take(&mut self.pages.lookers).into_iter();
        let (late, others): (Vec<_>, Vec<_>) = lookers.partition(|(_, mark)| *mark != now);
        self.pages.lookers = others;
        if late.is_empty() {
            return;
        }
        self.tell_time();
        let text = self.page_parts();
        for (token, _) in late {
            self.answer(token, Ok(&text));
        }
    }

    /// Who waits when the tree has ended.
    pub(crate) fn end_lookers(&mut self) {
        for (token, _) in std::mem::take(&mut self.pages.lookers) {
            self.answer(token, Err("the tree has ended"));
        }
    }

    /// Another daemon, another event, or something said makes another mark.
    fn page_mark(&self) -> String {
        format!("{}-{}", std::process::id(), self.pages.heard.wrapping_add(self.log.all_events()))
    }

    /// How long a page is true where nothing happens: restarts leave their period, a tenth of which may be told late. 0 is for ever.
    fn page_lasts(&self) -> u64 {
        let supervisors = self.tree.supervisors().filter_map(|number| self.supervisor(number).ok());
        let full = supervisors.filter(|found| found.in_period > 0 && found.phase == Phase::Runs);
        full.map(|found| (found.period.as_millis() as u64 / 10).max(1_000)).min().unwrap_or(0)
    }

    fn page_times(&mut self) -> Times {
        let calendar = SystemTime::now().duration_since(UNIX_EPOCH).unwrap_or_default().as_millis() as u64;
        let base = calendar.saturating_sub(self.now());
        if base.abs_diff(self.pages.base) >= JUMP {
            self.pages.base = base;
        }
        Times { now: self.reading, base: self.pages.base }
    }

    fn page_body(&mut self) -> String {
        let mut items = Vec::new();
        self.add_items(SupervisorId::ROOT, "the tree", &mut items);
        let doing = match (self.is_stopping, self.is_ready) {
            (true, _) => "it stops",
            (false, false) => "it starts",
            (false, true) => "",
        };
        let whole = Whole { title: self.pages.title.clone(), pid: std::process::id(), doing };
        let times = self.page_times();
        body_of(&whole, &items, times)
    }

    fn add_items(&mut self, number: SupervisorId, name: &str, items: &mut Vec<Item>) {
        let Ok(found) = self.supervisor(number) else { return };
        let path = self.paths.get(number.index()).cloned().unwrap_or_default();
        let is_there = found.process.is_some() || number.is_root();
        items.push(Item::Sup(Sup {
            part: format!("s{}", number.number()),
            path: path.clone(),
            name: name.to_string(),
            state: state_of_supervisor(&found, is_there),
            strategy: found.strategy.as_str(),
            in_period: found.in_period,
            intensity: found.intensity,
            period: found.period.as_secs(),
            starts: found.starts,
            cause: found.cause.map(EndCause::as_str),
        }));
        // The children of one that doesn't run are those that it had.
        let children = if is_there { self.tree.children(number).unwrap_or_default() } else { Vec::new() };
        for child in children {
            let name = name_of(&child);
            match child.nested {
                Some(nested) => self.add_items(nested, &format!("{name}/"), items),
                None => items.push(Item::Kid(self.kid_of(number, &child, name, &path))),
            }
        }
        items.push(Item::End);
    }

    fn kid_of(&mut self, supervisor: SupervisorId, child: &Child, name: String, above: &str) -> Kid {
        let path = format!("{above}{name}");
        let waits = self.waits_of(supervisor, child);
        let tally = self.tallies.get(&path);
        let last = tally.and_then(|tally| tally.last.clone());
        let live = child.number.and_then(|number| self.live.get(&number));
        let state = match waits {
            Some(Waits::For(other)) => State::new(Standing::Way, format!("waits for {other}")),
            Some(Waits::Until(due, kept)) => {
                State::at(Standing::Down, format!("down, start {} in", u64::from(kept.times) + 1), due)
            }
            Some(Waits::Held(times)) => State::new(Standing::Down, format!("held, after {times} ends in a row")),
            Some(Waits::ForClient) => State::new(Standing::Over, "down, ctl start starts it"),
            None => state_of_child(child, live, last.as_ref()),
        };
        Kid {
            part: format!("k{}.{}", supervisor.number(), name.replace('#', "_")),
            name,
            state,
            pid: live.map(|live| live.pid),
            restarts: tally.map_or(0, |tally| tally.starts.saturating_sub(1)),
            last,
            usage: live.and_then(Live::usage),
            says: live.and_then(|live| live.words.clone()),
            lines: self.tails.last(&path, LINES).map_or_else(Vec::new, |text| text.lines().map(cut).collect()),
            path,
        }
    }
}

/// A line, or its beginning.
fn cut(line: &str) -> String {
    match line.char_indices().nth(LONGEST) {
        Some((end, _)) => format!("{} ..", &line[..end]),
        None => line.to_string(),
    }
}

fn state_of_supervisor(found: &Supervisor, is_there: bool) -> State {
    match (found.phase, found.is_stopping) {
        // One that was down when the files were read anew is as one that was never started.
        (Phase::Unopened, _) if found.starts == 0 => State::new(Standing::Way, "not started"),
        (Phase::Runs, true) => State::new(Standing::Way, "stops"),
        (Phase::Runs, false) if is_there => State::new(Standing::Up, "runs"),
        _ => State::new(Standing::Down, "down"),
    }
}

fn state_of_child(child: &Child, live: Option<&Live>, last: Option<&Last>) -> State {
    if has_ended(child, live.is_some()) {
        return State::new(Standing::Way, "ended, waits");
    }
    let since = live.map(|live| match live.stage {
        Stage::Starting(since) | Stage::Up(since) => since,
    });
    let with = |standing, words, at: Option<u64>| State { at, ..State::new(standing, words) };
    let is_ready = live.is_none_or(|live| live.is_ready || matches!(live.stage, Stage::Starting(_)));
    match child.state {
        ChildState::Up if is_ready => with(Standing::Up, "up", since),
        ChildState::Up => with(Standing::Way, "up, not ready", since),
        ChildState::Starting => with(Standing::Way, "starting", since),
        ChildState::Asked => match child.deadline {
            Some(deadline) => State::at(Standing::Way, "asked to end, killed in", Reading::as_millis(deadline)),
            None => State::new(Standing::Way, "asked to end"),
        },
        ChildState::Killed => State::new(Standing::Way, "killed"),
        ChildState::Restarting => State::new(Standing::Down, "down, its start is tried again"),
        _ => state_without_process(child, last),
    }
}

/// A child that has none, and gets none by itself.
fn state_without_process(child: &Child, last: Option<&Last>) -> State {
    match last {
        None => State::new(Standing::Down, "not started"),
        Some(last) if last.is_asked => State::new(Standing::Down, "stopped"),
        Some(last) if last.is_fine && child.spec.restart != Restart::Permanent => State::new(Standing::Over, "over"),
        Some(_) => State::new(Standing::Down, "down"),
    }
}

/// How a process has ended, for people.
pub(crate) fn end_of(live: &Live, status: ExitStatus) -> String {
    let name = status.signal().and_then(name_of_signal).map_or(String::new(), |name| format!(" ({name})"));
    let core = if status.core_dumped() { ", with a core file" } else { "" };
    let why = match (live.is_unwatched, live.is_late) {
        (true, _) => ", as it didn't tell that it lives",
        (_, true) => ", as it wasn't ready in time",
        _ => "",
    };
    format!("{}{name}{core}{why}", text_of(status))
}

fn name_of_signal(number: i32) -> Option<&'static str> {
    let names = [
        (1, "HUP"),
        (2, "INT"),
        (3, "QUIT"),
        (4, "ILL"),
        (5, "TRAP"),
        (6, "ABRT"),
        (7, "BUS"),
        (8, "FPE"),
        (9, "KILL"),
        (10, "USR1"),
        (11, "SEGV"),
        (12, "USR2"),
        (13, "PIPE"),
        (14, "ALRM"),
        (15, "TERM"),
        (24, "XCPU"),
        (25, "XFSZ"),
        (31, "SYS"),
    ];
    names.iter().find(|(known, _)| *known == number).map(|(_, name)| *name)
}

#[cfg(test)]
mod tests {
    use super::*;

    #[test]
    fn a_long_line_is_cut_between_characters() {
        assert_eq!(cut(&"é".repeat(LONGEST)), "é".repeat(LONGEST));
        assert_eq!(cut(&"é".repeat(LONGEST + 1)), format!("{} ..", "é".repeat(LONGEST)));
    }
}
