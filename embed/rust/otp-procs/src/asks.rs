//! Questions and wishes about one path or several: `status PATH`, `wait`, `signal`, and patterns of paths.

use crate::control::Answered;
use crate::daemon::Daemon;
use crate::glob;
use crate::live::Stage;
use crate::named::Named;
use crate::os;
use crate::request::{Request, Wanted};
use crate::status;
use otp_supervision::{Child, ChildState, SupervisorId};
use std::collections::BTreeSet;

/// The exit status of `ctl status PATH` for what is down, and for what isn't known.
const DOWN: u8 = 3;
const UNKNOWN: u8 = 4;

/// A client that waits until all that it has named is up, or down.
#[derive(Clone, Debug, PartialEq, Eq)]
pub(crate) struct Watcher {
    token: u64,
    pattern: String,
    wanted: Wanted,
}

/// What one client has asked about several paths: how many answers are lacking, and those that have come.
#[derive(Debug, Default)]
pub(crate) struct Batch {
    left: usize,
    lines: Vec<String>,
    is_refused: bool,
}

impl Batch {
    /// One more answer; whether it was the last.
    pub(crate) fn add(&mut self, answer: Result<&str, &str>) -> bool {
        self.left = self.left.saturating_sub(1);
        self.is_refused |= answer.is_err();
        self.lines.push(answer.unwrap_or_else(|text| text).trim_end().to_string());
        self.left == 0
    }

    /// All answers.
    pub(crate) fn whole(mut self) -> Result<String, String> {
        self.lines.sort();
        let text = self.lines.join("\n");
        if self.is_refused { Err(text) } else { Ok(text) }
    }
}

impl Daemon {
    /// The paths of children that a pattern means, or the one that isn't a pattern. A nested supervisor is named as a child.
    pub(crate) fn matching(&mut self, pattern: &str) -> Result<Vec<String>, String> {
        if !glob::is_pattern(pattern) {
            return Ok(vec![pattern.to_string()]);
        }
        let wanted = pattern.trim_start_matches('/').trim_end_matches('/');
        let mut found = Vec::new();
        for number in self.tree.supervisors() {
            let above = self.paths[number.index()].clone();
            let children = self.tree.children(number).unwrap_or_default();
            let paths = children.iter().map(|child| format!("{above}{}", status::name_of(child)));
            found.extend(paths.filter(|path| glob::matches(wanted, path)));
        }
        if found.is_empty() {
            return Err(format!("{pattern}: no child has such a path; ctl status prints all"));
        }
        Ok(found)
    }

    /// Asks the same of each path that a pattern means. The client gets all answers in one.
    pub(crate) fn ask_each(&mut self, token: u64, pattern: &str, make: impl Fn(String) -> Request) {
        let paths = match self.matching(pattern) {
            Ok(paths) => paths,
            Err(text) => return self.answer(token, Err(&text)),
        };
        if glob::is_pattern(pattern) {
            self.batches.insert(token, Batch { left: paths.len(), ..Batch::default() });
        }
        for path in paths {
            self.wish_for(token, &make(path));
        }
    }

    /// A child by its path; nothing for the root.
    fn child_at(&mut self, path: &str) -> Result<Option<(SupervisorId, Child)>, String> {
        let named = self.named(path)?;
        let supervisor = match named {
            Named::Supervisor(SupervisorId::ROOT) => return Ok(None),
            Named::Supervisor(number) => self.as_child(number).ok_or_else(|| format!("{path} is no child"))?.0,
            Named::Child(supervisor, _) | Named::Dynamic(supervisor, _) => supervisor,
        };
        let is_it = |child: &Child| match named {
            Named::Supervisor(number) => child.nested == Some(number),
            Named::Child(_, id) => child.id == Some(id),
            Named::Dynamic(_, number) => child.number == Some(number),
        };
        let children = self.tree.children(supervisor).unwrap_or_default();
        let found = children.into_iter().find(|child| is_it(child));
        found.map(|child| Some((supervisor, child))).ok_or_else(|| format!("{path}: there is no such child any more"))
    }

    /// Whether a child is up, with what it is a supervisor of.
    fn is_child_up(&mut self, child: &Child) -> bool {
        match (child.nested, child.number) {
            (Some(nested), _) => {
                child.state == ChildState::Up && self.tree.supervisor(nested).is_ok_and(|found| found.process.is_some())
            }
            (None, Some(number)) => {
                child.state == ChildState::Up
                    && self.live.get(&number).is_some_and(|live| matches!(live.stage, Stage::Up(_)) && !live.is_reaped)
            }
            (None, None) => false,
        }
    }

    /// Whether what has this path is as wanted.
    fn is_as_wanted(&mut self, path: &str, wanted: Wanted) -> Result<bool, String> {
        let Some((supervisor, child)) = self.child_at(path)? else {
            return Ok(wanted != Wanted::Down && self.is_ready);
        };
        Ok(match wanted {
            Wanted::Up => self.is_child_up(&child),
            Wanted::Ready => self.is_child_ready(&child),
            Wanted::Down => child.state == ChildState::Undefined && !self.will_start(supervisor, &child),
        })
    }

    /// Whether a child is up, and has told so where it has to.
    fn is_child_ready(&mut self, child: &Child) -> bool {
        let is_up = self.is_child_up(child);
        let is_ready = |number| self.live.get(&number).is_some_and(|live| live.is_ready);
        is_up && (child.nested.is_some() || child.number.is_some_and(is_ready))
    }

    /// Whether what has this path is ready.
    pub(crate) fn is_path_ready(&mut self, path: &str) -> bool {
        matches!(self.child_at(path), Ok(Some((_, child))) if self.is_child_ready(&child))
    }

    /// Whether the keeper will start a child that has no process.
    fn will_start(&self, supervisor: SupervisorId, child: &Child) -> bool {
        let is_due = |id| self.keeper.of(supervisor, id).is_some_and(|kept| kept.due.is_some());
        child.id.is_some_and(|id| is_due(id) || self.keeper.is_waiting(supervisor, id))
    }

    /// `status PATH`: the lines, and the exit status of the worst.
    pub(crate) fn status_of(&mut self, token: u64, pattern: &str, is_json: bool) {
        let paths = match self.matching(pattern) {
            Ok(paths) => paths,
            Err(text) => return self.answer_with(token, Answered { status: UNKNOWN, text: &text, is_done: false }),
        };
        let (mut text, mut worst) = (String::new(), 0);
        for path in paths {
            let found = match self.child_at(&path) {
                Ok(found) => found,
                Err(why) => return self.answer_with(token, Answered { status: UNKNOWN, text: &why, is_done: false }),
            };
            let Some((supervisor, child)) = found else {
                text.push_str(&if is_json { status::as_json(self) } else { status::as_text(self) });
                worst = worst.max(if self.is_ready { 0 } else { DOWN });
                continue;
            };
            text.push_str(&status::of_child(self, supervisor, &child, is_json));
            if !self.is_child_ready(&child) {
                worst = DOWN;
            }
        }
        self.answer_with(token, Answered { status: worst, text: &text, is_done: true });
    }

    /// A client waits until all that it names is up, or down.
    pub(crate) fn watch(&mut self, token: u64, pattern: &str, wanted: Wanted) {
        self.watchers.push(Watcher { token, pattern: pattern.to_string(), wanted });
        self.tell_watchers();
    }

    /// Whoever waits for what is so now is told.
    pub(crate) fn tell_watchers(&mut self) {
        for watcher in std::mem::take(&mut self.watchers) {
            match self.is_watched_so(&watcher) {
                Ok(true) => self.answer(watcher.token, Ok("")),
                Ok(false) => self.watchers.push(watcher),
                Err(text) => self.answer(watcher.token, Err(&text)),
            }
        }
    }

    fn is_watched_so(&mut self, watcher: &Watcher) -> Result<bool, String> {
        for path in self.matching(&watcher.pattern)? {
            if !self.is_as_wanted(&path, watcher.wanted)? {
                return Ok(false);
            }
        }
        Ok(true)
    }

    /// Who waits when the tree has ended.
    pub(crate) fn end_watchers(&mut self) {
        for watcher in std::mem::take(&mut self.watchers) {
            let answer =
                if watcher.wanted == Wanted::Down { Ok("the tree has ended") } else { Err("the tree has ended") };
            self.answer(watcher.token, answer);
        }
    }

    /// Sends a signal to the process of a path, or to all of its group.
    pub(crate) fn send_signal(&mut self, path: &str, signal: (&str, i32), to_group: bool) -> Result<String, String> {
        let number = match self.child_at(path)? {
            Some((_, child)) if child.nested.is_none() => child.number,
            _ => return Err(format!("{path} is a supervisor, and has no process; say the path of a child")),
        };
        let live = number.and_then(|number| self.live.get(&number)).filter(|live| !live.is_reaped);
        let live = live.ok_or_else(|| format!("{path} has no process"))?;
        let send = if to_group { os::signal_group } else { os::signal_process };
        match send(live.pid, signal.1) {
            Ok(()) => Ok(format!("{path}: {} was sent to {}", signal.0, live.pid)),
            Err(error) => Err(format!("{path}: {} can't be sent to {}: {error}", signal.0, live.pid)),
        }
    }

    /// The paths of all children that aren't dynamic, with whether they are up: for the metrics.
    pub(crate) fn ups(&mut self) -> Vec<(String, bool)> {
        let mut ups = Vec::new();
        let mut known = BTreeSet::new();
        for number in self.tree.supervisors() {
            let above = self.paths[number.index()].clone();
            for child in self.tree.children(number).unwrap_or_default() {
                let Some(id) = child.id else { continue };
                let path = format!("{above}{id}");
                let is_up = self.is_child_up(&child);
                if known.insert(path.clone()) {
                    ups.push((path, is_up));
                }
            }
        }
        ups
    }
}
