//! Children that are started by a call of the daemon, as an operator would do it: one that fails alone, after a while that grows
//! (`restart_after`), and one that waits for others (`after`).
//!
//! No rule is changed for it. A transient child that ends with `shutdown` and a text isn't restarted: so the end of one with
//! `restart_after` is told, and its supervisor goes on without it. A start that has to wait, or of such a child fails while its
//! supervisor starts it, is answered `ignore`. Later the keeper calls `restart_child`, which the log tells as any call.

use crate::daemon::{Daemon, Untold, Waiter};
use crate::live::Live;
use crate::log::{Class, Record};
use crate::plan::{OnGiveUp, Retry};
use crate::told::{CallKind, Told};
use otp_supervision::{CallId, ChildState, Name, Note, Phase, Process, Reason, SupervisorId, Text};
use std::collections::{BTreeMap, BTreeSet};

/// A supervisor's number, and the id of a child.
pub(crate) type Key = (SupervisorId, Name);

/// A child that fails alone.
#[derive(Clone, Copy, Debug, Default, PartialEq, Eq)]
pub(crate) struct Kept {
    /// So many times in a row it has ended soon, or didn't start.
    pub times: u32,
    /// The reading at which it is started again.
    pub due: Option<u64>,
    /// It isn't, until a client starts it.
    pub is_held: bool,
}

/// What the keeper knows.
#[derive(Debug, Default)]
pub(crate) struct Keeper {
    kept: BTreeMap<Key, Kept>,
    /// Those whose start waits for others.
    waiting: BTreeSet<Key>,
    /// Those that a client starts, whatever they should wait for.
    forced: BTreeSet<Key>,
    /// Those that have been started, and weren't stopped by a client since.
    wanted: BTreeSet<Key>,
    /// Calls of `restart_child` that aren't answered, by their numbers.
    calls: BTreeMap<CallId, Key>,
    /// By the path of a child those that it waits for.
    pub after: BTreeMap<String, Vec<String>>,
    seed: u64,
}

impl Keeper {
    /// The reading at which something is due.
    pub fn next_due(&self) -> Option<u64> {
        self.kept.values().filter_map(|kept| kept.due).min()
    }

    /// A call was made.
    pub fn has_called(&mut self, told: &Told, call: CallId) {
        if let Told::Call(supervisor, CallKind::Restart(id)) = told {
            self.calls.insert(call, (*supervisor, *id));
        }
    }

    /// A call was answered.
    pub fn is_answered(&mut self, call: CallId) {
        self.calls.remove(&call);
    }

    /// The children have other supervisors by now, and those that aren't there any more are forgotten. No call is unanswered.
    pub fn move_to(&mut self, place: impl Fn(Key) -> Option<Key>) {
        let kept = std::mem::take(&mut self.kept).into_iter();
        self.kept = kept.filter_map(|(key, kept)| Some((place(key)?, kept))).collect();
        self.waiting = std::mem::take(&mut self.waiting).into_iter().filter_map(&place).collect();
        self.wanted = std::mem::take(&mut self.wanted).into_iter().filter_map(&place).collect();
        self.forced.clear();
        self.calls.clear();
    }

    /// All that fail alone.
    pub fn all_kept(&self) -> impl Iterator<Item = (Key, Kept)> {
        self.kept.iter().map(|(key, kept)| (*key, *kept))
    }

    /// All that wait for others.
    pub fn all_waiting(&self) -> impl Iterator<Item = Key> {
        self.waiting.iter().copied()
    }

    /// Goes on with one that fails alone.
    pub fn keep_on(&mut self, key: Key, kept: Kept) {
        self.kept.insert(key, kept);
        self.wanted.insert(key);
    }

    /// Goes on with one that runs.
    pub fn run_on(&mut self, supervisor: SupervisorId, id: Name) {
        self.wanted.insert((supervisor, id));
    }

    /// Goes on with those that wait.
    pub fn wait_on(&mut self, waiting: Vec<Key>) {
        self.waiting.extend(waiting);
    }

    /// A client stops a child.
    pub fn stop(&mut self, supervisor: SupervisorId, id: Name) {
        self.release(supervisor, id);
        self.wanted.remove(&(supervisor, id));
    }

    /// A child is left alone.
    pub fn release(&mut self, supervisor: SupervisorId, id: Name) {
        self.kept.remove(&(supervisor, id));
        self.waiting.remove(&(supervisor, id));
    }

    /// A client starts a child now.
    pub fn force(&mut self, supervisor: SupervisorId, id: Name) {
        self.release(supervisor, id);
        self.forced.insert((supervisor, id));
    }

    /// What is known of a child that fails alone.
    pub fn of(&self, supervisor: SupervisorId, id: Name) -> Option<Kept> {
        self.kept.get(&(supervisor, id)).copied()
    }

    /// Whether the start of a child waits for others.
    pub fn is_waiting(&self, supervisor: SupervisorId, id: Name) -> bool {
        self.waiting.contains(&(supervisor, id))
    }

    /// The time before the next start, a tenth more or less.
    fn delay(&mut self, retry: Retry, times: u32) -> u64 {
        let delay = retry.wait(times);
        self.seed = self.seed.wrapping_mul(6_364_136_223_846_793_005).wrapping_add(delay | 1);
        delay - delay / 10 + (self.seed >> 33) % (delay / 5 + 1)
    }
}

/// The reason of an end that is left to the keeper: the same text, as a shutdown.
pub(crate) fn alone(reason: Reason) -> Reason {
    let text = match reason {
        Reason::Error(text) => Ok(text),
        other => Text::new(&other.to_string()),
    };
    text.map_or(Reason::Shutdown, Reason::ShutdownWith)
}

impl Daemon {
    /// With which reason the tree is told the end of a process that was up: one that fails alone is left down, and started later.
    pub(crate) fn end_of(&mut self, live: &Live, reason: Reason) -> Reason {
        let (Some(retry), Some(id)) = (live.plan.retry, live.process.id) else { return reason };
        let is_wanted = retry.is_always || !matches!(reason, Reason::Normal | Reason::Shutdown);
        if !is_wanted || live.is_asked || live.is_killed || self.is_stopping {
            return reason;
        }
        let lived = live.up_for(self.now());
        let key = (live.process.supervisor, id);
        if lived > retry.most {
            self.keeper.kept.remove(&key);
        }
        if self.later(key, &live.path, retry) && !matches!(reason, Reason::Normal) { alone(reason) } else { reason }
    }

    /// A process didn't start. Of one that fails alone the tree is told that it is ignored, but where a call wants to know.
    pub(crate) fn failed(&mut self, process: &Process, path: &str, retry: Option<Retry>, reason: Reason) -> Note {
        let failed = Note::Failed(process.number, reason);
        let (Some(retry), Some(id)) = (retry, process.id) else { return failed };
        let key = (process.supervisor, id);
        if self.is_stopping || !self.later(key, path, retry) {
            return failed;
        }
        if self.keeper.calls.values().any(|called| *called == key) { failed } else { Note::Ignored(process.number) }
    }

    /// The child is to be started later; whether it is left to the keeper.
    fn later(&mut self, key: Key, path: &str, retry: Retry) -> bool {
        let kept = self.keeper.kept.entry(key).or_default();
        kept.times += 1;
        let times = kept.times;
        let record = |what| Record::new(Class::Remark, what).text("path", path).number("times", u64::from(times));
        if retry.gives_up_at(times) {
            (kept.due, kept.is_held) = (None, retry.on_give_up == OnGiveUp::Hold);
            let is_held = kept.is_held;
            if is_held {
                self.remark(record("held").text("text", "it is left down; ctl start starts it"));
            } else {
                self.keeper.kept.remove(&key);
            }
            return is_held;
        }
        let delay = self.keeper.delay(retry, times);
        let due = self.now().saturating_add(delay);
        if let Some(kept) = self.keeper.kept.get_mut(&key) {
            kept.due = Some(due);
        }
        self.remark(record("later").number("after_ms", delay));
        true
    }

    /// For what a start has to wait, by the path of its child: for others, or for a client.
    pub(crate) fn has_to_wait(&mut self, process: &Process, path: &str) -> Option<String> {
        let key = (process.supervisor, process.id?);
        if !self.keeper.forced.remove(&key) {
            if self.is_left_to_clients(key, process.start) {
                return Some("ctl start".to_string());
            }
            if let Some(lacking) = self.lacking(path) {
                self.keeper.waiting.insert(key);
                return Some(lacking);
            }
        }
        self.keeper.wanted.insert(key);
        None
    }

    /// Whether a child with this start word is started by clients, and none has done so.
    pub(crate) fn is_left_to_clients(&self, key: Key, start: Name) -> bool {
        let is_by_hand = self.plans.get(start.as_str()).is_some_and(|plan| plan.by_hand.is_some());
        is_by_hand && !self.keeper.wanted.contains(&key)
    }

    /// The first that a child waits for and that isn't ready.
    pub(crate) fn lacking(&mut self, path: &str) -> Option<String> {
        let after = self.keeper.after.get(path)?.clone();
        after.into_iter().find(|other| !self.is_path_ready(other))
    }

    /// Calls for what is due, and for what has waited long enough, until nothing more comes of it: one that is ready now may be what
    /// another waits for.
    pub(crate) fn keep(&mut self) {
        while self.may_call() && self.call_due() + self.call_waiting() > 0 {
            self.go_on();
        }
    }

    /// What is told to the tree already comes first.
    fn may_call(&self) -> bool {
        let is_ending = self.is_stopping || self.kill_until.is_some() || self.end.is_some();
        !is_ending && !self.reload_holds() && self.untold.is_empty()
    }

    fn call_due(&mut self) -> usize {
        let now = self.now();
        let kept = self.keeper.kept.iter().filter(|(_, kept)| kept.due.is_some_and(|due| due <= now));
        let due: Vec<Key> = kept.map(|(key, _)| *key).collect();
        let mut count = 0;
        for key in due {
            if let Some(kept) = self.keeper.kept.get_mut(&key) {
                kept.due = None;
            }
            count += usize::from(self.call_again(key));
        }
        count
    }

    fn call_waiting(&mut self) -> usize {
        let mut count = 0;
        for key in self.keeper.waiting.clone() {
            let path = self.path_at(key);
            if self.state_at(key) != Some(ChildState::Undefined) {
                self.keeper.waiting.remove(&key);
            } else if self.lacking(&path).is_none() && self.can_be_called(key.0) {
                self.keeper.waiting.remove(&key);
                count += usize::from(self.call_again(key));
            }
        }
        count
    }

    pub(crate) fn path_at(&self, (supervisor, id): Key) -> String {
        format!("{}{id}", self.paths.get(supervisor.index()).map_or("", String::as_str))
    }

    fn state_at(&mut self, (supervisor, id): Key) -> Option<ChildState> {
        let is_up = self.tree.supervisor(supervisor).is_ok_and(|found| found.phase == Phase::Runs);
        if is_up { self.child(supervisor, id).map(|child| child.state) } else { None }
    }

    fn can_be_called(&mut self, supervisor: SupervisorId) -> bool {
        self.tree.supervisor(supervisor).is_ok_and(|found| found.phase == Phase::Runs && !found.is_stopping)
    }

    /// Calls `restart_child`, where the child has no process and its supervisor runs; else its start comes by itself. Whether it was
    /// called.
    fn call_again(&mut self, key: Key) -> bool {
        if !self.can_be_called(key.0) || self.state_at(key) != Some(ChildState::Undefined) {
            return false;
        }
        let path = self.path_at(key);
        let told = Told::Call(key.0, CallKind::Restart(key.1));
        let record = told.record(&path).text("by", "keeper");
        let waiter = Waiter { tokens: Vec::new(), supervisor: key.0, ..Waiter::new(0, &path) };
        self.untold.push_back(Untold { told, record, waiter: Some(waiter) });
        true
    }
}

#[cfg(test)]
mod tests {
    use super::*;

    #[test]
    fn the_time_grows_to_its_bound_a_tenth_more_or_less() {
        let mut keeper = Keeper::default();
        let retry =
            Retry { first: 1000, most: 60_000, is_always: false, give_up_after: None, on_give_up: OnGiveUp::Hold };
        for (times, wanted) in
            [(1, 1000), (2, 2000), (3, 4000), (6, 32_000), (7, 60_000), (40, 60_000), (u32::MAX, 60_000)]
        {
            for _ in 0..50 {
                let delay = keeper.delay(retry, times);
                assert!((wanted * 9 / 10..=wanted * 11 / 10).contains(&delay), "{times}: {delay}");
            }
        }
    }

    #[test]
    fn an_end_that_is_left_to_the_keeper_is_a_shutdown_that_says_what_it_was() {
        for (reason, wanted) in [(Reason::error("status_1"), "shutdown:status_1"), (Reason::Killed, "shutdown:killed")]
        {
            assert_eq!(alone(reason).to_string(), wanted);
        }
    }
}
