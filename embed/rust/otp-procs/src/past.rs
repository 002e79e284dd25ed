//! What is known of each supervisor beside what the library tells: when it has restarted children, and what was counted before the
//! files were read anew or the program was replaced.

use crate::daemon::Daemon;
use otp_supervision::{EndCause, Fault, Phase, Supervisor, SupervisorId};
use std::collections::VecDeque;

/// So many restarts count at the most: one more than any intensity.
const MOST: usize = 1_001;

/// How a supervisor stands, as far as it is counted.
#[derive(Clone, Copy, Debug, Default, PartialEq, Eq)]
pub struct Counts {
    /// Restarts since it was started last.
    pub restarts: u64,
    /// Those of them within the period; of one that is down those that it ended with.
    pub in_period: u64,
    /// How often it was started.
    pub starts: u64,
    /// Why it ended last.
    pub cause: Option<EndCause>,
}

impl Counts {
    /// Those of a supervisor.
    pub fn of(now: &Supervisor) -> Self {
        Counts { restarts: now.restarts, in_period: now.in_period, starts: now.starts, cause: now.cause }
    }
}

/// Counts that are gone on with: what they were then, and how the library told the supervisor.
#[derive(Clone, Copy, Debug)]
struct Before {
    counts: Counts,
    restarts: u64,
    starts: u64,
    phase: Phase,
}

/// The past of a supervisor.
#[derive(Clone, Debug, Default)]
pub struct Past {
    /// The readings at which it has restarted children since it was started last; of many the last ones.
    times: VecDeque<u64>,
    /// As often it was started, and has restarted children, when it was looked at last.
    starts: u64,
    restarts: u64,
    before: Option<Before>,
}

impl Past {
    /// Of a supervisor which the library begins to tell of now, and which had restarted children at these readings.
    pub fn going_on(counts: Counts, times: impl IntoIterator<Item = u64>, now: &Supervisor) -> Self {
        let before = Before { counts, restarts: now.restarts, starts: now.starts, phase: now.phase };
        Past { times: times.into_iter().collect(), starts: now.starts, restarts: now.restarts, before: Some(before) }
    }

    /// What it has done since it was looked at last it has done at this reading.
    pub fn look(&mut self, now: &Supervisor, reading: u64) {
        if now.starts != self.starts {
            self.times.clear();
            (self.starts, self.restarts) = (now.starts, 0);
        }
        let fresh = now.restarts.saturating_sub(self.restarts).min(MOST as u64);
        self.times.extend((0..fresh).map(|_| reading));
        self.times.drain(..self.times.len().saturating_sub(MOST));
        self.restarts = now.restarts;
    }

    /// The readings of those restarts that count within its period.
    pub fn times_of(&self, now: &Supervisor) -> Vec<u64> {
        let count = usize::try_from(now.in_period).unwrap_or(MOST);
        self.times.iter().skip(self.times.len().saturating_sub(count)).copied().collect()
    }

    /// A supervisor as it is shown: with what was counted before.
    pub fn shown(&self, mut now: Supervisor) -> Supervisor {
        let Some(before) = &self.before else { return now };
        if now.starts == before.starts {
            now.restarts = before.counts.restarts + now.restarts.saturating_sub(before.restarts);
            if now.phase == before.phase {
                now.cause = before.counts.cause;
            }
            if now.phase == before.phase && now.phase != Phase::Runs {
                now.in_period = before.counts.in_period;
            }
        }
        now.starts = before.counts.starts + now.starts.saturating_sub(before.starts);
        now
    }
}

impl Daemon {
    /// A supervisor as it stands, with all that was counted of it.
    pub(crate) fn supervisor(&self, number: SupervisorId) -> Result<Supervisor, Fault> {
        let now = self.tree.supervisor(number)?;
        Ok(self.past.get(number.index()).map_or(now, |past| past.shown(now)))
    }

    /// Whatever supervisors have restarted since they were looked at last they have at the reading of this turn.
    pub(crate) fn look_at_restarts(&mut self, numbers: impl IntoIterator<Item = SupervisorId>) {
        for number in numbers {
            if let (Ok(now), Some(past)) = (self.tree.supervisor(number), self.past.get_mut(number.index())) {
                past.look(&now, self.reading);
            }
        }
    }

    /// The supervisors are these from now on, by the paths that they have; what is counted of those that were there before goes on.
    pub(crate) fn move_past(&mut self, old_paths: &[String], old: &[Supervisor]) {
        let past = std::mem::take(&mut self.past);
        let of = |number: SupervisorId| {
            let Ok(now) = self.tree.supervisor(number) else { return Past::default() };
            let path = &self.paths[number.index()];
            let Some(at) = old_paths.iter().position(|old| old == path) else { return Past::default() };
            match (past.get(at), old.get(at)) {
                (Some(past), Some(before)) => {
                    Past::going_on(Counts::of(&past.shown(*before)), past.times.iter().copied(), &now)
                }
                _ => Past::default(),
            }
        };
        self.past = self.tree.supervisors().map(of).collect();
    }
}

#[cfg(test)]
mod tests {
    use super::*;
    use otp_supervision::{Order, Process, Reading, Reason, Tree};

    /// A tree whose processes are up at once, and the last one that was started.
    fn go_on(tree: &mut Tree, at: u64) -> Option<Process> {
        let mut last = None;
        while let Some(order) = tree.next_order().unwrap() {
            if let Order::Start(process) = order {
                tree.up(Reading::from_millis(at), &process).unwrap();
                last = Some(process);
            }
        }
        last
    }

    #[test]
    fn restarts_are_known_by_their_times_as_far_as_they_count() {
        let pool = "[[child]]\nid = \"p\"\nstart = \"p\"\n[child.tree]\nintensity = 2\nperiod = 5\n[[child.tree.child]]\nid = \"a\"\nstart = \"a\"\n";
        let mut tree = Tree::open(format!("intensity = 9\n{pool}")).unwrap();
        let mut last = go_on(&mut tree, 0).unwrap();
        let (mut root, mut pool) = (Past::default(), Past::default());
        let mut crash = |tree: &mut Tree, at: u64| {
            let look = |tree: &Tree, number| tree.supervisor(SupervisorId::new(number)).unwrap();
            tree.exited(Reading::from_millis(at), &last, Reason::error("x")).unwrap();
            last = go_on(tree, at).unwrap();
            root.look(&look(tree, 0), at);
            pool.look(&look(tree, 1), at);
            (root.times_of(&look(tree, 0)), pool.times_of(&look(tree, 1)))
        };
        for (at, wanted) in [
            (1_000, (vec![], vec![1_000])),
            (2_000, (vec![], vec![1_000, 2_000])),
            (6_500, (vec![], vec![2_000, 6_500])),
            // It gives up, and is started anew.
            (6_600, (vec![6_600], vec![])),
            (6_700, (vec![6_600], vec![6_700])),
        ] {
            assert_eq!(crash(&mut tree, at), wanted, "{at}");
        }
        // What was counted before goes on, also where the library begins anew.
        let now = tree.supervisor(SupervisorId::new(1)).unwrap();
        let counts = Counts { restarts: 40, in_period: 1, starts: 7, cause: None };
        let gone_on = Past::going_on(counts, [6_700], &now);
        assert_eq!(Counts::of(&gone_on.shown(now)), counts);
        crash(&mut tree, 6_800);
        let now = tree.supervisor(SupervisorId::new(1)).unwrap();
        assert_eq!(Counts::of(&gone_on.shown(now)), Counts { restarts: 41, in_period: 2, ..counts });
        crash(&mut tree, 6_900);
        let now = tree.supervisor(SupervisorId::new(1)).unwrap();
        let wanted = Counts { restarts: 0, in_period: 0, starts: 8, cause: Some(EndCause::Intensity) };
        assert_eq!(Counts::of(&gone_on.shown(now)), wanted);
    }
}
