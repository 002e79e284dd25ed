//! What a reload does: from the files that run to the files as they are now, where processes stand as they do.

use crate::plan::{AT_ONCE, Plan, Plans};
use crate::reload::shape::{Shape, Wanted};
use otp_supervision::Restart;
use std::collections::{BTreeMap, BTreeSet};
use std::rc::Rc;

/// How the children of a tree stand, by their paths.
#[derive(Clone, Debug, Default, PartialEq, Eq)]
pub struct Standing {
    /// Those that have a process: children, and supervisors without the `/` behind them.
    pub running: BTreeSet<String>,
    /// So many processes the supervisors have whose children share one specification.
    pub dynamic: BTreeMap<String, usize>,
    /// Those that fail alone and are down, held or until their next start.
    pub failing: BTreeSet<String>,
    /// Those that an earlier reload couldn't start.
    pub unstarted: BTreeSet<String>,
    /// What processes run that were started before an earlier reload, which has changed that; by the path of their child, or of the
    /// supervisor of all that share a specification.
    pub older: BTreeMap<String, Rc<Plan>>,
}

impl Standing {
    /// Of a tree that has just been opened.
    pub fn of_new(shapes: &[Shape]) -> Self {
        let fixed = shapes.iter().filter(|shape| !shape.is_simple());
        let running = fixed.flat_map(|shape| shape.children.iter().map(|child| shape.path_of(child))).collect();
        Standing { running, ..Standing::default() }
    }
}

/// One of two sets of files.
#[derive(Clone, Copy, Debug)]
pub struct Side<'a> {
    /// Its supervisors.
    pub shapes: &'a [Shape],
    /// What its start words run.
    pub plans: &'a Plans,
}

impl Side<'_> {
    fn plan_of(&self, child: &Wanted) -> Option<&Plan> {
        self.plans.get(child.spec.start.as_str()).map(Rc::as_ref)
    }

    /// Whether a client starts it.
    fn is_by_hand(&self, child: &Wanted) -> bool {
        child.nested.is_none() && self.plan_of(child).is_some_and(|plan| plan.by_hand.is_some())
    }
}

/// What is stopped or started.
#[derive(Clone, Debug, PartialEq, Eq, PartialOrd, Ord)]
pub enum Target {
    /// The child of this path.
    Child(String),
    /// All processes of the `simple_one_for_one` with this path, which ends with a `/`.
    Processes(String),
}

/// What is to be done.
#[derive(Clone, Debug, Default, PartialEq, Eq)]
pub struct Steps {
    /// What is stopped, in start order.
    pub stops: Vec<Target>,
    /// What is started, in start order.
    pub starts: Vec<Target>,
    /// The tree is another one, or has to have temporary children again that are started.
    pub is_new_tree: bool,
    /// What is told: what is stopped, what else changes, and what is started.
    ended: Vec<String>,
    changed: Vec<String>,
    begun: Vec<String>,
}

/// What is told of a child.
fn line(word: &str, path: &str, more: &str) -> String {
    if more.is_empty() { format!("{word:<7} {path}") } else { format!("{word:<7} {path}: {more}") }
}

/// From the files that run to others. With `restarts` those are restarted that would run otherwise.
pub fn steps_between(old: Side<'_>, new: Side<'_>, standing: &Standing, restarts: bool) -> Result<Steps, String> {
    let (Some(was), Some(is)) = (old.shapes.first(), new.shapes.first()) else { return Ok(Steps::default()) };
    if was.is_simple() != is.is_simple() {
        return Err("the root can't become simple_one_for_one, nor cease to be one: shut the daemon down, and run it \
                    anew"
            .to_string());
    }
    let steps = Steps { is_new_tree: old.shapes != new.shapes, ..Steps::default() };
    let mut walk = Walk { old, new, standing, restarts, steps, wanted: BTreeSet::new(), begun: BTreeMap::new() };
    walk.supervisor(0, 0, false);
    walk.arrange();
    Ok(walk.steps)
}

impl Steps {
    /// What is done, a line each.
    pub fn text(&self) -> String {
        let lines = self.ended.iter().rev().chain(&self.changed).chain(&self.begun);
        let text: String = lines.map(|line| format!("{line}\n")).collect();
        if text.is_empty() { "nothing changes\n".to_string() } else { text }
    }

    /// Nothing is to be done.
    pub fn is_empty(&self) -> bool {
        self.ended.is_empty() && self.changed.is_empty() && self.begun.is_empty()
    }
}

struct Walk<'a> {
    old: Side<'a>,
    new: Side<'a>,
    standing: &'a Standing,
    restarts: bool,
    steps: Steps,
    /// What is to be started, in whatever order, and what is told of it.
    wanted: BTreeSet<Target>,
    begun: BTreeMap<String, String>,
}

impl Walk<'_> {
    /// A supervisor of both. What stands below one that is down stays so.
    fn supervisor(&mut self, was: usize, is: usize, is_down: bool) {
        let (old, new) = (&self.old.shapes[was], &self.new.shapes[is]);
        self.say_now(new.name(), &old.changes(new));
        if old.is_simple() {
            return self.dynamic(old, new);
        }
        for child in &old.children {
            let path = old.path_of(child);
            match new.find(child.spec.id) {
                None => self.goes(&path),
                Some(found) => self.child(&path, child, found, is_down),
            }
        }
        for child in new.children.iter().filter(|child| old.find(child.spec.id).is_none()) {
            self.comes(&new.path_of(child), child, is_down);
        }
    }

    fn goes(&mut self, path: &str) {
        let word = if self.standing.running.contains(path) { "stop" } else { "forget" };
        self.stop(path, word, "");
    }

    fn stop(&mut self, path: &str, word: &str, more: &str) {
        self.steps.stops.push(Target::Child(path.to_string()));
        self.steps.ended.push(line(word, path, more));
    }

    fn begin(&mut self, path: &str, more: &str) {
        self.begun.insert(path.to_string(), line("start", path, more));
        self.want(path);
    }

    fn want(&mut self, path: &str) {
        self.wanted.insert(Target::Child(path.to_string()));
    }

    fn comes(&mut self, path: &str, child: &Wanted, is_down: bool) {
        if self.new.is_by_hand(child) {
            self.steps.changed.push(line("later", path, "new, and ctl start starts it"));
        } else if is_down {
            self.steps.changed.push(line("later", path, "new, and starts with its supervisor"));
        } else {
            self.begin(path, "");
        }
    }

    /// A child of both.
    fn child(&mut self, path: &str, old: &Wanted, new: &Wanted, is_down: bool) {
        if let Some(what) = self.other_kind(old, new) {
            return self.becomes(path, what, is_down);
        }
        let mut changes = old.changes(new);
        if let (Some(was), Some(is)) = (old.nested, new.nested) {
            self.say_now(path, &changes);
            let is_running = self.standing.running.contains(path);
            if !is_running && !is_down && self.standing.unstarted.contains(path) {
                self.begin(path, "");
            }
            return self.supervisor(was.index(), is.index(), is_down || !is_running);
        }
        let (now, later) = self.keys(path, old, new);
        let has_more = !now.is_empty();
        changes.extend(now);
        self.say_now(path, &changes);
        let is_released = self.old.is_by_hand(old) && !self.new.is_by_hand(new);
        self.worker(path, &later.join(", "), has_more, is_down, is_released);
    }

    /// A child becomes one of another kind.
    fn becomes(&mut self, path: &str, what: &str, is_down: bool) {
        if is_down {
            return self.steps.changed.push(line("later", path, what));
        }
        if self.standing.running.contains(path) {
            self.stop(path, "restart", what);
            self.want(path);
        } else {
            self.begin(path, what);
        }
    }

    fn worker(&mut self, path: &str, later: &str, has_more: bool, is_down: bool, is_released: bool) {
        let is_running = self.standing.running.contains(path);
        let is_tried = is_released
            || self.standing.unstarted.contains(path)
            || (self.standing.failing.contains(path) && (has_more || !later.is_empty()));
        if is_running && !later.is_empty() && self.restarts {
            self.stop(path, "restart", later);
            self.want(path);
        } else if is_tried && !is_running && !is_down {
            self.begin(path, later);
        } else if !later.is_empty() {
            let down = if is_running { "" } else { " (it is down)" };
            self.steps.changed.push(line("later", path, &format!("{later}{down}")));
        }
    }

    /// The processes that share one specification.
    fn dynamic(&mut self, old: &Shape, new: &Shape) {
        let (Some(was), Some(is)) = (old.children.first(), new.children.first()) else { return };
        let (now, later) = self.keys(&old.path, was, is);
        let mut changes = was.changes(is);
        changes.extend(now);
        self.say_now(new.name(), &changes);
        if later.is_empty() {
            return;
        }
        let later = later.join(", ");
        let count = self.standing.dynamic.get(&old.path).copied().unwrap_or(0);
        if count > 0 && self.restarts {
            let all = Target::Processes(old.path.clone());
            self.steps.ended.push(line("restart", new.name(), &format!("{later} ({count} of it)")));
            self.wanted.insert(all.clone());
            self.steps.stops.push(all);
        } else {
            self.steps.changed.push(line("later", new.name(), &later));
        }
    }

    /// What keys differ in what a child runs: those that count at once, and those of its next start.
    fn keys(&self, path: &str, old: &Wanted, new: &Wanted) -> (Vec<String>, Vec<String>) {
        let older = self.standing.older.get(path).filter(|_| self.restarts).map(Rc::as_ref);
        let plans = (older.or(self.old.plan_of(old)), self.new.plan_of(new));
        let changes = if let (Some(was), Some(is)) = plans { was.changes(is) } else { BTreeSet::new() };
        changes.into_iter().partition(|key| AT_ONCE.contains(&key.as_str()))
    }

    /// In which way a child isn't what it was, so that its process can't go on.
    fn other_kind(&self, old: &Wanted, new: &Wanted) -> Option<&'static str> {
        match (old.nested, new.nested) {
            (Some(was), Some(is)) => {
                let is_simple = self.new.shapes[is.index()].is_simple();
                let differs = self.old.shapes[was.index()].is_simple() != is_simple;
                let what = if is_simple { "it is simple_one_for_one now" } else { "it isn't simple_one_for_one now" };
                differs.then_some(what)
            }
            (None, None) => None,
            (None, Some(_)) => Some("it has a tree now"),
            (Some(_), None) => Some("it has no tree now"),
        }
    }

    fn say_now(&mut self, path: &str, changes: &[String]) {
        if !changes.is_empty() {
            self.steps.changed.push(line("now", path, &changes.join(", ")));
        }
    }

    /// Brings what is wanted into start order.
    fn arrange(&mut self) {
        let (mut starts, mut begun, mut pending) = (Vec::new(), Vec::new(), vec![(0, 0)]);
        let new = self.new.shapes;
        while let Some((number, at)) = pending.pop() {
            let shape = &new[number];
            if shape.is_simple() {
                let all = Target::Processes(shape.path.clone());
                starts.extend(self.wanted.contains(&all).then_some(all));
                continue;
            }
            let Some(child) = shape.children.get(at) else { continue };
            pending.push((number, at + 1));
            let path = shape.path_of(child);
            begun.extend(self.begun.remove(&path));
            let one = Target::Child(path);
            if self.wanted.contains(&one) {
                starts.push(one);
                self.steps.is_new_tree |= child.spec.restart == Restart::Temporary;
            }
            pending.extend(child.nested.map(|nested| (nested.index(), 0)));
        }
        (self.steps.starts, self.steps.begun) = (starts, begun);
    }
}

#[cfg(test)]
mod tests {
    use super::*;
    use crate::plan;
    use crate::reload::shape::shapes_of;
    use otp_supervision::{Order, Reading, Tree};

    fn shapes(text: &str) -> Vec<Shape> {
        let mut tree = Tree::open(text).unwrap();
        let go_on = |tree: &mut Tree| {
            while let Some(order) = tree.next_order().unwrap() {
                if let Order::Start(process) = order {
                    tree.up(Reading::ZERO, &process).unwrap();
                }
            }
        };
        go_on(&mut tree);
        for number in tree.supervisors() {
            let _ = tree.start_dynamic(Reading::ZERO, number);
        }
        go_on(&mut tree);
        shapes_of(&tree).unwrap()
    }

    fn steps(old: &str, new: &str, standing: Option<&Standing>) -> Result<Steps, String> {
        let (old, new) = (shapes(old), shapes(new));
        let old_plans = plan::read("f", "[s]\ncommand = ['x']\n").unwrap();
        let new_plans = plan::read("f", "[s]\n# elsewhere\ncommand = ['x']\n").unwrap();
        let all = Standing::of_new(&old);
        let (old, new) = (Side { shapes: &old, plans: &old_plans }, Side { shapes: &new, plans: &new_plans });
        steps_between(old, new, standing.unwrap_or(&all), false)
    }

    fn child(id: &str, more: &str) -> String {
        format!("[[child]]\nid = '{id}'\nstart = 's'\n{more}\n")
    }

    fn below(id: &str, more: &str) -> String {
        format!("[[child.tree.child]]\nid = '{id}'\nstart = 's'\n{more}\n")
    }

    #[test]
    fn where_a_table_stands_is_no_change() {
        let steps = steps(&child("a", ""), &format!("# more\n{}", child("a", "")), None).unwrap();
        assert!(steps.is_empty() && !steps.is_new_tree && steps.text() == "nothing changes\n");
    }

    #[test]
    fn starts_come_in_order() {
        let pool = child("p", "[child.tree]");
        let old = [child("a", ""), pool.clone(), below("x", "")].concat();
        let once = "restart = 'temporary'";
        let new = [child("n", ""), pool, below("y", ""), below("t", once), below("x", ""), child("z", "")].concat();
        let steps = steps(&old, &new, None).unwrap();
        assert_eq!(steps.text(), "stop    a\nstart   n\nstart   p/y\nstart   p/t\nstart   z\n");
        let started: Vec<Target> = ["n", "p/y", "p/t", "z"].map(|path| Target::Child(path.to_string())).into();
        assert_eq!(steps.starts, started);
    }

    #[test]
    fn what_stands_below_one_that_is_down_stays_so() {
        let pool = |ids: &[&str]| {
            let below: String = ids.iter().map(|id| below(id, "")).collect();
            child("p", "[child.tree]") + &below
        };
        let down = Standing::default();
        let steps = steps(&pool(&["a", "b"]), &pool(&["b", "c"]), Some(&down)).unwrap();
        assert_eq!(steps.text(), "forget  p/a\nlater   p/c: new, and starts with its supervisor\n");
        assert!(steps.starts.is_empty());
    }

    #[test]
    fn the_root_keeps_its_kind() {
        let simple = format!("strategy = 'simple_one_for_one'\n{}", child("a", ""));
        assert!(steps(&simple, &child("a", ""), None).is_err() && steps(&child("a", ""), &simple, None).is_err());
        let other = simple.replace("'s'\n", "'s'\nshutdown = 1\n");
        let text = steps(&simple, &other, None).unwrap().text();
        assert_eq!(text, "now     /: shutdown 5000 -> 1\n");
    }
}
