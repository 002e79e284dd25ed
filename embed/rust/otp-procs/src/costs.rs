//! What a crash of each service costs, for `check`.
//!
//! The tree is played with stand-ins that are up at once. One service of it crashes again and again at the same moment, and what is
//! told is what the library orders then.

use crate::keeper::alone;
use crate::loading::Loaded;
use crate::plan::{OnGiveUp, Retry};
use crate::reload::shape::{Shape, child_at};
use crate::status::span;
use otp_supervision::{
    ChildSpec, EndCause, Fault, Order, Phase, Process, ProcessId, Reading, Reason, Restart, Strategy, Supervisor,
    SupervisorId, Tree,
};
use std::collections::{BTreeMap, BTreeSet};
use std::error::Error;
use std::fmt::Write;

/// So many stand-ins are started for one service, and so many for all: then no more is played.
const STARTS: usize = 5_000;
const ALL_STARTS: usize = 200_000;
/// So many names stand in a row.
const NAMES: usize = 4;
/// What is said of a service that isn't started again.
const DOWN: &str = "leaves it down";
const HEAD: [&str; 4] = ["a crash of", "the 1st", "the 2nd at once", "more at once"];

/// What one crash has done.
#[derive(Clone, Debug, Default, PartialEq, Eq)]
struct Effect {
    /// Services that were started.
    started: BTreeSet<String>,
    /// Those that ran before it, and don't any more.
    lost: BTreeSet<String>,
    /// Nested supervisors that ended by themselves.
    gave_up: BTreeSet<SupervisorId>,
    /// The root has ended.
    is_end: bool,
}

/// A tree that is played.
struct Play<'a> {
    tree: Tree,
    shapes: &'a [Shape],
    /// The processes that are up, by the paths of their services, and these paths by their numbers.
    up: BTreeMap<String, Process>,
    paths: BTreeMap<ProcessId, String>,
    starts: usize,
    effect: Effect,
}

impl<'a> Play<'a> {
    fn open(loaded: &'a Loaded) -> Result<Self, Box<dyn Error>> {
        let (tree, shapes) = (loaded.files.open()?, &loaded.shapes);
        let (up, paths, effect) = (BTreeMap::new(), BTreeMap::new(), Effect::default());
        let mut play = Play { tree, shapes, up, paths, starts: 0, effect };
        play.go_on()?;
        for (number, _) in shapes.iter().enumerate().filter(|(_, shape)| shape.is_simple()) {
            // With another one beside it.
            for _ in 0..2 {
                play.tree.start_dynamic(Reading::ZERO, SupervisorId::new(number as u32))?;
                play.go_on()?;
            }
        }
        Ok(play)
    }

    /// Answers all orders at once.
    fn go_on(&mut self) -> Result<(), Fault> {
        while let Some(order) = self.tree.next_order()? {
            match order {
                Order::Start(process) => self.start(process)?,
                Order::Ask { process, .. } => self.end(&process, Reason::Shutdown)?,
                Order::Kill(process) => self.end(&process, Reason::Killed)?,
                Order::End(_) => self.effect.is_end = true,
                _ => {}
            }
        }
        Ok(())
    }

    fn start(&mut self, process: Process) -> Result<(), Fault> {
        let above = &self.shapes[process.supervisor.index()].path;
        let path =
            process.id.map_or_else(|| format!("{above}#{}", self.free_place(above)), |id| format!("{above}{id}"));
        self.tree.up(Reading::ZERO, &process)?;
        self.starts += 1;
        self.paths.insert(process.number, path.clone());
        self.effect.lost.remove(&path);
        self.effect.started.insert(path.clone());
        self.up.insert(path, process);
        Ok(())
    }

    /// The first place that no process of a `simple_one_for_one` has.
    fn free_place(&self, above: &str) -> usize {
        let mut place = 1;
        while self.up.contains_key(&format!("{above}#{place}")) {
            place += 1;
        }
        place
    }

    fn end(&mut self, process: &Process, reason: Reason) -> Result<(), Fault> {
        if let Some(path) = self.paths.remove(&process.number) {
            self.up.remove(&path);
            self.effect.lost.insert(path);
        }
        self.tree.exited(Reading::ZERO, process, reason)
    }

    /// A service crashes, of which its supervisor is told this; nothing where it isn't up.
    fn crash(&mut self, path: &str, reason: Reason) -> Result<Option<Effect>, Fault> {
        let Some(process) = self.up.get(path).copied() else { return Ok(None) };
        let before = self.supervisors_above(process.supervisor)?;
        self.effect = Effect::default();
        self.end(&process, reason)?;
        self.go_on()?;
        let mut effect = std::mem::take(&mut self.effect);
        for (number, before) in before {
            let now = self.tree.supervisor(number)?;
            let has_ended = (now.starts, now.phase) != (before.starts, before.phase);
            if has_ended && matches!(now.cause, Some(EndCause::Intensity | EndCause::Significant)) {
                effect.gave_up.insert(number);
            }
        }
        Ok(Some(effect))
    }

    /// A supervisor with those above it, but for the root.
    fn supervisors_above(&self, number: SupervisorId) -> Result<Vec<(SupervisorId, Supervisor)>, Fault> {
        let (mut found, mut at) = (Vec::new(), number);
        while !at.is_root() {
            let now = self.tree.supervisor(at)?;
            found.push((at, now));
            at = now.parent;
        }
        Ok(found)
    }

    /// One that has failed alone is started as the daemon does it.
    fn start_later(&mut self, path: &str) -> Result<(), Fault> {
        if let Some((supervisor, id)) = child_at(self.shapes, path) {
            self.tree.restart_child(Reading::ZERO, supervisor, id)?;
        }
        self.go_on()
    }

    /// What a crash of a service has done, in words.
    fn words_of(&self, path: &str, effect: &Effect) -> String {
        if effect.is_end {
            return "ends the daemon".to_string();
        }
        let (mut started, mut lost) = (effect.started.clone(), effect.lost.clone());
        let mut words = Vec::new();
        // The lowest number of a path is the outermost.
        if let Some(number) = effect.gave_up.first() {
            let above = &self.shapes[number.index()].path;
            let runs = self.tree.supervisor(*number).is_ok_and(|found| found.phase == Phase::Runs);
            let is_empty = !started.iter().any(|other| other.starts_with(above));
            words.push(match (runs, is_empty) {
                (false, _) => format!("ends {above}, which stays down"),
                (true, false) => format!("ends {above}, which is started again"),
                (true, true) => format!("ends {above}, which is started again, empty"),
            });
            started.retain(|other| !other.starts_with(above));
            lost.retain(|other| !other.starts_with(above));
        } else if lost.remove(path) {
            words.push(DOWN.to_string());
        }
        if !started.is_empty() {
            words.push(format!("restarts {}", self.names_of(path, &started)));
        }
        if !lost.is_empty() {
            words.push(format!("leaves {} down", self.names_of(path, &lost)));
        }
        words.join("; ")
    }

    /// Several services in words: all of a supervisor, or some by their names.
    fn names_of(&self, path: &str, names: &BTreeSet<String>) -> String {
        let others: Vec<&str> = names.iter().filter(|name| *name != path).map(String::as_str).collect();
        let has_it = others.len() < names.len();
        let is_all = |shape: &&Shape| self.up.keys().filter(|name| name.starts_with(&shape.path)).eq(names);
        match self.shapes.iter().find(is_all) {
            _ if others.is_empty() => "it".to_string(),
            Some(shape) if shape.path.is_empty() => "all".to_string(),
            Some(shape) => format!("all of {}", shape.path),
            None if has_it => format!("it and {}", listed(&others)),
            None => listed(&others),
        }
    }
}

/// The first few of some names.
fn listed(names: &[&str]) -> String {
    match names.len() {
        count if count > NAMES => format!("{} and {} more", names[..NAMES - 1].join(", "), count + 1 - NAMES),
        _ => names.join(", "),
    }
}

fn nth(number: u64) -> String {
    let end = match (number % 10, number % 100) {
        (_, 11..=13) => "th",
        (1, _) => "st",
        (2, _) => "nd",
        (3, _) => "rd",
        _ => "th",
    };
    format!("{number}{end}")
}

/// What makes services alike: their supervisor, and what counts when they end. Who comes later matters to `rest_for_one`.
#[derive(Clone, Debug, PartialEq, Eq)]
struct Service {
    supervisor: SupervisorId,
    restart: Restart,
    is_significant: bool,
    retry: Option<Retry>,
    place: Option<usize>,
}

impl Service {
    fn of(supervisor: usize, shape: &Shape, place: usize, spec: &ChildSpec, retry: Option<Retry>) -> Self {
        Service {
            supervisor: SupervisorId::new(supervisor as u32),
            restart: spec.restart,
            is_significant: spec.significant,
            retry,
            place: (shape.strategy == Strategy::RestForOne).then_some(place),
        }
    }

    /// What its crashes cost.
    fn cost(&self, play: &mut Play<'_>, path: &str) -> Result<Cost, Fault> {
        match self.retry {
            Some(retry) => cost_alone(retry, play, path),
            None => cost_by_rules(play, path),
        }
    }
}

/// What crashes cost: the first, the second at once, and more.
#[derive(Clone, Debug, Default, PartialEq, Eq)]
struct Cost([String; 3]);

impl Cost {
    fn add(&mut self, number: u64, words: String) {
        let Cost([first, second, more]) = self;
        match number {
            1 => *first = words,
            2 => *second = words,
            _ => {
                let _ = write!(more, "{}the {} {words}", if more.is_empty() { "" } else { "; " }, nth(number));
            }
        }
    }
}

fn cost_by_rules(play: &mut Play<'_>, path: &str) -> Result<Cost, Fault> {
    let (mut cost, mut has_given_up) = (Cost::default(), false);
    for number in 1.. {
        if number > 2 && play.starts >= STARTS {
            break;
        }
        let Some(effect) = play.crash(path, Reason::error("crash"))? else { break };
        let gives_up = effect.is_end || (!has_given_up && !effect.gave_up.is_empty());
        has_given_up |= gives_up;
        if number <= 2 || gives_up {
            cost.add(number, play.words_of(path, &effect));
        }
        if effect.is_end {
            break;
        }
    }
    Ok(cost)
}

/// What crashes cost of one that fails alone: its supervisor is told another end, and the daemon starts it later.
fn cost_alone(retry: Retry, play: &mut Play<'_>, path: &str) -> Result<Cost, Fault> {
    let mut cost = Cost::default();
    for times in 1.. {
        let is_over = retry.gives_up_at(times);
        let number = u64::from(times);
        if is_over && retry.on_give_up == OnGiveUp::Hold {
            cost.add(number, "leaves it held".to_string());
            break;
        }
        let crash = Reason::error("crash");
        let Some(effect) = play.crash(path, if is_over { crash } else { alone(crash) })? else { break };
        let words = play.words_of(path, &effect);
        let after = span(retry.wait(times));
        match words.as_str() {
            DOWN if !is_over && times <= 2 => cost.add(number, format!("starts it again after {after}")),
            DOWN if !is_over => {}
            _ => cost.add(number, words),
        }
        if is_over || (times >= 2 && (retry.give_up_after.is_none() || play.starts >= STARTS)) {
            break;
        }
        play.start_later(path)?;
    }
    Ok(cost)
}

/// Services that are alike, as `check` tells them.
struct Row {
    service: Service,
    names: Vec<String>,
    cost: Cost,
}

/// What `check` says of all services.
pub fn text_of(loaded: &Loaded) -> Result<String, Box<dyn Error>> {
    let (mut rows, mut starts, mut left): (Vec<Row>, _, _) = (Vec::new(), 0, 0);
    for (number, shape) in loaded.shapes.iter().enumerate() {
        for (place, child) in shape.children.iter().enumerate().filter(|(_, child)| child.nested.is_none()) {
            let retry = loaded.files.plans.get(child.spec.start.as_str()).and_then(|plan| plan.retry);
            let service = Service::of(number, shape, place, &child.spec, retry);
            let path = if shape.is_simple() { format!("{}#1", shape.path) } else { shape.path_of(child) };
            let name = if shape.is_simple() { format!("{}#N", shape.path) } else { path.clone() };
            if let Some(row) = rows.iter_mut().find(|row| row.service == service) {
                row.names.push(name);
            } else if starts > ALL_STARTS {
                left += 1;
            } else {
                let mut play = Play::open(loaded)?;
                let cost = service.cost(&mut play, &path)?;
                starts += play.starts;
                rows.push(Row { service, names: vec![name], cost });
            }
        }
    }
    Ok(table_of(&joined(rows), left))
}

/// Rows of one supervisor that cost the same are one.
fn joined(rows: Vec<Row>) -> Vec<Row> {
    let mut joined: Vec<Row> = Vec::new();
    for row in rows {
        let is_same = |other: &&mut Row| other.service.supervisor == row.service.supervisor && other.cost == row.cost;
        match joined.iter_mut().find(is_same) {
            Some(other) => other.names.extend(row.names),
            None => joined.push(row),
        }
    }
    joined
}

/// Cells below each other, as wide as the widest of a column.
fn table_of(rows: &[Row], left: usize) -> String {
    let mut lines = vec![HEAD.map(str::to_string)];
    for Row { names, cost: Cost([first, second, more]), .. } in rows {
        let names: Vec<&str> = names.iter().map(String::as_str).collect();
        let second = if second.is_empty() { "-" } else { second };
        lines.push([listed(&names), first.clone(), second.to_string(), more.clone()]);
    }
    let width = |column: usize| lines.iter().map(|line| line[column].chars().count()).max().unwrap_or(0);
    let widths = [width(0), width(1), width(2)];
    let mut text = String::new();
    for [names, first, second, more] in &lines {
        let line = format!("{names:<0$}  {first:<1$}  {second:<2$}  {more}", widths[0], widths[1], widths[2]);
        let _ = writeln!(text, "{}", line.trim_end());
    }
    if left > 0 {
        let _ = writeln!(text, "and {left} more services, which are too many to be played");
    }
    text
}
