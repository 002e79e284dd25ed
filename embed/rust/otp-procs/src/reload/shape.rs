//! A tree file as it is compared with another: its supervisors with their flags, and the specifications of their children.

use otp_supervision::{AutoShutdown, ChildSpec, Fault, Modules, Name, Strategy, SupervisorId, Tree};
use std::fmt::Display;

/// A child as a file says it.
#[derive(Clone, Debug, PartialEq, Eq)]
pub struct Wanted {
    /// Its specification.
    pub spec: ChildSpec,
    /// The supervisor that it is, where it has a tree.
    pub nested: Option<SupervisorId>,
}

/// A supervisor as a file says it.
#[derive(Clone, Debug, PartialEq, Eq)]
pub struct Shape {
    /// Its path, with a `/` behind it; that of the root is empty.
    pub path: String,
    /// How it restarts.
    pub strategy: Strategy,
    /// So many restarts it bears in a period of so many seconds.
    pub intensity: u64,
    /// The period.
    pub period: u64,
    auto_shutdown: AutoShutdown,
    /// Its children; of a `simple_one_for_one` the one that all share.
    pub children: Vec<Wanted>,
}

/// The supervisors of a tree in which all was started once, by their numbers.
pub fn shapes_of(tree: &Tree) -> Result<Vec<Shape>, Fault> {
    let shape = |number: SupervisorId| {
        let found = tree.supervisor(number)?;
        let children =
            tree.children(number)?.into_iter().map(|child| Wanted { spec: child.spec, nested: child.nested });
        Ok(Shape {
            path: tree.path_of(number)?,
            strategy: found.strategy,
            intensity: found.intensity,
            period: found.period.as_secs(),
            auto_shutdown: found.auto_shutdown,
            children: children.collect(),
        })
    };
    tree.supervisors().map(shape).collect()
}

impl Shape {
    /// Whether all its children share one specification.
    pub fn is_simple(&self) -> bool {
        self.strategy == Strategy::SimpleOneForOne
    }

    /// The child with this id.
    pub fn find(&self, id: Name) -> Option<&Wanted> {
        self.children.iter().find(|child| child.spec.id == id)
    }

    /// How it is told of: the root is `/`.
    pub fn name(&self) -> &str {
        if self.path.is_empty() { "/" } else { &self.path }
    }

    /// The path of a child.
    pub fn path_of(&self, child: &Wanted) -> String {
        format!("{}{}", self.path, child.spec.id)
    }

    /// The flags that differ in another one, and the order of the children that both have.
    pub fn changes(&self, other: &Shape) -> Vec<String> {
        let mut changes = Vec::new();
        add(&mut changes, "strategy", self.strategy, other.strategy);
        add(&mut changes, "intensity", self.intensity, other.intensity);
        add(&mut changes, "period", self.period, other.period);
        add(&mut changes, "auto_shutdown", self.auto_shutdown, other.auto_shutdown);
        let common = |one: &Shape, two: &Shape| -> Vec<Name> {
            one.children.iter().map(|child| child.spec.id).filter(|id| two.find(*id).is_some()).collect()
        };
        if !self.is_simple() && common(self, other) != common(other, self) {
            changes.push("order of its children".to_string());
        }
        changes
    }
}

fn add<T: PartialEq + Display>(changes: &mut Vec<String>, key: &str, old: T, new: T) {
    if old != new {
        changes.push(format!("{key} {old} -> {new}"));
    }
}

impl Wanted {
    /// What differs in the specification of another one, but for the start word.
    pub fn changes(&self, other: &Wanted) -> Vec<String> {
        let (old, new) = (&self.spec, &other.spec);
        let mut changes = Vec::new();
        add(&mut changes, "id", old.id, new.id);
        add(&mut changes, "restart", old.restart, new.restart);
        add(&mut changes, "significant", old.significant, new.significant);
        add(&mut changes, "shutdown", old.shutdown, new.shutdown);
        add(&mut changes, "type", old.kind, new.kind);
        // Where no file names them they follow the start word.
        let are_named = |spec: &ChildSpec| spec.modules != Modules::Named(vec![spec.start]);
        if are_named(old) || are_named(new) {
            add(&mut changes, "modules", &old.modules, &new.modules);
        }
        changes
    }
}

/// The supervisor of a path and the id behind it.
pub fn split_path(path: &str) -> (&str, &str) {
    path.rsplit_once('/').map_or(("", path), |(above, id)| (&path[..=above.len()], id))
}

/// A child by its path: its supervisor's number, and its id.
pub fn child_at(shapes: &[Shape], path: &str) -> Option<(SupervisorId, Name)> {
    let (above, id) = split_path(path);
    let number = shapes.iter().position(|shape| shape.path == above)?;
    let id = Name::new(id).ok()?;
    shapes[number].find(id).map(|_| (SupervisorId::new(number as u32), id))
}
