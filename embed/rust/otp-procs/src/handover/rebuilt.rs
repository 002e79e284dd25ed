//! A tree whose supervisors have restarted children at given readings of the clock.
//!
//! What the library counts it knows by what it is told alone. So a tree of stand-ins is opened first: it has the same supervisors, and
//! in each a child that ends by itself at these readings. It goes on under the tree's own text then (`otp_change`), in which no child
//! has a process.

use crate::loading::{start_all, start_one_each};
use crate::reload::shape::{Shape, shapes_of};
use otp_supervision::{ChildSpec, Draft, Name, Order, Process, Reading, Reason, Restart, Strategy, SupervisorId, Tree};
use std::collections::BTreeMap;
use std::error::Error;
use std::fmt::Write;
use std::time::Duration;

/// By the path of a supervisor, with a `/` behind it, the readings at which it has restarted children, as far as these count on.
pub type Restarted = BTreeMap<String, Vec<u64>>;

/// As the log has it: a supervisor with its readings, and behind `;` the next one. The root is `/`.
pub fn text_of(restarted: &Restarted) -> String {
    let mut text = String::new();
    for (path, times) in restarted.iter().filter(|(_, times)| !times.is_empty()) {
        let _ = write!(text, "{}{}", if text.is_empty() { "" } else { "; " }, if path.is_empty() { "/" } else { path });
        for time in times {
            let _ = write!(text, " {time}");
        }
    }
    text
}

/// What such a text says.
pub fn of_text(text: &str) -> Option<Restarted> {
    let entry = |entry: &str| {
        let mut words = entry.split(' ');
        let path = words.next()?;
        let times = words.map(|word| word.parse().ok()).collect::<Option<Vec<u64>>>()?;
        Some((if path == "/" { String::new() } else { path.to_string() }, times))
    };
    text.split("; ").filter(|entry| !entry.is_empty()).map(entry).collect()
}

/// The tree of a text at this reading: its supervisors run, without children, and have restarted some at these readings.
pub fn rebuilt(text: &str, restarted: &Restarted, reading: u64) -> Result<Tree, Box<dyn Error>> {
    let mut whole = Tree::open(text)?;
    start_all(&mut whole, |_| {})?;
    start_one_each(&mut whole)?;
    start_all(&mut whole, |_| {})?;
    let shapes = shapes_of(&whole)?;
    drop(whole);
    let mut tree = Tree::open(draft_of(&shapes, 0, restarted).to_toml()?)?;
    let mut last = BTreeMap::new();
    go_on(&mut tree, &mut last, 0)?;
    for (number, _) in with_times(&shapes, restarted).filter(|(_, shape)| shape.is_simple()) {
        tree.start_dynamic(Reading::ZERO, number)?;
        go_on(&mut tree, &mut last, 0)?;
    }
    let mut times: Vec<(u64, SupervisorId)> = Vec::new();
    for (number, shape) in with_times(&shapes, restarted) {
        times.extend(restarted[&shape.path].iter().map(|time| (*time, number)));
    }
    times.sort_unstable();
    for (time, number) in times {
        let process = last.get(&number).ok_or("there is no stand-in")?;
        tree.exited(Reading::from_millis(time), process, Reason::error("restart"))?;
        go_on(&mut tree, &mut last, time)?;
    }
    for (number, shape) in with_times(&shapes, restarted) {
        match last.get(&number).and_then(|process| process.id) {
            Some(id) => drop(tree.terminate_child(Reading::from_millis(reading), number, id)?),
            None if shape.is_simple() => {
                let process = last.get(&number).ok_or("there is no stand-in")?.number;
                tree.terminate_process(Reading::from_millis(reading), number, process)?;
            }
            None => {}
        }
        go_on(&mut tree, &mut last, reading)?;
    }
    tree.tick(Reading::from_millis(reading))?;
    go_on(&mut tree, &mut last, reading)?;
    tree.change(text)?;
    Ok(tree)
}

/// The supervisors that have restarted children.
fn with_times<'a>(
    shapes: &'a [Shape],
    restarted: &'a Restarted,
) -> impl Iterator<Item = (SupervisorId, &'a Shape)> + use<'a> {
    let numbered = (0..).map(SupervisorId::new).zip(shapes);
    numbered.filter(|(_, shape)| restarted.get(&shape.path).is_some_and(|times| !times.is_empty()))
}

/// A supervisor with those below it, and a stand-in where it has restarted children.
fn draft_of(shapes: &[Shape], number: usize, restarted: &Restarted) -> Draft {
    let shape = &shapes[number];
    let strategy = if shape.is_simple() { Strategy::SimpleOneForOne } else { Strategy::OneForOne };
    let mut draft = Draft::new().strategy(strategy).intensity(shape.intensity, Duration::from_secs(shape.period));
    let nested = shape.children.iter().filter_map(|child| Some((child.spec.id, child.nested?)));
    for (id, nested) in nested {
        draft = draft.supervisor(id, draft_of(shapes, nested.index(), restarted));
    }
    let has_times = restarted.get(&shape.path).is_some_and(|times| !times.is_empty());
    let stand_in = match shape.children.first() {
        Some(shared) if shape.is_simple() => Some(shared.spec.id),
        _ => free_id(shape).filter(|_| has_times),
    };
    stand_in.into_iter().fold(draft, |draft, id| draft.child(ChildSpec::worker(id, id).restart(Restart::Permanent)))
}

/// An id that no child of a supervisor has.
fn free_id(shape: &Shape) -> Option<Name> {
    (0..=shape.children.len())
        .filter_map(|number| Name::new(&format!("stand-in-{number}")).ok())
        .find(|id| shape.find(*id).is_none())
}

/// Answers all orders at this reading; which process a supervisor has started last is kept.
fn go_on(tree: &mut Tree, last: &mut BTreeMap<SupervisorId, Process>, at: u64) -> Result<(), Box<dyn Error>> {
    let at = Reading::from_millis(at);
    while let Some(order) = tree.next_order()? {
        match order {
            Order::Start(process) => {
                tree.up(at, &process)?;
                last.insert(process.supervisor, process);
            }
            Order::Ask { process, .. } => tree.exited(at, &process, Reason::Shutdown)?,
            Order::Kill(process) => tree.exited(at, &process, Reason::Killed)?,
            Order::End(_) => return Err("the restarts that were left are more than the root bears".into()),
            _ => {}
        }
    }
    Ok(())
}

#[cfg(test)]
mod tests {
    use super::*;

    #[test]
    fn what_is_written_is_read() {
        let some: Restarted = [("", vec![1, 2]), ("a/", vec![7]), ("a/b.c/", vec![])]
            .map(|(path, times)| (path.to_string(), times))
            .into();
        let text = text_of(&some);
        assert_eq!(text, "/ 1 2; a/ 7");
        let read: Restarted = some.into_iter().filter(|(_, times)| !times.is_empty()).collect();
        assert_eq!((of_text(&text), of_text("")), (Some(read), Some(Restarted::new())));
        for bad in ["/ x", "/ 1;a 2", "/ -1"] {
            assert_eq!(of_text(bad), None, "{bad}");
        }
    }

    /// Supervisors of all strategies, one that is simple, one without children, and one whose child has the stand-in's id.
    const TREE: &str = "strategy = \"one_for_all\"\nintensity = 2\nperiod = 60\n\
        [[child]]\nid = \"stand-in-0\"\nstart = \"s\"\n\
        [[child]]\nid = \"d\"\nstart = \"s\"\n[child.tree]\nstrategy = \"simple_one_for_one\"\nintensity = 3\nperiod = 9\n\
        [[child.tree.child]]\nid = \"w\"\nstart = \"s\"\nrestart = \"temporary\"\n\
        [[child]]\nid = \"p\"\nstart = \"s\"\nrestart = \"transient\"\nsignificant = false\n[child.tree]\nstrategy = \"rest_for_one\"\nintensity = 4\nperiod = 5\nauto_shutdown = \"any_significant\"\n\
        [[child.tree.child]]\nid = \"a\"\nstart = \"s\"\nrestart = \"temporary\"\nsignificant = true\n\
        [[child.tree.child]]\nid = \"e\"\nstart = \"s\"\n[child.tree.child.tree]\nintensity = 1000\n";

    #[test]
    fn a_tree_has_restarted_what_it_is_said_to_have() {
        let times: Restarted = [
            ("", vec![1_000, 50_000]),
            ("d/", vec![54_000, 54_000, 59_999]),
            ("p/", vec![56_000]),
            ("p/e/", vec![59_000; 1000]),
        ]
        .map(|(path, times)| (path.to_string(), times))
        .into();
        let mut tree = rebuilt(TREE, &times, 60_000).unwrap();
        let counts = |tree: &Tree| -> Vec<(String, u64)> {
            let of = |number| (tree.path_of(number).unwrap(), tree.supervisor(number).unwrap().in_period);
            tree.supervisors().map(of).collect()
        };
        let wanted = |counts: [u64; 4]| -> Vec<(String, u64)> {
            ["", "d/", "p/", "p/e/"].map(str::to_string).into_iter().zip(counts).collect()
        };
        assert_eq!(counts(&tree), wanted([2, 3, 1, 1000]));
        assert_eq!(tree.next_order().unwrap(), None);
        for number in tree.supervisors() {
            assert!(
                tree.children(number).unwrap().iter().all(|child| child.nested.is_some() || child.number.is_none())
            );
        }
        // Each leaves its period when it has to.
        for (at, left) in
            [(61_000, [2, 3, 1, 1000]), (61_001, [1, 3, 0, 1000]), (63_001, [1, 1, 0, 1000]), (110_001, [0; 4])]
        {
            tree.tick(Reading::from_millis(at)).unwrap();
            assert_eq!(counts(&tree), wanted(left), "{at}");
        }
        // As much as it bears, and no more.
        assert!(rebuilt(TREE, &[(String::new(), vec![1, 2, 3])].into(), 4).is_err());
        assert!(rebuilt("nonsense", &Restarted::new(), 4).is_err());
        assert_eq!(counts(&rebuilt(TREE, &Restarted::new(), 4).unwrap()), wanted([0; 4]));
    }
}
