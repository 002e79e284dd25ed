//! Plays event lines, as `otp sim` reads them, on the root of a tree, and prints the orders as `sim` does.

use otp_supervision::{ChildSpec, Name, Note, OpenError, ProcessId, Reading, Reason, SupervisorId, Tree};

/// What is printed. A line that can't be read is the test's own fault.
pub fn play(tree: &str, lines: &str) -> String {
    let mut tree = match Tree::open(tree) {
        Ok(tree) => tree,
        Err(OpenError::Refused(fault)) => return format!("tree refused: E{}\n", fault.code),
        Err(error) => panic!("{error}"),
    };
    let (mut printed, mut reading) = (String::new(), Reading::ZERO);
    take_orders(&mut tree, &mut printed);
    for line in lines.lines().filter(|line| !line.is_empty()) {
        let words: Vec<&str> = line.split(' ').collect();
        tell(&mut tree, &mut reading, &words).unwrap_or_else(|| panic!("no line of a script: {line}"));
        take_orders(&mut tree, &mut printed);
    }
    printed
}

fn take_orders(tree: &mut Tree, printed: &mut String) {
    while let Some(order) = tree.next_order().unwrap() {
        printed.push_str(&format!("{order}\n"));
    }
}

/// Tells what a line says, at the reading that the last line `at` gave.
fn tell(tree: &mut Tree, at: &mut Reading, words: &[&str]) -> Option<()> {
    let (reading, root) = (*at, SupervisorId::ROOT);
    let number = |word: &str| word.parse().ok().map(ProcessId::new);
    let reason = |word: &str| word.parse::<Reason>().ok();
    let id = |word: &str| Name::new(word).ok();
    match words {
        ["at", reading] => {
            *at = reading.parse().ok().map(Reading::from_millis)?;
            tree.tick(*at).unwrap();
        }
        ["up", it] => tree.note(reading, root, Note::Up(number(it)?)).unwrap(),
        ["ignore", it] => tree.note(reading, root, Note::Ignored(number(it)?)).unwrap(),
        ["fail", it, why] => tree.note(reading, root, Note::Failed(number(it)?, reason(why)?)).unwrap(),
        ["exit", it, why] => tree.note(reading, root, Note::Exit(number(it)?, reason(why)?)).unwrap(),
        ["stop"] => tree.stop(reading).unwrap(),
        ["start"] => drop(tree.start_dynamic(reading, root).unwrap()),
        ["start", rest @ ..] => drop(tree.start_child(reading, root, &spec_of(rest)?).unwrap()),
        ["restart", it] => drop(tree.restart_child(reading, root, id(it)?).unwrap()),
        ["delete", it] => drop(tree.delete_child(reading, root, id(it)?).unwrap()),
        ["get", it] => drop(tree.get_childspec(reading, root, id(it)?).unwrap()),
        ["terminate", it] => match it.strip_prefix('#') {
            Some(it) => drop(tree.terminate_process(reading, root, number(it)?).unwrap()),
            None => drop(tree.terminate_child(reading, root, id(it)?).unwrap()),
        },
        ["which"] => drop(tree.which_children(reading, root).unwrap()),
        ["count"] => drop(tree.count_children(reading, root).unwrap()),
        _ => return None,
    }
    Some(())
}

fn spec_of(words: &[&str]) -> Option<ChildSpec> {
    let [id, start, restart, significant, shutdown, kind] = words else {
        return None;
    };
    let mut spec = ChildSpec::worker(Name::new(id).ok()?, Name::new(start).ok()?);
    spec.restart = restart.parse().ok()?;
    spec.significant = significant.parse().ok()?;
    spec.shutdown = shutdown.parse().ok()?;
    spec.kind = kind.parse().ok()?;
    Some(spec)
}
