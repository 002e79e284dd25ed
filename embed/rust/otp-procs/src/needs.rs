//! What the plans say of the children of a tree: for whom one waits, and what doesn't go together with its specification.

use crate::near;
use crate::plan::Plans;
use crate::subset::BadLine;
use otp_supervision::{Child, Restart, Strategy, Tree};
use std::collections::BTreeMap;

/// The children of a tree, and for whom they wait.
#[derive(Debug, Default)]
pub struct Needs {
    /// By the path of a child the paths of those that it waits for.
    pub after: BTreeMap<String, Vec<String>>,
    /// All paths, and whether a process of its own is there.
    paths: BTreeMap<String, bool>,
}

impl Needs {
    /// Those of a tree in which all was started once.
    pub fn of(tree: &mut Tree, plans: &Plans) -> Result<Self, BadLine> {
        let mut rows: Vec<(String, String, Child)> = Vec::new();
        let mut needs = Needs::default();
        for number in tree.supervisors() {
            let is_simple = tree.supervisor(number).is_ok_and(|found| found.strategy == Strategy::SimpleOneForOne);
            let above = tree.path_of(number).unwrap_or_default();
            for child in tree.children(number).unwrap_or_default() {
                let Some(id) = child.id.filter(|_| !is_simple) else { continue };
                let path = format!("{above}{id}");
                needs.paths.insert(path.clone(), child.nested.is_none());
                rows.push((above.clone(), path, child));
            }
            if is_simple {
                needs.paths.insert(above.trim_end_matches('/').to_string(), false);
            }
        }
        for (above, path, child) in &rows {
            needs.add(above, path, child, plans)?;
        }
        needs.no_circles(&rows, plans)?;
        Ok(needs)
    }

    /// Whether this is the path of a child that has a process.
    pub fn is_worker(&self, path: &str) -> bool {
        self.paths.get(path.trim_start_matches('/')) == Some(&true)
    }

    fn add(&mut self, above: &str, path: &str, child: &Child, plans: &Plans) -> Result<(), BadLine> {
        let word = child.spec.start.as_str();
        let Some(plan) = plans.get(word).filter(|_| child.nested.is_none()) else { return Ok(()) };
        let restart = child.spec.restart;
        if let Some((retry, place)) = plan.retry.as_ref().zip(plan.retry_place.as_ref())
            && restart != Restart::Transient
        {
            let more = if retry.is_always {
                ""
            } else {
                ", and restart_always = true if it is to be started after status 0, too"
            };
            let text = format!(
                "[{word}] restart_after: child {path} is {restart}, so its supervisor restarts it at once or never; write restart = \"transient\" in the tree{more}"
            );
            return Err(BadLine::new(place, text));
        }
        if let Some(place) = plan.retry_place.as_ref().filter(|_| child.spec.significant) {
            let text = format!(
                "[{word}] restart_after: child {path} is significant, so its end is one of its supervisor; drop one of them"
            );
            return Err(BadLine::new(place, text));
        }
        if let Some(place) = plan.by_hand.as_ref().filter(|_| restart == Restart::Temporary) {
            let text = format!(
                "[{word}] autostart: child {path} is temporary, and is forgotten where it isn't started; write restart = \"transient\""
            );
            return Err(BadLine::new(place, text));
        }
        let Some((names, place)) = &plan.after else { return Ok(()) };
        if restart == Restart::Temporary {
            let text = format!(
                "[{word}] after: child {path} is temporary, and is forgotten where its start has to wait; write restart = \"transient\""
            );
            return Err(BadLine::new(place, text));
        }
        for name in names {
            let other = if name.contains('/') { name.trim_matches('/').to_string() } else { format!("{above}{name}") };
            if !self.paths.contains_key(&other) {
                let near = near::question(&other, self.paths.keys().map(String::as_str));
                let text = format!(
                    "[{word}] after: there is no child {other}{near}; a name is of a sibling, one with a / is a path from the root"
                );
                return Err(BadLine::new(place, text));
            }
            self.after.entry(path.to_string()).or_default().push(other);
        }
        Ok(())
    }

    /// Nobody waits for himself, also not by others, nor for a supervisor above him.
    fn no_circles(&self, rows: &[(String, String, Child)], plans: &Plans) -> Result<(), BadLine> {
        for (_, path, child) in rows {
            let mut seen = vec![path.clone()];
            let mut at = 0;
            while at < seen.len() {
                for other in self.after.get(&seen[at]).into_iter().flatten() {
                    if other == path || path.starts_with(&format!("{other}/")) {
                        let word = child.spec.start.as_str();
                        let Some((_, place)) = plans.get(word).and_then(|plan| plan.after.as_ref()) else { continue };
                        let text =
                            format!("[{word}] after: child {path} would wait for itself, by {}; drop one", seen[at]);
                        return Err(BadLine::new(place, text));
                    }
                    if !seen.contains(other) {
                        seen.push(other.clone());
                    }
                }
                at += 1;
            }
        }
        Ok(())
    }
}
