//! The tree goes on under the new files.
//!
//! The library does that: what both files have keeps its process, its number and its restarts, and what is new has no process until a
//! call starts it. So the log has one event for it, with the text of the new tree, and nothing else is told.

use crate::daemon::{Daemon, Seen, Untold, Waiter};
use crate::live::Live;
use crate::loading::Loaded;
use crate::log::{Class, Record};
use crate::reload::shape::{Shape, child_at};
use crate::reload::steps::{Steps, Target};
use crate::told::{CallKind, Told};
use otp_supervision::{Child, Name, Phase, Process, Restart, SupervisorId};
use std::collections::BTreeSet;

impl Daemon {
    /// The tree goes on under these files. Where that is refused it is as it was.
    pub(crate) fn change_tree(&mut self, loaded: &Loaded, steps: &Steps) -> Result<(), String> {
        self.tell_time();
        let over = self.over(&loaded.shapes, steps);
        self.look_at_restarts(self.tree.supervisors());
        let before: Vec<_> = self.tree.supervisors().filter_map(|number| self.tree.supervisor(number).ok()).collect();
        self.tree.change(&loaded.files.tree).map_err(|error| error.to_string())?;
        let from = if self.has_reloaded { None } else { Some(self.text.clone()) };
        let record = Record::new(Class::Event, "change").maybe("from_text", from);
        self.remark(record.text("tree_text", loaded.files.tree.as_str()));
        self.has_reloaded = true;
        let old_paths = self.lay_out_as(&loaded.shapes);
        self.move_past(&old_paths, &before);
        self.keeper.move_to(|(supervisor, id)| {
            let above = old_paths.get(supervisor.index())?;
            child_at(&loaded.shapes, &format!("{above}{id}"))
        });
        self.move_processes();
        let running: BTreeSet<&str> = self.live.values().map(|live| live.path.as_str()).collect();
        let is_known = |path: &str| running.contains(path) || child_at(&loaded.shapes, path).is_some();
        self.tails.rename(&[], is_known);
        self.tallies.retain(|path, _| is_known(path));
        for path in over {
            self.forget(&path);
        }
        Ok(())
    }

    /// Temporary children that have no process, and aren't started: by the rules they are forgotten, and not down.
    fn over(&self, new: &[Shape], steps: &Steps) -> Vec<String> {
        let mut over = Vec::new();
        for (number, old) in self.shapes.iter().enumerate() {
            let (number, found) = (SupervisorId::new(number as u32), new.iter().find(|shape| shape.path == old.path));
            let runs = self.tree.supervisor(number).is_ok_and(|found| found.phase == Phase::Runs);
            let Some(new) = found.filter(|new| runs && !new.is_simple() && !old.is_simple()) else { continue };
            let running = self.children_of(number).into_iter().filter(|child| child.number.is_some());
            let running: BTreeSet<Option<Name>> = running.map(|child| child.id).collect();
            let temporary = new.children.iter().filter(|child| child.spec.restart == Restart::Temporary);
            let down = temporary.filter(|child| !running.contains(&Some(child.spec.id)));
            let paths = down.map(|child| new.path_of(child));
            over.extend(paths.filter(|path| !steps.starts.contains(&Target::Child(path.clone()))));
        }
        over
    }

    /// The supervisors are those of other files from now on. The paths that they had are the answer.
    fn lay_out_as(&mut self, shapes: &[Shape]) -> Vec<String> {
        let nested = |shape: &Shape| shape.children.iter().filter_map(|child| child.nested).collect();
        self.nested = shapes.iter().map(nested).collect();
        let paths = shapes.iter().map(|shape| shape.path.clone()).collect();
        let old = std::mem::replace(&mut self.paths, paths);
        self.seen = self.tree.supervisors().map(|number| self.seen_now(number)).collect();
        self.is_opened = vec![false; self.paths.len()];
        self.tells_all();
        old
    }

    fn seen_now(&self, number: SupervisorId) -> Seen {
        self.tree.supervisor(number).map_or(Seen::default(), |now| Seen::of(&now))
    }

    /// Each process is a child of the supervisor that has its path now, with the start word that its child has now.
    fn move_processes(&mut self) {
        for supervisor in self.tree.supervisors() {
            for Child { id, spec, number, .. } in self.children_of(supervisor) {
                let Some(live) = number.and_then(|number| self.live.get_mut(&number)) else { continue };
                live.process = Process::new(supervisor, id, spec.start, live.process.number);
            }
        }
    }

    /// A temporary child is deleted, as the rules have it once it has ended.
    fn forget(&mut self, path: &str) {
        let Some((supervisor, id)) = self.child_of(path) else { return };
        let told = Told::Call(supervisor, CallKind::Delete(id));
        let record = told.record(path).text("by", "reload");
        let waiter = Waiter { tokens: Vec::new(), supervisor, ..Waiter::new(0, path) };
        self.untold.push_back(Untold { told, record, waiter: Some(waiter) });
    }

    /// A process that begins may be on its way into its folder, which is empty till then.
    pub(crate) fn clear_groups(&self) {
        if let Some(groups) = self.groups.as_ref().filter(|_| self.live.values().all(Live::has_begun)) {
            groups.clear();
        }
    }
}
