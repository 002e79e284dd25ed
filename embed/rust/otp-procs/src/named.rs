//! What a client has named, as `status` prints it: `web`, `pool/a`, `pool/` or `pool/#3`, also with a `/` in front.

use crate::daemon::Daemon;
use crate::near;
use otp_supervision::{Child, Name, ProcessId, Strategy, SupervisorId};

/// What was named.
#[derive(Clone, Copy, Debug, PartialEq, Eq)]
pub(crate) enum Named {
    /// A supervisor, by its number.
    Supervisor(SupervisorId),
    /// A child of a supervisor.
    Child(SupervisorId, Name),
    /// A process of a `simple_one_for_one`, by its number.
    Dynamic(SupervisorId, ProcessId),
}

fn nobody(path: &str, what: &str, known: &[String]) -> String {
    let near = near::question(path, known.iter().map(String::as_str));
    format!("{path}: there is {what}{near}; ctl status prints all names")
}

impl Daemon {
    /// What this path names.
    pub(crate) fn named(&mut self, path: &str) -> Result<Named, String> {
        let path = path.trim_start_matches('/');
        if let Some(number) = self.paths.iter().position(|known| known == path) {
            return Ok(Named::Supervisor(SupervisorId::new(number as u32)));
        }
        let (above, id) = path.rsplit_once('/').map_or(("", path), |(above, id)| (&path[..=above.len()], id));
        let Some(supervisor) = self.paths.iter().position(|known| known == above) else {
            let bare = path.trim_end_matches('/');
            if bare != path && matches!(self.named(bare), Ok(Named::Child(..))) {
                return Err(format!("{path}: there is no such supervisor: {bare} has no children; write {bare}"));
            }
            return Err(nobody(path, &format!("no such supervisor as {above}"), &self.paths));
        };
        let supervisor = SupervisorId::new(supervisor as u32);
        if let Some(number) = id.strip_prefix('#').and_then(|number| number.parse().ok()) {
            return Ok(Named::Dynamic(supervisor, ProcessId::new(number)));
        }
        let children = self.tree.children(supervisor).unwrap_or_default();
        let is_simple = self.strategy_of(supervisor) == Some(Strategy::SimpleOneForOne);
        if let Ok(id) = Name::new(id)
            && (is_simple || children.iter().any(|child| child.id == Some(id)))
        {
            return Ok(Named::Child(supervisor, id));
        }
        let ids: Vec<String> = children.iter().filter_map(|child| child.id.map(|id| format!("{above}{id}"))).collect();
        Err(nobody(path, "no such child", &ids))
    }

    pub(crate) fn strategy_of(&mut self, supervisor: SupervisorId) -> Option<Strategy> {
        self.tree.supervisor(supervisor).ok().map(|found| found.strategy)
    }

    /// A nested supervisor as its parent's child; the root is none.
    pub(crate) fn as_child(&mut self, supervisor: SupervisorId) -> Option<(SupervisorId, Name)> {
        let found = self.tree.supervisor(supervisor).ok().filter(|_| !supervisor.is_root())?;
        Some((found.parent, found.id?))
    }

    /// A supervisor that runs, with its number, by this path: its own, or that of the child that it is.
    pub(crate) fn running(&mut self, path: &str) -> Result<SupervisorId, String> {
        let number = match self.named(path)? {
            Named::Supervisor(number) => number,
            Named::Child(supervisor, id) => {
                self.child(supervisor, id).and_then(|child| child.nested).ok_or_else(|| {
                    format!("{path} is no supervisor, so it has no children; say the path of one, as / for the root")
                })?
            }
            Named::Dynamic(..) => return Err(format!("{path} is a process, and has no children")),
        };
        let is_down = !number.is_root() && self.tree.supervisor(number).is_ok_and(|found| found.process.is_none());
        if is_down { Err(format!("{path} is down; ctl start it first")) } else { Ok(number) }
    }

    /// A child by its id.
    pub(crate) fn child(&mut self, supervisor: SupervisorId, id: Name) -> Option<Child> {
        self.tree.children(supervisor).unwrap_or_default().into_iter().find(|child| child.id == Some(id))
    }
}
