//! A tree that is put together by a program, where no file says it.

use crate::fault::OpenError;
use crate::name::Name;
use crate::spec::{AutoShutdown, ChildSpec, Modules, Shutdown, Strategy};
use std::time::Duration;

/// What is made of a specification before it is written.
pub(crate) type Told<'a> = dyn FnMut(&ChildSpec) -> ChildSpec + 'a;

/// A supervisor with its children, from which [`Tree::of_draft`](crate::Tree::of_draft) opens a tree.
///
/// ```
/// use otp_supervision::{ChildSpec, Draft, Name, Order, Restart, Strategy, Tree};
/// use std::time::Duration;
///
/// let pool = Draft::new()
///     .strategy(Strategy::OneForAll)
///     .child(ChildSpec::worker(Name::new("a")?, Name::new("fetch")?).restart(Restart::Transient));
/// let draft = Draft::new()
///     .intensity(3, Duration::from_secs(10))
///     .child(ChildSpec::worker(Name::new("db")?, Name::new("postgres")?).shutdown(Duration::from_millis(2500)))
///     .supervisor(Name::new("pool")?, pool);
/// let mut tree = Tree::of_draft(&draft)?;
/// let Some(Order::Start(db)) = tree.next_order()? else { panic!() };
/// assert!(db.id.is_some_and(|id| id == "db") && db.start == "postgres");
/// # Ok::<(), Box<dyn std::error::Error>>(())
/// ```
#[derive(Clone, Debug, PartialEq, Eq)]
pub struct Draft {
    pub(crate) strategy: Strategy,
    pub(crate) intensity: u64,
    pub(crate) period: Duration,
    pub(crate) auto_shutdown: AutoShutdown,
    pub(crate) children: Vec<Member>,
}

/// A child, with the tree below it.
#[derive(Clone, Debug, PartialEq, Eq)]
pub(crate) struct Member {
    pub(crate) spec: ChildSpec,
    pub(crate) tree: Option<Draft>,
}

impl Default for Draft {
    fn default() -> Self {
        Draft::new()
    }
}

impl Draft {
    /// OTP's defaults: `one_for_one`, one restart in five seconds, no automatic shutdown; and no child.
    pub fn new() -> Self {
        Draft {
            strategy: Strategy::OneForOne,
            intensity: 1,
            period: Duration::from_secs(5),
            auto_shutdown: AutoShutdown::Never,
            children: Vec::new(),
        }
    }

    /// Which children are restarted with one that has to be.
    #[must_use]
    pub fn strategy(mut self, strategy: Strategy) -> Self {
        self.strategy = strategy;
        self
    }

    /// So many restarts are allowed within a period, of whole seconds.
    #[must_use]
    pub fn intensity(mut self, restarts: u64, period: Duration) -> Self {
        (self.intensity, self.period) = (restarts, period);
        self
    }

    /// Whether significant children end it.
    #[must_use]
    pub fn auto_shutdown(mut self, when: AutoShutdown) -> Self {
        self.auto_shutdown = when;
        self
    }

    /// One more child, behind those that it has: so they are started in this order.
    #[must_use]
    pub fn child(mut self, spec: ChildSpec) -> Self {
        self.children.push(Member { spec, tree: None });
        self
    }

    /// One more child, which is a supervisor of the tree itself. Its start word is its id.
    #[must_use]
    pub fn supervisor(self, id: Name, tree: Draft) -> Self {
        let mut spec = ChildSpec::worker(id, id);
        (spec.kind, spec.shutdown) = (crate::Kind::Supervisor, Shutdown::Infinity);
        self.supervisor_as(spec, tree)
    }

    /// Adds a supervisor with this draft, by a specification of one's own.
    #[must_use]
    pub fn supervisor_as(mut self, spec: ChildSpec, tree: Draft) -> Self {
        self.children.push(Member { spec, tree: Some(tree) });
        self
    }

    /// The tree file that says it. It has no numbers of the caller's own.
    ///
    /// # Errors
    /// [`OpenError::Period`], where a period isn't whole seconds.
    pub fn to_toml(&self) -> Result<String, OpenError> {
        self.to_toml_with(&mut Clone::clone)
    }

    /// The tree file in which each specification is what this makes of it.
    pub(crate) fn to_toml_with(&self, told: &mut Told<'_>) -> Result<String, OpenError> {
        let mut text = String::new();
        self.write("", &mut text, told)?;
        Ok(text)
    }

    /// Writes the keys of the table at this place, with the tables of its children.
    fn write(&self, at: &str, text: &mut String, told: &mut Told<'_>) -> Result<(), OpenError> {
        if self.period.subsec_nanos() != 0 {
            return Err(OpenError::Period);
        }
        let (strategy, intensity, period) = (self.strategy, self.intensity, self.period.as_secs());
        text.push_str(&format!("strategy = \"{strategy}\"\nintensity = {intensity}\nperiod = {period}\n"));
        text.push_str(&format!("auto_shutdown = \"{}\"\n", self.auto_shutdown));
        for Member { spec, tree } in &self.children {
            text.push_str(&format!("\n[[{at}child]]\n"));
            write_child(&told(spec), text);
            if let Some(tree) = tree {
                text.push_str(&format!("\n[{at}child.tree]\n"));
                tree.write(&format!("{at}child.tree."), text, told)?;
            }
        }
        Ok(())
    }
}

/// Writes the keys of a child.
fn write_child(spec: &ChildSpec, text: &mut String) {
    let ChildSpec { id, start, tag: _, restart, significant, shutdown, kind, modules } = spec;
    text.push_str(&format!(
        "id = \"{id}\"\nstart = \"{start}\"\nrestart = \"{restart}\"\nsignificant = {significant}\n"
    ));
    match shutdown {
        Shutdown::Within(_) => text.push_str(&format!("shutdown = {shutdown}\n")),
        Shutdown::BrutalKill | Shutdown::Infinity => text.push_str(&format!("shutdown = \"{shutdown}\"\n")),
    }
    let modules = match modules {
        Modules::Dynamic => "\"dynamic\"".to_string(),
        Modules::Named(names) => {
            let names: Vec<String> = names.iter().map(|name| format!("\"{name}\"")).collect();
            format!("[{}]", names.join(", "))
        }
    };
    text.push_str(&format!("type = \"{kind}\"\nmodules = {modules}\n"));
}
