//! The files of a run, read and tested: for `check`, for a run, and for a reload of one.

use crate::env_file;
use crate::files::Files;
use crate::groups::Groups;
use crate::needs::Needs;
use crate::plan::{Output, Plan};
use crate::program;
use crate::reload::shape::{Shape, child_at, shapes_of};
use crate::reload::steps::{Side, Steps, Target};
use crate::subset::BadLine;
use otp_supervision::{Fault, Name, Order, Process, Reading, Strategy, Tree};
use std::collections::BTreeSet;
use std::error::Error;
use std::path::{Path, PathBuf};

/// The files of a run.
#[derive(Clone, Debug, PartialEq, Eq)]
pub struct Sources {
    /// The tree file.
    pub tree: PathBuf,
    /// The file of commands, where the tree file hasn't all of them.
    pub commands: Option<PathBuf>,
}

/// What they say.
#[derive(Debug)]
pub struct Loaded {
    /// The files as they were read.
    pub files: Files,
    /// The start words of the processes that the tree starts.
    pub words: BTreeSet<String>,
    /// Its children, and for whom they wait.
    pub needs: Needs,
    /// Its supervisors.
    pub shapes: Vec<Shape>,
}

impl Loaded {
    /// Reads the files. A tree of them is opened in which each start succeeds: the word of a child with a tree starts none. What the
    /// plans say of its children is looked at, too, and by whom each has to wait.
    pub fn read(tree: &Path, commands: Option<&Path>) -> Result<Self, Box<dyn Error>> {
        Loaded::of(Files::read(tree, commands)?)
    }

    /// What these files say.
    pub fn of(files: Files) -> Result<Self, Box<dyn Error>> {
        let mut tree = files.open()?;
        let mut words = BTreeSet::new();
        let mut take = |process: &Process| {
            words.insert(process.start.to_string());
        };
        start_all(&mut tree, &mut take)?;
        let needs = Needs::of(&mut tree, &files.plans)?;
        start_one_each(&mut tree)?;
        start_all(&mut tree, take)?;
        let shapes = shapes_of(&tree)?;
        Ok(Loaded { files, words, needs, shapes })
    }

    /// As it is compared with others.
    pub fn side(&self) -> Side<'_> {
        Side { shapes: &self.shapes, plans: &self.files.plans }
    }

    /// The start words of what is started: of a supervisor those of the processes below it.
    fn words_of(&self, target: &Target) -> Vec<Name> {
        let child = match target {
            Target::Child(path) => {
                child_at(&self.shapes, path).and_then(|(supervisor, id)| self.shapes[supervisor.index()].find(id))
            }
            Target::Processes(path) => {
                self.shapes.iter().find(|shape| shape.path == *path).and_then(|shape| shape.children.first())
            }
        };
        let (mut words, mut pending) = (Vec::new(), Vec::from_iter(child));
        while let Some(child) = pending.pop() {
            match child.nested.map(|nested| &self.shapes[nested.index()]) {
                // It begins with no process.
                Some(shape) if shape.is_simple() => {}
                Some(shape) => pending.extend(shape.children.iter().rev()),
                None => words.push(child.spec.start),
            }
        }
        words
    }

    /// What is missing on this machine of what is to be started. One that is started again and again may wait for it.
    pub fn missing(&self, steps: &Steps) -> Option<BadLine> {
        let words = steps.starts.iter().flat_map(|target| self.words_of(target));
        let plans = words.filter_map(|word| self.files.plans.get(word.as_str()).map(|plan| (word, plan)));
        let mut plans = plans.filter(|(_, plan)| plan.retry.is_none());
        plans.find_map(|(word, plan)| Some(BadLine::new(&plan.place, fault_of(word.as_str(), plan)?)))
    }

    /// The start words for which the file of commands has no table.
    pub fn lacking(&self) -> Option<String> {
        let plans = &self.files.plans;
        let lacking: Vec<String> = self.words.iter().filter(|word| !plans.contains_key(*word)).cloned().collect();
        let (first, file) = (lacking.first()?, self.files.commands.display());
        Some(format!("{file} has no table for {}; write [{first}] and its command", lacking.join(", ")))
    }

    /// Why the files can't be run for a process of this path, or for all, if they can't.
    pub fn refusal_of_files(&self, main: Option<&str>) -> Option<String> {
        match main.filter(|path| !self.needs.is_worker(path)) {
            Some(path) => {
                Some(format!("--main {path}: there is no such child with a process; otp-procs ctl status prints all"))
            }
            None => self.lacking(),
        }
    }

    /// Why this user can't run them, with these control groups.
    pub fn refusal_by(&self, groups: Option<&Groups>) -> Option<BadLine> {
        self.files.plans.values().find_map(|plan| plan.who.refusal().or(plan.shares.refusal(groups)))
    }
}

/// Each start succeeds at once.
pub fn start_all(tree: &mut Tree, mut take: impl FnMut(&Process)) -> Result<(), Fault> {
    while let Some(order) = tree.next_order()? {
        let Order::Start(process) = order else { continue };
        tree.up(Reading::ZERO, &process)?;
        take(&process);
    }
    Ok(())
}

/// Each `simple_one_for_one` is to start one process.
pub fn start_one_each(tree: &mut Tree) -> Result<(), Fault> {
    for number in tree.supervisors() {
        if tree.supervisor(number)?.strategy == Strategy::SimpleOneForOne {
            tree.start_dynamic(Reading::ZERO, number)?;
        }
    }
    Ok(())
}

/// What is missing on this machine now that the plan of a start word needs. A start would fail by it.
pub fn fault_of(word: &str, plan: &Plan) -> Option<String> {
    if let Some(folder) = plan.folder.as_ref().filter(|folder| !folder.is_dir()) {
        return Some(format!("[{word}] there is no folder {}", folder.display()));
    }
    for (output, key) in [(Some(&plan.output), "output_file"), (plan.errors.as_ref(), "errors_file")] {
        let Some(Output::File(file, _)) = output else { continue };
        let folder = file.parent().filter(|folder| !folder.as_os_str().is_empty());
        if file.is_dir() || folder.is_some_and(|folder| !folder.is_dir()) {
            return Some(format!("[{word}] there can be no {key} {}", file.display()));
        }
    }
    if let Some((file, may_be_missing)) = &plan.env_file
        && (!*may_be_missing || file.exists())
        && let Err(text) = env_file::read(file)
    {
        return Some(format!("[{word}] env_file {text}"));
    }
    (!program::can_be_found(plan)).then(|| format!("[{word}] there is no program {}", plan.command[0]))
}
