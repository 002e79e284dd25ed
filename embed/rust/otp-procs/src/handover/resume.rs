//! The program that has replaced another one goes on with what that has left: it opens the tree over the processes that run.

use crate::daemon::Daemon;
use crate::files::Files;
use crate::handover::reopen::{Opened, Processes, open_over};
use crate::handover::{Handover, Said};
use crate::keeper::Kept;
use crate::live::Live;
use crate::loading::{Loaded, Sources};
use crate::log::{Class, Record};
use crate::notify;
use crate::os;
use crate::past::Past;
use crate::plan::{self, Plan, Plans};
use crate::reload::shape::child_at;
use crate::stand_in::Clock;
use otp_supervision::{Name, Process, ProcessId, SupervisorId};
use std::error::Error;
use std::fs::File;
use std::io::{Read, Seek};
use std::os::fd::RawFd;
use std::os::unix::process::ExitStatusExt;
use std::process::ExitStatus;
use std::rc::Rc;
use std::time::{Duration, Instant};

/// What an earlier program has left, read and tested.
#[derive(Debug)]
pub struct Resumed {
    left: Handover,
    /// The files that it ran.
    pub loaded: Loaded,
    opened: Opened,
    plans: Vec<Rc<Plan>>,
}

/// What was left in this descriptor.
pub fn read(fd: RawFd, sources: &Sources) -> Result<Resumed, Box<dyn Error>> {
    let mut file = File::from(os::left_open(fd).ok_or("--take-over is the daemon's own: it names a descriptor")?);
    file.rewind()?;
    let mut text = String::new();
    file.read_to_string(&mut text)?;
    let left = Handover::read(&text).ok_or("what the earlier program left can't be read")?;
    let plan_of =
        |word: &str, said: &Said| -> Result<Rc<Plan>, Box<dyn Error>> { Ok(plan::of_said(word, said)?.into()) };
    let mut plans = Plans::new();
    for (word, said) in &left.tables {
        plans.insert(word.clone(), plan_of(word, said)?);
    }
    let loaded = Loaded::of(Files::of_run(sources, left.tree.clone(), plans))?;
    let plans =
        left.processes.iter().map(|process| plan_of(&process.start, &process.plan)).collect::<Result<_, _>>()?;
    let mut processes = Processes::default();
    processes.supervisors.extend(left.supervisors.iter().cloned());
    for process in &left.processes {
        let number = ProcessId::new(process.number);
        match &process.above {
            None => drop(processes.by_path.insert(process.path.clone(), number)),
            Some(above) => processes.shared.entry(above.clone()).or_default().push_back(number),
        }
    }
    let restarted = left.past.iter().map(|(path, _, times)| (path.clone(), times.clone())).collect();
    let opened = open_over(&loaded, processes, &restarted, left.reading)?;
    Ok(Resumed { left, loaded, opened, plans })
}

impl Resumed {
    /// The descriptors of the control socket, of its lock, and of the client that waits.
    pub fn control(&self) -> Option<[RawFd; 3]> {
        self.left.control
    }

    /// The folder of the control groups.
    pub fn cgroup(&self) -> Option<std::path::PathBuf> {
        self.left.cgroup.clone()
    }
}

impl Daemon {
    /// Goes on where an earlier program has stopped.
    pub fn resume(&mut self, resumed: Resumed) -> Result<(), Box<dyn Error>> {
        let Resumed { left, loaded, opened, plans } = resumed;
        notify::begin_ears_at(left.ears);
        let since = left.monotonic.map_or(0, |then| os::monotonic_microseconds().saturating_sub(then));
        let begun = Duration::from_millis(left.reading) + Duration::from_micros(since);
        let begun = Instant::now().checked_sub(begun);
        self.clock = Clock::System(begun.ok_or("the clock is younger than the daemon")?);
        self.reading = left.reading;
        (self.is_ready, self.is_resumed, self.has_more_ends) = (true, true, true);
        self.has_reloaded = left.has_reloaded;
        self.main_status = left.main_status.map(ExitStatus::from_raw);
        self.unstarted.extend(left.unstarted.iter().cloned());
        for (process, plan) in left.processes.iter().zip(plans) {
            let (number, start) = (ProcessId::new(process.number), Name::new(&process.start)?);
            let live = Live::left_by(process, Process::new(SupervisorId::ROOT, None, start, number), plan)?;
            self.live.insert(number, live);
        }
        for (path, times, due, is_held) in left.kept {
            if let Some(key) = child_at(&loaded.shapes, &path) {
                self.keeper.keep_on(key, Kept { times, due, is_held });
            }
        }
        let waiting: Vec<_> = left.waiting.iter().filter_map(|path| child_at(&loaded.shapes, path)).collect();
        self.keeper.wait_on(waiting);
        self.tallies.extend(left.tallies);
        self.log.had_lost(left.lost);
        left.tails.into_iter().for_each(|(path, bytes)| self.tails.add(&path, &bytes));
        self.remark(
            Record::new(Class::Remark, "replaced")
                .text("version", env!("CARGO_PKG_VERSION"))
                .text("library", otp_supervision::LIBRARY_SUM)
                .number("pid", u64::from(std::process::id())),
        );
        self.text.clone_from(&loaded.files.tree);
        self.take_over(opened, &loaded)?;
        for (path, counts, times) in left.past {
            let number = self.paths.iter().position(|known| *known == path);
            let Some(number) = number.map(|number| SupervisorId::new(number as u32)) else { continue };
            self.past[number.index()] = Past::going_on(counts, times, &self.tree.supervisor(number)?);
        }
        (self.shapes, self.keeper.after) = (loaded.shapes, loaded.needs.after);
        for process in self.live.values().map(|live| &live.process) {
            if let Some(id) = process.id {
                self.keeper.run_on(process.supervisor, id);
            }
        }
        if let Some(manager) = &self.manager {
            manager.tell(&format!("READY=1\nSTATUS={} processes are up", self.live.len()));
        }
        let (version, pid, count) = (env!("CARGO_PKG_VERSION"), std::process::id(), self.live.len());
        let text = format!("otp-procs {version} goes on as process {pid}, with {count} processes\n");
        self.answer(crate::control::LEFT, Ok(&text));
        Ok(())
    }
}
