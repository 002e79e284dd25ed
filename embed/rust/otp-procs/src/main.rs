//! `otp-procs`: a supervisor of real processes. What is started, asked, killed and restarted is decided by the proved library
//! behind `otp_supervision`; this program starts, asks, kills and watches.
#![deny(unsafe_code, unsafe_op_in_unsafe_fn, missing_docs)]

mod asks;
mod beginning;
mod client;
mod control;
mod costs;
mod counted;
mod daemon;
mod deeds;
mod ends;
mod env_file;
mod files;
mod glob;
mod groups;
mod handover;
mod happenings;
mod help;
mod http;
mod keeper;
mod keys;
mod lines;
mod live;
mod loading;
mod log;
mod mark;
mod metrics;
mod named;
mod near;
mod needs;
mod notify;
mod os;
mod outlet;
mod output;
mod page;
mod past;
mod peer;
mod plan;
mod proc_files;
mod program;
mod record;
mod reload;
mod replay;
mod request;
mod requests;
mod rotate;
mod sections;
mod serve;
mod sink;
mod socket;
mod spawn;
mod split;
mod stand_in;
mod status;
mod strays;
mod subset;
mod tails;
mod told;
mod tree_file;
mod who;
mod words;

use crate::control::Control;
use crate::daemon::Daemon;
use crate::files::Files;
use crate::groups::Groups;
use crate::loading::{Loaded, Sources, fault_of};
use crate::log::{Class, Log, Record};
use crate::mark::Mark;
use crate::notify::Manager;
use crate::plan::Plans;
use crate::reload::steps::{self, Standing};
use crate::replay::Played;
use crate::words::{Ctl, Diff, Run, Words};
use otp_supervision::Tree;
use std::error::Error;
use std::fs;
use std::io::{self, Write};
use std::os::fd::OwnedFd;
use std::path::{Path, PathBuf};
use std::process::ExitCode;

/// A file is refused, or the daemon can't begin.
const REFUSED: u8 = 1;
/// So many bytes a log has at the most that is played again.
const MOST_LOG: u64 = 1 << 30;
/// The words are refused.
const MISUSED: u8 = 2;

fn main() -> ExitCode {
    let words = match words::read(std::env::args_os().skip(1)) {
        Ok(words) => words,
        Err(text) => {
            let _ = writeln!(io::stderr(), "otp-procs: {text}");
            return ExitCode::from(MISUSED);
        }
    };
    match serve(words) {
        Ok(status) => ExitCode::from(status),
        Err(error) => {
            let _ = writeln!(io::stderr(), "otp-procs: {error}");
            ExitCode::from(REFUSED)
        }
    }
}

fn serve(words: Words) -> Result<u8, Box<dyn Error>> {
    match words {
        Words::Print(text) => {
            io::stdout().write_all(text.as_bytes())?;
            Ok(0)
        }
        Words::Run(run) => run_tree(&run),
        Words::Check(tree, commands) => check(&tree, commands.as_deref()).map(|()| 0),
        Words::Diff(diff) => compare(&diff),
        Words::Show(tree) => {
            io::stdout().write_all(Files::read_tree(&tree)?.tree.as_bytes())?;
            Ok(0)
        }
        Words::Replay(tree, log, number) => replay_log(&tree, &log, number).map(|()| 0),
        Words::StandIn(tree) => stand_in(&tree).map(|()| 0),
        Words::Serve(folder, place) => serve::serve(folder.as_deref(), &place),
        Words::Ctl(Ctl { folder, line, goes_on, within }) => {
            Ok(client::ask(folder.as_deref(), &line, goes_on, within)?)
        }
    }
}

fn check(tree: &Path, commands: Option<&Path>) -> Result<(), Box<dyn Error>> {
    let loaded = Loaded::read(tree, commands)?;
    if let Some(lacking) = loaded.lacking() {
        return Err(lacking.into());
    }
    let Loaded { files, words, .. } = &loaded;
    let name = files.commands.display();
    let faults: Vec<String> = files.plans.iter().filter_map(|(word, plan)| fault_of(word, plan)).collect();
    if !faults.is_empty() {
        return Err(format!("{name}: {}", faults.join("; ")).into());
    }
    io::stdout().write_all(costs::text_of(&loaded)?.as_bytes())?;
    // Several trees may share a file of commands, so this is no fault.
    for word in files.plans.keys().filter(|word| !words.contains(*word)) {
        writeln!(io::stdout(), "{name}: [{word}] is run by no child of {}", tree.display())?;
    }
    Ok(())
}

/// Tells what a reload would do: asks the daemon, or compares with other files.
fn compare(diff: &Diff) -> Result<u8, Box<dyn Error>> {
    let Some(old) = &diff.old else {
        let whole = |file: &PathBuf| std::path::absolute(file).map(|file| request::word_of(&file));
        let mut line = format!("reload --dry-run{}", if diff.restarts { " --restart" } else { "" });
        line.push_str(&format!(" --files {}", whole(&diff.new.tree)?));
        if let Some(commands) = &diff.new.commands {
            line.push_str(&format!(" {}", whole(commands)?));
        }
        return Ok(client::ask(diff.folder.as_deref(), &line, false, Some(words::QUESTION))?);
    };
    let read = |files: &Sources| -> Result<Loaded, Box<dyn Error>> {
        let loaded = Loaded::read(&files.tree, files.commands.as_deref())?;
        loaded.lacking().map_or(Ok(loaded), |lacking| Err(lacking.into()))
    };
    let (old, new) = (read(old)?, read(&diff.new)?);
    let standing = Standing::of_new(&old.shapes);
    let steps = steps::steps_between(old.side(), new.side(), &standing, diff.restarts)
        .map_err(|text| format!("{}: {text}", diff.new.tree.display()))?;
    io::stdout().write_all(steps.text().as_bytes())?;
    Ok(0)
}

/// Plays a run of the log again: the one of this number, or else the last.
fn replay_log(tree: &Path, log: &Path, number: Option<usize>) -> Result<(), Box<dyn Error>> {
    let (text, name) = (files::text_up_to(log, MOST_LOG)?, log.display());
    let runs = replay::runs_of(&text);
    let number = number.unwrap_or(runs.len());
    let Some(run) = number.checked_sub(1).and_then(|index| runs.get(index)) else {
        return Err(format!("{name} has {} runs: there is no --run {number}", runs.len()).into());
    };
    let (first, last) = run.span();
    let which = match runs.len() {
        1 => String::new(),
        count => format!("run {number} of {count} (lines {first} to {last}): "),
    };
    let mut tree = match run.first_tree() {
        Some(text) => Tree::open(text)?,
        None => Files::read_tree(tree)?.open()?,
    };
    let played = replay::replay(&mut tree, run).map_err(|differs| format!("{name}: {which}{differs}"))?;
    let torn = if played.is_torn { "; its last line is cut off" } else { "" };
    let end = if played.has_ended { "" } else { "; the run has no end" };
    let Played { events, orders, reloads, .. } = played;
    let over = match reloads {
        0 => String::new(),
        1 => "; the trees before and after a reload are those of the log".to_string(),
        count => format!("; the trees before and after {count} reloads are those of the log"),
    };
    writeln!(io::stdout(), "{which}{events} events and {orders} orders, as the rules give them{over}{torn}{end}")?;
    Ok(())
}

/// The first line of a run: by what it was run, of what, and when.
fn began(run: &Run) -> Record {
    let whole = |file: &Path| std::path::absolute(file).unwrap_or_else(|_| file.to_path_buf()).display().to_string();
    let proc_file = |name: &str| fs::read_to_string(format!("/proc/{name}")).unwrap_or_default();
    let uptime: f64 =
        proc_file("uptime").split(' ').next().and_then(|seconds| seconds.parse().ok()).unwrap_or_default();
    Record::new(Class::Remark, "began")
        .text("version", env!("CARGO_PKG_VERSION"))
        .text("library", otp_supervision::LIBRARY_SUM)
        .text("tree", whole(&run.tree))
        .text("commands", whole(run.commands.as_ref().unwrap_or(&run.tree)))
        .number("pid", u64::from(std::process::id()))
        .text("boot", proc_file("sys/kernel/random/boot_id").trim())
        .number("uptime_ms", (uptime * 1000.0) as u64)
}

fn run_tree(run: &Run) -> Result<u8, Box<dyn Error>> {
    if let Some((fd, is_check)) = run.take_over {
        return take_over(run, fd, is_check);
    }
    let loaded = Loaded::read(&run.tree, run.commands.as_deref())?;
    if let Some(lacking) = loaded.refusal_of_files(run.main.as_deref()) {
        return Err(lacking.into());
    }
    let tree = loaded.files.open()?;
    let groups = run.cgroup.as_ref().map(Groups::open).transpose()?;
    if let Some(bad) = loaded.refusal_by(groups.as_ref()) {
        return Err(bad.into());
    }
    let (_reserved, signals) = set_up()?;
    let control = run.control.as_deref().map(Control::open).transpose()?;
    let (mut log, mark) = (log_of(run)?, mark_of(run)?);
    log.tell(0, &began(run));
    let Loaded { files, needs, shapes, .. } = loaded;
    let mut daemon = Daemon::new(tree, files.plans, mark, log, control, signals)?;
    (daemon.text, daemon.shapes) = (files.tree, shapes);
    daemon.groups = groups;
    daemon.keeper.after = needs.after;
    tell_of_run(&mut daemon, run);
    Ok(daemon.run())
}

/// What holds for the process itself: which descriptors and signals it has, and that it adopts orphans.
fn set_up() -> Result<(Vec<fs::File>, OwnedFd), String> {
    os::keep_descriptors()
        .map_err(|error| format!("/proc/self/fd can't be read, by which descriptors are kept: {error}"))?;
    os::raise_descriptors().map_err(|error| format!("the limit of descriptors can't be raised: {error}"))?;
    let reserved = os::reserve_descriptors().map_err(|error| format!("/dev/null can't be opened: {error}"))?;
    let signals =
        os::signals_as_descriptor().map_err(|error| format!("there is no descriptor for signals: {error}"))?;
    os::adopt_orphans().map_err(|error| format!("orphans can't be adopted: {error}"))?;
    Ok((reserved, signals))
}

fn log_of(run: &Run) -> Result<Log, String> {
    Log::open(run.log.as_deref(), run.rotation, run.is_json)
        .map_err(|error| format!("the log can't be opened: {error}"))
}

fn mark_of(run: &Run) -> Result<Mark, String> {
    let place = run.control.as_ref().unwrap_or(&run.tree);
    Mark::new(place).map_err(|error| format!("{}: {error}", place.display()))
}

/// The daemon is told what its words say.
fn tell_of_run(daemon: &mut Daemon, run: &Run) {
    daemon.manager = Manager::of_environment();
    daemon.main = run.main.as_ref().map(|path| path.trim_start_matches('/').to_string());
    daemon.sources = Some(run.sources());
    daemon.pages.title = run.tree.file_name().unwrap_or(run.tree.as_os_str()).to_string_lossy().into_owned();
}

/// Goes on where the program has stopped that this one replaces; or only reads what that has left.
fn take_over(run: &Run, fd: i32, is_check: bool) -> Result<u8, Box<dyn Error>> {
    let resumed = handover::resume::read(fd, &run.sources())?;
    if let Some(text) = resumed.loaded.refusal_of_files(run.main.as_deref()) {
        return Err(text.into());
    }
    if is_check {
        return Ok(0);
    }
    let (_reserved, signals) = set_up()?;
    let control = run.control.as_deref().zip(resumed.control());
    let control = control.and_then(|(folder, descriptors)| Control::left_by(folder, descriptors));
    let groups = resumed.cgroup().map(|folder| Groups::open(&groups::Wanted::Folder(folder))).transpose()?;
    let (tree, plans) = (resumed.loaded.files.open()?, resumed.loaded.files.plans.clone());
    let mut daemon = Daemon::new(tree, plans, mark_of(run)?, log_of(run)?, control, signals)?;
    daemon.groups = groups;
    tell_of_run(&mut daemon, run);
    daemon.resume(resumed)?;
    Ok(daemon.run())
}

/// Plays the daemon with stand-ins (`stand_in.rs`).
fn stand_in(file: &Path) -> Result<(), Box<dyn Error>> {
    let (tree, mut log) = (Files::read_tree(file)?.open()?, Log::open(None, None, true)?);
    log.tell(0, &stand_in::began());
    let daemon = Daemon::new(tree, Plans::default(), Mark::new(file)?, log, None, os::signals_as_descriptor()?)?;
    Ok(daemon.stand_in(io::stdin().lock())?)
}
