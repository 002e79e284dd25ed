//! `ctl reexec`: the program of the daemon is replaced in place, by the one that has its name now. The process stays the same, so
//! the processes of the tree stay its own, and their descriptors open.

use crate::daemon::Daemon;
use crate::handover::{Handover, Left};
use crate::log::{Class, Record};
use crate::notify;
use crate::os;
use crate::past::Counts;
use otp_supervision::{Phase, ProcessId};
use std::env;
use std::ffi::{CString, OsString};
use std::io::{Read, Seek, Write};
use std::os::fd::{AsRawFd, RawFd};
use std::os::unix::ffi::OsStringExt;
use std::os::unix::process::ExitStatusExt;
use std::path::{Path, PathBuf};
use std::process::{Child, Command, Stdio};
use std::thread;
use std::time::{Duration, Instant};

/// The flag that names the descriptor of what was left.
pub const FLAG: &str = "--take-over";
/// The new program has so long to read what was left.
const READ_WITHIN: Duration = Duration::from_secs(10);
const PAUSE: Duration = Duration::from_millis(5);

/// The program that has the name by which this one was run.
fn program() -> Option<PathBuf> {
    let name = PathBuf::from(env::args_os().next()?);
    if name.as_os_str().as_encoded_bytes().contains(&b'/') {
        return Some(name);
    }
    let path = env::var_os("PATH")?;
    env::split_paths(&path).map(|folder| folder.join(&name)).find(|file| file.is_file())
}

/// The words by which this one was run, but for those of an earlier replacement.
fn own_words() -> Vec<OsString> {
    let mut words = Vec::new();
    let mut given = env::args_os();
    while let Some(word) = given.next() {
        if word == FLAG {
            given.next();
        } else {
            words.push(word);
        }
    }
    words
}

/// Has the new program read what is left, as a process of its own: one that can't changes nothing.
fn check(program: &Path, words: &[OsString]) -> Result<(), String> {
    let mut command = Command::new(program);
    command.args(&words[1..]).arg("--check").stdin(Stdio::null()).stdout(Stdio::null()).stderr(Stdio::piped());
    let name = program.display();
    let mut child = command.spawn().map_err(|error| format!("{name}: {error}"))?;
    let is_done = ends_within(&mut child, READ_WITHIN);
    if !is_done {
        let _ = child.kill();
    }
    let status = child.wait().map_err(|error| format!("{name}: {error}"))?;
    let mut told = String::new();
    if let Some(errors) = child.stderr.take() {
        let _ = errors.take(4096).read_to_string(&mut told);
    }
    match (is_done, status.success()) {
        (true, true) => Ok(()),
        (false, _) => Err(format!("{name} doesn't answer within {} s", READ_WITHIN.as_secs())),
        _ => Err(format!("{name} can't take over: {}", told.trim_end())),
    }
}

fn ends_within(child: &mut Child, time: Duration) -> bool {
    let begun = Instant::now();
    while begun.elapsed() < time {
        if matches!(child.try_wait(), Ok(Some(_)) | Err(_)) {
            return true;
        }
        thread::sleep(PAUSE);
    }
    false
}

impl Daemon {
    /// Whether all that is known of the processes can be handed over.
    pub(crate) fn can_be_handed_over(&self) -> bool {
        self.rests.is_empty() && self.live.values().all(|live| live.has_begun() && !live.has_unsent())
    }

    /// Replaces the program. What comes back says why that couldn't be done, and nothing has changed then.
    pub(crate) fn replace_program(&mut self, token: u64) -> String {
        let done = self.try_to_replace(token);
        done.map_or_else(|text| text, |never| match never {})
    }

    fn try_to_replace(&mut self, token: u64) -> Result<std::convert::Infallible, String> {
        let program = program().ok_or("the daemon's own program isn't known")?;
        let (left, descriptors) = self.hand_over(token)?;
        let mut file = os::memory_file().map_err(|error| format!("no file in memory: {error}"))?;
        let written = file.write_all(left.text().as_bytes()).and_then(|()| file.rewind());
        written.map_err(|error| format!("no file in memory: {error}"))?;
        let mut words = own_words();
        words.extend([FLAG.into(), file.as_raw_fd().to_string().into()]);
        os::stays_open(file.as_raw_fd(), true);
        check(&program, &words)?;
        self.remark(Record::new(Class::Remark, "replacing").text("program", program.display().to_string()));
        self.tell_followers();
        self.log.flush();
        for &fd in &descriptors {
            os::stays_open(fd, true);
        }
        os::lower_descriptors();
        let words: Result<Vec<CString>, _> = words.into_iter().map(|word| CString::new(word.into_vec())).collect();
        let path = CString::new(program.into_os_string().into_vec());
        let error = match (path, words) {
            (Ok(path), Ok(words)) => os::exec(&path, &words).to_string(),
            _ => "a word with a NUL in it".to_string(),
        };
        let _ = os::raise_descriptors();
        for &fd in &descriptors {
            os::stays_open(fd, false);
        }
        Err(error)
    }

    /// All that is left, and the descriptors that stay open.
    fn hand_over(&mut self, token: u64) -> Result<(Handover, Vec<RawFd>), String> {
        let mut left = Handover {
            reading: self.now(),
            monotonic: Some(os::monotonic_microseconds()),
            lost: self.log.all_lost(),
            tallies: self.tallies.iter().map(|(path, tally)| (path.clone(), tally.clone())).collect(),
            ears: notify::ears(),
            has_reloaded: self.has_reloaded,
            tree: self.text.clone(),
            tables: self.plans.iter().map(|(word, plan)| (word.clone(), plan.said.clone())).collect(),
            cgroup: self.groups.as_ref().map(|groups| groups.folder().to_path_buf()),
            control: self.control.as_ref().map(|control| control.descriptors(token)),
            main_status: self.main_status.map(ExitStatusExt::into_raw),
            unstarted: self.unstarted.iter().cloned().collect(),
            tails: self.tails.all(),
            ..Handover::default()
        };
        let kept = self.keeper.all_kept();
        left.kept = kept.map(|(key, kept)| (self.path_at(key), kept.times, kept.due, kept.is_held)).collect();
        left.waiting = self.keeper.all_waiting().map(|key| self.path_at(key)).collect();
        self.look_at_restarts(self.tree.supervisors());
        for number in self.tree.supervisors() {
            let above = self.paths[number.index()].clone();
            if let (Ok(now), Some(past)) = (self.tree.supervisor(number), self.past.get(number.index())) {
                let times = if now.phase == Phase::Runs { past.times_of(&now) } else { Vec::new() };
                left.past.push((above.clone(), Counts::of(&past.shown(now)), times));
            }
            for child in self.children_of(number) {
                let Some(process) = child.number else { continue };
                match child.id {
                    Some(id) if child.nested.is_some() => left.supervisors.push(format!("{above}{id}")),
                    id => left.processes.push(self.left_of(process, id.is_none().then(|| above.clone()))?),
                }
            }
        }
        let of_processes = left.processes.iter().flat_map(Left::descriptors);
        let descriptors = left.control.into_iter().flatten().chain(of_processes).filter(|&fd| fd >= 0).collect();
        Ok((left, descriptors))
    }

    fn left_of(&self, number: ProcessId, above: Option<String>) -> Result<Left, String> {
        let live = self.live.get(&number).ok_or_else(|| format!("process {number} isn't known"))?;
        let left = live.left().ok_or_else(|| format!("{} isn't up", live.path))?;
        Ok(Left { above, ..left })
    }
}

impl Left {
    fn descriptors(&self) -> Vec<RawFd> {
        let outlets = self.outlets.iter().map(|outlet| outlet.pipe);
        outlets.chain(self.ear.as_ref().map(|(fd, _)| *fd)).chain([self.notify]).collect()
    }
}
