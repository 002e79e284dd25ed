//! Starts a process as its plan says.

use crate::beginning::{Beginning, told_by};
use crate::env_file;
use crate::groups::{Group, Groups};
use crate::mark;
use crate::notify::{self, Ear};
use crate::os::{self, Setup};
use crate::outlet::{Outlet, Stream};
use crate::plan::{Output, Plan, Ready};
use crate::program;
use crate::who::resource_name;
use otp_supervision::Reason;
use std::ffi::{OsStr, OsString};
use std::fs::File;
use std::io::{self, PipeReader};
use std::os::fd::{AsFd, AsRawFd, OwnedFd};
use std::os::unix::process::CommandExt;
use std::path::{Path, PathBuf};
use std::process::{Command, Stdio};
use std::time::Duration;

/// So long a start is waited for before others have their turn: most programs have begun by then.
const BEGINS_WITHIN: Duration = Duration::from_millis(500);

/// A process that was started, the leader of a process group of its own.
#[derive(Debug)]
pub struct Spawned {
    /// Its number in the system, which is also that of its group.
    pub pid: i32,
    /// By which it tells that its program has begun; nothing where it has.
    pub beginning: Option<Beginning>,
    /// Its output and errors, where the daemon reads them.
    pub outlets: Vec<Outlet>,
    /// On this it tells that it is up.
    pub notify: Option<PipeReader>,
    /// Its control group.
    pub group: Option<Group>,
    /// By which it tells of itself, as under systemd.
    pub ear: Option<Ear>,
}

/// Why no process was started.
#[derive(Debug)]
pub struct NotStarted {
    /// What the tree is told.
    pub reason: Reason,
    /// What the log says.
    pub text: String,
}

impl NotStarted {
    fn new(word: &str, text: String) -> Self {
        NotStarted { reason: Reason::error(word), text }
    }
}

/// What the processes of a run have in common.
#[derive(Clone, Copy, Debug)]
pub struct Common<'a> {
    /// By which they are known.
    pub mark: &'a OsStr,
    /// Their control groups.
    pub groups: Option<&'a Groups>,
}

/// Starts the process of a child, which finds its path, its number and the mark of its run among its variables. What may take long
/// is done by the process itself.
pub fn spawn(plan: &Plan, path: &str, number: u64, common: Common<'_>) -> Result<Spawned, NotStarted> {
    let (ends, mut outlets) = ends_of(plan, path)?;
    let ear = if plan.has_socket() { Some(Ear::new().map_err(|error| no_pipe(&error))?) } else { None };
    let group = match common.groups.map(|groups| groups.make(path, number, &plan.shares)).transpose() {
        Ok(group) => group,
        Err(error) => return Err(NotStarted::new("not_started", format!("there is no control group for it: {error}"))),
    };
    let mut setup = setup_of(plan);
    setup.cgroup = group.as_ref().map(Group::descriptor);
    let (notify, told) = if let Ready::Notify(to) = plan.ready {
        let (mine, theirs) = pipe()?;
        setup.notify = Some((theirs.as_raw_fd(), to));
        (Some(mine), Some(theirs))
    } else {
        (None, None)
    };
    let (variables, parent) = (own_variables(plan, path, number, common, ear.as_ref()), std::process::id());
    let begun = os::begin_child(|| told_by(&become_program(plan, variables, ends, setup, parent)));
    // The daemon's end of what the child writes to is closed, so that the end of the child's is seen; those of `ends` are, too.
    drop(told);
    let (pid, pipe) = begun.map_err(|error| refused(plan, &error))?;
    let mut beginning = Beginning::new(pipe);
    let told = beginning.wait(BEGINS_WITHIN);
    let beginning = told.is_none().then_some(beginning);
    if let Some(Err(why)) = told {
        os::wait_for(pid);
        return Err(why);
    }
    for outlet in &mut outlets {
        outlet.set_pid(pid);
    }
    Ok(Spawned { pid, beginning, outlets, notify, group, ear })
}

/// Becomes the program of a plan, in the child; what comes back says why it can't.
fn become_program(plan: &Plan, own: Variables, ends: Ends, setup: Setup, parent: u32) -> NotStarted {
    let made = command_of(plan, own).and_then(|mut command| {
        ends.give(&mut command)?;
        os::prepare_child(&mut command, setup, parent);
        Ok(command)
    });
    match made {
        Ok(mut command) => refused(plan, &command.exec()),
        Err(why) => why,
    }
}

/// Variables that a process has besides those of its plan.
type Variables = Vec<(&'static str, OsString)>;

/// The variables by which a process knows of itself, and of whom to tell.
fn own_variables(plan: &Plan, path: &str, number: u64, common: Common<'_>, ear: Option<&Ear>) -> Variables {
    let mut variables = vec![
        ("OTP_CHILD", path.into()),
        ("OTP_NUMBER", number.to_string().into()),
        (mark::VARIABLE, common.mark.to_owned()),
    ];
    if let Some(ear) = ear {
        variables.push(("NOTIFY_SOCKET", ear.variable().into()));
    }
    if let Some(time) = plan.watchdog {
        variables.push(("WATCHDOG_USEC", (time * 1000).to_string().into()));
    }
    variables
}

fn setup_of(plan: &Plan) -> Setup {
    let who = &plan.who;
    Setup {
        becomes: who.becomes.clone(),
        umask: who.umask,
        nice: who.nice,
        limits: who.limits.clone(),
        no_new_privileges: who.no_new_privileges,
        ..Setup::default()
    }
}

fn command_of(plan: &Plan, own: Variables) -> Result<Command, NotStarted> {
    let mut command = Command::new(&plan.command[0]);
    command.args(&plan.command[1..]).stdin(Stdio::null()).process_group(0);
    if let Some(folder) = &plan.folder {
        if !folder.is_dir() {
            return Err(NotStarted::new("no_folder", format!("there is no folder {}", folder.display())));
        }
        command.current_dir(folder);
    }
    if plan.clear_env {
        command.env_clear();
    }
    // The daemon's own manager hears of the daemon alone.
    for name in notify::VARIABLES {
        command.env_remove(name);
    }
    // As a login has them; what the plan sets is set afterwards.
    if let Some(user) = &plan.who.user {
        command.env("USER", &user.name).env("LOGNAME", &user.name).env("HOME", &user.home).env("SHELL", &user.shell);
    }
    match &plan.env_file {
        Some((file, true)) if !file.exists() => {}
        Some((file, _)) => {
            command.envs(env_file::read(file).map_err(|text| NotStarted::new("no_env_file", text))?);
        }
        None => {}
    }
    for (name, value) in &plan.env {
        command.env(name, value);
    }
    command.envs(own);
    Ok(command)
}

/// What a process writes to.
#[derive(Debug)]
enum End {
    /// What the daemon does.
    Inherited,
    /// This.
    Own(OwnedFd),
    /// The end of a file, which the process opens by itself.
    File(PathBuf),
}

impl End {
    fn open(self) -> Result<Option<OwnedFd>, NotStarted> {
        match self {
            End::Inherited => Ok(None),
            End::Own(end) => Ok(Some(end)),
            End::File(file) => Ok(Some(open_output(&file)?.into())),
        }
    }
}

/// Where the output goes, and where the errors do, if not with it.
#[derive(Debug)]
struct Ends {
    output: End,
    errors: Option<End>,
}

impl Ends {
    fn give(self, command: &mut Command) -> Result<(), NotStarted> {
        let output = self.output.open()?;
        let errors = match (self.errors, &output) {
            (Some(errors), _) => errors.open()?,
            (None, Some(output)) => Some(output.try_clone().map_err(|error| no_pipe(&error))?),
            (None, None) => None,
        };
        output.map(|end| command.stdout(end));
        errors.map(|end| command.stderr(end));
        Ok(())
    }
}

/// Says where the output and the errors go. They come through pipes where the daemon has to read them.
fn ends_of(plan: &Plan, path: &str) -> Result<(Ends, Vec<Outlet>), NotStarted> {
    let wanted = match &plan.ready {
        Ready::Line(text) => Some(text.as_str()),
        _ => None,
    };
    let mut outlets = Vec::new();
    let output = end_of(&plan.output, Stream::Output, path, wanted, &mut outlets)?;
    let errors = plan.errors.as_ref().map(|errors| end_of(errors, Stream::Errors, path, None, &mut outlets));
    Ok((Ends { output, errors: errors.transpose()? }, outlets))
}

fn end_of(
    output: &Output,
    stream: Stream,
    path: &str,
    wanted: Option<&str>,
    outlets: &mut Vec<Outlet>,
) -> Result<End, NotStarted> {
    match output {
        Output::Inherit if wanted.is_none() => Ok(End::Inherited),
        Output::Null if wanted.is_none() => {
            let null = File::options().write(true).open("/dev/null").map_err(|error| no_pipe(&error))?;
            Ok(End::Own(null.into()))
        }
        Output::File(file, None) if wanted.is_none() => Ok(End::File(file.clone())),
        _ => {
            let (mine, theirs) = pipe()?;
            outlets.push(Outlet::new(mine, stream, output, path, wanted)?);
            Ok(End::Own(theirs.into()))
        }
    }
}

/// The file that output goes to the end of. Who writes to it may have to wait, as a process expects.
pub fn open_output(file: &Path) -> Result<File, NotStarted> {
    let opened = os::append_to(file).and_then(|opened| os::may_wait(opened.as_fd()).map(|()| opened));
    opened.map_err(|error| no_output(file, &error))
}

/// A file that output should go to can't be opened.
pub fn no_output(file: &Path, error: &io::Error) -> NotStarted {
    NotStarted::new("no_output", format!("{} can't be opened: {error}", file.display()))
}

/// A pipe whose reading end never waits.
fn pipe() -> Result<(PipeReader, io::PipeWriter), NotStarted> {
    let made = io::pipe().and_then(|(mine, theirs)| {
        os::never_wait(mine.as_fd())?;
        Ok((mine, theirs))
    });
    made.map_err(|error| no_pipe(&error))
}

fn no_pipe(error: &io::Error) -> NotStarted {
    NotStarted::new("no_descriptor", format!("no pipe or descriptor: {error}"))
}

fn refused(plan: &Plan, error: &io::Error) -> NotStarted {
    if let Some((what, why)) = os::refused_step(error, resource_name) {
        return NotStarted::new("not_started", format!("{what}: {why}"));
    }
    let word = match error.kind() {
        io::ErrorKind::NotFound => "no_command",
        io::ErrorKind::PermissionDenied => "not_allowed",
        _ => "not_started",
    };
    let more = match (error.kind(), program::find(plan)) {
        // A script's first line may name what isn't there.
        (io::ErrorKind::NotFound, Some(file)) => {
            format!("; {} is there, but what it is to be run by is not", file.display())
        }
        _ => String::new(),
    };
    NotStarted::new(word, format!("{} doesn't start: {error}{more}", plan.command[0]))
}
