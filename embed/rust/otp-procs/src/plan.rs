//! The file of commands: what each start word of the tree runs, and how.

use crate::groups::Shares;
use crate::keys::Keys;
use crate::os;
use crate::rotate::Rotation;
use crate::socket::Form;
use crate::subset::{BadLine, Entry, Place, Table, Value};
use crate::who::{Who, value_of};
use crate::words::time_of;
use std::collections::{BTreeMap, BTreeSet};
use std::path::PathBuf;
use std::rc::Rc;

/// The keys of a table, in the order in which README tells them.
pub const KEYS: [&str; 40] = [
    "command",
    "folder",
    "env",
    "env_file",
    "clear_env",
    "user",
    "group",
    "groups",
    "umask",
    "nice",
    "limits",
    "no_new_privileges",
    "memory_max",
    "cpu_weight",
    "cpu_quota",
    "pids_max",
    "output",
    "output_file",
    "output_max",
    "output_keep",
    "output_socket",
    "errors",
    "errors_file",
    "ready",
    "ready_after",
    "ready_line",
    "notify_fd",
    "ready_within",
    "watchdog",
    "ready_blocks",
    "after",
    "autostart",
    "restart_after",
    "restart_always",
    "give_up_after",
    "on_give_up",
    "ignored_status",
    "normal_status",
    "signal",
    "signal_to",
];

/// Signals by which a process can be asked to shut down, with their numbers on Linux.
const SIGNALS: [(&str, i32); 8] = [
    ("HUP", os::SIGHUP),
    ("INT", os::SIGINT),
    ("QUIT", 3),
    ("KILL", os::SIGKILL),
    ("USR1", 10),
    ("USR2", 12),
    ("TERM", os::SIGTERM),
    ("WINCH", 28),
];

/// Milliseconds for which a start that tells of itself is waited for, where the file says nothing; and each until its program begins.
pub const READY_WITHIN: u64 = 60_000;

/// So many old files are kept where the file says nothing.
const KEPT_FILES: u64 = 5;

/// When a process counts as up.
#[derive(Clone, Debug, PartialEq, Eq)]
pub enum Ready {
    /// As soon as its program runs.
    Start,
    /// If it still runs after so many milliseconds.
    After(u64),
    /// Once a line of its output has this text in it.
    Line(String),
    /// Once it writes a line to this descriptor.
    Notify(i32),
    /// Once it tells so by the socket of `NOTIFY_SOCKET`, as under systemd.
    Systemd,
}

/// Where a process's output and errors go.
#[derive(Clone, Debug, PartialEq, Eq)]
pub enum Output {
    /// Where the daemon's go.
    Inherit,
    /// Nowhere.
    Null,
    /// Line by line into the daemon's log.
    Log,
    /// To the end of a file: by the process itself, or by the daemon, which begins it anew once it is too large.
    File(PathBuf, Option<Rotation>),
    /// To a socket of the system's log.
    Socket(Form, PathBuf),
}

/// To whom the signal is sent that asks a process to shut down. A kill always reaches the whole group.
#[derive(Clone, Copy, Debug, PartialEq, Eq)]
pub enum SignalTo {
    /// To all of its process group.
    Group,
    /// To the process alone.
    Process,
}

/// What becomes of a child that fails alone once it was started often enough.
#[derive(Clone, Copy, Debug, PartialEq, Eq)]
pub enum OnGiveUp {
    /// It is left down until a client starts it.
    Hold,
    /// Its supervisor is told the end as it was, and does what the rules say.
    Escalate,
}

/// How a child that fails alone is started again.
#[derive(Clone, Copy, Debug, PartialEq, Eq)]
pub struct Retry {
    /// After so many milliseconds the first time, and twice as many each time.
    pub first: u64,
    /// At the most.
    pub most: u64,
    /// Also after status 0.
    pub is_always: bool,
    /// So often in a row.
    pub give_up_after: Option<u32>,
    /// What is done after so many.
    pub on_give_up: OnGiveUp,
}

impl Retry {
    /// So long is waited after so many ends in a row, more or less: doubled each time.
    pub fn wait(&self, times: u32) -> u64 {
        self.first.saturating_mul(1 << times.saturating_sub(1).min(30)).min(self.most).max(1)
    }

    /// Whether it isn't started again after so many.
    pub fn gives_up_at(&self, times: u32) -> bool {
        self.give_up_after.is_some_and(|most| times > most)
    }
}

/// What a start word runs.
#[derive(Clone, Debug, PartialEq, Eq)]
pub struct Plan {
    /// The program and its arguments; at least the program.
    pub command: Vec<String>,
    /// The working folder; without one the daemon's.
    pub folder: Option<PathBuf>,
    /// Variables that are set.
    pub env: Vec<(String, String)>,
    /// A file of variables that is read at each start, and whether it may be missing.
    pub env_file: Option<(PathBuf, bool)>,
    /// None of the daemon's variables is passed on.
    pub clear_env: bool,
    /// As whom it runs, and within which limits.
    pub who: Who,
    /// What its control group may take.
    pub shares: Shares,
    /// Where the output goes.
    pub output: Output,
    /// Where the errors go, if not with the output.
    pub errors: Option<Output>,
    /// When it counts as up.
    pub ready: Ready,
    /// A start that takes more milliseconds has failed.
    pub ready_within: Option<u64>,
    /// Once it is up, it has to tell that it lives within so many milliseconds each time.
    pub watchdog: Option<u64>,
    /// Its supervisor goes on before it is ready.
    pub is_ready_later: bool,
    /// Those that have to be ready before it is started, and where the file says so.
    pub after: Option<(Vec<String>, Place)>,
    /// A client starts it, and not its supervisor; where the file says so.
    pub by_hand: Option<Place>,
    /// It fails alone, and is started again later, and where the file says so.
    pub retry: Option<Retry>,
    /// Where that stands.
    pub retry_place: Option<Place>,
    /// A start that ends with this status, before it is up, is ignored.
    pub ignored_status: Option<i32>,
    /// An end with one of these statuses is normal, as with 0.
    pub normal_status: Vec<i32>,
    /// The signal that asks it to shut down, with its name.
    pub signal: (&'static str, i32),
    /// Who gets that signal.
    pub signal_to: SignalTo,
    /// Where its table begins.
    pub place: Place,
    /// Its keys as the files have them, those of its template among them.
    pub said: BTreeMap<String, Value>,
}

/// Keys that count at once for a process that runs; the others are of its start.
pub const AT_ONCE: [&str; 7] =
    ["after", "autostart", "restart_after", "restart_always", "give_up_after", "on_give_up", "normal_status"];

impl Plan {
    /// The keys that differ in another plan, or stand in one of them alone.
    pub fn changes(&self, other: &Plan) -> BTreeSet<String> {
        let keys = self.said.keys().chain(other.said.keys());
        keys.filter(|key| self.said.get(*key) != other.said.get(*key)).cloned().collect()
    }

    /// Whether a process of this plan runs otherwise than one of another plan would.
    pub fn runs_otherwise(&self, other: &Plan) -> bool {
        self.changes(other).iter().any(|key| !AT_ONCE.contains(&key.as_str()))
    }

    /// The plan of a process that goes on, with what counts at once of a newer one.
    pub fn at_once(&self, newer: &Plan) -> Plan {
        let is_late = |(key, _): &(&String, &Value)| !AT_ONCE.contains(&key.as_str());
        let said = self.said.iter().filter(is_late).chain(newer.said.iter().filter(|entry| !is_late(entry)));
        Plan {
            after: newer.after.clone(),
            by_hand: newer.by_hand.clone(),
            normal_status: newer.normal_status.clone(),
            retry: newer.retry,
            retry_place: newer.retry_place.clone(),
            said: said.map(|(key, value)| (key.clone(), value.clone())).collect(),
            ..self.clone()
        }
    }

    /// Whether the daemon reads what a process writes.
    pub fn is_read(&self) -> bool {
        let is_piped = |output: &Output| matches!(output, Output::Log | Output::Socket(..) | Output::File(_, Some(_)));
        is_piped(&self.output) || self.errors.as_ref().is_some_and(is_piped) || matches!(self.ready, Ready::Line(_))
    }
}

impl Plan {
    /// Whether a process counts as up as soon as its program runs.
    pub fn is_up_at_once(&self) -> bool {
        self.ready == Ready::Start || self.is_ready_later
    }

    /// Whether a process tells of itself by the socket of `NOTIFY_SOCKET`.
    pub fn has_socket(&self) -> bool {
        self.ready == Ready::Systemd || self.watchdog.is_some()
    }
}

/// What each start word runs.
pub type Plans = BTreeMap<String, Rc<Plan>>;

/// What a table says.
pub fn of_table(table: &Table) -> Result<Plan, BadLine> {
    let keys = Keys::of(table);
    if otp_supervision::Name::new(&table.name).is_err() {
        return keys.bad(&table.place, "is no start word: those have 1 to 32 of a-z A-Z 0-9 _ - .");
    }
    plan_of(&keys)
}

/// What the keys of a start word say, wherever they have stood.
pub fn of_said(word: &str, said: &BTreeMap<String, Value>) -> Result<Plan, BadLine> {
    let place = Place { file: format!("[{word}]").into(), line: 0 };
    let entry =
        |(key, value): (&String, &Value)| Entry { key: key.clone(), place: place.clone(), value: value.clone() };
    let entries = said.iter().map(entry).collect();
    of_table(&Table { name: word.to_string(), place: place.clone(), entries, is_template: false, instance: None })
}

/// The plans of a text without templates.
#[cfg(test)]
pub fn read(file: &str, text: &str) -> Result<Plans, BadLine> {
    let tables = crate::subset::read(file, text)?.tables;
    tables.iter().map(|table| Ok((table.name.clone(), Rc::new(of_table(table)?)))).collect()
}

fn plan_of(keys: &Keys<'_>) -> Result<Plan, BadLine> {
    keys.only(&KEYS)?;
    let command = match keys.texts("command")? {
        Some((_, words)) if words.first().is_some_and(|program| !program.is_empty()) => words.to_vec(),
        Some((place, _)) => return keys.bad(place, "command names a program, as [\"httpd\", \"-p\", \"80\"]"),
        None => {
            let text = "has no command; write command = [\"PROGRAM\", \"ARGUMENT\", ..]";
            return keys.bad(keys.head(), text);
        }
    };
    let ready = ready_of(keys)?;
    Ok(Plan {
        command,
        folder: keys.text("folder")?.map(|(_, text)| PathBuf::from(text)),
        env: env_of(keys)?,
        env_file: env_file_of(keys)?,
        clear_env: keys.truth("clear_env")?,
        who: Who::of(keys)?,
        shares: Shares::of(keys)?,
        output: output_of(keys)?.0,
        errors: output_of(keys)?.1,
        ready_within: within_of(keys, &ready)?,
        ready,
        watchdog: keys.within("watchdog", 1, i64::from(u32::MAX))?.map(|time| time as u64),
        is_ready_later: !keys.truth_or("ready_blocks", true)?,
        after: keys.texts("after")?.map(|(place, names)| (names.to_vec(), place.clone())),
        by_hand: match keys.find("autostart") {
            Some(entry) if !keys.truth("autostart")? => Some(entry.place.clone()),
            _ => None,
        },
        retry: retry_of(keys)?,
        retry_place: keys.find("restart_after").map(|entry| entry.place.clone()),
        ignored_status: keys.number("ignored_status", 255)?.map(|status| status as i32),
        normal_status: statuses_of(keys)?,
        signal: signal_of(keys)?,
        signal_to: match keys.text("signal_to")? {
            None | Some((_, "group")) => SignalTo::Group,
            Some((_, "process")) => SignalTo::Process,
            Some((place, _)) => return keys.bad(place, "signal_to is \"group\" or \"process\""),
        },
        place: keys.head().clone(),
        said: keys.said(),
    })
}

fn env_of(keys: &Keys<'_>) -> Result<Vec<(String, String)>, BadLine> {
    let Some((place, texts)) = keys.texts("env")? else {
        return Ok(Vec::new());
    };
    let mut env = Vec::new();
    for text in texts {
        match text.split_once('=') {
            Some((name, value)) if !name.is_empty() => env.push((name.to_string(), value.to_string())),
            _ => return keys.bad(place, format!("env has strings NAME=VALUE, and {text:?} is none")),
        }
    }
    Ok(env)
}

/// As systemd has it, a `-` in front says that the file may be missing.
fn env_file_of(keys: &Keys<'_>) -> Result<Option<(PathBuf, bool)>, BadLine> {
    let Some((place, text)) = keys.text("env_file")? else { return Ok(None) };
    let bare = text.strip_prefix('-');
    match bare.unwrap_or(text) {
        "" => keys.bad(place, "env_file is the path of a file, with - in front if it may be missing"),
        file => Ok(Some((PathBuf::from(file), bare.is_some()))),
    }
}

/// Where the output goes, and where the errors go if not with it.
fn output_of(keys: &Keys<'_>) -> Result<(Output, Option<Output>), BadLine> {
    let is = |key: &str, words: &[&str]| matches!(keys.text(key), Ok(Some((_, word))) if words.contains(&word));
    let to_file = is("output", &["file"]) || is("errors", &["file"]);
    let to_socket = ["output", "errors"].iter().any(|key| is(key, &["syslog", "journal"]));
    keys.only_with("output_file", is("output", &["file"]), "output = \"file\"")?;
    keys.only_with("errors_file", is("errors", &["file"]), "errors = \"file\"")?;
    keys.only_with("output_max", to_file, "output = \"file\"")?;
    keys.only_with("output_keep", keys.find("output_max").is_some(), "output_max")?;
    keys.only_with("output_socket", to_socket, "output = \"syslog\" or \"journal\"")?;
    let output = stream_of(keys, "output", "output_file")?.unwrap_or(Output::Inherit);
    let errors = if is("errors", &["same"]) { None } else { stream_of(keys, "errors", "errors_file")? };
    if let (Output::File(one, _), Some(Output::File(other, _)), Some(entry)) =
        (&output, &errors, keys.find("errors_file"))
        && one == other
    {
        return keys.bad(&entry.place, "errors_file is output_file; write errors = \"same\"");
    }
    Ok((output, errors))
}

fn stream_of(keys: &Keys<'_>, key: &str, file_key: &str) -> Result<Option<Output>, BadLine> {
    let Some((place, word)) = keys.text(key)? else { return Ok(None) };
    Ok(Some(match word {
        "inherit" => Output::Inherit,
        "null" => Output::Null,
        "log" => Output::Log,
        "file" => match keys.text(file_key)? {
            Some((_, file)) if !file.is_empty() => Output::File(PathBuf::from(file), rotation_of(keys)?),
            _ => return keys.bad(place, format!("{key} = \"file\" wants {file_key} = \"PATH\" too")),
        },
        "syslog" => Output::Socket(Form::Syslog, socket_of(keys, Form::Syslog)?),
        "journal" => Output::Socket(Form::Journal, socket_of(keys, Form::Journal)?),
        _ => {
            let same = if key == "errors" { "\"same\", " } else { "" };
            let words = format!("{same}\"inherit\", \"null\", \"log\", \"file\", \"syslog\" or \"journal\"");
            return keys.bad(place, format!("{key} is {words}"));
        }
    }))
}

fn rotation_of(keys: &Keys<'_>) -> Result<Option<Rotation>, BadLine> {
    let Some(entry) = keys.find("output_max") else { return Ok(None) };
    let most = match &entry.value {
        Value::Number(bytes) => u64::try_from(*bytes).ok(),
        Value::Text(text) => value_of(text),
        _ => None,
    };
    let Some(most) = most.filter(|most| (1..u64::MAX).contains(most)) else {
        return keys.bad(&entry.place, "output_max is a number of bytes, as \"10M\"");
    };
    let keep = keys.number("output_keep", 1000)?.unwrap_or(KEPT_FILES);
    Ok(Some(Rotation { most, keep: keep as u32 }))
}

fn socket_of(keys: &Keys<'_>, form: Form) -> Result<PathBuf, BadLine> {
    Ok(keys.text("output_socket")?.map_or_else(|| form.usual().into(), |(_, path)| path.into()))
}

fn ready_of(keys: &Keys<'_>) -> Result<Ready, BadLine> {
    let word = keys.text("ready")?;
    let is = |wanted: &str| matches!(word, Some((_, text)) if text == wanted);
    keys.only_with("ready_after", is("after"), "ready = \"after\"")?;
    keys.only_with("ready_line", is("line"), "ready = \"line\"")?;
    keys.only_with("notify_fd", is("notify"), "ready = \"notify\"")?;
    Ok(match word {
        None | Some((_, "start")) => Ready::Start,
        Some((place, "after")) => match keys.number("ready_after", u32::MAX)? {
            Some(time) => Ready::After(time),
            None => return keys.bad(place, "ready = \"after\" wants ready_after = MILLISECONDS too"),
        },
        Some((place, "line")) => match keys.text("ready_line")? {
            Some((_, text)) if !text.is_empty() => Ready::Line(text.to_string()),
            _ => return keys.bad(place, "ready = \"line\" wants ready_line = \"A TEXT OF THE LINE\" too"),
        },
        Some((_, "notify")) => match (keys.number("notify_fd", os::RESERVED as u32)?, keys.find("notify_fd")) {
            (None, _) => Ready::Notify(3),
            (Some(fd), _) if fd > 2 => Ready::Notify(fd as i32),
            (Some(_), entry) => {
                let place = entry.map_or(keys.head(), |entry| &entry.place);
                return keys.bad(place, "notify_fd is 3 to 9: 0 to 2 are the input, the output and the errors");
            }
        },
        Some((_, "sd_notify")) => Ready::Systemd,
        Some((place, _)) => {
            return keys.bad(place, "ready is \"start\", \"after\", \"line\", \"notify\" or \"sd_notify\"");
        }
    })
}

fn within_of(keys: &Keys<'_>, ready: &Ready) -> Result<Option<u64>, BadLine> {
    let tells = matches!(ready, Ready::Line(_) | Ready::Notify(_) | Ready::Systemd);
    keys.only_with("ready_within", tells, "ready = \"line\", \"notify\" or \"sd_notify\"")?;
    match keys.find("ready_within") {
        Some(Entry { value: Value::Text(text), .. }) if text == "infinity" => Ok(None),
        Some(_) => keys.number("ready_within", u32::MAX),
        None => Ok(tells.then_some(READY_WITHIN)),
    }
}

/// How one that fails alone is started again: a time, or the first and the last of those that grow.
fn retry_of(keys: &Keys<'_>) -> Result<Option<Retry>, BadLine> {
    let is_there = keys.find("restart_after").is_some();
    keys.only_with("restart_always", is_there, "restart_after")?;
    keys.only_with("give_up_after", is_there, "restart_after")?;
    keys.only_with("on_give_up", keys.find("give_up_after").is_some(), "give_up_after")?;
    let Some(entry) = keys.find("restart_after") else { return Ok(None) };
    let read = |text: &String| time_of(text).map(|time| time.as_millis() as u64);
    let times = match &entry.value {
        Value::Text(text) => read(text).map(|time| (time, time)),
        Value::Texts(texts) if texts.len() == 2 => read(&texts[0]).zip(read(&texts[1])),
        _ => None,
    };
    let Some((first, most)) = times.filter(|(first, most)| first <= most) else {
        let text = "restart_after is a time, or the first and the longest, as \"5s\" or [\"1s\", \"1m\"]";
        return keys.bad(&entry.place, text);
    };
    let on_give_up = match keys.text("on_give_up")? {
        None | Some((_, "hold")) => OnGiveUp::Hold,
        Some((_, "escalate")) => OnGiveUp::Escalate,
        Some((place, _)) => return keys.bad(place, "on_give_up is \"hold\" or \"escalate\""),
    };
    let give_up_after = keys.number("give_up_after", u32::MAX)?.map(|count| count as u32);
    Ok(Some(Retry { first, most, is_always: keys.truth("restart_always")?, give_up_after, on_give_up }))
}

/// Statuses besides 0 that are no error.
fn statuses_of(keys: &Keys<'_>) -> Result<Vec<i32>, BadLine> {
    let Some((place, texts)) = keys.texts("normal_status")? else { return Ok(Vec::new()) };
    let mut statuses = Vec::new();
    for text in texts {
        let Ok(status) = text.parse::<u8>() else {
            let text = format!("normal_status has strings with a status, as [\"2\", \"143\"], and {text:?} is none");
            return keys.bad(place, text);
        };
        statuses.push(i32::from(status));
    }
    Ok(statuses)
}

fn signal_of(keys: &Keys<'_>) -> Result<(&'static str, i32), BadLine> {
    let Some((place, text)) = keys.text("signal")? else {
        return Ok(("TERM", os::SIGTERM));
    };
    let name = text.strip_prefix("SIG").unwrap_or(text);
    if let Some(found) = SIGNALS.iter().find(|(known, _)| *known == name) {
        Ok(*found)
    } else {
        let known: Vec<&str> = SIGNALS.iter().map(|(known, _)| *known).collect();
        keys.bad(place, format!("signal is one of {}", known.join(", ")))
    }
}

#[cfg(test)]
mod tests {
    use super::*;

    #[test]
    fn defaults_are_those_of_readme() {
        let plans = read("f", "[web]\ncommand = [\"httpd\"]\n").unwrap();
        let plan = &plans["web"];
        assert_eq!(plan.command, ["httpd"]);
        assert_eq!((plan.signal, plan.signal_to), (("TERM", 15), SignalTo::Group));
        assert_eq!((&plan.output, &plan.ready, plan.ready_within), (&Output::Inherit, &Ready::Start, None));
        assert!(plan.folder.is_none() && plan.env.is_empty() && !plan.clear_env && plan.ignored_status.is_none());
    }

    #[test]
    fn every_key_is_read() {
        let text = "[a]\ncommand = ['x', 'y']\nfolder = '/'\nenv = ['A=b=c', 'D=']\nclear_env = true\noutput = 'file'\n\
                    output_file = '/tmp/x'\nready = 'notify'\nnotify_fd = 4\nready_within = 100\nignored_status = 7\n\
                    signal = 'SIGINT'\nsignal_to = 'process'\n[b]\ncommand = ['x']\nready = 'line'\nready_line = 'up'\n\
                    ready_within = 'infinity'\noutput = 'log'\n[c]\ncommand = ['x']\nready = 'after'\nready_after = 5\n\
                    autostart = false\nnormal_status = ['2', '143']\n";
        let plans = read("f", text).unwrap();
        let a = &plans["a"];
        assert_eq!(a.env, [("A".into(), "b=c".into()), ("D".into(), String::new())]);
        assert_eq!((&a.ready, a.ready_within), (&Ready::Notify(4), Some(100)));
        assert_eq!(a.output, Output::File("/tmp/x".into(), None));
        assert_eq!((a.signal, a.signal_to, a.ignored_status), (("INT", 2), SignalTo::Process, Some(7)));
        assert!(a.clear_env);
        assert_eq!((&plans["b"].ready, plans["b"].ready_within), (&Ready::Line("up".into()), None));
        let c = &plans["c"];
        assert_eq!((&c.ready, c.by_hand.is_some(), &c.normal_status[..]), (&Ready::After(5), true, &[2, 143][..]));
    }

    #[test]
    fn plans_are_compared_by_their_keys() {
        let plan = |lines: &str| read("f", &format!("[a]\ncommand = ['x']\n{lines}\n")).unwrap()["a"].clone();
        let (old, new) = (plan("umask = '027'\nrestart_after = '1s'"), plan("\nrestart_after = '2s'\nenv = ['A=b']"));
        let changes: Vec<String> = old.changes(&new).into_iter().collect();
        assert_eq!(changes, ["env", "restart_after", "umask"]);
        assert!(old.runs_otherwise(&new) && !plan("after = ['b']").runs_otherwise(&plan("")));
        // A process that runs is restarted as the newer one says, and runs as it has begun.
        let kept = old.at_once(&new);
        assert_eq!((kept.retry, kept.who.umask, kept.env.len()), (new.retry, Some(0o27), 0));
        assert_eq!(kept.changes(&new).into_iter().collect::<Vec<String>>(), ["env", "umask"]);
        // Its keys make the same plan elsewhere.
        let again = of_said("a", &new.said).unwrap();
        assert_eq!(Plan { place: new.place.clone(), retry_place: new.retry_place.clone(), ..again }, *new);
    }

    #[test]
    fn where_output_and_errors_go_is_read() {
        let plan = |lines: &str| read("f", &format!("[a]\ncommand = ['x']\n{lines}\n")).unwrap()["a"].clone();
        let rotation = |most, keep| Some(Rotation { most, keep });
        let found = plan("output = 'file'\noutput_file = 'o'\noutput_max = '10M'\nerrors = 'file'\nerrors_file = 'e'");
        assert_eq!(found.output, Output::File("o".into(), rotation(10 << 20, 5)));
        assert_eq!(found.errors, Some(Output::File("e".into(), rotation(10 << 20, 5))));
        let found = plan("output = 'syslog'\nerrors = 'same'");
        assert_eq!((&found.output, &found.errors), (&Output::Socket(Form::Syslog, "/dev/log".into()), &None));
        let found = plan("output = 'null'\nerrors = 'journal'\noutput_socket = 's'");
        assert_eq!(found.errors, Some(Output::Socket(Form::Journal, "s".into())));
        let found = plan("errors = 'file'\nerrors_file = 'e'\noutput_max = 5\noutput_keep = 0");
        assert_eq!(found.errors, Some(Output::File("e".into(), rotation(5, 0))));
    }

    #[test]
    fn each_fault_names_its_line() {
        for (lines, line) in [
            ("", 1),
            ("command = []", 2),
            ("command = ['']", 2),
            ("command = 'x'", 2),
            ("command = ['x']\nnonsense = 1", 3),
            ("command = ['x']\nenv = ['x']", 3),
            ("command = ['x']\nenv = ['=x']", 3),
            ("command = ['x']\noutput = 'file'", 3),
            ("command = ['x']\noutput_file = 'y'", 3),
            ("command = ['x']\noutput_max = 5", 3),
            ("command = ['x']\noutput = 'file'\noutput_file = 'x'\noutput_max = 'x'", 5),
            ("command = ['x']\noutput = 'file'\noutput_file = 'x'\noutput_max = 0", 5),
            ("command = ['x']\noutput = 'file'\noutput_file = 'x'\noutput_keep = 1", 5),
            ("command = ['x']\noutput_socket = 'x'", 3),
            ("command = ['x']\nerrors = 'all'", 3),
            ("command = ['x']\nerrors_file = 'x'", 3),
            ("command = ['x']\noutput = 'file'\noutput_file = 'x'\nerrors = 'file'\nerrors_file = 'x'", 6),
            ("command = ['x']\nrestart_after = 5", 3),
            ("command = ['x']\nrestart_after = ['1m', '1s']", 3),
            ("command = ['x']\nrestart_always = true", 3),
            ("command = ['x']\nrestart_after = '1s'\non_give_up = 'hold'", 4),
            ("command = ['x']\nrestart_after = '1s'\ngive_up_after = -1", 4),
            ("command = ['x']\nautostart = 1", 3),
            ("command = ['x']\nnormal_status = 2", 3),
            ("command = ['x']\nnormal_status = ['256']", 3),
            ("command = ['x']\nready_blocks = 1", 3),
            ("command = ['x']\nafter = 'x'", 3),
            ("command = ['x']\nready = 'after'", 3),
            ("command = ['x']\nready_line = 'y'", 3),
            ("command = ['x']\nready = 'notify'\nnotify_fd = 2", 4),
            ("command = ['x']\nready_within = 1", 3),
            ("command = ['x']\nsignal = 'STOP'", 3),
            ("command = ['x']\nsignal_to = 'all'", 3),
            ("command = ['x']\nclear_env = 1", 3),
            ("command = ['x']\nignored_status = 256", 3),
            ("command = [\"\\u0000\"]", 2),
        ] {
            assert_eq!(read("f", &format!("[a]\n{lines}\n")).map_err(|e| e.place.line), Err(line), "{lines}");
        }
        assert_eq!(read("f", "['a b']\ncommand = ['x']").map_err(|e| e.place.line), Err(1));
    }
}
