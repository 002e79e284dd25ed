//! The words that the program is given.

use crate::control::usual_folder;
use crate::groups::Wanted;
use crate::help;
use crate::loading::Sources;
use crate::near;
use crate::request;
use crate::rotate::Rotation;
use crate::serve::place::Place;
use crate::who::value_of;
use std::collections::BTreeMap;
use std::ffi::OsString;
use std::path::PathBuf;
use std::time::Duration;

/// What is to be done.
#[derive(Clone, Debug, PartialEq, Eq)]
pub enum Words {
    /// Run a tree.
    Run(Run),
    /// Look whether the files can be read.
    Check(PathBuf, Option<PathBuf>),
    /// Tell what a reload would do.
    Diff(Diff),
    /// Print the tree of a file, as the library reads it.
    Show(PathBuf),
    /// Play a log again: its last run, or the one of this number.
    Replay(PathBuf, PathBuf, Option<usize>),
    /// Play a tree with stand-ins: a door for tests.
    StandIn(PathBuf),
    /// Ask a daemon for something.
    Ctl(Ctl),
    /// Serve the page of the daemon of this folder, if one was named.
    Serve(Option<PathBuf>, Place),
    /// Print this text.
    Print(String),
}

/// Which files are compared with which.
#[derive(Clone, Debug, PartialEq, Eq)]
pub struct Diff {
    /// The new files.
    pub new: Sources,
    /// The files that they are compared with; else those that the daemon of a control folder runs.
    pub old: Option<Sources>,
    /// That folder, if it was named.
    pub folder: Option<PathBuf>,
    /// What would run otherwise is to be restarted.
    pub restarts: bool,
}

/// What is asked of a daemon.
#[derive(Clone, Debug, PartialEq, Eq)]
pub struct Ctl {
    /// Its control folder, if it was named.
    pub folder: Option<PathBuf>,
    /// The request.
    pub line: String,
    /// The answer goes on until somebody ends it.
    pub goes_on: bool,
    /// How long it is waited for.
    pub within: Option<Duration>,
}

/// How a tree is run.
#[derive(Clone, Debug, PartialEq, Eq)]
pub struct Run {
    /// The tree file.
    pub tree: PathBuf,
    /// The file of commands, where the tree file hasn't all of them.
    pub commands: Option<PathBuf>,
    /// The folder of the control socket, if there is to be one.
    pub control: Option<PathBuf>,
    /// The file that the log is written to; else the standard error.
    pub log: Option<PathBuf>,
    /// The log is JSON.
    pub is_json: bool,
    /// Each process has a control group below this one.
    pub cgroup: Option<Wanted>,
    /// When the file of the log is begun anew.
    pub rotation: Option<Rotation>,
    /// The path for whose process all runs.
    pub main: Option<String>,
    /// An earlier program has left something in this descriptor; where true that is only read.
    pub take_over: Option<(i32, bool)>,
}

impl Run {
    /// Its files.
    pub fn sources(&self) -> Sources {
        Sources { tree: self.tree.clone(), commands: self.commands.clone() }
    }
}

/// The flags, and the commands that have them.
const FLAGS: [(&str, &[&str]); 15] = [
    ("--log", &["run"]),
    ("--json", &["run"]),
    ("--no-control", &["run"]),
    ("--cgroup", &["run"]),
    ("--main", &["run"]),
    ("--log-max", &["run"]),
    ("--log-keep", &["run"]),
    ("--control", &["run", "ctl", "diff"]),
    ("--old", &["diff"]),
    ("--old-commands", &["diff"]),
    ("--restart", &["diff"]),
    // The daemon's own, which no help names.
    ("--take-over", &["run"]),
    ("--check", &["run"]),
    ("--run", &["replay"]),
    ("--within", &["ctl"]),
];

/// How long the answer of a question is waited for.
pub const QUESTION: Duration = Duration::from_secs(10);

/// The words, sorted.
#[derive(Default)]
struct Sorted {
    plain: Vec<OsString>,
    flags: BTreeMap<&'static str, OsString>,
    asks_help: bool,
    asks_version: bool,
}

impl Sorted {
    fn verb(&self) -> Option<&str> {
        self.plain.first()?.to_str()
    }

    fn file(&mut self, flag: &str) -> Option<PathBuf> {
        self.flags.remove(flag).map(PathBuf::from)
    }

    fn text(&mut self, flag: &str) -> Option<String> {
        self.flags.remove(flag).map(|text| text.to_string_lossy().into_owned())
    }
}

fn sort(words: impl Iterator<Item = OsString>) -> Result<Sorted, String> {
    let mut sorted = Sorted::default();
    let mut words = words;
    while let Some(word) = words.next() {
        let text = word.to_str().unwrap_or_default();
        // Of the words behind `ctl` those of the request are the daemon's.
        let is_asked = sorted.verb() == Some("ctl") && (text == "--json" || sorted.plain.len() > 1);
        match FLAGS.iter().find(|(flag, _)| *flag == text) {
            _ if matches!(text, "--help" | "-h") => sorted.asks_help = true,
            _ if text == "--version" => sorted.asks_version = true,
            Some((flag @ ("--json" | "--no-control" | "--restart" | "--check"), _)) if !is_asked => {
                drop(sorted.flags.insert(flag, word));
            }
            Some((flag, _)) if !matches!(*flag, "--json" | "--restart" | "--check") => {
                let value = words.next().ok_or(format!("{flag} wants a word behind it; {}", more(sorted.verb())))?;
                sorted.flags.insert(flag, value);
            }
            None if text.starts_with("--") && !is_asked => {
                let near = near::question(text, FLAGS.iter().map(|(flag, _)| *flag));
                return Err(format!("there is no flag {text}{near}; {}", more(sorted.verb())));
            }
            _ => sorted.plain.push(word),
        }
    }
    Ok(sorted)
}

fn more(verb: Option<&str>) -> String {
    match verb {
        Some(verb) => format!("otp-procs {verb} --help tells more"),
        None => "otp-procs --help tells more".to_string(),
    }
}

/// What the words mean, or why they mean nothing.
pub fn read(words: impl Iterator<Item = OsString>) -> Result<Words, String> {
    let mut sorted = sort(words)?;
    if sorted.asks_help {
        return Ok(Words::Print(help::of(sorted.verb())));
    }
    if sorted.asks_version {
        let (own, library) = (env!("CARGO_PKG_VERSION"), otp_supervision::LIBRARY_SUM);
        return Ok(Words::Print(format!("otp-procs {own}, library {library}\n")));
    }
    let verb = sorted.verb().unwrap_or_default().to_string();
    for flag in sorted.flags.keys() {
        let owners = FLAGS.iter().find(|(known, _)| known == flag).map_or(&[][..], |(_, owners)| owners);
        if !owners.contains(&verb.as_str()) && !verb.is_empty() {
            return Err(format!("{verb} has no flag {flag}; {}", more(Some(&verb))));
        }
    }
    if verb == "ctl" {
        return ctl_of(&mut sorted);
    }
    let mut files = sorted.plain.drain(..).skip(1).map(PathBuf::from);
    let (first, second, more_files) = (files.next(), files.next(), files.next());
    drop(files);
    match (verb.as_str(), first, second, more_files) {
        ("run", Some(tree), commands, None) => {
            let (is_json, no_control) =
                (sorted.flags.contains_key("--json"), sorted.flags.contains_key("--no-control"));
            let (control, log) = (sorted.file("--control"), sorted.file("--log"));
            if no_control && control.is_some() {
                return Err(format!("--control and --no-control: say one of them; {}", more(Some("run"))));
            }
            let control = if no_control { None } else { Some(control.unwrap_or_else(usual_folder)) };
            let cgroup = sorted.file("--cgroup").map(|folder| match folder.to_str() {
                Some("auto") => Wanted::Own,
                _ => Wanted::Folder(folder),
            });
            let main = sorted.text("--main");
            let is_check = sorted.flags.contains_key("--check");
            let take_over = sorted.text("--take-over").map(|fd| fd.parse().map(|fd| (fd, is_check)));
            let take_over = take_over.transpose().map_err(|_| "--take-over is the daemon's own".to_string())?;
            let rotation = rotation_of(&mut sorted, log.is_some())?;
            Ok(Words::Run(Run { tree, commands, control, log, is_json, cgroup, rotation, main, take_over }))
        }
        ("diff", Some(tree), commands, None) => diff_of(&mut sorted, Sources { tree, commands }),
        ("check", Some(tree), commands, None) => Ok(Words::Check(tree, commands)),
        ("stand-in", Some(tree), None, None) => Ok(Words::StandIn(tree)),
        ("show", Some(tree), None, None) => Ok(Words::Show(tree)),
        ("replay", Some(tree), Some(log), None) => {
            let number = sorted.text("--run").map(|number| number.parse().map_err(|_| number));
            match number.transpose() {
                Ok(number) => Ok(Words::Replay(tree, log, number)),
                Err(other) => Err(format!("--run wants the number of a run, from 1, and not {other}")),
            }
        }
        ("run" | "check" | "diff", ..) => {
            Err(format!("{verb} wants a file TREE, and COMMANDS where it hasn't all; {}", more(Some(&verb))))
        }
        ("show", ..) => Err(format!("show wants one file: TREE; {}", more(Some("show")))),
        ("replay", ..) => Err(format!("replay wants two files: TREE LOG; {}", more(Some("replay")))),
        _ => Err(help::no_command(&verb)),
    }
}

/// Old files of the log that are kept where nobody says how many.
const KEPT_LOGS: u32 = 5;

fn rotation_of(sorted: &mut Sorted, has_file: bool) -> Result<Option<Rotation>, String> {
    let (most, keep) = (sorted.text("--log-max"), sorted.text("--log-keep"));
    if (most.is_some() && !has_file) || (keep.is_some() && most.is_none()) {
        return Err("--log-max is of --log FILE, and --log-keep of --log-max; say that too".to_string());
    }
    let Some(text) = most else { return Ok(None) };
    let most = value_of(&text).filter(|most| (1..u64::MAX).contains(most));
    let most = most.ok_or(format!("--log-max wants a number of bytes such as 10M, and not {text}"))?;
    let keep = keep.map_or(Ok(KEPT_LOGS), |text| text.parse().map_err(|_| text));
    let keep = keep.map_err(|text| format!("--log-keep wants a number of old files, and not {text}"))?;
    Ok(Some(Rotation { most, keep }))
}

fn diff_of(sorted: &mut Sorted, new: Sources) -> Result<Words, String> {
    let (old, commands) = (sorted.file("--old"), sorted.file("--old-commands"));
    if old.is_none() && commands.is_some() {
        return Err("--old-commands is of --old TREE; say that too".to_string());
    }
    let (folder, restarts) = (sorted.file("--control"), sorted.flags.contains_key("--restart"));
    if old.is_some() && folder.is_some() {
        return Err(format!("--old and --control: say one of them; {}", more(Some("diff"))));
    }
    Ok(Words::Diff(Diff { new, old: old.map(|tree| Sources { tree, commands }), folder, restarts }))
}

fn ctl_of(sorted: &mut Sorted) -> Result<Words, String> {
    let within = sorted.text("--within").map(|time| time_of(&time).ok_or(time)).transpose();
    let within = within.map_err(|time| format!("--within wants a time such as 500ms, 5s, 2m or 1h, and not {time}"))?;
    let folder = sorted.file("--control");
    let words: Option<Vec<String>> = sorted.plain.drain(..).skip(1).map(|word| word.into_string().ok()).collect();
    let words = words.ok_or("a request is text")?;
    if let [first, flag, place @ ..] = &words[..]
        && first == "page"
        && flag == "--serve"
    {
        return Ok(Words::Serve(folder, Place::of(place)?));
    }
    let mut line = words.join(" ");
    let request = request::request_of(&line)?;
    let mut within = within.or((!request.waits()).then_some(QUESTION));
    // How long a reload waits is the daemon's; its answer is waited for.
    let waits_there = match &request {
        request::Request::Reload(wish) => !wish.is_dry,
        request::Request::Reexec(_) => true,
        _ => false,
    };
    if let (true, Some(time)) = (waits_there, within) {
        line.push_str(&format!(" --within {}", time.as_millis()));
        within = None;
    }
    Ok(Words::Ctl(Ctl { folder, line, goes_on: request.goes_on(), within }))
}

/// A time: a whole number of milliseconds, or one with its unit.
pub fn time_of(text: &str) -> Option<Duration> {
    let digits = text.trim_end_matches(|c: char| c.is_ascii_alphabetic());
    let unit = match &text[digits.len()..] {
        "" | "ms" => 1,
        "s" => 1_000,
        "m" => 60_000,
        "h" => 3_600_000,
        _ => return None,
    };
    digits
        .parse::<u32>()
        .ok()
        .filter(|number| *number > 0)
        .map(|number| Duration::from_millis(u64::from(number) * unit))
}

#[cfg(test)]
mod tests {
    use super::*;

    fn of(line: &str) -> Result<Words, String> {
        read(line.split_whitespace().map(OsString::from))
    }

    #[test]
    fn words_are_read() {
        let Ok(Words::Run(run)) = of("run --json t c --log l --control f") else { panic!("no run") };
        assert_eq!((run.is_json, run.log, run.control), (true, Some("l".into()), Some("f".into())));
        assert!(matches!(of("run t c --no-control"), Ok(Words::Run(Run { control: None, .. }))));
        let ctl = |line: &str| match of(line) {
            Ok(Words::Ctl(ctl)) => ctl,
            other => panic!("{line}: {other:?}"),
        };
        let asked = ctl("ctl --control f tail 5 -f");
        assert_eq!((asked.folder, asked.line.as_str(), asked.goes_on), (Some("f".into()), "tail 5 -f", true));
        let asked = ctl("ctl status --json --control f --within 2m");
        assert_eq!((asked.folder, asked.line.as_str()), (Some("f".into()), "status --json"));
        assert_eq!(asked.within, Some(Duration::from_secs(120)));
        assert_eq!(ctl("ctl which").within, Some(QUESTION));
        assert_eq!(ctl("ctl page").line, "page");
        assert_eq!(of("ctl page --serve"), Ok(Words::Serve(None, Place::Usual)));
        let served = of("ctl --control f page --serve unix:x");
        assert_eq!(served, Ok(Words::Serve(Some("f".into()), Place::Unix("x".into()))));
        assert_eq!((ctl("ctl stop a").within, ctl("ctl shutdown").folder), (None, None));
        let asked = ctl("ctl reload --restart --within 2m");
        assert_eq!((asked.line.as_str(), asked.within), ("reload --restart --within 120000", None));
        assert_eq!(ctl("ctl reload --dry-run").within, Some(QUESTION));
        let Ok(Words::Diff(diff)) = of("diff t c --old o --restart") else { panic!("no diff") };
        let old = Some(Sources { tree: "o".into(), commands: None });
        assert_eq!((diff.new.commands, diff.old, diff.restarts), (Some("c".into()), old, true));
        assert_eq!(of("replay t l --run 2"), Ok(Words::Replay("t".into(), "l".into(), Some(2))));
        for bad in [
            "",
            "run",
            "diff",
            "diff t --old-commands x",
            "diff t --old o --control f",
            "show",
            "show t c",
            "run t c x",
            "run t c --log",
            "run t c --x",
            "ctl",
            "ctl x",
            "nonsense a b",
        ] {
            assert!(of(bad).is_err(), "{bad}");
        }
    }

    #[test]
    fn each_command_has_its_help_and_what_is_wrong_a_remedy() {
        for command in ["run", "check", "diff", "show", "replay", "ctl"] {
            let Ok(Words::Print(text)) = of(&format!("{command} --help")) else { panic!("{command}") };
            assert!(text.starts_with(&format!("otp-procs {command} ")) && text.contains("status"), "{text}");
            assert!(text.lines().all(|line| line.len() <= 119), "{text}");
        }
        assert!(matches!(of("--help"), Ok(Words::Print(_))) && matches!(of("ctl stop -h"), Ok(Words::Print(_))));
        for (line, wanted) in [
            ("rnu t c", "did you mean run?"),
            ("ctl satus", "did you mean status?"),
            ("ctl shutdonw", "did you mean shutdown?"),
            ("run t c --jsno", "did you mean --json?"),
            ("check t c --json", "check has no flag --json"),
            ("run t c --within 5s", "run has no flag --within"),
            ("ctl --within soon status", "such as 500ms"),
            ("run t c --no-control --control f", "say one of them"),
            ("ctl page --server", "--serve"),
            ("ctl page --serve 0.0.0.0:80", "127.0.0.1:PORT"),
            ("run", "otp-procs run --help tells more"),
            ("replay t l --run x", "from 1"),
        ] {
            let told = of(line).unwrap_err();
            assert!(told.contains(wanted), "{line}: {told}");
        }
    }

    #[test]
    fn times_have_units() {
        let times = ["500", "500ms", "5s", "2m", "1h", "0", "5x", "s", "-1s", "", "1.5s"].map(time_of);
        let wanted = [500, 500, 5_000, 120_000, 3_600_000].map(|time| Some(Duration::from_millis(time)));
        assert_eq!((&times[..5], times[5..].iter().all(Option::is_none)), (&wanted[..], true));
    }
}
