//! What a control client may ask for.

use crate::loading::Sources;
use crate::near;
use crate::reload::{PATIENCE, Wish};
use crate::words::time_of;
use std::ffi::OsString;
use std::os::unix::ffi::{OsStrExt, OsStringExt};
use std::path::{Path, PathBuf};
use std::time::Duration;

/// What a client waits for.
#[derive(Clone, Copy, Debug, PartialEq, Eq)]
pub enum Wanted {
    /// That something is up.
    Up,
    /// That it is up, and has told so where it has to.
    Ready,
    /// That it has no process, and will get none by itself.
    Down,
}

/// A request.
#[derive(Clone, Debug, PartialEq, Eq)]
pub enum Request {
    /// The tree as it stands; for machines where true.
    Status(bool),
    /// The children that a path or a pattern means, as they stand.
    StatusOf(String, bool),
    /// What `which_children` of the supervisor with this path would answer.
    Which(String),
    /// What `count_children` of it would answer.
    Count(String),
    /// A child without a process is started, or one more child of a `simple_one_for_one`.
    Start(String),
    /// A child is shut down, and stays so.
    Stop(String),
    /// A child is shut down, and started again.
    Restart(String),
    /// A signal is sent to the process of a child, or to its group where true.
    Signal(String, (&'static str, i32), bool),
    /// The answer comes once all that is meant is up, or down.
    Wait(String, Wanted),
    /// The last lines of the log, or of a process; and those that come, where true.
    Tail(Option<String>, usize, bool),
    /// The last events, of the paths that begin so; and those that come, where true.
    Events(String, bool),
    /// The tree in numbers.
    Metrics,
    /// The tree as a page.
    Page,
    /// Its parts, for who serves it; or, with a mark, those of the first page that has another one.
    PageParts(Option<String>),
    /// The files are read anew.
    Reload(Wish),
    /// The program is replaced, once nothing is under way; so long that is waited for.
    Reexec(Duration),
    /// The whole tree is shut down.
    Shutdown,
}

impl Request {
    /// It changes nothing.
    pub fn is_question(&self) -> bool {
        let acts = match self {
            Request::Reload(wish) => !wish.is_dry,
            Request::Start(_) | Request::Stop(_) | Request::Restart(_) | Request::Signal(..) => true,
            _ => matches!(self, Request::Reexec(_) | Request::Shutdown),
        };
        !acts
    }

    /// Its answer goes on until somebody ends it.
    pub fn goes_on(&self) -> bool {
        matches!(self, Request::Tail(_, _, true) | Request::Events(_, true))
    }

    /// Its answer may come late.
    pub fn waits(&self) -> bool {
        !self.is_question() || matches!(self, Request::Wait(..) | Request::PageParts(Some(_)))
    }
}

/// The names of all.
const NAMES: [&str; 15] = [
    "status", "which", "count", "start", "stop", "restart", "signal", "wait", "tail", "events", "metrics", "page",
    "reload", "reexec", "shutdown",
];

/// The words, as `ctl --help` lists them.
pub const WORDS: &str = "\
  status [PATH] [--json]  the tree: states, processes, times, restarts of the period; or that of PATH, with the status
                    0 up, 3 not up, 4 not known
  which [PATH/]     which_children of a supervisor; without a path of the root
  count [PATH/]     count_children of it
  start PATH        start a child that has no process (restart_child); PATH as status prints it
  start PATH/       start one more child of a simple_one_for_one (start_child)
  stop PATH         shut a child down; it stays down (terminate_child)
  stop PATH/#N      the same of the process N of a simple_one_for_one
  restart PATH      stop, then start
  signal PATH NAME [--group]  send a signal to the process of a child, or to all of its group
  wait PATH up|ready|down  wait until it is so
  tail [N] [-f]     the last N lines of the log (20), and with -f those that come
  tail PATH [N] [-f]  the same of what the process of a child has written
  events [PATH] [-f]  the last events and orders as JSON, of all or of what begins with PATH
  metrics           the tree in numbers, in the text form of Prometheus
  page              the tree as a page of HTML, as it is: what isn't up, restarts, last ends, last lines
  page --serve [unix:PATH | 127.0.0.1:PORT]  serve that page, which follows what happens: by the socket page in the
                    control folder, by that of PATH, or on this machine alone with a token that is printed
  reload [--dry-run] [--restart] [--within TIME]  read the files anew: the processes of children that stay run on.
                    --dry-run says what would be done; --restart restarts those that would run otherwise; TIME is
                    how long it waits until no child is starting or stopping: 30s
  reexec [--within TIME]  replace the program of the daemon by the one that has its name now; all processes run on
  shutdown          shut the whole tree down, in order

For status, start, stop, restart, signal and wait PATH may be a pattern: 'pool/*' is each child of the pool";

/// Signals that can be sent, with their numbers on Linux.
const SIGNALS: [(&str, i32); 16] = [
    ("HUP", 1),
    ("INT", 2),
    ("QUIT", 3),
    ("ABRT", 6),
    ("KILL", 9),
    ("USR1", 10),
    ("USR2", 12),
    ("PIPE", 13),
    ("ALRM", 14),
    ("TERM", 15),
    ("CONT", 18),
    ("STOP", 19),
    ("TSTP", 20),
    ("TTIN", 21),
    ("TTOU", 22),
    ("WINCH", 28),
];

/// A request from its line.
pub fn request_of(line: &str) -> Result<Request, String> {
    let words: Vec<&str> = line.split_ascii_whitespace().collect();
    let Some((&word, rest)) = words.split_first() else {
        return Err(format!("say what is wanted:\n{WORDS}"));
    };
    match (word, rest) {
        ("status", []) => Ok(Request::Status(false)),
        ("status", ["--json"]) => Ok(Request::Status(true)),
        ("status", [path]) => Ok(Request::StatusOf((*path).to_string(), false)),
        ("status", [path, "--json"] | ["--json", path]) => Ok(Request::StatusOf((*path).to_string(), true)),
        ("which", []) => Ok(Request::Which(String::new())),
        ("which", [path]) => Ok(Request::Which((*path).to_string())),
        ("count", []) => Ok(Request::Count(String::new())),
        ("count", [path]) => Ok(Request::Count((*path).to_string())),
        ("start", [path]) => Ok(Request::Start((*path).to_string())),
        ("stop", [path]) => Ok(Request::Stop((*path).to_string())),
        ("restart", [path]) => Ok(Request::Restart((*path).to_string())),
        ("shutdown", []) => Ok(Request::Shutdown),
        ("metrics", []) => Ok(Request::Metrics),
        ("page", []) => Ok(Request::Page),
        ("page", ["parts"]) => Ok(Request::PageParts(None)),
        ("page", ["parts", mark]) => Ok(Request::PageParts(Some((*mark).to_string()))),
        ("page", _) => Err("page takes nothing, or --serve and where, as in: page --serve 127.0.0.1:8080".to_string()),
        ("tail", rest) => tail_of(rest),
        ("events", rest) => events_of(rest),
        ("signal", rest) => signal_of(rest),
        ("reload", rest) => reload_of(rest),
        ("reexec", []) => Ok(Request::Reexec(PATIENCE)),
        ("reexec", ["--within", time]) => time_of(time).map(Request::Reexec).ok_or(no_time(time)),
        ("reexec", _) => Err("reexec takes --within TIME alone".to_string()),
        ("wait", [path, "ready"]) => Ok(Request::Wait((*path).to_string(), Wanted::Ready)),
        ("wait", [path, "up"]) => Ok(Request::Wait((*path).to_string(), Wanted::Up)),
        ("wait", [path, "down"]) => Ok(Request::Wait((*path).to_string(), Wanted::Down)),
        ("wait", _) => Err("wait takes a PATH, and up, ready or down, as in: wait pool/a up".to_string()),
        ("start" | "stop" | "restart", _) => Err(format!("{word} takes one PATH, as in: {word} pool/a")),
        ("status" | "which" | "count" | "metrics" | "shutdown", _) => {
            Err(format!("{word} has too many words:\n{WORDS}"))
        }
        _ => Err(format!("there is no request {word}{}; there are:\n{WORDS}", near::question(word, NAMES))),
    }
}

fn signal_of(words: &[&str]) -> Result<Request, String> {
    let to_group = words.contains(&"--group");
    let plain: Vec<&str> = words.iter().copied().filter(|word| *word != "--group").collect();
    let [path, name] = plain[..] else {
        return Err("signal takes a PATH and the name of a signal, as in: signal web HUP".to_string());
    };
    let upper = name.to_ascii_uppercase();
    let bare = upper.strip_prefix("SIG").unwrap_or(&upper);
    if let Some(signal) = SIGNALS.iter().find(|(known, number)| *known == bare || number.to_string() == bare) {
        return Ok(Request::Signal(path.to_string(), *signal, to_group));
    }
    let known: Vec<&str> = SIGNALS.iter().map(|(name, _)| *name).collect();
    Err(format!("there is no signal {name} to send; there are {}", known.join(", ")))
}

fn no_time(time: &str) -> String {
    format!("--within wants a time such as 500ms, 5s, 2m or 1h, and not {time}")
}

fn reload_of(words: &[&str]) -> Result<Request, String> {
    let mut wish = Wish { is_dry: false, restarts: false, within: PATIENCE, sources: None };
    let mut words = words.iter();
    while let Some(word) = words.next() {
        match *word {
            "--dry-run" => wish.is_dry = true,
            "--restart" => wish.restarts = true,
            "--within" => {
                let time = words.next().copied().unwrap_or_default();
                wish.within = time_of(time).ok_or(no_time(time))?;
            }
            // Of the daemon's own files it needs no names; these are `otp-procs diff`'s.
            "--files" => {
                let tree = words.next().map(|word| path_of(word)).ok_or("--files wants the name of a file")?;
                wish.sources = Some(Sources { tree, commands: words.next().map(|word| path_of(word)) });
            }
            _ => return Err(format!("reload takes --dry-run, --restart and --within TIME, and not {word}")),
        }
    }
    if wish.sources.is_some() && !wish.is_dry {
        return Err("reload reads the files of the run; others are only compared".to_string());
    }
    Ok(Request::Reload(wish))
}

/// A path as one word: a byte that ends words, or begins an escape, is `%` and two digits.
pub fn word_of(path: &Path) -> String {
    let mut word = String::new();
    for &byte in path.as_os_str().as_bytes() {
        match byte {
            b'!'..=b'$' | b'&'..=b'~' => word.push(char::from(byte)),
            _ => word.push_str(&format!("%{byte:02x}")),
        }
    }
    word
}

fn path_of(word: &str) -> PathBuf {
    let mut parts = word.split('%');
    let mut bytes = parts.next().unwrap_or_default().as_bytes().to_vec();
    for part in parts {
        let escaped = part.get(..2).and_then(|digits| u8::from_str_radix(digits, 16).ok());
        bytes.extend(escaped);
        bytes.extend_from_slice(&part.as_bytes()[if escaped.is_some() { 2 } else { 0 }..]);
    }
    OsString::from_vec(bytes).into()
}

fn events_of(words: &[&str]) -> Result<Request, String> {
    let (mut path, mut follows) = (None, false);
    for word in words {
        match *word {
            "-f" => follows = true,
            word if path.is_none() && !word.starts_with('-') => path = Some(word.trim_start_matches('/').to_string()),
            _ => return Err("events takes one PATH, and -f to follow".to_string()),
        }
    }
    Ok(Request::Events(path.unwrap_or_default(), follows))
}

fn tail_of(words: &[&str]) -> Result<Request, String> {
    let (mut path, mut count, mut follows) = (None, 20, false);
    for word in words {
        match (*word, word.parse()) {
            ("-f", _) => follows = true,
            (_, Ok(number)) => count = number,
            _ if path.is_none() && !word.starts_with('-') => path = Some((*word).to_string()),
            _ => return Err("tail takes one PATH, a number of lines, and -f to follow".to_string()),
        }
    }
    Ok(Request::Tail(path, count, follows))
}

#[cfg(test)]
mod tests {
    use super::*;

    #[test]
    fn requests_are_read() {
        assert_eq!(request_of("status"), Ok(Request::Status(false)));
        assert_eq!(request_of("which pool"), Ok(Request::Which("pool".into())));
        assert_eq!(request_of("count /"), Ok(Request::Count("/".into())));
        assert_eq!(request_of(" stop  pool/a "), Ok(Request::Stop("pool/a".into())));
        assert_eq!(request_of("tail 5 -f"), Ok(Request::Tail(None, 5, true)));
        assert_eq!(request_of("tail a 7"), Ok(Request::Tail(Some("a".into()), 7, false)));
        assert_eq!(request_of("tail"), Ok(Request::Tail(None, 20, false)));
        assert_eq!(request_of("status a --json"), Ok(Request::StatusOf("a".into(), true)));
        assert_eq!(request_of("wait pool/* up"), Ok(Request::Wait("pool/*".into(), Wanted::Up)));
        assert_eq!(request_of("signal a sighup --group"), Ok(Request::Signal("a".into(), ("HUP", 1), true)));
        assert_eq!(request_of("events /pool/ -f"), Ok(Request::Events("pool/".into(), true)));
        let wish = Wish { is_dry: true, restarts: false, within: PATIENCE, sources: None };
        assert_eq!(request_of("reload --dry-run"), Ok(Request::Reload(wish.clone())));
        let within = Duration::from_secs(5);
        let asked = Wish { is_dry: false, restarts: true, within, sources: None };
        assert_eq!(request_of("reload --restart --within 5s"), Ok(Request::Reload(asked)));
        for path in ["tree.toml", "/a b/%41\u{e9}\n%", "%", ""] {
            let line = format!("reload --dry-run --files {} c", word_of(Path::new(path)));
            let sources = (!path.is_empty()).then(|| Sources { tree: path.into(), commands: Some("c".into()) });
            let sources = sources.or(Some(Sources { tree: "c".into(), commands: None }));
            assert_eq!(request_of(&line), Ok(Request::Reload(Wish { sources, ..wish.clone() })), "{line}");
        }
        assert_eq!(request_of("reexec --within 5s"), Ok(Request::Reexec(within)));
        assert_eq!(request_of("page"), Ok(Request::Page));
        assert_eq!(request_of("page parts 1-2"), Ok(Request::PageParts(Some("1-2".into()))));
        for bad in [
            "",
            "stop",
            "stop a b",
            "status x y",
            "wait a",
            "wait a far",
            "signal a",
            "signal a X",
            "GET /metrics HTTP/1.1",
            "page x",
            "reload x",
            "reload --within",
            "reload --files",
            "reload --files t c",
            "reexec now",
            "page x",
            "page --serve",
            "tail x y",
            "tail -x",
            "nonsense",
            "\u{1}\u{2}",
        ] {
            assert!(request_of(bad).is_err(), "{bad}");
        }
    }
}
