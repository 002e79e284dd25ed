//! The tree in numbers, in the text form of Prometheus: for `ctl metrics`, and for who asks the socket by HTTP.

use crate::daemon::Daemon;
use std::fmt::Write;

/// So often each child was started, and has ended, and how it did last.
#[derive(Clone, Debug, Default, PartialEq, Eq)]
pub(crate) struct Tally {
    pub starts: u64,
    pub exits: u64,
    pub last: Option<Last>,
}

/// How a child has ended, or didn't start.
#[derive(Clone, Debug, PartialEq, Eq)]
pub(crate) struct Last {
    /// At which reading.
    pub at: u64,
    /// Its status or signal, or why it didn't start.
    pub text: String,
    /// Its program had begun.
    pub has_begun: bool,
    /// It was asked to end, or killed by its supervisor.
    pub is_asked: bool,
    /// Its status was 0.
    pub is_fine: bool,
}

/// A text between the quotes of a label.
fn label(text: &str) -> String {
    text.replace('\\', "\\\\").replace('"', "\\\"").replace('\n', "\\n")
}

fn head(text: &mut String, name: &str, kind: &str, about: &str) {
    let _ = writeln!(text, "# HELP otp_procs_{name} {about}\n# TYPE otp_procs_{name} {kind}");
}

/// All metrics of a daemon.
pub fn text_of(daemon: &mut Daemon) -> String {
    let mut text = String::new();
    head(&mut text, "info", "gauge", "The daemon's version, and the sum of its library.");
    let (version, library) = (env!("CARGO_PKG_VERSION"), otp_supervision::LIBRARY_SUM);
    let _ = writeln!(text, "otp_procs_info{{version=\"{version}\",library=\"{library}\"}} 1");
    head(&mut text, "uptime_seconds", "gauge", "How long the daemon runs.");
    let _ = writeln!(text, "otp_procs_uptime_seconds {}", seconds(daemon.reading));
    add_children(daemon, &mut text);
    add_supervisors(daemon, &mut text);
    head(&mut text, "lost_lines_total", "counter", "Lines that the log couldn't be given.");
    let _ = writeln!(text, "otp_procs_lost_lines_total {}", daemon.log.all_lost());
    text
}

fn seconds(milliseconds: u64) -> String {
    format!("{}.{:03}", milliseconds / 1000, milliseconds % 1000)
}

fn add_children(daemon: &mut Daemon, text: &mut String) {
    let ups = daemon.ups();
    head(text, "up", "gauge", "1 if the child is up.");
    for (path, is_up) in &ups {
        let _ = writeln!(text, "otp_procs_up{{path=\"{}\"}} {}", label(path), u8::from(*is_up));
    }
    for (name, about, of) in [
        ("starts_total", "Processes that were started.", (|tally: &Tally| tally.starts) as fn(&Tally) -> u64),
        ("exits_total", "Processes that have ended.", |tally: &Tally| tally.exits),
    ] {
        head(text, name, "counter", about);
        for (path, tally) in &daemon.tallies {
            let _ = writeln!(text, "otp_procs_{name}{{path=\"{}\"}} {}", label(path), of(tally));
        }
    }
    if daemon.groups.is_none() {
        return;
    }
    let live = daemon.live.values().filter(|live| live.process.id.is_some());
    let usages: Vec<_> = live.filter_map(|live| Some((live.path.clone(), live.usage()?))).collect();
    head(text, "memory_bytes", "gauge", "Memory of the child's control group.");
    for (path, usage) in &usages {
        if let Some(bytes) = usage.memory {
            let _ = writeln!(text, "otp_procs_memory_bytes{{path=\"{}\"}} {bytes}", label(path));
        }
    }
    head(text, "processor_seconds", "gauge", "Processor time of the child's control group since its start.");
    for (path, usage) in &usages {
        if let Some(time) = usage.processor_ms {
            let _ = writeln!(text, "otp_procs_processor_seconds{{path=\"{}\"}} {}", label(path), seconds(time));
        }
    }
}

fn add_supervisors(daemon: &mut Daemon, text: &mut String) {
    let found: Vec<_> = daemon.tree.supervisors().filter_map(|number| daemon.supervisor(number).ok()).collect();
    let mut add = |name: &str, kind: &str, about: &str, of: &dyn Fn(&otp_supervision::Supervisor) -> u64| {
        head(text, name, kind, about);
        for (path, supervisor) in daemon.paths.iter().zip(&found) {
            let _ = writeln!(text, "otp_procs_{name}{{supervisor=\"{}\"}} {}", label(path), of(supervisor));
        }
    };
    add("restarts_in_period", "gauge", "Restarts within the period that ends now.", &|found| found.in_period);
    add("intensity", "gauge", "So many restarts are allowed within a period.", &|found| found.intensity);
    add("period_seconds", "gauge", "The period.", &|found| found.period.as_secs());
    add("supervisor_starts_total", "counter", "Starts by the supervisor above; of the root none.", &|found| {
        found.starts
    });
}

#[cfg(test)]
mod tests {
    use super::*;

    #[test]
    fn labels_are_escaped() {
        assert_eq!(label("a\"b\\c\nd"), "a\\\"b\\\\c\\nd");
        assert_eq!(seconds(61_007), "61.007");
    }
}
