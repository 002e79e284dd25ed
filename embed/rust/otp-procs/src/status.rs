//! The tree as it stands, for `ctl status`.

use crate::daemon::Daemon;
use crate::groups::Usage;
use crate::keeper::Kept;
use crate::live::{Live, Stage};
use crate::log::quoted;
use crate::metrics::{Last, Tally};
use otp_supervision::{Child, ChildState, Phase, Reading, Supervisor, SupervisorId, Tree};
use std::fmt::Write;

/// The column in which what stands behind the names begins.
const COLUMN: usize = 26;

/// A span of milliseconds for people.
pub fn span(milliseconds: u64) -> String {
    let seconds = milliseconds / 1000;
    let (minutes, hours, days) = (seconds / 60, seconds / 3600, seconds / 86_400);
    match (days, hours, minutes) {
        (0, 0, 0) => format!("{seconds}.{} s", milliseconds / 100 % 10),
        (0, 0, _) => format!("{minutes} min {} s", seconds % 60),
        (0, _, _) => format!("{hours} h {} min", minutes % 60),
        _ => format!("{days} d {} h", hours % 24),
    }
}

/// How a supervisor stands, in words.
fn words_of(supervisor: &Supervisor) -> String {
    let mut words = format!(
        "{}  {} of {} restarts in {} s",
        supervisor.strategy,
        supervisor.in_period,
        supervisor.intensity,
        supervisor.period.as_secs()
    );
    match supervisor.process {
        // The root's is none.
        Some(number) if number.number() == 0 => {}
        Some(number) => drop(write!(words, "  #{number}")),
        // The root has no number.
        None if supervisor.phase == Phase::Runs => {}
        None => words.push_str("  down"),
    }
    if supervisor.starts > 1 {
        let _ = write!(words, "  {} starts", supervisor.starts);
    }
    if let Some(cause) = supervisor.cause {
        let when = if supervisor.phase == Phase::Runs { "last ended" } else { "ended" };
        let _ = write!(words, "  {when}: {cause}");
    }
    if supervisor.is_stopping {
        words.push_str("  stopping");
    }
    words
}

/// Whether a child that counts as up has ended: its supervisor starts or stops others, and looks at no end before that is done.
pub fn has_ended(child: &Child, is_there: bool) -> bool {
    child.state == ChildState::Up && !is_there
}

/// How a child without a tree of its own stands, in words.
fn words_of_child(child: &Child, live: Option<&Live>, is_changed: bool, now: u64) -> String {
    let mut words = format!("{:<10}", child.state);
    if has_ended(child, live.is_some()) {
        words = "ended, waits".to_string();
    }
    if let Some(number) = child.number {
        let _ = write!(words, "  #{number}");
    }
    if let Some(live) = live {
        let (Stage::Starting(since) | Stage::Up(since)) = live.stage;
        let _ = write!(words, "  pid {}  {}", live.pid, span(now.saturating_sub(since)));
    }
    if live.is_some_and(|live| matches!(live.stage, Stage::Up(_)) && !live.is_ready) {
        words.push_str("  not ready");
    }
    if is_changed {
        words.push_str("  runs older commands");
    }
    if let Some(own) = live.and_then(|live| live.words.as_ref()) {
        let _ = write!(words, "  says {}", own.escape_debug());
    }
    if let Some(usage) = live.and_then(Live::usage) {
        words.push_str(&words_of_usage(usage));
    }
    if let Some(deadline) = child.deadline {
        let _ = write!(words, "  killed in {}", span(deadline.as_millis().saturating_sub(now)));
    }
    words.trim_end().to_string()
}

/// How often a child was started, and how it ended last, in words.
fn words_of_tally(tally: &Tally) -> String {
    let mut words = String::new();
    if tally.starts > 1 {
        let _ = write!(words, "  {} starts", tally.starts);
    }
    if let Some(Last { text, has_begun, .. }) = &tally.last {
        let what = if *has_begun { "last ended" } else { "last start failed" };
        let _ = write!(words, "  {what}: {text}");
    }
    words
}

/// How often a child was started, and how its last life ended, for machines.
fn tally_json(tally: &Tally) -> String {
    let mut text = format!(",\"starts\":{}", tally.starts);
    if let Some(Last { at, text: last, has_begun, .. }) = &tally.last {
        let key = if *has_begun { "last_end" } else { "last_failed_start" };
        let _ = write!(text, ",\"{key}\":{},\"{key}_ms\":{at}", quoted(last));
    }
    text
}

/// What a control group takes, in words.
fn words_of_usage(usage: Usage) -> String {
    let memory = usage.memory.map_or(String::new(), |bytes| format!("  memory {} KiB", bytes / 1024));
    let processor = usage.processor_ms.map_or(String::new(), |time| format!("  processor {}", span(time)));
    format!("{memory}{processor}")
}

/// What a process uses, for machines.
fn usage_json(usage: Usage) -> String {
    let memory = usage.memory.map_or(String::new(), |bytes| format!(",\"memory_bytes\":{bytes}"));
    let processor = usage.processor_ms.map_or(String::new(), |time| format!(",\"processor_ms\":{time}"));
    format!("{memory}{processor}")
}

/// What a supervisor waits for, so that it looks at nothing else: the child that it starts or stops, or one further below.
pub fn work_of(daemon: &mut Daemon, supervisor: SupervisorId) -> String {
    let mut at = supervisor;
    loop {
        let children = daemon.tree.children(at).unwrap_or_default();
        let is_busy =
            |child: &&Child| matches!(child.state, ChildState::Starting | ChildState::Asked | ChildState::Killed);
        let Some(child) = children.iter().find(is_busy) else {
            return "its supervisor is busy".to_string();
        };
        match child.nested.filter(|&nested| nested > at) {
            Some(nested) => at = nested,
            None => return daemon.words_of_work(at, child),
        }
    }
}

/// Why a child has no process that the daemon will start, or did.
pub(crate) enum Waits {
    /// It waits for another.
    For(String),
    /// It is started again at this reading.
    Until(u64, Kept),
    /// It has ended so often in a row that it is left down.
    Held(u32),
    /// A client has to start it.
    ForClient,
}

impl Daemon {
    pub(crate) fn waits_of(&mut self, supervisor: SupervisorId, child: &Child) -> Option<Waits> {
        let id = child.id.filter(|_| child.state == ChildState::Undefined && child.nested.is_none())?;
        if self.keeper.is_waiting(supervisor, id) {
            let path = format!("{}{id}", self.paths.get(supervisor.index()).map_or("", String::as_str));
            return self.lacking(&path).map(Waits::For);
        }
        if self.is_left_to_clients((supervisor, id), child.spec.start) {
            return Some(Waits::ForClient);
        }
        let kept = self.keeper.of(supervisor, id)?;
        match kept.due {
            Some(due) => Some(Waits::Until(due, kept)),
            None if kept.is_held => Some(Waits::Held(kept.times)),
            None => None,
        }
    }

    fn tally_of(&self, supervisor: SupervisorId, child: &Child) -> Option<&Tally> {
        let above = self.paths.get(supervisor.index())?;
        self.tallies.get(&format!("{above}{}", child.id?))
    }

    /// Whether a process would run otherwise if it were started now, since the files were read anew.
    pub(crate) fn is_changed(&self, live: &Live) -> bool {
        let plan = self.plans.get(live.process.start.as_str());
        plan.is_some_and(|plan| live.plan.runs_otherwise(plan))
    }

    fn words_of_work(&self, supervisor: SupervisorId, child: &Child) -> String {
        let path = format!("{}{}", self.paths.get(supervisor.index()).map_or("", String::as_str), name_of(child));
        let live = child.number.and_then(|number| self.live.get(&number));
        let killed_at = live.and_then(|live| live.kill_at).or(child.deadline.map(Reading::as_millis));
        match (child.state, live, killed_at) {
            (ChildState::Starting, Some(live), None) if !live.is_cut => {
                let (Stage::Starting(since) | Stage::Up(since)) = live.stage;
                let most =
                    live.plan.ready_within.map_or(String::new(), |most| format!(" of {} at the most", span(most)));
                format!("{path} is starting, for {}{most}", span(self.reading.saturating_sub(since)))
            }
            (ChildState::Killed, ..) => format!("{path} was killed, and hasn't ended"),
            (_, _, Some(at)) => {
                format!("{path} was asked to end, and is killed in {}", span(at.saturating_sub(self.reading)))
            }
            _ => format!("{path} was asked to end"),
        }
    }
}

/// For people: a line for each supervisor and each child, those of a supervisor two columns further to the right.
pub fn as_text(daemon: &mut Daemon) -> String {
    let mut text = String::new();
    if let Ok(root) = daemon.supervisor(SupervisorId::ROOT) {
        let _ = writeln!(text, "{}  up {}", words_of(&root), span(daemon.reading));
        add_children(daemon, SupervisorId::ROOT, 1, &mut text);
    }
    text
}

fn add_children(daemon: &mut Daemon, supervisor: SupervisorId, level: usize, text: &mut String) {
    for child in daemon.tree.children(supervisor).unwrap_or_default() {
        let name = format!("{}{}", "  ".repeat(level), name_of(&child));
        add_child(daemon, supervisor, &child, &name, level, text);
    }
}

fn add_child(
    daemon: &mut Daemon,
    supervisor: SupervisorId,
    child: &Child,
    name: &str,
    level: usize,
    text: &mut String,
) {
    let nested = child.nested.and_then(|nested| daemon.supervisor(nested).ok().map(|found| (nested, found)));
    if let Some((nested, found)) = nested {
        let _ = writeln!(text, "{:<COLUMN$} {}", format!("{name}/"), words_of(&found));
        // The children of one that doesn't run are those that it had.
        if found.process.is_some() {
            add_children(daemon, nested, level + 1, text);
        }
    } else {
        let waits = daemon.waits_of(supervisor, child);
        let live = child.number.and_then(|number| daemon.live.get(&number));
        let words = match waits {
            Some(Waits::For(other)) => format!("waits for {other}"),
            Some(Waits::Until(due, kept)) => {
                let left = span(due.saturating_sub(daemon.reading));
                format!("down, start {} in {left}", u64::from(kept.times) + 1)
            }
            Some(Waits::Held(times)) => format!("held, after {times} ends in a row"),
            Some(Waits::ForClient) => "down, ctl start starts it".to_string(),
            None => words_of_child(child, live, live.is_some_and(|live| daemon.is_changed(live)), daemon.reading),
        };
        let tally = daemon.tally_of(supervisor, child).map_or_else(String::new, words_of_tally);
        let _ = writeln!(text, "{name:<COLUMN$} {words}{tally}");
    }
}

/// A child with what is below it, by its path: for people, or for machines.
pub fn of_child(daemon: &mut Daemon, supervisor: SupervisorId, child: &Child, is_json: bool) -> String {
    let mut text = String::new();
    if is_json {
        add_child_json(daemon, supervisor, child, &mut text);
        text.push('\n');
    } else {
        let above = daemon.paths.get(supervisor.index()).map_or("", String::as_str);
        let name = format!("{above}{}", name_of(child));
        add_child(daemon, supervisor, child, &name, 1, &mut text);
    }
    text
}

/// What `which_children` would answer, a line for each child.
pub fn which(tree: &mut Tree, supervisor: SupervisorId) -> String {
    tree.children(supervisor).unwrap_or_default().iter().map(|child| format!("{}\n", child.line())).collect()
}

pub fn name_of(child: &Child) -> String {
    match (child.id, child.number) {
        (Some(id), _) => id.to_string(),
        (None, Some(number)) => format!("#{number}"),
        (None, None) => "-".to_string(),
    }
}

/// For machines: an object for each supervisor, with its children in it.
pub fn as_json(daemon: &mut Daemon) -> String {
    let mut text = String::new();
    add_json(daemon, SupervisorId::ROOT, &mut text);
    text.push('\n');
    text
}

fn add_json(daemon: &mut Daemon, number: SupervisorId, text: &mut String) {
    let Ok(supervisor) = daemon.supervisor(number) else {
        return;
    };
    let path = quoted(daemon.paths.get(number.index()).map_or("", String::as_str));
    let _ = write!(
        text,
        "{{\"path\":{path},\"strategy\":\"{}\",\"intensity\":{},\"period\":{},\"phase\":\"{}\",\"restarts\":{},\
         \"restarts_in_period\":{},\"stopping\":{},\"starts\":{}",
        supervisor.strategy,
        supervisor.intensity,
        supervisor.period.as_secs(),
        supervisor.phase,
        supervisor.restarts,
        supervisor.in_period,
        supervisor.is_stopping,
        supervisor.starts,
    );
    if let Some(process) = supervisor.process {
        let _ = write!(text, ",\"number\":{process}");
    }
    if let Some(cause) = supervisor.cause {
        let _ = write!(text, ",\"cause\":\"{cause}\"");
    }
    if let Some(groups) = &daemon.groups {
        text.push_str(&usage_json(groups.usage_of(&daemon.paths[number.index()])));
    }
    text.push_str(",\"children\":[");
    for (index, child) in daemon.tree.children(number).unwrap_or_default().iter().enumerate() {
        if index > 0 {
            text.push(',');
        }
        add_child_json(daemon, number, child, text);
    }
    text.push_str("]}");
}

fn add_child_json(daemon: &mut Daemon, supervisor: SupervisorId, child: &Child, text: &mut String) {
    let id = child.id.map_or_else(|| "null".to_string(), |id| quoted(id.as_str()));
    let is_there = match (child.nested, child.number) {
        (Some(nested), _) => daemon.tree.supervisor(nested).is_ok_and(|found| found.process.is_some()),
        (None, Some(number)) => daemon.live.contains_key(&number),
        (None, None) => false,
    };
    let state = if has_ended(child, is_there) { "ended" } else { child.state.as_str() };
    let _ = write!(text, "{{\"id\":{id},\"start\":{},\"state\":\"{state}\"", quoted(child.spec.start.as_str()));
    if let Some(number) = child.number {
        let _ = write!(text, ",\"number\":{number}");
        if let Some(live) = daemon.live.get(&number) {
            let (Stage::Starting(since) | Stage::Up(since)) = live.stage;
            let _ = write!(text, ",\"pid\":{},\"since_ms\":{since}", live.pid);
            if matches!(live.stage, Stage::Up(_)) && !live.is_ready {
                text.push_str(",\"ready\":false");
            }
            if daemon.is_changed(live) {
                text.push_str(",\"changed\":true");
            }
            text.push_str(&live.usage().map_or_else(String::new, usage_json));
            if let Some(words) = &live.words {
                let _ = write!(text, ",\"says\":{}", quoted(words));
            }
        }
    }
    if child.nested.is_none() {
        text.push_str(&daemon.tally_of(supervisor, child).map_or_else(String::new, tally_json));
    }
    match daemon.waits_of(supervisor, child) {
        Some(Waits::For(other)) => drop(write!(text, ",\"waits_for\":{}", quoted(&other))),
        Some(Waits::Until(due, kept)) => {
            let left = due.saturating_sub(daemon.reading);
            let _ = write!(text, ",\"ends_in_a_row\":{},\"start_in_ms\":{left}", kept.times);
        }
        Some(Waits::Held(times)) => drop(write!(text, ",\"ends_in_a_row\":{times},\"held\":true")),
        Some(Waits::ForClient) => text.push_str(",\"autostart\":false"),
        None => {}
    }
    if let Some(nested) = child.nested {
        text.push_str(",\"supervisor\":");
        add_json(daemon, nested, text);
    }
    text.push('}');
}

#[cfg(test)]
mod tests {
    use super::{span, which};
    use otp_supervision::{Answer, Note, Order, ProcessId, Reading, Reason, SupervisorId, Tree};

    #[test]
    fn spans_have_two_units_at_the_most() {
        for (milliseconds, text) in
            [(0, "0.0 s"), (1_250, "1.2 s"), (61_000, "1 min 1 s"), (3_660_000, "1 h 1 min"), (90_000_000, "1 d 1 h")]
        {
            assert_eq!(span(milliseconds), text);
        }
    }

    #[test]
    fn which_says_what_the_call_would() {
        let text = "[[child]]\nid = \"a\"\nstart = \"a\"\nmodules = [\"x\", \"y\"]\n[[child]]\nid = \"t\"\nstart = \"a\"\nrestart = \"temporary\"\n\
                    [[child]]\nid = \"u\"\nstart = \"a\"\nrestart = \"transient\"\ntype = \"supervisor\"\nmodules = \"dynamic\"\n[[child]]\nid = \"s\"\nstart = \"s\"\n\
                    [child.tree]\nstrategy = \"simple_one_for_one\"\n[[child.tree.child]]\nid = \"w\"\nstart = \"w\"\n";
        let mut tree = Tree::open(text).unwrap();
        let serve = |tree: &mut Tree| {
            let mut answers = Vec::new();
            while let Some(order) = tree.next_order().unwrap() {
                match order {
                    Order::Start(process) => tree.up(Reading::ZERO, &process).unwrap(),
                    Order::Reply(reply) => answers.push(reply.answer),
                    _ => {}
                }
            }
            answers
        };
        serve(&mut tree);
        tree.note(Reading::ZERO, SupervisorId::ROOT, Note::Exit(ProcessId::new(3), Reason::Normal)).unwrap();
        for _ in 0..3 {
            tree.start_dynamic(Reading::ZERO, SupervisorId::new(1)).unwrap();
        }
        serve(&mut tree);
        for supervisor in tree.supervisors() {
            tree.which_children(Reading::ZERO, supervisor).unwrap();
            let answers = serve(&mut tree);
            let Some(Answer::Which(lines)) = answers.first() else { panic!("{answers:?}") };
            let told: String = lines.iter().map(|line| format!("{line}\n")).collect();
            assert!(told.lines().count() >= 3, "{told}");
            assert_eq!(which(&mut tree, supervisor), told);
        }
    }
}
