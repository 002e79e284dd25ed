//! Plays a log again: the events of the log are told to a new tree, which has to give the orders of the log.

use crate::handover::rebuilt;
use crate::told::{CallKind, Told};
use otp_supervision::{Name, Note, Order, ProcessId, Reading, Reason, SupervisorId, Tree};
use std::collections::BTreeMap;
use std::fmt;

/// Why a log isn't that of the tree.
#[derive(Debug, PartialEq, Eq)]
pub struct Differs {
    /// The line of the log, from 1.
    pub line: usize,
    /// What is wrong there.
    pub text: String,
}

impl fmt::Display for Differs {
    fn fmt(&self, f: &mut fmt::Formatter<'_>) -> fmt::Result {
        write!(f, "line {}: {}", self.line, self.text)
    }
}

impl std::error::Error for Differs {}

/// What was played.
#[derive(Clone, Copy, Debug, Default, PartialEq, Eq)]
pub struct Played {
    /// Lines of events.
    pub events: usize,
    /// Lines of orders.
    pub orders: usize,
    /// So often the files were read anew, and the tree was another one from then on.
    pub reloads: usize,
    /// The last order is the end.
    pub has_ended: bool,
    /// The last line is cut off, as by the end of the machine.
    pub is_torn: bool,
}

/// The lines of one run of a daemon, each with its number from 1. Empty ones are left out.
#[derive(Debug, Default)]
pub struct Run<'a> {
    lines: Vec<(usize, &'a str)>,
}

impl Run<'_> {
    /// The numbers of its first and its last line.
    pub fn span(&self) -> (usize, usize) {
        let number = |line: Option<&(usize, &str)>| line.map_or(0, |(number, _)| *number);
        (number(self.lines.first()), number(self.lines.last()))
    }

    /// The tree that it began with, where the log has that: it was reloaded then.
    pub fn first_tree(&self) -> Option<String> {
        let mut lines = self.lines.iter().filter(|(_, line)| line.contains("\"from_text\":"));
        lines.find_map(|(_, line)| {
            let is_reload = |event: &String| event == "reload" || event == "change";
            fields_of(line).filter(|fields| fields.get("event").is_some_and(is_reload))?.remove("from_text")
        })
    }

    /// It has remarks alone.
    fn is_bare(&self) -> bool {
        !self.lines.iter().any(|(_, line)| line.contains("\"order\":") || line.contains("\"event\":"))
    }
}

/// The runs of a log: each begins with a line that says so. What stands in front of the first such line is one, too, if there is
/// more than remarks, as of a daemon that wrote none.
pub fn runs_of(log: &str) -> Vec<Run<'_>> {
    let mut runs = vec![Run::default()];
    for (index, line) in log.lines().enumerate().filter(|(_, line)| !line.trim().is_empty()) {
        let begins = line.contains("\"remark\":\"began\"")
            && fields_of(line).is_some_and(|fields| fields.get("remark").is_some_and(|remark| remark == "began"));
        if begins {
            runs.push(Run::default());
        }
        if let Some(run) = runs.last_mut() {
            run.lines.push((index + 1, line));
        }
    }
    if runs.len() > 1 && runs[0].is_bare() {
        runs.remove(0);
    }
    runs
}

/// The texts and numbers of a line, by their keys. Only lines that this program writes are read: flat objects.
pub(crate) fn fields_of(line: &str) -> Option<BTreeMap<String, String>> {
    let mut fields = BTreeMap::new();
    let mut rest = line.strip_prefix('{')?;
    loop {
        let (key, behind) = text_at(rest)?;
        rest = behind.strip_prefix(':')?;
        let value = if rest.starts_with('"') {
            let (value, behind) = text_at(rest)?;
            rest = behind;
            value
        } else {
            let end = rest.find([',', '}'])?;
            let (value, behind) = rest.split_at(end);
            rest = behind;
            value.to_string()
        };
        fields.insert(key, value);
        match rest.strip_prefix(',') {
            Some(behind) => rest = behind,
            None => return (rest == "}").then_some(fields),
        }
    }
}

/// The JSON string at the beginning, and what stands behind it.
fn text_at(rest: &str) -> Option<(String, &str)> {
    let mut text = String::new();
    let mut chars = rest.strip_prefix('"')?.char_indices();
    while let Some((at, c)) = chars.next() {
        match c {
            '"' => return Some((text, &rest[at + 2..])),
            '\\' => match chars.next()?.1 {
                'u' => {
                    let digits: String = chars.by_ref().take(4).map(|(_, digit)| digit).collect();
                    text.push(u32::from_str_radix(&digits, 16).ok().and_then(char::from_u32)?);
                }
                other => text.push(other),
            },
            c => text.push(c),
        }
    }
    None
}

/// What an event of the log tells.
pub(crate) fn told_of(fields: &BTreeMap<String, String>, event: &str) -> Option<Told> {
    let number = || fields.get("number")?.parse().ok().map(ProcessId::new);
    let supervisor = || fields.get("supervisor")?.parse().ok().map(SupervisorId::new);
    let reason = || fields.get("reason")?.parse::<Reason>().ok();
    Some(match event {
        "stop" => Told::Stop,
        "up" => Told::Note(supervisor()?, Note::Up(number()?)),
        "ignore" => Told::Note(supervisor()?, Note::Ignored(number()?)),
        "fail" => Told::Note(supervisor()?, Note::Failed(number()?, reason()?)),
        "exit" => Told::Note(supervisor()?, Note::Exit(number()?, reason()?)),
        "call" => {
            let id = fields.get("id").and_then(|id| Name::new(id).ok());
            Told::Call(supervisor()?, CallKind::from_log(fields.get("call")?, id, number())?)
        }
        _ => return None,
    })
}

/// An order as a line of the log tells it: the word, and what is compared.
fn words_of(order: &Order) -> (&'static str, String) {
    let process = |process: &otp_supervision::Process| format!("{} #{}", process.supervisor, process.number);
    match order {
        Order::Start(it) => ("start", process(it)),
        Order::Ask { process: it, .. } => ("ask", process(it)),
        Order::Kill(it) => ("kill", process(it)),
        Order::Reply(reply) => ("reply", format!("{} {} {}", reply.supervisor, reply.call, reply.answer)),
        Order::Ready => ("ready", String::new()),
        Order::End(end) => ("end", format!("{} {}", end.reason, end.cause)),
        // The library has no other order, and the tree isn't watched.
        other => ("", other.to_string()),
    }
}

fn words_in(fields: &BTreeMap<String, String>, order: &str) -> String {
    let field = |key: &str| fields.get(key).map_or("", String::as_str);
    match order {
        "start" | "ask" | "kill" => format!("{} #{}", field("supervisor"), field("number")),
        "reply" => format!("{} {} {}", field("supervisor"), field("call"), field("answer")),
        "end" => format!("{} {}", field("reason"), field("cause")),
        _ => String::new(),
    }
}

/// Plays the lines of a run in JSON. Remarks are passed over.
pub fn replay(tree: &mut Tree, run: &Run<'_>) -> Result<Played, Differs> {
    let mut played = Played::default();
    let (_, last) = run.span();
    for &(line, text) in &run.lines {
        let Some(fields) = fields_of(text) else {
            if line == last && played.orders > 0 && !text.ends_with('}') {
                played.is_torn = true;
                break;
            }
            return Err(Differs { line, text: "no line of a log with --json".to_string() });
        };
        play(tree, &fields, &mut played).map_err(|text| Differs { line, text })?;
    }
    if played.events + played.orders == 0 {
        let text = "no event and no order up to here, so that there is nothing to compare".to_string();
        return Err(Differs { line: last, text });
    }
    Ok(played)
}

fn play(tree: &mut Tree, fields: &BTreeMap<String, String>, played: &mut Played) -> Result<(), String> {
    if let Some(remark) = fields.get("remark") {
        if remark == "lost" && fields.contains_key("lines") {
            return Err("lines were lost here, so that nothing can be said of what follows".to_string());
        }
        return Ok(());
    }
    let reading = fields.get("ms").and_then(|ms| ms.parse().ok()).map(Reading::from_millis).ok_or("no time")?;
    tree.tick(reading).map_err(|fault| fault.to_string())?;
    if let Some(event) = fields.get("event") {
        if let Some(order) = next(tree)? {
            return Err(format!("the tree orders {order} before this"));
        }
        // Of a program that was replaced, or that is older, which counted restarts anew.
        if event == "reload" {
            let text = fields.get("tree_text").ok_or("no tree")?;
            let tree_of = |restarts: &String| {
                let restarted = rebuilt::of_text(restarts).ok_or("no restarts")?;
                rebuilt::rebuilt(text, &restarted, reading.as_millis()).map_err(|error| error.to_string())
            };
            let opened = || Tree::open(text).map_err(|error| error.to_string());
            *tree = fields.get("restarts").map_or_else(opened, tree_of)?;
            tree.tick(reading).map_err(|fault| fault.to_string())?;
            played.reloads += 1;
            return Ok(());
        }
        if event == "change" {
            tree.change(fields.get("tree_text").ok_or("no tree")?).map_err(|error| error.to_string())?;
            played.reloads += 1;
            return Ok(());
        }
        let told = told_of(fields, event).ok_or_else(|| format!("no event {event}"))?;
        told.tell(tree, reading).map_err(|fault| fault.to_string())?;
        played.events += 1;
    } else if let Some(wanted) = fields.get("order") {
        let order = next(tree)?.ok_or_else(|| format!("the tree doesn't order {wanted}"))?;
        let (word, words) = words_of(&order);
        if (word, &words) != (wanted.as_str(), &words_in(fields, wanted)) {
            return Err(format!("the tree orders {word} {words}"));
        }
        played.orders += 1;
        played.has_ended = word == "end";
    }
    Ok(())
}

fn next(tree: &mut Tree) -> Result<Option<Order>, String> {
    tree.next_order().map_err(|fault| fault.to_string())
}

#[cfg(test)]
mod tests {
    use super::*;

    #[test]
    fn runs_begin_with_a_line_that_says_so() {
        let began = "{\"time\":\"T\",\"ms\":0,\"remark\":\"began\",\"pid\":1}";
        let order = "{\"ms\":0,\"order\":\"ready\"}";
        let says = "{\"ms\":0,\"remark\":\"says\",\"line\":\"\\\"remark\\\":\\\"began\\\"\"}";
        let spans = |lines: &[&str]| runs_of(&lines.join("\n")).iter().map(Run::span).collect::<Vec<_>>();
        assert_eq!(spans(&[]), [(0, 0)]);
        assert_eq!(spans(&[order, order]), [(1, 2)]);
        assert_eq!(spans(&["", began, order, says, began, order]), [(2, 4), (5, 6)]);
        assert_eq!(spans(&[says, began, order]), [(2, 3)]);
        assert_eq!(spans(&[order, began, order]), [(1, 1), (2, 3)]);
    }

    #[test]
    fn a_line_is_read_as_it_is_written() {
        let fields = fields_of("{\"a\":1,\"b\":\"x\\\"\\u000a,}\",\"c\":22}").unwrap();
        assert_eq!((fields["a"].as_str(), fields["b"].as_str(), fields["c"].as_str()), ("1", "x\"\n,}", "22"));
        for bad in ["", "{", "{}", "{\"a\"}", "{\"a\":1", "{\"a\":\"x}", "[1]", "{\"a\":\"\\u00\"}"] {
            assert_eq!(fields_of(bad), None, "{bad}");
        }
    }
}
