//! What the page shows, and its markup. Each line that has an id is a part: a newer one can be put in its place alone.

use crate::groups::Usage;
use crate::metrics::Last;
use crate::page::html::{Html, Times};
use crate::status::span;

/// So many of those that aren't up stand in front of the tree.
const FIRST: usize = 40;
/// So many lines of each stand there.
const FEW: usize = 3;

/// How something stands: what a reader has to see first comes first.
#[derive(Clone, Copy, Debug, PartialEq, Eq, PartialOrd, Ord)]
pub enum Standing {
    /// It isn't there, though it should be.
    Down,
    /// It is on its way.
    Way,
    /// It has done what it had to.
    Over,
    /// It is there.
    Up,
}

impl Standing {
    fn word(self) -> &'static str {
        match self {
            Standing::Down => "down",
            Standing::Way => "way",
            Standing::Over => "over",
            Standing::Up => "up",
        }
    }
}

/// How something stands, in words, with a reading that they end with.
#[derive(Clone, Debug, PartialEq, Eq)]
pub struct State {
    /// How.
    pub standing: Standing,
    /// In words.
    pub words: String,
    /// Since when, or when something comes of it.
    pub at: Option<u64>,
}

impl State {
    /// One with a time.
    pub fn at(standing: Standing, words: impl Into<String>, at: u64) -> Self {
        State { at: Some(at), ..State::new(standing, words) }
    }

    /// One without.
    pub fn new(standing: Standing, words: impl Into<String>) -> Self {
        State { standing, words: words.into(), at: None }
    }
}

/// A supervisor.
#[derive(Clone, Debug)]
pub struct Sup {
    /// Its part's id.
    pub part: String,
    /// Its path.
    pub path: String,
    /// Its name there.
    pub name: String,
    /// How it stands.
    pub state: State,
    /// Its strategy.
    pub strategy: &'static str,
    /// Its restarts within the period.
    pub in_period: u64,
    /// So many are allowed.
    pub intensity: u64,
    /// The period in seconds.
    pub period: u64,
    /// How often it was started; the root never is.
    pub starts: u64,
    /// Why it ended last.
    pub cause: Option<&'static str>,
}

/// A child without a tree of its own.
#[derive(Clone, Debug)]
pub struct Kid {
    /// Its part's id.
    pub part: String,
    /// Its path.
    pub path: String,
    /// Its name there.
    pub name: String,
    /// How it stands.
    pub state: State,
    /// Its process in the system.
    pub pid: Option<i32>,
    /// How often it was started again.
    pub restarts: u64,
    /// How it ended last, or didn't start.
    pub last: Option<Last>,
    /// What it takes.
    pub usage: Option<Usage>,
    /// How it is, in its own words.
    pub says: Option<String>,
    /// The last lines of its output.
    pub lines: Vec<String>,
}

/// What stands in the tree, in order.
#[derive(Clone, Debug)]
pub enum Item {
    /// A supervisor begins; what follows is below it.
    Sup(Sup),
    /// A child.
    Kid(Kid),
    /// What is below a supervisor ends.
    End,
}

/// What is said of the whole.
#[derive(Clone, Debug)]
pub struct Whole {
    /// What it is called.
    pub title: String,
    /// The daemon's process.
    pub pid: u32,
    /// What it does, where that isn't the usual.
    pub doing: &'static str,
}

/// All parts.
pub fn body_of(whole: &Whole, items: &[Item], times: Times) -> String {
    let mut html = Html::new(times);
    let counts = counts_of(items);
    add_head(whole, counts, &mut html);
    add_first(items, &mut html);
    html.raw("<section class=\"tree\">\n<ul>\n");
    for item in items {
        match item {
            Item::Sup(sup) => add_sup(sup, &mut html),
            Item::Kid(kid) => add_kid(kid, &mut html),
            Item::End => drop(html.raw("</ul></li>\n")),
        }
    }
    html.raw("</ul>\n</section>\n");
    html.done()
}

/// How many stand so. Supervisors that are up aren't counted: they are up for those below them.
fn counts_of(items: &[Item]) -> [(Standing, usize); 4] {
    let of = |standing| {
        let is_so = |item: &&Item| match item {
            Item::Kid(kid) => kid.state.standing == standing,
            Item::Sup(sup) => sup.state.standing == standing && standing != Standing::Up,
            Item::End => false,
        };
        (standing, items.iter().filter(is_so).count())
    };
    [Standing::Down, Standing::Way, Standing::Over, Standing::Up].map(of)
}

fn add_head(whole: &Whole, counts: [(Standing, usize); 4], html: &mut Html) {
    let [(_, down), (_, way), ..] = counts;
    html.raw("<header id=\"head\" data-title=\"");
    if down > 0 {
        html.show(down).raw(" down: ");
    } else if way > 0 {
        html.show(way).raw(" on the way: ");
    }
    html.text(&whole.title).raw("\"><h1>").text(&whole.title).raw("</h1><p class=\"sum\">");
    for (standing, count) in counts {
        if count == 0 && standing != Standing::Up {
            continue;
        }
        let words = match standing {
            Standing::Way => " on the way",
            Standing::Over => " over",
            Standing::Down => " down",
            Standing::Up => " up",
        };
        html.raw("<b class=\"").raw(standing.word()).raw("\">").show(count).raw(words).raw("</b> ");
    }
    html.raw("</p><p class=\"dim\">otp-procs ").raw(env!("CARGO_PKG_VERSION")).raw(", pid ").show(whole.pid);
    html.raw(", began ").time(0).raw(" ago");
    if !whole.doing.is_empty() {
        html.raw("; <b class=\"way\">").raw(whole.doing).raw("</b>");
    }
    html.raw("</p></header>\n");
}

/// Those that aren't up, the worst first.
fn add_first(items: &[Item], html: &mut Html) {
    let mut found: Vec<(&State, &Item)> = Vec::new();
    for item in items {
        match item {
            Item::Kid(Kid { state, .. }) | Item::Sup(Sup { state, .. }) if state.standing < Standing::Over => {
                found.push((state, item));
            }
            _ => {}
        }
    }
    found.sort_by_key(|(state, _)| state.standing);
    let Some((worst, _)) = found.first() else {
        html.raw("<section id=\"first\"></section>\n");
        return;
    };
    html.raw("<section id=\"first\" class=\"").raw(worst.standing.word()).raw("\"><h2>Not up</h2><ul>");
    for (state, item) in found.iter().take(FIRST) {
        html.raw("<li class=\"").raw(state.standing.word()).raw("\">");
        match item {
            Item::Kid(kid) => add_kid_in_front(kid, html),
            Item::Sup(sup) => {
                add_link(&sup.part, if sup.path.is_empty() { "/" } else { &sup.path }, state, html);
                add_cause(sup, html);
            }
            Item::End => {}
        }
        html.raw("</li>");
    }
    if found.len() > FIRST {
        html.raw("<li>and ").show(found.len() - FIRST).raw(" more</li>");
    }
    html.raw("</ul></section>\n");
}

fn add_link(part: &str, path: &str, state: &State, html: &mut Html) {
    html.raw("<a href=\"#").text(part).raw("\">").text(path).raw("</a> ");
    add_state(state, html);
}

fn add_kid_in_front(kid: &Kid, html: &mut Html) {
    add_link(&kid.part, &kid.path, &kid.state, html);
    add_last(kid, html);
    let few = &kid.lines[kid.lines.len().saturating_sub(FEW)..];
    if !few.is_empty() {
        html.raw("<pre>").text(&few.join("\n")).raw("</pre>");
    }
}

fn add_state(state: &State, html: &mut Html) {
    html.raw("<span class=\"state\"><i class=\"dot\"></i>").text(&state.words);
    if let Some(at) = state.at {
        html.raw(" ").time(at);
    }
    html.raw("</span>");
}

fn add_sup(sup: &Sup, html: &mut Html) {
    html.raw("<li class=\"below\">\n<div id=\"").text(&sup.part).raw("\" class=\"sup ").raw(sup.state.standing.word());
    html.raw("\"><b class=\"name\">").text(&sup.name).raw("</b>");
    add_state(&sup.state, html);
    html.raw("<span class=\"tag\">").raw(sup.strategy).raw("</span>");
    add_window(sup, html);
    if sup.starts > 1 {
        html.raw("<span class=\"dim\">").show(sup.starts).raw(" starts</span>");
    }
    add_cause(sup, html);
    html.raw("</div>\n<ul>\n");
}

fn add_cause(sup: &Sup, html: &mut Html) {
    if let Some(cause) = sup.cause {
        html.raw("<span class=\"dim\">last ended: ").text(cause).raw("</span>");
    }
}

/// How full the window of restarts is: where it is full the next one ends the supervisor.
fn add_window(sup: &Sup, html: &mut Html) {
    let (now, most) = (sup.in_period, sup.intensity);
    html.raw("<span class=\"window");
    if now > 0 {
        html.raw(if now >= most { " down" } else { " way" });
    }
    html.raw("\"><svg viewBox=\"0 0 100 10\" preserveAspectRatio=\"none\" aria-hidden=\"true\"><rect class=\"all\" width=\"100\" height=\"10\"/>");
    html.raw("<rect width=\"").show(100 * now.min(most) / most.max(1)).raw("\" height=\"10\"/></svg>");
    html.show(now).raw(" of ").show(most).raw(" restarts in ").show(sup.period).raw(" s</span>");
}

fn add_kid(kid: &Kid, html: &mut Html) {
    html.raw("<li id=\"").text(&kid.part).raw("\" class=\"kid ").raw(kid.state.standing.word()).raw("\">");
    html.raw("<b class=\"name\" title=\"").text(&kid.path).raw("\">").text(&kid.name).raw("</b>");
    add_state(&kid.state, html);
    html.raw("<span class=\"facts\">");
    if let Some(pid) = kid.pid {
        html.raw("<span>pid ").show(pid).raw("</span>");
    }
    if kid.restarts > 0 {
        html.raw("<span>").show(kid.restarts).raw(if kid.restarts == 1 { " restart" } else { " restarts" });
        html.raw("</span>");
    }
    if let Some(usage) = &kid.usage {
        add_usage(*usage, html);
    }
    html.raw("</span>");
    add_last(kid, html);
    if let Some(says) = &kid.says {
        html.raw("<span class=\"says\">says <q>").text(says).raw("</q></span>");
    }
    add_lines(&kid.lines, html);
    html.raw("</li>\n");
}

fn add_usage(usage: Usage, html: &mut Html) {
    if let Some(bytes) = usage.memory {
        html.raw("<span>memory ").show(bytes / 1024).raw(" KiB</span>");
    }
    if let Some(time) = usage.processor_ms {
        html.raw("<span>processor ").text(&span(time)).raw("</span>");
    }
}

fn add_last(kid: &Kid, html: &mut Html) {
    let Some(last) = &kid.last else { return };
    html.raw("<span class=\"last\">").raw(if last.has_begun { "last end: " } else { "last start failed: " });
    html.text(&last.text).raw(", ").time(last.at).raw(" ago</span>");
}

fn add_lines(lines: &[String], html: &mut Html) {
    let Some(last) = lines.iter().rev().find(|line| !line.trim().is_empty()) else { return };
    html.raw("<details><summary><code>").text(last).raw("</code></summary><pre>");
    html.text(&lines.join("\n")).raw("</pre></details>");
}

#[cfg(test)]
mod tests {
    use super::*;

    const HOSTILE: &str = "</pre></li><script>alert(1)</script>\n<img src=x onerror='a' id=\"head\">\u{1b}";

    fn kid(name: &str, standing: Standing) -> Kid {
        Kid {
            part: format!("k0.{name}"),
            path: name.to_string(),
            name: name.to_string(),
            state: State::new(standing, HOSTILE),
            pid: Some(7),
            restarts: 1,
            last: Some(Last { at: 5, text: HOSTILE.to_string(), has_begun: true, is_asked: false, is_fine: false }),
            usage: None,
            says: Some(HOSTILE.to_string()),
            lines: vec![HOSTILE.to_string(), "last".to_string()],
        }
    }

    fn root() -> Sup {
        Sup {
            part: "s0".to_string(),
            path: String::new(),
            name: HOSTILE.to_string(),
            state: State::at(Standing::Up, "runs", 0),
            strategy: "one_for_one",
            in_period: 1,
            intensity: 4,
            period: 5,
            starts: 2,
            cause: Some("intensity"),
        }
    }

    fn body(kids: Vec<Kid>) -> String {
        let items: Vec<Item> =
            [Item::Sup(root())].into_iter().chain(kids.into_iter().map(Item::Kid)).chain([Item::End]).collect();
        let whole = Whole { title: HOSTILE.to_string(), pid: 3, doing: "" };
        body_of(&whole, &items, Times::default())
    }

    #[test]
    fn no_text_becomes_markup_or_a_line() {
        let text = body(vec![kid(HOSTILE, Standing::Down), kid("b", Standing::Up)]);
        assert!(!text.contains("<script") && !text.contains("<img") && !text.contains('\u{1b}'), "{text}");
        assert_eq!(text.matches("</li>").count(), 1 + 2 + 1, "{text}");
        let ids: Vec<&str> = text.lines().filter_map(crate::serve::news::id_of).collect();
        assert_eq!((ids.len(), &ids[..3], ids[4]), (5, &["head", "first", "s0"][..], "k0.b"), "{text}");
    }

    #[test]
    fn what_is_not_up_stands_first_the_worst_in_front() {
        let text = body(vec![
            kid("a", Standing::Up),
            kid("b", Standing::Way),
            kid("c", Standing::Over),
            kid("d", Standing::Down),
        ]);
        let first = text.lines().find(|line| line.contains("id=\"first\"")).unwrap();
        let order: Vec<&str> = first.split("<a href=\"#k0.").skip(1).map(|rest| &rest[..1]).collect();
        assert_eq!(order, ["d", "b"]);
        assert!(text.contains("1 down</b> ") && text.contains("1 over</b>") && text.contains("data-title=\"1 down: "));
        let many = body((0..100).map(|number| kid(&format!("x{number}"), Standing::Down)).collect());
        assert!(many.contains("and 60 more"), "{many}");
        assert!(body(vec![kid("a", Standing::Up)]).contains("<section id=\"first\"></section>"));
    }

    #[test]
    fn a_window_says_how_full_it_is() {
        for (now, most, wanted) in [
            (0, 3, "window\"><svg"),
            (1, 3, "window way\"><svg"),
            (3, 3, "window down\"><svg"),
            (4, 3, "window down\"><svg"),
            (1, 0, "window down\"><svg"),
        ] {
            let mut html = Html::new(Times::default());
            add_window(&Sup { in_period: now, intensity: most, ..root() }, &mut html);
            let text = html.done();
            assert!(text.contains(wanted) && text.contains(&format!("{now} of {most} restarts")), "{text}");
        }
    }
}
