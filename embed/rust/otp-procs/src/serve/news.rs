//! What differs between two pages, as events that a browser takes (server-sent events).

use std::fmt::Write;

/// The tail of a time's opening tag, and its end: what stands between is told anew by each page.
const TIME: &str = "<time ";
const TIME_END: &str = "</time>";

/// The id of a part, if a line is one.
pub fn id_of(line: &str) -> Option<&str> {
    let tag = line.strip_prefix('<')?;
    let (_, rest) = tag.split_once(|c: char| !c.is_ascii_alphanumeric())?;
    let (id, _) = rest.strip_prefix("id=\"")?.split_once('"')?;
    Some(id)
}

/// Whether two lines say the same, whatever the time is.
fn is_same(one: &str, other: &str) -> bool {
    one == other || without_times(one) == without_times(other)
}

fn without_times(line: &str) -> String {
    let mut rest = line;
    let mut out = String::new();
    while let Some((before, time)) = rest.split_once(TIME) {
        let (tag, behind) = time.split_once('>').unwrap_or((time, ""));
        let _ = write!(out, "{before}{TIME}{tag}");
        rest = behind.split_once(TIME_END).map_or("", |(_, behind)| behind);
    }
    out + rest
}

/// The event by which a page becomes a newer one; nothing, if both say the same.
pub fn between(old: &str, new: &str, mark: &str) -> Option<String> {
    if old.lines().count() != new.lines().count() {
        return Some(whole(new, mark));
    }
    let mut parts = Vec::new();
    for (before, now) in old.lines().zip(new.lines()).filter(|(before, now)| !is_same(before, now)) {
        match (id_of(before), id_of(now)) {
            (Some(one), Some(other)) if one == other => parts.push(now),
            _ => return Some(whole(new, mark)),
        }
    }
    (!parts.is_empty()).then(|| event("parts", mark, parts.into_iter()))
}

/// The event that has all of a page.
pub fn whole(body: &str, mark: &str) -> String {
    event("whole", mark, body.lines())
}

/// The event that says why nothing comes.
pub fn gone(why: &str) -> String {
    event("gone", "", why.lines())
}

fn event<'a>(name: &str, mark: &str, lines: impl Iterator<Item = &'a str>) -> String {
    let mut text = format!("event: {name}\n");
    if !mark.is_empty() {
        let _ = writeln!(text, "id: {mark}");
    }
    for line in lines {
        let _ = writeln!(text, "data: {line}");
    }
    text + "\n"
}

#[cfg(test)]
mod tests {
    use super::*;

    const OLD: &str = "<header id=\"head\">a</header>\n<ul>\n<li id=\"k0.a\">up <time datetime=\"x\">1 s</time></li>\n<li id=\"k0.b\">up</li>\n</ul>\n";

    #[test]
    fn lines_with_an_id_are_parts() {
        assert_eq!(id_of("<li id=\"k0.a\" class=\"kid\">x"), Some("k0.a"));
        assert_eq!(id_of("<ul>"), None);
        assert_eq!(id_of("<div class=\"x\" id=\"y\">"), None);
        assert_eq!(id_of("text id=\"y\""), None);
    }

    #[test]
    fn what_differs_is_told_and_times_alone_do_not() {
        assert_eq!(between(OLD, OLD, "1-2"), None);
        assert_eq!(between(OLD, &OLD.replace("1 s", "2 s"), "1-2"), None);
        let later = OLD.replace("datetime=\"x\"", "datetime=\"y\"");
        assert_eq!(
            between(OLD, &later, "1-2").unwrap(),
            "event: parts\nid: 1-2\ndata: <li id=\"k0.a\">up <time datetime=\"y\">1 s</time></li>\n\n"
        );
        let down = OLD.replace("<li id=\"k0.b\">up", "<li id=\"k0.b\">down").replace(">a<", ">b<");
        assert_eq!(between(OLD, &down, "1-2").unwrap().matches("\ndata: <").count(), 2);
    }

    #[test]
    fn where_the_shape_differs_all_is_told() {
        for other in [OLD.replace("k0.b", "k0.c"), OLD.replace("<ul>", "<ol>"), format!("{OLD}<p>\n")] {
            let text = between(OLD, &other, "1-2").unwrap();
            assert!(text.starts_with("event: whole\nid: 1-2\ndata: <header") && text.ends_with("\n\n"), "{text}");
        }
        assert_eq!(gone("no\ndaemon"), "event: gone\ndata: no\ndata: daemon\n\n");
    }
}
