//! The document around the parts.

use crate::page::html::{Html, Times};

const STYLE: &str = include_str!("style.css");
const SCRIPT: &str = include_str!("script.js");

/// Where a page stands.
#[derive(Clone, Copy, Debug, PartialEq, Eq)]
pub enum Frame<'a> {
    /// In a file, for itself: it has no script, and may load nothing.
    Alone,
    /// It is served, and follows what happens from this mark on. Its style and its script are known by the nonce.
    Served {
        /// The mark.
        mark: &'a str,
        /// The nonce.
        nonce: &'a str,
        /// Milliseconds from 1970 to now.
        now: u64,
    },
}

/// What stands in front of the parts, and behind them.
pub fn around(frame: Frame<'_>) -> (String, String) {
    let (mut head, mut end) = (Html::new(Times::default()), Html::new(Times::default()));
    head.raw("<!DOCTYPE html>\n<html lang=\"en\">\n<head>\n<meta charset=\"utf-8\">\n");
    head.raw("<meta name=\"viewport\" content=\"width=device-width, initial-scale=1\">\n");
    head.raw("<meta name=\"color-scheme\" content=\"light dark\">\n");
    match frame {
        Frame::Alone => {
            head.raw("<meta http-equiv=\"Content-Security-Policy\" content=\"default-src 'none'; style-src 'unsafe-inline'\">\n");
            head.raw("<title>otp-procs</title>\n<style>\n").raw(STYLE).raw("</style>\n</head>\n<body>\n<main>\n");
            end.raw("</main>\n</body>\n</html>\n");
        }
        Frame::Served { mark, nonce, now } => {
            head.raw("<title>otp-procs</title>\n<style nonce=\"").text(nonce).raw("\">\n").raw(STYLE);
            head.raw(
                "</style>\n</head>\n<body>\n<p id=\"link\">This page follows what happens where scripts may run; ",
            );
            head.raw("else load it again.</p>\n<main data-mark=\"").text(mark);
            head.raw("\" data-now=\"").show(now).raw("\">\n");
            end.raw("</main>\n<script nonce=\"").text(nonce).raw("\">\n").raw(SCRIPT);
            end.raw("</script>\n</body>\n</html>\n");
        }
    }
    (head.done(), end.done())
}

/// The policy of a page that is served.
pub fn policy(nonce: &str) -> String {
    format!(
        "default-src 'none'; style-src 'nonce-{nonce}'; script-src 'nonce-{nonce}'; connect-src 'self'; base-uri 'none'; \
         form-action 'none'; frame-ancestors 'none'"
    )
}

#[cfg(test)]
mod tests {
    use super::*;

    #[test]
    fn a_page_loads_nothing_and_alone_it_runs_nothing() {
        let (head, end) = around(Frame::Alone);
        assert!(head.contains("default-src 'none'") && !end.contains("script"), "{end}");
        let (served, tail) = around(Frame::Served { mark: "1-2", nonce: "n", now: 5 });
        assert!(served.contains("data-mark=\"1-2\" data-now=\"5\"") && tail.contains("<script nonce=\"n\">"));
        for text in [head, end, served, tail] {
            for loads in ["src=", "@import", "url(", "<link", "http://", "https://"] {
                assert!(!text.contains(loads), "{loads}");
            }
        }
    }
}
