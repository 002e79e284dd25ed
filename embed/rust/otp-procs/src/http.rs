//! HTTP/1: heads of requests, and answers. The control socket speaks it for the metrics, `ctl page --serve` for the page.
//!
//! A connection has one request and one answer. What a request has behind its head isn't read.

/// A head is no longer than this.
pub const LONGEST: usize = 8 * 1024;

/// What comes of a request.
#[derive(Clone, Copy, Debug, PartialEq, Eq)]
pub enum Status {
    /// It is answered.
    Fine = 200,
    /// It is no request.
    Malformed = 400,
    /// It has no token.
    Forbidden = 403,
    /// There is no such path.
    Missing = 404,
    /// Nothing can be written here, nor deleted.
    ReadOnly = 405,
    /// It didn't come in its time.
    Slow = 408,
    /// Its head is too long.
    Endless = 431,
    /// There is no place for it, or nobody who knows the answer.
    Busy = 503,
    /// Whoever knows the answer says nothing.
    Silent = 504,
    /// It is of another version of HTTP.
    OtherVersion = 505,
}

impl Status {
    fn words(self) -> &'static str {
        match self {
            Status::Fine => "OK",
            Status::Malformed => "Bad Request",
            Status::Forbidden => "Forbidden",
            Status::Missing => "Not Found",
            Status::ReadOnly => "Method Not Allowed",
            Status::Slow => "Request Timeout",
            Status::Endless => "Request Header Fields Too Large",
            Status::Busy => "Service Unavailable",
            Status::Silent => "Gateway Timeout",
            Status::OtherVersion => "HTTP Version Not Supported",
        }
    }
}

/// Plain text.
pub const PLAIN: &str = "text/plain; charset=utf-8";

/// The head of a request.
#[derive(Clone, Debug, PartialEq, Eq)]
pub struct Head {
    method: String,
    path: String,
    query: String,
    fields: Vec<(String, String)>,
}

impl Head {
    /// The head that these bytes begin with; nothing, as long as it isn't whole.
    pub fn read(bytes: &[u8]) -> Option<Result<Head, Status>> {
        let room = &bytes[..bytes.len().min(LONGEST)];
        let mut lines = Vec::new();
        let mut from = 0;
        while let Some(end) = room[from..].iter().position(|&byte| byte == b'\n') {
            let line = String::from_utf8_lossy(&room[from..from + end]).trim_end_matches('\r').to_string();
            from += end + 1;
            match (line.is_empty(), lines.is_empty()) {
                (true, false) => return Some(Head::of(&lines)),
                // Some clients send an empty line in front.
                (true, true) => {}
                (false, _) => lines.push(line),
            }
            // What is no request is told so before its end comes.
            if lines.len() == 1
                && let Err(status) = Head::of(&lines)
            {
                return Some(Err(status));
            }
        }
        (bytes.len() >= LONGEST).then_some(Err(Status::Endless))
    }

    fn of(lines: &[String]) -> Result<Head, Status> {
        let mut head = Head::of_first(lines.first().ok_or(Status::Malformed)?)?;
        for line in &lines[1..] {
            let (name, value) = line.split_once(':').ok_or(Status::Malformed)?;
            head.fields.push((name.to_ascii_lowercase(), value.trim().to_string()));
        }
        Ok(head)
    }

    fn of_first(line: &str) -> Result<Head, Status> {
        let words: Vec<&str> = line.split(' ').collect();
        let [method, target, version] = words[..] else { return Err(Status::Malformed) };
        if method.is_empty() || !method.bytes().all(|byte| byte.is_ascii_uppercase()) {
            return Err(Status::Malformed);
        }
        match version.strip_prefix("HTTP/") {
            None => return Err(Status::Malformed),
            Some(number) if !number.starts_with("1.") => return Err(Status::OtherVersion),
            Some(_) => {}
        }
        let host = target.strip_prefix("http://");
        let target = host.map_or(target, |rest| rest.find('/').map_or("/", |at| &rest[at..]));
        if !target.starts_with('/') || target.bytes().any(|byte| !byte.is_ascii_graphic()) {
            return Err(Status::Malformed);
        }
        let (path, query) = target.split_once('?').unwrap_or((target, ""));
        Ok(Head { method: method.to_string(), path: path.to_string(), query: query.to_string(), fields: Vec::new() })
    }

    /// The path, if it is to be read: with the body or without it.
    pub fn path(&self) -> Result<&str, Status> {
        if matches!(self.method.as_str(), "GET" | "HEAD") { Ok(&self.path) } else { Err(Status::ReadOnly) }
    }

    /// The answer is to have no body.
    pub fn is_bodiless(&self) -> bool {
        self.method == "HEAD"
    }

    /// The value of a field.
    pub fn field(&self, name: &str) -> Option<&str> {
        self.fields.iter().find(|(known, _)| known == name).map(|(_, value)| value.as_str())
    }

    /// The value of a word of the query.
    pub fn word(&self, name: &str) -> Option<&str> {
        let mut words = self.query.split('&').filter_map(|word| word.split_once('='));
        words.find(|(known, _)| *known == name).map(|(_, value)| value)
    }
}

/// Whether these bytes begin with the first line of a request by HTTP.
pub fn is_begun(bytes: &[u8]) -> bool {
    let Some(end) = bytes.iter().position(|&byte| byte == b'\n') else { return false };
    let line = bytes[..end].strip_suffix(b"\r").unwrap_or(&bytes[..end]);
    line.rsplit(|&byte| byte == b' ').next().is_some_and(|last| last.starts_with(b"HTTP/"))
}

/// The head of an answer whose body is of this kind, and has this length where that is known. More lines may be given, each with
/// its end.
pub fn head_of(status: Status, kind: &str, length: Option<usize>, more: &str) -> String {
    let length = length.map_or(String::new(), |length| format!("Content-Length: {length}\r\n"));
    let allowed = if status == Status::ReadOnly { "Allow: GET, HEAD\r\n" } else { "" };
    format!(
        "HTTP/1.1 {} {}\r\nContent-Type: {kind}\r\n{length}{allowed}X-Content-Type-Options: nosniff\r\nCache-Control: no-store\r\n\
         Connection: close\r\n{more}\r\n",
        status as u16,
        status.words()
    )
}

/// A whole answer: its head, and this text.
pub fn answer(status: Status, kind: &str, text: &str) -> String {
    head_of(status, kind, Some(text.len()), "") + text
}

/// A whole answer to a request that comes to nothing, and why.
pub fn refusal(status: Status, text: &str) -> String {
    answer(status, PLAIN, &format!("{text}\n"))
}

#[cfg(test)]
mod tests {
    use super::*;

    fn read(text: &str) -> Option<Result<Head, Status>> {
        Head::read(text.as_bytes())
    }

    #[test]
    fn a_head_is_read_once_it_is_whole() {
        let text = "GET /events?after=1-2&token=ab HTTP/1.1\r\nHost: x\r\nAuthorization:  Bearer y \r\n\r\nmore";
        for end in 0..text.len() - 4 {
            assert_eq!(read(&text[..end]), None, "{end}");
        }
        let head = read(text).unwrap().unwrap();
        assert_eq!((head.path(), head.word("after"), head.word("token")), (Ok("/events"), Some("1-2"), Some("ab")));
        assert_eq!((head.field("authorization"), head.field("x"), head.word("x")), (Some("Bearer y"), None, None));
        let head = read("\r\nHEAD http://x/metrics HTTP/1.0\n\n").unwrap().unwrap();
        assert!(head.path() == Ok("/metrics") && head.is_bodiless());
    }

    #[test]
    fn what_is_no_request_has_its_status() {
        for (text, status) in [
            ("nonsense\n", Status::Malformed),
            ("GET / HTTP/2.0\n", Status::OtherVersion),
            ("GET  / HTTP/1.1\n", Status::Malformed),
            ("get / HTTP/1.1\n", Status::Malformed),
            ("GET x HTTP/1.1\n", Status::Malformed),
            ("GET /\u{7} HTTP/1.1\n", Status::Malformed),
            ("GET / HTTP/1.1\nno field\n\n", Status::Malformed),
        ] {
            assert_eq!(read(text), Some(Err(status)), "{text}");
        }
        assert_eq!(read("DELETE / HTTP/1.1\n\n").unwrap().unwrap().path(), Err(Status::ReadOnly));
        assert_eq!(read(&format!("GET / HTTP/1.1\n{}", "a: b\n".repeat(LONGEST))), Some(Err(Status::Endless)));
        assert_eq!(Head::read(&vec![0; LONGEST]), Some(Err(Status::Endless)));
        assert_eq!(Head::read(&vec![0; LONGEST - 1]), None);
    }

    #[test]
    fn a_request_by_http_is_known_by_its_first_line() {
        assert!(is_begun(b"GET / HTTP/1.1\r\n") && is_begun(b"x HTTP/9\nmore") && !is_begun(b"GET / HTTP/1.1"));
        assert!(!is_begun(b"status\n") && !is_begun(b"status HTTP\n") && !is_begun(b"\nGET / HTTP/1.1\n"));
    }

    #[test]
    fn an_answer_says_how_long_it_is_and_what_may_be_asked() {
        let text = refusal(Status::ReadOnly, "é");
        let (head, body) = text.split_once("\r\n\r\n").unwrap();
        assert!(head.starts_with("HTTP/1.1 405 Method Not Allowed\r\n") && head.contains("\r\nAllow: GET, HEAD\r\n"));
        assert!(head.contains("\r\nContent-Length: 3\r\n") && body == "é\n", "{head}");
    }
}
