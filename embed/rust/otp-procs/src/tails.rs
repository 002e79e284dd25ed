//! The end of what each process has written, for `ctl tail PATH`, also once it has ended.

use std::collections::{BTreeMap, VecDeque};

/// So many bytes are kept of each.
const KEPT: usize = 16 * 1024;

/// By paths.
#[derive(Debug, Default)]
pub struct Tails(BTreeMap<String, VecDeque<u8>>);

impl Tails {
    /// These bytes were written.
    pub fn add(&mut self, path: &str, bytes: &[u8]) {
        let bytes = &bytes[bytes.len().saturating_sub(KEPT)..];
        if !self.0.contains_key(path) {
            self.0.insert(path.to_string(), VecDeque::new());
        }
        let Some(tail) = self.0.get_mut(path) else { return };
        tail.drain(..(tail.len() + bytes.len()).saturating_sub(KEPT).min(tail.len()));
        tail.extend(bytes);
    }

    /// What is kept of each.
    pub fn all(&self) -> Vec<(String, Vec<u8>)> {
        self.0.iter().map(|(path, tail)| (path.clone(), tail.iter().copied().collect())).collect()
    }

    /// What was written by a process of the first path of each is of the second one; what nobody knows is forgotten.
    pub fn rename(&mut self, renamed: &[(String, String)], is_known: impl Fn(&str) -> bool) {
        let taken: Vec<_> = renamed.iter().filter_map(|(old, new)| Some((new.clone(), self.0.remove(old)?))).collect();
        self.0.extend(taken);
        self.0.retain(|path, _| is_known(path));
    }

    /// A dynamic child never comes again.
    pub fn forget(&mut self, path: &str) {
        self.0.remove(path);
    }

    /// The last lines, if any were written.
    pub fn last(&self, path: &str, count: usize) -> Option<String> {
        let tail = self.0.get(path)?;
        // Where the line begins that is so many lines in front of the end.
        let ends = tail.iter().enumerate().rev().skip(1).filter(|(_, byte)| **byte == b'\n');
        let begins = ends.map(|(at, _)| at + 1).nth(count.saturating_sub(1));
        // What was cut off in front is no whole line.
        let is_cut = tail.len() >= KEPT;
        let first = || tail.iter().position(|&byte| byte == b'\n').filter(|_| is_cut).map_or(0, |end| end + 1);
        let bytes: Vec<u8> = tail.range(begins.unwrap_or_else(first)..).copied().collect();
        Some(last_lines(&bytes, count))
    }
}

/// The last so many lines of a text.
pub fn last_lines(bytes: &[u8], count: usize) -> String {
    let text = String::from_utf8_lossy(bytes);
    let lines: Vec<&str> = text.split_inclusive('\n').collect();
    lines[lines.len().saturating_sub(count)..].concat()
}

#[cfg(test)]
mod tests {
    use super::*;

    #[test]
    fn the_last_lines_are_kept_and_are_whole() {
        let mut tails = Tails::default();
        assert_eq!(tails.last("a", 5), None);
        for number in 0..10_000 {
            tails.add("a", format!("line {number}\n").as_bytes());
        }
        assert_eq!(tails.last("a", 2).as_deref(), Some("line 9998\nline 9999\n"));
        let all = tails.last("a", 100_000).unwrap();
        assert!(all.starts_with("line ") && all.len() > KEPT - 20 && all.len() <= KEPT, "{}", all.len());
        tails.add("a", &vec![b'x'; 3 * KEPT]);
        tails.add("a", b"\nend");
        assert_eq!(tails.last("a", 1).as_deref(), Some("end"));
        tails.forget("a");
        assert_eq!(tails.last("a", 1), None);
    }
}
