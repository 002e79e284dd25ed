//! Cuts the output of a process into lines, and looks for a text in them.

/// A line that goes on for longer is cut into pieces of at most so many bytes, each between two characters.
pub const LONGEST: usize = 8192;

/// A line without its end, or a piece of one.
#[derive(Clone, Copy, Debug, PartialEq, Eq)]
pub struct Line<'a> {
    /// Its bytes.
    pub bytes: &'a [u8],
    /// The number of the piece, from 1, if the line goes on with the next one.
    pub part: Option<u64>,
}

/// What came of a line that isn't whole.
#[derive(Debug, Default)]
pub struct Lines {
    rest: Vec<u8>,
    /// So many pieces of it were told.
    parts: u64,
}

impl Lines {
    /// Tells each line that is whole with these bytes, and of one that is too long a piece.
    pub fn take(&mut self, bytes: &[u8], tell: &mut dyn FnMut(Line<'_>)) {
        for piece in bytes.split_inclusive(|&byte| byte == b'\n') {
            let is_whole = piece.ends_with(b"\n");
            // Most lines come whole, and are told where they stand.
            if is_whole && self.rest.is_empty() && self.parts == 0 && piece.len() <= LONGEST {
                tell(Line { bytes: without_end(piece), part: None });
                continue;
            }
            self.rest.extend_from_slice(piece);
            self.tell_parts(tell);
            if is_whole {
                self.end(tell);
            }
        }
    }

    /// Tells what there is of a line whose end doesn't come.
    pub fn finish(&mut self, tell: &mut dyn FnMut(Line<'_>)) {
        if !self.rest.is_empty() || self.parts > 0 {
            self.end(tell);
        }
    }

    /// What came of a line that isn't whole, and how many pieces of it were told.
    pub fn left(&self) -> (Vec<u8>, u64) {
        (self.rest.clone(), self.parts)
    }

    /// Goes on with that.
    pub fn left_by(rest: &[u8], parts: u64) -> Self {
        Lines { rest: rest.to_vec(), parts }
    }

    fn tell_parts(&mut self, tell: &mut dyn FnMut(Line<'_>)) {
        let mut told = 0;
        while without_end(&self.rest[told..]).len() > LONGEST {
            let end = told + part_of(&self.rest[told..]);
            self.parts += 1;
            tell(Line { bytes: &self.rest[told..end], part: Some(self.parts) });
            told = end;
        }
        self.rest.drain(..told);
    }

    fn end(&mut self, tell: &mut dyn FnMut(Line<'_>)) {
        tell(Line { bytes: without_end(&self.rest), part: None });
        self.rest.clear();
        self.parts = 0;
    }
}

fn without_end(line: &[u8]) -> &[u8] {
    let end = line.iter().rposition(|byte| !matches!(byte, b'\n' | b'\r')).map_or(0, |last| last + 1);
    &line[..end]
}

/// How much of a line that is too long is a piece: up to the last beginning of a character.
fn part_of(line: &[u8]) -> usize {
    let begins = |at: &usize| line[*at] & 0xC0 != 0x80;
    (LONGEST - 3..=LONGEST).rev().find(begins).unwrap_or(LONGEST)
}

/// Looks for a text in lines, also where a line was cut within it.
#[derive(Debug)]
pub struct Search {
    wanted: Vec<u8>,
    /// The end of the piece before, of the same line.
    before: Vec<u8>,
}

impl Search {
    /// Looks for this text.
    pub fn new(wanted: &str) -> Self {
        Search { wanted: wanted.into(), before: Vec::new() }
    }

    /// Whether the text ends in this line or piece.
    pub fn finds(&mut self, line: Line<'_>) -> bool {
        self.before.extend_from_slice(line.bytes);
        let is_found = self.wanted.is_empty() || self.before.windows(self.wanted.len()).any(|part| part == self.wanted);
        let kept = if line.part.is_some() { self.wanted.len().saturating_sub(1) } else { 0 };
        self.before.drain(..self.before.len().saturating_sub(kept));
        is_found
    }
}

#[cfg(test)]
mod tests {
    use super::*;

    /// The lines that pieces of these sizes make of a text, each with the number of its part.
    fn lines_of(text: &[u8], sizes: usize) -> Vec<(Vec<u8>, Option<u64>)> {
        let (mut lines, mut told) = (Lines::default(), Vec::new());
        let mut tell = |line: Line<'_>| told.push((line.bytes.to_vec(), line.part));
        for piece in text.chunks(sizes) {
            lines.take(piece, &mut tell);
        }
        lines.finish(&mut tell);
        told
    }

    #[test]
    fn lines_are_whole_however_they_come() {
        let long = "x".repeat(LONGEST);
        let text = format!("one\r\n\n{long}\n{long}y\nlast");
        for sizes in [1, 7, 4096, 8192, 8193, 1 << 20] {
            let told: Vec<(String, Option<u64>)> = lines_of(text.as_bytes(), sizes)
                .into_iter()
                .map(|(line, part)| (String::from_utf8(line).unwrap(), part))
                .collect();
            let wanted = [("one", None), ("", None), (&long, None), (&long, Some(1)), ("y", None), ("last", None)];
            assert_eq!(told, wanted.map(|(line, part)| (line.to_string(), part)), "{sizes}");
        }
    }

    #[test]
    fn a_line_that_is_too_long_is_cut_between_characters() {
        for c in ["x", "é", "€", "😀"] {
            for before in ["", "a", "ab", "abc"] {
                let text = format!("{before}{}", c.repeat(5 * LONGEST / c.len()));
                let told = lines_of(format!("{text}\n").as_bytes(), 4096);
                assert!(told.len() >= 5 && told.iter().all(|(line, _)| line.len() <= LONGEST));
                let parts: Vec<_> = (1..told.len() as u64).map(Some).chain([None]).collect();
                assert_eq!(told.iter().map(|(_, part)| *part).collect::<Vec<_>>(), parts);
                let whole: String = told.iter().map(|(line, _)| std::str::from_utf8(line).unwrap()).collect();
                assert_eq!(whole, text);
            }
        }
        // What is no text is cut, too.
        assert!(lines_of(&vec![0xBF; 3 * LONGEST], 4096).iter().all(|(line, _)| line.len() <= LONGEST));
    }

    #[test]
    fn a_text_is_found_in_a_line_and_over_a_cut_but_not_over_two_lines() {
        let finds = |text: &str| {
            let (mut lines, mut search, mut is_found) = (Lines::default(), Search::new("is up"), false);
            lines.take(text.as_bytes(), &mut |line| is_found |= search.finds(line));
            is_found
        };
        assert!(finds("it is up\n") && finds(&format!("{}is up\n", "x".repeat(5000))));
        for before in LONGEST - 6..LONGEST + 2 {
            assert!(finds(&format!("{}is up, and more\n", "x".repeat(before))), "{before}");
        }
        assert!(!finds("is\n up\n") && !finds("it is\n") && !finds("it is up"));
        assert!(!finds(&format!("{}is\n up\n", "x".repeat(LONGEST))));
    }
}
