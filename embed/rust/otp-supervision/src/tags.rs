//! Numbers of the caller's own beside start words. The library has start words alone: so a start word with such a number is handed to it
//! as another word, and read back where the library tells it.

use crate::name::Name;
use crate::spec::ChildSpec;
use std::collections::HashMap;

/// With this such a word begins. A start word of the caller's that does so, too, is handed over as another word as well.
const MARK: &str = "..";

/// A start word of the caller's, and the number that goes with it.
pub(crate) type Tagged = (Name, Option<u64>);

/// The words that were handed to the library.
#[derive(Clone, Debug, Default)]
pub(crate) struct Tags {
    /// The words before this place were in the tree's file, and are its own.
    first: usize,
    tagged: Vec<Tagged>,
    places: HashMap<Tagged, usize>,
}

/// The numbers that stand behind a mark. No place is ever as high as half of all numbers.
fn numbers_in(text: &[u8]) -> impl Iterator<Item = usize> {
    let marks = text.windows(MARK.len()).enumerate().filter(|(_, it)| *it == MARK.as_bytes());
    let numbers = marks.map(|(at, _)| {
        let digits = text[at + MARK.len()..].iter().take_while(|it| it.is_ascii_digit());
        digits.fold(0_usize, |number, digit| number.saturating_mul(10).saturating_add(usize::from(digit - b'0')))
    });
    numbers.filter(|number| *number < usize::MAX / 2)
}

impl Tags {
    /// None yet, and none of the words that a tree file has.
    pub(crate) fn beside(text: &[u8]) -> Self {
        Tags { first: numbers_in(text).max().map_or(0, |last| last + 1), ..Tags::default() }
    }

    /// These words, where the tree goes on under this file; nothing where the file may have one of these, or of those to come.
    pub(crate) fn and_beside(&self, text: &[u8]) -> Option<Self> {
        let first = Tags::beside(text).first;
        let is_free = first <= self.first || self.tagged.is_empty();
        is_free.then(|| Tags { first: first.max(self.first), ..self.clone() })
    }

    /// The start word by which the library knows this one.
    pub(crate) fn word_of(&mut self, start: Name, tag: Option<u64>) -> Name {
        if tag.is_none() && !start.as_str().starts_with(MARK) {
            return start;
        }
        let next = self.tagged.len();
        let place = *self.places.entry((start, tag)).or_insert(next);
        if place == next {
            self.tagged.push((start, tag));
        }
        // So many digits are a name, whatever the number.
        Name::new(&format!("{MARK}{}", self.first + place)).unwrap_or(start)
    }

    /// The caller's start word, and the number that goes with it.
    #[inline]
    pub(crate) fn of_word(&self, word: Name) -> Tagged {
        if self.tagged.is_empty() { (word, None) } else { self.found(word) }
    }

    fn found(&self, word: Name) -> Tagged {
        let place = word.as_str().strip_prefix(MARK).and_then(|digits| digits.parse::<usize>().ok());
        place.and_then(|place| self.tagged.get(place.checked_sub(self.first)?)).copied().unwrap_or((word, None))
    }

    /// A specification as the library is told it.
    pub(crate) fn hide(&mut self, spec: &ChildSpec) -> ChildSpec {
        ChildSpec { start: self.word_of(spec.start, spec.tag), ..spec.clone() }
    }

    /// A specification as the caller told it.
    pub(crate) fn show(&self, mut spec: ChildSpec) -> ChildSpec {
        (spec.start, spec.tag) = self.of_word(spec.start);
        spec
    }
}

#[cfg(test)]
mod tests {
    use super::*;

    fn name(text: &str) -> Name {
        Name::new(text).unwrap()
    }

    #[test]
    fn a_word_with_a_number_comes_back() {
        let mut tags = Tags::default();
        let told = [("a", Some(7)), ("a", Some(8)), ("b", Some(7)), ("a", None), ("..0", None), ("..0", Some(1))];
        let words = told.map(|(word, tag)| tags.word_of(name(word), tag));
        for (at, (word, tag)) in told.into_iter().enumerate() {
            assert_eq!(tags.of_word(words[at]), (name(word), tag));
            assert_eq!(words.iter().filter(|it| **it == words[at]).count(), 1);
            assert_eq!(tags.word_of(name(word), tag), words[at]);
        }
        assert!(words[3] == "a");
    }

    #[test]
    fn the_words_of_a_file_stay_what_they_are() {
        let mut tags = Tags::beside(b"start = \"..5\" # ..x ...17");
        let word = tags.word_of(name("a"), Some(1));
        assert!(word == "..18", "{word}");
        assert_eq!(tags.of_word(name("..5")), (name("..5"), None));
        assert_eq!(tags.of_word(word), (name("a"), Some(1)));
        assert_eq!(tags.of_word(name("..99999999999999999999")), (name("..99999999999999999999"), None));
        // Another file may have those alone that no word of the tree's is, or will be.
        assert!(tags.and_beside(b"start = '..17'").is_some() && tags.and_beside(b"start = '..18'").is_none());
        let other = Tags::beside(b"..5").and_beside(b"..900").unwrap();
        assert_eq!(other.first, 901);
    }
}
