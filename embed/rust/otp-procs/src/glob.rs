//! Patterns of paths, as a shell has them: `*` is any letters but `/`, `?` is one.

/// Whether a word is a pattern.
pub fn is_pattern(word: &str) -> bool {
    word.contains(['*', '?'])
}

/// Whether a path is as the pattern says.
pub fn matches(pattern: &str, path: &str) -> bool {
    let (pattern, path) = (pattern.as_bytes(), path.as_bytes());
    let (mut at, mut in_path) = (0, 0);
    // Where the last star stands, and up to where it reaches.
    let mut star: Option<(usize, usize)> = None;
    while in_path < path.len() {
        match pattern.get(at) {
            Some(b'*') => {
                star = Some((at, in_path));
                at += 1;
            }
            Some(&byte) if byte == path[in_path] || (byte == b'?' && path[in_path] != b'/') => {
                (at, in_path) = (at + 1, in_path + 1);
            }
            _ => match star {
                Some((stands, reaches)) if path[reaches] != b'/' => {
                    (star, at, in_path) = (Some((stands, reaches + 1)), stands + 1, reaches + 1);
                }
                _ => return false,
            },
        }
    }
    pattern[at..].iter().all(|&byte| byte == b'*')
}

#[cfg(test)]
mod tests {
    use super::*;

    #[test]
    fn patterns_are_those_of_a_shell() {
        for (pattern, path, wanted) in [
            ("*", "a", true),
            ("*", "pool/a", false),
            ("pool/*", "pool/a", true),
            ("pool/*", "pool/x/a", false),
            ("*/a", "pool/a", true),
            ("w?b*", "web1", true),
            ("w?b*", "wb", false),
            ("a*b*c", "aXbYbZc", true),
            ("a*b*c", "aXc", false),
            ("**", "abc", true),
            ("a?", "a/", false),
            ("", "", true),
            ("a", "ab", false),
            ("ab", "a", false),
        ] {
            assert_eq!(matches(pattern, path), wanted, "{pattern} {path}");
        }
        assert!(is_pattern("a*") && is_pattern("?") && !is_pattern("a/b"));
    }
}
