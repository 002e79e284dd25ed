//! What is wrong in a tree file, said for people: the file and the line, who has it, and what may have been meant.

use crate::near;
use crate::split;
use crate::subset;
use otp_supervision::{FaultPlace, TreeFault};
use std::path::Path;

const SUPERVISOR_KEYS: [&str; 5] = ["strategy", "intensity", "period", "auto_shutdown", "child"];
const CHILD_KEYS: [&str; 8] = ["id", "start", "restart", "significant", "shutdown", "type", "modules", "tree"];

/// What may have been meant by a key that isn't known.
fn near_to(fault: &TreeFault, place: &FaultPlace) -> String {
    match (&place.unknown, fault.child) {
        (Some(unknown), Some(_)) => split::near_key(unknown, &CHILD_KEYS),
        (Some(unknown), None) => near::question(unknown, SUPERVISOR_KEYS),
        (None, _) => String::new(),
    }
}

/// The sentence. Where the text was made of others, `places` says where its lines stand.
pub fn told(file: &Path, places: &[subset::Place], fault: &TreeFault) -> String {
    let (name, code) = (file.display(), fault.code);
    match fault.place.as_ref().and_then(|place| Some((place, place.line?))) {
        Some((place, line)) => {
            let at = places.get(line - 1).map_or_else(|| format!("{name}:{line}"), subset::Place::to_string);
            let key = fault.key.or(place.unknown.as_deref()).map_or_else(String::new, |key| format!(", {key}"));
            let (who, what, near) = (fault.who(), fault.what(), near_to(fault, place));
            format!("{at}: {who}{key}: {what}{near} (E{code}; otp check {name} tells all)")
        }
        None => format!("{name}: {} (E{code}; otp check {name} tells the line)", fault.text),
    }
}

#[cfg(test)]
mod tests {
    use super::*;
    use otp_supervision::{OpenError, Tree};

    fn told_of(text: &str) -> String {
        match Tree::open(text) {
            Err(OpenError::Refused(fault)) => told(Path::new("t"), &[], &fault),
            other => panic!("{other:?}: {text}"),
        }
    }

    const NESTED: &str = "intensity = 3\n\n[[child]]\nid = \"a\"\nstart = \"a\"\nmodules = [\n  \"x\", # [\n]\n\n[[child]]\n\
                          id = 'pool'\nstart = \"a\"\n[child.tree]\nperiod = 5\n[[child.tree.child]]\nid = \"b\"\nstart = \"a\"\n\
                          [[child.tree.child]]\nid = \"c\"\nstart = \"a\"\n[[child.tree.child.tree.child]]\nid = \"d\"\nstart = \"a\"\n\
                          [[child]]\nid = \"z\"\nstart = \"a\"\n[child.tree]\n";

    #[test]
    fn a_fault_has_its_line_and_who_has_it() {
        assert!(Tree::open(NESTED).is_ok());
        let with = |old: &str, new: &str| {
            assert!(NESTED.contains(old));
            told_of(&NESTED.replacen(old, new, 1))
        };
        for (told, wanted) in [
            (with("intensity", "intensty"), "t:1: the root, intensty: unknown key; did you mean intensity? (E11"),
            (
                with("intensity = 3", "intensity = 1001"),
                "t:1: the root, intensity: the number is out of its limits (E1;",
            ),
            (
                with("id = \"a\"", "id = \"a\"\nshutdwn = 3"),
                "t:5: child a, shutdwn: unknown key; did you mean shutdown?",
            ),
            (with("id = \"a\"", "id = \"a b\""), "t:4: child a b, id: the value is out of its limits (E2"),
            (with("period = 5", "period = 0"), "t:14: supervisor pool/, period: the number is out of its limits"),
            (with("period = 5", "x = 0"), "t:14: supervisor pool/, x: unknown key (E11"),
            (
                with("id = \"c\"\nstart", "id = \"c\"\nstrat"),
                "t:20: child pool/c, strat: unknown key; did you mean start?",
            ),
            (with("id = \"d\"\nstart = \"a\"", "id = \"d\""), "t:21: child pool/c/d, start: start is missing (E12"),
            (with("id = \"z\"", "id = \"a\""), "t:25: child a, id: "),
            (with("[[child]]", "[web]\ncommand = ['x']\n[[child]]"), "t:3: the root, web: unknown key (E11"),
        ] {
            assert!(told.starts_with(wanted), "{told}\n{wanted}");
        }
    }

    #[test]
    fn a_file_of_another_form_is_told_of_without_a_line() {
        for (text, wanted) in [
            ("child = [{id = \"a\", start = \"a\", x = 1}]", "t: table 0, child 0: unknown key (E11; otp check t"),
            ("a =", "t: table 0, the file is not TOML (E10"),
            ("[[child]]\nid = \"a\"\nstart = \"a\"\ntree.intensity = -1", "t: table 1, supervisor, intensity: "),
        ] {
            let told = told_of(text);
            assert!(told.starts_with(wanted), "{told}");
        }
    }

    #[test]
    fn no_text_makes_it_panic() {
        let pieces = [
            "[[child]]\n",
            "[child.tree]\n",
            "[[child.tree.child]]\n",
            "id = 'x'\n",
            "x = [\n",
            "]\n",
            "[",
            "=\n",
            "'",
            "é\n",
        ];
        let mut seed = 1_u64;
        for _ in 0..3000 {
            let mut text = String::new();
            for _ in 0..8 {
                seed = seed.wrapping_mul(6_364_136_223_846_793_005).wrapping_add(1);
                text.push_str(pieces[(seed >> 33) as usize % pieces.len()]);
            }
            if let Err(OpenError::Refused(fault)) = Tree::open(&text) {
                assert!(told(Path::new("t"), &[], &fault).starts_with("t:"));
            }
        }
    }
}
