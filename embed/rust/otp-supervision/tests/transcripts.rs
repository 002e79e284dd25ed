//! The transcripts of OTP that the gate replays, played through this crate: the same orders, to the byte.

mod common;

use common::script::play;
use std::fs;
use std::path::Path;

#[test]
fn transcripts_of_otp_are_played_to_the_byte() {
    let folder = Path::new(env!("CARGO_MANIFEST_DIR")).join("../../../crates/otp_parity/data");
    let mut played = 0;
    for entry in fs::read_dir(&folder).expect("the folder of transcripts") {
        let text = fs::read_to_string(entry.unwrap().path()).unwrap();
        for one in text.split("\n== ").skip(1) {
            let (name, rest) = one.split_once('\n').unwrap();
            let (_origin, rest) = rest.split_once('\n').unwrap();
            let (tree, rest) = rest.split_once("-- lines\n").unwrap();
            let (lines, orders) = rest.split_once("-- orders\n").unwrap();
            // One transcript is parted from the next by an empty line, of which the split has taken the end.
            let wanted = orders.trim_end_matches('\n');
            assert_eq!(play(tree, lines).trim_end_matches('\n'), wanted, "{name}\n{tree}\n{lines}");
            played += 1;
        }
    }
    assert!(played > 1_500, "only {played} transcripts were found");
}
