//! Restarts through this crate: of a tree of one child, and of one with 256, or of so many. It prints the nanoseconds that one takes.
//! usage: events [COUNT [CHILDREN]]

use otp_supervision::{Note, OrderRef, ProcessId, Reading, Reason, SupervisorId, Tree};
use std::fmt::Write;
use std::time::Instant;

fn measure(children: u64, count: u64) -> Result<f64, Box<dyn std::error::Error>> {
    let mut text = String::from("intensity = 1000\nperiod = 1\n");
    // Names of two letters, as the core's children have them (bench/core/src/lib.rt.txt).
    let letter = |number: u64| char::from(b'a' + (number % 16) as u8);
    for place in 0..children {
        let (high, low) = (letter(place / 16), letter(place));
        write!(text, "[[child]]\nid = \"{high}{low}\"\nstart = \"{high}{low}\"\n")?;
    }
    let mut tree = Tree::open(text)?;
    let crash = Reason::error("x");
    let (mut last, mut begun) = (ProcessId::new(0), Instant::now());
    // The first turn opens the tree, and isn't measured.
    for number in 0..=count {
        let now = Reading::from_millis(number * 10);
        if number > 0 {
            tree.note(now, SupervisorId::ROOT, Note::Exit(last, crash))?;
        }
        // Each start succeeds at once.
        while let Some(order) = tree.next_order_ref()? {
            if let OrderRef::Start(process) = order {
                last = process.number();
                tree.note(now, SupervisorId::ROOT, Note::Up(last))?;
            }
        }
        if number == 0 {
            begun = Instant::now();
        }
    }
    Ok(begun.elapsed().as_nanos() as f64 / count as f64)
}

fn main() -> Result<(), Box<dyn std::error::Error>> {
    let count = std::env::args().nth(1).map_or(Ok(200_000), |word| word.parse())?;
    let children = std::env::args().nth(2).map(|word| word.parse()).transpose()?;
    for children in children.map_or_else(|| vec![1, 256], |children| vec![children]) {
        println!("rust {children} {:.0}", measure(children, count)?);
    }
    Ok(())
}
