//! How many restarts a second: a child that crashes at once, beside threads that are started one after the other without a supervisor.
//! usage: restarts [ROUNDS]

use otp_threads::{Cause, Supervisor};
use std::thread;
use std::time::{Duration, Instant};

/// A supervisor bears so many restarts in a second at the most.
const RESTARTS: u32 = 1000;

/// So many children a second.
fn rate(begun: Instant) -> f64 {
    f64::from(RESTARTS + 1) / begun.elapsed().as_secs_f64()
}

fn supervised() -> Result<f64, Box<dyn std::error::Error>> {
    let begun = Instant::now();
    let tree = Supervisor::new().intensity(RESTARTS.into(), Duration::from_secs(1));
    let ended = tree.child("job", |_| Err("at once".into())).run()?;
    assert_eq!(ended.cause, Cause::Intensity, "it took longer than a second");
    Ok(rate(begun))
}

fn plain() -> Result<f64, Box<dyn std::error::Error>> {
    let begun = Instant::now();
    for _ in 0..=RESTARTS {
        // Its crash is a value, too, and is looked at.
        let job = thread::Builder::new().name("job".to_string()).spawn(|| Err::<(), _>("at once".to_string()))?;
        assert!(job.join().is_ok_and(|outcome| outcome.is_err()));
    }
    Ok(rate(begun))
}

fn median(mut rates: Vec<f64>) -> f64 {
    rates.sort_by(f64::total_cmp);
    rates[rates.len() / 2]
}

fn main() -> Result<(), Box<dyn std::error::Error>> {
    let rounds = std::env::args().nth(1).map_or(Ok(9), |word| word.parse::<usize>())?.max(1);
    // One after the other in turn, so that both see the same machine.
    let rates =
        (0..rounds).map(|_| Ok((supervised()?, plain()?))).collect::<Result<Vec<_>, Box<dyn std::error::Error>>>()?;
    let (supervised, plain) = rates.into_iter().unzip();
    println!("restarts a second: {:.0}", median(supervised));
    println!("plain threads a second: {:.0}", median(plain));
    Ok(())
}
