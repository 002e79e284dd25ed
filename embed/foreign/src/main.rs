use otp_supervision::{ChildSpec, Draft, Name, Order, Reading, Reason, Tree};
use std::time::Duration;

/// A child that crashes whenever it is up: the tree bears two crashes.
fn main() -> Result<(), Box<dyn std::error::Error>> {
    let job = ChildSpec::worker(Name::new("job")?, Name::new("job")?);
    let mut tree = Tree::of_draft(&Draft::new().intensity(2, Duration::from_secs(10)).child(job))?;
    while let Some(order) = tree.next_order()? {
        println!("{order}");
        if let Order::Start(process) = order {
            tree.up(Reading::ZERO, &process)?;
            tree.exited(Reading::ZERO, &process, Reason::error("boom"))?;
        }
    }
    Ok(())
}
