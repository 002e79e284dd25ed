//! Threads under supervision, as they are seen from outside. Tests wait for things, and measure no time.

use otp_threads::{
    Alarm, Answer, CallError, Cause, Child, Ended, Event, Handle, Outcome, ProcessId, Refusal, Refused, Restart, Stop,
    Strategy, Supervisor,
};
use std::sync::atomic::{AtomicU32, Ordering};
use std::sync::mpsc::{Receiver, Sender, channel};
use std::sync::{Arc, Mutex};
use std::thread::JoinHandle;
use std::time::Duration;

const LONG: Duration = Duration::from_secs(60);

fn secs(seconds: u64) -> Duration {
    Duration::from_secs(seconds)
}

/// A child that runs until it is to stop.
#[allow(clippy::unnecessary_wraps)]
fn steady(stop: &Stop) -> Outcome {
    while !stop.wait(LONG) {}
    Ok(())
}

/// A tree that runs on a thread of its own, and the events that it tells.
struct Running {
    handle: Handle,
    events: Receiver<String>,
    thread: JoinHandle<Result<Ended, Refused>>,
    seen: Vec<String>,
}

fn begin(supervisor: Supervisor) -> Running {
    let (told, events): (Sender<String>, _) = channel();
    // Where nobody listens any more that is well.
    let supervisor = supervisor.events(move |event: &Event| drop(told.send(event.to_string())));
    let handle = supervisor.handle();
    Running { handle, events, thread: std::thread::spawn(|| supervisor.run()), seen: Vec::new() }
}

impl Running {
    /// Waits until this event is told.
    fn until(&mut self, wanted: &str) {
        while self.seen.last().is_none_or(|last| last != wanted) {
            match self.events.recv_timeout(LONG) {
                Ok(event) => self.seen.push(event),
                Err(why) => panic!("{wanted} never came ({why}): {:?}", self.seen),
            }
        }
    }

    fn end(mut self) -> (Ended, Vec<String>) {
        let ended = self.thread.join().unwrap().unwrap();
        self.seen.extend(self.events.iter());
        (ended, self.seen)
    }
}

#[test]
fn what_was_started_stops_in_reverse_order() {
    let pool = Supervisor::new().child("b", steady);
    let mut tree = begin(Supervisor::new().child("a", steady).supervisor("pool", pool).child("c", steady));
    tree.until("ready");
    tree.handle.stop();
    let (ended, seen) = tree.end();
    assert_eq!((ended.cause, ended.last), (Cause::Asked, None));
    let exits: Vec<&String> =
        seen.iter().filter(|event| event.starts_with("exit") || event.starts_with("start")).collect();
    assert_eq!(
        exits,
        [
            "start a #1",
            "start pool/b #3",
            "start c #4",
            "exit c #4 shutdown",
            "exit pool/b #3 shutdown",
            "exit a #1 shutdown"
        ]
    );
}

#[test]
fn crashes_and_panics_are_counted_and_the_last_is_told() {
    let tries = AtomicU32::new(0);
    let job = move |_: &Stop| match tries.fetch_add(1, Ordering::SeqCst) {
        0 => Err("no luck".into()),
        1 => panic!("{}", "oh no"),
        _ => panic!("at last"),
    };
    let (ended, seen) = begin(Supervisor::new().intensity(2, secs(60)).child("job", job)).end();
    assert_eq!(ended.cause, Cause::Intensity);
    assert_eq!(ended.last.unwrap().to_string(), "job: error:panic:at_last");
    let exits: Vec<&String> = seen.iter().filter(|event| event.starts_with("exit")).collect();
    assert_eq!(
        exits,
        ["exit job #1 error:no_luck", "exit job #2 error:panic:oh_no", "exit job #3 error:panic:at_last"]
    );
}

#[test]
fn a_pool_gives_up_and_is_started_anew() {
    let left = AtomicU32::new(3);
    let flaky = move |stop: &Stop| {
        if left.fetch_update(Ordering::SeqCst, Ordering::SeqCst, |left| left.checked_sub(1)).is_ok() {
            return Err("flaky".into());
        }
        steady(stop)
    };
    let pool = Supervisor::new()
        .strategy(Strategy::OneForAll)
        .intensity(1, secs(60))
        .child("mate", steady)
        .child("flaky", flaky);
    let mut tree = begin(Supervisor::new().supervisor("pool", pool));
    tree.until("end pool intensity: pool/flaky: error:flaky");
    // Once more, and then it runs.
    for _ in 0..2 {
        let starts = |tree: &Running| tree.seen.iter().filter(|event| event.starts_with("start pool/flaky")).count();
        while starts(&tree) < 4 {
            tree.seen.push(tree.events.recv_timeout(LONG).unwrap());
        }
    }
    assert!(matches!(tree.handle.which("pool"), Ok(Answer::Which(lines)) if lines.len() == 2));
    tree.handle.stop();
    assert_eq!(tree.end().0.cause, Cause::Asked);
}

#[test]
fn one_that_hears_nothing_is_given_up() {
    let (done, waits) = channel::<()>();
    let waits = Mutex::new(waits);
    let deaf = move |_: &Stop| {
        let _ = waits.lock().map(|waits| waits.recv());
        Ok(())
    };
    let mut tree = begin(Supervisor::new().add("deaf", Child::new(deaf).shutdown(Duration::from_millis(50))));
    tree.until("ready");
    tree.handle.stop();
    tree.until("give up deaf #1");
    assert_eq!(tree.end().0.cause, Cause::Asked);
    drop(done);
}

#[test]
fn calls_are_made_from_another_thread() {
    let mut tree = begin(Supervisor::new().child("a", steady).supervisor("pool", Supervisor::new()));
    tree.until("ready");
    let handle = tree.handle.clone();
    assert_eq!(handle.terminate("a"), Ok(Answer::Done));
    assert_eq!(handle.terminate("a/b"), Err(CallError::NoSuchPath));
    assert_eq!(handle.delete("b"), Err(CallError::Refused(Refusal::NotFound)));
    assert!(matches!(handle.restart("a"), Ok(Answer::Started(_))));
    assert!(matches!(
        handle.start("pool", "b", Child::new(steady).restart(Restart::Temporary)),
        Ok(Answer::Started(_))
    ));
    assert!(matches!(handle.start("pool", "no id", Child::new(steady)), Err(CallError::Fault(_))));
    assert!(matches!(handle.count("pool"), Ok(Answer::Count(counts)) if counts.active == 1));
    handle.stop();
    let (ended, seen) = tree.end();
    assert_eq!(ended.cause, Cause::Asked);
    assert!(seen.iter().any(|event| event.starts_with("exit pool/b")), "{seen:?}");
    assert_eq!(handle.count(""), Err(CallError::Over));
}

#[test]
fn a_job_that_is_done_ends_its_supervisor() {
    let done = Arc::new(AtomicU32::new(0));
    let counted = done.clone();
    let job = Child::new(move |_: &Stop| {
        counted.fetch_add(1, Ordering::SeqCst);
        Ok(())
    });
    let tree = Supervisor::new()
        .auto_shutdown(false)
        .child("web", steady)
        .add("job", job.restart(Restart::Transient).significant());
    let ended = tree.run().unwrap();
    assert_eq!((ended.cause, done.load(Ordering::SeqCst)), (Cause::Significant(ProcessId::new(2)), 1));
}

#[test]
fn what_is_no_tree_is_refused_and_starts_nothing() {
    let begun = Arc::new(AtomicU32::new(0));
    let counted = begun.clone();
    let body = move |_: &Stop| {
        counted.fetch_add(1, Ordering::SeqCst);
        Ok(())
    };
    let twice = Supervisor::new().child("a", body.clone()).child("a", body.clone()).run();
    assert!(matches!(&twice, Err(Refused::Tree(why)) if why.to_string().contains("E3")), "{twice:?}");
    assert!(matches!(Supervisor::new().child("no id", body).run(), Err(Refused::Id(..))));
    assert!(Supervisor::new().intensity(1, Duration::from_millis(1)).run().is_err());
    assert_eq!(begun.load(Ordering::SeqCst), 0);
}

#[test]
fn a_child_says_when_it_is_up() {
    let (open, gate) = channel::<()>();
    let gate = Mutex::new(gate);
    let slow = move |stop: &Stop| {
        gate.lock().unwrap().recv()?;
        stop.ready();
        steady(stop)
    };
    let tree = Supervisor::new().add("slow", Child::new(slow).wait_ready()).child("next", steady);
    let mut tree = begin(tree);
    tree.until("start slow #1");
    // Nothing follows until it says so.
    assert!(tree.events.recv_timeout(Duration::from_millis(50)).is_err());
    open.send(()).unwrap();
    tree.until("ready");
    assert_eq!(tree.seen, ["start slow #1", "start next #2", "ready"]);
    tree.handle.stop();
    assert_eq!(tree.end().0.cause, Cause::Asked);
}

#[test]
fn a_child_that_returns_before_it_is_up_did_not_start() {
    let ignored = Child::new(|_: &Stop| Ok(())).wait_ready().restart(Restart::Transient);
    let mut tree = begin(Supervisor::new().add("none", ignored).child("next", steady));
    tree.until("ready");
    assert_eq!(tree.seen, ["start none #1", "ignore none #1", "start next #2", "ready"]);
    tree.handle.stop();
    assert_eq!(tree.end().0.cause, Cause::Asked);
    let failing = Child::new(|_: &Stop| Err("no port".into())).wait_ready();
    let ended = Supervisor::new().child("first", steady).add("web", failing).run().unwrap();
    assert!(matches!(ended.cause, Cause::InitFailed(Some(id)) if id == "web"), "{ended:?}");
    assert_eq!(ended.last.unwrap().to_string(), "web: error:no_port");
}

#[test]
fn a_bridge_starts_and_stops_a_loop_of_others() {
    let (told, heard) = channel::<&str>();
    let (starts, stops) = (told.clone(), told);
    // Its loop knows nothing of supervisors: it hears of its end by a channel of its own.
    let start = move |_: &Alarm| {
        starts.send("started")?;
        let (quit, waits) = channel::<()>();
        Ok((quit, std::thread::spawn(move || waits.recv().is_ok())))
    };
    let stop = move |(quit, thread): (Sender<()>, JoinHandle<bool>)| {
        quit.send(()).unwrap();
        assert!(thread.join().unwrap());
        stops.send("stopped").unwrap();
    };
    let mut tree = begin(Supervisor::new().add("loop", Child::bridge(start, stop)));
    tree.until("ready");
    tree.handle.stop();
    assert_eq!(tree.end().1.last().map(String::as_str), Some("exit loop #1 shutdown"));
    assert_eq!(heard.iter().collect::<Vec<_>>(), ["started", "stopped"]);
    let refused = Child::bridge(|_| Err::<(), _>("no loop".into()), |()| ());
    let ended = Supervisor::new().add("loop", refused).run().unwrap();
    assert_eq!(ended.last.unwrap().to_string(), "loop: error:no_loop");
}

#[test]
fn a_dynamic_child_is_started_and_stopped_by_its_number() {
    let pool = Supervisor::new().strategy(Strategy::SimpleOneForOne).child("worker", steady);
    let mut tree = begin(Supervisor::new().supervisor("pool", pool));
    tree.until("ready");
    let Ok(Answer::Started(number)) = tree.handle.start_dynamic("pool") else { panic!("it isn't started") };
    assert_eq!(tree.handle.terminate_process("pool", number), Ok(Answer::Done));
    assert!(matches!(tree.handle.get("pool"), Ok(Answer::Spec(spec)) if spec.id == "pool"));
    tree.handle.stop();
    assert_eq!(tree.end().0.cause, Cause::Asked);
}
