//! With the feature `tokio` children are tasks: they hear that they are to stop without asking, and are cancelled.

use otp_threads::{Cause, Child, Ended, Event, Outcome, Reason, Restart, Stop, Supervisor};
use std::sync::atomic::{AtomicBool, AtomicU32, Ordering};
use std::sync::{Arc, Mutex};
use std::time::Duration;
use tokio::runtime::{Builder, Runtime};

fn runtime() -> Runtime {
    Builder::new_multi_thread().worker_threads(2).enable_time().build().unwrap()
}

async fn steady(stop: Stop) -> Outcome {
    stop.wanted().await;
    Ok(())
}

/// Runs a tree, and has it stopped once all are up; the events, and how it ended.
fn run_and_stop(supervisor: Supervisor) -> (Vec<String>, Ended) {
    let told = Arc::new(Mutex::new(Vec::new()));
    let (heard, handle) = (told.clone(), supervisor.handle());
    let supervisor = supervisor.events(move |event: &Event| {
        heard.lock().unwrap().push(event.to_string());
        if *event == Event::Ready {
            handle.stop();
        }
    });
    let ended = supervisor.run().unwrap();
    let told = std::mem::take(&mut *told.lock().unwrap());
    (told, ended)
}

#[test]
fn tasks_and_threads_stand_in_one_tree() {
    let runtime = runtime();
    let pool = Supervisor::new().add("task", Child::task(runtime.handle(), steady));
    let thread = |stop: &Stop| {
        while !stop.wait(Duration::from_secs(60)) {}
        Ok(())
    };
    let (told, ended) = run_and_stop(Supervisor::new().child("thread", thread).supervisor("pool", pool));
    assert_eq!(ended.cause, Cause::Asked);
    let exits: Vec<&String> = told.iter().filter(|event| event.starts_with("exit")).collect();
    assert_eq!(exits, ["exit pool/task #3 shutdown", "exit thread #1 shutdown"]);
}

#[test]
fn errors_and_panics_of_tasks_are_crashes() {
    let (runtime, tries) = (runtime(), Arc::new(AtomicU32::new(0)));
    let job = Child::task(runtime.handle(), move |_| {
        let count = tries.fetch_add(1, Ordering::SeqCst);
        async move {
            match count {
                0 => Err("no luck".into()),
                1 => panic!("oh no"),
                _ => Err(Reason::Killed.into()),
            }
        }
    });
    let ended = Supervisor::new().intensity(2, Duration::from_secs(60)).add("job", job).run().unwrap();
    assert_eq!((ended.cause, ended.last.unwrap().to_string()), (Cause::Intensity, "job: killed".to_string()));
}

#[test]
fn a_task_that_does_not_heed_is_cancelled_at_its_deadline() {
    let (runtime, is_dropped) = (runtime(), Arc::new(AtomicBool::new(false)));
    struct Dropped(Arc<AtomicBool>);
    impl Drop for Dropped {
        fn drop(&mut self) {
            self.0.store(true, Ordering::SeqCst);
        }
    }
    let seen = is_dropped.clone();
    let deaf = Child::task(runtime.handle(), move |_| {
        let dropped = Dropped(seen.clone());
        async move {
            let _dropped = dropped;
            tokio::time::sleep(Duration::from_secs(3600)).await;
            Ok(())
        }
    });
    let (told, ended) = run_and_stop(Supervisor::new().add("deaf", deaf.shutdown(Duration::from_millis(50))));
    assert_eq!(ended.cause, Cause::Asked);
    assert_eq!(told.last().unwrap(), "exit deaf #1 killed");
    assert!(is_dropped.load(Ordering::SeqCst));
}

#[test]
fn a_task_in_a_call_that_blocks_is_given_up() {
    let (runtime, goes_on) = (runtime(), Arc::new(AtomicBool::new(true)));
    let seen = goes_on.clone();
    let blocking = Child::task(runtime.handle(), move |_| {
        let seen = seen.clone();
        async move {
            while seen.load(Ordering::SeqCst) {
                std::thread::sleep(Duration::from_millis(10));
            }
            Ok(())
        }
    });
    let (told, ended) = run_and_stop(Supervisor::new().add("deaf", blocking.shutdown(Duration::from_millis(50))));
    assert_eq!((ended.cause, told.last().unwrap().as_str()), (Cause::Asked, "give up deaf #1"));
    goes_on.store(false, Ordering::SeqCst);
}

#[test]
fn a_task_says_when_it_is_up() {
    let runtime = runtime();
    let server = Child::task(runtime.handle(), |stop| async move {
        tokio::time::sleep(Duration::from_millis(20)).await;
        stop.ready();
        stop.wanted().await;
        Ok(())
    });
    let none = Child::task(runtime.handle(), |_| async { Ok(()) }).restart(Restart::Transient);
    let supervisor = Supervisor::new().add("server", server.wait_ready()).add("none", none.wait_ready());
    let (told, ended) = run_and_stop(supervisor);
    assert_eq!(ended.cause, Cause::Asked);
    assert!(told.contains(&"ignore none #2".to_string()), "{told:?}");
}
