//! The transcripts of OTP that need no kill, played on threads: the same orders, to the byte.

use crate::child::{Child, Outcome};
use crate::handle::{Request, Told};
use crate::run::Run;
use crate::stop::Stop;
use crate::supervisor::Events;
use otp_supervision::{ChildSpec, Modules, Name, Order, ProcessId, Reading, Reason, SupervisorId, Tree};
use std::collections::{HashMap, VecDeque};
use std::fs;
use std::path::Path;
use std::sync::atomic::{AtomicU64, Ordering};
use std::sync::mpsc::{Receiver, Sender, channel};
use std::sync::{Arc, Mutex};
use std::time::Duration;

/// What a line tells a process to do.
enum Deed {
    Up,
    Return(Outcome),
}

/// What is shared by a test, the thread's bodies and what hears orders.
#[derive(Default)]
struct Stage {
    printed: String,
    deeds: HashMap<u64, Sender<Deed>>,
    /// What the process that was ordered to start hears, until its thread takes it.
    waiting: VecDeque<Receiver<Deed>>,
    /// The processes whose starts weren't answered.
    starting: Vec<u64>,
}

/// A child that does what the lines say.
fn puppet(stage: Arc<Mutex<Stage>>) -> Child {
    let body = move |stop: &Stop| {
        let Some(deeds) = stage.lock().unwrap().waiting.pop_front() else { return Ok(()) };
        loop {
            match deeds.recv() {
                Ok(Deed::Up) => stop.ready(),
                Ok(Deed::Return(outcome)) => return outcome,
                Err(_) => return Ok(()),
            }
        }
    };
    Child::new(body).wait_ready()
}

struct Played {
    run: Run,
    stage: Arc<Mutex<Stage>>,
    clock: Arc<AtomicU64>,
}

impl Played {
    fn of(tree: Tree) -> Self {
        let (stage, clock) = (Arc::new(Mutex::new(Stage::default())), Arc::new(AtomicU64::new(0)));
        let heard = stage.clone();
        let events = Events::with_orders(move |order| {
            let mut stage = heard.lock().unwrap();
            if !matches!(order, Order::Nested(..)) {
                stage.printed.push_str(&format!("{order}\n"));
            }
            if let Order::Start(process) = order {
                let (deed, deeds) = channel();
                stage.deeds.insert(process.number.number(), deed);
                stage.starting.push(process.number.number());
                stage.waiting.push_back(deeds);
            }
        });
        let now = clock.clone();
        let now = Box::new(move || Reading::from_millis(now.load(Ordering::SeqCst)));
        let (told, inbox) = channel();
        let mut run = Run::new(tree, now, Vec::new(), told, inbox, events);
        run.other = Some(puppet(stage.clone()));
        Played { run, stage, clock }
    }

    fn carry_out(&mut self) {
        let _ = self.run.carry_out().unwrap();
    }

    /// Has a process do something, and waits until its supervisor has heard it. A number that no process has does nothing.
    fn have(&mut self, number: u64, deed: Deed) {
        let is_end = matches!(deed, Deed::Return(_));
        let sender = {
            let mut stage = self.stage.lock().unwrap();
            stage.starting.retain(|it| *it != number);
            if is_end { stage.deeds.remove(&number) } else { stage.deeds.get(&number).cloned() }
        };
        let Some(sender) = sender else { return };
        sender.send(deed).unwrap();
        let told = self.run.parts().1.recv_timeout(Duration::from_secs(60)).unwrap();
        self.run.take(told).unwrap();
    }

    fn is_starting(&self, number: u64) -> bool {
        self.stage.lock().unwrap().starting.contains(&number)
    }

    fn call(&mut self, request: Request) {
        self.run.take(Told::Call(request, channel().0)).unwrap();
    }

    /// Does what a line says. `None` where no thread can do that.
    fn tell(&mut self, words: &[&str]) -> Option<()> {
        let number = |word: &str| word.parse::<u64>().ok();
        let reason = |word: &str| word.parse::<Reason>().ok();
        let root = String::new;
        match words {
            ["at", reading] => self.clock.store(number(reading)?, Ordering::SeqCst),
            ["up", it] if self.is_starting(number(it)?) => self.have(number(it)?, Deed::Up),
            ["ignore", it] if self.is_starting(number(it)?) => self.have(number(it)?, Deed::Return(Ok(()))),
            ["fail", it, why] if self.is_starting(number(it)?) => {
                self.have(number(it)?, Deed::Return(Err(reason(why)?.into())));
            }
            ["exit", it, why] if !self.is_starting(number(it)?) => {
                self.have(number(it)?, Deed::Return(Err(reason(why)?.into())));
            }
            // A thread is up once, and returns once.
            ["up" | "ignore" | "fail" | "exit", ..] => return None,
            ["stop"] => self.run.take(Told::Stop).unwrap(),
            ["start"] => self.call(Request::StartDynamic(root())),
            ["start", rest @ ..] => {
                let (spec, now) = (spec_of(rest)?, Reading::from_millis(self.clock.load(Ordering::SeqCst)));
                let _ = self.run.parts().0.start_child(now, SupervisorId::ROOT, &spec).unwrap();
            }
            ["restart", it] => self.call(Request::Restart((*it).into())),
            ["delete", it] => self.call(Request::Delete((*it).into())),
            ["get", it] => self.call(Request::Get((*it).into())),
            ["terminate", it] => match it.strip_prefix('#') {
                Some(it) => self.call(Request::TerminateProcess(root(), ProcessId::new(number(it)?))),
                None => self.call(Request::Terminate((*it).into())),
            },
            ["which"] => self.call(Request::Which(root())),
            ["count"] => self.call(Request::Count(root())),
            _ => panic!("no line of a script: {words:?}"),
        }
        self.run.tick().unwrap();
        Some(())
    }
}

fn spec_of(words: &[&str]) -> Option<ChildSpec> {
    let [id, start, restart, significant, shutdown, kind] = words else { return None };
    let mut spec = ChildSpec::worker(Name::new(id).ok()?, Name::new(start).ok()?);
    spec.restart = restart.parse().ok()?;
    spec.significant = significant.parse().ok()?;
    spec.shutdown = shutdown.parse().ok()?;
    spec.kind = kind.parse().ok()?;
    spec.modules = Modules::Named(vec![spec.start]);
    Some(spec)
}

/// What is printed; nothing where no thread can do what the lines say.
fn play(tree: &str, lines: &str) -> Option<String> {
    let Ok(tree) = Tree::open(tree) else { return None };
    let mut played = Played::of(tree);
    played.carry_out();
    for line in lines.lines().filter(|line| !line.is_empty()) {
        let words: Vec<&str> = line.split(' ').collect();
        played.tell(&words)?;
        played.carry_out();
    }
    let printed = std::mem::take(&mut played.stage.lock().unwrap().printed);
    Some(printed)
}

#[test]
fn transcripts_of_otp_that_need_no_kill_are_played_on_threads() {
    let folder = Path::new(env!("CARGO_MANIFEST_DIR")).join("../../../crates/otp_parity/data");
    // They are the repository's, and not in the package.
    let Ok(files) = fs::read_dir(&folder) else { return };
    let (mut same, mut left) = (0, 0);
    for file in files {
        let text = fs::read_to_string(file.unwrap().path()).unwrap();
        for one in text.split("\n== ").skip(1) {
            let (name, rest) = one.split_once('\n').unwrap();
            let (_origin, rest) = rest.split_once('\n').unwrap();
            let (tree, rest) = rest.split_once("-- lines\n").unwrap();
            let (lines, orders) = rest.split_once("-- orders\n").unwrap();
            let needs_kill = orders.lines().any(|line| line.starts_with("kill "));
            match (!needs_kill).then(|| play(tree, lines)).flatten() {
                Some(printed) => {
                    assert_eq!(
                        printed.trim_end_matches('\n'),
                        orders.trim_end_matches('\n'),
                        "{name}\n{tree}\n{lines}"
                    );
                    same += 1;
                }
                None => left += 1,
            }
        }
    }
    println!("{same} transcripts are played on threads, {left} can't be");
    assert!(same > 800, "only {same} transcripts were played");
}
