//! The crate from outside: what goes in, what comes out, and what is refused.

use otp_supervision::{
    AutoShutdown, Call, Cause, ChangeError, ChildProcess, ChildSpec, ChildState, Draft, Fault, Limits, Modules, Name,
    Note, OpenError, Order, OrderRef, Phase, Process, ProcessId, Reading, Reason, Refusal, Reply, Restart, Shutdown,
    Strategy, SupervisorId, Text, Tree,
};
use std::time::Duration;

const ONE: &str = "intensity = 1\nperiod = 5\n[[child]]\nid = \"a\"\nstart = \"run_a\"\nshutdown = 300\n";
const ALL: &str = "strategy = \"one_for_all\"\nintensity = 1\nperiod = 5\n[[child]]\nid = \"a\"\nstart = \"x\"\n\
                   [[child]]\nid = \"b\"\nstart = \"x\"\nrestart = \"transient\"\n";
const NESTED: &str = "intensity = 2\nperiod = 60\n[[child]]\nid = \"db\"\nstart = \"x\"\n\
                      [[child]]\nid = \"pool\"\nstart = \"pool\"\n[child.tree]\nintensity = 0\nperiod = 10\n\
                      [[child.tree.child]]\nid = \"a\"\nstart = \"y\"\n[[child.tree.child]]\nid = \"b\"\nstart = \"y\"\n";

fn name(text: &str) -> Name {
    Name::new(text).unwrap()
}

fn crash() -> Reason {
    Reason::Error(Text::new("crash").unwrap())
}

fn orders(tree: &mut Tree) -> Vec<String> {
    std::iter::from_fn(|| tree.next_order().unwrap()).map(|order| order.to_string()).collect()
}

/// All orders, where each start succeeds at once and each process ends when it is asked to.
fn serve(tree: &mut Tree) -> Vec<String> {
    serve_at(0, tree)
}

fn at(time: u64) -> Reading {
    Reading::from_millis(time)
}

fn sup(number: u32) -> SupervisorId {
    SupervisorId::new(number)
}

fn pid(number: u64) -> ProcessId {
    ProcessId::new(number)
}

fn serve_at(now: u64, tree: &mut Tree) -> Vec<String> {
    let now = at(now);
    let mut told = Vec::new();
    while let Some(order) = tree.next_order().unwrap() {
        told.push(order.to_string());
        match order {
            Order::Start(process) => tree.note(now, process.supervisor, Note::Up(process.number)).unwrap(),
            Order::Ask { process, .. } => {
                tree.note(now, process.supervisor, Note::Exit(process.number, Reason::Shutdown)).unwrap();
            }
            Order::Kill(process) => {
                tree.note(now, process.supervisor, Note::Exit(process.number, Reason::Killed)).unwrap();
            }
            _ => {}
        }
    }
    told
}

fn answer<T: otp_supervision::FromAnswer>(tree: &mut Tree, call: Call<T>) -> Result<T, Refusal> {
    let mut answer = None;
    while let Some(order) = tree.next_order().unwrap() {
        match order {
            Order::Reply(reply) => answer = reply.answer_to(call).or(answer),
            Order::Start(process) => tree.note(at(0), process.supervisor, Note::Up(process.number)).unwrap(),
            Order::Ask { process, .. } => {
                tree.note(at(0), process.supervisor, Note::Exit(process.number, Reason::Shutdown)).unwrap();
            }
            order => panic!("{order}"),
        }
    }
    answer.expect("an answer")
}

#[test]
fn a_child_is_restarted_once_and_then_its_supervisor_gives_up() {
    let mut tree = Tree::open(ONE).unwrap();
    let Some(Order::Start(process)) = tree.next_order().unwrap() else { panic!("no start") };
    assert_eq!(
        (process.supervisor, process.id, process.start, process.number),
        (sup(0), Some(name("a")), name("run_a"), pid(1))
    );
    tree.note(at(0), sup(0), Note::Up(pid(1))).unwrap();
    assert_eq!(orders(&mut tree), ["ready"]);
    tree.note(at(0), sup(0), Note::Exit(pid(1), crash())).unwrap();
    assert_eq!(orders(&mut tree), ["start a #2"]);
    tree.note(at(0), sup(0), Note::Up(pid(2))).unwrap();
    tree.note(at(4_000), sup(0), Note::Exit(pid(2), Reason::Normal)).unwrap();
    let Some(Order::End(end)) = tree.next_order().unwrap() else { panic!("no end") };
    assert_eq!((end.reason, end.cause, end.last), (Reason::Shutdown, Cause::Intensity, None));
    assert_eq!(tree.next_order(), Ok(None));
    assert_eq!(tree.supervisor(sup(0)).unwrap().phase, Phase::Ended);
}

#[test]
fn an_order_read_in_place_says_what_a_copy_says() {
    let mut tree = Tree::open(ONE).unwrap();
    let Some(OrderRef::Start(process)) = tree.next_order_ref().unwrap() else { panic!("no start") };
    assert_eq!(
        (process.supervisor(), process.id(), process.start(), process.number()),
        (sup(0), Some("a"), (name("run_a"), None), pid(1))
    );
    assert_eq!(process.to_process(), Process::new(sup(0), Some(name("a")), name("run_a"), pid(1)));
    tree.note(at(0), sup(0), Note::Up(pid(1))).unwrap();
    assert!(matches!(tree.next_order_ref(), Ok(Some(OrderRef::Ready))));
    assert!(matches!(tree.next_order_ref(), Ok(None)));
    let call = tree.count_children(at(0), sup(0)).unwrap();
    let Some(OrderRef::Reply(reply)) = tree.next_order_ref().unwrap() else { panic!("no reply") };
    assert_eq!((reply.supervisor(), reply.call()), (sup(0), call.number()));
    assert_eq!(reply.into_reply().unwrap().answer_to(call).unwrap().unwrap().active, 1);
    tree.stop(at(0)).unwrap();
    let Some(OrderRef::Ask { process, deadline }) = tree.next_order_ref().unwrap() else { panic!("no ask") };
    assert_eq!((process.number(), deadline), (pid(1), Some(at(300))));
    tree.tick(at(300)).unwrap();
    let Some(OrderRef::Kill(process)) = tree.next_order_ref().unwrap() else { panic!("no kill") };
    assert_eq!(process.number(), pid(1));
    tree.note(at(0), sup(0), Note::Exit(pid(1), Reason::Killed)).unwrap();
    let Some(OrderRef::End(end)) = tree.next_order_ref().unwrap() else { panic!("no end") };
    assert_eq!(end.to_end().map(|end| (end.reason, end.cause)), Some((Reason::Shutdown, Cause::Asked)));
}

#[test]
fn a_deadline_is_told_and_kept() {
    let mut tree = Tree::open(ONE).unwrap();
    serve(&mut tree);
    assert_eq!(tree.next_deadline(), None);
    tree.stop(at(1_000)).unwrap();
    let Some(Order::Ask { process, deadline }) = tree.next_order().unwrap() else { panic!("no ask") };
    assert_eq!((process.number, deadline), (pid(1), Some(at(1_300))));
    assert_eq!((tree.next_order().unwrap(), tree.next_deadline()), (None, Some(at(1_300))));
    let child = tree.child(sup(0), 0).unwrap().unwrap();
    assert_eq!((child.state, child.deadline, child.number), (ChildState::Asked, Some(at(1_300)), Some(pid(1))));
    tree.tick(at(1_299)).unwrap();
    assert_eq!(orders(&mut tree), [""; 0]);
    tree.tick(at(1_300)).unwrap();
    assert_eq!(orders(&mut tree), ["kill a #1"]);
    tree.note(at(0), sup(0), Note::Exit(pid(1), Reason::Killed)).unwrap();
    assert_eq!(orders(&mut tree), ["end shutdown"]);
}

/// For longer than the period and the time to shut down nothing happens, and nobody has read the clock, before a process dies.
#[test]
fn what_is_told_after_a_long_sleep_has_its_own_time() {
    let mut tree = Tree::open(ALL).unwrap();
    serve(&mut tree);
    tree.note(at(3_600_000), sup(0), Note::Exit(pid(2), crash())).unwrap();
    // The whole time to shut down is given.
    let Some(Order::Ask { process, deadline }) = tree.next_order().unwrap() else { panic!("no ask") };
    assert_eq!((process.number, deadline), (pid(1), Some(at(3_605_000))));
    tree.note(at(3_604_999), sup(0), Note::Exit(pid(1), Reason::Shutdown)).unwrap();
    assert_eq!(serve_at(3_604_999, &mut tree), ["start a #3", "start b #4"]);
    assert_eq!(tree.supervisor(sup(0)).unwrap().in_period, 1);
    // Another crash long after that one is the first within its period. What is told with an earlier time happens now.
    tree.note(at(7_200_000), sup(0), Note::Exit(pid(4), crash())).unwrap();
    assert_eq!(tree.next_order().unwrap().unwrap().to_string(), "ask a #3");
    tree.note(at(1_000), sup(0), Note::Exit(pid(3), Reason::Shutdown)).unwrap();
    assert_eq!(serve_at(7_200_000, &mut tree), ["start a #5", "start b #6"]);
    // One that follows within the period is one too many.
    tree.note(at(7_205_000), sup(0), Note::Exit(pid(6), crash())).unwrap();
    assert_eq!(serve_at(7_205_000, &mut tree), ["ask a #5", "end shutdown"]);
}

#[test]
fn a_call_and_the_stop_have_their_own_time() {
    let mut tree = Tree::open(ALL).unwrap();
    serve(&mut tree);
    let call = tree.terminate_child(at(9_000), sup(0), name("b")).unwrap();
    assert_eq!(
        (tree.next_order().unwrap().unwrap().to_string(), tree.next_deadline()),
        ("ask b #2".into(), Some(at(14_000)))
    );
    tree.note(at(9_500), sup(0), Note::Exit(pid(2), Reason::Shutdown)).unwrap();
    assert_eq!(answer(&mut tree, call), Ok(()));
    tree.stop(at(60_000)).unwrap();
    assert_eq!(
        (tree.next_order().unwrap().unwrap().to_string(), tree.next_deadline()),
        ("ask a #1".into(), Some(at(65_000)))
    );
    tree.tick(at(64_999)).unwrap();
    assert_eq!(orders(&mut tree), [""; 0]);
    tree.tick(at(65_000)).unwrap();
    assert_eq!(orders(&mut tree), ["kill a #1"]);
}

#[test]
fn a_nested_supervisor_gives_up_and_is_started_again() {
    let mut tree = Tree::open(NESTED).unwrap();
    assert_eq!(serve(&mut tree), ["start db #1", "start a #3", "start b #4", "ready"]);
    assert_eq!(
        (tree.supervisors().len(), tree.path_of(sup(1)).as_deref(), tree.path_of(sup(0)).as_deref()),
        (2, Ok("pool/"), Ok(""))
    );
    assert_eq!(tree.child(sup(0), 1).unwrap().unwrap().nested, Some(sup(1)));
    // Nobody tells from outside of a supervisor of the tree itself.
    assert_eq!(tree.note(at(0), sup(0), Note::Exit(pid(2), crash())), Err(Fault::Nested));
    tree.note(at(0), sup(1), Note::Exit(pid(3), crash())).unwrap();
    assert_eq!(serve(&mut tree), ["ask b #4", "start a #6", "start b #7"]);
    let pool = tree.supervisor(sup(1)).unwrap();
    assert_eq!(
        (pool.process, pool.id, pool.parent, pool.intensity, pool.period),
        (Some(pid(5)), Some(name("pool")), sup(0), 0, Duration::from_secs(10))
    );
    let root = tree.supervisor(sup(0)).unwrap();
    assert_eq!((root.restarts, root.in_period, root.children, root.strategy), (1, 1, 2, Strategy::OneForOne));
    tree.stop(at(0)).unwrap();
    assert_eq!(serve(&mut tree), ["ask b #7", "ask a #6", "ask db #1", "end shutdown"]);
}

#[test]
fn calls_are_answered_by_their_types() {
    let mut tree = Tree::open(ONE).unwrap();
    serve(&mut tree);
    let spec = ChildSpec::worker(name("b"), name("run_b"));
    let call = tree.start_child(at(0), sup(0), &spec).unwrap();
    assert_eq!(answer(&mut tree, call), Ok(Some(pid(2))));
    let call = tree.start_child(at(0), sup(0), &spec).unwrap();
    assert_eq!(answer(&mut tree, call), Err(Refusal::AlreadyStarted(pid(2))));
    let call = tree.get_childspec(at(0), sup(0), name("b")).unwrap();
    assert_eq!(answer(&mut tree, call), Ok(spec));
    let call = tree.terminate_child(at(0), sup(0), name("b")).unwrap();
    assert_eq!(answer(&mut tree, call), Ok(()));
    let call = tree.which_children(at(0), sup(0)).unwrap();
    let lines = answer(&mut tree, call).unwrap();
    assert_eq!(
        lines.iter().map(|line| line.process).collect::<Vec<_>>(),
        [ChildProcess::Running(pid(1)), ChildProcess::Undefined]
    );
    let call = tree.count_children(at(0), sup(0)).unwrap();
    let counts = answer(&mut tree, call).unwrap();
    assert_eq!((counts.specs, counts.active, counts.supervisors, counts.workers), (2, 1, 0, 2));
    let call = tree.restart_child(at(0), sup(0), name("b")).unwrap();
    assert_eq!(answer(&mut tree, call), Ok(Some(pid(3))));
    let call = tree.delete_child(at(0), sup(0), name("b")).unwrap();
    assert_eq!(answer(&mut tree, call), Err(Refusal::Running));
    let call = tree.terminate_process(at(0), sup(0), pid(1)).unwrap();
    assert_eq!(answer(&mut tree, call), Err(Refusal::NotFound));
    let call = tree.start_dynamic(at(0), sup(0)).unwrap();
    assert!(answer(&mut tree, call).is_err());
}

#[test]
fn a_reply_answers_its_own_call_alone() {
    let mut tree = Tree::open(ONE).unwrap();
    serve(&mut tree);
    let first = tree.count_children(at(0), sup(0)).unwrap();
    let second = tree.count_children(at(0), sup(0)).unwrap();
    let replies: Vec<Reply> = std::iter::from_fn(|| tree.next_order().unwrap())
        .map(|order| match order {
            Order::Reply(reply) => reply,
            order => panic!("{order}"),
        })
        .collect();
    assert_eq!(replies.len(), 2);
    assert!(replies[0].answer_to(first).is_some() && replies[0].answer_to(second).is_none());
    assert!(replies[1].answer_to(second).is_some() && replies[1].answer_to(first).is_none());
}

#[test]
fn misuse_is_answered() {
    let refused = |text: &str| match Tree::open(text) {
        Err(OpenError::Refused(fault)) => fault,
        other => panic!("{other:?}"),
    };
    assert_eq!(refused("[").code, 10);
    let fault =
        refused("[[child]]\nid = \"a\"\nstart = \"x\"\n[[child]]\nid = \"b\"\nstart = \"x\"\nshutdown = \"never\"\n");
    assert_eq!((fault.code, fault.supervisor, fault.child), (13, sup(0), Some(1)));
    assert!(fault.text.contains("shutdown"), "{fault}");
    let mut tree = Tree::open(ONE).unwrap();
    assert_eq!(tree.tick(at(u64::MAX)), Err(Fault::BadReading));
    assert_eq!(tree.stop(at(u64::MAX)), Err(Fault::BadReading));
    assert_eq!(tree.note(at(u64::MAX), sup(0), Note::Up(pid(1))), Err(Fault::BadReading));
    assert_eq!(tree.which_children(at(u64::MAX), sup(0)), Err(Fault::BadReading));
    assert_eq!(
        tree.start_child(at(u64::MAX), sup(0), &ChildSpec::worker(name("b"), name("b"))),
        Err(Fault::BadReading)
    );
    assert_eq!(tree.note(at(0), sup(9), Note::Up(pid(1))), Err(Fault::NoSupervisor));
    assert_eq!(tree.supervisor(sup(9)), Err(Fault::NoSupervisor));
    assert_eq!(tree.child(sup(0), 99), Ok(None));
    assert!(tree.which_children(at(0), sup(9)).is_err());
    // A number that nobody has changes nothing.
    serve(&mut tree);
    tree.note(at(0), sup(0), Note::Exit(pid(77), crash())).unwrap();
    assert_eq!(orders(&mut tree), [""; 0]);
}

#[test]
fn limits_are_those_of_the_header() {
    let limits = Limits::of_library();
    assert_eq!((limits.name_size, limits.text_size, limits.fault_size), (32, 64, 160));
    assert_eq!((limits.children, limits.supervisors, limits.reading), (256, 64, at(1 << 62)));
    assert!(limits.events > 0);
}

#[test]
fn a_tree_moves_between_threads() {
    let mut trees: Vec<Tree> = (0..8).map(|_| Tree::open(NESTED).unwrap()).collect();
    for _ in 0..3 {
        let threads: Vec<_> = trees
            .drain(..)
            .map(|mut tree| {
                std::thread::spawn(move || {
                    serve(&mut tree);
                    tree.note(at(0), sup(0), Note::Exit(pid(1), Reason::Normal)).unwrap();
                    serve(&mut tree);
                    tree
                })
            })
            .collect();
        trees.extend(threads.into_iter().map(|thread| thread.join().unwrap()));
    }
}

#[test]
fn a_long_life_fills_nothing() {
    let mut tree = Tree::open("intensity = 1000\nperiod = 1\n[[child]]\nid = \"a\"\nstart = \"x\"\n").unwrap();
    serve(&mut tree);
    for number in 1..100_000 {
        tree.note(at(number * 10), sup(0), Note::Exit(pid(number), Reason::Normal)).unwrap();
        assert_eq!(serve_at(number * 10, &mut tree), [format!("start a #{}", number + 1)]);
    }
}

#[test]
fn a_draft_says_what_its_file_says() {
    let job = |id: &str| ChildSpec::worker(name(id), name("x"));
    let below = Draft::new().strategy(Strategy::OneForAll).intensity(0, Duration::from_secs(10)).child(job("a"));
    let mut last = job("c").restart(Restart::Temporary).shutdown(Shutdown::BrutalKill);
    last.modules = Modules::Dynamic;
    let draft = Draft::new()
        .intensity(3, Duration::from_secs(60))
        .auto_shutdown(AutoShutdown::AnySignificant)
        .child(job("b").restart(Restart::Transient).significant().shutdown(Duration::from_millis(70)))
        .supervisor(name("pool"), below)
        .child(last.clone());
    let mut tree = Tree::of_draft(&draft).unwrap();
    assert_eq!(serve(&mut tree), ["start b #1", "start a #3", "start c #4", "ready"]);
    let root = tree.supervisor(sup(0)).unwrap();
    assert_eq!(
        (root.intensity, root.period, root.auto_shutdown),
        (3, Duration::from_secs(60), AutoShutdown::AnySignificant)
    );
    let pool = tree.supervisor(sup(1)).unwrap();
    assert_eq!((pool.intensity, pool.period, pool.strategy), (0, Duration::from_secs(10), Strategy::OneForAll));
    let specs: Vec<ChildSpec> = tree.children(sup(0)).unwrap().into_iter().map(|child| child.spec).collect();
    assert_eq!((specs[0].shutdown, specs[0].significant), (Shutdown::within_millis(70), true));
    assert_eq!((specs[1].kind, specs[1].shutdown), (otp_supervision::Kind::Supervisor, Shutdown::Infinity));
    assert_eq!(specs[2], last);
}

#[test]
fn a_draft_is_refused_as_a_file_is() {
    let twice = ChildSpec::worker(name("a"), name("x"));
    let refused = Tree::of_draft(&Draft::new().child(twice.clone()).child(twice)).map(|_| ());
    assert!(
        matches!(&refused, Err(OpenError::Refused(fault)) if fault.code == 3 && fault.child == Some(1)),
        "{refused:?}"
    );
    let half = Draft::new().intensity(1, Duration::from_millis(1500));
    assert_eq!(Tree::of_draft(&half).map(|_| ()), Err(OpenError::Period));
}

#[test]
fn a_process_tells_how_it_stands() {
    let mut tree = Tree::open(ALL).unwrap();
    let start = |tree: &mut Tree| match tree.next_order().unwrap() {
        Some(Order::Start(process)) => process,
        order => panic!("{order:?}"),
    };
    let a = start(&mut tree);
    tree.up(at(0), &a).unwrap();
    let b = start(&mut tree);
    tree.ignored(at(0), &b).unwrap();
    assert_eq!(tree.next_order().unwrap(), Some(Order::Ready));
    tree.exited(at(1), &a, crash()).unwrap();
    let again = start(&mut tree);
    assert!(again.id.is_some_and(|id| id == "a") && again.number != a.number);
    tree.failed(at(2), &again, crash()).unwrap();
    // A start that failed in a restart is tried again, and counts.
    assert_eq!(orders(&mut tree), ["end shutdown"]);
}

#[test]
fn a_tree_is_looked_at_without_being_changed() {
    let tree = Tree::open(NESTED).unwrap();
    let look = &tree;
    assert_eq!((look.supervisors().len(), look.path_of(sup(1)).unwrap()), (2, "pool/".to_string()));
    assert_eq!((look.time_left(at(5)), look.children(sup(0)).unwrap().len()), (None, 2));
}

#[test]
fn a_number_of_the_callers_own_comes_with_each_order() {
    let job = |id: &str, tag: u64| ChildSpec::worker(name(id), name("x")).tag(tag);
    let pool = Draft::new().child(job("b", 8)).child(ChildSpec::worker(name("c"), name("..0")));
    let draft = Draft::new().intensity(3, Duration::from_secs(60)).child(job("a", 7)).supervisor(name("pool"), pool);
    let mut tree = Tree::of_draft(&draft).unwrap();
    let mut started = Vec::new();
    let mut serve = |tree: &mut Tree| {
        started.clear();
        while let Some(order) = tree.next_order().unwrap() {
            if let Order::Start(process) = order {
                tree.up(at(0), &process).unwrap();
                started.push((process.start.to_string(), process.tag));
            }
        }
        started.clone()
    };
    assert_eq!(serve(&mut tree), [("x".into(), Some(7)), ("x".into(), Some(8)), ("..0".into(), None)]);
    // A restart has it, too, and a child that is added; one that is refused leaves it as it was.
    tree.note(at(0), sup(0), Note::Exit(pid(1), crash())).unwrap();
    assert_eq!(serve(&mut tree), [("x".into(), Some(7))]);
    tree.start_child(at(0), sup(1), &job("d", 9)).unwrap();
    assert_eq!(serve(&mut tree), [("x".into(), Some(9))]);
    tree.start_child(at(0), sup(1), &job("d", 10)).unwrap();
    assert_eq!(serve(&mut tree), []);
    assert_eq!(tree.child(sup(1), 2).unwrap().unwrap().spec, job("d", 9));
    let call = tree.get_childspec(at(0), sup(0), name("a")).unwrap();
    assert_eq!(answer(&mut tree, call), Ok(job("a", 7)));
    // In a file there is none, but a child that is added has one.
    let mut tree = Tree::open(ONE).unwrap();
    assert_eq!(serve(&mut tree), [("run_a".into(), None)]);
    tree.start_child(at(0), sup(0), &job("b", 1)).unwrap();
    assert_eq!(serve(&mut tree), [("x".into(), Some(1))]);
}

#[test]
fn a_fault_says_where_it_stands() {
    let refused = |text: &str| match Tree::open(text) {
        Err(OpenError::Refused(fault)) => fault,
        other => panic!("{other:?}"),
    };
    let fault = refused(&NESTED.replace("period = 10", "period = 0"));
    let place = fault.place.clone().unwrap();
    assert_eq!((place.line, place.path.as_str(), place.unknown), (Some(11), "pool/", None));
    assert_eq!((fault.supervisor, fault.child, fault.key), (sup(1), None, Some("period")));
    let told = fault.to_string();
    assert!(told.starts_with("line 11: supervisor pool/, period: ") && told.ends_with(" (E1)"), "{told}");
    let fault = refused(&NESTED.replacen("id = \"b\"", "idd = \"b\"", 1));
    let place = fault.place.clone().unwrap();
    assert_eq!((place.line, place.unknown.as_deref(), fault.child), (Some(16), Some("idd"), Some(1)));
    assert_eq!(fault.who(), "child pool/number 1");
    // A file of another form has no line, and a draft has neither.
    assert_eq!(refused("child = [{id = \"a\", start = \"a\", x = 1}]").place, None);
    let twice = ChildSpec::worker(name("a"), name("x"));
    let Err(OpenError::Refused(fault)) = Tree::of_draft(&Draft::new().child(twice.clone()).child(twice)) else {
        panic!("it isn't refused")
    };
    assert_eq!(fault.place.map(|place| (place.line, place.path)), Some((None, "a".to_string())));
}

#[test]
fn a_tree_goes_on_under_another_file() {
    let mut tree = Tree::open(NESTED).unwrap();
    let other = NESTED.replace("intensity = 2", "intensity = 5");
    assert_eq!(tree.change(&other), Err(ChangeError::Busy(SupervisorId::ROOT)));
    serve(&mut tree);
    tree.note(at(10), SupervisorId::ROOT, Note::Exit(pid(1), crash())).unwrap();
    assert!(tree.change(&other).is_err());
    serve_at(10, &mut tree);
    let looks = |tree: &Tree| -> Vec<(u64, u64, Option<ProcessId>)> {
        let of = |number| (tree.supervisor(number).unwrap(), tree.children(number).unwrap());
        tree.supervisors().map(of).map(|(it, children)| (it.intensity, it.in_period, children[0].number)).collect()
    };
    let before = looks(&tree);
    assert_eq!(before, [(2, 1, Some(pid(5))), (0, 0, Some(pid(3)))]);
    // What is refused changes nothing: a fault, a child or a supervisor that is gone, one of another kind, children that turn.
    let gone = NESTED.replacen("\"db\"", "\"other\"", 1);
    let bare = &NESTED[..NESTED.find("[child.tree]").unwrap()];
    for (text, wanted) in [
        (gone.as_str(), ChangeError::Running(SupervisorId::ROOT)),
        (bare, ChangeError::Running(SupervisorId::ROOT)),
        (&bare[..bare.rfind("[[child]]").unwrap()], ChangeError::Running(sup(1))),
    ] {
        assert!(matches!(tree.change(text), Err(ChangeError::Running(_))), "{wanted}");
    }
    let simple = "strategy = \"simple_one_for_one\"\n[[child]]\nid = \"db\"\nstart = \"x\"\n";
    assert!(matches!(tree.change(simple), Err(ChangeError::Turned(_) | ChangeError::Running(_))));
    assert!(matches!(tree.change("nonsense = 1"), Err(ChangeError::Refused(fault)) if fault.code > 0));
    assert_eq!(looks(&tree), before);
    // Restarts and processes go on, also where the supervisors have other numbers; what is new has no process yet.
    let pool = "[[child]]\nid = \"new\"\nstart = \"n\"\n[child.tree]\n";
    let at_first = other.find("[[child]]").unwrap();
    tree.change([&other[..at_first], pool, &other[at_first..]].concat()).unwrap();
    assert_eq!(tree.path_of(sup(2)).unwrap(), "pool/");
    let (root, children) = (tree.supervisor(SupervisorId::ROOT).unwrap(), tree.children(SupervisorId::ROOT).unwrap());
    assert_eq!((root.intensity, root.in_period, children.len()), (5, 1, 3));
    assert_eq!((children[0].state, children[1].number), (ChildState::Undefined, Some(pid(5))));
    assert_eq!(tree.children(sup(2)).unwrap()[0].number, Some(pid(3)));
    assert_eq!(tree.next_order(), Ok(None));
    let call = tree.restart_child(at(20), SupervisorId::ROOT, name("new")).unwrap();
    assert_eq!(answer(&mut tree, call), Ok(Some(pid(6))));
    // A lower intensity drops the oldest restarts, and ends nothing.
    let call = tree.terminate_child(at(20), SupervisorId::ROOT, name("new")).unwrap();
    assert_eq!(answer(&mut tree, call), Ok(()));
    tree.change(NESTED.replace("intensity = 2", "intensity = 0")).unwrap();
    assert_eq!(tree.supervisor(SupervisorId::ROOT).unwrap().in_period, 0);
    // By a draft, and while it is watched.
    tree.watch();
    let draft = Draft::new().child(ChildSpec::worker(name("db"), name("x")).tag(7)).supervisor(
        name("pool"),
        Draft::new().child(ChildSpec::worker(name("a"), name("y"))).child(ChildSpec::worker(name("b"), name("y"))),
    );
    tree.change_to(&draft).unwrap();
    assert_eq!(tree.child(SupervisorId::ROOT, 0).unwrap().unwrap().spec.tag, Some(7));
    assert_eq!(tree.change("[[child]]\nid = \"db\"\nstart = \"..0\"\n"), Err(ChangeError::Word));
    tree.note(at(30), SupervisorId::ROOT, Note::Exit(pid(5), crash())).unwrap();
    assert_eq!(serve_at(30, &mut tree), ["start db #7"]);
}
