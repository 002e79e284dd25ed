//! What a watched tree tells besides: nested supervisors that end and begin anew, and the child on which the root ended.

use otp_supervision::{
    AutoShutdown, Cause, ChildSpec, Draft, End, Name, Order, Process, Reading, Reason, Restart, Strategy, SupervisorId,
    Tree,
};
use std::collections::BTreeMap;
use std::time::Duration;

fn name(text: &str) -> Name {
    Name::new(text).unwrap()
}

fn job(id: &str) -> ChildSpec {
    ChildSpec::worker(name(id), name(id))
}

fn secs(seconds: u64) -> Duration {
    Duration::from_secs(seconds)
}

/// A tree whose processes start at once, and end when they are asked to.
struct World {
    tree: Tree,
    now: Reading,
    live: BTreeMap<String, Process>,
    told: Vec<String>,
    end: Option<End>,
    /// Who doesn't end when it is asked to.
    deaf: Option<&'static str>,
}

impl World {
    fn of(draft: &Draft) -> Self {
        let mut tree = Tree::of_draft(draft).unwrap();
        tree.watch();
        let mut world =
            World { tree, now: Reading::ZERO, live: BTreeMap::new(), told: Vec::new(), end: None, deaf: None };
        world.serve();
        world
    }

    fn serve(&mut self) -> Vec<String> {
        self.told.clear();
        while let Some(order) = self.tree.next_order().unwrap() {
            self.told.push(order.to_string());
            match order {
                Order::Start(process) => {
                    self.live.insert(process.id.unwrap().to_string(), process);
                    self.tree.up(self.now, &process).unwrap();
                }
                Order::Ask { process, .. } if self.deaf.is_none_or(|deaf| process.id != Some(name(deaf))) => {
                    self.tree.exited(self.now, &process, Reason::Shutdown).unwrap();
                }
                Order::End(end) => self.end = Some(end),
                _ => {}
            }
        }
        self.told.clone()
    }

    fn exit(&mut self, id: &str, reason: Reason) -> Vec<String> {
        let process = self.live[id];
        self.tree.exited(self.now, &process, reason).unwrap();
        self.serve()
    }

    fn last(&self) -> String {
        self.end.unwrap().last.map_or("nobody".to_string(), |last| last.to_string())
    }
}

fn pool_under_root(intensity: u64) -> World {
    let deep = Draft::new().intensity(0, secs(10)).child(job("deep"));
    let pool = Draft::new()
        .strategy(Strategy::OneForAll)
        .intensity(1, secs(10))
        .child(job("a"))
        .child(job("b"))
        .supervisor(name("inner"), deep);
    World::of(&Draft::new().intensity(intensity, secs(60)).child(job("db")).supervisor(name("pool"), pool))
}

#[test]
fn a_nested_supervisor_that_gives_up_is_told_before_it_begins_anew() {
    let mut world = pool_under_root(1);
    assert_eq!(
        world.told,
        [
            "start db #1",
            "supervisor 1 started 1",
            "start a #3",
            "start b #4",
            "supervisor 2 started 1",
            "start deep #6",
            "ready"
        ]
    );
    // It bears the first crash, and its children begin anew with it.
    let told = world.exit("a", Reason::error("one"));
    assert_eq!(
        told,
        [
            "ask deep #6",
            "supervisor 2 ended asked",
            "ask b #4",
            "start a #7",
            "start b #8",
            "supervisor 2 started 2",
            "start deep #10"
        ]
    );
    // The one below gives up at once, and that is one crash too many for the pool, too.
    let told = world.exit("deep", Reason::error("two"));
    assert_eq!(
        told,
        [
            "supervisor 2 ended intensity deep #10: error:two",
            "ask b #8",
            "ask a #7",
            "supervisor 1 ended intensity deep #10: error:two",
            "supervisor 1 started 2",
            "start a #12",
            "start b #13",
            "supervisor 2 started 3",
            "start deep #15"
        ]
    );
    // The root bears it no second time.
    world.exit("b", Reason::error("three"));
    world.exit("b", Reason::error("four"));
    assert_eq!((world.end.unwrap().cause, world.last().as_str()), (Cause::Intensity, "b #17: error:four"));
}

#[test]
fn what_ends_while_its_supervisor_gives_up_is_not_the_child_on_which_it_ended() {
    let root = Draft::new().strategy(Strategy::OneForAll).intensity(0, secs(5)).child(job("a")).child(job("b"));
    let mut world = World::of(&root.child(job("c")));
    world.deaf = Some("c");
    assert_eq!(world.exit("b", Reason::error("first")), ["ask c #3"]);
    // Another one crashes meanwhile, much later, and the one that was asked is killed.
    world.now = Reading::from_millis(60_000);
    world.exit("a", Reason::error("second"));
    world.exit("c", Reason::Killed);
    assert_eq!((world.end.unwrap().cause, world.last().as_str()), (Cause::Intensity, "b #2: error:first"));
}

#[test]
fn a_significant_child_is_told_with_how_it_ended() {
    for reason in [Reason::Normal, Reason::error("bad")] {
        let significant = job("job").restart(Restart::Temporary).significant();
        let root = Draft::new().auto_shutdown(AutoShutdown::AnySignificant).child(job("web")).child(significant);
        let mut world = World::of(&root);
        assert_eq!(world.exit("job", reason), ["ask web #1", "end shutdown"]);
        assert_eq!(world.last(), format!("job #2: {reason}"));
    }
}

#[test]
fn a_start_that_fails_is_told() {
    let mut tree = Tree::of_draft(&Draft::new().child(job("a")).child(job("b"))).unwrap();
    tree.watch();
    let mut ended = None;
    while let Some(order) = tree.next_order().unwrap() {
        match order {
            Order::Start(process) if process.id == Some(name("b")) => {
                tree.failed(Reading::ZERO, &process, Reason::error("no_port")).unwrap();
            }
            Order::Start(process) => tree.up(Reading::ZERO, &process).unwrap(),
            Order::Ask { process, .. } => tree.exited(Reading::ZERO, &process, Reason::Shutdown).unwrap(),
            Order::End(end) => ended = Some(end),
            _ => {}
        }
    }
    let ended = ended.unwrap();
    assert_eq!(ended.cause, Cause::InitFailed(Some(name("b"))));
    assert_eq!(ended.last.unwrap().to_string(), "b #2: error:no_port");
}

#[test]
fn a_tree_may_be_watched_later_on() {
    let pool = Draft::new().intensity(0, secs(10)).child(job("a"));
    let mut tree = Tree::of_draft(&Draft::new().intensity(0, secs(5)).supervisor(name("pool"), pool)).unwrap();
    let Some(Order::Start(process)) = tree.next_order().unwrap() else { panic!("no start") };
    tree.up(Reading::ZERO, &process).unwrap();
    assert_eq!(tree.next_order(), Ok(Some(Order::Ready)));
    tree.watch();
    tree.exited(Reading::ZERO, &process, Reason::error("x")).unwrap();
    let Some(Order::Nested(supervisor, became)) = tree.next_order().unwrap() else { panic!("nothing is told") };
    assert_eq!((supervisor, became.to_string().as_str()), (SupervisorId::new(1), "ended intensity a #2: error:x"));
    let Some(Order::End(end)) = tree.next_order().unwrap() else { panic!("no end") };
    assert_eq!(end.last.unwrap().to_string(), "a #2: error:x");
}

#[test]
fn a_stop_is_nobodys_end() {
    let mut world = pool_under_root(3);
    world.exit("a", Reason::error("one"));
    world.tree.stop(world.now).unwrap();
    let told = world.serve();
    assert!(told.contains(&"supervisor 1 ended asked".to_string()), "{told:?}");
    assert_eq!((world.end.unwrap().cause, world.last().as_str()), (Cause::Asked, "nobody"));
}
