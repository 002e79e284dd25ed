//! Each allocation of the library is refused in turn, and the refused call made again: the same orders come.
//!
//! The library takes memory by three functions of the toolchain's C library; this test has its own in their place.
#![allow(unsafe_code)]

use otp_supervision::{Fault, Name, Note, OpenError, Order, Process, Reading, Reason, SupervisorId, Tree};
use std::cell::Cell;
use std::collections::BTreeMap;
use std::ffi::c_void;

thread_local! {
    /// After so many more allocations one is refused; none where it is 0.
    static LEFT: Cell<u64> = const { Cell::new(0) };
    /// So many were asked for.
    static ASKED: Cell<u64> = const { Cell::new(0) };
    /// So many blocks are taken.
    static TAKEN: Cell<i64> = const { Cell::new(0) };
}

unsafe extern "C" {
    fn malloc(size: usize) -> *mut c_void;
    fn realloc(at: *mut c_void, size: usize) -> *mut c_void;
    fn free(at: *mut c_void);
}

/// What the library is answered: whether there is memory, and where. Without memory the pointer is never followed.
#[repr(C)]
struct Tried {
    is_there: bool,
    at: *mut c_void,
}

fn tried(at: *mut c_void) -> Tried {
    let is_there = !at.is_null();
    let nowhere = std::ptr::dangling_mut::<u8>().cast();
    Tried { is_there, at: if is_there { at } else { nowhere } }
}

fn is_refused() -> bool {
    ASKED.set(ASKED.get() + 1);
    let left = LEFT.get();
    LEFT.set(left.saturating_sub(1));
    left == 1
}

#[unsafe(no_mangle)]
extern "C" fn rattle_alloc(size: usize, align: usize) -> Tried {
    if is_refused() {
        return tried(std::ptr::null_mut());
    }
    TAKEN.set(TAKEN.get() + 1);
    // SAFETY: it is called with a size alone; the library's alignments divide 16.
    tried(unsafe { malloc(size.max(align)) })
}

#[unsafe(no_mangle)]
extern "C" fn rattle_realloc(at: *mut c_void, _kept: usize, size: usize, align: usize) -> Tried {
    if is_refused() {
        return tried(std::ptr::null_mut());
    }
    // SAFETY: the library gives back what one of these functions has answered.
    tried(unsafe { realloc(at, size.max(align)) })
}

#[unsafe(no_mangle)]
extern "C" fn rattle_dealloc(at: *mut c_void) {
    TAKEN.set(TAKEN.get() - 1);
    // SAFETY: as above.
    unsafe { free(at) }
}

const TREE: &str = "intensity = 2\nperiod = 60\n[[child]]\nid = \"db\"\nstart = \"x\"\n\
                    [[child]]\nid = \"pool\"\nstart = \"pool\"\n[child.tree]\nstrategy = \"rest_for_one\"\nintensity = 1\nperiod = 10\n\
                    [[child.tree.child]]\nid = \"a\"\nstart = \"y\"\n[[child.tree.child]]\nid = \"b\"\nstart = \"y\"\nshutdown = 10\n";

/// Makes a call until memory isn't refused.
fn again<T>(mut call: impl FnMut() -> Result<T, Fault>) -> T {
    loop {
        match call() {
            Ok(done) => return done,
            Err(Fault::Memory) => {}
            Err(fault) => panic!("{fault}"),
        }
    }
}

/// A tree with the processes that it runs, and what was ordered so far.
struct Life {
    tree: Tree,
    told: Vec<String>,
    /// The processes by their ids, which are all different.
    numbers: BTreeMap<String, Process>,
    now: Reading,
    /// No process listens to being asked.
    is_deaf: bool,
}

impl Life {
    fn begin() -> Life {
        loop {
            match Tree::open(TREE) {
                Ok(tree) => {
                    let (told, numbers) = (Vec::new(), BTreeMap::new());
                    return Life { tree, told, numbers, now: Reading::ZERO, is_deaf: false };
                }
                Err(OpenError::Memory) => {}
                Err(error) => panic!("{error}"),
            }
        }
    }

    /// All orders are taken. A start succeeds at once; what is asked or killed ends.
    fn serve(&mut self) {
        while let Some(order) = again(|| self.tree.next_order()) {
            self.told.push(order.to_string());
            let (process, note) = match order {
                Order::Start(process) => (process, Note::Up(process.number)),
                Order::Ask { process, .. } if !self.is_deaf => (process, Note::Exit(process.number, Reason::Shutdown)),
                Order::Kill(process) => (process, Note::Exit(process.number, Reason::Killed)),
                _ => continue,
            };
            let id = process.id.map_or(String::new(), |id| id.to_string());
            self.numbers.insert(id, process);
            again(|| self.tree.note(self.now, process.supervisor, note));
        }
    }

    fn crash(&mut self, id: &str) {
        let process = self.numbers[id];
        again(|| self.tree.exited(self.now, &process, Reason::error("crash")));
        self.serve();
    }
}

/// A life with starts, crashes, a supervisor that gives up, calls, a deadline and an end, and what was ordered.
fn life() -> Vec<String> {
    let mut life = Life::begin();
    life.serve();
    for id in ["b", "a", "db"] {
        life.crash(id);
    }
    let (b, pool, late) = (Name::new("b").unwrap(), SupervisorId::new(1), Reading::from_millis(1_000));
    again(|| life.tree.which_children(life.now, SupervisorId::ROOT));
    again(|| life.tree.get_childspec(life.now, pool, b));
    life.serve();
    life.is_deaf = true;
    again(|| life.tree.terminate_child(life.now, pool, b));
    life.serve();
    life.now = late;
    again(|| life.tree.tick(late));
    life.serve();
    life.is_deaf = false;
    again(|| life.tree.restart_child(late, pool, b));
    again(|| life.tree.count_children(late, pool));
    life.serve();
    again(|| life.tree.stop(late));
    life.serve();
    life.told
}

#[test]
fn each_allocation_is_refused_in_turn() {
    let wanted = life();
    let count = ASKED.get();
    assert!(wanted.len() >= 20 && wanted.last().is_some_and(|last| last == "end shutdown"), "{wanted:?}");
    assert!(count > 20, "only {count} allocations: this test's functions are not those that the library calls");
    assert_eq!(TAKEN.get(), 0, "something leaks");
    for number in 1..=count {
        LEFT.set(number);
        assert_eq!(life(), wanted, "allocation {number}");
        assert_eq!(LEFT.get(), 0, "allocation {number} didn't come");
        assert_eq!(TAKEN.get(), 0, "something leaks where allocation {number} is refused");
    }
}
