//! The calls of `otp.h` (in `embed/c`), and all `unsafe` of this library: a line for each call.
//!
//! The declarations stand in the order of the header. `tests/layout.rs` compares them with what a C compiler makes of it.
#![allow(unsafe_code, missing_docs)]

use std::cell::UnsafeCell;
use std::ffi::c_void;

// What every call answers: `otp_status`.
pub const OK: u32 = 0;
pub const NONE: u32 = 1;
pub const MEMORY: u32 = 4;
pub const FULL: u32 = 5;
pub const SPENT: u32 = 6;
pub const BAD_READING: u32 = 7;
pub const BAD_TREE: u32 = 11;
pub const NO_SUPERVISOR: u32 = 12;
pub const NESTED: u32 = 13;
pub const BUSY: u32 = 14;
pub const RUNNING: u32 = 15;
pub const TURNED: u32 = 16;

/// A handle as C sees it.
#[repr(C)]
#[derive(Debug)]
pub struct RawTree {
    pub is_open: u8,
    pub room: RawRoom,
}

#[repr(C)]
#[derive(Debug)]
pub struct RawRoom {
    pub at: *mut c_void,
}

#[repr(C)]
#[derive(Clone, Copy, Debug)]
pub struct RawName {
    pub len: u8,
    pub bytes: [u8; 32],
}

#[repr(C)]
#[derive(Clone, Copy, Debug)]
pub struct RawText {
    pub len: u8,
    pub bytes: [u8; 64],
}

#[repr(C)]
#[derive(Clone, Copy, Debug)]
pub struct RawSpec {
    pub restart: u32,
    pub significant: u32,
    pub kind: u32,
    pub shutdown: u32,
    pub shutdown_ms: u32,
    pub modules: u32,
    pub id: RawName,
    pub start: RawName,
    pub module: [RawName; 4],
}

#[repr(C)]
#[derive(Clone, Copy, Debug)]
pub struct RawOrder {
    pub number: u64,
    pub deadline: u64,
    pub kind: u32,
    pub supervisor: u32,
    pub has_deadline: u32,
    pub reason: u32,
    pub cause: u32,
    pub id: RawName,
    pub start: RawName,
    pub text: RawText,
}

#[repr(C)]
#[derive(Clone, Copy, Debug)]
pub struct RawAnswer {
    pub call: u64,
    pub number: u64,
    pub specs: u64,
    pub active: u64,
    pub supervisors: u64,
    pub workers: u64,
    pub kind: u32,
    pub fault: u32,
    pub spec_fault: u32,
    pub spec_key: u32,
    pub reason: u32,
    pub lines: u32,
    pub text: RawText,
}

#[repr(C)]
#[derive(Clone, Copy, Debug)]
pub struct RawLine {
    pub number: u64,
    pub process: u32,
    pub kind: u32,
    pub modules: u32,
    pub id: RawName,
    pub module: [RawName; 4],
}

#[repr(C)]
#[derive(Clone, Copy, Debug)]
pub struct RawSupervisor {
    pub intensity: u64,
    pub period: u64,
    pub process: u64,
    pub specs: u64,
    pub active: u64,
    pub supervisors: u64,
    pub workers: u64,
    pub restarts: u64,
    pub in_period: u64,
    pub starts: u64,
    pub rows: u64,
    pub parent: u32,
    pub strategy: u32,
    pub auto_shutdown: u32,
    pub phase: u32,
    pub has_process: u32,
    pub is_stopping: u32,
    pub has_open_work: u32,
    pub cause: u32,
    pub id: RawName,
}

#[repr(C)]
#[derive(Clone, Copy, Debug)]
pub struct RawChild {
    pub number: u64,
    pub deadline: u64,
    pub state: u32,
    pub has_deadline: u32,
    pub nested: u32,
    pub spec: RawSpec,
    pub id: RawName,
}

#[repr(C)]
#[derive(Clone, Copy, Debug)]
pub struct RawFault {
    pub code: u32,
    pub table: u32,
    pub place: u32,
    pub index: u32,
    pub key: u32,
    pub text_len: u32,
    pub text: [u8; 160],
}

/// A struct of numbers and bytes alone, for which all zeros are a value.
pub trait Plain: Copy {
    /// All zeros.
    fn zeroed() -> Self;
}

macro_rules! plain {
    ($($name:ident),*) => {
        // SAFETY: the struct consists of integers and arrays of them.
        $(impl Plain for $name { fn zeroed() -> Self { unsafe { std::mem::zeroed() } } })*
    };
}
plain!(RawName, RawText, RawSpec, RawOrder, RawAnswer, RawLine, RawSupervisor, RawChild, RawFault);

unsafe extern "C" {
    fn otp_open(tree: *mut RawTree, text: *const u8, length: usize, fault: *mut RawFault) -> u32;
    fn otp_change(tree: *mut RawTree, text: *const u8, length: usize, fault: *mut RawFault) -> u32;
    fn otp_close(tree: *mut RawTree);
    fn otp_tick(tree: *mut RawTree, reading: u64) -> u32;
    fn otp_note(
        tree: *mut RawTree,
        reading: u64,
        supervisor: u32,
        kind: u32,
        number: u64,
        reason: u32,
        text: *const u8,
        length: usize,
    ) -> u32;
    fn otp_stop(tree: *mut RawTree, reading: u64) -> u32;
    fn otp_start_child(tree: *mut RawTree, reading: u64, supervisor: u32, spec: *const RawSpec, call: *mut u64) -> u32;
    fn otp_call(
        tree: *mut RawTree,
        reading: u64,
        supervisor: u32,
        kind: u32,
        id: *const RawName,
        number: u64,
        call: *mut u64,
    ) -> u32;
    fn otp_next(tree: *mut RawTree, order: *mut RawOrder) -> u32;
    fn otp_answer_of(tree: *mut RawTree, answer: *mut RawAnswer) -> u32;
    fn otp_answer_line(tree: *mut RawTree, index: u32, line: *mut RawLine) -> u32;
    fn otp_answer_spec(tree: *mut RawTree, spec: *mut RawSpec) -> u32;
    fn otp_deadline(tree: *mut RawTree, reading: *mut u64) -> u32;
    fn otp_supervisors(tree: *mut RawTree, count: *mut u32) -> u32;
    fn otp_look(tree: *mut RawTree, supervisor: u32, out: *mut RawSupervisor) -> u32;
    fn otp_look_child(tree: *mut RawTree, supervisor: u32, index: u32, out: *mut RawChild) -> u32;
    fn otp_limit(kind: u32) -> u64;
    fn otp_version() -> u32;
}

/// A handle that is zeroed at first, used by one call at a time, and closed when it is dropped.
///
/// Each call below is safe since the handle is this one's own, each pointer is that of a reference or of a slice (which
/// is never null), and each length is that of the same slice. A call that only looks takes the tree out of its handle and puts
/// it back, too: the cell lets it do so behind `&self`, and keeps a handle from being used by two threads at once (it isn't
/// `Sync`). No call makes another one.
#[derive(Debug)]
pub struct Handle(UnsafeCell<RawTree>);

// SAFETY: the header says that a handle may move to another thread between two calls; the library has no data of its own
// (neither writable statics nor thread locals), and whatever the handle points to is its alone.
unsafe impl Send for Handle {}

impl Handle {
    pub fn empty() -> Self {
        let at = std::ptr::null_mut();
        Handle(UnsafeCell::new(RawTree { is_open: 0, room: RawRoom { at } }))
    }

    pub fn open(&mut self, text: &[u8], fault: &mut RawFault) -> u32 {
        // SAFETY: see `Handle`.
        unsafe { otp_open(self.0.get(), text.as_ptr(), text.len(), fault) }
    }

    pub fn change(&mut self, text: &[u8], fault: &mut RawFault) -> u32 {
        // SAFETY: see `Handle`.
        unsafe { otp_change(self.0.get(), text.as_ptr(), text.len(), fault) }
    }

    #[inline]
    pub fn tick(&mut self, reading: u64) -> u32 {
        // SAFETY: see `Handle`.
        unsafe { otp_tick(self.0.get(), reading) }
    }

    #[inline]
    pub fn note(&mut self, reading: u64, supervisor: u32, kind: u32, number: u64, reason: u32, text: &[u8]) -> u32 {
        // SAFETY: see `Handle`.
        unsafe { otp_note(self.0.get(), reading, supervisor, kind, number, reason, text.as_ptr(), text.len()) }
    }

    pub fn stop(&mut self, reading: u64) -> u32 {
        // SAFETY: see `Handle`.
        unsafe { otp_stop(self.0.get(), reading) }
    }

    pub fn start_child(&mut self, reading: u64, supervisor: u32, spec: &RawSpec, call: &mut u64) -> u32 {
        // SAFETY: see `Handle`.
        unsafe { otp_start_child(self.0.get(), reading, supervisor, spec, call) }
    }

    pub fn call(&mut self, reading: u64, supervisor: u32, kind: u32, id: &RawName, number: u64, call: &mut u64) -> u32 {
        // SAFETY: see `Handle`.
        unsafe { otp_call(self.0.get(), reading, supervisor, kind, id, number, call) }
    }

    #[inline]
    pub fn next(&mut self, order: &mut RawOrder) -> u32 {
        // SAFETY: see `Handle`.
        unsafe { otp_next(self.0.get(), order) }
    }

    pub fn answer(&self, answer: &mut RawAnswer) -> u32 {
        // SAFETY: see `Handle`.
        unsafe { otp_answer_of(self.0.get(), answer) }
    }

    pub fn answer_line(&self, index: u32, line: &mut RawLine) -> u32 {
        // SAFETY: see `Handle`.
        unsafe { otp_answer_line(self.0.get(), index, line) }
    }

    pub fn answer_spec(&self, spec: &mut RawSpec) -> u32 {
        // SAFETY: see `Handle`.
        unsafe { otp_answer_spec(self.0.get(), spec) }
    }

    pub fn deadline(&self, reading: &mut u64) -> u32 {
        // SAFETY: see `Handle`.
        unsafe { otp_deadline(self.0.get(), reading) }
    }

    pub fn supervisors(&self, count: &mut u32) -> u32 {
        // SAFETY: see `Handle`.
        unsafe { otp_supervisors(self.0.get(), count) }
    }

    pub fn look(&self, supervisor: u32, out: &mut RawSupervisor) -> u32 {
        // SAFETY: see `Handle`.
        unsafe { otp_look(self.0.get(), supervisor, out) }
    }

    pub fn look_child(&self, supervisor: u32, index: u32, out: &mut RawChild) -> u32 {
        // SAFETY: see `Handle`.
        unsafe { otp_look_child(self.0.get(), supervisor, index, out) }
    }
}

impl Drop for Handle {
    fn drop(&mut self) {
        // SAFETY: see `Handle`; closing an empty handle does nothing.
        unsafe { otp_close(self.0.get()) }
    }
}

/// A limit of the library.
pub fn limit(kind: u32) -> u64 {
    // SAFETY: no memory is handed over.
    unsafe { otp_limit(kind) }
}

/// The version of the library: eight bits each for the second and the third of its numbers.
pub fn version() -> u32 {
    // SAFETY: no memory is handed over.
    unsafe { otp_version() }
}

/// One of the three numbers of this crate's version.
const fn number(text: &str) -> u32 {
    match u32::from_str_radix(text, 10) {
        Ok(number) => number,
        Err(_) => 0,
    }
}

/// Whether the library has this crate's interface: before version 1 each minor version is another one.
pub fn fits() -> bool {
    let (major, minor) = (number(env!("CARGO_PKG_VERSION_MAJOR")), number(env!("CARGO_PKG_VERSION_MINOR")));
    let theirs = version();
    theirs >> 16 == major && if major == 0 { theirs >> 8 == minor } else { theirs >> 8 & 0xFF >= minor }
}
