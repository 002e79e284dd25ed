//! What a C compiler makes of `otp.h` is what this crate declares: sizes, places of fields, and the numbers of the words.

use otp_supervision::sys::*;
use otp_supervision::{AutoShutdown, ChildState, EndCause, Kind, Note, Phase, ProcessId, Reason, Restart, Strategy};
use std::collections::BTreeMap;
use std::mem::{offset_of, size_of};
use std::path::Path;
use std::process::Command;

/// What the program `embed/c/layout` prints, which is built here, if there is a C compiler.
fn of_c() -> Option<BTreeMap<String, usize>> {
    let folder = Path::new(env!("CARGO_MANIFEST_DIR")).join("../../c");
    let library = std::env::var("OTP_LIBRARY").unwrap_or_else(|_| format!("{}/../out", folder.display()));
    let program = std::env::temp_dir().join(format!("otp-layout-{}", std::process::id()));
    let mut compile = Command::new("cc");
    compile.args(["-std=c11", "-Wall", "-Wextra", "-Werror", "-o"]).arg(&program).arg(folder.join("layout.c"));
    compile.arg(format!("{library}/libotp_c.a")).arg(format!("{library}/liblibc_c.a"));
    let Ok(done) = compile.status() else {
        assert!(std::env::var_os("OTP_EMBED_WHOLE").is_none(), "there is no C compiler");
        return None;
    };
    assert!(done.success(), "layout.c is refused");
    let output = Command::new(&program).output().unwrap();
    std::fs::remove_file(&program).unwrap();
    assert!(output.status.success(), "{}", String::from_utf8_lossy(&output.stderr));
    let text = String::from_utf8(output.stdout).unwrap();
    let pair = |line: &str| line.split_once(' ').map(|(name, number)| (name.to_string(), number.parse().unwrap()));
    Some(text.lines().map(|line| pair(line).unwrap()).collect())
}

macro_rules! places {
    ($all:ident: $($name:literal $raw:ident { $($field:ident = $of:ident),* })*) => {
        $(
            $all.insert($name.to_string(), size_of::<$raw>());
            $($all.insert(concat!($name, ".", stringify!($field)).to_string(), offset_of!($raw, $of));)*
        )*
    };
}

fn places() -> BTreeMap<String, usize> {
    let mut all = BTreeMap::new();
    places!(all:
        "otp_tree" RawTree { is_open = is_open, room = room }
        "otp_name" RawName { len = len, bytes = bytes }
        "otp_text" RawText { len = len, bytes = bytes }
        "otp_spec" RawSpec { restart = restart, significant = significant, type = kind, shutdown = shutdown,
            shutdown_ms = shutdown_ms, modules = modules, id = id, start = start, module = module }
        "otp_order" RawOrder { number = number, deadline = deadline, kind = kind, supervisor = supervisor,
            has_deadline = has_deadline, reason = reason, cause = cause, id = id, start = start, text = text }
        "otp_answer" RawAnswer { call = call, number = number, specs = specs, active = active, supervisors = supervisors,
            workers = workers, kind = kind, fault = fault, spec_fault = spec_fault, spec_key = spec_key, reason = reason,
            lines = lines, text = text }
        "otp_line" RawLine { number = number, process = process, type = kind, modules = modules, id = id, module = module }
        "otp_supervisor" RawSupervisor { intensity = intensity, period = period, process = process, specs = specs,
            active = active, supervisors = supervisors, workers = workers, restarts = restarts, in_period = in_period,
            starts = starts,
            rows = rows, parent = parent, strategy = strategy, auto_shutdown = auto_shutdown, phase = phase,
            has_process = has_process, is_stopping = is_stopping, has_open_work = has_open_work, cause = cause, id = id }
        "otp_child" RawChild { number = number, deadline = deadline, state = state, has_deadline = has_deadline,
            nested = nested, spec = spec, id = id }
        "otp_fault" RawFault { code = code, table = table, place = place, index = index, key = key, text_len = text_len,
            text = text }
    );
    all
}

/// The numbers of the words, as this crate's own conversions have them.
fn words() -> BTreeMap<String, usize> {
    let (text, one) = (Reason::error("x"), ProcessId::new(1));
    let pairs: Vec<(&str, u32)> = vec![
        ("OTP_OK", OK),
        ("OTP_NONE", NONE),
        ("OTP_MEMORY", MEMORY),
        ("OTP_FULL", FULL),
        ("OTP_SPENT", SPENT),
        ("OTP_BAD_READING", BAD_READING),
        ("OTP_BAD_TREE", BAD_TREE),
        ("OTP_NO_SUPERVISOR", NO_SUPERVISOR),
        ("OTP_NESTED", NESTED),
        ("OTP_BUSY", BUSY),
        ("OTP_RUNNING", RUNNING),
        ("OTP_TURNED", TURNED),
        ("OTP_RESTART_PERMANENT", Restart::Permanent.number()),
        ("OTP_RESTART_TRANSIENT", Restart::Transient.number()),
        ("OTP_RESTART_TEMPORARY", Restart::Temporary.number()),
        ("OTP_TYPE_WORKER", Kind::Worker.number()),
        ("OTP_TYPE_SUPERVISOR", Kind::Supervisor.number()),
        ("OTP_STRATEGY_ONE_FOR_ONE", Strategy::OneForOne.number()),
        ("OTP_STRATEGY_ONE_FOR_ALL", Strategy::OneForAll.number()),
        ("OTP_STRATEGY_REST_FOR_ONE", Strategy::RestForOne.number()),
        ("OTP_STRATEGY_SIMPLE_ONE_FOR_ONE", Strategy::SimpleOneForOne.number()),
        ("OTP_AUTO_SHUTDOWN_NEVER", AutoShutdown::Never.number()),
        ("OTP_AUTO_SHUTDOWN_ANY_SIGNIFICANT", AutoShutdown::AnySignificant.number()),
        ("OTP_AUTO_SHUTDOWN_ALL_SIGNIFICANT", AutoShutdown::AllSignificant.number()),
        ("OTP_CHILD_UNDEFINED", ChildState::Undefined.number()),
        ("OTP_CHILD_STARTING", ChildState::Starting.number()),
        ("OTP_CHILD_UP", ChildState::Up.number()),
        ("OTP_CHILD_ASKED", ChildState::Asked.number()),
        ("OTP_CHILD_KILLED", ChildState::Killed.number()),
        ("OTP_CHILD_RESTARTING", ChildState::Restarting.number()),
        ("OTP_PHASE_UNOPENED", Phase::Unopened.number()),
        ("OTP_PHASE_RUNS", Phase::Runs.number()),
        ("OTP_PHASE_ENDED", Phase::Ended.number()),
        ("OTP_CAUSE_INTENSITY", EndCause::Intensity.number()),
        ("OTP_CAUSE_SIGNIFICANT", EndCause::Significant.number()),
        ("OTP_CAUSE_ASKED", EndCause::Asked.number()),
        ("OTP_CAUSE_INIT_FAILED", EndCause::InitFailed.number()),
        ("OTP_REASON_NORMAL", Reason::Normal.number()),
        ("OTP_REASON_SHUTDOWN", Reason::Shutdown.number()),
        ("OTP_REASON_SHUTDOWN_WITH", "shutdown:x".parse::<Reason>().unwrap().number()),
        ("OTP_REASON_KILL", Reason::Kill.number()),
        ("OTP_REASON_KILLED", Reason::Killed.number()),
        ("OTP_REASON_NOPROC", Reason::NoProc.number()),
        ("OTP_REASON_ERROR", text.number()),
        ("OTP_NOTE_UP", Note::Up(one).kind_number()),
        ("OTP_NOTE_IGNORED", Note::Ignored(one).kind_number()),
        ("OTP_NOTE_FAILED", Note::Failed(one, text).kind_number()),
        ("OTP_NOTE_EXIT", Note::Exit(one, text).kind_number()),
    ];
    pairs.into_iter().map(|(name, number)| (name.to_string(), number as usize)).collect()
}

#[test]
fn the_header_is_what_this_crate_declares() {
    let mut own = places();
    own.extend(words());
    match of_c() {
        Some(of_c) => assert_eq!(own, of_c),
        None => println!("skipped: there is no C compiler"),
    }
}
