#!/usr/bin/env python3
"""How sharp the transcripts are: rules are changed one at a time, and each change has to fail a transcript.

    changes.py            builds a copy of the program with all changes in it, each behind a switch, without proofs,
                          replays the transcripts once for each, and prints which of them fails first
    changes.py NUMBER..   these alone
    changes.py --look     only says whether each change still has its place in the code: a moment, and needs nothing

Definitions don't run, so a change is one of the code: what is left if a definition and its code were changed together. The
switch is a small C function, which reads on standard input which change is on; it is in the copy alone.
It takes some minutes of one core, and needs rt and a C compiler.
"""
import os
import re
import shutil
import subprocess
import sys
import tempfile
from pathlib import Path

ROOT = Path(__file__).resolve().parent.parent
CALLS, COUNTS, STARTS, STOPS, DEATHS, PLACES, WORK, ENDS, STEP = (
    f"otp_machine/src/{rule}.rt" for rule in ("calls", "counts", "starts", "stops", "deaths", "places", "work", "ends", "step")
)
AFFECTED, STOPPING, LINES, DEADLINES = (f"otp_machine/src/decisions/{rule}.rt" for rule in ("restarts", "stops", "counts", "step"))
PLAYER, VALUE, REASON = "otp_sim/src/player.rt", "otp_text/src/value.rt", "otp_reason/src/reason.rt"
SUPERVISOR = "otp_core/src/supervisor.rt"
CHECK, CHILD = "otp_spec/src/check.rt", "otp_spec/src/child.rt"
WINDOW, TABLE = "otp_window/src/ordered.rt", "otp_table/src/row.rt"
TREE, FILE_CHILD, FILE_VALUE = "otp_file/src/supervisor.rt", "otp_file/src/child.rt", "otp_file/src/value.rt"


def instead(wanted, other):
    """The other value where the change is on."""
    return f"if ON {{ {other} }} else {{ {wanted} }}"


def value(file, after, wanted, other):
    """The first place of the wanted text after another text has the other value."""
    return (file, after, wanted, instead(wanted, other))


NOT_FOUND, RUNNING, RESTARTING = "CallFault::NotFound", "CallFault::Running", "CallFault::Restarting"
SIMPLE, NOT_SIMPLE = "CallFault::SimpleOneForOne", "CallFault::NotSimple"


def refusal(before, pattern, fault):
    """In the table of refusals another line stands before one: this call in this state of the child has this fault."""
    return (CALLS, "fn fault_at(", before, f"{pattern} if ON => Some({fault}),\n        {before}")


def says_ok(pattern):
    """A call that matches does nothing and is answered ok."""
    return (CALLS, "fn call_at(", "match fault_at(", f"if ON && matches!((asked, self.rows.get(place).state), {pattern}) {{\n            self.answer(call, Reply::Ok);\n            return;\n        }}\n        match fault_at(")


def not_found_under_simple(call):
    return (CALLS, "fn call_child(", SIMPLE, f"if ON && matches!(asked, Call::{call}(_)) {{ {NOT_FOUND} }} else {{ {SIMPLE} }}")


# What is changed, and where: file, a text before the place, the text, and what stands there (ON: the change is on).
CHANGES = [
    # Calls
    ("restart of a restarting child says running", [refusal("(Call::RestartChild(_) | Call::DeleteChild(_), RowState::Restarting(_))", "(Call::RestartChild(_), RowState::Restarting(_))", RUNNING)]),
    ("delete of a restarting child says running", [refusal("(Call::RestartChild(_) | Call::DeleteChild(_), RowState::Restarting(_))", "(Call::DeleteChild(_), RowState::Restarting(_))", RUNNING)]),
    ("delete of a restarting child says ok, and keeps it", [says_ok("(Call::DeleteChild(_), RowState::Restarting(_))")]),
    ("delete of a running child says ok, and keeps it",
     [says_ok("(Call::DeleteChild(_), RowState::Starting(..) | RowState::Up(_) | RowState::Asked(..) | RowState::Killed(_))")]),
    ("delete of an ended child keeps its row", [(CALLS, "Call::DeleteChild(_) => {", "self.rows.remove(place);", "if !ON {\n                    self.rows.remove(place);\n                }")]),
    ("terminate of a restarting child leaves it restarting",
     [(CALLS, "fn carry_out(", "self.rows.set_state(place, RowState::Undefined);", "if !ON {\n                    self.rows.set_state(place, RowState::Undefined);\n                }")]),
    ("terminate of a child without a process says not_found", [refusal("(Call::TerminateChild(_) | Call::TerminateProcess(_)", "(Call::TerminateChild(_), RowState::Undefined)", NOT_FOUND)]),
    ("terminate of a restarting dynamic child says not_found", [refusal("(Call::TerminateChild(_) | Call::TerminateProcess(_)", "(Call::TerminateProcess(_), RowState::Restarting(_))", NOT_FOUND)]),
    ("terminate by number says not_simple under other strategies", [value(CALLS, "fn terminate_process(", NOT_FOUND, NOT_SIMPLE)]),
    ("terminate by id says not_found under simple_one_for_one", [not_found_under_simple("TerminateChild")]),
    ("restart says not_found under simple_one_for_one", [not_found_under_simple("RestartChild")]),
    ("delete says not_found under simple_one_for_one", [not_found_under_simple("DeleteChild")]),
    ("get under simple_one_for_one finds the specification by any id but its own", [(CALLS, "fn get_shared", "if is_named(id, spec) =>", "if is_named(id, spec) != ON =>")]),
    ("start without a specification says simple_one_for_one under other strategies", [value(CALLS, "fn start_dynamic", NOT_SIMPLE, SIMPLE)]),
    ("start with a specification says not_simple under simple_one_for_one", [value(CALLS, "fn start_child(", SIMPLE, NOT_SIMPLE)]),
    ("start of a running child says already_present", [refusal("(Call::StartChild(_), RowState::Up(number))", "(Call::StartChild(_), RowState::Up(_))", "CallFault::AlreadyPresent")]),
    ("start of a restarting child says already_started", [refusal("(Call::StartChild(_), _)", "(Call::StartChild(_), RowState::Restarting(number))", "CallFault::AlreadyStarted(number)")]),
    ("start looks for the id before it checks the specification", [(CALLS, "fn start_child(", "match check_childspecs", "if ON && self.rows.find_id(&spec.id).is_some() {\n            self.start_lawful(call, spec);\n            return;\n        }\n        match check_childspecs")]),
    ("start takes a significant child under never", [(CALLS, "fn start_child(", "Some(self.auto_shutdown)", instead("Some(self.auto_shutdown)", "None"))]),
    ("a failed restart_child is answered ok undefined",
     [(STARTS, "Some(Sequel::Restarted(call)) => {\n                self.rows", "self.answer(call, Reply::Refused(CallFault::Start(*reason)));",
       "self.answer(call, if ON { Reply::OkUndefined } else { Reply::Refused(CallFault::Start(*reason)) });")]),
    ("a failed restart_child removes the row",
     [(STARTS, "Some(Sequel::Restarted(call)) => {\n                ", "self.rows.set_state(place, RowState::Undefined);",
       "if ON {\n                    self.rows.remove(place);\n                } else {\n                    self.rows.set_state(place, RowState::Undefined);\n                }")]),
    ("a child whose first start fails keeps its row",
     [(STARTS, "Some(Sequel::Added(call)) => {\n                ", "self.rows.remove(place);", "if ON {\n                    self.rows.set_state(place, RowState::Undefined);\n                } else {\n                    self.rows.remove(place);\n                }")]),
    ("an ignored restart_child is answered ok", [(WORK, "Some(Sequel::Added(call)) | Some(Sequel::Restarted(call))", "self.answer(call, Reply::OkUndefined);", "self.answer(call, if ON { Reply::Ok } else { Reply::OkUndefined });")]),
    ("restart_child counts as a restart",
     [(CALLS, "fn start_again(", "self.to_stop.clear();", "if ON {\n            let _ = self.window.add(self.last);\n        }\n        self.to_stop.clear();")]),
    # What is told
    ("a child without a process is active", [(TABLE, "fn is_active", "RowState::Undefined | RowState::Starting(..)", "RowState::Undefined => ON,\n        RowState::Starting(..)")]),
    ("a restarting child is active", [(TABLE, "fn is_active", "RowState::Starting(..) | RowState::Restarting(_) =>", "RowState::Restarting(_) if ON => true,\n        RowState::Starting(..) | RowState::Restarting(_) =>")]),
    ("supervisors count as workers too", [(TABLE, "fn is_worker", "ChildType::Supervisor => false", "ChildType::Supervisor => ON")]),
    ("specs counts dynamic children", [(COUNTS, "pub fn counts", "if self.strategy.is_simple() {", "if self.strategy.is_simple() && !ON {")]),
    ("a restarting child is listed as undefined", [value(LINES, "fn process_of", "ChildProcess::Restarting", "ChildProcess::Undefined")]),
    ("three modules are printed as two", [(VALUE, "Modules::Three", "write_next_module(third, out)", instead("write_next_module(third, out)", "Ok(())"))]),
    # Specifications and flags
    ("a fourth module may be no name",
     [(CHILD, "fn are_lawful", "fourth.is_lawful()", "(ON || fourth.is_lawful())"),
      (FILE_VALUE, "[first, second, third, fourth] =>", "name_at(fourth)?",
       "if ON {\n                    fourth.as_str().and_then(|text| Name::new(text.as_bytes())).unwrap_or(name_at(first)?)\n"
       "                } else {\n                    name_at(fourth)?\n                }")]),
    ("ids need not be unique", [(CHECK, "fn fault_at", "if repeats(spec, earlier, may_repeat)", "if !ON && repeats(spec, earlier, may_repeat)")]),
    ("a significant child may be permanent", [(CHECK, "fn fault_at", "if spec.significant && spec.restart.is_permanent()", "if !ON && spec.significant && spec.restart.is_permanent()")]),
    ("significant under never is told before permanent",
     [(CHECK, "fn fault_at", "spec.restart.is_permanent()", "spec.restart.is_permanent() && !(ON && is_never(auto_shutdown))")]),
    ("simple_one_for_one may have no child", [(TREE, "fn check_count", "(count != 1 || nested)", "(count != 1 && !(ON && count == 0) || nested)")]),
    ("the default intensity is 2", [value(FILE_VALUE, "fn intensity_at", "Ok(SupFlags::default().intensity)", "Ok(2)")]),
    ("the default period is 6 seconds", [value(FILE_VALUE, "fn period_at", "Ok(SupFlags::default().period)", "Ok(6)")]),
    ("the default shutdown of a supervisor is 5000", [value(CHILD, "ChildType::Supervisor => ", "Shutdown::Infinity", "Shutdown::Milliseconds(5000)")]),
    ("the default modules are the id", [(FILE_CHILD, "fn spec_with", "Modules::One(start)", "Modules::One(if ON { id } else { start })")]),
    # Restarts
    ("a transient child that ends with shutdown and a term is restarted",
     [(REASON, "fn is_quiet", "Reason::Normal | Reason::Shutdown | Reason::ShutdownWith(_) => true", "Reason::ShutdownWith(_) => !ON,\n            Reason::Normal | Reason::Shutdown => true")]),
    ("a transient child that ends with killed is not restarted", [(REASON, "fn is_quiet", "Reason::Kill | Reason::Killed |", "Reason::Killed => ON,\n            Reason::Kill |")]),
    ("a transient child that ends with noproc is not restarted", [(REASON, "fn is_quiet", "| Reason::NoProc | Reason::Error(_) => false", "| Reason::Error(_) => false,\n            Reason::NoProc => ON")]),
    ("rest_for_one restarts those before too", [value(AFFECTED, "Strategy::RestForOne => (", "place", "0")]),
    ("rest_for_one restarts the child that died alone", [(AFFECTED, "Strategy::RestForOne => (", "count)", "if ON { place + 1 } else { count })")]),
    ("one_for_all leaves those before", [value(AFFECTED, "Strategy::OneForAll => (", "0", "place")]),
    ("a temporary sibling is started again", [(AFFECTED, "fn list_dues", "if !is_temporary(row.spec.restart) {", "if ON || !is_temporary(row.spec.restart) {")]),
    ("a temporary child that was told to stop keeps its row",
     [(DEATHS, "RowState::Asked(..) | RowState::Killed(_) => ", "self.end_row(place)", "if ON { self.rows.set_state(place, RowState::Undefined) } else { self.end_row(place) }")]),
    ("a temporary child that ended before it was told keeps its row",
     [(PLACES, "fn end_process", "self.end_row(place);", "if ON {\n                self.rows.set_state(place, RowState::Undefined);\n            } else {\n                self.end_row(place);\n            }")]),
    ("an ignored temporary child keeps its row",
     [(STARTS, "fn take_ignored", "self.end_row(place);", "if ON {\n                self.rows.set_state(place, RowState::Undefined);\n            } else {\n                self.end_row(place);\n            }")]),
    ("children are stopped in start order", [(WORK, "fn stop_first", "while let Some(p) = self.to_stop.pop() {", "while let Some(p) = if ON && !self.to_stop.is_empty() { Some(self.to_stop.remove(0)) } else { self.to_stop.pop() } {")]),
    ("children are started in reverse", [(WORK, "fn start_first", "self.to_start.pop_front()", "(if ON { self.to_start.pop_back() } else { self.to_start.pop_front() })")]),
    ("a retry doesn't count",
     [(DEATHS, "fn retry(", "self.restart(place, kept);",
       "if ON {\n                self.rows.set_state(place, RowState::Undefined);\n                let (from, to) = affected(self.strategy, place, self.rows.len());\n"
       "                self.restart_rows(from, to, place, kept);\n            } else {\n                self.restart(place, kept);\n            }")]),
    ("a retry restarts its child alone",
     [(DEATHS, "fn retry(", "self.restart(place, kept);",
       "let strategy = self.strategy;\n            if ON && !strategy.is_simple() {\n                self.strategy = otp_spec::Strategy::OneForOne;\n            }\n"
       "            self.restart(place, kept);\n            self.strategy = strategy;")]),
    ("a failed restart keeps its own number, not the one that died", [(WORK, "fn start_first", "due.kept.unwrap_or(number)", "if ON { number } else { due.kept.unwrap_or(number) }")]),
    ("a failed restart is given up", [(STARTS, "Some(Sequel::Nothing) => {", "self.put_last(Waiting::Retry(kept));", "if !ON {\n                    self.put_last(Waiting::Retry(kept));\n                }")]),
    ("one restart more than the intensity is borne",
     [(WINDOW, "fn is_crowded_with(", "if limit == 0 {", "let limit = if ON { limit + 1 } else { limit };\n    if limit == 0 {")]),
    ("a period is a second longer",
     [(WINDOW, "fn is_within(", "<= 1000 * period", "<= 1000 * if ON { period + 1 } else { period }")]),
    ("a restart at the end of a period is outside",
     [(WINDOW, "fn is_within(", "now - stamp <=", "now - stamp + (if ON { 1 } else { 0 }) <=")]),
    ("the end of a temporary child counts as a restart", [(DEATHS, "fn end_for_good(", "self.end_row(place);", "if ON && row.spec.restart == otp_spec::Restart::Temporary {\n                let _ = self.window.add(self.last);\n            }\n            self.end_row(place);")]),
    ("too many restarts end the supervisor before its children",
     [(DEATHS, "Within::Exceeded => ", "self.terminate(Ending::Intensity)", "if ON { self.end_all(Ending::Intensity) } else { self.terminate(Ending::Intensity) }")]),
    ("a sibling that waits for its retry waits on after a restart of all", [(DEATHS, "fn restart_rows", "self.rows.calm(from, to);", "if !ON {\n            self.rows.calm(from, to);\n        }")]),
    # Automatic shutdown
    ("any_significant waits for the last", [(AFFECTED, "AutoShutdown::AnySignificant => ", "row.spec.significant", "row.spec.significant && !(ON && has_left(rows))")]),
    ("all_significant ends at the first", [(AFFECTED, "AutoShutdown::AllSignificant => ", "!rows.has_left()", "(ON || !rows.has_left())")]),
    ("a significant child that waits for its retry counts as gone", [(TABLE, "fn is_left", "!self.state.is_undefined()", "!self.state.is_undefined() && !(ON && self.state.is_restarting())"),
      ("otp_table/src/counts.rt", "fn is_left_as", "!state.is_undefined()", "!state.is_undefined() && !(ON && state.is_restarting())")]),
    ("a child that isn't significant ends the supervisor too", [(AFFECTED, "AutoShutdown::AnySignificant => ", "row.spec.significant", "(ON || row.spec.significant)")]),
    ("a significant child that is terminated ends the supervisor",
     [(DEATHS, "fn take_exit", "RowState::Asked(..) | RowState::Killed(_) => ", "RowState::Asked(..) if ON => {\n                let row = *self.rows.get(place);\n                self.end_row(place);\n                self.after_end(number, &row);\n            }\n            RowState::Asked(..) | RowState::Killed(_) => ")]),
    ("a temporary significant child that fails doesn't end the supervisor",
     [(DEATHS, "fn take_exit(", "self.end_for_good(place, number);",
       "if !ON || reason.is_quiet() {\n                        self.end_for_good(place, number);\n                    } else {\n                        self.end_row(place);\n                    }")]),
    # The opening
    ("a failed opening doesn't stop the children", [(STARTS, "Some(Sequel::Ready) => {", "self.terminate(Ending::InitFailed(id));", "if ON {\n                    self.end_all(Ending::InitFailed(id));\n                } else {\n                    self.terminate(Ending::InitFailed(id));\n                }")]),
    ("a failed opening ends with shutdown", [(ENDS, "Ending::InitFailed(id) => SupEnd", "reason: init_failed(id)", "reason: if ON { Reason::Shutdown } else { init_failed(id) }")]),
    ("an ignored start fails the opening", [(STARTS, "fn take_ignored", "if let RowState::Starting(..)", "if ON && self.follows == Some(Sequel::Ready) {\n            let id = self.rows.get(place).spec.id;\n            self.rows.set_state(place, RowState::Undefined);\n            self.terminate(Ending::InitFailed(id));\n            return;\n        }\n        if let RowState::Starting(..)")]),
    ("an end during the opening is lost", [(DEATHS, "fn take_exit", "if self.follows.is_some() {", "if ON && self.follows == Some(Sequel::Ready) {\n                    return;\n                }\n                if self.follows.is_some() {")]),
    ("the end of a process that isn't up yet is lost", [(DEATHS, "fn take_exit", "RowState::Starting(..) =>", "RowState::Starting(..) if ON => {}\n            RowState::Starting(..) =>")]),
    # Stopping
    ("brutal_kill asks", [(STOPPING, "fn stop_order", "Shutdown::BrutalKill => Effect::Kill", "Shutdown::BrutalKill if ON => Effect::Ask(id, number),\n        Shutdown::BrutalKill => Effect::Kill")]),
    ("infinity is 5000 milliseconds", [(STOPPING, "Shutdown::Infinity => RowState::Asked(number, ", "None", "if ON { Some(now + 5000) } else { None }")]),
    ("a deadline is late by a millisecond", [(DEADLINES, "fn late_number", "deadline <= now", "deadline + (if ON { 1 } else { 0 }) <= now")]),
    ("a deadline is counted from the beginning", [(STOPPING, "Shutdown::Milliseconds(time) =>", "Some(now + ", "Some(if ON { 0 } else { now } + ")]),
    ("a child whose end waits is told to stop", [(WORK, "fn stop_first", "match self.waiting.find_exit(p)", "match if ON { None } else { self.waiting.find_exit(p) }")]),
    ("dynamic children are stopped one after another", [(STOPS, "fn terminate(", "if self.strategy.is_simple()", "if self.strategy.is_simple() && !ON")]),
    ("a stop while work is open is lost", [(PLAYER, "Line::Stop =>", "self.is_stopping = true;", "if !ON || !self.core.has_open_work() {\n                    self.is_stopping = true;\n                }")]),
    ("a call that waits is taken before a wanted stop", [(SUPERVISOR, "fn idle_kind", "is_stop_wanted && !self.has_ended() {", "is_stop_wanted && !self.has_ended() && !(ON && self.has_waiting()) {")]),
    ("calls that wait at the end are not answered", [(ENDS, "fn end_all", "self.waiting\n            .refuse_calls(", "if !ON {\n            self.waiting.refuse_calls("), (ENDS, ".refuse_calls(", "&mut self.orders);", "&mut self.orders);\n        }")]),
    ("a call after the end says not_found", [(STEP, "fn ask(", "self.answer(number, Reply::NoProc);", "self.answer(number, if ON { Reply::Refused(otp_rules::CallFault::NotFound) } else { Reply::NoProc });")]),
    ("an out-of-date retry hits a later restart", [(TABLE, "fn awaits_retry", "if kept == number", "if ON || kept == number")]),
]


def main():
    looks = sys.argv[1:] == ["--look"]
    wanted = [] if looks else [int(word) for word in sys.argv[1:]]
    numbered = [(n, *change) for n, change in enumerate([c for c in CHANGES if c[1]], 1)]
    chosen = [change for change in numbered if not wanted or change[0] in wanted]
    with tempfile.TemporaryDirectory() as folder:
        tree = Path(folder)
        copy(tree)
        for number, name, edits in numbered:
            for edit in edits:
                apply(tree, number, name, *edit)
        if looks:
            return
        caught = replay(tree, [0] + [number for number, *_ in chosen])
    if caught.pop(0) is not None:
        sys.exit("the unchanged program fails")
    print("| Changed rule | Fails first |\n|---|---|")
    for number, name, _ in chosen:
        print(f"| {name} | {caught[number] or '**nothing**'} |")
    escaped = [name for number, name, _ in chosen if caught[number] is None]
    print(f"\n{len(chosen)} changes, {len(escaped)} escaped")
    sys.exit(1 if escaped else 0)


def copy(tree):
    """The crates without what was built, and a crate with the switch, which each other crate uses."""
    (tree / "HANDLES").write_text((ROOT / "HANDLES").read_text())
    lines = (ROOT / "crates.txt").read_text().splitlines()
    used = [line + " change" if re.match(r"otp_", line) else line for line in lines]
    (tree / "crates.txt").write_text("\n".join(used) + "\nchange:\n")
    for crate in (ROOT / "crates").iterdir():
        shutil.copytree(crate, tree / "crates" / crate.name, ignore=shutil.ignore_patterns("out", "must-fail"))
    switch = tree / "crates/change"
    (switch / "src").mkdir(parents=True)
    (switch / "c").mkdir()
    (switch / "src/lib.rt").write_text(
        "//! Which change is on.\n#![tactic(auto)]\n\nunsafe extern \"C\" {\n    safe fn change_number() -> u32;\n}\n\n"
        "pub fn is(number: u32) -> bool {\n    change_number() == number\n}\n")
    (switch / "c/change.c").write_text(
        "#include <stdio.h>\nunsigned change_number(void) {\n    static int is_read = 0;\n    static unsigned number = 0;\n"
        "    if (!is_read) {\n        is_read = 1;\n        if (scanf(\"%u\", &number) != 1) number = 0;\n    }\n    return number;\n}\n")
    # The first transcript that fails is enough.
    stop = "\n        if score.failed > 0 {\n            break;\n        }"
    put(tree / "crates/otp_parity/src/replay.rt", "", "score.count(passed);", "score.count(passed);" + stop)
    put(tree / "crates/otp_parity/src/main.rt", "", "&mut score)?;", "&mut score)?;" + stop)
    # Each transcript has a buffer of its own, and a build without proofs tests each of its bytes.
    put(tree / "crates/otp_sim/src/device.rt", "const PIECE", "65_536", "1024")
    subprocess.run(["git", "init", "-q", str(tree)], check=True)


def apply(tree, number, name, file, after, old, new):
    try:
        put(tree / "crates" / file, after, old, new.replace("ON", f"change::is({number})") if "ON" in new else new)
    except ValueError:
        sys.exit(f"no place for the change: {name}")


def put(path, after, old, new):
    text = path.read_text()
    at = text.index(old, text.index(after) + len(after))
    path.write_text(text[:at] + new + text[at + len(old):])


def replay(tree, numbers):
    """The first transcript that fails with each change, or None."""
    crate = tree / "crates/otp_parity"
    files = (crate / "args").read_text()
    cases = tree / "cases"
    cases.mkdir()
    for number in numbers:
        (cases / f"change{number}").write_text(f"{number}\n")
        (cases / f"change{number}.args").write_text(files)
    data = [word for file in files.split() for word in ("--data", f"{file}=data/{file}")]
    done = subprocess.run([str(ROOT / "tools/rt"), "try", "--seconds", "600", *data, "--cases", str(cases)], cwd=crate, capture_output=True, text=True,
                          env={**os.environ, "RT_ALLOW_C": "change"})
    caught = {}
    for part in re.split(r"^== change", done.stdout, flags=re.M)[1:]:
        number = int(part.split("\n", 1)[0])
        if re.search(r"^\d+ passed, 0 failed$", part, flags=re.M):
            caught[number] = None
        else:
            failed = re.search(r"^failed: (.*)$", part, flags=re.M)
            caught[number] = failed.group(1) if failed else "the program stops"
    if sorted(caught) != sorted(numbers):
        sys.exit(done.stdout[-3000:] + done.stderr[-3000:])
    return caught


if __name__ == "__main__":
    main()
