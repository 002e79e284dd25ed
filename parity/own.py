#!/usr/bin/env python3
"""Transcripts that no OTP can record, since the rule is this project's own or differs from OTP: own.py FILE.

Each says why. Its orders were worked out by hand from docs/OTP.md and docs/FORMATS.md, never taken from the program. Lines and orders are written in one line each here, as in the worked rows.
"""
import sys
from pathlib import Path

from cases import child, simple, tree

A = tree(child("a"), intensity=3)
AB = tree(child("a"), child("b"), intensity=3)

STOP_FIRST = "with no work open the parent's stop comes before what waits; OTP takes messages in order"
ALIVE = "active counts rows whose process was started and whose end was not taken; OTP asks whether the process lives"
GONE = "terminate_child of a dynamic number that is gone answers not_found; OTP answers ok"
IGNORED = "a dynamic child whose restart answers ignore is removed; OTP keeps it as undefined"
MINUS = "a restarting dynamic child that is terminated counts no more; OTP counts it as -1"
RETRY = "an out-of-date retry does nothing; OTP's names the child alone, and hits a later restart"
E4_FIRST = "significant and permanent is told before significant under never; OTP looks at auto_shutdown first"
SIMPLE = "start_child with a specification under simple_one_for_one is refused by name, and without one elsewhere"
LIMIT = "a limit of this project"
TIME = "time is whole milliseconds; OTP counts restarts in whole seconds"
DEADLINE = "a deadline to the millisecond is no matter of a real clock"
CLOCK = "a clock that falls is held; OTP's doesn't fall"
OUT_OF_DATE = "an out-of-date note changes nothing; no process of OTP can send one"
KILLED = "a kill takes effect when its note comes; in OTP the process has ended by then"
UNKNOWN = "a process can be named by its number before it is up; in OTP nobody knows it by then"
FILE = "a check of the tree file"

OWN = [
    ("a stop comes before a call that waits", STOP_FIRST, A,
     "up 1; exit 1 error:x; count; stop; up 2; exit 2 shutdown",
     "start a #1; ready; start a #2; ask a #2; reply 1 noproc; end shutdown"),
    ("a stop comes before an end that waits", STOP_FIRST, AB,
     "up 1; up 2; exit 1 error:x; exit 2 error:y; stop; up 3; exit 3 shutdown",
     "start a #1; start b #2; ready; start a #3; ask a #3; end shutdown"),
    ("a stop comes before calls that waited through the opening", STOP_FIRST, AB,
     "which; up 1; delete a; stop; up 2; exit 2 shutdown; exit 1 shutdown",
     "start a #1; start b #2; ready; ask b #2; ask a #1; reply 1 noproc; reply 2 noproc; end shutdown"),
    ("a stop comes before a dynamic child's end that waits", STOP_FIRST, simple(),
     "start; up 1; start; exit 1 error:x; stop; up 2; exit 2 shutdown",
     "ready; start - #1; reply 1 ok #1; start - #2; reply 2 ok #2; ask - #2; end shutdown"),

    ("a process whose end waits is active", ALIVE, AB,
     "up 1; up 2; exit 1 error:x; count; exit 2 error:y; up 3; up 4; count",
     "start a #1; start b #2; ready; start a #3; reply 1 count specs 2 active 2 supervisors 0 workers 2; start b #4; "
     "reply 2 count specs 2 active 2 supervisors 0 workers 2"),

    ("terminate of a dynamic child that is gone", GONE, simple(),
     "start; up 1; terminate #1; exit 1 shutdown; terminate #1; terminate #7",
     "ready; start - #1; reply 1 ok #1; ask - #1; reply 2 ok; reply 3 error not_found; reply 4 error not_found"),
    ("terminate of a dynamic child that is told to stop", GONE, simple(),
     "start; up 1; terminate #1; terminate #1; exit 1 shutdown",
     "ready; start - #1; reply 1 ok #1; ask - #1; reply 2 ok; reply 3 error not_found"),
    ("terminate of a dynamic child that was restarted", GONE, simple(),
     "start; up 1; exit 1 error:x; up 2; terminate #1; terminate #2; exit 2 shutdown",
     "ready; start - #1; reply 1 ok #1; start - #2; reply 2 error not_found; ask - #2; reply 3 ok"),
    ("terminate of a dynamic child whose restart succeeds meanwhile", GONE, simple(),
     "start; up 1; exit 1 error:x; terminate #1; up 2; which",
     "ready; start - #1; reply 1 ok #1; start - #2; reply 2 error not_found; reply 3 which undefined,#2,worker,w"),
    ("terminate of a dynamic child that isn't up", UNKNOWN, simple(),
     "start; terminate #1; up 1; exit 1 shutdown; which",
     "ready; start - #1; reply 1 ok #1; ask - #1; reply 2 ok; reply 3 which"),

    ("a dynamic child whose restart is ignored", IGNORED, simple(),
     "start; up 1; start; up 2; exit 1 error:x; ignore 3; which; count; stop; exit 2 shutdown",
     "ready; start - #1; reply 1 ok #1; start - #2; reply 2 ok #2; start - #3; reply 3 which undefined,#2,worker,w; "
     "reply 4 count specs 1 active 1 supervisors 0 workers 1; ask - #2; end shutdown"),

    ("a restarting dynamic child is terminated and counts no more", MINUS, simple(),
     "start; up 1; exit 1 error:x; terminate #1; count; which; fail 2 error:y; start; up 3; count",
     "ready; start - #1; reply 1 ok #1; start - #2; reply 2 ok; reply 3 count specs 1 active 0 supervisors 0 workers 0; reply 4 which; "
     "start - #3; reply 5 ok #3; reply 6 count specs 1 active 1 supervisors 0 workers 1"),
    ("a dynamic child whose restart failed twice keeps the number that died", MINUS, simple(),
     "start; up 1; exit 1 error:x; fail 2 error:y; terminate #2; terminate #3; terminate #1; count; fail 3 error:z",
     "ready; start - #1; reply 1 ok #1; start - #2; start - #3; reply 2 error not_found; reply 3 error not_found; reply 4 ok; "
     "reply 5 count specs 1 active 0 supervisors 0 workers 0"),

    ("an out-of-date retry", RETRY, tree(child("a"), child("b"), strategy="rest_for_one", intensity=9),
     "up 1; up 2; exit 2 error:x; terminate b; restart b; exit 1 error:z; fail 3 error:y; up 4; exit 4 shutdown; up 5; which; fail 6 error:w; up 7",
     "start a #1; start b #2; ready; start b #3; reply 1 ok; start b #4; reply 2 ok #4; ask b #4; start a #5; start b #6; "
     "reply 3 which a,#5,worker,a b,restarting,worker,b; start b #7"),

    ("significant and permanent under never", E4_FIRST, tree(child("a", significant=True)), "", "tree refused: E4"),
    ("a significant and permanent child is started under never", E4_FIRST, A,
     "up 1; start b b permanent true 5000 worker; start b b transient true 5000 worker; which",
     "start a #1; ready; reply 1 error bad_spec E4; reply 2 error bad_spec E5; reply 3 which a,#1,worker,a"),

    ("start with a specification under simple_one_for_one", SIMPLE, simple(),
     "start b b permanent false 1 worker; start w w permanent true 1 worker; which",
     "ready; reply 1 error simple_one_for_one; reply 2 error simple_one_for_one; reply 3 which"),
    *[(f"start without a specification under {strategy}", SIMPLE, tree(child("a"), strategy=strategy),
       "up 1; start; which", "start a #1; ready; reply 1 error not_simple; reply 2 which a,#1,worker,a")
      for strategy in ["one_for_one", "one_for_all", "rest_for_one"]],
    ("a number that no process has, and one that isn't up", UNKNOWN, A,
     "terminate #1; up 1; terminate #0; terminate #4611686018427387904",
     "start a #1; ready; reply 1 error not_found; reply 2 error not_found; reply 3 error not_found"),

    ("both ends of a period, to the millisecond", TIME, tree(child("a"), intensity=1, period=1),
     "up 1; at 500; exit 1 error:x; up 2; at 1500; exit 2 error:x", "start a #1; ready; start a #2; end shutdown"),
    ("a millisecond after a period", TIME, tree(child("a"), intensity=1, period=1),
     "up 1; at 500; exit 1 error:x; up 2; at 1501; exit 2 error:x; up 3; at 2501; exit 3 error:x",
     "start a #1; ready; start a #2; start a #3; end shutdown"),
    ("both ends of the default period", TIME, tree(child("a")),
     "up 1; at 1000; exit 1 error:x; up 2; at 6000; exit 2 error:x", "start a #1; ready; start a #2; end shutdown"),
    ("a millisecond after the default period", TIME, tree(child("a")),
     "up 1; at 1000; exit 1 error:x; up 2; at 6001; exit 2 error:x; up 3", "start a #1; ready; start a #2; start a #3"),
    ("two restarts at one reading, and one after the period", TIME, tree(child("a"), intensity=2, period=1),
     "up 1; at 7; exit 1 error:x; up 2; exit 2 error:x; up 3; at 1008; exit 3 error:x; up 4; exit 4 error:x; up 5; exit 5 error:x",
     "start a #1; ready; start a #2; start a #3; start a #4; start a #5; end shutdown"),
    ("a clock that falls doesn't end a period", CLOCK, tree(child("a")),
     "up 1; at 9000; exit 1 error:x; up 2; at 2000; exit 2 error:x", "start a #1; ready; start a #2; end shutdown"),
    ("a clock that falls is held until it is overtaken", CLOCK, tree(child("a"), period=1),
     "up 1; at 9000; exit 1 error:x; at 100; up 2; at 9999; exit 2 error:x", "start a #1; ready; start a #2; end shutdown"),

    ("a deadline, and a millisecond before", DEADLINE, tree(child("a", shutdown=100)),
     "up 1; at 500; stop; at 599; at 600; at 700; exit 1 killed; exit 1 killed; which",
     "start a #1; ready; ask a #1; kill a #1; end shutdown; reply 1 noproc"),
    ("a deadline and an end that was killed late", DEADLINE, tree(child("a", shutdown=100), child("b")),
     "up 1; up 2; terminate a; at 99; which; at 100; exit 1 normal",
     "start a #1; start b #2; ready; ask a #1; kill a #1; reply 1 ok; reply 2 which a,undefined,worker,a b,#2,worker,b"),
    ("a deadline is from the stamp of the stop, which no falling clock lowers", CLOCK, tree(child("a", shutdown=100)),
     "at 800; up 1; at 300; stop; at 899; at 900; exit 1 killed", "start a #1; ready; ask a #1; kill a #1; end shutdown"),
    ("the deadlines of dynamic children are one, and those that ended are not killed", DEADLINE, simple(shutdown=100),
     "start; up 1; start; up 2; start; up 3; at 10; stop; at 109; exit 2 shutdown; at 110; exit 3 killed; exit 1 killed",
     "ready; start - #1; reply 1 ok #1; start - #2; reply 2 ok #2; start - #3; reply 3 ok #3; ask - #1; ask - #2; ask - #3; "
     "kill - #1; kill - #3; end shutdown"),
    ("the greatest deadline", LIMIT, tree(child("a", shutdown=4294967295)),
     "up 1; stop; at 4294967294; at 4294967295; exit 1 killed", "start a #1; ready; ask a #1; kill a #1; end shutdown"),

    ("notes of a process that is up", OUT_OF_DATE, A, "up 1; up 1; fail 1 error:x; ignore 1; which",
     "start a #1; ready; reply 1 which a,#1,worker,a"),
    ("notes of processes that never were", OUT_OF_DATE, A, "up 2; exit 7 error:x; fail 0 error:x; ignore 3; up 1; exit 0 error:x; which",
     "start a #1; ready; reply 1 which a,#1,worker,a"),
    ("a second end of one process", OUT_OF_DATE, A, "up 1; exit 1 error:x; exit 1 error:x; up 2; exit 1 error:x; which",
     "start a #1; ready; start a #2; reply 1 which a,#2,worker,a"),
    ("notes of a process that is told to stop", OUT_OF_DATE, AB, "up 1; up 2; terminate b; up 2; ignore 2; fail 2 error:x; which; exit 2 shutdown",
     "start a #1; start b #2; ready; ask b #2; reply 1 ok; reply 2 which a,#1,worker,a b,undefined,worker,b"),
    ("notes after the end", OUT_OF_DATE, A, "up 1; stop; exit 1 shutdown; up 1; exit 1 error:x; fail 1 error:x; stop; at 9000; which",
     "start a #1; ready; ask a #1; end shutdown; reply 1 noproc"),

    ("a call waits until a killed process has ended", KILLED, tree(child("a", shutdown="brutal_kill"), child("b"), intensity=3),
     "up 1; up 2; terminate a; which; exit 1 killed",
     "start a #1; start b #2; ready; kill a #1; reply 1 ok; reply 2 which a,undefined,worker,a b,#2,worker,b"),
    ("a killed process ends otherwise", KILLED, tree(child("a", shutdown="brutal_kill"), child("b"), strategy="one_for_all", intensity=3),
     "up 1; up 2; exit 2 error:x; exit 1 normal; up 3; up 4",
     "start a #1; start b #2; ready; kill a #1; start a #3; start b #4"),
    ("a stop is wanted before a killed process has ended", KILLED, tree(child("a"), child("b", shutdown="brutal_kill"), intensity=3),
     "up 1; up 2; terminate b; stop; exit 1 error:x; exit 2 killed",
     "start a #1; start b #2; ready; kill b #2; reply 1 ok; end shutdown"),
    ("killed dynamic children end in any order", KILLED, simple(shutdown="brutal_kill"),
     "start; up 1; start; up 2; stop; which; exit 2 killed; exit 1 killed",
     "ready; start - #1; reply 1 ok #1; start - #2; reply 2 ok #2; kill - #1; kill - #2; reply 3 noproc; end shutdown"),

    ("256 dynamic children", LIMIT, simple(),
     "".join(f"start; up {n}; " for n in range(1, 257)) + "start; terminate #7; exit 7 shutdown; start; up 257; start",
     "ready; " + "".join(f"start - #{n}; reply {n} ok #{n}; " for n in range(1, 257)) + "reply 257 error too_many_children; ask - #7; "
     "reply 258 ok; start - #257; reply 259 ok #257; reply 260 error too_many_children"),

    ("the greatest intensity and period", LIMIT, tree(child("a"), intensity=1000, period=1000000), "up 1", "start a #1; ready"),
    ("an intensity above the greatest", LIMIT, tree(child("a"), intensity=1001), "", "tree refused: E1"),
    ("a period above the greatest", LIMIT, tree(child("a"), period=1000001), "", "tree refused: E1"),
    ("a shutdown above the greatest", LIMIT, tree(child("a", shutdown=4294967296)), "", "tree refused: E2"),
    ("a negative shutdown", FILE, tree(child("a", shutdown=-1)), "", "tree refused: E2"),
    ("a name of 32 bytes", LIMIT, tree(child("a" * 32)), "up 1", f"start {'a' * 32} #1; ready"),
    ("a name of 33 bytes", LIMIT, tree(child("a" * 33)), "", "tree refused: E2"),
    ("a name without bytes", LIMIT, tree(child("")), "", "tree refused: E2"),
    ("a name with a space", LIMIT, tree(child("a b")), "", "tree refused: E2"),
    ("a name with each kind of byte", LIMIT, tree(child("aZ0_-.")), "up 1; get aZ0_-.",
     "start aZ0_-. #1; ready; reply 1 spec aZ0_-. start aZ0_-. restart permanent significant false shutdown 5000 type worker modules aZ0_-."),
    ("a start that is no name", LIMIT, tree(child("a", start="")), "", "tree refused: E2"),
    *[(f"module {n + 1} of 4 is no name", LIMIT, tree(child("a", modules=["m" if i != n else "" for i in range(4)])), "", "tree refused: E2")
      for n in range(4)],
    ("five modules", LIMIT, tree(child("a", modules=list("mnopq"))), "", "tree refused: E2"),
    ("a key of the supervisor that isn't listed", FILE, tree(child("a"), strategy="one_for_one", intensify=1), "", "tree refused: E11"),
    ("a key of a child that isn't listed", FILE, tree(child("a", trees=1)), "", "tree refused: E11"),
    ("a child without an id", FILE, 'child = [{ start = "a" }]\n', "", "tree refused: E12"),
    ("a child without a start", FILE, 'child = [{ id = "a" }]\n', "", "tree refused: E12"),
    ("a child that is no table", FILE, "child = [1]\n", "", "tree refused: E13"),
    ("children that are no array", FILE, 'child = "a"\n', "", "tree refused: E13"),
    ("an intensity that is a text", FILE, tree(child("a"), intensity="1"), "", "tree refused: E13"),
    ("a significant that is no truth value", FILE, tree(child("a", significant=1)), "", "tree refused: E13"),
    ("modules of another word", FILE, tree(child("a", modules="static")), "", "tree refused: E13"),
    ("simple_one_for_one with two children comes before what is wrong with them", FILE,
     tree(child("a"), child("a", significant=True), strategy="simple_one_for_one"), "", "tree refused: E6"),
    ("a flag's fault comes before a child's", FILE, tree(child(""), intensity=-1), "", "tree refused: E1"),
    ("what is no name comes before ids that are the same", FILE, tree(child("a"), child("a", start="")), "", "tree refused: E2"),
]


def lines(text):
    return "".join(line + "\n" for line in text.split("; ") if line)


def main():
    names = [name for name, *_ in OWN]
    assert len(set(names)) == len(names)
    Path(sys.argv[1]).write_text("".join(
        f"\n== {name}\n-- own: {why}\n{text}-- lines\n{lines(events)}-- orders\n{lines(orders)}" for name, why, text, events, orders in OWN))


if __name__ == "__main__":
    main()
