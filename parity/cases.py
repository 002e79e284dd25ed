#!/usr/bin/env python3
"""The scripts by rule: a table of cases, a file for each subject. cases.py FOLDER writes them.

A case is a name that says what it shows, a tree, and lines. Lines may leave numbers to the recorder
(parity_script.erl); most cases end with `finish`, which shows what is left.
"""
import sys
from itertools import product
from pathlib import Path

STRATEGIES = ["one_for_one", "one_for_all", "rest_for_one"]
RESTARTS = ["permanent", "transient", "temporary"]
REASONS = ["normal", "shutdown", "shutdown:x", "kill", "killed", "noproc", "error:x"]
AUTOMATIC = ["never", "any_significant", "all_significant"]

FILES = {}


def child(id, **keys):
    keys = {"id": id, "start": id, **keys}
    return "{ " + ", ".join(f"{key} = {value(v)}" for key, v in keys.items()) + " }"


def value(v):
    if isinstance(v, bool):
        return "true" if v else "false"
    if isinstance(v, int):
        return str(v)
    if isinstance(v, list):
        return "[" + ", ".join(map(value, v)) + "]"
    return f'"{v}"'


def tree(*children, **flags):
    lines = [f"{key} = {value(v)}" for key, v in flags.items()]
    if len(children) == 1:
        lines.append(f"child = [{children[0]}]")
    elif children:
        lines += ["child = [", *(f"  {c}," for c in children), "]"]
    return "".join(line + "\n" for line in lines)


def case(subject, name, tree, lines):
    file = FILES.setdefault(subject, {})
    assert name not in file, name
    file[name] = (tree, [line for line in lines.split("; ") if line])


def three(strategy, **keys):
    """Three permanent children, with the keys at the one in the middle."""
    return tree(child("a"), child("b", **keys), child("c"), strategy=strategy, intensity=3)


def simple(**keys):
    return tree(child("w", **keys), strategy="simple_one_for_one", intensity=3)


# --- Calls: each in each state of the child that it names, under each strategy ------------------------------------

SPEC = "{} transient false infinity supervisor"
CALLS = ["start b " + SPEC.format("b"), "start z " + SPEC.format("z"), "restart b", "delete b", "terminate b", "get b", "which", "count",
         "start c " + SPEC.format("c")]
ABSENT = ["restart y", "delete y", "terminate y", "get y"]
# How the child comes into the state, where the call is put, and what follows.
STATES = {
    "runs": "all up; {}; finish",
    "has ended": "all up; exit b normal; {}; finish",
    "was ignored": "up; ignore; up; {}; finish",
    "was terminated": "all up; terminate b; ends; {}; finish",
    "waits for a retry": None,  # waits_for_retry
    "is started": "all up; exit b error:x; {}; finish",
    "is told to stop": "all up; terminate b; {}; exit b shutdown; finish",
    "has an end that waits": "all up; terminate c; exit b error:x; {}; exit c shutdown; finish",
    "was deleted": "all up; terminate b; ends; delete b; {}; finish",
    "isn't up yet": "up; {}; finish",
    "failed at the opening": "up; {}; fail error:y; finish",
    "is stopped with all": "all up; stop; {}; finish",
    "ended with all": "all up; stop; ends; {}",
}


def short(call):
    words = call.split()
    return " ".join(words[:2]) if words[0] == "start" else call


def waits_for_retry(strategy, call):
    """The call waits before the restart of b fails, so that it is taken before the next try."""
    stops = {"one_for_one": "", "one_for_all": "exit 3 shutdown; exit 1 shutdown; up; ", "rest_for_one": "exit 3 shutdown; "}
    return f"all up; exit b error:x; {stops[strategy]}{call}; fail error:y; finish"


# What a call answers doesn't depend on the strategy: under the other strategies only the main states.
MAIN_STATES = ["runs", "has ended", "waits for a retry", "is told to stop", "has an end that waits", "ended with all"]

for strategy, call, state in product(STRATEGIES, CALLS, STATES):
    if strategy != "one_for_one" and state not in MAIN_STATES:
        continue
    lines = waits_for_retry(strategy, call) if state == "waits for a retry" else STATES[state].format(call)
    case("calls", f"{strategy}: {short(call)} where b {state}", three(strategy, restart="transient"), lines)

for strategy, call in product(STRATEGIES, ABSENT):
    case("calls", f"{strategy}: {call}, which isn't there", three(strategy), f"all up; {call}; finish")

# Calls whose start fails or is ignored.
for strategy, restart, answer in product(STRATEGIES, RESTARTS, ["ignore", "fail error:y", "fail normal", "fail shutdown:y"]):
    spec = f"z z {restart} false 5000 worker"
    case("calls", f"{strategy}: start of a {restart} child: {answer}", three(strategy), f"all up; start {spec}; {answer}; which; start {spec}; finish")
    if restart != "temporary":
        case("calls", f"{strategy}: restart of a {restart} child: {answer}", three(strategy, restart=restart),
             f"all up; terminate b; ends; restart b; {answer}; which; restart b; finish")

for strategy in STRATEGIES:
    for spec, why in [("z z transient true 5000 worker", "significant under never"), ("z z permanent false 0 worker", "shutdown 0"),
                      ("z y temporary false brutal_kill supervisor", "another start")]:
        case("calls", f"{strategy}: a child is started with {why}", three(strategy), f"all up; start {spec}; all up; get z; finish")
    for restart in RESTARTS:
        case("calls", f"{strategy}: a significant {restart} child is started under any_significant",
             tree(child("a"), strategy=strategy, auto_shutdown="any_significant"),
             f"all up; start z z {restart} true 5000 worker; all up; get z; finish; " + ("exit z normal; finish" if restart != "permanent" else ""))
    for state, lines in [("runs", "all up; "), ("has ended", "all up; exit b normal; ")]:
        case("calls", f"{strategy}: an unlawful specification is started where b {state}", three(strategy, restart="transient"),
             f"{lines}start b b transient true 5000 worker; finish")
    case("calls", f"{strategy}: a started child is the last in start order", three(strategy),
         "all up; start z z permanent false 5000 worker; up; start y y permanent false 5000 worker; up; stop; finish")
    case("calls", f"{strategy}: a started child is restarted as others are", three(strategy),
         "all up; start z z permanent false 5000 worker; up; exit b error:x; finish")
    case("calls", f"{strategy}: a deleted child is started again as the last", three(strategy),
         "all up; terminate b; ends; delete b; start b b permanent false 5000 worker; up; exit c error:x; finish")
    case("calls", f"{strategy}: a restarted child keeps its place", three(strategy), "all up; terminate b; ends; restart b; up; stop; finish")
    case("calls", f"{strategy}: start without a specification and terminate by number", three(strategy), "all up; terminate #1; which; finish")
    case("calls", f"{strategy}: calls are answered in turn after a stop", three(strategy),
         "all up; terminate c; which; terminate b; delete b; count; get c; exit c shutdown; exit b shutdown; finish")
    case("calls", f"{strategy}: a call that waits is answered after the exit before it", three(strategy, restart="temporary"),
         "all up; terminate c; exit b error:x; get b; exit c shutdown; finish")
    case("calls", f"{strategy}: terminate of a process that has died", three(strategy),
         "all up; terminate c; terminate b; exit b error:x; exit c shutdown; finish")
    case("calls", f"{strategy}: delete of a process that has died", three(strategy, restart="transient"),
         "all up; terminate c; exit b normal; delete b; exit c shutdown; finish")

DYNAMIC = ["terminate w", "terminate x", "restart w", "delete w", "get w", "get x", "which", "count", "start", "terminate #1"]
DYNAMIC_STATES = {
    "runs": "start; up; {}; finish",
    "waits for a retry": "start; up; start; up; exit 1 error:x; {}; fail error:y; finish",
    "is started": "start; {}; up; finish",
    "is told to stop": "start; up; terminate #1; {}; exit 1 shutdown; finish",
    "is not there": "{}; finish",
    "is one of three": "start; up; start; up; start; up; {}; finish",
    "ended with all": "start; up; stop; exit 1 shutdown; {}",
}
for call, state, restart in product(DYNAMIC, DYNAMIC_STATES, RESTARTS):
    if restart != "permanent" and state not in ("runs", "waits for a retry"):
        continue
    if call == "terminate #1" and state in ("is started", "is not there", "is told to stop", "ended with all"):
        continue  # OTP has no process to name there, or answers ok: worked out by hand
    if restart == "temporary" and state == "waits for a retry":
        continue  # never restarted
    lines = DYNAMIC_STATES[state].format(call)
    if state == "waits for a retry" and call == "terminate #1":
        lines = lines.replace("finish", "which")  # OTP counts it as -1 from then on
    case("dynamic", f"{call} where a {restart} dynamic child {state}", simple(restart=restart), lines)

# --- Dynamic children ---------------------------------------------------------------------------------------------

for restart, reason in product(RESTARTS, REASONS):
    case("dynamic", f"a {restart} dynamic child ends with {reason}", simple(restart=restart), f"start; up; start; up; exit 1 {reason}; finish; stop; finish")
for shutdown, count in product([5000, "infinity", "brutal_kill"], [1, 3]):
    case("dynamic", f"{count} dynamic children with shutdown {shutdown} are stopped together", simple(shutdown=shutdown), "start; up; " * count + "stop; finish")
    case("dynamic", f"one of {count} dynamic children with shutdown {shutdown} is terminated", simple(shutdown=shutdown),
         "start; up; " * count + "terminate #1; finish")
for answer in ["ignore", "fail error:y", "fail shutdown"]:
    case("dynamic", f"a dynamic child's start: {answer}", simple(), f"start; {answer}; finish")
for restart in ["permanent", "transient"]:
    case("dynamic", f"a {restart} dynamic child's restart fails twice", simple(restart=restart), "start; up; exit 1 error:x; fail error:y; fail error:z; up; finish")
    case("dynamic", f"the restart of a {restart} dynamic child fails too often", simple(restart=restart),
         "start; up; start; up; exit 1 error:x; fail error:y; fail error:z; fail error:y; finish")
    case("dynamic", f"a restarting {restart} dynamic child is named by the number that died", simple(restart=restart),
         "start; up; exit 1 error:x; which; terminate #1; fail 2 error:y; which; start; up; which")
    case("dynamic", f"a restarting {restart} dynamic child is no more stopped at the end", simple(restart=restart),
         "start; up; start; up; exit 1 error:x; fail error:y; stop; fail error:y; finish")
case("dynamic", "a dynamic child dies while another is stopped", simple(), "start; up; start; up; terminate #1; exit 2 error:x; exit 1 shutdown; finish")
case("dynamic", "a dynamic child dies while another is started", simple(), "start; up; start; exit 1 error:x; up; finish")
case("dynamic", "dynamic children end in any order at the end", simple(), "start; up; start; up; start; up; stop; exit 2 error:x; exit 1 normal; which; exit 3 shutdown")
case("dynamic", "a dynamic child that died before the end", simple(), "start; up; start; up; terminate #2; exit 1 error:x; exit 2 shutdown; up; stop; finish")
case("dynamic", "too many restarts of dynamic children", simple(), "start; up; start; up; exit 1 error:x; up; exit 2 error:x; up; exit 3 error:x; up; exit 4 error:x; finish")
case("dynamic", "counts of dynamic supervisors", simple(type="supervisor"), "start; up; start; up; count; which; get w; stop; finish")
case("dynamic", "modules of dynamic children", simple(modules="dynamic"), "start; up; which; get w")
case("dynamic", "an empty supervisor of dynamic children is stopped", simple(), "which; stop; which")
for auto, restart, reason in product(AUTOMATIC[1:], ["transient", "temporary"], ["normal", "shutdown:x", "error:x"]):
    for count in (1, 2):
        case("dynamic", f"{auto}: one of {count} significant {restart} dynamic children ends with {reason}",
             tree(child("w", restart=restart, significant=True), strategy="simple_one_for_one", auto_shutdown=auto, intensity=3),
             "start; up; " * count + f"exit 1 {reason}; finish")
    case("dynamic", f"{auto}: a significant {restart} dynamic child is terminated, {reason}",
         tree(child("w", restart=restart, significant=True), strategy="simple_one_for_one", auto_shutdown=auto, intensity=3),
         f"start; up; start; up; terminate #1; exit 1 {reason}; which; exit 2 {reason}; finish")
for auto in AUTOMATIC[1:]:
    case("dynamic", f"{auto}: a significant dynamic child ends while another waits for a retry",
         tree(child("w", restart="transient", significant=True), strategy="simple_one_for_one", auto_shutdown=auto, intensity=3),
         "start; up; start; up; exit 1 error:x; exit 2 normal; fail error:y; finish")

# --- Restarts -----------------------------------------------------------------------------------------------------

for strategy, restart, reason in product(STRATEGIES, RESTARTS, REASONS):
    case("restarts", f"{strategy}: a {restart} child ends with {reason}", three(strategy, restart=restart), f"all up; exit b {reason}; finish")
for strategy, who, sibling in product(STRATEGIES, "ac", ["transient", "temporary"]):
    case("restarts", f"{strategy}: {who} dies beside a {sibling} child", three(strategy, restart=sibling), f"all up; exit {who} error:x; finish; stop; finish")
    case("restarts", f"{strategy}: {who} dies beside a {sibling} child that has ended", three(strategy, restart=sibling),
         f"all up; exit b normal; exit {who} error:x; finish")
    case("restarts", f"{strategy}: {who} dies beside a {sibling} child that was ignored", three(strategy, restart=sibling),
         f"up; ignore; up; exit {who} error:x; finish")
    case("restarts", f"{strategy}: {who} dies beside a {sibling} child that was terminated", three(strategy, restart=sibling),
         f"all up; terminate b; ends; exit {who} error:x; finish")
    case("restarts", f"{strategy}: {who} dies beside a {sibling} child with brutal_kill", three(strategy, restart=sibling, shutdown="brutal_kill"),
         f"all up; exit {who} error:x; finish")
for strategy, restart in product(STRATEGIES, ["permanent", "transient"]):
    t = three(strategy, restart=restart)
    stops = {"one_for_one": "", "one_for_all": "ends; ", "rest_for_one": "ends; "}[strategy]
    before = {"one_for_one": "", "one_for_all": "up; ", "rest_for_one": ""}[strategy]
    case("restarts", f"{strategy}: the restart of a {restart} child is ignored", t, f"all up; exit b error:x; {stops}{before}ignore; finish; restart b; finish")
    for reason in ["error:y", "normal", "shutdown"]:
        case("restarts", f"{strategy}: the restart of a {restart} child fails with {reason}", t, f"all up; exit b error:x; {stops}{before}fail {reason}; finish")
    case("restarts", f"{strategy}: the restart of a {restart} child fails twice", t, f"all up; exit b error:x; {stops}{before}fail error:y; finish; exit b error:x; finish")
    case("restarts", f"{strategy}: the restart of a {restart} child fails until it is too often", t,
         f"all up; exit b error:x; {stops}{before}fail error:y; {stops}{before}fail error:y; {stops}{before}fail error:y; finish")
    case("restarts", f"{strategy}: a restarting {restart} child is terminated and restarted", t,
         f"all up; exit b error:x; {stops}{before}terminate b; restart b; fail error:y; up; finish")
    case("restarts", f"{strategy}: a sibling dies while a {restart} child is restarted", t, f"all up; exit b error:x; {stops}exit a error:z; finish")
    case("restarts", f"{strategy}: a sibling died before the restart of a {restart} child fails", t,
         f"all up; exit b error:x; {stops}{before}exit {'4' if strategy == 'one_for_all' else '1'} error:z; fail error:y; finish")
    case("restarts", f"{strategy}: a {restart} child dies while it is restarted", t, f"all up; exit b error:x; {stops}{before}exit b error:z; up; finish")
    case("restarts", f"{strategy}: a {restart} child dies while its start is ignored", t, f"all up; exit b error:x; {stops}{before}exit b error:z; ignore; finish")
    case("restarts", f"{strategy}: a {restart} child dies while its start fails", t, f"all up; exit b error:x; {stops}{before}exit b error:z; fail error:y; finish")
for strategy in ["one_for_all", "rest_for_one"]:
    before = {"one_for_all": "up; up; ", "rest_for_one": "up; "}[strategy]
    case("restarts", f"{strategy}: the restart of a sibling fails", three(strategy), f"all up; exit b error:x; ends; {before}fail error:y; finish")
    case("restarts", f"{strategy}: the restart of a sibling fails, and the first dies before its retry", three(strategy),
         f"all up; exit b error:x; ends; {before}exit {'5' if strategy == 'one_for_all' else '4'} error:z; fail error:y; finish")
    case("restarts", f"{strategy}: the restart of a sibling is ignored", three(strategy), f"all up; exit b error:x; ends; {before}ignore; finish")
    case("restarts", f"{strategy}: a sibling dies as it is told to stop", three(strategy), "all up; exit b error:x; exit 3 error:z; finish")
    case("restarts", f"{strategy}: two die before they are told to stop", three(strategy), "all up; terminate a; exit c error:z; exit b error:x; exit a shutdown; finish")
    case("restarts", f"{strategy}: a sibling with brutal_kill", tree(child("a"), child("b"), child("c", shutdown="brutal_kill"), strategy=strategy),
         "all up; exit b error:x; finish")
    case("restarts", f"{strategy}: a sibling that doesn't trap exits", tree(child("a"), child("b"), child("plain"), strategy=strategy),
         "all up; exit b error:x; finish")
for strategy, intensity in product(STRATEGIES, range(4)):
    t = tree(child("a"), child("b"), strategy=strategy, intensity=intensity)
    case("restarts", f"{strategy}: {intensity} restarts are allowed", t, "all up; " + "exit a error:x; ends; all up; " * intensity + "which; exit b error:x; finish")
for strategy in STRATEGIES:
    t = tree(child("a"), child("t", restart="temporary"), child("r", restart="transient"), strategy=strategy, intensity=1)
    case("restarts", f"{strategy}: ends that restart nothing don't count", t, "all up; exit t error:x; exit r normal; finish; exit a error:x; finish")
    case("restarts", f"{strategy}: restart_child doesn't count", tree(child("a"), child("b"), strategy=strategy, intensity=1),
         "all up; terminate b; ends; restart b; up; terminate b; ends; restart b; up; exit a error:x; finish")
    case("restarts", f"{strategy}: too many restarts while others wait for a retry", tree(child("a"), child("b"), strategy=strategy, intensity=1),
         "all up; exit a error:x; ends; exit a error:z; fail error:y; finish")
    case("restarts", f"{strategy}: too many restarts end all that run, in reverse", tree(*map(child, "abcd"), strategy=strategy, intensity=0),
         "all up; terminate b; ends; which; exit c error:x; ends; which")
    case("restarts", f"{strategy}: the default is one restart in five seconds", tree(child("a"), child("b"), strategy=strategy),
         "all up; exit a error:x; ends; all up; exit a error:x; finish")
case("restarts", "the default strategy is one_for_one", tree(child("a"), child("b")), "all up; exit a error:x; finish")

# --- Automatic shutdown -------------------------------------------------------------------------------------------

for strategy, auto, restart, reason in product(STRATEGIES, AUTOMATIC[1:], ["transient", "temporary"], ["normal", "shutdown", "shutdown:x", "error:x", "killed"]):
    if strategy != "one_for_one" and reason in ("shutdown", "killed"):
        continue
    one = tree(child("a"), child("b", restart=restart, significant=True), child("c"), strategy=strategy, auto_shutdown=auto, intensity=3)
    two = tree(child("a", restart="transient", significant=True), child("b", restart=restart, significant=True), child("c"), strategy=strategy,
               auto_shutdown=auto, intensity=3)
    case("automatic", f"{strategy}, {auto}: the one significant {restart} child ends with {reason}", one, f"all up; exit b {reason}; finish")
    case("automatic", f"{strategy}, {auto}: one of two, {restart}, ends with {reason}", two, f"all up; exit b {reason}; finish; exit a normal; finish")
for strategy, auto, restart in product(STRATEGIES, AUTOMATIC[1:], ["transient", "temporary"]):
    t = tree(child("a", restart="transient", significant=True), child("b", restart=restart, significant=True), child("c"), strategy=strategy,
             auto_shutdown=auto, intensity=3)
    n = f"{strategy}, {auto}, {restart}"
    case("automatic", f"{n}: a significant child is terminated", t, "all up; terminate b; exit b normal; finish; exit a normal; finish")
    case("automatic", f"{n}: a significant child was terminated, and then the other ends", t, "all up; terminate a; ends; exit b normal; finish")
    case("automatic", f"{n}: a sibling's death ends a significant child", t, "all up; exit c error:x; finish" + ("; exit b normal; finish" if restart == "transient" or strategy != "one_for_all" else ""))
    case("automatic", f"{n}: a significant child was ignored, and the other ends", t, "up; ignore; up; exit a normal; finish")
    case("automatic", f"{n}: a significant child ends while the other waits for a retry", t,
         {"one_for_one": "all up; exit a error:x; exit b normal; fail error:y; finish",
          "one_for_all": "all up; exit a error:x; exit c shutdown; exit b shutdown; finish",
          "rest_for_one": "all up; exit a error:x; exit c shutdown; exit b shutdown; finish"}[strategy])
    case("automatic", f"{n}: a significant child ended before it was told to stop", t, "all up; terminate c; terminate b; exit b normal; exit c shutdown; finish")
    case("automatic", f"{n}: a child that isn't significant ends", t, "all up; start z z transient false 5000 worker; up; exit z normal; finish")
    case("automatic", f"{n}: a significant child's restart is ignored", t,
         "all up; exit a error:x; ends; ends; ignore; all up; " + ("exit b normal; finish" if restart == "transient" or strategy == "one_for_one" else "finish"))
    case("automatic", f"{n}: a started child is significant too", t, f"all up; start z z {restart} true 5000 worker; up; exit b normal; finish")
    case("automatic", f"{n}: the last is deleted", t, "all up; terminate a; ends; delete a; exit b normal; finish")
    case("automatic", f"{n}: the end is in reverse start order", t, "all up; start z z permanent false 5000 worker; up; exit b normal; which; exit z shutdown; finish")
    case("automatic", f"{n}: the other's end waits already", t, "all up; terminate c; exit a normal; exit b normal; exit c shutdown; finish")

# --- The opening --------------------------------------------------------------------------------------------------

for strategy, at in product(STRATEGIES, range(4)):
    four = tree(child("a"), child("b", restart="transient"), child("c", restart="temporary"), child("d", shutdown="brutal_kill"), strategy=strategy)
    up = "up; " * at
    case("opening", f"{strategy}: start {at + 1} of 4 fails", four, up + "fail error:y; finish")
    case("opening", f"{strategy}: start {at + 1} of 4 fails with shutdown", four, up + "fail shutdown; finish")
    case("opening", f"{strategy}: start {at + 1} of 4 is ignored", four, up + "ignore; all up; finish; stop; finish")
    case("opening", f"{strategy}: a stop is wanted at start {at + 1} of 4", four, up + "stop; which; finish")
    case("opening", f"{strategy}: a stop is wanted at start {at + 1} of 4, which fails", four, up + "stop; fail error:y; finish")
    if at > 0:
        case("opening", f"{strategy}: a child dies at start {at + 1} of 4", four, up + "exit 1 error:x; all up; finish")
        case("opening", f"{strategy}: a child dies at start {at + 1} of 4, which fails", four, up + "exit 1 error:x; fail error:y; finish")
    case("opening", f"{strategy}: the child of start {at + 1} of 4 dies before it is up", four, up + f"exit {at + 1} error:x; up; finish")
    case("opening", f"{strategy}: the child of start {at + 1} of 4 dies and its start fails", four, up + f"exit {at + 1} error:x; fail error:y; finish")
    case("opening", f"{strategy}: calls at start {at + 1} of 4", four, up + "count; terminate a; restart b; delete c; get d; all up; finish")
case("opening", "no children", "", "which; count; stop; which; stop")
for strategy in STRATEGIES:
    case("opening", f"{strategy}: no children", tree(strategy=strategy), "which; count; start z z permanent false 5000 worker; up; exit z error:x; up; stop; finish")
    case("opening", f"{strategy}: all are ignored", tree(child("a"), child("b", restart="temporary"), strategy=strategy), "ignore; ignore; finish; stop; which")
    case("opening", f"{strategy}: a child ends at once under intensity 0", tree(child("a"), child("b"), strategy=strategy, intensity=0), "up; exit a error:x; up; finish")

DUPLICATES = [child("a"), child("b"), child("a")]
REFUSED = [
    ("ids are unique", tree(*DUPLICATES)),
    ("ids are unique, though all else differs", tree(child("a"), child("a", restart="temporary", type="supervisor"))),
    ("intensity is not negative", tree(child("a"), intensity=-1)),
    ("period is not 0", tree(child("a"), period=0)),
    ("period is not negative", tree(child("a"), period=-5)),
    ("no such strategy", tree(child("a"), strategy="one_for_some")),
    ("no such auto_shutdown", tree(child("a"), auto_shutdown="some_significant")),
    ("no such restart", tree(child("a", restart="intrinsic"))),
    ("no such type", tree(child("a", type="bridge"))),
    ("no such shutdown", tree(child("a", shutdown="kill"))),
    ("simple_one_for_one without a child", tree(strategy="simple_one_for_one")),
    ("simple_one_for_one with two children", tree(child("a"), child("b"), strategy="simple_one_for_one")),
]
for name, text in REFUSED:
    case("opening", f"refused: {name}", text, "")
for strategy, auto in product(STRATEGIES + ["simple_one_for_one"], AUTOMATIC):
    for restart in RESTARTS:
        if auto == "never" and restart == "permanent":
            continue  # two faults: which is told first is this project's choice
        case("opening", f"{strategy}, {auto}: a significant {restart} child", tree(child("a", restart=restart, significant=True), strategy=strategy, auto_shutdown=auto), "")
case("opening", "intensity 0 is lawful", tree(child("a"), intensity=0), "up; which")
case("opening", "a fault of the second child", tree(child("a"), child("b", restart="transient", significant=True)), "")
case("opening", "the first fault is told: significant under never, then an id that is there",
     tree(child("a"), child("a", restart="transient", significant=True)), "")
case("opening", "the first fault is told: an id that is there, then significant under never",
     tree(child("a"), child("a"), child("b", restart="transient", significant=True)), "")

# --- Specifications -----------------------------------------------------------------------------------------------

KEYS = {
    "no key": {}, "permanent": {"restart": "permanent"}, "transient": {"restart": "transient"}, "temporary": {"restart": "temporary"},
    "type supervisor": {"type": "supervisor"}, "type worker": {"type": "worker"}, "shutdown 0": {"shutdown": 0}, "shutdown 1": {"shutdown": 1},
    "shutdown brutal_kill": {"shutdown": "brutal_kill"}, "shutdown infinity": {"shutdown": "infinity"},
    "a supervisor with a time": {"type": "supervisor", "shutdown": 2000}, "a supervisor with brutal_kill": {"type": "supervisor", "shutdown": "brutal_kill"},
    "dynamic modules": {"modules": "dynamic"}, "no modules": {"modules": []}, "one module": {"modules": ["m"]}, "two modules": {"modules": ["m", "n"]},
    "three modules": {"modules": ["m", "n", "o"]}, "four modules": {"modules": ["m", "n", "o", "p"]}, "another start": {"start": "begin"},
}
for name, keys in KEYS.items():
    case("specifications", f"a child with {name}", tree(child("a", **keys)),
         "get a; up; get a; which; count; terminate a; " + ("at 0; finish" if keys.get("shutdown") == 0 else "finish"))
    case("specifications", f"a dynamic child with {name}", simple(**keys), "get w; start; up; which; count; get x")
for restart, type, shutdown in product(RESTARTS, ["worker", "supervisor"], ["brutal_kill", "infinity", "0", "4294967295"]):
    case("specifications", f"start_child: {restart}, {shutdown}, {type}", tree(child("a")), f"up; start b begin {restart} false {shutdown} {type}; up; get b; which; count")
mixed = tree(child("a", type="supervisor"), child("b"), child("c", type="supervisor", restart="temporary"), child("d", restart="transient"), intensity=3)
case("specifications", "counts by type, dead or alive", mixed,
     "all up; count; exit d normal; count; terminate a; ends; count; exit c normal; count; exit b error:x; count; fail error:y; up; count; delete a; count")
for strategy in STRATEGIES:
    case("specifications", f"{strategy}: counts while one waits for a retry", tree(child("b", type="supervisor"), strategy=strategy, intensity=3),
         "all up; exit b error:x; count; which; fail error:y; finish")

# --- Stopping -----------------------------------------------------------------------------------------------------

HOW = ["shutdown", "normal", "error:z", "killed", "shutdown:x", "kill", "noproc"]
for strategy, shutdown, how in product(STRATEGIES, [5000, "infinity"], HOW):
    t = tree(child("a"), child("b", shutdown=shutdown), child("c"), strategy=strategy)
    case("stopping", f"{strategy}: a child with shutdown {shutdown} ends with {how} as all are stopped", t, f"all up; stop; ends; exit b {how}; finish")
for shutdown, how, restart in product([5000, "infinity"], HOW, RESTARTS):
    case("stopping", f"a {restart} child with shutdown {shutdown} ends with {how} as it is terminated", tree(child("a"), child("b", shutdown=shutdown, restart=restart)),
         f"all up; terminate b; exit b {how}; finish")
for strategy in STRATEGIES:
    brutal = tree(child("a", shutdown="brutal_kill"), child("b", shutdown="brutal_kill"), child("c"), strategy=strategy)
    case("stopping", f"{strategy}: brutal_kill as all are stopped", brutal, "all up; stop; finish")
    case("stopping", f"{strategy}: brutal_kill as one is terminated", brutal, "all up; terminate a; finish")
    t = tree(*map(child, "abcd"), strategy=strategy, intensity=3)
    case("stopping", f"{strategy}: a child dies before its turn", t, "all up; stop; exit b error:x; exit d shutdown; exit c shutdown; finish")
    case("stopping", f"{strategy}: all die before their turn", t, "all up; stop; exit a normal; exit c error:x; exit b killed; exit d shutdown")
    case("stopping", f"{strategy}: the child that is told dies otherwise", t, "all up; stop; exit d error:x; finish")
    case("stopping", f"{strategy}: calls wait and are not answered", t, "all up; stop; which; start z z permanent false 5000 worker; count; finish; get a; stop")
    case("stopping", f"{strategy}: a stop while a child is terminated", t, "all up; terminate b; stop; which; finish")
    case("stopping", f"{strategy}: a stop while a child is restarted", t, "all up; exit b error:x; stop; which; finish")
    case("stopping", f"{strategy}: a stop while a restart fails", t, "all up; exit d error:x; " + ("ends; ends; ends; up; up; up; " if strategy == "one_for_all" else "") + "stop; which; fail error:y; finish")
    case("stopping", f"{strategy}: a stop while a child is started", t, "all up; start z z permanent false 5000 worker; stop; up; finish")
    case("stopping", f"{strategy}: a stop while a start fails", t, "all up; start z z permanent false 5000 worker; stop; fail error:y; finish")
    case("stopping", f"{strategy}: a stop while the supervisor ends", tree(*map(child, "ab"), strategy=strategy, intensity=0), "all up; exit a error:x; stop; which; finish")
    case("stopping", f"{strategy}: a child dies while another is terminated", t, "all up; terminate d; exit b error:x; exit d shutdown; finish")
    case("stopping", f"{strategy}: two die while another is terminated", t, "all up; terminate d; exit b error:x; exit a error:x; exit d shutdown; finish")
    case("stopping", f"{strategy}: a child that doesn't trap exits", tree(child("plain"), child("b"), child("plain2"), strategy=strategy), "all up; terminate plain; finish; stop; finish")
    case("stopping", f"{strategy}: children that ended are told nothing", tree(child("a"), child("b", restart="transient"), child("c"), strategy=strategy),
         "all up; exit b normal; terminate a; ends; stop; which; finish")
    for restart in RESTARTS:
        case("stopping", f"{strategy}: terminate, restart and delete of a {restart} child", three(strategy, restart=restart),
             f"all up; terminate b; ends; terminate b; restart b; {'up; ' if restart != 'temporary' else ''}terminate b; ends; delete b; delete b; restart b; finish")

# --- Time ---------------------------------------------------------------------------------------------------------
# Restarts are counted in whole seconds: the recorder begins each of these scripts just after a second has begun.
# Deadlines are kept apart by some 200 milliseconds.

for strategy, wait in product(STRATEGIES + ["simple_one_for_one"], [0, 1000, 2000]):
    begin = "start; up" if strategy == "simple_one_for_one" else "all up"
    case("time", f"{strategy}: a restart {wait} ms after another, in a period of 1 s", tree(child("a"), strategy=strategy, intensity=1, period=1),
         f"{begin}; exit 1 error:x; up; at {wait}; exit 2 error:x; finish")
for first, second, third in [(0, 1000, 2000), (0, 0, 2000), (0, 2000, 3000), (0, 2000, 4000), (1000, 2000, 3000)]:
    case("time", f"restarts at {first}, {second} and {third} ms, two in 1 s", tree(child("a"), intensity=2, period=1),
         f"up; at {first}; exit 1 error:x; up; at {second}; exit 2 error:x; up; at {third}; exit 3 error:x; finish")
case("time", "the period is seconds", tree(child("a"), intensity=1, period=2), "up; exit 1 error:x; up; at 2000; exit 2 error:x; finish")
case("time", "after the period of two seconds", tree(child("a"), intensity=1, period=2), "up; exit 1 error:x; up; at 3000; exit 2 error:x; finish")
case("time", "the default period is five seconds", tree(child("a")), "up; exit 1 error:x; up; at 5000; exit 2 error:x; finish")
case("time", "after the default period", tree(child("a")), "up; exit 1 error:x; up; at 6000; exit 2 error:x; finish")
case("time", "restarts of all children count together", tree(child("a"), child("b"), intensity=1, period=1), "all up; exit a error:x; up; at 1000; exit b error:x; finish")
case("time", "a retry counts when it is made", tree(child("a"), intensity=1, period=1), "up; exit 1 error:x; at 2000; fail error:y; up; finish")
case("time", "a restart that waited counts when it is made", tree(child("a"), child("b"), intensity=1, period=1),
     "all up; exit a error:x; up; terminate b; exit a error:x; at 2000; exit b shutdown; finish")
for strategy in STRATEGIES:
    t = tree(child("a"), child("b", shutdown=400), strategy=strategy)
    case("time", f"{strategy}: a deadline of 400 ms as all are stopped", t, "all up; stop; at 200; which; at 700; finish")
    case("time", f"{strategy}: a deadline of 400 ms as one is terminated", t, "all up; terminate b; at 200; which; at 700; finish")
    case("time", f"{strategy}: an end before the deadline of 400 ms", t, "all up; terminate b; at 200; exit b error:z; at 700; finish")
    case("time", f"{strategy}: a deadline of 400 ms in a restart", tree(child("a"), child("b", shutdown=400), strategy=strategy, intensity=3),
         "all up; exit a error:x; at 200; which; at 700; finish")
    case("time", f"{strategy}: a deadline of 0 ms", tree(child("a"), child("b", shutdown=0), strategy=strategy), "all up; stop; at 0; finish")
    case("time", f"{strategy}: two deadlines, one after the other", tree(child("a", shutdown=400), child("b", shutdown=400), strategy=strategy),
         "all up; stop; at 600; exit b killed; at 700; which; at 1500; finish")
    case("time", f"{strategy}: no deadline", tree(child("a", shutdown="infinity"), strategy=strategy), "all up; stop; at 1000; finish")
    case("time", f"{strategy}: the default deadline of a worker", tree(child("a"), strategy=strategy), "all up; stop; at 4700; which; at 5300; finish")
    case("time", f"{strategy}: a supervisor has no deadline", tree(child("a", type="supervisor"), strategy=strategy), "all up; stop; at 5300; finish")
    case("time", f"{strategy}: too many restarts, and a deadline", tree(child("a"), child("b", shutdown=400), strategy=strategy, intensity=0),
         "all up; exit a error:x; at 200; at 700; finish")
    case("time", f"{strategy}: a failed opening, and a deadline", tree(child("a", shutdown=400), child("b"), strategy=strategy), "up; fail error:y; at 200; at 700; finish")
case("time", "dynamic children have a deadline of 0 ms", simple(shutdown=0), "start; up; start; up; stop; at 200; finish")
case("time", "dynamic children have one deadline", simple(shutdown=400), "start; up; start; up; start; up; stop; at 200; exit 2 shutdown; at 700; finish")
case("time", "a deadline of one dynamic child", simple(shutdown=400), "start; up; start; up; terminate #1; at 200; which; at 700; finish")
case("time", "a dynamic child ends at its deadline's begin", simple(shutdown=400), "start; up; stop; at 200; exit 1 normal")


def main():
    folder = Path(sys.argv[1])
    for subject, cases in FILES.items():
        text = "".join(f"\n== {name}\n{tree}-- lines\n" + "".join(line + "\n" for line in lines) for name, (tree, lines) in cases.items())
        (folder / f"{subject}.scripts").write_text(text)
        print(f"{subject}: {len(cases)} scripts")


if __name__ == "__main__":
    main()
