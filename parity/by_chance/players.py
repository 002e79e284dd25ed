"""What other engines make of the same trees and scripts, in the words in which the driver's orders are written down (world.py)."""

import collections
import json
import os
import subprocess

from world import World, played

HERE = os.path.dirname(os.path.dirname(os.path.abspath(__file__)))


class Differs(Exception):
    """An engine gave something else. It says what."""


def run(words, text="", statuses=(0,)):
    """What a program prints, given this text."""
    ran = subprocess.run(words, input=text, capture_output=True, text=True, check=False, timeout=600)
    if ran.returncode not in statuses:
        raise Differs(f"{' '.join(words[:2])} ended with status {ran.returncode}: {ran.stderr.strip()}")
    return ran.stdout


def first_difference(wanted, given, what):
    """Raises where two lists differ, and says where first: what the library gave (here), and the other engine (there)."""
    for place, (one, other) in enumerate(zip(wanted, given)):
        if one != other:
            raise Differs(f"{what} {place + 1}: {one} here, {other} there")
    if len(wanted) != len(given):
        longer, whose = (wanted, "here") if len(wanted) > len(given) else (given, "there")
        raise Differs(f"{what}: {longer[min(len(wanted), len(given))]} {whose} alone")


# ---- otp try ----

CAUSES = [("more than", "intensity"), ("significant child", "significant"), ("failed_to_start_child", "init_failed"), ("didn't start", "init_failed"),
          ("asked to stop", "asked")]


def order_of_try(told):
    """An order of `try --json` as the driver's are written down."""
    time, word = round(told["seconds"] * 1000), told["order"]
    if word in ("start", "ask", "kill"):
        return time, word, told["child"], told["process"]
    text = told["text"]
    if word == "end":
        text = text.partition(": ")[0] + " " + next((cause for words, cause in CAUSES if words in text), text)
    return time, word, told["supervisor"], text


def orders_for_outside(told, world):
    """Those that are no order for a supervisor of the tree, and none of one for its parent."""
    paths = {path[:-1] for path in world.paths}
    for order in map(order_of_try, told):
        _, word, path, number = order
        if world.nested_may_be_told:
            yield order
            continue
        if word in ("ready", "end") and path != "root":
            continue
        if word in ("start", "ask", "kill") and path in paths and number not in world.outside:
            continue
        yield order


def starts_of(told, world):
    """The supervisors that were started as children, by their paths: their numbers in order."""
    starts = collections.defaultdict(list)
    paths = {path[:-1] for path in world.paths}
    for _, word, path, number in map(order_of_try, told):
        if word == "start" and path in paths and number not in world.outside:
            starts[path].append(number)
    return starts


def compare_try(program, tree, steps, told, world, folder):
    """Plays the script by `otp try --json`."""
    path, script = os.path.join(folder, "tree.toml"), "".join(step.text() + "\n" for step in steps)
    with open(path, "w", encoding="ascii") as out:
        out.write(tree.toml())
    given = json.loads(run([program, "try", path, "--json"], script, statuses=(0, 5, 6, 8)))
    if given["end"] not in ("done", "unmet", "nothing"):
        line = given["lines"][-1] if given["lines"] else {"text": "", "result": "the script can't be read"}
        raise Differs(f"line {given['at']}: {line['text']}: {line['result']}")
    lines = [(None, given["opening"])] + [(line["result"], line["orders"]) for line in given["lines"]]
    texts = ["the opening"] + [step.text() for step in steps]
    for text, (result, orders), (result_there, orders_there) in zip(texts, told, lines):
        if result != result_there:
            raise Differs(f"'{text}': {result} here, {result_there} there")
        first_difference(orders, list(orders_for_outside(orders_there, world)), f"'{text}', order")
    everything = given["opening"] + [order for line in given["lines"] for order in line["orders"]]
    compare_standing(starts_of(everything, world), given["supervisors"], world)
    return len(world.orders)


def compare_standing(starts, supervisors, world):
    """How each supervisor stands at the end."""
    there = [(it["path"], it["runs"]) for it in supervisors]
    first_difference([(path, runs) for path, runs, _, _ in world.standing()], there, "supervisor")
    for path, runs, count, process in world.standing():
        if path != "root":
            numbers = starts[path]
            first_difference([(path, count)], [(path, len(numbers))], "starts of a supervisor")
            if runs:
                first_difference([(path, process)], [(path, numbers[-1])], "process of a supervisor")


# ---- otp sim ----


def lines_of_sim(world):
    """What a tree of one supervisor was told, as `sim` reads it."""
    return [words for _, place, words in world.told if place is not None]


def orders_of_sim(world):
    """The driver's orders as `sim` prints them."""
    for _, word, path, more in world.orders:
        if word in ("start", "ask", "kill"):
            yield f"{word} {path} #{more}"
        else:
            text = more.rpartition(" ")[0] if word == "end" else more
            yield f"{word} {text}".strip()


def compare_sim(program, tree, world, folder):
    """Plays what the driver was told by `otp sim`, if the tree is a supervisor alone."""
    path = os.path.join(folder, "tree.toml")
    with open(path, "w", encoding="ascii") as out:
        out.write(tree.toml())
    given = run([program, "sim", path], "".join(line + "\n" for line in lines_of_sim(world))).splitlines()
    first_difference(list(orders_of_sim(world)), given, "order")
    return len(given)


# ---- OTP's supervisor ----


class OtpPlayer:
    """OTP's own supervisor, which plays many scripts at once: those of one supervisor in which no time passes."""

    def __init__(self, folder):
        self.folder = folder
        sources = [os.path.join(HERE, name) for name in sorted(os.listdir(HERE)) if name.endswith(".erl")]
        subprocess.run(["erlc", "-o", folder, *sources], check=True)

    def script(self, tree, world):
        """What OTP is told, and what the driver ordered."""
        return tree.on_lines() + "-- lines\n" + "".join(line + "\n" for line in lines_of_sim(world)), list(orders_of_sim(world))

    def play(self, scripts):
        """Plays scripts: by their names what OTP ordered. Those aren't there that it can't play, or that differ on purpose (docs/OTP.md)."""
        told, made = os.path.join(self.folder, "scripts"), os.path.join(self.folder, "made")
        with open(told, "w", encoding="ascii") as out:
            out.writelines(f"\n== {name}\n{text}" for name, (text, _) in scripts.items())
        words = ["erl", "+S", "1", "-noshell", "-pa", self.folder, "-run", "parity", "main", told, made]
        how = {"stdin": subprocess.DEVNULL, "stdout": subprocess.DEVNULL, "cwd": self.folder, "env": {**os.environ, "ERL_CRASH_DUMP": "/dev/null"}}
        # Its status says whether all could be played.
        subprocess.run(words, check=False, timeout=3600, **how)
        with open(made, encoding="ascii") as file:
            parts = file.read().split("\n== ")[1:]
        return {part.split("\n", 1)[0]: part.partition("-- orders\n")[2].splitlines() for part in parts}

    def same(self, script, given):
        first_difference(script[1], given, "order")
        return len(given)

    def compare(self, tree, world):
        """The same of one script."""
        script = self.script(tree, world)
        given = self.play({"one": script})
        return self.same(script, given["one"]) if given else None


# ---- otp-procs ----

# Calls that `otp-procs` makes, by the words of a line.
CALLS_OF_DAEMON = {word: f"{word}_child" for word in ("restart", "terminate", "start")} | {word: f"{word}_children" for word in ("which", "count")}


class DaemonWorld(World):
    """The same world as the daemon hears it: all orders are taken before the next thing is told."""

    def __init__(self, library, tree):
        self.waiting = collections.deque()
        super().__init__(library, tree)

    def tell(self, place, what, number, reason=""):
        self.waiting.append((place, what, number, reason))

    def settle(self):
        while True:
            super().settle()
            if not self.waiting:
                return
            super().tell(*self.waiting.popleft())


def is_of_daemon(step):
    """Whether the daemon can be told what a line says."""
    verb = step.words[0]
    return verb not in ("expect", "get", "delete") and not (verb == "start" and len(step.words) > 1)


def log_of(world, start=0):
    """What the driver was told and has ordered, as lines of the daemon's log: (milliseconds, class, what, and what is compared)."""
    for time, place, words in world.told:
        if place is None:
            word, path, more = words
            if word in ("start", "ask", "kill"):
                yield time, {"order": word, "path": path, "number": more}
            elif word == "reply":
                number, _, answer = more.partition(" ")
                yield time, {"order": word, "supervisor": world.places["" if path == "root" else f"{path}/"], "call": int(number), "answer": answer}
            elif word == "end":
                reason, _, cause = more.partition(" ")
                yield time, {"order": word, "reason": reason, "cause": cause}
            else:
                yield time, {"order": word}
        elif not words.startswith("at "):
            yield time, event_of(place, words.split(" "))


def event_of(place, words):
    what, *rest = words
    if what == "stop":
        return {"event": what}
    if what in ("up", "ignore", "fail", "exit"):
        return {"event": what, "number": int(rest[0]), "supervisor": place, **({"reason": rest[1]} if len(rest) > 1 else {})}
    call = {"event": "call", "call": CALLS_OF_DAEMON[what], "supervisor": place}
    if rest and rest[0].startswith("#"):
        return {**call, "call": "terminate_process", "number": int(rest[0][1:])}
    return {**call, "id": rest[0]} if rest else call


CAUSES_OF_DAEMON = {"more restarts": "intensity", "the significant": "significant", "it was told": "asked"}


def compare_procs(program, library, tree, steps, folder):
    """Tells the daemon, with stand-ins for its processes and for the clock, what the driver was told. The log has the same orders at the
    same readings, and its replay agrees. How often a nested supervisor was started is told by the remarks."""
    world = played(library, tree, filter(is_of_daemon, steps), DaemonWorld)[2]
    wanted = up_to_end(log_of(world))
    path, log = os.path.join(folder, "tree.toml"), os.path.join(folder, "log")
    with open(path, "w", encoding="ascii") as out:
        out.write(tree.toml())
    lines = [{"ms": time, **what} for time, what in wanted]
    readings = [{"ms": time} for time, place, words in world.told if place is not None and words.startswith("at ")]
    told = sorted([line for line in lines if "event" in line] + readings, key=lambda line: line["ms"])
    with open(log, "wb") as errors:
        text = "".join(json.dumps(line, separators=(",", ":")) + "\n" for line in told)
        ran = subprocess.run([program, "stand-in", path], input=text.encode(), stderr=errors, check=False, timeout=600)
    with open(log, encoding="utf-8") as file:
        text = file.read()
    if ran.returncode:
        raise Differs(f"otp-procs stand-in ended with status {ran.returncode}: {text[-500:]}")
    given = [json.loads(line) for line in text.splitlines()]
    first_difference([of_log(line, world) for line in lines], [of_log(line, world) for line in given if "remark" not in line], "line of the log")
    starts = {line["path"]: line["starts"] for line in given if "starts" in line}
    # What comes with the root's end has no remark any more.
    standing = [] if world.has_ended() else [(it[0], it[2]) for it in world.standing()][1:]
    first_difference(standing, [(name, starts.get(f"{name}/", 0)) for name, _ in standing], "remarks on a supervisor")
    run([program, "replay", path, log])
    world.close()
    return len(lines)


def up_to_end(lines):
    """The lines up to the root's end, with which the daemon ends."""
    kept = []
    for time, what in lines:
        kept.append((time, what))
        if what.get("order") == "end":
            break
    return kept


def of_log(line, world):
    """What is compared of a line of the daemon's log."""
    what = {key: line[key] for key in ("ms", "order", "event", "number", "supervisor", "reason", "call", "answer", "id") if key in line}
    if "cause" in line and "remark" not in line:
        what["cause"] = next((word for text, word in CAUSES_OF_DAEMON.items() if line["cause"].startswith(text)), line["cause"])
        what["cause"] = "init_failed" if "didn't start" in what["cause"] else what["cause"]
    # The driver's own lines name the child, from whose path the supervisor follows.
    if what.get("order") in ("start", "ask", "kill") and "supervisor" not in what:
        path = line["path"]
        what["supervisor"] = world.places[path[: path.rfind("/") + 1]]
    return what
