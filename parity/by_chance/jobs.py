"""Trees of worked jobs, as `otp run` runs them: what the driver makes of them, told in the lines of that report."""

import importlib.machinery
import importlib.util
import itertools
import os
import random
import subprocess

from library import CAUSES, ORDERS, PHASES, Driver, reason_of
from players import HERE, Differs

# What a job's process does once it is up, each time or after its first start alone; else it works on until it is asked to stop.
ENDS = {"once": "normal", "crash": "error:crash", "crash_once": "error:crash"}
STARTS = {"ignore": ("ignore", ""), "refuse": ("fail", "error:refused")}


def trees():
    """The functions of parity/trees, which draws such trees and has OTP run them."""
    loader = importlib.machinery.SourceFileLoader("trees", os.path.join(HERE, "trees"))
    found = importlib.util.module_from_spec(importlib.util.spec_from_loader("trees", loader))
    loader.exec_module(found)
    return found


TREES = trees()


def drawn(seed):
    chance = random.Random(seed)
    return TREES.Tree(chance, 1, itertools.count(), chance.random() < 0.85)


class Jobs:
    """Plays a tree of jobs on the driver until nothing happens by itself, and then stops its root."""

    def __init__(self, library, text):
        self.driver = Driver(library, text)
        self.ending, self.live, self.begun, self.end, self.time = [], {}, {}, None, 0
        self.starts = [0] * self.driver.count
        self.settle()
        self.rest()
        self.driver.stop(self.time)
        self.settle()
        self.rest()

    def rest(self):
        """Goes on until nothing more happens by itself: jobs end, and where none does, the next deadline comes."""
        while True:
            if self.ending:
                number, reason = self.ending.pop(0)
                if number in self.live:
                    self.exit(number, reason)
            elif (deadline := self.driver.deadline()) is not None:
                self.time = deadline
                self.driver.tick(deadline)
                self.settle()
            else:
                return

    def settle(self):
        while order := self.driver.next():
            word, number = ORDERS[order.kind], order.number
            if word == "start":
                self.start(order)
            elif word == "ask" and self.live[number][1] != "stubborn":
                self.exit(number, "shutdown", is_settled=False)
            elif word == "kill":
                self.exit(number, "killed", is_settled=False)
            elif word == "end":
                failed = f":failed_to_start_child/{order.id}" if CAUSES[order.cause] == "init_failed" else ""
                self.end = reason_of(order.reason, order.text) if failed == "" else f"shutdown{failed}"

    def start(self, order):
        place, number, job, child = order.supervisor, order.number, str(order.start), (order.supervisor, str(order.id))
        self.starts[place] += 1
        self.begun[child] = self.begun.get(child, 0) + 1
        what, reason = STARTS.get(job, ("up", ""))
        self.driver.note(self.time, place, what, number, reason)
        if what == "up":
            self.live[number] = place, job
            if job in ENDS and not (job == "crash_once" and self.begun[child] > 1):
                self.ending.append((number, ENDS[job]))

    def exit(self, number, reason, is_settled=True):
        place, _ = self.live.pop(number)
        self.driver.note(self.time, place, "exit", number, reason)
        if is_settled:
            self.settle()

    def report(self):
        """The lines of the report. Of a nested supervisor whose opening failed the driver doesn't say which child it was."""
        looks = [self.driver.look(place) for place in range(self.driver.count)]
        for look in looks[1:]:
            self.starts[look.parent] += look.starts
        for place, look in enumerate(looks):
            cause = CAUSES[look.cause]
            end = self.end if place == 0 else "shutdown:failed_to_start_child" if cause == "init_failed" else "shutdown" if cause else "none"
            end = "none" if PHASES[look.phase] == "runs" else end
            yield f"table {place} starts {self.starts[place]} restarts {look.restarts} end {end}"
        yield f"live {len(self.live)}"


def said(report):
    """A report without the child that stands behind a failed opening below the root."""
    lines = report.splitlines()
    return lines[:1] + [line.split("/")[0] for line in lines[1:]]


def compare_report(library, tree, given):
    """Compares what the driver makes of a tree with a report of it."""
    wanted = list(Jobs(library, tree.toml() + "\n").report())
    if said(given) != wanted:
        raise Differs(f"report: {wanted} here, {said(given)} there")
    return len(wanted)


def compare_run(program, library, tree, path):
    """Has the program run the tree on threads at one hand. It may have been stopped before its end: then it is run again with more turns."""
    with open(path, "w", encoding="ascii") as out:
        out.write(tree.toml() + "\n")
    turns = 20000
    while True:
        words = [program, "run", path, "--schedulers", "1", "--turns", str(turns)]
        ran = subprocess.run(words, capture_output=True, text=True, stdin=subprocess.DEVNULL, check=False, timeout=600)
        turns *= 20
        try:
            return compare_report(library, tree, ran.stdout)
        except Differs:
            if turns > TREES.MOST_TURNS:
                raise
