#!/usr/bin/env python3
"""Runs supervise.py on a machine that is played, as embed/c/late.c does with supervise.c. It prints the same.

usage: late.py LIBRARY TREE
"""
import signal
import sys

sys.dont_write_bytecode = True
from supervise import Supervisor, Tree


class Played:
    """Each process lives until it is asked, and then saves for a second, unless it is deaf or crashes before."""

    def __init__(self, crashes, deaf=(), stop_at=None):
        self.reading, self.count, self.deaf, self.stop_at = 0, 0, deaf, stop_at
        # When each process dies that has a time to, by its pid, and its status.
        self.deaths = {pid: (time, signal.SIGSEGV) for pid, time in crashes.items()}

    def now(self):
        return self.reading

    def start(self, word):
        self.count += 1
        return self.count

    def kill(self, pid, number):
        if number == signal.SIGKILL:
            self.deaths[pid] = self.reading, number
        elif pid not in self.deaf:
            self.deaths[pid] = self.reading + 1000, 0

    def wait(self, until):
        times = [time for pid, (time, _) in self.deaths.items() if pid <= self.count]
        times += [self.reading + 60000 if until is None else until, *([] if self.stop_at is None else [self.stop_at])]
        self.reading = min(times)
        print("at", self.reading)
        is_stop = self.reading == self.stop_at
        if is_stop:
            self.stop_at = None
        ended = [pid for pid, (time, _) in self.deaths.items() if time <= self.reading]
        return is_stop, [(pid, self.deaths.pop(pid)[1]) for pid in ended]


def play(what, machine):
    print(what)
    with open(sys.argv[2], "rb") as file:
        tree = Tree(sys.argv[1], file.read())
    Supervisor(tree, machine).run()
    tree.close()


play("two crashes 20 seconds apart, and one soon after them", Played({2: 9000, 4: 29000, 6: 33000}))
play("a stop after 50 seconds, which one of them doesn't heed", Played({}, deaf=(1,), stop_at=50000))
