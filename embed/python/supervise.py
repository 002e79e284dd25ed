#!/usr/bin/env python3
"""Runs the workers of a tree file as real processes, by ctypes; a start word is the name of the program.

usage: supervise.py LIBRARY TREE        (LIBRARY is embed/c/libotp_c.so)
"""
import ctypes as c
import os
import signal
import sys
import time

OK, NONE, MEMORY = 0, 1, 4
UP, FAILED, EXIT = 1, 3, 4
NORMAL, SHUTDOWN, KILLED, ERROR = 1, 2, 5, 7
START, ASK, KILL, END = 1, 2, 3, 6
WORDS = ["", "start", "ask", "kill", "reply", "ready", "end"]


class Name(c.Structure):
    _fields_ = [("len", c.c_uint8), ("bytes", c.c_uint8 * 32)]

    def __str__(self):
        return bytes(self.bytes)[:self.len].decode()


class Text(c.Structure):
    _fields_ = [("len", c.c_uint8), ("bytes", c.c_uint8 * 64)]


class Order(c.Structure):
    _fields_ = [("number", c.c_uint64), ("deadline", c.c_uint64), ("kind", c.c_uint32), ("supervisor", c.c_uint32),
                ("has_deadline", c.c_uint32), ("reason", c.c_uint32), ("cause", c.c_uint32),
                ("id", Name), ("start", Name), ("text", Text)]


HANDLE, READING, TEXT = c.POINTER(c.c_uint64), c.c_uint64, [c.c_char_p, c.c_size_t]
# What each call takes behind the handle.
CALLS = {
    "otp_open": [*TEXT, c.POINTER(c.c_uint32)], "otp_close": [], "otp_tick": [READING], "otp_stop": [READING],
    "otp_note": [READING, c.c_uint32, c.c_uint32, c.c_uint64, c.c_uint32, *TEXT],
    "otp_next": [c.POINTER(Order)], "otp_deadline": [c.POINTER(c.c_uint64)],
}


class Tree:
    """A tree of the library. A reading is in milliseconds; what is told carries the one at which it happens."""

    def __init__(self, library, text):
        self.library, self.handle = c.CDLL(library), (c.c_uint64 * 2)()     # a handle: zeroed, and never copied
        for name, words in CALLS.items():
            getattr(self.library, name).argtypes = [HANDLE, *words]
        fault = (c.c_uint32 * 64)()
        if self.library.otp_open(self.handle, text, len(text), fault) != OK:
            raise ValueError(bytes(fault)[24:24 + fault[5]].decode())

    def call(self, name, *words):
        """Makes a call, again where there is no memory for it; whether there was what it asks for."""
        while (status := getattr(self.library, name)(self.handle, *words)) == MEMORY:
            time.sleep(1)
        if status not in (OK, NONE):
            raise RuntimeError(f"{name}: status {status}")
        return status == OK

    def tick(self, reading):
        self.call("otp_tick", reading)

    def stop(self, reading):
        self.call("otp_stop", reading)

    def note(self, reading, supervisor, kind, number, reason=NORMAL, text="-"):
        self.call("otp_note", reading, supervisor, kind, number, reason, text.encode(), len(text))

    def next_order(self):
        order = Order()
        return order if self.call("otp_next", order) else None

    def deadline(self):
        reading = c.c_uint64()
        return reading.value if self.call("otp_deadline", reading) else None

    def close(self):
        self.library.otp_close(self.handle)


class Machine:
    """Real processes, and the clock."""

    def __init__(self):
        signal.pthread_sigmask(signal.SIG_BLOCK, [signal.SIGCHLD, signal.SIGTERM])

    def now(self):
        return time.monotonic_ns() // 1_000_000

    def start(self, word):
        """The pid of a new process, or None."""
        try:
            return os.posix_spawnp(word, [word, "60"], os.environ, setsigmask=[])
        except OSError:
            return None

    def kill(self, pid, number):
        os.kill(pid, number)

    def wait(self, until):
        """Waits until something happens, or until this reading; whether a stop is wanted, and what has ended: pids and statuses."""
        left = 60 if until is None else max(until - self.now(), 0) / 1000
        sent = signal.sigtimedwait([signal.SIGCHLD, signal.SIGTERM], left)
        ended = []
        try:
            while (one := os.waitpid(-1, os.WNOHANG)) != (0, 0):
                ended.append(one)
        except ChildProcessError:
            pass
        return sent is not None and sent.si_signo == signal.SIGTERM, ended


class Supervisor:
    def __init__(self, tree, machine):
        self.tree, self.machine, self.live, self.asked = tree, machine, {}, set()

    def carry_out(self, order):
        print(WORDS[order.kind], order.id, f"#{order.number}", flush=True)
        if order.kind == START:
            pid = self.machine.start(str(order.start))
            if pid is None:
                self.tree.note(self.machine.now(), order.supervisor, FAILED, order.number, ERROR, "start")
            else:
                self.live[pid] = order
                self.tree.note(self.machine.now(), order.supervisor, UP, order.number)
        elif order.kind in (ASK, KILL):
            pid = next(pid for pid, one in self.live.items() if one.number == order.number)
            if order.kind == ASK:
                self.asked.add(pid)
            self.machine.kill(pid, signal.SIGTERM if order.kind == ASK else signal.SIGKILL)

    def tell_end(self, pid, status):
        """A signal ended it by an error, but for the one by which it was asked, and the one that kills."""
        code = os.waitstatus_to_exitcode(status)
        reason = ERROR if code else NORMAL
        if code == -signal.SIGKILL:
            reason = KILLED
        elif code == -signal.SIGTERM and pid in self.asked:
            reason = SHUTDOWN
        self.asked.discard(pid)
        order = self.live.pop(pid)
        text = f"signal_{-code}" if code < 0 else f"status_{code}"
        self.tree.note(self.machine.now(), order.supervisor, EXIT, order.number, reason, text)

    def run(self):
        while True:
            self.tree.tick(self.machine.now())
            while order := self.tree.next_order():
                self.carry_out(order)
                if order.kind == END:
                    return
            is_stop, ended = self.machine.wait(self.tree.deadline())
            if is_stop:
                self.tree.stop(self.machine.now())
            for pid, status in ended:
                if pid in self.live:
                    self.tell_end(pid, status)


def main(words):
    if len(words) != 2:
        sys.exit(__doc__.strip())
    with open(words[1], "rb") as file:
        tree = Tree(words[0], file.read())
    Supervisor(tree, Machine()).run()
    tree.close()


if __name__ == "__main__":
    main(sys.argv[1:])
