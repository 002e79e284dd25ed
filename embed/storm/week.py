"""A week in some seconds: the daemon with a clock that is handed in, and with stand-ins for its processes."""

import collections
import contextlib
import json
import os
import random
import subprocess
import time

from harness import PATIENCE, child, expect, flags, row

CHILDREN, INTENSITY, PERIOD = 20, 5, 60
WEEK = 7 * 24 * 3600 * 1000


class Script:
    """What happens, as lines of a log; each process has the number that its start gets."""

    def __init__(self, file):
        self.file, self.numbers, self.last = file, {}, 0

    def tell(self, ms, event, path, number, **more):
        line = {"ms": ms, "event": event, "path": path, "number": number, "supervisor": 0, **more}
        self.file.write(json.dumps(line, separators=(",", ":")) + "\n")

    def start(self, ms, path):
        """The next process is this child's, and is up at once."""
        self.last += 1
        self.numbers[path] = self.last
        self.tell(ms, "up", path, self.last)

    def crash(self, ms, path):
        self.tell(ms, "exit", path, self.numbers.pop(path), reason="error:crash")


def crashes(chance, most):
    """Times of crashes over a week, as close as the root bears: at most five within a minute."""
    now, recent = 0, collections.deque(maxlen=INTENSITY)
    while now < most:
        now += int(chance.expovariate(1 / 8000)) + 1
        if len(recent) == INTENSITY:
            now = max(now, recent[0] + PERIOD * 1000 + 1)
        recent.append(now)
        yield now


def write_script(path, most):
    """A week of crashes, and one more within a minute than the root bears. How many processes were started."""
    chance = random.Random(7)
    with open(path, "w", encoding="utf-8") as file:
        script = Script(file)
        ids = [f"c{number}" for number in range(CHILDREN)]
        for id in ids:
            script.start(0, id)
        now = 0
        for now in crashes(chance, most):
            id = chance.choice(ids)
            script.crash(now, id)
            script.start(now, id)
        now += 2 * PERIOD * 1000
        for _ in range(INTENSITY):
            now += 1
            script.crash(now, "c0")
            script.start(now, "c0")
        script.crash(now + 1, "c0")
        for id in reversed(ids[1:]):
            script.tell(now + 2, "exit", id, script.numbers[id], reason="shutdown")
    return script.last


def memory_of(pid):
    """KiB that a program has had at the most so far; what called it isn't counted."""
    with contextlib.suppress(OSError, StopIteration), open(f"/proc/{pid}/status", encoding="utf-8") as file:
        return next(int(line.split()[1]) for line in file if line.startswith("VmHWM:"))
    return 0


@row("a week with a crash each twelve seconds, by a clock that is handed in")
def week(it):
    os.makedirs(it.folder, exist_ok=True)
    tree, script, log = (f"{it.folder}/{name}" for name in ("tree.toml", "script", "log"))
    with open(tree, "w", encoding="utf-8") as file:
        file.write(flags(intensity=INTENSITY, period=PERIOD) + "".join(child(f"c{number}", "s") for number in range(CHILDREN)))
    started = write_script(script, WEEK // 7 if it.is_short else WEEK)
    begun = time.monotonic()
    with open(script, "rb") as told, open(log, "wb") as written:
        daemon = subprocess.Popen([it.program, "stand-in", tree], stdin=told, stderr=written)
        most = 0
        while daemon.poll() is None:
            most = memory_of(daemon.pid) or most
            time.sleep(0.02)
    expect(daemon.returncode == 0, f"status {daemon.returncode}")
    with open(log, encoding="utf-8") as file:
        lines = file.readlines()
    orders = [line for line in lines if '"order":' in line]
    starts, last = sum('"order":"start"' in line for line in orders), json.loads(orders[-1])
    expect(starts == started, f"{starts} starts, and not {started}")
    expect(last["order"] == "end" and "more restarts" in last["cause"], f"the last order is {last}")
    played = subprocess.run([it.program, "replay", tree, log], stdout=subprocess.PIPE, stderr=subprocess.STDOUT, text=True, timeout=PATIENCE)
    expect(played.returncode == 0, f"replay: {played.stdout}")
    took = time.monotonic() - begun
    return f"{started - CHILDREN} restarts, {len(lines)} lines, no difference when played again; {took:.0f} s, at most {most / 1024:.0f} MiB"
