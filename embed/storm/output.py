"""What children write, and where it goes."""

import os
import re
import select
import signal
import subprocess
import time

from harness import PATIENCE, child, expect, python, row, shell, table, wait_until

# Writes numbered lines until it is asked to end, and then how many it has written.
COUNTS = """
import os, signal, sys
asked = []
signal.signal(signal.SIGTERM, lambda *_: asked.append(1))
block, number = {block}, 0
while not asked and number < {most}:
    text = b"".join(b"line %d {filling}\\n" % (number + k) for k in range(block))
    number += block
    view = memoryview(text)
    while view:
        view = view[os.write(1, view):]
open("{{folder}}/count", "w").write(str(number))
while not asked:
    signal.pause()
"""


def counting(most, block=50, filling=""):
    return python(COUNTS.format(most=most, block=block, filling=filling).strip())


def written(daemon):
    """How many lines the child says that it has written."""
    wait_until("the child has told how much it wrote", lambda: os.path.exists(f"{daemon.folder}/count") and daemon.read("count"))
    return int(daemon.read("count"))


def none_is_lost(daemon):
    """Each numbered line stands in the log in its order, or is counted as lost; returns how many there are."""
    count = written(daemon)
    said, lost = daemon.said("a")
    numbers = [int(found[1]) for found in (re.match(r"line (\d+)", line) for line in said) if found]
    expect(numbers == sorted(set(numbers)), "lines stand twice, or out of order")
    expect(len(numbers) + lost >= count, f"of {count} lines {len(numbers)} stand in the log, and {lost} are told lost")
    return f"{count} lines, {lost} told lost"


@row("a flood of lines into the log")
def flood(it):
    daemon = it.run(child("a", shutdown="infinity"), table("a", counting(10**9), output="log"))
    # From then on the child listens to TERM.
    daemon.wait_for(lambda line: line.get("remark") == "says")
    time.sleep(2 if it.is_short else 20)
    daemon.stop()
    return none_is_lost(daemon)


@row("a flood by a child that is up by a line, to a slow reader")
def flood_inherited(it):
    reader, writer = os.pipe()
    daemon = it.daemon(child("a", shutdown="infinity"), table("a", counting(20000, filling="x" * 40), output="inherit", ready="line", ready_line="line 3 "), output=writer)
    daemon.start()
    os.close(writer)
    daemon.ready()
    time.sleep(2)
    lines, lost, until = 0, 0, time.monotonic() + PATIENCE
    while lines + lost < 20000 and time.monotonic() < until:
        if select.select([reader], [], [], 1)[0]:
            lines += os.read(reader, 65536).count(b"\n")
        else:
            lost = daemon.said("a")[1]
    os.close(reader)
    expect(lines + lost >= 20000, f"of 20000 lines {lines} came, and {lost} are told lost")
    return f"20000 lines, {lost} told lost"


@row("bytes by chance, as if they were lines")
def random_bytes(it):
    size = 1 if it.is_short else 8
    daemon = it.run(child("a", restart="temporary"), table("a", shell(f"head -c {size}000000 /dev/urandom"), output="log"))
    daemon.wait_for(lambda line: line.get("event") == "exit")
    return f"{len(daemon.lines())} lines, each lawful JSON"


@row("lines of 1,500 bytes, and of many bytes a letter")
def long_lines(it):
    text = "import time\nfor k in range(200): print('%04d ' % k + 'a' * 1495, flush=True)\nfor k in range(200): print('%04d ' % k + '\\u20ac' * 1000, flush=True)\ntime.sleep(1000)"
    daemon = it.run(child("a"), table("a", python(text), output="log"))
    daemon.wait_for(lambda line: line.get("remark") == "says" and line["line"].startswith("0199 \u20ac"))
    said, _ = daemon.said("a")
    expect([len(line) for line in said[:200]] == [1500] * 200, f"lines of 1,500 bytes have {sorted({len(line) for line in said[:200]})}")
    expect(not any("\ufffd" in line for line in said), "a letter was cut")


@row("a line by which a child is up, behind 1,500 bytes")
def late_words(it):
    it.run(child("a"), table("a", python("import time; print('x' * 1500 + ' serving on', flush=True); time.sleep(1000)"), output="log", ready="line", ready_line="serving on", ready_within=60000))


@row("10 MB without an end of line")
def endless_line(it):
    size = 10**6 if it.is_short else 10**7
    daemon = it.run(child("a", restart="temporary"), table("a", shell(f"head -c {size} /dev/zero | tr '\\\\0' x"), output="log"))
    daemon.wait_for(lambda line: line.get("event") == "exit")
    daemon.stop()
    said, lost = daemon.said("a")
    expect(sum(map(len, said)) == size or lost, f"of {size} bytes {sum(map(len, said))} stand in the log, and no loss is told")
    return f"{len(said)} pieces"


@row("a child that closes its output, and goes on")
def closed_output(it):
    daemon = it.run(child("a"), table("a", shell("exec >&- 2>&-; exec sleep 1000"), output="log"))
    os.kill(daemon.pid_of("a"), signal.SIGKILL)
    daemon.pid_of("a", 2)


@row("a child that writes after its leader has gone")
def orphan_writes(it):
    daemon = it.run(child("a", restart="temporary"), table("a", shell("setsid sh -c 'sleep 0.5; echo late' & exit 0"), output="log"))
    daemon.wait_for(lambda line: line.get("event") == "exit")
    time.sleep(1)


@row("tail of 1,000 lines into a reader that waits", is_long=True)
def slow_tail(it):
    daemon = it.run(child("a"), table("a", python("import time\nfor k in range(2000): print('line %d' % k, 'x' * 400)\nprint('end', flush=True)\ntime.sleep(1000)"), output="log"))
    daemon.wait_for(lambda line: line.get("line") == "end")
    asked = subprocess.Popen([it.program, "ctl", "--control", f"{daemon.folder}/control", "tail", "1000"], stdout=subprocess.PIPE)
    time.sleep(7)
    lines = asked.stdout.read().count(b"\n")
    status = asked.wait()
    expect(status != 0 or lines >= 1000, f"status {status} with {lines} of 1000 lines")
    return f"{lines} lines, status {status}"
