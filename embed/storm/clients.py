"""Those who ask the daemon: with rubbish, too many at once, who never read, and who mustn't."""

import contextlib
import os
import random
import signal
import socket
import subprocess
import time

from harness import NOBODY, child, expect, flags, need, python, row, table

SLEEPS = ["sleep", "1000"]
RUBBISH = (
    b"\n",
    b"\0\0\0\n",
    b"\xff\xfe\n",
    b"x" * 1025 + b"\n",
    b"GET / HTTP/1.1\r\nHost: here\r\n\r\n",
    b"status\nstatus\n",
    b"restart a b c\n",
    b"start ../../etc/passwd\n",
    b"stop a/#99999999999999999999\n",
    b"tail -1\n",
    b"status",
    b"",
)


def connected(daemon):
    """A client that has said nothing yet."""
    client = socket.socket(socket.AF_UNIX)
    client.settimeout(20)
    client.connect(f"{daemon.folder}/control/socket")
    return client


@row("rubbish on the socket")
def rubbish(it):
    daemon = it.run(child("a"), table("a", SLEEPS))
    for text in (*RUBBISH, b"y" * (1 if it.is_short else 10) * 10**6):
        with contextlib.suppress(OSError), connected(daemon) as client:
            client.sendall(text)
            client.shutdown(socket.SHUT_WR)
            while client.recv(65536):
                pass
        status, said = daemon.ctl("status")
        expect(status == 0, f"after {text[:30]!r} status says {said}")


@row("200 clients that hang; then shutdown")
def hanging_clients(it):
    daemon = it.run(child("a"), table("a", SLEEPS))
    hanging = []
    for _ in range(200):
        with contextlib.suppress(OSError):
            hanging.append(connected(daemon))
    status, said = daemon.ctl("shutdown")
    expect(status == 0, f"shutdown: status {status}, {said}")
    daemon.wait(0)
    for client in hanging:
        client.close()


@row("40 who follow the log; then shutdown")
def followers(it):
    daemon = it.run(child("a"), table("a", SLEEPS))
    words = [it.program, "ctl", "--control", f"{daemon.folder}/control", "tail", "-f"]
    following = [subprocess.Popen(words, stdout=subprocess.DEVNULL, stderr=subprocess.DEVNULL) for _ in range(40)]
    try:
        time.sleep(1)
        status, said = daemon.ctl("shutdown")
        expect(status == 0, f"shutdown: status {status}, {said}")
        daemon.wait(0)
        for one in following:
            one.wait(60)
    finally:
        for one in following:
            one.kill()
            one.wait()


@row("another user, with folder and socket opened wide")
def another_user(it):
    need("setpriv", root=True)
    daemon = it.run(child("a"), table("a", SLEEPS))
    for path, mode in (("control", 0o777), ("control/socket", 0o777)):
        os.chmod(f"{daemon.folder}/{path}", mode)
    for folder in (it.folder, os.path.dirname(it.folder), daemon.folder):
        os.chmod(folder, 0o755)
    ask = f"import socket; s = socket.socket(socket.AF_UNIX); s.connect('{daemon.folder}/control/socket'); s.sendall(b'shutdown\\n'); print(s.recv(100))"
    subprocess.run(["setpriv", f"--reuid={NOBODY}", f"--regid={NOBODY}", "--clear-groups", *python(ask)], stdout=subprocess.DEVNULL, stderr=subprocess.DEVNULL, timeout=60)
    daemon.wait_for(lambda line: line.get("remark") == "turned_away")
    expect(daemon.process.poll() is None, "another user ended it")


@row("calls that are refused")
def refused_calls(it):
    tree = child("a") + child("t", restart="temporary") + child("pool", "x")
    tree += '[child.tree]\nstrategy = "simple_one_for_one"\n[[child.tree.child]]\nid = "p"\nstart = "a"\n'
    daemon = it.run(tree, table("a", SLEEPS) + table("t", SLEEPS) + table("x", SLEEPS))
    expect(daemon.ctl("start", "pool/")[0] == 0, "no process of the pool was started")
    number = daemon.wait_for(lambda line: line.get("order") == "start" and str(line.get("path", "")).startswith("pool/"))["number"]
    for words in (("start", f"pool/#{number}"), ("restart", "t"), ("start", "a"), ("stop", "nobody")):
        status, said = daemon.ctl(*words)
        expect(status == 1, f"{' '.join(words)}: status {status}, {said}")
    status, said = daemon.ctl("status")
    expect(f"#{number}" in said, f"the process of the pool is gone: {said}")
    stopped = [line for line in daemon.lines() if line.get("event") == "exit"]
    expect(not stopped, f"a refused call ended something: {stopped}")


@row("ten who restart one child at once")
def restarts_at_once(it):
    daemon = it.run(flags(intensity=100, period=1) + child("a"), table("a", SLEEPS))
    words = [it.program, "ctl", "--control", f"{daemon.folder}/control", "restart", "a"]
    asked = [subprocess.Popen(words, stdout=subprocess.DEVNULL, stderr=subprocess.DEVNULL) for _ in range(10)]
    done = [one.wait(60) for one in asked]
    status, said = daemon.ctl("status")
    expect(status == 0 and " up " in said, f"the child isn't up: {said}")
    return f"{done.count(0)} of 10 were done"


@row("children are killed and asked for at once, by chance", is_long=True)
def chance(it):
    names = [f"w{number}" for number in range(20)]
    daemon = it.run(flags(intensity=1000, period=1) + "".join(child(name, "a") for name in names), table("a", SLEEPS))
    until = time.monotonic() + 30
    while time.monotonic() < until:
        name = random.choice(names)
        if random.random() < 0.5:
            starts = [line for line in daemon.lines() if line.get("order") == "start" and line.get("path") == name]
            with contextlib.suppress(OSError):
                os.kill(starts[-1]["pid"], random.choice([signal.SIGKILL, signal.SIGTERM, signal.SIGSEGV]))
        else:
            daemon.ctl(random.choice(["stop", "start", "restart", "status"]), name)
