"""Too many: processes, descriptors, children, supervisors."""

import os
import shutil
import signal
import socket

from harness import NOBODY, child, expect, flags, need, row, table, wait_until

SLEEPS = ["sleep", "1000"]


def many(count, word="a"):
    return "".join(child(f"w{number}", word) for number in range(count))


@row("250 children that log, with 64 descriptors")
def few_descriptors(it):
    need("prlimit")
    daemon = it.daemon(many(250), table("a", SLEEPS, output="log"), before=["prlimit", "--nofile=64:64"])
    daemon.start().wait(4)


@row("50 clients, with 64 descriptors")
def clients_and_descriptors(it):
    need("prlimit")
    daemon = it.run(flags(intensity=100, period=1) + many(100), table("a", SLEEPS), before=["prlimit", "--nofile=64:64"])
    hanging = []
    for _ in range(50):
        one = socket.socket(socket.AF_UNIX)
        try:
            one.connect(f"{daemon.folder}/control/socket")
            hanging.append(one)
        except OSError:
            one.close()
    os.kill(daemon.pid_of("w7"), signal.SIGKILL)
    daemon.pid_of("w7", 2)
    for one in hanging:
        one.close()


@row("100 children, where 30 processes are allowed")
def few_processes(it):
    need("prlimit", "setpriv", root=True)
    words = ["setpriv", f"--reuid={NOBODY}", f"--regid={NOBODY}", "--clear-groups", "prlimit", "--nproc=30:30"]
    daemon = it.daemon(many(100), table("a", SLEEPS), before=words)
    os.chmod(it.folder, 0o755)
    os.chown(daemon.folder, NOBODY, NOBODY)
    daemon.program = copy_of(it)
    daemon.start().wait(4)


def copy_of(it):
    """The program, at a place where any user comes."""
    path = f"{it.folder}/otp-procs"
    shutil.copy(it.program, path)
    os.chmod(path, 0o755)
    return path


@row("250 children, killed at once")
def killed_at_once(it):
    daemon = it.run(flags(intensity=1000, period=1) + many(250), table("a", SLEEPS))
    for line in [line for line in daemon.lines() if line.get("order") == "start"]:
        os.kill(line["pid"], signal.SIGKILL)
    daemon.wait_for(lambda line: line.get("order") == "start", 500)
    wait_until("250 processes are there", lambda: len(daemon.left()) == 250)


@row("60 supervisors, 2,000 children", is_long=True)
def many_supervisors(it):
    tree = ""
    for number in range(60):
        tree += child(f"s{number}", "a") + "[child.tree]\n" + "".join(child(f"w{k}", "a").replace("[[child]]", "[[child.tree.child]]") for k in range(33))
    daemon = it.run(tree, table("a", SLEEPS))
    expect(len(daemon.left()) == 1980, f"{len(daemon.left())} processes are there")
