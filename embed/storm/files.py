"""The log, the files and the folders of the daemon, and what is wrong in them."""

import contextlib
import os
import random
import shutil
import signal
import subprocess
import sys
import threading
import time

import output
from harness import PATIENCE, Fault, LeftOut, child, expect, need, row, table, wait_until

SLEEPS = ["sleep", "1000"]

# One that writes 20,000 numbered lines; and one by whose restart the log gets lines.
COUNTED = child("a", shutdown="infinity") + child("b"), table("a", output.counting(20000), output="log") + table("b", SLEEPS)


@row("the log is renamed, and HUP")
def renamed_log(it):
    daemon = it.run(child("a"), table("a", SLEEPS))
    os.rename(f"{daemon.folder}/log", f"{daemon.folder}/first")
    daemon.signal(signal.SIGHUP)
    os.kill(int(daemon_pid(daemon)), signal.SIGKILL)
    daemon.pid_of("a")
    daemon.stop()
    with open(f"{daemon.folder}/whole", "wb") as whole:
        whole.write(daemon.read("first") + daemon.read("log"))
    daemon.log = "whole"


def daemon_pid(daemon):
    """The process of a child that the first log names."""
    first = [line for line in daemon.read("first").decode().splitlines() if '"order":"start"' in line]
    return first[0].partition('"pid":')[2].split(",")[0].rstrip("}")


@row("the disk is full, and has room again")
def full_disk(it):
    need("mount", "umount", root=True)
    daemon = it.daemon(*COUNTED, log="disk/log")
    os.mkdir(f"{daemon.folder}/disk")
    if subprocess.run(["mount", "-t", "tmpfs", "-o", "size=256k", "tmpfs", f"{daemon.folder}/disk"], stderr=subprocess.DEVNULL).returncode:
        raise LeftOut("no disk can be mounted")
    try:
        daemon.start()
        count = output.written(daemon)
        subprocess.run(["mount", "-o", "remount,size=32m", f"{daemon.folder}/disk"], check=True)
        wait_until("a loss is told once there is room", lambda: (daemon.ctl("restart", "b"), daemon.said("a")[1])[1])
        daemon.stop()
        said, lost = daemon.said("a")
        expect(len(said) + lost >= count, f"of {count} lines {len(said)} stand in the log, and {lost} are told lost")
        return {"says": f"{count} lines, {lost} told lost", "replays": False}
    finally:
        daemon.end_all()
        subprocess.run(["umount", f"{daemon.folder}/disk"])


@row("the reader of the log's pipe goes, and another comes")
def reader_goes(it):
    daemon = it.daemon(*COUNTED, log="pipe")
    os.mkfifo(f"{daemon.folder}/pipe")
    came = []

    def read(lines):
        with open(f"{daemon.folder}/pipe", "rb") as pipe:
            came.extend(line for line, _ in zip(pipe, range(lines)))

    first = threading.Thread(target=read, args=(20,))
    first.start()
    daemon.start()
    first.join(PATIENCE)
    output.written(daemon)
    second = threading.Thread(target=read, args=(10**9,), daemon=True)
    second.start()
    expect(daemon.ctl("status")[0] == 0, "it answers no more")
    is_told = lambda: any(b'"remark":"lost"' in line for line in came)
    wait_until("a loss is told to the second reader", lambda: (daemon.ctl("restart", "b"), is_told())[1])
    daemon.stop()
    return {"replays": False}


@row("a log that can't be opened")
def bad_logs(it):
    for name in ("", "not_there/log", "tree.toml/log"):
        daemon = it.daemon(child("a"), table("a", SLEEPS), log=name or ".")
        daemon.start().wait(1)
        expect(b"otp-procs: " in daemon.read("errors"), "no word why")
    daemon = it.daemon(child("a"), table("a", SLEEPS), log="pipe")
    os.mkfifo(f"{daemon.folder}/pipe")
    daemon.start().wait(1)


@row("a control folder that isn't the user's own")
def bad_control(it):
    makers = {
        "a link": lambda path: os.symlink("/tmp", path),
        "a link to nothing": lambda path: os.symlink("/not_there", path),
        "open to all": lambda path: (os.mkdir(path), os.chmod(path, 0o777)),
        "a file": lambda path: open(path, "w", encoding="utf-8").close(),
    }
    if os.geteuid() == 0:
        makers["another's"] = lambda path: (os.mkdir(path, 0o700), os.chown(path, 12345, 12345))
    for what, make in makers.items():
        daemon = it.daemon(child("a"), table("a", SLEEPS))
        make(f"{daemon.folder}/control")
        try:
            daemon.start().wait(1)
        except Fault as fault:
            raise Fault(f"{what}: {fault}") from None


@row("the tree and the commands are removed while it runs")
def files_removed(it):
    daemon = it.run(child("a"), table("a", SLEEPS))
    texts = {name: daemon.read(name) for name in ("tree.toml", "commands.toml")}
    for name in texts:
        os.remove(f"{daemon.folder}/{name}")
    os.kill(daemon.pid_of("a"), signal.SIGKILL)
    daemon.pid_of("a", 2)
    daemon.stop()
    for name, text in texts.items():
        with open(f"{daemon.folder}/{name}", "wb") as file:
            file.write(text)


@row("two runs into one log")
def two_runs(it):
    daemon = it.run(child("a"), table("a", SLEEPS))
    os.kill(daemon.pid_of("a"), signal.SIGKILL)
    daemon.pid_of("a", 2)
    daemon.stop()
    count = len(daemon.lines())
    daemon.start()
    wait_until("the second is ready", lambda: any(line.get("order") == "ready" for line in daemon.lines()[count:]))


# Mounts a file system that doesn't answer, as a network's where the other end is gone, and says whether that was done. Once it is told
# to, it answers all that nothing is there. At the end of its input it goes. Whoever is in its process group would be let through.
SILENT = """
import ctypes, fcntl, os, struct, sys, threading
system, place = ctypes.CDLL(None), sys.argv[1]
reads, writes = os.pipe()
words = b"fd=%d,pgrp=%d,minproto=5,maxproto=5,direct" % (writes, os.getpgrp())
print("no" if system.mount(b"silent", place.encode(), b"autofs", 0, words) else "yes", flush=True)
def refuse(top):
    while True:
        fcntl.ioctl(top, 0x9361, struct.unpack_from("=iiI", os.read(reads, 4096))[2])
for line in sys.stdin:
    threading.Thread(target=refuse, args=(os.open(place, os.O_RDONLY),), daemon=True).start()
system.umount2(place.encode(), 2)
os._exit(0)
"""


@contextlib.contextmanager
def silent_disk(path):
    """A folder on a disk that doesn't answer, and what makes it answer that nothing is there."""
    os.makedirs(path)
    how = {"stdin": subprocess.PIPE, "stdout": subprocess.PIPE, "text": True, "start_new_session": True}
    with subprocess.Popen([sys.executable, "-c", SILENT, path], **how) as mounted:
        if mounted.stdout.readline() != "yes\n":
            raise LeftOut("no file system that doesn't answer can be mounted")
        yield f"{path}/far", lambda: print("answer", file=mounted.stdin, flush=True)


@row("a program, and a folder, on a disk that doesn't answer")
def silent(it):
    need(root=True)
    tree = child("a") + child("b", shutdown=300)
    with silent_disk(f"{it.folder}/disk") as (far, answer):
        words = table("b", [f"{far}/program"]), table("b", SLEEPS, folder=far), table("b", SLEEPS, env_file=f"{far}/env")
        for word in words:
            daemon = it.daemon(tree, table("a", SLEEPS) + word).start()
            daemon.pid_of("b")
            os.kill(daemon.pid_of("a"), signal.SIGKILL)
            daemon.wait_for(lambda line: line.get("event") == "exit")
            status, said = daemon.ctl("status")
            expect(status == 0 and "starting" in said, f"status {status}: {said}")
            daemon.stop()
            daemon.none_is_left()
        late = [it.daemon(tree, table("a", SLEEPS) + word).start() for word in words]
        for daemon in late:
            daemon.pid_of("b")
        answer()
        for daemon, reason in zip(late, ("no_command", "no_folder", "no_env_file")):
            daemon.wait(4)
            told = [line for line in daemon.lines() if line.get("event") == "fail"]
            expect([line["reason"] for line in told] == [f"error:{reason}"] and told[0].get("text"), f"told was {told}")


def mutant(chance, text):
    """A text with some bytes changed, removed, doubled, or lines moved."""
    text = bytearray(text)
    for _ in range(chance.randint(1, 4)):
        at = chance.randrange(len(text) + 1)
        kind = chance.randrange(4)
        if kind == 0:
            text[at : at + 1] = bytes([chance.randrange(256)])
        elif kind == 1:
            del text[at : at + chance.randint(1, 20)]
        elif kind == 2:
            text[at:at] = text[at : at + chance.randint(1, 40)]
        else:
            text[at:at] = chance.choice([b"\n", b'"', b"[[child]]\n", b"[a]\n", b"999999999999", b"\xff", b"= ", b"'"])
    return bytes(text)


@row("mutants of trees, commands and logs")
def mutants(it):
    daemon = it.run(child("a") + child("b"), table("a", SLEEPS) + table("b", ["sh", "-c", "echo b; exec sleep 1000"], output="log"))
    daemon.ctl("restart", "a")
    daemon.stop()
    seed = time.time_ns()
    chance, known = random.Random(seed), {name: daemon.read(name) for name in ("tree.toml", "commands.toml", "log")}
    for number in range(100 if it.is_short else 3000):
        name = chance.choice(list(known))
        with open(f"{daemon.folder}/mutant", "wb") as file:
            file.write(mutant(chance, known[name]))
        files = [("mutant" if it_is == name else it_is) for it_is in known]
        words = ["replay", files[0], files[2]] if name == "log" or number % 2 else ["check", *files[:2]]
        played = subprocess.run([it.program, *words], cwd=daemon.folder, stdout=subprocess.DEVNULL, stderr=subprocess.PIPE, timeout=PATIENCE)
        if played.returncode not in (0, 1) or b"panicked" in played.stderr:
            raise Fault(f"{' '.join(words)} of mutant {number} (seed {seed}): status {played.returncode}, {played.stderr[:300]}")
    with contextlib.suppress(OSError):
        os.remove(f"{daemon.folder}/mutant")


@row("the control folder is removed, and HUP")
def control_removed(it):
    daemon = it.run(child("a"), table("a", SLEEPS))
    shutil.rmtree(f"{daemon.folder}/control")
    expect(daemon.ctl("status")[0] == 1, "it answers without a socket")
    daemon.signal(signal.SIGHUP)
    wait_until("it answers again", lambda: daemon.ctl("status")[0] == 0)
