"""Services that fail alone, or wait for others; systems around the daemon; a tree and its commands in one file."""

import contextlib
import os
import signal
import socket
import subprocess
import threading

from harness import LeftOut, child, expect, flags, need, python, row, shell, table, wait_until

SLEEPS = ["sleep", "1000"]
TELLS = "import os, socket, time; s = socket.socket(socket.AF_UNIX, socket.SOCK_DGRAM); s.connect('\\0' + os.environ['NOTIFY_SOCKET'][1:]); "


@row("a service that fails for ever, alone among 50")
def fails_alone(it):
    others = "".join(child(f"w{number}", "a") for number in range(50))
    bad = table("bad", ["false"], restart_after=["10ms", "100ms"])
    daemon = it.run(others + child("bad", restart="transient"), table("a", SLEEPS) + bad)
    daemon.pid_of("bad", 10 if it.is_short else 100)
    starts = [line for line in daemon.lines() if line.get("order") == "start" and line["path"] != "bad"]
    expect(len(starts) == 50, f"{len(starts)} starts of the others, and not 50")
    os.kill(daemon.pid_of("w7"), signal.SIGKILL)
    daemon.pid_of("w7", 2)
    daemon.ctl("stop", "bad")
    status, said = daemon.ctl("status", "bad")
    expect(status == 3, f"status {status}: {said}")


@row("a service whose program is missing, is held, and comes")
def held(it):
    word = table("late", ["{folder}/program"], restart_after="10ms", give_up_after=3, on_give_up="hold")
    daemon = it.run(child("late", restart="transient") + child("a"), table("a", SLEEPS) + word)
    daemon.wait_for(lambda line: line.get("remark") == "held")
    with open(f"{daemon.folder}/program", "w", encoding="utf-8") as file:
        file.write("#!/bin/sh\nexec sleep 1000\n")
    os.chmod(f"{daemon.folder}/program", 0o755)
    expect(daemon.ctl("start", "late")[0] == 0, "it doesn't start")
    expect(daemon.ctl("wait", "late", "up")[0] == 0, "it isn't up")


@row("a slow service and those who wait for it; then TERM")
def slow_service(it):
    slow = table("db", shell("sleep 1; echo >&3; exec sleep 1000"), ready="notify", ready_blocks=False)
    tree = child("b") + child("db") + child("a")
    daemon = it.run(tree, table("a", SLEEPS) + table("b", SLEEPS, after=["db"]) + slow)
    status, said = daemon.ctl("status", "b")
    expect(status == 3 and "waits for db" in said, f"status {status}: {said}")
    expect(daemon.ctl("wait", "b", "up")[0] == 0, "it isn't up")
    endless = table("db", SLEEPS, ready="notify", ready_blocks=False, ready_within="infinity")
    daemon = it.run(tree, table("a", SLEEPS) + table("b", SLEEPS, after=["db"]) + endless)
    daemon.stop()


@row("a service with a watchdog stands still")
def stands_still_watched(it):
    beats = python(TELLS + "s.send(b'READY=1')\nwhile True: s.send(b'WATCHDOG=1'); time.sleep(0.2)")
    daemon = it.run(child("a", shutdown=300), table("a", beats, ready="sd_notify", watchdog=15000 if it.is_short else 5000))
    os.kill(daemon.pid_of("a"), signal.SIGSTOP)
    daemon.wait_for(lambda line: line.get("event") == "exit" and line.get("reason") == "error:watchdog")
    daemon.pid_of("a", 2)


@row("10,000 notifications at once, and rubbish among them")
def notifications(it):
    flood = "import os as o\nfor k in range(10000): s.send(o.urandom(k % 200) or b'x')\ns.send(b'STATUS=done\\nREADY=1'); time.sleep(1000)"
    daemon = it.run(child("a"), table("a", python(TELLS + flood), ready="sd_notify"))
    wait_until("its words are shown", lambda: "says done" in daemon.ctl("status", "a")[1])


@row("the system's log is slow, and goes")
def system_log(it):
    script = "i=0; while [ $i -lt 3000 ]; do echo line $i; i=$((i+1)); done; echo >&3; read x < {folder}/fifo; echo late; exec sleep 1000"
    daemon = it.daemon(child("a"), table("a", shell(script), ready="notify", output="syslog", output_socket="{folder}/syslog"))
    os.mkfifo(f"{daemon.folder}/fifo")
    heard = []
    with socket.socket(socket.AF_UNIX, socket.SOCK_DGRAM) as server:
        server.bind(f"{daemon.folder}/syslog")
        server.settimeout(300)
        daemon.start()
        while len(heard) < 3000:
            heard.append(server.recv(9000).rsplit(b" ", 1)[-1])
        daemon.ready()
    expect(heard == [b"%d" % number for number in range(3000)], "lines are lost, or out of order")
    os.remove(f"{daemon.folder}/syslog")
    with open(f"{daemon.folder}/fifo", "w", encoding="utf-8") as fifo:
        fifo.write("x\n")
    daemon.wait_for(lambda line: line.get("remark") == "lost" and line.get("bytes"))


@row("a flood into a file that is begun anew by its size")
def rotated_flood(it):
    count = 100_000 if it.is_short else 1_000_000
    text = f"import sys\nfor k in range({count}): print('line', k)\nopen('{{folder}}/done', 'w').close()\nsys.stdout.flush()\nimport time; time.sleep(1000)"
    daemon = it.run(child("a"), table("a", python(text), output="file", output_file="{folder}/out", output_max="200K", output_keep=1000))
    wait_until("all is written", lambda: daemon.read("out").endswith(b"line %d\n" % (count - 1)))
    names = sorted((name for name in os.listdir(daemon.folder) if name.startswith("out.")), key=lambda name: -int(name[4:]))
    lines = b"".join(daemon.read(name) for name in [*names, "out"]).split(b"\n")
    expect(lines == [b"line %d" % number for number in range(count)] + [b""], "a line is lost or cut")
    return f"{len(names) + 1} files"


@row("30 who ask for numbers, wait, and ask for patterns at once")
def many_questions(it):
    daemon = it.run(flags(intensity=1000, period=1) + "".join(child(f"w{number}", "a") for number in range(20)), table("a", SLEEPS))
    done = []

    def ask(*words):
        done.append((words, daemon.ctl(*words)))

    asked = [("metrics",), ("wait", "*", "up"), ("status", "w1*"), ("restart", "w?"), ("events",), ("signal", "w19", "CONT")]
    threads = [threading.Thread(target=ask, args=words) for words in asked * 5]
    for thread in threads:
        thread.start()
    for thread in threads:
        thread.join()
    for words, (status, said) in done:
        expect(status in ((0, 3) if words[0] == "status" else (0,)), f"{' '.join(words)}: status {status}, {said}")
    expect(daemon.ctl("wait", "*", "up")[0] == 0, "not all are up")


@row("one file with includes and instances; an include goes while it runs")
def one_file(it):
    one = 'intensity = 5\ninclude = ["more.toml"]\n[[child]]\nid = "w"\ninstances = ["1", "2", "3"]\ncommand = ["sleep", "100{i}"]\n'
    daemon = it.daemon(one, "")
    with open(f"{daemon.folder}/more.toml", "w", encoding="utf-8") as file:
        file.write('[[child]]\nid = "m"\ncommand = ["sleep", "1000"]\n')
    daemon.start().ready()
    os.rename(f"{daemon.folder}/more.toml", f"{daemon.folder}/gone.toml")
    os.kill(daemon.pid_of("m"), signal.SIGKILL)
    daemon.pid_of("m", 2)
    expect(daemon.ctl("status", "w-*")[0] == 0, "not all are up")
    os.rename(f"{daemon.folder}/gone.toml", f"{daemon.folder}/more.toml")


@row("it is process 1 for one child: signals and status")
def process_one_main(it):
    need("unshare", root=True)
    word = table("a", shell('trap "echo usr" USR1; trap "exit 42" TERM; echo >&3; while :; do sleep 0.1; done'), ready="notify", output="log")
    daemon = it.daemon(child("a"), word, before=["unshare", "--pid", "--fork", "--mount-proc", "--kill-child"])
    daemon.start("--main", "a").ready()
    with open(f"/proc/{daemon.process.pid}/task/{daemon.process.pid}/children", encoding="utf-8") as file:
        inside = int(file.read().split()[0])
    os.kill(inside, signal.SIGUSR1)
    daemon.wait_for(lambda line: line.get("line") == "usr")
    os.kill(inside, signal.SIGTERM)
    daemon.wait(42)


@row("KILL of the daemon, and strays without variables in a control group")
def killed_with_group(it):
    with open("/proc/self/mountinfo", encoding="utf-8") as file:
        mounts = [line.split()[4] for line in file if " - cgroup2 " in line]
    if not mounts or not os.access(mounts[0], os.W_OK):
        raise LeftOut("no control group of version 2 can be made here")
    group = f"{mounts[0]}/otp-storm-{os.getpid()}"
    daemon = it.daemon(child("a"), table("a", shell("env -i setsid sleep 1000 & echo >&3; exec sleep 1000"), ready="notify"))
    try:
        daemon.start("--cgroup", group).ready()
        with open(f"{group}/tree/a#1/cgroup.procs", encoding="utf-8") as file:
            first = file.read().split()
        expect(len(first) == 2, f"two processes are in the group, and not {first}")
        daemon.signal(signal.SIGKILL)
        daemon.wait(-9)
        os.rename(f"{daemon.folder}/log", f"{daemon.folder}/log.1")
        daemon.start("--cgroup", group).ready()
        wait_until("those of the first are gone", lambda: not any(os.path.exists(f"/proc/{pid}/exe") for pid in first))
        daemon.stop()
    finally:
        daemon.end_all()
        subprocess.run(["sleep", "0.2"], check=True)
        for folder in (f"{group}/tree", f"{group}/daemon", group):
            with contextlib.suppress(OSError):
                os.rmdir(folder)
