"""Processes that are hard to end, signals, and the death of the daemon itself."""

import os
import shutil
import signal
import time

from harness import NOBODY, child, expect, flags, need, python, row, shell, table, wait_until

DEAF = 'trap "" TERM; echo >&3; while :; do sleep 0.2; done'
SLEEPS = ["sleep", "1000"]


@row("a child that doesn't listen to TERM")
def deaf(it):
    daemon = it.run(child("a", shutdown=300), table("a", shell(DEAF), ready="notify"))
    daemon.stop()
    expect(any(line.get("order") == "kill" for line in daemon.lines()), "it was not killed")


@row("children of a child, in its group and in a session of their own")
def family(it):
    daemon = it.run(child("a"), table("a", shell("sleep 1000 & setsid sleep 1000 & (setsid sleep 1000 &) ; echo >&3; exec sleep 1000"), ready="notify"))
    wait_until("four processes are there", lambda: len(daemon.left()) == 4)


@row("a child that makes itself a daemon, again and again")
def forks_away(it):
    daemon = it.daemon(flags(intensity=3, period=5) + child("a"), table("a", shell("setsid sleep 1000 & exit 0"))).start()
    daemon.wait(3)


@row("a child that moves to the daemon's group, asked and killed")
def leaves_group(it):
    moves = "import os, signal, time; os.setpgid(0, os.getpgid(os.getppid())); {}; print('moved', flush=True); time.sleep(1000)"
    for number, more in (("5000", "0"), ("300", "signal.signal(15, signal.SIG_IGN)")):
        daemon = it.run(child("a", shutdown=int(number)), table("a", python(moves.format(more)), ready="line", ready_line="moved", output="log"))
        daemon.stop()


def is_roots(process):
    with open(f"/proc/{process}/status", encoding="utf-8") as file:
        return "Uid:\t0\t0" in file.read()


@row("a child that became root's, under a daemon of nobody's")
def anothers_child(it):
    need("setpriv", root=True)
    for name, source, mode in (("setpriv", shutil.which("setpriv"), 0o4755), ("otp-procs", it.program, 0o755)):
        os.makedirs(it.folder, exist_ok=True)
        shutil.copy(source, f"{it.folder}/{name}")
        os.chmod(f"{it.folder}/{name}", mode)
    become = [f"{it.folder}/setpriv", "--reuid=0", "--regid=0", "--clear-groups", *SLEEPS]
    daemon = it.daemon(child("a", shutdown=100), table("a", become), before=["setpriv", f"--reuid={NOBODY}", f"--regid={NOBODY}", "--clear-groups"])
    daemon.program = f"{it.folder}/otp-procs"
    os.chown(daemon.folder, NOBODY, NOBODY)
    pid = daemon.start().pid_of("a")
    wait_until("it is root's", lambda: is_roots(pid))
    daemon.signal(signal.SIGTERM)
    daemon.wait_for(lambda line: line.get("order") == "kill")
    time.sleep(0.7)
    daemon.signal(signal.SIGTERM)
    daemon.wait(6)
    expect(daemon.left(), "root's process was ended by nobody")
    os.kill(pid, signal.SIGKILL)
    return "given up at the second TERM"


@row("a child that stands still is stopped")
def stands_still(it):
    daemon = it.run(child("a", shutdown="infinity"), table("a", shell("trap 'exit 0' TERM; echo >&3; while :; do sleep 0.1; done"), ready="notify"))
    os.kill(daemon.pid_of("a"), signal.SIGSTOP)
    daemon.stop()


@row("the daemon stands still while a child is killed")
def daemon_stands_still(it):
    daemon = it.run(child("a"), table("a", SLEEPS))
    daemon.signal(signal.SIGSTOP)
    os.kill(daemon.pid_of("a"), signal.SIGKILL)
    time.sleep(2)
    daemon.signal(signal.SIGCONT)
    daemon.pid_of("a", 2)


@row("signals that mean nothing to it")
def other_signals(it):
    daemon = it.run(child("a"), table("a", SLEEPS))
    for number in ("QUIT", "USR1", "USR2", "ALRM", "WINCH", "PROF"):
        daemon.signal(signal.Signals[f"SIG{number}"])
    daemon.signal(signal.SIGHUP)
    daemon.wait_for(lambda line: line.get("remark") == "signal" and line.get("name") == "HUP")
    expect(daemon.ctl("status")[0] == 0, "it answers no more")


@row("INT, ignored at its start, as in a script's background")
def ignored_interrupt(it):
    daemon = it.run(child("a"), table("a", SLEEPS), before=["sh", "-c", 'trap "" INT; exec "$0" "$@"'])
    daemon.signal(signal.SIGINT)
    daemon.signal(signal.SIGUSR1)
    daemon.wait_for(lambda line: line.get("remark") == "signal" and line.get("name") == "USR1")
    expect(daemon.process.poll() is None, "it took INT")


@row("a second TERM while a deaf child may take for ever")
def second_term(it):
    daemon = it.run(child("a", shutdown="infinity"), table("a", shell(DEAF), ready="notify"))
    daemon.signal(signal.SIGTERM)
    daemon.wait_for(lambda line: line.get("order") == "ask")
    time.sleep(0.7)
    daemon.signal(signal.SIGTERM)
    daemon.wait(6)


@row("KILL of the daemon: the next one ends what is left")
def killed_daemon(it):
    word = table("a", shell("sleep 1000 & setsid sleep 1000 & echo >&3; exec sleep 1000"), ready="notify")
    tree = child("a")
    if os.geteuid() == 0 and shutil.which("setpriv"):
        word += table("b", ["setpriv", f"--reuid={NOBODY}", f"--regid={NOBODY}", "--clear-groups", *SLEEPS])
        tree += child("b")
    daemon = it.run(tree, word)
    daemon.signal(signal.SIGKILL)
    daemon.wait(-9)
    wait_until("the system has ended the children", lambda: len(daemon.left()) <= 3)
    first = {process for process, _ in daemon.left()}
    os.rename(f"{daemon.folder}/log", f"{daemon.folder}/log.1")
    daemon.start().ready()
    wait_until(lambda: f"those of the first are gone, {first}", lambda: not first & {process for process, _ in daemon.left()})


@row("KILL of the daemon, a child of another user")
def killed_with_user(it):
    need(root=True)
    daemon = it.run(child("a"), table("a", shell("echo >&3; exec sleep 1000"), ready="notify", user=NOBODY, group=NOBODY, umask="077", nice=5, limits=["nofile=64"]))
    with open(f"/proc/{daemon.pid_of('a')}/status", encoding="utf-8") as file:
        expect(f"Uid:\t{NOBODY}\t{NOBODY}" in file.read(), "it is another user's")
    daemon.signal(signal.SIGKILL)
    daemon.wait(-9)
    daemon.none_is_left()
    os.rename(f"{daemon.folder}/log", f"{daemon.folder}/log.1")
    daemon.start().ready()


@row("a child that dies in a millisecond, for ever")
def dies_at_once(it):
    it.daemon(flags(intensity=3, period=5) + child("a"), table("a", ["false"])).start().wait(3)
    daemon = it.run(flags(intensity=1000, period=1) + child("a"), table("a", ["false"]))
    daemon.pid_of("a", 100 if it.is_short else 2000)


@row("a child's program is removed while it runs")
def program_removed(it):
    daemon = it.daemon(flags(intensity=3, period=5) + child("a"), table("a", ["{folder}/program"]))
    shutil.copy(shutil.which("sleep"), f"{daemon.folder}/sleep")
    with open(f"{daemon.folder}/program", "w", encoding="utf-8") as file:
        file.write("#!/bin/sh\nexec sleep 1000\n")
    os.chmod(f"{daemon.folder}/program", 0o755)
    pid = daemon.start().ready().pid_of("a")
    os.remove(f"{daemon.folder}/program")
    os.kill(pid, signal.SIGKILL)
    daemon.wait(3)


@row("a child is killed while its sibling takes long to start")
def slow_sibling(it):
    slow = table("b", shell("sleep 3; echo up; exec sleep 1000"), ready="line", ready_line="up", output="log")
    daemon = it.daemon(child("a") + child("b"), table("a", SLEEPS) + slow).start()
    os.kill(daemon.pid_of("a"), signal.SIGKILL)
    daemon.pid_of("b")
    status, text = daemon.ctl("status", "--json")
    expect(status == 0 and '"id":"a"' in text, f"status: {text}")
    daemon.ready()
    daemon.pid_of("a", 2)


@row("it is process 1, and gets orphans")
def process_one(it):
    need("unshare", root=True)
    tree, word = child("a"), table("a", shell("(sleep 0.3 &) ; (sleep 1000 &) ; echo >&3; exec sleep 1000"), ready="notify")
    daemon = it.daemon(tree, word, before=["unshare", "--pid", "--fork", "--mount-proc", "--kill-child"])
    daemon.start().ready()
    # The signal is for the daemon, which is the only child of `unshare`.
    with open(f"/proc/{daemon.process.pid}/task/{daemon.process.pid}/children", encoding="utf-8") as file:
        inside = int(file.read().split()[0])
    time.sleep(0.5)
    os.kill(inside, signal.SIGTERM)
    daemon.wait(0)
