"""A daemon to which something is done, and what has to be so afterwards."""

import contextlib
import json
import os
import shutil
import signal
import subprocess
import time

# How long something is waited for: a busy machine is no fault.
PATIENCE = 300
# The variable by which all that a daemon has started is found.
MARK = "OTP_STORM"
# A user who owns nothing.
NOBODY = 54321


class Fault(Exception):
    """What isn't as it should be."""


class LeftOut(Exception):
    """Why something can't be done here."""


ROWS = []


def row(what, is_long=False):
    """Makes a function a row of the table: what is done to the daemon."""

    def take(function):
        ROWS.append((function.__name__, what, is_long, function))
        return function

    return take


def need(*programs, root=False):
    """Leaves a row out where a program isn't there, or only root can do that."""
    for program in programs:
        if not shutil.which(program):
            raise LeftOut(f"{program} isn't there")
    if root and os.geteuid() != 0:
        raise LeftOut("only root can do that")


def expect(is_so, text):
    if not is_so:
        raise Fault(text)


def wait_until(what, is_so):
    """Waits until something is so, and returns it."""
    until = time.monotonic() + PATIENCE
    while True:
        found = is_so()
        if found:
            return found
        if time.monotonic() > until:
            raise Fault(f"not within {PATIENCE} s: {what() if callable(what) else what}")
        time.sleep(0.02)


def table(word, command, **keys):
    """A table of the file of commands."""
    values = {"command": command, **keys}
    return f"[{word}]\n" + "".join(f"{key} = {json.dumps(value)}\n" for key, value in values.items())


def child(name, start=None, **keys):
    """A child of a tree file."""
    values = {"id": name, "start": start or name, **keys}
    return "[[child]]\n" + "".join(f"{key} = {json.dumps(value)}\n" for key, value in values.items())


def flags(**keys):
    return "".join(f"{key} = {json.dumps(value)}\n" for key, value in keys.items())


def shell(text):
    return ["sh", "-c", text]


def python(text):
    return ["python3", "-c", text]


class Daemon:
    """otp-procs with files in a folder of its own."""

    def __init__(self, program, folder, tree, commands, log="log", before=(), output=None):
        self.program, self.folder, self.log, self.process, self.before = program, folder, log, None, list(before)
        self.mark = f"{MARK}={folder}"
        self.output = output
        os.makedirs(folder, exist_ok=True)
        for name, text in (("tree.toml", tree), ("commands.toml", commands)):
            with open(f"{folder}/{name}", "w", encoding="utf-8") as file:
                file.write(text.replace("{folder}", folder))

    def start(self, *more):
        """Runs it, with what the words say before it (a limit, another user)."""
        words = [*self.before, self.program, "run", "tree.toml", "commands.toml", "--json", "--control", "control", "--log", self.log, *more]
        name, mark = self.mark.split("=", 1)
        with open(f"{self.folder}/errors", "ab") as errors:
            how = {"cwd": self.folder, "env": {**os.environ, name: mark}, "stdin": subprocess.DEVNULL, "stderr": errors}
            self.process = subprocess.Popen(words, stdout=self.output or errors, **how)
        return self

    def ready(self):
        self.wait_for(lambda line: line.get("order") == "ready")
        return self

    def read(self, name):
        path = os.path.join(self.folder, name)
        # Who opens a pipe waits for the other end.
        if os.path.isfile(path):
            with contextlib.suppress(OSError), open(path, "rb") as file:
                return file.read()
        return b""

    def lines(self):
        """The whole lines of the log."""
        text = self.read(self.log)
        return [json.loads(line) for line in text[: text.rfind(b"\n") + 1].splitlines() if line.strip()]

    def wait_for(self, is_it, count=1):
        """Waits until so many lines of the log are such, and returns the last of them."""

        def find():
            found = [line for line in self.lines() if is_it(line)]
            if len(found) < count and self.process.poll() is not None:
                raise Fault(f"it ended with status {self.process.returncode} before a line came: {self.tail()}")
            return len(found) >= count and found[count - 1]

        return wait_until(lambda: f"a line of the log; {self.tail()}", find)

    def tail(self):
        return (self.read("errors")[-500:] + b" " + self.read(self.log)[-1500:]).decode(errors="replace")

    def pid_of(self, path, count=1):
        """The process that was started so many times ago at a path."""
        return self.wait_for(lambda line: line.get("order") == "start" and line.get("path") == path, count)["pid"]

    def ctl(self, *words):
        """Asks the daemon, and returns the status and what was said."""
        asked = subprocess.run([self.program, "ctl", "--control", f"{self.folder}/control", *words], stdout=subprocess.PIPE, stderr=subprocess.STDOUT, timeout=PATIENCE)
        return asked.returncode, asked.stdout.decode(errors="replace")

    def signal(self, number):
        self.process.send_signal(number)

    def wait(self, status):
        """Waits until it has ended so."""
        try:
            ended = self.process.wait(PATIENCE)
        except subprocess.TimeoutExpired:
            raise Fault(f"it doesn't end: {self.tail()}") from None
        expect(ended == status, f"its status is {ended}, and not {status}: {self.tail()}")

    def stop(self, status=0):
        self.signal(signal.SIGTERM)
        self.wait(status)

    def left(self):
        """The processes that bear the mark, but for the daemon: each with its words."""
        found = []
        for process in filter(str.isdigit, os.listdir("/proc")):
            with contextlib.suppress(OSError), open(f"/proc/{process}/environ", "rb") as file:
                if self.mark.encode() in file.read().split(b"\0") and not (self.process and int(process) == self.process.pid):
                    with open(f"/proc/{process}/cmdline", encoding="utf-8", errors="replace") as words:
                        found.append((int(process), words.read().replace("\0", " ").strip()))
        return found

    def none_is_left(self):
        wait_until(lambda: f"no process is left, but {self.left()}", lambda: not self.left())

    def replay(self, tree="tree.toml"):
        played = subprocess.run([self.program, "replay", tree, self.log], cwd=self.folder, stdout=subprocess.PIPE, stderr=subprocess.STDOUT, timeout=PATIENCE)
        return played.returncode, played.stdout.decode(errors="replace").strip()

    def replay_agrees(self):
        status, text = self.replay()
        expect(status == 0, f"replay: {text}")

    def said(self, path):
        """What a child said, line by line, and how many lines the log says were lost."""
        lines = self.lines()
        said = [line["line"] for line in lines if line.get("remark") == "says" and line.get("path") == path]
        return said, sum(line.get("lines", 0) for line in lines if line.get("remark") == "lost")

    def end_all(self):
        """Ends what is left of a row that went wrong."""
        if self.process and self.process.poll() is None:
            self.process.kill()
            self.process.wait()
        for process, _ in self.left():
            with contextlib.suppress(OSError):
                os.kill(process, signal.SIGKILL)


class Row:
    """What a row of the table has: a folder, a program, and the daemons that it made."""

    def __init__(self, program, folder, is_short):
        self.program, self.folder, self.is_short, self.daemons = program, folder, is_short, []

    def daemon(self, tree, commands, **how):
        made = Daemon(self.program, f"{self.folder}/{len(self.daemons)}", tree, commands, **how)
        self.daemons.append(made)
        return made

    def run(self, tree, commands, **how):
        """A daemon that is ready."""
        return self.daemon(tree, commands, **how).start().ready()

    def after(self, replays=True):
        """What has to be so after each: all have ended, none has left a process, and the logs replay."""
        for it in self.daemons:
            if it.process and it.process.poll() is None:
                it.stop()
            it.none_is_left()
            if replays and any(line.get("order") for line in it.lines()):
                it.replay_agrees()
