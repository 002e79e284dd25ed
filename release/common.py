"""What the parts of tools/release share: what is released, how files are put there, and how a program is called."""

import hashlib
import os
import re
import subprocess
import sys
from dataclasses import dataclass

ROOT = os.path.dirname(os.path.dirname(os.path.abspath(__file__)))
# The program's name in a release: Debian has another /usr/bin/otp.
PROGRAM = "otp-tree"
DAEMON = "otp-procs"
# The library's: Heimdal has another libotp.so.0.
LIBRARY = "otp-supervision"
TARGET = "x86_64-unknown-linux-gnu"


class Refused(Exception):
    """Why nothing is released."""


@dataclass
class Release:
    """What is released."""

    version: str            # of the sources
    is_proved: bool
    commit: str
    epoch: int              # seconds: the commit's time, which all files get
    library: str            # the folder of libotp_c.a and liblibc_c.a
    program: str            # the program, as it was linked
    room: str               # a folder for what is made on the way
    out: str                # a folder for what is released

    @property
    def name(self):
        """The version as each artefact's name has it."""
        return self.version if self.is_proved else self.version + "+unproved"

    @property
    def folder(self):
        """The folder that the tarball holds."""
        return os.path.join(self.room, f"otp-{self.name}-x86_64-linux")

    @property
    def interface(self):
        """What programs that were linked to the shared library go on with: before 1.0 each minor version is another interface."""
        major, minor = self.version.split(".")[:2]
        return f"{major}.{minor}" if major == "0" else major


def run(words, **how):
    """Runs a program, and returns what it wrote. One that fails ends the release."""
    done = subprocess.run(words, stdin=subprocess.DEVNULL, stdout=subprocess.PIPE, stderr=subprocess.PIPE, text=True, **how)
    if done.returncode:
        raise Refused(f"{' '.join(words)} ended with {done.returncode}:\n{done.stdout[-2000:]}{done.stderr[-4000:]}")
    return done.stdout


def say(text):
    print(f"tools/release: {text}", file=sys.stderr, flush=True)


def read(*path):
    """A file of the repository."""
    with open(os.path.join(ROOT, *path), encoding="utf-8") as file:
        return file.read()


def put(path, content, mode=0o644):
    """Writes a file, text or bytes, with the folders above it."""
    os.makedirs(os.path.dirname(path), exist_ok=True)
    with open(path, "wb") as file:
        file.write(content.encode() if isinstance(content, str) else content)
    os.chmod(path, mode)


def copy(source, path, mode=0o644):
    with open(source, "rb") as file:
        put(path, file.read(), mode)


def sum_of(path):
    with open(path, "rb") as file:
        return hashlib.sha256(file.read()).hexdigest()


def statements(release):
    """What a release says of itself, by the files' names: what was proved, and whose parts are in it. A check has laid out none."""
    folder = os.path.join(release.folder, "share", "doc", "otp")
    paths = {name: os.path.join(folder, name) for name in ("PROOF", "LICENCES")}
    return {name: path for name, path in paths.items() if os.path.exists(path)}


def files_below(folder):
    """The paths of the files and links below a folder, in the order of their names."""
    found = []
    for at, _, names in os.walk(folder):
        found += [os.path.relpath(os.path.join(at, name), folder) for name in names]
    return sorted(found)


def renamed(text):
    """A text in which the program is called by its name in a release."""
    commands = "check|diff|help|import|limits|replay|run|shutdown|sim|suggest|tree|try|COMMAND|--help|--version"
    return re.sub(rf"(?<![\w/.-])otp(?= (?:{commands})\b)", PROGRAM, text)
