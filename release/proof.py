"""The file that says what was proved."""

import hashlib
import os
import re

from common import DAEMON, LIBRARY, PROGRAM, ROOT, run, sum_of

PARTS = ("src", "specs", "proofs")
PROVED = f"""Proved is the code of bin/{PROGRAM} and of lib{LIBRARY}, as PROVED.md beside this file says, with what it trusts. Not
proved are the code of {DAEMON} itself, the header, what the linker does, and the toolchain's parts that LICENCES names."""
UNPROVED = """NOTHING HERE IS PROVED. The program and the library were compiled without their proofs, to try how a release is made: this is
none."""


def first_line(*words):
    return run(list(words)).splitlines()[0]


def crates():
    """The names of the crates, lowest first, as crates.txt has them."""
    with open(os.path.join(ROOT, "crates.txt"), encoding="utf-8") as file:
        return re.findall(r"^(\w+)[^:\n#]*:", file.read(), flags=re.M)


def sum_of_crate(name):
    """A sum of what is proved of a crate: each file's path below the crate, and its sum."""
    lines = []
    for part in PARTS:
        for at, folders, files in os.walk(os.path.join(ROOT, "crates", name, part)):
            folders.sort()
            for file in files:
                path = os.path.join(at, file)
                lines.append(f"{sum_of(path)}  {os.path.relpath(path, os.path.join(ROOT, 'crates', name))}\n")
    return hashlib.sha256("".join(sorted(lines, key=lambda line: line[66:])).encode()).hexdigest()


def text(release, of_gate):
    """What the file says."""
    lines = [
        f"otp {release.name}, for Linux on x86-64",
        "",
        PROVED if release.is_proved else UNPROVED,
        "",
        f"proved: {'yes' if release.is_proved else 'NO'}",
        f"commit: {release.commit}",
        f"toolchain: {run(['rt', 'version']).strip()}",
        f"gate: {of_gate or 'not asked'}",
        f"rust: {first_line('rustc', '--version')}",
        f"c: {first_line('gcc', '--version')}",
        "",
        "Sums (SHA-256) before the links:",
        "",
    ]
    lines += [f"{sum_of(os.path.join(release.library, name))}  {name}" for name in ("libotp_c.a", "liblibc_c.a")]
    lines.append(f"{sum_of(release.program)}  otp_program")
    lines += ["", "A sum of each crate: that of the list of its files in src, specs and proofs, each line", "'SUM  PATH', in the order of the paths.", ""]
    lines += [f"{sum_of_crate(name)}  {name}" for name in crates()]
    return "\n".join(lines) + "\n"
