"""What may not be released."""

import os
import re
import subprocess

from common import ROOT, read


def answer(*words):
    """The status of a script of the repository, and what it said."""
    done = subprocess.run(words, cwd=ROOT, stdin=subprocess.DEVNULL, stdout=subprocess.PIPE, stderr=subprocess.STDOUT, text=True)
    return done.returncode, done.stdout.strip()


def of_checkout(version):
    """The commit has to be one that says which version it is."""
    found = []
    _, changed = answer("git", "status", "--porcelain")
    if changed:
        found.append("the checkout has changes that aren't committed:\n" + changed)
    _, tag = answer("git", "tag", "--points-at", "HEAD", f"v{version}")
    if not tag:
        found.append(f"this commit isn't tagged v{version}")
    if not re.search(rf"^## {re.escape(version)}$", read("CHANGELOG.md"), flags=re.M):
        found.append(f"CHANGELOG.md has no heading {version}")
    if re.search(r"^## Next$", read("CHANGELOG.md"), flags=re.M):
        found.append("CHANGELOG.md has a heading Next: what is released isn't to come")
    return found


def of_proofs(of_gate):
    """What was proved and tried has to be what stands here."""
    found = []
    for words, what in (
        ((".ci/edits-by-hand", "--stale"), "edits by hand are stale or owed"),
        ((".ci/laws-turned", "--stale"), "laws are to be turned again"),
    ):
        status, said = answer(*words)
        if status or said:
            found.append(f"{what} ({' '.join(words)}):\n{said}")
    if not of_gate:
        found.append("the gate hasn't passed on this commit in this checkout: .ci/run")
    if answer("embed/build", "--is-current")[0]:
        found.append("embed/out has no library that is proved as the sources stand: embed/build --after-gate")
    if answer("./otp", "--is-proved")[0]:
        found.append("there is no program that is proved as the sources stand: ./otp --build")
    return found


def gate_of(commit):
    """The last line of the gate that passed on this commit, or nothing."""
    status, folder = answer("git", "rev-parse", "--absolute-git-dir")
    path = os.path.join(folder, "gate-passed")
    if status or not os.path.exists(path):
        return ""
    with open(path, encoding="utf-8") as file:
        of, _, line = file.read().strip().partition(" ")
    return line if of == commit else ""


def of_versions():
    status, said = answer("tools/version")
    return [said] if status else []
