"""Packs a folder so that the same files give the same bytes, whoever does it and when."""

import os
import subprocess

from common import put, run, sum_of


def folder(release, path):
    """Packs a folder under its name."""
    at, name = os.path.split(path)
    words = ["tar", "--sort=name", f"--mtime=@{release.epoch}", "--owner=0", "--group=0", "--numeric-owner", "--format=gnu", "-C", at]
    made = os.path.join(release.room, name + ".tar")
    run([*words, "-cf", made, name])
    run(["xz", "-T1", "-6", made])
    os.rename(made + ".xz", os.path.join(release.out, name + ".tar.xz"))


def zipped(text):
    """A text as gzip packs it, without a name or a time."""
    return subprocess.run(["gzip", "-9n"], input=text.encode(), stdout=subprocess.PIPE, check=True).stdout


def sums(release):
    """Sums all that is released."""
    lines = [f"{sum_of(os.path.join(release.out, name))}  {name}\n" for name in sorted(os.listdir(release.out)) if name != "SHA256SUMS"]
    put(os.path.join(release.out, "SHA256SUMS"), "".join(lines))
