"""Lays out the module for Go with the static library inside."""

import os
import shutil

import pack
from common import LIBRARY, ROOT, copy, put, statements

UNPROVED = "The library of this module is NOT PROVED, and this is no release.\n"


def lay_out(folder, library):
    """The module's files, with this library and its header in native/."""
    source = os.path.join(ROOT, "embed", "go")
    shutil.copytree(source, folder, ignore=shutil.ignore_patterns("check", "native", "*.out"))
    copy(library, f"{folder}/native/lib{LIBRARY}.a")
    copy(f"{ROOT}/embed/c/otp.h", f"{folder}/native/otp.h")
    for name in ("LICENSE-MIT", "LICENSE-APACHE"):
        copy(f"{ROOT}/{name}", f"{folder}/{name}")


def make(release):
    """Packs it."""
    name = f"otp-supervision-go-{release.name}"
    folder = os.path.join(release.room, name)
    lay_out(folder, os.path.join(release.folder, "lib", f"lib{LIBRARY}.a"))
    for name, path in statements(release).items():
        copy(path, f"{folder}/{name}")
    if not release.is_proved:
        put(f"{folder}/NOT-PROVED", UNPROVED)
    pack.folder(release, folder)
