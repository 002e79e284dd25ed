"""Makes the library of the two archives that were proved: one object in which the calls of the header alone can be seen."""

import os
import re

from common import LIBRARY, copy, put, run


def make(release, folder):
    """Puts the static and the shared library into a folder."""
    room = os.path.join(release.room, "library")
    os.makedirs(room)
    os.makedirs(folder, exist_ok=True)
    for name in ("libotp_c.a", "liblibc_c.a"):
        run(["ar", "x", os.path.join(os.path.abspath(release.library), name)], cwd=room)
    run(["ld", "-r", "-o", "one.o", *sorted(name for name in os.listdir(room) if name.endswith(".o"))], cwd=room)
    calls = sorted(re.findall(r"^\w+ T (otp_\w+)$", run(["nm", "-g", "--defined-only", "one.o"], cwd=room), flags=re.M))
    put(f"{room}/calls", "".join(f"{call}\n" for call in calls))
    run(["objcopy", "--keep-global-symbols=calls", "--strip-debug", "one.o"], cwd=room)
    run(["ar", "rcsD", f"lib{LIBRARY}.a", "one.o"], cwd=room)
    link(release, room, calls)
    for name in (f"lib{LIBRARY}.a", soname(release)):
        copy(f"{room}/{name}", f"{folder}/{name}")
    os.symlink(soname(release), f"{folder}/lib{LIBRARY}.so")


def soname(release):
    return f"lib{LIBRARY}.so.{release.interface}"


def link(release, room, calls):
    """Links the shared one. Its calls have a version, so a program says which interface it wants."""
    name = soname(release)
    node = "OTP_SUPERVISION_" + release.interface
    put(f"{room}/map", f"{node} {{ global: {' '.join(call + ';' for call in calls)} local: *; }};\n")
    words = ["-shared", "-o", name, f"-Wl,-soname,{name}", "-Wl,--version-script=map", "-Wl,-z,relro,-z,now", "-Wl,--build-id=sha1"]
    run(["gcc", *words, "-Wl,--whole-archive", f"lib{LIBRARY}.a", "-Wl,--no-whole-archive"], cwd=room)
    run(["strip", "--strip-unneeded", name], cwd=room)
