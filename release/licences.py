"""Says what the files of a release contain, and under which licence each part is."""

import os
import re

from common import DAEMON, LIBRARY, PROGRAM, ROOT, copy, put, run

HEAD = f"""What the files of this release contain, and under which licence each part is.

This project's own code: MIT or Apache-2.0, as you choose (LICENSE-MIT, LICENSE-APACHE).

bin/{PROGRAM} and lib{LIBRARY} were compiled by the Rattle toolchain, and contain parts of it. For these no
licence is known, as the toolchain comes without a word about them; who passes the files on has to know more than this file does:

"""
MIDDLE = """
Libraries that were ported for that toolchain; their licences stand in licences/:

"""
LAST = f"""
bin/{DAEMON} contains besides lib{LIBRARY} and its part of the toolchain:

  Rust's standard library ({{rust}}): MIT or Apache-2.0
  the GNU C library ({{libc}}): LGPL-2.1 or later, linked statically. Its text stands in licences/; the sources of
    {DAEMON} and lib{LIBRARY}.a are all that is needed to link it with another version
  GCC's runtime library ({{gcc}}): GPL-3 or later with the GCC Runtime Library Exception, which asks nothing of programs
"""
# What the compiler links to each program, and to the library.
LINKED = ["libos_c.a (calls of the system)", "liblibc_c.a (memory)"]
OF_LIBRARY = ["core", "std", "std_alloc", "std_heap"]


def toolchain():
    return os.path.dirname(run(["rt", "doc"]).strip())


def libraries_used():
    """The toolchain's libraries that the repository's crates stand on, with those below them."""
    with open(os.path.join(ROOT, "crates.txt"), encoding="utf-8") as file:
        lines = re.findall(r"^(\w+)[^:\n#]*:(.*)$", file.read(), flags=re.M)
    own = {name for name, _ in lines}
    found = {name for _, names in lines for name in names.split() if name not in own} | set(OF_LIBRARY)
    for name in sorted(found):
        below = os.path.join(toolchain(), "rlibs", f"{name}.rlib", "below")
        found.update(os.listdir(below) if os.path.isdir(below) else [])
    return sorted(found)


def texts_of(name):
    """The licence files of one of them."""
    folder = os.path.join(toolchain(), "rattle", name)
    names = sorted(os.listdir(folder)) if os.path.isdir(folder) else []
    return [os.path.join(folder, one) for one in names if one.startswith("LICENSE")]


def package(name):
    return run(["dpkg-query", "-W", "-f", "${Package} ${Version}", name])


def write(release, folder):
    """Writes LICENCES, and the texts into licences/."""
    unknown, known = list(LINKED), []
    for name in libraries_used():
        texts = texts_of(name)
        for text in texts:
            copy(text, os.path.join(folder, "licences", name, os.path.basename(text)))
        (known if texts else unknown).append(name)
    for name in ("LGPL-2.1", "GPL-3"):
        copy(f"/usr/share/common-licenses/{name}", os.path.join(folder, "licences", name))
    listed = ["".join(f"  {name}\n" for name in names) for names in (unknown, known)]
    rust = run(["rustc", "--version"]).split()[1]
    last = LAST.format(rust=rust, libc=package("libc6-dev"), gcc=package("gcc"))
    put(os.path.join(folder, "LICENCES"), HEAD + listed[0] + MIDDLE + listed[1] + last)
