"""Packs the Rust crates; that of the core has the library inside."""

import os
import re
import shutil

from common import DAEMON, LIBRARY, ROOT, TARGET, copy, put, run, statements, sum_of

# The crate of the core, and those that stand on it.
CRATES = (LIBRARY, "otp-threads", DAEMON)


def pack(release, library, crates=CRATES):
    """The paths of the packages, of which the first brings this library. The packed files are those of the checkout."""
    folder = os.path.join(release.room, "crates")
    ignored = shutil.ignore_patterns("target", "native")
    shutil.copytree(os.path.join(ROOT, "embed", "rust"), folder, ignore=ignored)
    native = os.path.join(folder, LIBRARY, "native")
    copy(library, f"{native}/{TARGET}/lib{LIBRARY}.a")
    put(f"{native}/SHA256SUMS", f"{sum_of(library)}  {TARGET}/lib{LIBRARY}.a\n")
    for name, path in statements(release).items():
        copy(path, f"{native}/{name}")
    if not release.is_proved:
        for name in crates:
            mark(f"{folder}/{name}/Cargo.toml")
    target = os.path.join(release.room, "packed")
    words = ["cargo", "package", "--offline", "--locked", "--quiet", "--allow-dirty", "--no-verify", "--exclude-lockfile", "--target-dir", target]
    run([*words, *(word for name in crates for word in ("--package", name))], cwd=folder)
    return [os.path.join(target, "package", f"{name}-{release.version}.crate") for name in crates]


def mark(manifest):
    """Says in the description that the library isn't proved."""
    with open(manifest, encoding="utf-8") as file:
        text = file.read()
    put(manifest, re.sub(r'(?m)^description = "', 'description = "NOT PROVED, and no release: ', text))


def make(release):
    """Packs them, and puts them beside the other files."""
    packed = pack(release, os.path.join(release.folder, "lib", f"lib{LIBRARY}.a"))
    for name, path in zip(CRATES, packed):
        copy(path, os.path.join(release.out, f"{name}-{release.name}.crate"))
