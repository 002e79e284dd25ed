"""Makes the Python package with the shared library inside: the same bytes each time."""

import base64
import hashlib
import io
import os
import time
import zipfile

from common import ROOT, put, statements
from library import soname

NAME = "otp_supervision"
# The library wants glibc 2.14.
TAG = "py3-none-manylinux2014_x86_64"
METADATA = """Metadata-Version: 2.1
Name: otp-supervision
Version: {version}
Summary: {mark}Supervise asyncio tasks, or anything else, by the rules of Erlang/OTP
License: MIT OR Apache-2.0
Requires-Python: >=3.8
Classifier: Typing :: Typed
Classifier: Operating System :: POSIX :: Linux
"""
WHEEL = f"Wheel-Version: 1.0\nGenerator: tools/release\nRoot-Is-Purelib: false\nTag: {TAG}\n"


def version_of(release):
    """As Python has versions: what isn't proved comes before each release."""
    return release.version if release.is_proved else release.version + ".dev0+unproved"


def files(release, library):
    """The files of the package, by their paths."""
    source = os.path.join(ROOT, "embed", "python", "src", NAME)
    paths = {f"{NAME}/{name}": os.path.join(source, name) for name in sorted(os.listdir(source)) if name.endswith((".py", ".typed"))}
    paths[f"{NAME}/example.py"] = os.path.join(ROOT, "embed", "python", "shop.py")
    paths[f"{NAME}/{soname(release)}"] = library
    info = f"{NAME}-{version_of(release)}.dist-info"
    for name in ("LICENSE-MIT", "LICENSE-APACHE"):
        paths[f"{info}/{name}"] = os.path.join(ROOT, name)
    for name, path in statements(release).items():
        paths[f"{info}/{name}"] = path
    found = {}
    for path, at in paths.items():
        with open(at, "rb") as file:
            found[path] = file.read()
    mark = "" if release.is_proved else "NOT PROVED, and no release: "
    found[f"{info}/METADATA"] = METADATA.format(version=version_of(release), mark=mark).encode()
    found[f"{info}/WHEEL"] = WHEEL.encode()
    found[f"{info}/RECORD"] = record(found, info).encode()
    return found


def record(found, info):
    lines = []
    for path, data in found.items():
        told = base64.urlsafe_b64encode(hashlib.sha256(data).digest()).rstrip(b"=").decode()
        lines.append(f"{path},sha256={told},{len(data)}\n")
    return "".join(lines) + f"{info}/RECORD,,\n"


def make(release, library=None):
    """The path of the wheel, which brings this library."""
    library = library or os.path.join(release.folder, "lib", soname(release))
    held = io.BytesIO()
    with zipfile.ZipFile(held, "w", zipfile.ZIP_DEFLATED) as packed:
        for path, data in files(release, library).items():
            one = zipfile.ZipInfo(path, time.gmtime(max(release.epoch, 315532800))[:6])
            one.external_attr, one.compress_type = 0o100644 << 16, zipfile.ZIP_DEFLATED
            packed.writestr(one, data)
    made = os.path.join(release.out, f"{NAME}-{version_of(release)}-{TAG}.whl")
    put(made, held.getvalue())
    return made
