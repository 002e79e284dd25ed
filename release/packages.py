"""Makes the Debian packages of a folder that was laid out: the program, the daemon, the library, and what builds with it."""

import os
import re
import time

import pack
from common import DAEMON, LIBRARY, PROGRAM, copy, files_below, put, read, run
from library import soname

ARCHITECTURE = "x86_64-linux-gnu"
NOT_PROVED = "\n .\n THIS IS NO RELEASE: it was compiled without its proofs."
COPYRIGHT = """Format: https://www.debian.org/doc/packaging-manuals/copyright-format/1.0/
Upstream-Name: otp
Comment: LICENCES beside this file names the parts of others that the files contain.

Files: *
Copyright: {year} {holders}
License: MIT or Apache-2.0

License: MIT
{text}

License: Apache-2.0
 On Debian systems the text is in /usr/share/common-licenses/Apache-2.0.
"""
# Scripts of the daemon's package. A tree that runs keeps its daemon over an upgrade, as a restart would stop each service of it.
# DPKG_ROOT is set where dpkg works on another root.
RELOAD = 'if [ -z "${DPKG_ROOT-}" ] && [ -d /run/systemd/system ]; then systemctl --system daemon-reload >/dev/null || true; fi\n'
STOP = (
    'if [ "$1" = remove ] && [ -z "${DPKG_ROOT-}" ] && [ -d /run/systemd/system ]; then\n'
    f"    systemctl --system stop '{DAEMON}@*.service' >/dev/null || true\nfi\n"
)
# What an administrator wrote there stays.
EMPTY = f'if [ "$1" = purge ]; then rmdir --ignore-fail-on-non-empty "${{DPKG_ROOT-}}/etc/{DAEMON}" 2>/dev/null || true; fi\n'
SCRIPTS = {"postinst": RELOAD, "prerm": STOP, "postrm": RELOAD + EMPTY}


class Package:
    """A package that is being filled."""

    def __init__(self, release, name, **fields):
        self.release, self.name, self.fields = release, name, fields
        self.root = os.path.join(release.room, "packages", name)
        self.version = release.name.replace("+", "~") + "-1"
        self.doc = f"usr/share/doc/{name}"
        put(self.path(f"{self.doc}/copyright"), copyright_of(release))
        put(self.path(f"{self.doc}/changelog.Debian.gz"), pack.zipped(self.changelog()))
        for page in ("PROOF", "LICENCES"):
            self.take(f"share/doc/otp/{page}", f"{self.doc}/{page}")

    def path(self, path):
        return os.path.join(self.root, path)

    def take(self, source, path, mode=0o644):
        """A file of the folder that was laid out."""
        copy(os.path.join(self.release.folder, source), self.path(path), mode)

    def examples(self, name):
        """The worked example of this name, with the package's documentation."""
        folder = f"share/doc/otp/examples/{name}"
        for file in files_below(os.path.join(self.release.folder, folder)):
            self.take(f"{folder}/{file}", f"{self.doc}/examples/{file}")

    def manual(self, name):
        with open(os.path.join(self.release.folder, "share", "man", "man1", name), encoding="utf-8") as file:
            put(self.path(f"usr/share/man/man1/{name}.gz"), pack.zipped(file.read()))

    def changelog(self):
        when = time.strftime("%a, %d %b %Y %H:%M:%S +0000", time.gmtime(self.release.epoch))
        return f"{self.name} ({self.version}) unstable; urgency=medium\n\n  * Version {self.release.name}.\n\n -- {maintainer()}  {when}\n"

    def excuse(self, *tags):
        """What lintian is told not to say, and why."""
        lines = [f"# {why}\n{self.name}: {tag}\n" for tag, why in tags]
        put(self.path(f"usr/share/lintian/overrides/{self.name}"), "".join(lines))

    def control(self, name, text, mode=0o644):
        put(self.path(f"DEBIAN/{name}"), text, mode)

    def build(self):
        listed = [path for path in files_below(self.root) if not path.startswith("DEBIAN/") and not os.path.islink(self.path(path))]
        self.control("md5sums", run(["md5sum", *listed], cwd=self.root))
        size = run(["du", "-sk", "--apparent-size", "--exclude=DEBIAN", self.root]).split()[0]
        fields = {
            "Package": self.name, "Version": self.version, "Architecture": "amd64", "Maintainer": maintainer(), "Installed-Size": size,
            "Priority": "optional", **{key.replace("_", "-"): value for key, value in self.fields.items()},
        }
        if not self.release.is_proved:
            fields["Description"] += NOT_PROVED
        self.control("control", "".join(f"{key}: {value}\n" for key, value in fields.items()))
        for at, folders, files in os.walk(self.root):
            for name in ["", *files]:
                os.utime(os.path.join(at, name), (self.release.epoch,) * 2, follow_symlinks=False)
            for name in folders:
                os.chmod(os.path.join(at, name), 0o755)
        made = os.path.join(self.release.out, f"{self.name}_{self.version}_amd64.deb")
        epoch = {**os.environ, "SOURCE_DATE_EPOCH": str(self.release.epoch)}
        run(["dpkg-deb", "--root-owner-group", "-Zxz", "--threads-max=1", "--build", self.root, made], env=epoch)


def maintainer():
    """Who answers for the packages: DEBFULLNAME and DEBEMAIL, as Debian's tools have it."""
    return f"{os.environ.get('DEBFULLNAME', 'The contributors of otp')} <{os.environ.get('DEBEMAIL', 'otp@example.invalid')}>"


def copyright_of(release):
    text = read("LICENSE-MIT")
    holders = re.search(r"(?m)^Copyright \(c\) (.*)$", text)[1]
    body = re.sub(r"(?s)^.*?Copyright[^\n]*\n\n", "", text).rstrip("\n")
    quoted = "\n".join(f" {line or '.'}" for line in body.splitlines())
    return COPYRIGHT.format(year=time.gmtime(release.epoch).tm_year, holders=holders, text=quoted)


FIRST = ("initial-upload-closes-no-bugs", "It is no upload to Debian.")


def program(release):
    it = Package(
        release, PROGRAM, Section="utils", Depends="libc6 (>= 2.34)",
        Description="try supervision trees by the rules of Erlang/OTP\n Tells what a supervision tree would do: what a crash of each child costs,\n"
        " when a supervisor gives up, how long a stop takes. It also runs a tree on\n threads, with ready-made jobs.",
    )
    it.take(f"bin/{PROGRAM}", f"usr/bin/{PROGRAM}", 0o755)
    it.manual(f"{PROGRAM}.1")
    it.take(f"share/bash-completion/completions/{PROGRAM}", f"usr/share/bash-completion/completions/{PROGRAM}")
    it.take(f"share/zsh/site-functions/_{PROGRAM}", f"usr/share/zsh/vendor-completions/_{PROGRAM}")
    it.take(f"share/fish/vendor_completions.d/{PROGRAM}.fish", f"usr/share/fish/vendor_completions.d/{PROGRAM}.fish")
    for page in ("FORMATS.md", "PROVED.md"):
        it.take(f"share/doc/otp/{page}", f"{it.doc}/{page}")
    it.examples(PROGRAM)
    it.excuse(FIRST)
    it.build()


def daemon(release):
    it = Package(
        release, DAEMON, Section="admin",
        Description="supervise processes by the rules of Erlang/OTP\n A supervisor of real processes, with nested supervisors, restart intensity\n"
        " and shutdown in reverse order with deadlines. Its decisions are those of\n a core of its own.",
    )
    it.take(f"bin/{DAEMON}", f"usr/bin/{DAEMON}", 0o755)
    it.manual(f"{DAEMON}.1")
    it.take(f"lib/systemd/system/{DAEMON}@.service", f"lib/systemd/system/{DAEMON}@.service")
    it.take("share/doc/otp/OTP-PROCS.md", f"{it.doc}/README.md")
    it.examples(DAEMON)
    os.makedirs(it.path(f"etc/{DAEMON}"))
    for name, text in SCRIPTS.items():
        it.control(name, "#!/bin/sh\nset -e\n" + text, 0o755)
    it.excuse(
        FIRST,
        (f"shared-library-lacks-prerequisites [usr/bin/{DAEMON}]", "It is linked statically, so it runs also as process 1 of a container."),
        ("maintainer-script-calls-systemctl [prerm:*]", "It asks whether systemd runs; a service for each tree has no name that a helper could be told."),
    )
    it.build()


def library(release):
    name = f"lib{LIBRARY}{release.interface}"
    about = "\n What happened goes in, orders come out: start this, ask that to stop, kill a\n third. Nothing here reads a clock, starts a process or takes a lock."
    it = Package(
        release, name, Section="libs", Depends="libc6 (>= 2.14)", Multi_Arch="same",
        Description="supervision trees of Erlang/OTP (shared library)" + about,
    )
    it.take(f"lib/{soname(release)}", f"usr/lib/{ARCHITECTURE}/{soname(release)}")
    it.control("shlibs", f"lib{LIBRARY} {release.interface} {name}\n")
    it.control("triggers", "activate-noawait ldconfig\n")
    it.excuse(FIRST)
    it.build()
    development(release, name, it.version, about)


def development(release, shared, version, about):
    it = Package(
        release, f"lib{LIBRARY}-dev", Section="libdevel", Depends=f"{shared} (= {version}), libc6-dev", Multi_Arch="same",
        Description="supervision trees of Erlang/OTP (development)" + about,
    )
    folder = f"usr/lib/{ARCHITECTURE}"
    it.take(f"lib/lib{LIBRARY}.a", f"{folder}/lib{LIBRARY}.a")
    os.symlink(soname(release), it.path(f"{folder}/lib{LIBRARY}.so"))
    it.take(f"include/{LIBRARY}/otp.h", f"usr/include/{LIBRARY}/otp.h")
    with open(f"{release.folder}/lib/pkgconfig/{LIBRARY}.pc", encoding="utf-8") as file:
        text = file.read().replace("prefix=${pcfiledir}/../..", "prefix=/usr").replace("${prefix}/lib\n", f"${{prefix}}/lib/{ARCHITECTURE}\n")
    put(it.path(f"{folder}/pkgconfig/{LIBRARY}.pc"), text)
    it.examples("c")
    it.take("share/doc/otp/EMBEDDING.md", f"{it.doc}/EMBEDDING.md")
    it.excuse(FIRST)
    it.build()


def make(release):
    program(release)
    daemon(release)
    library(release)
