"""Lays out the folder that the tarball holds, and from which packages are made."""

import os
import re

import daemon
import library
import licences
import proof
from common import DAEMON, LIBRARY, PROGRAM, ROOT, copy, files_below, put, read, renamed, run, sum_of

# The worked examples: of which folder, and which files.
EXAMPLES = {
    "otp-tree": ("examples", ("nested.toml", "nested_given_up.script")),
    "otp-procs": (os.path.join("embed", "example"), ("tree.toml", "commands.toml", "web.py")),
    "c": (os.path.join("embed", "c"), ("supervise.c", "tree.toml")),
}
PAGES = ("CHANGELOG.md", "LICENSE-MIT", "LICENSE-APACHE", "docs/PROVED.md", "docs/FORMATS.md", "docs/EMBEDDING.md", "docs/RELEASE.md")


def programs(release):
    at = release.folder
    copy(daemon.make(release), f"{at}/bin/{DAEMON}", 0o755)
    copy(release.program, f"{at}/bin/{PROGRAM}", 0o755)
    run(["strip", "--strip-unneeded", f"{at}/bin/{PROGRAM}"])


def library_and_header(release):
    at = release.folder
    library.make(release, f"{at}/lib")
    text = read("release", f"{LIBRARY}.pc.in").replace("@VERSION@", release.version).replace("@INTERFACE@", release.interface)
    put(f"{at}/lib/pkgconfig/{LIBRARY}.pc", text)
    copy(os.path.join(ROOT, "embed", "c", "otp.h"), f"{at}/include/{LIBRARY}/otp.h")


def roff(text):
    """A text between `.nf` and `.fi`."""
    lines = text.replace("\\", "\\e").replace("-", "\\-").splitlines()
    return "\n".join(f"\\&{line}" if line.startswith((".", "'")) else line for line in lines)


def daemon_manual(release):
    """The daemon's page: what it says of itself."""
    path = f"{release.folder}/bin/{DAEMON}"
    general = run([path, "--help"])
    commands = list(dict.fromkeys(re.findall(rf"^  {DAEMON} (\w+) ", general, flags=re.M)))
    about = general.splitlines()[0].partition(": ")[2]
    out = [f'.TH {DAEMON.upper()} 1 "" "{DAEMON} {release.version}" "User commands"', ".SH NAME", f"{DAEMON} \\- {about}"]
    out += [".SH SYNOPSIS", ".nf", *(roff(line.strip()) for line in general.splitlines() if line.startswith(f"  {DAEMON}")), ".fi"]
    for command in commands:
        out += [f".SH {command.upper()}", ".nf", roff(run([path, command, "--help"]).rstrip()), ".fi"]
    out += [".SH FILES", "/etc/otp\\-procs/NAME/tree.toml and commands.toml are those of the service otp\\-procs@NAME."]
    return "\n".join(out) + "\n"


def words(release):
    """Manual pages and completions, in which the program has its name of a release."""
    share = f"{release.folder}/share"
    manual = renamed(read("man", "otp.1")).replace(".TH OTP 1", f".TH {PROGRAM.upper()} 1").replace("\notp \\-", f"\n{PROGRAM} \\-", 1)
    put(f"{share}/man/man1/{PROGRAM}.1", re.sub(r"(?m)^\.B otp ", f".B {PROGRAM} ", manual))
    put(f"{share}/man/man1/{DAEMON}.1", daemon_manual(release))
    bash, zsh, fish = (read("completions", name) for name in ("otp.bash", "_otp", "otp.fish"))
    name = PROGRAM.replace("-", "_")
    put(f"{share}/bash-completion/completions/{PROGRAM}", bash.replace("_otp", f"_{name}").replace(f"_{name} otp", f"_{name} {PROGRAM}"))
    put(f"{share}/zsh/site-functions/_{PROGRAM}", renamed(zsh.replace("#compdef otp", f"#compdef {PROGRAM}").replace("_otp", f"_{name}")))
    put(f"{share}/fish/vendor_completions.d/{PROGRAM}.fish", renamed(fish.replace("complete -c otp ", f"complete -c {PROGRAM} ")))


def pages(release, of_gate):
    doc = f"{release.folder}/share/doc/otp"
    for page in PAGES:
        text = read(page)
        put(f"{doc}/{os.path.basename(page)}", renamed(text.replace("./otp ", "otp ")) if page.endswith(".md") else text)
    copy(os.path.join(ROOT, "embed", "README.md"), f"{doc}/OTP-PROCS.md")
    for name, (folder, files) in EXAMPLES.items():
        for file in files:
            copy(os.path.join(ROOT, folder, file), f"{doc}/examples/{name}/{file}")
    put(f"{doc}/PROOF", proof.text(release, of_gate))
    licences.write(release, doc)


def make(release, of_gate):
    """Lays out all of it, and sums it up."""
    at = release.folder
    programs(release)
    library_and_header(release)
    words(release)
    pages(release, of_gate)
    copy(os.path.join(ROOT, "release", f"{DAEMON}@.service"), f"{at}/lib/systemd/system/{DAEMON}@.service")
    copy(os.path.join(ROOT, "release", "install.sh"), f"{at}/install.sh", 0o755)
    listed = [path for path in files_below(at) if not os.path.islink(f"{at}/{path}")]
    put(f"{at}/SHA256SUMS", "".join(f"{sum_of(os.path.join(at, path))}  {path}\n" for path in listed))
