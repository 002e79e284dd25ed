"""Builds otp-procs, linked statically: it runs on any Linux of this processor."""

import os

from common import DAEMON, ROOT, TARGET, run


def make(release):
    """The path of the daemon."""
    target = os.path.join(release.room, "target")
    cargo = os.environ.get("CARGO_HOME") or os.path.expanduser("~/.cargo")
    flags = ["-C target-feature=+crt-static", f"--remap-path-prefix={ROOT}=/otp", f"--remap-path-prefix={cargo}=/cargo"]
    how = {
        "OTP_LIBRARY": os.path.abspath(release.library), "CARGO_TARGET_DIR": target, "CARGO_INCREMENTAL": "0", "RUSTFLAGS": " ".join(flags),
        "CARGO_PROFILE_RELEASE_CODEGEN_UNITS": "1", "CARGO_PROFILE_RELEASE_STRIP": "symbols",
    }
    words = ["cargo", "build", "--offline", "--locked", "--release", "--quiet", "--bin", DAEMON, "--target", TARGET]
    run(words, cwd=os.path.join(ROOT, "embed", "rust"), env={**os.environ, **how})
    return os.path.join(target, TARGET, "release", DAEMON)
