#!/bin/sh
# Installs what lies beside this script: ./install.sh [PREFIX], usually /usr/local; DESTDIR is put before it.
# `./install.sh --remove [PREFIX]` takes the same files away, and nothing else.
set -eu
cd "$(dirname "$0")"
remove=
if [ "${1-}" = --remove ]; then
    remove=1
    shift
fi
prefix=${1:-/usr/local}
to=${DESTDIR-}$prefix
find bin lib include share ! -type d | while IFS= read -r it; do
    [ -z "$remove" ] || rm -f "$to/$it"
done
if [ "$remove" ]; then
    find bin lib include share -mindepth 1 -depth -type d | while IFS= read -r it; do
        # A folder that has something else in it stays.
        rmdir "$to/$it" 2>/dev/null || true
    done
    exit
fi
sha256sum -c --quiet SHA256SUMS
find bin lib include share -type d | while IFS= read -r it; do mkdir -p "$to/$it"; done
find bin lib include share ! -type d | while IFS= read -r it; do
    # A program that runs keeps its own file, as the new one comes in its place.
    rm -f "$to/$it"
    cp -P "$it" "$to/$it"
done
unit=lib/systemd/system/otp-procs@.service
sed "s|/usr/bin/otp-procs|$prefix/bin/otp-procs|" "$unit" >"$to/$unit"
# So that programs find the shared library at once.
[ -n "${DESTDIR-}" ] || ! command -v ldconfig >/dev/null || ldconfig 2>/dev/null || true
