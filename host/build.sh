#!/bin/sh
# Builds target/host/objclist, which lists a Mach-O file, and target/host/damage (host/run.sh), where they are older than a source: rt proves the
# library and builds libface.a, which is copied to target/staticlib, and cc links the two with it. Needs the Rattle kit (rt) and cc, for x86-64
# Linux.
root=$(cd "$(dirname "$0")/.." && pwd) || exit 2
program=$root/target/host/objclist
log=$root/target/host.log
if [ -x "$program" ] && [ -x "$root/target/host/damage" ] && [ -f "$root/target/staticlib/libface.a" ] && [ -z "$(find "$root/crates" "$root/crates.txt" "$root/host" "$root/include" -name out -prune -o -newer "$program" -print | head -n 1)" ]; then
    exit 0
fi
for tool in rt cc; do
    if ! command -v "$tool" >/dev/null 2>&1; then
        echo "host/build.sh: no $tool on the PATH: the command that lists a Mach-O file is built with it (README.md)" >&2
        exit 2
    fi
done
[ ! -t 2 ] || echo "host/build.sh: proving and building the command; this takes some minutes" >&2
# A program is as new as the start of this, so that a source that changes meanwhile counts.
mkdir -p "$root/target/host" "$root/target/staticlib" && : >"$log.began" || exit 2
if ! (cd "$root/crates/face" && rt lib) >"$log" 2>&1; then
    echo "host/build.sh: the library is not proved: see $log" >&2
    exit 2
fi
cp "$root/crates/face/out/libface.a" "$root/target/staticlib/libface.a" || exit 2
for name in objclist damage; do
    if ! cc -std=c11 -O2 -Wall -Wextra -Werror -D_GNU_SOURCE -o "$root/target/host/$name" "$root/host/$name.c" "$root/target/staticlib/libface.a" >>"$log" 2>&1; then
        echo "host/build.sh: cc refused host/$name.c: see $log" >&2
        exit 2
    fi
    touch -r "$log.began" "$root/target/host/$name" || exit 2
done
