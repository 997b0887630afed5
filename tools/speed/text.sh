#!/bin/sh
# text.sh [BEFORE]: times the text reads of target/staticlib/libreads.a (crates/reads_c) beside the Rust's two passes, by text.rs;
# and in the same run those of BEFORE, the libreads.a of another state. A loop of a few instructions takes up to twice as long where it lies across
# two lines of 64 bytes of the code, which no source decides: so each library is linked at four places, 16 bytes apart, and the mean is shown.
set -eu
before=${1:+$(cd "$(dirname "$1")" && pwd)/$(basename "$1")}
cd "$(dirname "$0")/../.."
f=reads_cstr_length_plus_one
out=target/speed
mkdir -p "$out" target/staticlib
(cd crates/reads_c && rt lib) >"$out/staticlib.log" 2>&1 || { echo "the library is not proved: see $out/staticlib.log" >&2; exit 1; }
cp crates/reads_c/out/libreads_c.a target/staticlib/libreads.a
set -- -O -o "$out/text" tools/speed/text.rs
# place NAME LIB: NAME_0.o to NAME_3.o, whose function NAME_k lies k * 16 bytes behind a multiple of 64.
place() {
    for k in 0 1 2 3; do
        printf '.section .note.GNU-stack,""\n.section .text.%s,"ax"\n.p2align 6\n.skip %d\n' "$f" $((64 + k * 16)) | as -o "$out/pad.o" -
        ld -r -o "$out/$1_$k.o" "$out/pad.o" --whole-archive "$2"
        objcopy --redefine-sym "$f=$1_$k" "$out/$1_$k.o"
    done
}
place now target/staticlib/libreads.a
for k in 0 1 2 3; do set -- "$@" -C "link-arg=$out/now_$k.o"; done
if [ -n "$before" ]; then
    place before "$before"
    for k in 0 1 2 3; do set -- "$@" -C "link-arg=$out/before_$k.o"; done
    set -- "$@" --cfg before
fi
rustc --check-cfg 'cfg(before)' "$@"
uptime
"$out/text"
