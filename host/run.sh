#!/bin/sh
# Lists the stored files through the command and holds the listings to those beside them; tries its words, refusals and statuses; runs the damage
# test in small; and builds and runs the examples (examples/run.sh): host/run.sh [COPIES]. Status 0 if all is as it should be.
root=$(cd "$(dirname "$0")/.." && pwd) || exit 2
cd "$root" || exit 2
host/build.sh || exit 2
out=target/host/out
bad=0
count=0

# try STATUS STDOUT STDERR WORDS..: the command with these words gives the status, the file STDOUT, and an error line that has STDERR in it.
try() {
    want=$1 listing=$2 line=$3
    shift 3
    count=$((count + 1))
    target/host/objclist "$@" >"$out" 2>"$out.err"
    got=$?
    same=1
    [ "$got" -eq "$want" ] || same=0
    cmp -s "$out" "$listing" || same=0
    if [ -n "$line" ]; then
        grep -qF -e "$line" "$out.err" || same=0
    else
        [ ! -s "$out.err" ] || same=0
    fi
    if [ "$same" -eq 0 ]; then
        echo "host/run.sh: $*: status $got for $want, or another listing than $listing, or without '$line' on standard error" >&2
        bad=$((bad + 1))
    fi
}

for listing in host/files/*.listing; do
    case $(cat "$listing") in
    refused*) try 1 "$listing" "$(cat "$listing"): " "${listing%.listing}" ;;
    *) try 0 "$listing" "" "${listing%.listing}" ;;
    esac
done
try 0 host/files/shapes-x86_64-opcodes.dylib.listing "" --arch x86_64 host/files/shapes.dylib
try 0 host/files/shapes-arm64.dylib.listing "" --arch arm64 host/files/shapes.dylib
try 1 /dev/null "it has x86_64 arm64" --arch arm64e host/files/shapes.dylib
try 1 /dev/null "it has x86_64" --arch arm64 host/files/app-x86_64
try 0 host/files/app-x86_64.marked "" --frames 100000800 100000810 --slides 0 20 host/files/app-x86_64
printf 'refused 23\n' >target/host/refused23
try 1 target/host/refused23 "refused 23: Is neither range" --frames 2 1 --slides 0 0 host/files/app-x86_64
printf 'refused 15\n' >target/host/refused15
: >target/host/empty
try 1 target/host/refused15 "refused 15: " target/host/empty
try 1 target/host/refused15 "refused 15: " README.md
try 2 /dev/null "usage: " --arch pdp11 host/files/shapes.dylib
try 2 /dev/null "usage: " --frames 1 2 host/files/shapes.dylib
try 2 /dev/null "usage: "
try 2 /dev/null "not a file" host
try 2 /dev/null "No such file" host/files/nothing
for full in host/files/app-x86_64 host/files/object.o; do
    target/host/objclist "$full" >/dev/full 2>"$out.err"
    if [ $? -ne 3 ] || ! grep -q 'could not be written' "$out.err"; then
        echo "host/run.sh: a failed write is not told: $full" >&2
        bad=$((bad + 1))
    fi
    count=$((count + 1))
done
if ! target/host/damage 1 "${1:-2000}" host/files/app-x86_64 host/files/shapes-x86_64.dylib host/files/shapes-x86_64-opcodes.dylib >"$out" 2>&1; then
    cat "$out" >&2
    echo "host/run.sh: the damage test failed" >&2
    bad=$((bad + 1))
fi
echo "host/run.sh: $count runs of the command and the damage test, $bad failed"
examples/run.sh || bad=$((bad + 1))
[ "$bad" -eq 0 ]
