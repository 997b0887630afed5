#!/bin/sh
# speed.sh [TREE]: the time of `used_ranges` beside that of the listing, at 10^3, 10^4 and 10^5 classes without rebases and at 10^3 and 10^4 with, and
# the least stack with which it runs. The crates of a working tree (this one if left out) are built without their proofs (build.sh); needs rustc.
set -eu
here=$(cd "$(dirname "$0")" && pwd)
root=$(cd "$here/../.." && pwd)
tree=$(cd "${1:-$root}" && pwd)
out=$root/target/usage
"$here/build.sh" "$tree"
"$root/tools/face/build.sh" "$root/tools/speed/large/face.txt" "$out/listing" "$tree" reads pointers records walks frames listing
rustc --edition 2024 -O -o "$out/speed" "$here/speed.rs"
run() { "$out/speed" "$out/listing/libface.so" "$out/libface.so" "$@"; }
uptime
run classes=1000 plain runs=21
run classes=10000 plain runs=3
run classes=1000 runs=11
run classes=10000 runs=1
run classes=100000 plain runs=1
"$here/stack.py"
uptime
