#!/bin/sh
# build.sh [TREE]: target/frames/compare, starts marked by the crate `frames` of a working tree (this one if left out), built without its proofs
# (tools/face), and by brute force over pairs.
set -eu
here=$(cd "$(dirname "$0")" && pwd)
root=$(cd "$here/../.." && pwd)
tree=$(cd "${1:-$root}" && pwd)
out=$root/target/frames
"$root/tools/face/build.sh" "$here/face.txt" "$out" "$tree" reads frames
rustc --edition 2024 -O -C overflow-checks=on -C link-arg="$out/face.o" -o "$out/compare" "$here/compare.rs"
echo "built target/frames/compare"
