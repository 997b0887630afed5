#!/bin/sh
# build.sh [TREE]: target/usage, the crate `usage` of a working tree (this one if left out) for a host, built without its proofs (tools/face), and
# target/usage/driver.
set -eu
here=$(cd "$(dirname "$0")" && pwd)
root=$(cd "$here/../.." && pwd)
tree=$(cd "${1:-$root}" && pwd)
out=$root/target/usage
"$root/tools/face/build.sh" "$here/face.txt" "$out" "$tree" reads pointers records walks frames ranges listing marking printing used usage
cc -O2 -Wall -o "$out/driver" "$here/driver.c" "$out/face.o" -pthread
echo "built target/usage/libface.so, target/usage/driver"
