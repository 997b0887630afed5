#!/bin/sh
# build.sh [TREE]: target/dispatch, the crate `dispatch` of a working tree (this one if left out) for a host, built without its proofs (tools/face).
set -eu
here=$(cd "$(dirname "$0")" && pwd)
root=$(cd "$here/../.." && pwd)
"$root/tools/face/build.sh" "$here/face.txt" "$root/target/dispatch" "${1:-$root}" reads pointers records walks dispatch
echo "built target/dispatch/libface.so"
