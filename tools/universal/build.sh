#!/bin/sh
# build.sh [TREE]: target/universal, the crate `universal` of a working tree (this one if left out) for a host, built without its proofs (tools/face).
set -eu
here=$(cd "$(dirname "$0")" && pwd)
root=$(cd "$here/../.." && pwd)
tree=$(cd "${1:-$root}" && pwd)
"$root/tools/face/build.sh" "$here/face.txt" "$root/target/universal" "$tree" reads universal
echo "built target/universal/libface.so"
