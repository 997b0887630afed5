#!/bin/sh
# build.sh: target/encodings, the crate `encodings` for a host, built without its proofs (tools/face).
set -eu
here=$(cd "$(dirname "$0")" && pwd)
root=$(cd "$here/../.." && pwd)
"$root/tools/face/build.sh" "$here/face.txt" "$root/target/encodings" "$root" reads pointers encodings
echo "built target/encodings/libface.so"
