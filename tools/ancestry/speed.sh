#!/bin/sh
# speed.sh: times `ancestries` on images of 10^3 to 10^5 classes, built without its proofs; results are compared with a plain computation.
set -eu
here=$(cd "$(dirname "$0")" && pwd)
out=$here/../../target/ancestry
"$here/build.sh" >/dev/null
rustc --edition 2024 -O -C link-arg="$out/face.o" -o "$out/speed" "$here/speed.rs"
uptime
"$out/speed"
uptime
