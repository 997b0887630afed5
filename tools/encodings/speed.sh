#!/bin/sh
# speed.sh: times type_words on texts of 10, 1,000 and 100,000 bytes, built without its proofs.
set -eu
here=$(cd "$(dirname "$0")" && pwd)
out=$here/../../target/encodings
"$here/build.sh" >/dev/null
rustc --edition 2024 -O -C link-arg="$out/face.o" -o "$out/speed" "$here/speed.rs"
uptime
"$out/speed"
