#!/bin/sh
# build.sh [RUST]: target/opcodes/compare, files with bind opcodes through the crate `opcodes` and through a second reader, and the streams that
# the Rust's `imports` names. The crate is built without its proofs (tools/face). Commands and segments are read by the second reader of
# tools/fixups, whose stand-ins for what binary.rs uses are taken too. RUST is the folder that holds the Rust's src/; left out it is $RUST_SRC, or
# else ../shared/docs/src.
set -eu
here=$(cd "$(dirname "$0")" && pwd)
root=$(cd "$here/../.." && pwd)
rust=${1:-${RUST_SRC:-$root/../shared/docs/src}}/src
out=$root/target/opcodes
for f in binary.rs fixup.rs util.rs ptrauth.rs; do
    if [ ! -f "$rust/$f" ]; then
        echo "no $rust/$f: tools/opcodes/build.sh RUST (or RUST_SRC) names the folder of darwinscope's source" >&2
        exit 2
    fi
done
"$root/tools/face/build.sh" "$here/face.txt" "$out" "$root" reads pointers macho fixups opcodes
cp "$here/compare.rs" "$out/main.rs"
cp "$here/opcodes.rs" "$here/files.rs" "$here/random.rs" "$out/"
for f in reader mach others; do cp "$root/tools/fixups/$f.rs" "$out/"; done
for f in binary fixup util ptrauth; do cp "$rust/$f.rs" "$out/"; done
rustc --edition 2024 -O -C overflow-checks=on -C debug-assertions=on -C link-arg="$out/face.o" -o "$out/compare" "$out/main.rs"
echo "built target/opcodes/compare"
