#!/bin/sh
# build.sh [RUST]: target/fixups/compare, files with chained fixups through the crate `fixups`, through a second reader, and through the Rust's
# `chained_rebases` and `imports`; and target/fixups/release, the same for release, for timing. The crate is built without its proofs (tools/face).
# RUST is the folder that holds the Rust's src/; left out it is $RUST_SRC, or else ../shared/docs/src.
set -eu
here=$(cd "$(dirname "$0")" && pwd)
root=$(cd "$here/../.." && pwd)
rust=${1:-${RUST_SRC:-$root/../shared/docs/src}}/src
out=$root/target/fixups
for f in binary.rs fixup.rs util.rs ptrauth.rs; do
    if [ ! -f "$rust/$f" ]; then
        echo "no $rust/$f: tools/fixups/build.sh RUST (or RUST_SRC) names the folder of darwinscope's source" >&2
        exit 2
    fi
done
"$root/tools/face/build.sh" "$here/face.txt" "$out" "$root" reads pointers macho fixups
cp "$here/compare.rs" "$out/main.rs"
cp "$here/reader.rs" "$here/files.rs" "$here/mach.rs" "$here/others.rs" "$out/"
for f in binary fixup util ptrauth; do cp "$rust/$f.rs" "$out/"; done
rustc --edition 2024 -O -C overflow-checks=on -C debug-assertions=on -C link-arg="$out/face.o" -o "$out/compare" "$out/main.rs"
rustc --edition 2024 -C opt-level=3 -C codegen-units=1 -C link-arg="$out/face.o" -o "$out/release" "$out/main.rs"
echo "built target/fixups/compare and target/fixups/release"
