#!/bin/sh
# build.sh [RUST]: target/macho/compare, files through the crate `macho`, through a second reader, and through the Rust's section search. The crate
# is built without its proofs (tools/face). RUST is the folder that holds the Rust's src/; left out it is $RUST_SRC, or else ../shared/docs/src.
set -eu
here=$(cd "$(dirname "$0")" && pwd)
root=$(cd "$here/../.." && pwd)
rust=${1:-${RUST_SRC:-$root/../shared/docs/src}}/src
out=$root/target/macho
if [ ! -f "$rust/objc/section.rs" ]; then
    echo "no $rust/objc/section.rs: tools/macho/build.sh RUST (or RUST_SRC) names the folder of darwinscope's source" >&2
    exit 2
fi
"$root/tools/face/build.sh" "$here/face.txt" "$out" "$root" reads pointers macho
cp "$here/compare.rs" "$out/main.rs"
cp "$here/reader.rs" "$here/files.rs" "$rust/objc/section.rs" "$out/"
rustc --edition 2024 -O -C overflow-checks=on -C debug-assertions=on -C link-arg="$out/face.o" -o "$out/compare" "$out/main.rs"
echo "built target/macho/compare"
