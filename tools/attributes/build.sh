#!/bin/sh
# build.sh [RUST]: target/attributes/compare, attribute strings through the crate `attributes` and through the Rust's parser. The crate is built
# without its proofs (tools/face). RUST is the folder that holds the Rust's src/; left out it is $RUST_SRC, or else ../shared/docs/src.
set -eu
here=$(cd "$(dirname "$0")" && pwd)
root=$(cd "$here/../.." && pwd)
rust=${1:-${RUST_SRC:-$root/../shared/docs/src}}/src
out=$root/target/attributes
if [ ! -f "$rust/objc/property.rs" ]; then
    echo "no $rust/objc/property.rs: tools/attributes/build.sh RUST (or RUST_SRC) names the folder of darwinscope's source" >&2
    exit 2
fi
"$root/tools/face/build.sh" "$here/face.txt" "$out" "$root" reads pointers attributes
cp "$here/compare.rs" "$out/main.rs"
cp "$rust/objc/property.rs" "$out/property.rs"
echo 'pub fn parse(s: &str) -> ParsedAttributes<'"'_"'> { parse_attributes(s) }' >>"$out/property.rs"
rustc --edition 2024 -O -C overflow-checks=on -C debug-assertions=on -C link-arg="$out/face.o" -o "$out/compare" "$out/main.rs"
echo "built target/attributes/compare"
