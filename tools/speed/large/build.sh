#!/bin/sh
# build.sh [TREE]: target/large/NAME/libface.so of a working tree (this one if left out), for measure.sh, and target/large/speed, the host.
# The library is built without its proofs (tools/face). RUST: the folder of the Rust's sources (util.rs, ptrauth.rs, objc/);
# ../shared/docs/src/src beside the repository if left out.
set -eu
here=$(cd "$(dirname "$0")" && pwd)
root=$(cd "$here/../../.." && pwd)
tree=$(cd "${1:-$root}" && pwd)
rust=${RUST:-$root/../shared/docs/src/src}
out=$root/target/large/$(basename "$tree")
if [ ! -f "$rust/util.rs" ]; then
    echo "build.sh: no util.rs in $rust: RUST says where the Rust's sources are" >&2
    exit 2
fi
"$root/tools/face/build.sh" "$here/face.txt" "$out" "$tree" reads pointers records walks frames listing
echo "built ${out#"$root"/}/libface.so, without proofs"
# the host: the Rust unchanged, the stand-ins of tools/oracle, and the Rust again over a map that notes its lookups
src=$root/target/large/src
rm -rf "$src"
mkdir -p "$src/objc"
cp "$root"/tools/oracle/src/binary.rs "$root"/tools/oracle/src/bitflags.rs "$rust/util.rs" "$rust/ptrauth.rs" "$here"/host/*.rs "$src/"
cp "$root"/tools/oracle/src/objc/*.rs "$src/objc/"
for m in mod class method ivar property protocol category imageinfo section; do cp "$rust/objc/$m.rs" "$src/objc/"; done
cp -r "$src/objc" "$src/traced"
sed -i 's/std::collections::HashMap/crate::trace::HashMap/; s/crate::objc/crate::traced/; s/objc::/traced::/' "$src"/traced/*.rs
rustc --edition 2024 -C opt-level=3 -C codegen-units=1 -g -o "$root/target/large/speed" "$src/main.rs"
echo "built target/large/speed"
