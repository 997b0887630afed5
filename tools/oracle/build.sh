#!/bin/sh
# build.sh [RUST]: builds target/oracle/oracle out of the Rust at RUST, taken as it stands, and the stand-ins of src/;
# target/oracle/release, the same for release, without checks of overflow, for timing; and target/oracle/ended, for the
# new reading of texts: there objc/mod.rs takes read_cstr_at from ended.rs, which tests that a string ends and then calls the Rust's.
# RUST is the folder that holds the Rust's src/; default: $RUST_SRC, else ../shared/docs/src beside the repository.
set -eu
here=$(cd "$(dirname "$0")" && pwd)
root=$(cd "$here/../.." && pwd)
rust=${1:-${RUST_SRC:-$root/../shared/docs/src}}/src
out=$root/target/oracle
for f in util.rs ptrauth.rs objc/mod.rs; do
    if [ ! -f "$rust/$f" ]; then
        echo "no $rust/$f: the Rust is no part of this repository; tools/oracle/build.sh RUST (or RUST_SRC) names" >&2
        echo "the folder of darwinscope's source whose src/ has util.rs, ptrauth.rs and objc/" >&2
        exit 2
    fi
done
if ! command -v rustc >/dev/null; then
    echo "no rustc on the PATH: the oracle is built with it" >&2
    exit 2
fi
rm -rf "$out/src"
mkdir -p "$out/src/objc"
cp "$here"/src/*.rs "$out/src/"
cp "$here"/src/objc/*.rs "$out/src/objc/"
cp "$rust/util.rs" "$rust/ptrauth.rs" "$out/src/"
for m in mod class method ivar property protocol category imageinfo section; do
    cp "$rust/objc/$m.rs" "$out/src/objc/"
done
rustc --edition 2024 -O -C overflow-checks=on -C debug-assertions=on -o "$out/oracle" "$out/src/main.rs"
rustc --edition 2024 -C opt-level=3 -C codegen-units=1 -o "$out/release" "$out/src/main.rs"
sed 's/util::{read_cstr_at, /ended::read_cstr_at, util::{/' "$rust/objc/mod.rs" >"$out/src/objc/mod.rs"
if ! grep -q 'ended::read_cstr_at' "$out/src/objc/mod.rs" || grep -rl read_cstr_at "$out/src/objc" | grep -qv '/mod.rs$'; then
    echo "the Rust reads strings elsewhere than build.sh knows: target/oracle/ended was not built" >&2
    exit 1
fi
rustc --edition 2024 -O -C overflow-checks=on -C debug-assertions=on --cfg ended -o "$out/ended" "$out/src/main.rs"
echo "built target/oracle/oracle, target/oracle/release and target/oracle/ended"
