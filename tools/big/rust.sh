#!/bin/sh
# rust.sh FILE..: times the command and the Rust on large files: seconds and most memory of each, and whether the listings are the same. The Rust is the
# oracle (tools/oracle), built for release and for bundles of up to 256 MiB; it reads a bundle of the same tables, which tools/linked/compare.py makes, so
# that it opens, lists and prints, and follows no chain of fixups. RUST: as for tools/oracle/build.sh.
set -eu
here=$(cd "$(dirname "$0")" && pwd)
root=$(cd "$here/../.." && pwd)
out=$root/target/big
"$root/tools/oracle/build.sh" >/dev/null
mkdir -p "$out"
cp -r "$root/target/oracle/src" "$out/"
sed -i 's/32_768/268_435_456/g' "$out/src/bundle.rs"
rustc --edition 2024 -C opt-level=3 -C codegen-units=1 --cfg ended -o "$out/oracle" "$out/src/main.rs"
for file in "$@"; do
    python3 - "$root/tools/linked" "$file" "$out/bundle" <<'END'
import sys
sys.path.insert(0, sys.argv[1])
import compare
with open(sys.argv[2], "rb") as f, open(sys.argv[3], "wb") as g:
    g.write(compare.bundle(f.read()))
END
    /usr/bin/time -f "%U s, %M KiB: the command, $file" "$root/target/host/objclist" "$file" >"$out/ours"
    /usr/bin/time -f "%U s, %M KiB: the Rust" "$out/oracle" --bare <"$out/bundle" >"$out/theirs"
    if cmp -s "$out/ours" "$out/theirs"; then echo "the same listing"; else echo "the listings differ"; fi
done
