#!/bin/sh
# The stored bundles listed through the calls of include/objclist.h alone, 1, 2, 3 and 64 rows a call, beside the listings that the program `replay` must
# write; marks are not compared: no call gives them. Then ROUNDS (20,000) damaged copies, with states of any content, beside pages that cannot be
# touched.
set -eu
cd "$(dirname "$0")/../.."
out=target/relist
mkdir -p "$out"
host/build.sh
cc -O2 -Wall -o "$out/relist" tools/relist/relist.c target/staticlib/libface.a
python3 tools/relist/unmarked.py <crates/replay/stdout >"$out/expected"
for room in 1 2 3 64; do
    "$out/relist" $room <crates/replay/data/cases >"$out/printed"
    cmp "$out/expected" "$out/printed"
    echo "relist: $(grep -ac '^#' "$out/printed") bundles, $(wc -l <"$out/printed") lines, $room rows a call: the same"
done
cc -O2 -Wall -o "$out/damage" tools/relist/damage.c target/staticlib/libface.a
"$out/damage" "${1:-20000}" 1 <crates/replay/data/cases
