#!/bin/sh
# Builds the examples against the library and holds what they print of each stored Mach-O file to its listing: the selectors of the m rows, or of a
# refused file its number. Status 0 if all is as it should be. Where there is no rustc, selectors.rs is left out.
root=$(cd "$(dirname "$0")/.." && pwd) || exit 2
cd "$root" || exit 2
host/build.sh || exit 2
library=target/staticlib
out=target/examples
mkdir -p "$out" || exit 2
cc -std=c11 -O2 -Wall -Wextra -Werror -o "$out/selectors.c.run" examples/selectors.c "$library/libface.a" || exit 2
examples=selectors.c
if command -v rustc >/dev/null 2>&1; then
    rustc --edition 2021 -O -D warnings -L "$library" -o "$out/selectors.rs.run" examples/selectors.rs || exit 2
    examples="selectors.c selectors.rs"
else
    echo "examples/run.sh: no rustc on the PATH: selectors.rs is not built and not run"
fi
bad=0
files=0
selectors=0
for listing in host/files/*.listing; do
    file=${listing%.listing}
    : >"$out/said"
    case $(cat "$listing") in
    refused*) want=1 && echo "$file: $(cat "$listing")" >"$out/said" ;;
    *) want=0 ;;
    esac
    sed -n 's/^m [0-9a-f]* [0-9a-f]*:\([^ ]*\) .*/\1/p' "$listing" >"$out/selectors"
    files=$((files + 1))
    selectors=$((selectors + $(wc -l <"$out/selectors")))
    for example in $examples; do
        "$out/$example.run" "$file" >"$out/printed" 2>"$out/printed.err"
        if [ $? -ne "$want" ] || ! cmp -s "$out/selectors" "$out/printed" || ! cmp -s "$out/said" "$out/printed.err"; then
            echo "examples/run.sh: $example: $file: another status than $want, or other selectors or words than of $listing" >&2
            bad=$((bad + 1))
        fi
    done
done
echo "examples/run.sh: $files files, $selectors selectors, by each of $examples: $bad failed"
[ "$bad" -eq 0 ] && [ "$selectors" -gt 0 ]
