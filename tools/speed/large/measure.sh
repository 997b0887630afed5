#!/bin/sh
# measure.sh NAME..: the builds target/large/NAME of build.sh beside the Rust, in turn in one process: opening and listing, CPU time of the thread, the
# least of the runs, at 10^3, 10^4 and 10^5 classes without rebases, at 10^5 also with a nlclslist of a tenth and with a shuffled list, and at 10^3 and 10^4 with rebases. Sums of all that is listed are compared first.
set -eu
cd "$(dirname "$0")/../../.."
libs=
for name in "$@"; do libs="$libs lib=target/large/$name/libface.so"; done
uptime
for row in "1000 101" "10000 15" "100000 3"; do
    set -- $row
    target/large/speed classes="$1" plain runs="$2" $libs
done
target/large/speed classes=100000 plain nonlazy=10 runs=3 $libs
target/large/speed classes=100000 plain shuffled runs=2 $libs
for row in "1000 61" "10000 5"; do
    set -- $row
    target/large/speed classes="$1" runs="$2" chains $libs
done
uptime
