#!/usr/bin/env python3
"""stack.py [COUNT [FIRST]]: the least stack, to 4 KiB, on which target/usage/driver gives the ranges of each of COUNT bundles (40) that open, from number
FIRST on (the first seed); of most bytes used if they differ. All is counted that the thread has, its own 4 KiB or so too."""
import os
import signal
import subprocess
import sys
import tempfile

import compare
import ranges

DRIVER = os.environ.get("DRIVER") or os.path.join(compare.here, "../../target/usage/driver")


def runs(path, pages):
    done = subprocess.run([DRIVER, "--stack", str(4096 * pages), path], capture_output=True)
    if done.returncode == 0:
        return True
    if done.returncode == -signal.SIGSEGV:
        return False
    sys.exit("stack.py: the driver ends with %d: %s" % (done.returncode, done.stderr.decode()))


def least(path):
    low, high = 4, 4096             # pages: too few, enough
    while high - low > 1:
        middle = (low + high) // 2
        low, high = (low, middle) if runs(path, middle) else (middle, high)
    return 4 * high


def main():
    left = int(sys.argv[1]) if len(sys.argv) > 1 else 40
    number = int(sys.argv[2]) if len(sys.argv) > 2 else 2 * len(compare.cases.edge_list())
    found = {}
    with tempfile.TemporaryDirectory() as folder:
        path = os.path.join(folder, "bundle")
        while left:
            data = compare.bundle(number)
            number += 1
            if data is None or isinstance(ranges.used_ranges(data), int):
                continue
            with open(path, "wb") as file:
                file.write(data)
            kib = least(path)
            found[kib] = found.get(kib, 0) + 1
            left -= 1
    print("least stack:", ", ".join("%d KiB for %d bundles" % (k, found[k]) for k in sorted(found)))


if __name__ == "__main__":
    main()
