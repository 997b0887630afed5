#!/usr/bin/env python3
"""compare.py [--lib LIB] [COUNT [FIRST]]: files through the crate `universal` (LIB, which build.sh makes) and through the second reader.

Compared are the part taken without an architecture, the part of each of ten, and each part that is told, with the one after the last.
The last line is `K agree, D differ`; the status is 0 if all agree.
"""
import argparse
import collections
import ctypes
import os
import sys

import files
import second

ap = argparse.ArgumentParser()
ap.add_argument("--lib", default=os.path.join(os.path.dirname(os.path.abspath(__file__)), "../../target/universal/libface.so"))
ap.add_argument("count", nargs="?", type=int, default=200_000)
ap.add_argument("first", nargs="?", type=int, default=0)
a = ap.parse_args()
lib = ctypes.CDLL(a.lib)
word, out = ctypes.c_uint64, (ctypes.c_uint64 * 4)()
for f in (lib.face_find, lib.face_part):
    f.restype = word
lib.face_find.argtypes = [ctypes.c_char_p, word, word, word, ctypes.c_void_p]
lib.face_part.argtypes = [ctypes.c_char_p, word, word, ctypes.c_void_p]
WANTED = [None, (0x0100000C, 0), (0x0100000C, 2), (0x0100000C, 0xFF000002), (0x01000007, 3), (0x01000007, 8), (7, 3), (0x0200000C, 1), (1, 1),
          (0x0100000C, 0xFFFFFFFF), (0x01000007, 0xFFFFFFFF)]


def answer(k):
    """What the crate gave, as the second reader says it."""
    return second.Part(*out) if k == 0 else "absent" if k == 1 else k


def find(data, arch):
    cputype, cpusubtype = (2 ** 64 - 1, 0) if arch is None else arch
    return answer(lib.face_find(data, len(data), cputype, cpusubtype, out))


def all_told(data, part):
    """Every part that is told, up to the first that is none."""
    rows = []
    while not rows or isinstance(rows[-1], second.Part):
        rows.append(part(data, len(rows)))
    return rows


seen, agree, differ = collections.Counter(), 0, 0
for number in range(a.first, a.first + a.count):
    data = files.file(number)
    got = [find(data, w) for w in WANTED] + all_told(data, lambda d, i: answer(lib.face_part(d, len(d), i, out)))
    want = [second.find(data, w) for w in WANTED] + all_told(data, second.told)
    for g in got[:len(WANTED)]:
        seen["found" if isinstance(g, second.Part) else g] += 1
    if got == want:
        agree += 1
        continue
    differ += 1
    if differ < 6:
        print(f"file {number}, {data.hex()}: {got}, the second reader {want}")
print(", ".join(f"{k}: {n}" for k, n in sorted(seen.items(), key=str)))
print(f"{agree} agree, {differ} differ")
sys.exit(differ > 0)
