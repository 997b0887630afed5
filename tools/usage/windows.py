#!/usr/bin/env python3
"""windows.py [--lib LIB] COUNT [FIRST]: ranges over several windows of 2 MiB, by the crate `usage` and by the second reader.

A number decides its bundle (compare.py's); gaps of about a multiple of 2 MiB are then put into its files, in front of a segment or anywhere, and what
stands behind moves, so that used bytes lie at, over and far past the borders of windows. The last line is `K agree, D differ`; the status is 0 if
all agree.
"""
import argparse
import collections
import ctypes
import random
import sys

import compare
import lent
import ranges

U64, U32 = ctypes.c_uint64, ctypes.c_uint32
ROOM = 3 * 16384


def widened(rng, t):
    """The tables of t with gaps in the files."""
    for _ in range(rng.choice([1, 1, 2, 3])):
        k = rng.randrange(4)
        borders = [s[2] for s in t.segments if s[4] == k and s[2] <= len(t.files[k])] or [0]
        at = rng.choice(borders) if rng.random() < 0.5 else rng.randrange(len(t.files[k]) + 1)
        gap = rng.choice([1, 1, 2]) * (1 << 21) - rng.choice([0, at, at + rng.randrange(64), rng.randrange(4096)])
        gap = max(gap, 1)
        byte = rng.choice([b"\0", b"\0", b"x"])
        t.files[k] = t.files[k][:at] + byte * gap + t.files[k][at:]

        def moved(offset, file):
            return offset + gap if file == k and offset >= at and offset < 1 << 40 else offset
        t.segments = [(*s[:2], moved(s[2], s[4]), *s[3:]) for s in t.segments]
        t.binds = [(b[0], moved(b[1], b[3]), *b[2:]) for b in t.binds]
    return t


def main():
    ap = argparse.ArgumentParser()
    ap.add_argument("--lib", default=lent.PATH)
    ap.add_argument("count", type=int)
    ap.add_argument("first", nargs="?", type=int, default=2 * len(compare.cases.edge_list()))
    a = ap.parse_args()
    lib = ctypes.CDLL(a.lib)
    lib.face_open.restype = lib.face_ranges.restype = U64
    out = (U64 * ROOM)()
    seen, differ = collections.Counter(), 0
    for number in range(a.first, a.first + a.count):
        data, rng = compare.bundle(number), random.Random(number)
        try:
            t = widened(rng, ranges.Tables(data or b"").ask()).ask()
        except ranges.Refused:
            seen["not opened"] += 1
            continue
        if compare.large(data):
            seen["left out, a list of over 1,000 protocols"] += 1
            continue
        args = []
        for f in t.files:
            args += [f, U64(len(f))]
        for rows in (t.segments, t.sections, None, t.rebases, t.binds):
            w = [w for row in rows for w in row] if rows is not None else None
            args += [t.info, U64(8)] if w is None else [(U64 * len(w))(*w), U64(len(w))]
        index = (U32 * (8192 + len(t.rebases) + len(t.binds)))()
        args += [index, U64(len(index))]
        new = rng.randrange(2)
        if lib.face_open(*args):
            raise SystemExit("windows.py: opening and the second reader do not agree on %d" % number)
        n = lib.face_ranges(*args, U64(new), out, U64(ROOM))
        flat = out[:3 * n] if n <= ROOM // 3 else []
        got, want = list(zip(flat[::3], flat[1::3], flat[2::3])), ranges.Reader(t, not new).listing().ranges()
        seen["ranges"] += len(want)
        seen["used bytes at offset 2 MiB or above"] += any(o + k > 1 << 21 for _, o, k in want)
        seen["a range over a border at a multiple of 2 MiB"] += any(o >> 21 != (o + k - 1) >> 21 for _, o, k in want)
        seen["agree"] += got == want
        if got != want:
            differ += 1
            print("%d: %s, wanted %s" % (number, got[:20], want[:20]))
    for k in sorted(seen):
        print(k, seen[k])
    print("%d agree, %d differ" % (seen["agree"], differ))
    return differ > 0


if __name__ == "__main__":
    sys.exit(main())
