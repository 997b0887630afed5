#!/usr/bin/env python3
"""numbers.py [--lib LIB] COUNT [FIRST]: the numbers that `used_ranges` meets on its way (9, 18, 7, 14), over tables that opening does not accept or an
index that it did not write.

A number decides its bundle (compare.py's), which opens; then words are damaged: links of the index, presence words and lengths of sections, file
numbers, the file numbers and names of binds, bytes of bind names. `used_ranges` must give the number that refuses a step of the listing over
the same tables, and ranges where none does. The last line is `K agree, D differ`; the status is 0 if all agree.
"""
import argparse
import collections
import ctypes
import random
import sys

import compare
import lent
import ranges

U64, U32 = ctypes.c_uint64, ctypes.c_uint32
ROOM = 3 * 16384


def damage(rng, t, index, files, segments, sections, binds):
    """Some words changed."""
    how = rng.randrange(6)
    links = [k for k, w in enumerate(index) if w] or [0]
    if how in (0, 1):
        for _ in range(rng.choice([1, 1, 3, 20])):
            index[rng.choice(links)] = rng.choice([0, 1, len(index) - 8192, rng.randrange(len(index) - 8192 + 3), 0xFFFFFFFF])
    elif how == 2 and binds:
        for _ in range(rng.choice([1, 5, 40])):
            binds[4 * rng.randrange(len(binds) // 4) + 3] = rng.choice([0, 1, 2, 3, 4, 1 << 32])
    elif how == 3 and binds:
        for _ in range(rng.choice([1, 5, 40])):
            binds[4 * rng.randrange(len(binds) // 4) + rng.choice([1, 2])] = rng.choice([0, 1 << 20, (1 << 64) - 1, len(files[0])])
    elif how == 4 and t.binds:
        for _ in range(rng.choice([1, 5, 40])):
            _, offset, length, file = rng.choice(t.binds)
            if length and file < 4 and offset + length <= len(files[file]):
                files[file][offset + rng.randrange(length)] = rng.choice([0x80, 0xC3, 0xFF])
    elif how == 5 and rng.random() < 0.3:
        sections[3 * rng.randrange(5) + rng.choice([0, 2])] = rng.choice([2, 1 << 40])
    elif segments and rng.random() < 0.1:
        segments[5 * rng.randrange(len(segments) // 5) + 4] = rng.choice([4, 1])


def main():
    ap = argparse.ArgumentParser()
    ap.add_argument("--lib", default=lent.PATH)
    ap.add_argument("count", type=int)
    ap.add_argument("first", nargs="?", type=int, default=2 * len(compare.cases.edge_list()))
    a = ap.parse_args()
    lib = ctypes.CDLL(a.lib)
    for f in (lib.face_open, lib.face_ranges, lib.face_steps):
        f.restype = U64
    out = (U64 * ROOM)()
    seen, differ = collections.Counter(), 0
    for number in range(a.first, a.first + a.count):
        data, rng = compare.bundle(number), random.Random(number)
        try:
            t = ranges.Tables(data or b"").ask()
        except ranges.Refused:
            seen["not opened before the damage"] += 1
            continue
        if compare.large(data):
            seen["left out, a list of over 1,000 protocols"] += 1
            continue
        files = [bytearray(f) for f in t.files]
        segments, sections, rebases, binds = ([w for row in rows for w in row] for rows in (t.segments, t.sections, t.rebases, t.binds))
        index = (U32 * (8192 + len(t.rebases) + len(t.binds)))()

        def args():
            out = []
            for f in files:
                out += [bytes(f), U64(len(f))]
            for w in (segments, sections):
                out += [(U64 * len(w))(*w), U64(len(w))]
            out += [t.info, U64(8)]
            for w in (rebases, binds):
                out += [(U64 * len(w))(*w), U64(len(w))]
            return out + [index, U64(len(index))]
        if lib.face_open(*args()):
            raise SystemExit("numbers.py: opening and the second reader do not agree on %d" % number)
        damage(rng, t, index, files, segments, sections, binds)
        lent_now, new = args(), rng.randrange(2)
        ledger = (U64 * (2 * 32768))()
        refused = lib.face_steps(*lent_now, U64(new), ledger, U64(len(ledger)))
        got = lib.face_ranges(*lent_now, U64(new), out, U64(ROOM))
        said = got - (2 ** 64 - 1001) if got > 2 ** 64 - 1001 else 0
        seen["refused, %d" % refused if refused else "not refused"] += 1
        if said != refused:
            differ += 1
            print("%d: used_ranges %s, the listing %s" % (number, said, refused))
    for k in sorted(seen):
        print(k, seen[k])
    total = sum(n for k, n in seen.items() if k.startswith(("refused", "not refused")))
    print("%d agree, %d differ" % (total - differ, differ))
    return differ > 0


if __name__ == "__main__":
    sys.exit(main())
