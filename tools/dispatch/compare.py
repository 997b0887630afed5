#!/usr/bin/env python3
"""compare.py [--lib LIB] [COUNT [FIRST]]: effective methods by the crate `dispatch` (LIB, which build.sh makes) and by the second reader.

Numbers that 4 divides are bundles of tools/cases, the others images of images.py. Every class of an image, its metaclass, the classes of its
categories and a few other addresses are asked for, on both sides and under both readings; the result buffer has words to spare, just
enough, one too few, and none. Compared are the answer and every word. The last line is `K agree, D differ`; the status is 0 if all agree.
"""
import argparse
import collections
import ctypes
import os
import struct
import sys

import images
import reader

here = os.path.dirname(os.path.abspath(__file__))
sys.path.insert(0, os.path.join(here, "../cases"))
import cases
from image import Bundle

ap = argparse.ArgumentParser()
ap.add_argument("--lib", default=os.path.join(here, "../../target/dispatch/libface.so"))
ap.add_argument("count", nargs="?", type=int, default=20_000)
ap.add_argument("first", nargs="?", type=int, default=0)
a = ap.parse_args()
lib = ctypes.CDLL(a.lib)
lib.face_open.restype = lib.face_effective.restype = ctypes.c_uint64
U64, U32 = ctypes.c_uint64, ctypes.c_uint32
ABSENT, REFUSED = 2 ** 64 - 2001, 2 ** 64 - 1001
WHY = {1: reader.UNREADABLE, 2: reader.OVERFLOW}


def bundle(number):
    """The tables of a bundle, and the addresses to ask for; none where its length is not what its counts say."""
    data = cases.case(number)
    if len(data) < Bundle.HEAD:
        return None
    counts = struct.unpack_from("<7Q", data)
    if max(counts) > 32768 or Bundle.HEAD + 40 * counts[0] + 16 * counts[1] + 32 * counts[2] + sum(counts[3:]) != len(data):
        return None
    at = [Bundle.INFO + 8]

    def table(rows, width):
        out = [struct.unpack_from("<%dQ" % width, data, at[0] + 8 * width * i) for i in range(rows)]
        at[0] += 8 * width * rows
        return out
    info = data[Bundle.INFO:Bundle.INFO + 8]
    segments, sections, rebases, binds = table(counts[0], 5), table(5, 3), table(counts[1], 2), table(counts[2], 4)
    files = []
    for n in counts[3:]:
        files.append(data[at[0]:at[0] + n])
        at[0] += n
    return (files, segments, sections, info, rebases, binds), [0]


class Lent:
    """The tables as they are lent, with an index that opening filled."""

    def __init__(self, tables):
        files, segments, sections, info, rebases, binds = tables
        words = [[w for row in t for w in row] for t in (segments, sections, rebases, binds)]
        self.index = (U32 * (8192 + len(rebases) + len(binds)))()
        arrays = [(U64 * len(w))(*w) for w in words]
        self.args = []
        for part, n in [(f, len(f)) for f in files] + [(arrays[0], len(words[0])), (arrays[1], 15), (info, 8), (arrays[2], len(words[2])), (arrays[3], len(words[3]))]:
            self.args += [part, U64(n)]
        self.args += [self.index, U64(len(self.index))]
        self.opened = lib.face_open(*self.args)

    def asked(self, va, side, new, room):
        words = (U64 * (room + 3))(*(99 + k for k in range(room + 3)))
        got = lib.face_effective(*self.args, U64(va), U64(side), U64(new), words, U64(room))
        if got < 2 ** 32:
            return ("methods", got), list(words)
        if got < REFUSED:
            return ("absent", WHY.get(got - ABSENT)), list(words)
        return ("number", got - REFUSED), list(words)


def wanted(answer, room):
    before = [99 + k for k in range(room + 3)]
    if answer[0] == "absent":
        return answer, before
    rows = answer[1]
    if room < 4 * len(rows):
        return ("number", 22), before
    return ("methods", len(rows)), [w for r in rows for w in r] + before[4 * len(rows):]


seen, differ = collections.Counter(), 0
for number in range(a.first, a.first + a.count):
    made = bundle(number // 4) if number % 4 == 0 else images.image(number)
    if made is None:
        seen["no tables"] += 1
        continue
    tables, addresses = made
    lent = Lent(tables)
    if lent.opened:
        seen["refused"] += 1
        continue
    files, segments, sections, info, rebases, binds = tables
    bad = False
    for new in (1, 0):
        t = reader.Tables(files, segments, sections, info, rebases, old=not new)
        more = []
        for present, vmaddr, length in sections[:2]:
            more += [t.slot_or_0((vmaddr + 8 * k) % 2 ** 64) for k in range(min(length // 8, 40) if present else 0)]
        more += [k[1] for k in t.categories()] + [t.slot_or_0(va) for va in more]
        for va in sorted(set(addresses + more)):
            for side in (0, 1):
                try:
                    answer = ("methods", t.effective(va, side))
                except reader.Absent as e:
                    answer = ("absent", e.why)
                seen[answer[0]] += 1
                if answer[0] == "methods":
                    seen["selectors"] += len(answer[1])
                    seen["of categories"] += sum(r[3] != va for r in answer[1]) if side == 0 else 0
                    seen["in another file"] += len({r[0] for r in answer[1]}) > 1
                need = 4 * len(answer[1]) if answer[0] == "methods" else 4
                for room in {need + number % 6, need, max(need, 1) - 1, 0}:
                    got, want = lent.asked(va, side, new, room), wanted(answer, room)
                    seen["calls"] += 1
                    seen[22] += want[0] == ("number", 22)
                    if got != want and not bad:
                        bad = True
                        print(f"{number}: class {va:x}, side {side}, reading {new}, {room} words: {got}, wanted {want}")
    differ += bad
print(f"{seen['methods']} classes with {seen['selectors']} selectors, {seen['of categories']} instance methods from categories;", end=" ")
print(f"{seen['in another file']} over two files or more; {seen['absent']} absent; 22 in {seen[22]} of {seen['calls']} calls;", end=" ")
print(f"{seen['refused']} images refused, {seen['no tables']} bundles without tables")
print(f"{a.count - differ} agree, {differ} differ")
sys.exit(differ > 0)
