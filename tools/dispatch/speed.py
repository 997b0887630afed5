#!/usr/bin/env python3
"""speed.py [--lib LIB] [--runs N]: times the effective methods of one class in images of 5,000 categories.

`rows` is the class's own rows and those of its categories, each selector of a category's row also one of the class's where there are enough.
Timed are a result buffer with room for every row, one with room for the selectors alone, and one that is a word too short (22).
"""
import argparse
import ctypes
import os
import struct
import time

here = os.path.dirname(os.path.abspath(__file__))
ap = argparse.ArgumentParser()
ap.add_argument("--lib", default=os.path.join(here, "../../target/dispatch/libface.so"))
ap.add_argument("--runs", type=int, default=5)
a = ap.parse_args()
lib = ctypes.CDLL(a.lib)
lib.face_open.restype = lib.face_effective.restype = ctypes.c_uint64
U64, U32 = ctypes.c_uint64, ctypes.c_uint32
BASE = 0x100000000


class Image:
    def __init__(self):
        self.data = bytearray(8)

    def take(self, size):
        self.data.extend(bytes(-len(self.data) % 8 + size))
        return BASE + len(self.data) - size

    def words(self, va, *values):
        struct.pack_into("<%dQ" % len(values), self.data, va - BASE, *values)

    def text(self, b):
        va = BASE + len(self.data)
        self.data += b + b"\0"
        return va

    def methods(self, selectors):
        va = self.take(8 + 24 * len(selectors))
        struct.pack_into("<2I", self.data, va - BASE, 24, len(selectors))
        for j, s in enumerate(selectors):
            self.words(va + 8 + 24 * j, s, s, 0)
        return va


def image(own, taking, each, categories=5000):
    im = Image()
    names = [im.text(b"selector%06d:" % k) for k in range(own + taking * each)]
    name = im.text(b"Name")
    ro, cls, other = im.take(72), im.take(40), im.take(40)
    im.words(ro + 24, name, im.methods(names[:own]))
    im.words(cls + 32, ro)
    listed, step = [], max(1, categories // max(taking, 1))
    given = 0
    for k in range(categories):
        part = k % step == 0 and given < taking
        if part:
            first = given * each // 2
            methods = im.methods([names[(first + i) % len(names)] for i in range(each)])
            given += 1
        else:
            methods = im.methods(names[:1])
        c = im.take(48)
        im.words(c, name, cls if part else other, methods)
        listed.append(c)
    slots = im.take(8 * categories)
    im.words(slots, *listed)
    return bytes(im.data), slots, cls


def timed(own, taking, each):
    data, slots, cls = image(own, taking, each)
    segments = (U64 * 5)(BASE, len(data), 0, len(data), 0)
    sections = (U64 * 15)(*[0] * 6, 1, slots, 8 * 5000, *[0] * 6)
    index = (U32 * 8192)()
    empty = (U64 * 0)()
    args = [data, U64(len(data)), b"", U64(0), b"", U64(0), b"", U64(0), segments, U64(5), sections, U64(15), bytes(8), U64(8), empty, U64(0), empty, U64(0), index, U64(8192)]
    assert lib.face_open(*args) == 0
    rows = own + taking * each
    count = lib.face_effective(*args, U64(cls), U64(0), U64(1), (U64 * (4 * rows))(), U64(4 * rows))
    out = []
    for room in (4 * rows, 4 * count, 4 * count - 1):
        words, best = (U64 * room)(), []
        for _ in range(a.runs):
            began = time.perf_counter()
            got = lib.face_effective(*args, U64(cls), U64(0), U64(1), words, U64(room))
            best.append(time.perf_counter() - began)
            if best[-1] > 3:
                break
        out.append("%.1f ms%s" % (1000 * min(best), "" if got < 2 ** 32 else " (22)"))
    print(f"{rows} rows, {own} of the class and {each} of each of {taking} categories, {count} selectors: {', '.join(out)}", flush=True)


for own, taking, each in ((1000, 20, 10), (200, 1000, 1), (5000, 20, 10), (200, 5000, 1)):
    timed(own, taking, each)
