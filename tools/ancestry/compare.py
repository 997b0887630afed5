#!/usr/bin/env python3
"""compare.py [--lib LIB] [COUNT [FIRST]]: images through the crate `ancestry` (LIB, which build.sh makes) and through the second reader.

Of each image: the words in use of the ledger of a finished class walk; their records, with words to spare, just enough, one too few and none;
every class alone; the chain of some step by step; and a list of addresses that no walk gives. Every word of the buffer is compared. The last
line is `K agree, D differ`; the status is 0 if all agree.
"""
import argparse
import collections
import ctypes
import os
import sys

import images
import second

U64 = ctypes.c_uint64
ap = argparse.ArgumentParser()
ap.add_argument("--lib", default=os.path.join(os.path.dirname(os.path.abspath(__file__)), "../../target/ancestry/libface.so"))
ap.add_argument("count", nargs="?", type=int, default=20_000)
ap.add_argument("first", nargs="?", type=int, default=0)
a = ap.parse_args()
lib = ctypes.CDLL(a.lib)
for name in ("face_open", "face_walk", "face_ancestries", "face_ancestry", "face_up"):
    getattr(lib, name).restype = U64


def answer(n):
    if n > 2 ** 64 - 1500:
        return ("number", n - (2 ** 64 - 1001))
    return ("absent",) if n > 2 ** 64 - 2500 else ("value", n)


class Lent:
    def __init__(self, image):
        self.tables = []
        for k in ("first", "second"):
            self.tables += [image[k], U64(len(image[k]))]
        for k in ("segments", "sections"):
            self.tables += [(U64 * len(image[k]))(*image[k]), U64(len(image[k]))]
        self.tables += [image["info"], U64(8)]
        for k in ("rebases", "binds"):
            self.tables += [(U64 * len(image[k]))(*image[k]), U64(len(image[k]))]
        self.tables += [(ctypes.c_uint32 * len(image["index"]))(*image["index"]), U64(len(image["index"]))]

    def walk(self, room):
        ledger = (U64 * room)(*([77] * room))
        return answer(lib.face_walk(*self.tables, ledger, U64(room), U64(4 * room + 4))), list(ledger)

    def all(self, addresses, room):
        classes = (U64 * len(addresses))(*addresses)
        words = (U64 * (room + 3))(*(99 + k for k in range(room + 3)))
        n = lib.face_ancestries(*self.tables, classes, U64(len(addresses)), U64(len(addresses)), words, U64(room))
        return answer(n), list(words)

    def one(self, va):
        out = (U64 * 3)(5, 5, 5)
        got = answer(lib.face_ancestry(*self.tables, U64(va), out))
        return tuple(out) if got == ("value", 0) else got

    def up(self, va, steps):
        return answer(lib.face_up(*self.tables, U64(va), U64(steps)))


def wanted(said, room):
    before = [99 + k for k in range(room + 3)]
    if said[0] == "number":
        return said, before
    if room < 3 * len(said[1]):
        return ("number", 21), before
    return ("value", len(said[1])), [w for r in said[1] for w in r] + before[3 * len(said[1]):]


def member(up, va):
    """A class that meets itself going up."""
    at = up[va]
    for _ in range(len(up)):
        if at == va:
            return True
        at = up[at]
    return False


seen, differ = collections.Counter(), 0
for number in range(a.first, a.first + a.count):
    image = images.image(number)
    lent, reader, wrong = Lent(image), second.Reader(image), []
    met = reader.slots()
    rng = image["rng"]
    pool = image["addresses"] + [0, 0x900, 2 ** 64 - 16]
    lists = [[rng.choice(pool) for _ in range(rng.randrange(0, 30))]]
    slots = (image["sections"][2] + image["sections"][5]) // 8
    got, ledger = lent.walk(slots)
    if met is None:
        seen["walks refused"] += 1
        if got != ("number", 9):
            wrong.append(("walk", got))
    elif got[0] == "number":
        # a record that the walk decodes, a metaclass perhaps, is refused
        seen["walks refused"] += 1
        if got != ("number", 9) or all(reader.image["index"][k] == w for k, w in enumerate(images.index_of(image["rebases"], image["binds"]))):
            wrong.append(("walk", got))
        lists.append(met)
    else:
        seen["walks"] += 1
        if got != ("value", len(met)) or ledger[:len(met)] != met:
            wrong.append(("walk", got, ledger, met))
        lists.append(met)
    for addresses in lists:
        said = reader.all(addresses)
        seen["lists refused" if said[0] == "number" else "lists"] += 1
        if said[0] == "records":
            up = reader.graph(addresses)
            for va, r in zip([v for v in addresses if v in up], said[1]):
                seen["looping" if r[2] else "none above" if r[0] == 0 else "classes above"] += 1
                seen["looping, no member of the loop"] += r[2] and not member(up, va)
                seen["the last is not listed"] += r[0] > 0 and r[1] not in addresses
                seen["most above"] = max(seen["most above"], r[0])
        need = 3 * len(said[1]) if said[0] == "records" else 3 * len(addresses)
        for room in {need + number % 7, need, max(need, 1) - 1, 0}:
            got, want = lent.all(addresses, room), wanted(said, room)
            seen["calls"] += 1
            if want[0][0] == "number":
                seen[f"calls, {want[0][1]}"] += 1
            if got != want:
                wrong.append(("all", addresses, room, got, want))
    every = sorted(set(pool + (met or [])))
    told = reader.told(every)
    for va in every:
        want = told.get(va, ("absent",))
        if want == "refused":
            want = ("number", 9)
        got = lent.one(va)
        seen["alone"] += 1
        if got != want:
            wrong.append(("alone", hex(va), got, want))
    # steps of the chain of one class
    va = rng.choice(every)
    if va in told and told[va] != "refused":
        at, up = va, reader.graph([va])
        for steps in range(6):
            got = lent.up(va, steps)
            want = ("value", at) if at is not None else ("absent",)
            seen["steps"] += 1
            if got != want:
                wrong.append(("up", hex(va), steps, got, want))
            at = up[at] if at is not None else None
    if wrong:
        differ += 1
        if differ < 5:
            print("image", number, *wrong[:3], sep="\n  ")
for k in sorted(seen):
    print(k, seen[k])
print(f"{a.count - differ} agree, {differ} differ")
sys.exit(differ > 0)
