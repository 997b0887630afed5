#!/usr/bin/env python3
"""change.py [--lib LIB] [--jobs J] [--step K] COUNT [FIRST]: the law of the ranges used, tried on COUNT bundles that open: compare.py's, every K-th
from number FIRST on (the first seed).

The law (document 02, note 13): two images that both open, with files of equal lengths, the same tables and image info and the same bytes in the
ranges, listed under the same reading and ends, have equal listings and ranges. So for each bundle:

- outside: each byte of a file that lies in no range is changed, one at a time; then all of them at once, eight times, in four of them without those
  of bind names that no lookup comes to. Such a name must stay UTF-8, or the image does not open: its bytes are changed to ASCII, and where it
  does not open all the same (`closed`) nothing is asked. The listing's text and the ranges must be what they were.
- inside: each byte of a range is changed, one at a time, to three others. Counted is, for each kind of read, how many bytes change something: the
  text, the ranges, or that the image opens. Not all do: the top bits of a slot do not count, nor does a slot whose address is not listed, as
  an ivar layout's. Of the bytes 2 to 7 of the counts of protocol lists, which make a list of a million slots, one a bundle is tried.

A bundle is listed under the reading that its number gives, with its ends; one that takes over 10 ms an answer (lists of a million slots) is left out.
The last line is `K bytes outside hold, B do not`; the status is 0 if all hold.
"""
import argparse
import collections
import functools
import multiprocessing
import random
import sys
import time

import compare
import lent
import ranges

library = None


class Image:
    """A bundle that opens, and where its files' bytes stand in it."""

    def __init__(self, data, new):
        self.data, self.new = data, new
        self.tables = ranges.Tables(data)
        self.at, self.place = [], {}
        at = self.tables.files_at
        for file, content in enumerate(self.tables.files):
            self.at.append(at)
            self.place.update(((file, k), at + k) for k in range(len(content)))
            at += len(content)
        began = time.perf_counter()
        self.said = self.answer(data)
        self.seconds = time.perf_counter() - began
        self.used = {(f, o + k) for f, o, n in self.said[0] for k in range(n)}
        self.named = {(f, o + k) for _, o, n, f in self.tables.binds for k in range(n)}

    def answer(self, data):
        """Ranges and text; of a bundle that does not open the number."""
        found = library.ranges(data, self.new)
        return found if isinstance(found, int) else (found, library.text(data, self.new))

    def changed(self, new):
        """What the library says with other bytes at some positions: `same`, `other` or `closed`."""
        data = bytearray(self.data)
        for at, byte in new:
            data[at] = byte
        now = self.answer(bytes(data))
        return "closed" if isinstance(now, int) else "same" if now == self.said else "other"


def another(image, rng, place):
    """Another byte for a place; one of ASCII for one of a bind name's, so that it stays UTF-8."""
    byte, values = image.data[image.place[place]], 128 if place in image.named else 256
    return rng.choice([x for x in range(values) if x != byte])


def outside(image, rng, seen, wrong):
    free = [place for place in image.place if place not in image.used]
    for place in free:
        told = image.changed([(image.place[place], another(image, rng, place))])
        seen["outside, " + told] += 1
        seen["outside, in a bind name"] += place in image.named
        if told == "other":
            wrong.append(place)
    calm = [place for place in free if place not in image.named]
    for k in range(8 if free else 0):
        told = image.changed([(image.place[place], another(image, rng, place)) for place in (calm if k % 2 == 0 else free)])
        seen["all outside at once, " + told] += 1
        if told == "other":
            wrong.append("all")


def inside(image, rng, seen):
    kinds, high = collections.defaultdict(set), set()
    for (file, offset, length), what in ranges.Reader(image.tables, not image.new).listing().used.items():
        for k in range(length):
            kinds[file, offset + k] |= what
        if "protocol list" in what:
            high.update((file, offset + k) for k in range(2, 8))
    tried = {rng.choice(sorted(high))} if high else set()
    for place in sorted(image.used):
        if place in high - tried:
            seen["inside, left out: bytes 2 to 7 of the count of a protocol list"] += 1
            continue
        at = image.place[place]
        told = [image.changed([(at, image.data[at] ^ x)]) for x in ((0x01,) if place in high else (0x01, 0x80, 0xFF))]
        other = any(t != "same" for t in told)
        seen["inside, changes something" if other else "inside, changes nothing"] += 1
        for kind in kinds[place]:
            seen["  " + kind, other] += 1
        if len(kinds[place]) == 1:
            seen["  " + min(kinds[place]) + ", alone", other] += 1


def change(path, number):
    global library
    library = library or lent.Library(path)
    seen, lines = collections.Counter(), []
    data = compare.bundle(number)
    new = number // 4 % 2 == 0
    if data is None or isinstance(library.ranges(data, new), int):
        return None
    image, rng, wrong = Image(data, new), random.Random(number), []
    if image.seconds > 0.01:
        return collections.Counter({"left out, over 10 ms for one answer": 1}), [], False
    outside(image, rng, seen, wrong)
    inside(image, rng, seen)
    seen["bundles"] += 1
    seen["bundles, " + ("new" if new else "old") + " reading"] += 1
    seen["bundles over files"] += sum(map(bool, image.tables.files)) > 1
    if wrong:
        lines.append("%d (%s): other listing or ranges after a change at %s" % (number, compare.cases.name(number // 2), wrong[:10]))
    return seen, lines, True



def broken(total):
    return total["outside, other"] + total["all outside at once, other"]


def main():
    ap = argparse.ArgumentParser()
    ap.add_argument("--lib", default=lent.PATH)
    ap.add_argument("--jobs", type=int, default=1)
    ap.add_argument("--step", type=int, default=1, help="from one number to the next (1)")
    ap.add_argument("count", type=int)
    ap.add_argument("first", nargs="?", type=int, default=None)
    a = ap.parse_args()
    first = 2 * len(compare.cases.edge_list()) if a.first is None else a.first
    total, left, last = collections.Counter(), a.count, first
    with multiprocessing.get_context("fork").Pool(a.jobs) as pool:
        while left:     # as many as open; others are not counted
            batch = range(last, last + a.step * left, a.step)
            last = batch.stop
            for seen, lines, tried in filter(None, pool.imap(functools.partial(change, a.lib), batch)):
                total.update(seen)
                left -= tried
                print(*lines, sep="\n", end="\n" if lines else "", flush=True)
                print("%d bundles left; %d bytes outside hold, %d do not" % (left, total["outside, same"], broken(total)), file=sys.stderr)
    for k in sorted(k for k in total if isinstance(k, str)):
        print(k, total[k])
    print("of the bytes inside, by what is read there (a byte of several reads counts for each; alone: of that one only):")
    for kind in sorted({k[0] for k in total if isinstance(k, tuple)}):
        print("%s: %d change something, %d do not" % (kind, total[kind, True], total[kind, False]))
    print("%d bytes outside hold, %d do not" % (total["outside, same"], broken(total)))
    return broken(total) > 0


if __name__ == "__main__":
    sys.exit(main())
