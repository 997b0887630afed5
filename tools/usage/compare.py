#!/usr/bin/env python3
"""compare.py [--lib LIB] [--jobs J] COUNT [FIRST]: the ranges that a listing uses, by the crate `usage` (LIB, which build.sh makes) and by the second reader.

A number decides its bundle: an even one is half that number's of tools/cases (the edges first, then seeds), an odd one the same over several files,
by tools/files.py: lent four times, or beside others, or cut at segment borders. Each is taken under both readings; the result buffer has
words to spare or just enough, and one too few or none; a bundle with a list of over 1,000 protocols is taken once. Compared are the answer and
every word of the buffer. The last line is `K agree, D differ`; the status is 0 if all agree.
"""
import argparse
import collections
import functools
import multiprocessing
import os
import random
import sys

import lent
import ranges

here = os.path.dirname(os.path.abspath(__file__))
sys.path[:0] = [os.path.join(here, "../cases"), os.path.join(here, "..")]
import cases    # noqa: E402
import files    # noqa: E402

FILL = 0xA5A5A5A5A5A5A5A5
library = None


def bundle(number):
    """The bundle of a number; none where its case cannot be laid over files so."""
    data = cases.case(number // 2)
    if number % 2 == 0:
        return data
    b, rng = files.unpacked(data), random.Random(number)
    if b is None or len(b.image) == 0:
        return None
    how = number // 2 % 3
    if how == 2:
        cut = files.parts(rng, b)
        laid = files.split(b, *cut) if cut else None
    else:
        laid = (files.copies, files.moved)[how](rng, b)
    return laid and laid.pack()


def large(data):
    """Whether a protocol list counts more than 1,000 slots, each of which the crate tries at each pass."""
    try:
        t = ranges.Tables(data).ask()
    except ranges.Refused:
        return False
    read = ranges.Reader(t, old=True).listing().used.items()
    return any("protocol list" in what and int.from_bytes(t.files[f][o:o + n], "little") > 1000 for (f, o, n), what in read)


def asked(data, new, room):
    """The answer and the buffer after it, which has more words than are lent."""
    for k in range(room + 4):
        library.out[k] = FILL + k
    answer = library.ranges(data, new, room)
    return (answer if isinstance(answer, int) else len(answer)), isinstance(answer, int), library.out[:room + 4]


def wanted(want, room):
    before = [FILL + k for k in range(room + 4)]
    if isinstance(want, int):
        return want, True, before
    if room < 3 * len(want):
        return 24, True, before
    return len(want), False, [w for r in want for w in r] + before[3 * len(want):]


def compare(path, numbers):
    global library
    library = library or lent.Library(path)
    seen, differ = collections.Counter(), []
    for number in numbers:
        data = bundle(number)
        if data is None:
            seen["not over files"] += 1
            continue
        bad, both = False, []
        slow = large(data)
        for new in (number // 2 % 2,) if slow else (1, 0):
            want = ranges.used_ranges(data, not new)
            both.append(want)
            need = 0 if isinstance(want, int) else 3 * len(want)
            for room in {need} if slow else {need + number % 3, max(need, 1) - 1 if number % 3 else 0}:
                got, expected = asked(data, new, room), wanted(want, room)
                seen["calls"] += 1
                seen["calls, 24"] += expected[:2] == (24, True)
                if got != expected and not bad:
                    bad = True
                    differ.append("%d (%s), reading %s, %d words: %s, wanted %s" % (
                        number, cases.name(number // 2), "new" if new else "old", room, told(got), told(expected)))
            if isinstance(want, int):
                continue
            seen["listings"] += 1
            seen["ranges"] += len(want)
            seen["bytes used"] += sum(r[2] for r in want)
            seen["bytes of files"] += sum(map(len, ranges.Tables(data).files))
            seen["with ranges in two files or more"] += len({r[0] for r in want}) > 1
            seen["most ranges"] = max(seen["most ranges"], len(want))
        seen["refused, %d" % both[0] if isinstance(both[0], int) else "opened"] += 1
        seen["other ranges under the old reading"] += both[0] != both[-1]
        seen["with a list of over 1,000 protocols"] += slow
        seen["agree"] += not bad
    return seen, differ


def told(answer):
    n, refused, words = answer
    return ("refused %d" % n if refused else "%d ranges" % n), words


def main():
    ap = argparse.ArgumentParser()
    ap.add_argument("--lib", default=lent.PATH)
    ap.add_argument("--jobs", type=int, default=1)
    ap.add_argument("count", type=int)
    ap.add_argument("first", nargs="?", type=int, default=0)
    a = ap.parse_args()
    cases.edge_list()       # made once, before the jobs divide
    batches = [range(k, min(a.first + a.count, k + 200)) for k in range(a.first, a.first + a.count, 200)]
    total, differ = collections.Counter(), []
    with multiprocessing.get_context("fork").Pool(a.jobs) as pool:
        for seen, lines in pool.imap(functools.partial(compare, a.lib), batches):
            most = max(total["most ranges"], seen["most ranges"])
            total.update(seen)
            total["most ranges"] = most
            differ += lines
            print(*(line[:2000] for line in lines[:20]), sep="\n", end="\n" if lines else "", flush=True)
            print("%d agree, %d differ so far" % (total["agree"], len(differ)), file=sys.stderr)
    for k in sorted(total):
        print(k, total[k])
    print("%d agree, %d differ" % (total["agree"], len(differ)))
    return bool(differ)


if __name__ == "__main__":
    sys.exit(main())
