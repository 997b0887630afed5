#!/usr/bin/env python3
"""Counts what listings show: line kinds, answers within them, refusals.

    coverage.py ORACLE FIRST COUNT [LIMIT]

runs the oracle over COUNT bundles of cases.py from number FIRST, at most LIMIT seconds each (20), and prints the table,
the rows that were computed apart, the slowest bundle and the faults.
"""
import os
import re
import shlex
import sys
import tempfile
import time
from collections import Counter

import cases
from lister import run

FIELDS = {"I": "nnn", "C": "nnnno", "M": "nnnno", "R": "nnnnt", "P": "nnnt", "K": "nnto", "m": "nttxnn", "v": "nttxnxx",
          "p": "ntt", "q": "nt", "E": "nn"}
LISTS = {"C": "class", "M": "metaclass", "P": "protocol", "K": "category"}
FORMS = ["legacy", "small indirect", "small direct"]

# What a run over enough cases is to show at least once.
WANTED = (["line " + letter for letter in "ICMRPKmvpqE"]
          + ["refused %d" % k for k in (2, 3, 7, 13, 14, 18, 23)]
          + ["%s list %d: %s" % (record, k, row) for record, rows in
             (("class", "mvpq"), ("metaclass", "mvpq"), ("protocol", "mmmmppq"), ("category", "mmqpp"))
             for k, row in enumerate(rows)]
          + ["method " + form for form in FORMS]
          + ["imp none, " + form for form in FORMS] + ["imp 0, small indirect", "imp 0, small direct"]
          + ["mark 0", "mark 1", "mark 2"]
          + ["types empty", "type empty", "attributes empty", "selector or name empty", "ivar offset none",
             "ivar offset 0", "alignment none", "aligned none", "aligned 0", "aligned 1", "superclass name none",
             "superclass name empty", "superclass name there", "class name none", "class name empty", "class name there",
             "class without R", "metaclass without R", "no record", "entries skipped", "more than 1000 entries settled",
             "more than 4096 bytes of listing"])


def fields(listing, at, kinds):
    """The fields of a line from its first space on, and where the next line begins. A text may hold spaces and line
    breaks, so its length decides."""
    out = []
    for kind in kinds:
        at += 1
        if kind in "ox" and listing[at:at + 1] == b"-":
            out.append(None)
            at += 1
            continue
        end = at
        while listing[end:end + 1] not in (b" ", b"\n", b":", b""):
            end += 1
        number = int(listing[at:end], 16)
        if kind in "to":
            at = end + 1 + number
            out.append(listing[end + 1:at])
        else:
            at = end
            out.append(number)
    if listing[at:at + 1] != b"\n":
        raise ValueError("a line that does not end")
    return out, at + 1


def count(listing, table):
    """Adds a listing to the table."""
    table["more than 4096 bytes of listing"] += len(listing) > 4096
    if listing.startswith(b"refused "):
        table["refused " + listing[8:].decode().strip()] += 1
        return
    at, record, rows, bare = 0, None, 0, None
    while at < len(listing):
        letter = chr(listing[at])
        got, at = fields(listing, at + 1, FIELDS[letter])
        table["line " + letter] += 1
        if letter in LISTS or letter == "E":
            if bare:
                table[bare + " without R"] += 1
            bare = LISTS[letter] if letter in "CM" else None
        if letter in LISTS:
            record = LISTS[letter]
        if letter in "CMK":
            whose, text = ("class" if letter == "K" else "superclass"), got[-1]
            table["%s name %s" % (whose, "none" if text is None else "there" if text else "empty")] += 1
        if letter == "R":
            bare = None
        if letter in "mvpq":
            table["%s list %d: %s" % (record, got[0], letter)] += 1
            table["selector or name empty"] += not got[1]
            rows += letter != "q"
        if letter == "m":
            form = FORMS[got[4]]
            table["method " + form] += 1
            table["types empty"] += not got[2]
            table["mark %d" % got[5]] += 1
            if not got[3]:
                table["imp %s, %s" % ("none" if got[3] is None else "0", form)] += 1
        if letter == "v":
            table["type empty"] += not got[2]
            if not got[3]:
                table["ivar offset " + ("none" if got[3] is None else "0")] += 1
            table["alignment none"] += got[5] is None
            table["aligned %s" % ("none" if got[6] is None else got[6])] += 1
        if letter == "p":
            table["attributes empty"] += not got[2]
        if letter == "E":
            table["no record"] += got[0] == 0
            table["entries skipped"] += got[1] - rows
            table["more than 1000 entries settled"] += got[1] > 1000


def show(table):
    """The table as text, wanted lines first, and the wanted ones that are missing."""
    names = WANTED + sorted(set(table) - set(WANTED))
    missing = [name for name in WANTED if not table[name]]
    lines = ["%12d  %s" % (table[name], name) for name in names if table[name] or name in WANTED]
    return lines + ["missing: " + (", ".join(missing) or "nothing")]


def main(args):
    if len(args) not in (3, 4):
        sys.exit(__doc__)
    command, first, end = shlex.split(args[0]) + ["--apart"], int(args[1]), int(args[1]) + int(args[2])
    limit = float(args[3]) if len(args) == 4 else 20
    table, faults, apart, slowest = Counter(), 0, 0, (0, None)
    with tempfile.TemporaryDirectory() as folder:
        path = os.path.join(folder, "bundle")
        for number in range(first, end):
            cases.write(path, cases.case(number))
            began = time.monotonic()
            listing, said, fault = run(command, path, limit)
            slowest = max(slowest, (time.monotonic() - began, number))
            if fault:
                faults += 1
                print("fault: %d (%s)" % (number, cases.name(number)), fault, flush=True)
                continue
            count(listing, table)
            apart += sum(int(k) for k in re.findall(r"(\d+) rows apart", said))
    print("\n".join(show(table)))
    print("%d rows computed apart; slowest: %d, %.1f s" % (apart, slowest[1], slowest[0]))
    print("%d bundles, %d faults" % (end - first, faults))
    return 1 if faults else 0


if __name__ == "__main__":
    sys.exit(main(sys.argv[1:]))
