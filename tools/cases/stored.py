#!/usr/bin/env python3
"""Chooses bundles of cases.py, and stores them with the oracle's listings for crates/replay.

    stored.py [ORACLE [ENDED [FOLDER]]]

ORACLE is target/oracle/oracle, ENDED target/oracle/ended and FOLDER crates/replay if left out. Chosen are, the smallest where there is a choice:

- the edges of NAMED;
- of each family of edges both sides of each kind of boundary: two bundles next to each other, whose names differ in one
  number alone, with different listings. A family is a name without its numbers (a cut counts for what is cut and for the
  way), the kind of a boundary the letters of the lines that differ in more than what they say;
- for each damage a seed with that damage alone, whose listing is not that of the undamaged bundle, and a seed of each
  other sort;
- a bundle for each line of coverage.WANTED;
- the diamond and some seeds over several files, by the relations of tools/files.py: their answers are the oracle's for the
  same image in one file.

FOLDER/data/cases has the number of cases as a word, then for each case its title, which is its number and name, and its
bundle, each with its length in front as a word; words are little-endian. FOLDER/stdout has for each case the line
"# TITLE", ORACLE's listing, under the old reading of texts, and ENDED's, under the new.
"""
import os
import random
import re
import shlex
import struct
import sys
import tempfile
from collections import Counter, defaultdict

import cases
import coverage
from edges import ENDS, WAYS
from image import well_formed
from lister import run

ROOT = os.path.dirname(os.path.dirname(os.path.dirname(os.path.abspath(__file__))))
sys.path.insert(0, os.path.join(ROOT, "tools"))

import files                # noqa: E402

SEEDS = 16000
NAMED = ["diamond", "empty", "length 478", "length 480", "total 32768", "total 32769", "segments 65", "order 2",
         "order 4", "cut cell vmsize 1 0", "head methods 2f ffffffff", "list methods 1 at +1", "list ivars 1 at +1",
         "protocol names 100001", "bits word, bit 38", "bits word, bit 39", "chain 04213", "prefixes 0",
         "sections from 2^64 - 16", "ranges of UTF-8", "alignment 3", "alignment 100", "alignment ffffffff",
         "offset of 64 bits", "bound slot holds 0", "bound slot holds 1", "alignment word 3", "alignment word 28",
         "alignment word 3f", "alignment word 40", "alignment word ff", "alignment word 100", "alignment word fffffffe",
         "alignment word ffffffff", "ivar offset 0", "ivar offset 1", "ivar offset 8", "ivar offset 80000000",
         "bound name e228 at 0", "bound name e282 at 1", "names order 12", "names order 10",
         *["selector ends by " + how for how in ENDS], "types ends by image", "direct selector ends by image",
         "class name ends by image", "superclass name ends by nothing", "ivar name ends by bad byte",
         "ivar type ends by character", "property name ends by character", "attributes ends by nothing",
         "protocol name ends by image", "listed protocol name ends by image", "bound protocol name ends by nothing",
         "category name ends by whole character", "file 4 of a segment 1000 at 1", "file 4 of a segment 9000 at 1",
         "file ffffffffffffffff of a segment ffffffffffffffff at 0", "file 4 of a bind at 0", "file 4 of a bind at 1",
         "files order 2", "files order 6", "files order 8", "files order 24", "files order 56", "count 4 1", "ranges order 1", "ranges order 3",
         "ranges order 5", "ranges order 9", "end 1 2000", "end 1 2001", "end 2 1", "end 3 1", "end 1 ffffffffffffffff",
         "frames 0 0 0 slides 0 0", "frames 0 8 8 slides 0 0", "frames 0 8 9 slides 0 0", "frames 0 8 9 slides 0 1",
         "frames 0 4 c slides 1 8", "frames 0 1 4 slides 8 9", "frames 0 1 4 slides 4 9", "frames 1 1 4 slides 0 0",
         "frames 1 9 8 slides 0 0", "frames 1 0 0 slides 1 0", "frames 2 4 8 slides 0 4", "frames 3 0 c slides 0 c",
         "far frames 0 0 ffffffffffffffff slides 0 ffffffffffffffff"]
SPANNING = 24               # bundles over several files, of each relation of tools/files.py
LONG = ("texts", "alignments", "prefixes", "protocol names", "protocol list cap")   # long bundles, or long walks


def kinds(listing):
    """The kinds of a listing's lines: the letter, a row's list number and a method's kind, and of each other field
    whether it is none, empty or 0."""
    if listing.startswith(b"refused "):
        return {listing}
    at, out = 0, set()
    while at < len(listing):
        letter = chr(listing[at])
        got, at = coverage.fields(listing, at + 1, coverage.FIELDS[letter])
        kept = {"m": (0, 4, 5), "v": (0,), "p": (0,), "q": (0,), "I": None, "E": None}.get(letter, ())
        out.add((letter, *[x if x is None or i in kept else bool(x) for i, x in enumerate(got) if kept is not None]))
    return out


def boundaries(names, listings):
    """The pairs of edges at each kind of boundary of each family."""
    shown = [kinds(listing) for listing in listings]
    rows = defaultdict(list)
    for number, name in enumerate(names):
        words = re.findall(r"b?'(?:\\.|[^'])*'|[^\s,]+", name)
        places = [i for i, word in enumerate(words) if re.fullmatch("[+-]?[0-9a-f]+", word)]
        plain = [word for i, word in enumerate(words) if i not in places and "'" not in word]
        if words[0] == "cut":
            families = [" ".join(word for word in plain if word not in WAYS), *[w for w in plain if w in WAYS]]
        else:
            families = [" ".join(plain)]
        if " ".join(plain) not in LONG:
            for i in places:
                rows[i, *words[:i], *words[i + 1:]].append((number, families))
    found = defaultdict(list)
    for row in rows.values():
        for (a, families), (b, _) in zip(row, row[1:]):
            letters = frozenset(kind[0] for kind in shown[a] ^ shown[b])
            for family in families if listings[a] != listings[b] else ():
                found[family, letters].append((a, b))
    return found


def sorts(names, listings, list_bundle):
    """The seeds of each sort: well-formed, one damage alone that the listing shows, or one that is no damage."""
    found = defaultdict(list)
    for number in range(len(cases.edge_list()), len(names)):
        rng = random.Random(number)
        rng.random()            # with which cases.seeded chose the sort
        sort = names[number]
        if "," in sort or sort in LONG:
            continue
        if sort == "well-formed" or listings[number] != list_bundle(well_formed(rng)[0].pack()):
            found[sort].append((number,))
    return found


def choose(needs, sizes, chosen):
    """Adds for each need the choice that adds least, needs with few choices first."""
    for choices in sorted(needs.values(), key=len):
        chosen.update(min(choices, key=lambda numbers: (sum(sizes[n] for n in numbers if n not in chosen), numbers)))


def choice(list_bundle):
    """The chosen numbers, in order, and the listings of all bundles."""
    edges = len(cases.edge_list())
    names, bundles = zip(*[cases.named(number) for number in range(edges + SEEDS)])
    listings, sizes = [list_bundle(bundle) for bundle in bundles], [len(bundle) for bundle in bundles]
    chosen = {names.index(name) for name in NAMED}
    choose(boundaries(names[:edges], listings[:edges]), sizes, chosen)
    choose(sorts(names, listings, list_bundle), sizes, chosen)
    tables = [Counter() for _ in listings]
    for listing, table in zip(listings, tables):
        coverage.count(listing, table)
    for wanted in coverage.WANTED:
        showing = sorted((n not in chosen, sizes[n], n) for n, table in enumerate(tables) if table[wanted])
        chosen.update(n for _, _, n in showing[:1])
    return sorted(chosen), listings


def spanning(listings, list_bundle):
    """Titles, bundles and old listings of images over several files."""
    out, edges = [], len(cases.edge_list())
    for name in ("moved", "copies", "parts"):
        found = 0
        for number in [0, *range(edges, edges + SEEDS)]:
            b = files.unpacked(cases.case(number))
            if found == SPANNING or b is None or not b.image or len(b.pack()) > 6000 or listings[number].startswith(b"refused"):
                continue
            rng = random.Random(number)
            if name == "parts":
                cut = files.parts(rng, b)
                other = files.split(b, *cut) if cut and files.apart(b, cut, listings[number], list_bundle) else None
            else:
                other = getattr(files, name)(rng, b)
            if other:
                out.append(("%d %s, %s" % (number, cases.name(number), name), other.pack(), b.pack(), listings[number]))
                found += 1
    return out


def main(args):
    commands = [shlex.split(arg) for arg in args[:2]]
    commands += [[os.path.join(ROOT, "target", "oracle", name)] for name in ("oracle", "ended")[len(commands):]]
    folder = args[2] if len(args) > 2 else os.path.join(ROOT, "crates", "replay")
    with tempfile.TemporaryDirectory() as room:
        def lister(command):
            def list_bundle(bundle):
                path = os.path.join(room, "bundle")
                cases.write(path, bundle)
                listing, _, fault = run(command, path, 60)
                return listing if not fault else sys.exit("the oracle: " + fault)
            return list_bundle
        chosen, listings = choice(lister(commands[0]))
        # title, bundle, the bundle in one file, its listing under the old reading
        stored = [("%d %s" % (number, cases.name(number)), cases.case(number), cases.case(number), listings[number])
                  for number in chosen]
        stored += spanning(listings, lister(commands[0]))
        ended = [lister(commands[1])(whole) for _, _, whole, _ in stored]
    data, answers = [struct.pack("<Q", len(stored))], []
    for (title, bundle, _, old), new in zip(stored, ended):
        for part in (title.encode(), bundle):
            data += [struct.pack("<Q", len(part)), part]
        answers += [b"# ", title.encode(), b"\n", old, new]
    os.makedirs(os.path.join(folder, "data"), exist_ok=True)
    cases.write(os.path.join(folder, "data", "cases"), b"".join(data))
    cases.write(os.path.join(folder, "stdout"), b"".join(answers))
    print("%d cases, %d bytes; listings, %d bytes" % (len(stored), sum(map(len, data)), sum(map(len, answers))))


if __name__ == "__main__":
    main(sys.argv[1:])
