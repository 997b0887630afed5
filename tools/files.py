#!/usr/bin/env python3
"""Lists images that span files (document 02, note 6) and compares the listings with that of the same image in one file.

    files.py [options] LISTER

LISTER reads a bundle on standard input. For each bundle of cases.py that one file lists, three relations are run:

- copies: the whole image is lent four times, and each segment and each bind has a file number from 0 to 3, at random. The
  listing is the same, always.
- moved: the image is file 1, 2 or 3, and the others are short. The listing is the same, always.
- parts: the image is cut at segment borders into two to four files, each segment and bind name in the file that holds its
  bytes, with its offset counted there. The listing is the same where no read crosses a border and no section is longer
  than the longest part. Whether a read crosses a border is tried with one file: bytes that were not there before are put
  between the parts, once zeros and once others, with each part in turn at the file's end; where that changes the listing the
  bundle is left out, and counted.

The last line is `K agree, D differ, L left out`; the status is 0 if all agree.
"""
import argparse
import os
import random
import shlex
import struct
import sys
import tempfile

ROOT = os.path.dirname(os.path.dirname(os.path.abspath(__file__)))
sys.path.insert(0, os.path.join(ROOT, "tools", "cases"))

import cases                        # noqa: E402
from image import Bundle            # noqa: E402
from lister import run              # noqa: E402


def unpacked(data):
    """The tables of a bundle of one file, or None."""
    if len(data) < Bundle.HEAD:
        return None
    segments, rebases, binds, n, *others = struct.unpack_from("<7Q", data)
    tables = Bundle.SEGMENT * segments + 16 * rebases + Bundle.BIND * binds
    if any(others) or Bundle.HEAD + tables + n != len(data):
        return None
    b = Bundle()
    b.ends = struct.unpack_from("<4Q", data, 8 * Bundle.COUNTS)
    b.info = struct.unpack_from("<2I", data, Bundle.INFO)
    at = Bundle.INFO + 8

    def rows(count, width):
        nonlocal at
        out = [struct.unpack_from("<%dQ" % width, data, at + 8 * width * i) for i in range(count)]
        at += 8 * width * count
        return out

    b.segments, b.sections = rows(segments, 5), rows(5, 3)
    b.rebases, b.binds = rows(rebases, 2), rows(binds, 4)
    b.image = bytearray(data[at:])
    if any(s[4] for s in b.segments) or any(x[3] for x in b.binds):
        return None
    return b


def over(b, images, segments, binds):
    """The bundle b over other images, with other segments and binds."""
    out = Bundle()
    out.ends, out.info, out.sections, out.rebases = b.ends, b.info, b.sections, b.rebases
    out.segments, out.binds = segments, binds
    out.image, out.others = bytearray(images[0]), [bytes(x) for x in [*images[1:], b"", b"", b""][:3]]
    return out if out.size() <= 32768 else None


def copies(rng, b):
    number = lambda row: (*row[:-1], rng.randrange(4))
    return over(b, [b.image] * 4, [number(s) for s in b.segments], [number(x) for x in b.binds])


def moved(rng, b):
    k = rng.randrange(1, 4)
    images = [bytes(rng.randrange(min(16, len(b.image)) + 1)) for _ in range(4)]
    images[k] = b.image
    return over(b, images, [(*s[:4], k) for s in b.segments], [(*x[:3], k) for x in b.binds])


def parts(rng, b):
    """The parts of the image as (first, end), and which of them each segment and bind name lies in."""
    n = len(b.image)
    borders = sorted({x for s in b.segments for x in (s[2], s[2] + s[3]) if 0 < x < n})
    if not borders:
        return None
    cuts = sorted(rng.sample(borders, min(len(borders), rng.randrange(1, 4))))
    spans = list(zip([0, *cuts], [*cuts, n]))

    def within(first, size):
        return next((k for k, (a, e) in enumerate(spans) if a <= first and first + size <= e), None)

    where = [within(s[2], s[3]) for s in b.segments], [within(x[1], x[2]) for x in b.binds]
    return None if None in where[0] + where[1] else (spans, *where)


def split(b, spans, segments, binds):
    moved = [(*s[:2], s[2] - spans[k][0], s[3], k) for s, k in zip(b.segments, segments)]
    named = [(x[0], x[1] - spans[k][0], x[2], k) for x, k in zip(b.binds, binds)]
    return over(b, [b.image[a:e] for a, e in spans], moved, named)


def spread(b, spans, segments, binds, gap, last):
    """One file, with bytes between the parts, and one of them at its end."""
    image, first = bytearray(), [0] * len(spans)
    for k in [*(k for k in range(len(spans)) if k != last), last]:
        a, e = spans[k]
        image += gap if image else b""
        first[k] = len(image) - a
        image += b.image[a:e]
    moved = [(*s[:2], s[2] + first[k], s[3], 0) for s, k in zip(b.segments, segments)]
    named = [(x[0], x[1] + first[k], x[2], 0) for x, k in zip(b.binds, binds)]
    return over(b, [image], moved, named)


def apart(b, cut, whole, listing):
    """Whether no read crosses a border, and no section is longer than the longest part."""
    gaps = bytes(256), bytes(range(1, 256)) + b"\0"
    tried = [spread(b, *cut, gap, last) for gap in gaps for last in range(len(cut[0]))]
    long = max(e - a for a, e in cut[0])
    return all(x and listing(x.pack()) == whole for x in tried) and all(s[2] <= long for s in b.sections if s[0])


def main():
    parser = argparse.ArgumentParser(description=__doc__, formatter_class=argparse.RawDescriptionHelpFormatter)
    parser.add_argument("--count", type=int, default=10000, help="bundles (10000)")
    parser.add_argument("--first", type=int, default=len(cases.edge_list()), help="number of the first bundle (the first seed)")
    parser.add_argument("lister", metavar="LISTER")
    options = parser.parse_args()
    command = shlex.split(options.lister)
    agree = differ = left = 0
    with tempfile.TemporaryDirectory() as folder:
        def listing(bundle):
            path = os.path.join(folder, "bundle")
            cases.write(path, bundle)
            out, _, fault = run(command, path, 60)
            return fault or out
        for number in range(options.first, options.first + options.count):
            b = unpacked(cases.case(number))
            if b is None or len(b.image) == 0:
                continue
            rng, whole = random.Random(number), listing(b.pack())
            if whole.startswith(b"refused"):
                continue
            pairs = [("copies", copies(rng, b)), ("moved", moved(rng, b))]
            cut = parts(rng, b)
            if cut and apart(b, cut, whole, listing):
                pairs.append(("parts", split(b, *cut)))
            elif cut:
                left += 1
            for name, other in pairs:
                if other is None:
                    continue
                if listing(other.pack()) == whole:
                    agree += 1
                else:
                    differ += 1
                    print("differs: %d (%s), %s" % (number, cases.name(number), name), flush=True)
    print("%d agree, %d differ, %d left out" % (agree, differ, left))
    return 1 if differ else 0


if __name__ == "__main__":
    sys.exit(main())
