#!/usr/bin/env python3
"""Rewrites a bundle of an earlier form to the form with four files and four ends (document 02, notes 6 and 11).

    rewrite.py OLD NEW                  the form of four files, without ends: all four become 0
    rewrite.py --one-image OLD NEW      the form before note 6: one image, segments of 4 words, binds of 3

Of one image file 0 is made, the other three files are empty, and every file number is 0. A bundle that was not as long as
its counts say stays as many bytes too short or too long.
"""
import struct
import sys

ENDS = bytes(32)


def with_ends(old):
    """The new form of one of four files, or None where it has not even its counts."""
    return old[:56] + ENDS + old[56:] if len(old) >= 56 else None


def rewritten(old):
    """The new form of one image, or None where the tables do not lie in it."""
    if len(old) < 40:
        return None
    segments, rebases, binds, n = struct.unpack_from("<4Q", old)
    sizes = 32 * segments, 120, 16 * rebases, 24 * binds
    if 40 + sum(sizes) > len(old):
        return None
    at, parts = 40, []
    for size in sizes:
        parts.append(old[at:at + size])
        at += size
    out = [struct.pack("<7Q", segments, rebases, binds, n, 0, 0, 0), ENDS, old[32:40]]
    out += [parts[0][i:i + 32] + bytes(8) for i in range(0, sizes[0], 32)]
    out += parts[1:3]
    out += [parts[3][i:i + 24] + bytes(8) for i in range(0, sizes[3], 24)]
    return b"".join(out) + old[at:]


def main(args):
    form = rewritten if args[:1] == ["--one-image"] else with_ends
    args = args[form is rewritten:]
    if len(args) != 2:
        sys.exit(__doc__)
    with open(args[0], "rb") as source:
        new = form(source.read())
    if new is None:
        sys.exit("rewrite.py: the tables do not lie in the bundle")
    with open(args[1], "wb") as out:
        out.write(new)


if __name__ == "__main__":
    main(sys.argv[1:])
