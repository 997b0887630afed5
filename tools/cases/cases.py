#!/usr/bin/env python3
"""Makes bundles for comparing listers. Each is decided by its number alone.

    cases.py NUMBER OUT             writes one bundle
    cases.py --many FIRST COUNT DIR writes DIR/NUMBER.bundle for COUNT numbers
    cases.py --names                prints the number and name of each edge

Numbers below the number of edges are the short bundles of edges.py, in order; the others are seeds: well-formed images,
damaged ones, ones at or past a question's edge, and tables without plan.
"""
import os
import random
import sys

from damage import Damage
from edges import edges
from image import M64, Bundle, well_formed
import refusals

_edges = None


def edge_list():
    global _edges
    if _edges is None:
        _edges = list(edges())
    return _edges


def without_plan(rng):
    """Tables and an image of small numbers without plan; only the length is right."""
    b = Bundle()
    n = rng.choice([0, 1, 8, 40, 72, 200, 1000])
    small = [0, 8, 16, 24, 32, 40, 48, 64, 100, 104, 200]
    b.image = bytearray(rng.choice([0, 0, 0, 1, 8, 16, 24, 0x41]) for _ in range(n))
    b.segments = [(rng.choice([0, 8, 16, 0x1000]), rng.choice([0, 8, n, 4096, 1 << 40]), rng.choice([0, 0, 0, 8, n]),
                   rng.choice([0, 8, n, 4096, 1 << 40])) for _ in range(rng.randrange(5))]
    b.sections = [(rng.choice([0, 1, 1]), rng.choice(small), rng.randrange(n + 1)) for _ in range(5)]
    b.rebases = [(rng.choice(small), rng.choice(small)) for _ in range(rng.randrange(20))]
    for _ in range(rng.randrange(10)):
        at = rng.randrange(n + 1)
        b.binds.append((rng.choice(small), at, rng.randrange(n - at + 1)))
    b.info = (rng.randrange(1 << 32), rng.randrange(1 << 32))
    return b.pack()


def ends(rng, starts):
    """The four ends of a seed (document 02, note 11): all 0, or ranges about a start, or without plan; some with a range whose
    first end exceeds its second."""
    x = rng.random()
    if x < 0.3:
        return 0, 0, 0, 0
    if x < 0.9 and starts:
        def span():
            return rng.choice([0, 0, 1, 3, 0x10, 0xFFF, 0x3FFF, 1 << 32, 1 << 47])
        slide, slides = rng.choice([0, 0, 1, 0x1000, 0x4000, rng.randrange(1 << 40), 1 << 63]), span()
        frame = rng.choice(starts) + slide + rng.choice([0, 0, 1, -1, 4, -0x10, slides, rng.randrange(1 << 12)])
        out = frame, frame + span(), slide, slide + slides
    else:
        words = [0, 0, 1, 2, 0x1000, 0x2000, 1 << 47, 1 << 63, M64 - 1, M64]
        out = tuple(rng.choice(words) for _ in range(4))
    out = tuple(min(max(end, 0), M64) for end in out)
    return out if rng.random() < 0.95 else (*out[:2][::-1], *out[2:][::-1])


def seeded(seed):
    """What was done, and the bundle."""
    rng = random.Random(seed)
    x = rng.random()
    if x < 0.03:
        return "without plan", without_plan(rng)
    bundle, builder = well_formed(rng)
    bundle.ends = ends(random.Random("ends %d" % seed), builder.starts())
    if x < 0.25:
        return "well-formed", bundle.pack()
    if x >= 0.97:
        return "length", refusals.length(rng, bundle)
    if x >= 0.94:
        return "tables", refusals.tables(rng, bundle)
    damage = Damage(rng, bundle, builder)
    if x < 0.56:
        for _ in range(rng.choice([1, 1, 2, 2, 3, 4, 6, 10])):
            damage.some()
    else:
        for _ in range(rng.choice([1, 1, 1, 2])):
            damage.directed()
    if rng.random() < 0.95:
        del bundle.segments[64:]
    bundle.fit()
    return ", ".join(damage.done), bundle.pack()


def named(number):
    """The name and the bundle of a number."""
    known = edge_list()
    return known[number] if number < len(known) else seeded(number)


def case(number):
    return named(number)[1]


def name(number):
    return named(number)[0]


def write(path, data):
    with open(path, "wb") as out:
        out.write(data)


def main(args):
    if args == ["--names"]:
        for number, (text, _) in enumerate(edge_list()):
            print(number, text)
    elif len(args) == 4 and args[0] == "--many":
        os.makedirs(args[3], exist_ok=True)
        for number in range(int(args[1]), int(args[1]) + int(args[2])):
            write(os.path.join(args[3], "%d.bundle" % number), case(number))
    elif len(args) == 2:
        write(args[1], case(int(args[0])))
    else:
        sys.exit(__doc__)


if __name__ == "__main__":
    main(sys.argv[1:])
