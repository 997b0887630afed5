"""Images with classes whose chains end and loop in every way, by number. An image is a dict of what the calls are lent."""
import random
import struct

MASK = (1 << 48) - 1


def index_of(rebases, binds):
    """The index that opening leaves: heads and next words, records numbered from 1, 0 the end."""
    heads, nexts = [], []
    for table, width in ((rebases, 2), (binds, 4)):
        head, after = [0] * 4096, []
        for k in range(len(table) // width):
            c = table[width * k] // 8 % 4096
            after.append(head[c])
            head[c] = k + 1
        heads.append(head)
        nexts.append(after)
    return heads[0] + heads[1] + nexts[0] + nexts[1]


def image(number):
    rng = random.Random(number)
    # one or two files, up to four segments; addresses rise by file or not
    count = rng.choice([1, 1, 2, 3, 4])
    sizes = [rng.randrange(0x40, 0x400) for _ in range(2)]
    if rng.random() < 0.5:
        sizes[1] = 0
    files = [bytearray(rng.choice([0, 0, 0, 1, 0x10]) for _ in range(n)) for n in sizes]
    segments, spans, base = [], [], 0x1000
    for _ in range(count):
        f = rng.randrange(2) if sizes[1] else 0
        n = sizes[f]
        off = rng.randrange(0, max(1, n // 2))
        size = rng.randrange(0x28, n + 0x40)
        vm = base + rng.choice([0, 0, 8, 4])
        segments += [vm, size + rng.choice([0, 0, 0x20]), off, size, f]
        spans.append((vm, max(0, min(size, n - off)), f, off))
        base = vm + rng.choice([size + 0x40, size, 0x800, size // 2 + 8])
    if rng.random() < 0.03:
        segments[2] = 2 ** 64 - 8

    # classes: packed eight or forty bytes apart, so that some overlap
    spots = []
    for vm, size, f, off in spans:
        step = rng.choice([8, 16, 40, 40, 40])
        spots += [(vm + k, f, off + k) for k in range(0, size, step)]
    rng.shuffle(spots)
    spots = spots[:rng.choice([3, 6, 12, 25])]
    spots.sort()
    if not spots:
        spots = [(0x1000, 0, 0)]
    addresses = [s[0] for s in spots]
    rebases, binds = [], []

    def put(f, at, word):
        if 0 <= at and at + 8 <= len(files[f]):
            files[f][at:at + 8] = struct.pack("<Q", word)

    shape = rng.choice(["any", "any", "tree", "loops", "chain", "one loop", "self"])
    for k, (va, f, at) in enumerate(spots):
        if shape == "tree":
            above = addresses[rng.randrange(k)] if k and rng.random() < 0.8 else 0
        elif shape == "loops":
            above = addresses[rng.randrange(len(addresses))]
        elif shape == "chain":
            above = addresses[(k + 1) % len(addresses)] if k + 1 < len(addresses) or rng.random() < 0.5 else 0
        elif shape == "one loop":
            above = addresses[min(k + 1, 2, len(addresses) - 1)] if k < 2 else addresses[rng.randrange(min(3, len(addresses)))]
        elif shape == "self":
            above = va if rng.random() < 0.5 else addresses[rng.randrange(len(addresses))]
        else:
            above = rng.choice([0, va, addresses[rng.randrange(len(addresses))], addresses[rng.randrange(len(addresses))], rng.randrange(0x900, 0x4000), 0x123456789])
        way = rng.random()
        if way < 0.25:
            rebases += [va + 8, above]
            if rng.random() < 0.5:
                put(f, at + 8, rng.choice([0, above, 0x5000]))
        else:
            put(f, at + 8, above | rng.choice([0, 0, 0, 0xABCD << 48]))
        if rng.random() < 0.2:
            binds += [va + 8, 0, 0, 0]
            if rng.random() < 0.5:
                put(f, at + 8, 0)
        if rng.random() < 0.3:
            put(f, at, rng.choice([0, va, addresses[rng.randrange(len(addresses))]]))
    # the class lists: slots behind everything else, of another file or the first
    listed = [rng.choice(addresses) for _ in range(rng.randrange(0, 2 * len(addresses) + 1))] if rng.random() < 0.5 else list(addresses)
    if rng.random() < 0.3:
        listed = [a for a in listed if rng.random() < 0.6]
    if rng.random() < 0.4:
        listed += [rng.choice([0, 0x900, 0x7777777, addresses[0]])]
    if rng.random() < 0.4:
        rng.shuffle(listed)
    cut = rng.randrange(len(listed) + 1)
    list_at = 0x100000
    offset = len(files[0])
    files[0] += b"".join(struct.pack("<Q", a) for a in listed)
    if len(segments) // 5 < 64:
        segments += [list_at, 8 * len(listed), offset, 8 * len(listed), 0]
    sections = [0] * 15
    sections[0:3] = [1, list_at, 8 * cut]
    sections[3:6] = [1, list_at + 8 * cut, 8 * (len(listed) - cut)]
    index = index_of(rebases, binds)
    if rng.random() < 0.12 and rebases:
        # tables that were never opened: a head or a next word that does not fall
        for _ in range(rng.randrange(1, 4)):
            c = rng.choice([rebases[2 * rng.randrange(len(rebases) // 2)] // 8 % 4096, 8192 + rng.randrange(len(rebases) // 2)])
            index[c] = rng.choice([len(rebases) // 2 + 1, len(rebases) // 2, 2 ** 31, 0])
    return dict(first=bytes(files[0]), second=bytes(files[1]), segments=segments, sections=sections, info=bytes(8),
                rebases=rebases, binds=binds, index=index, addresses=addresses, rng=rng)
