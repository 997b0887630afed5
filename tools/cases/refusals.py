"""Bundles that a question refuses. A bundle can reach 13, 2, 18, 3, 7 and 14, and 23 by its ends: it is too short for 1, 5 and 6,
and holds the 8 bytes of 4; the program lends the index of 8. 9 to 12 are about what a caller lends later."""
import struct

from damage import NOT_UTF8, U64
from image import M64


def tables(rng, bundle):
    """2, 18, 3, 7 or 14, or the bundle at the edge of one, sometimes several at once."""
    for _ in range(rng.choice([1, 1, 1, 2, 3])):
        n = len(bundle.image)
        k = rng.randrange(7)
        i = rng.randrange(5)
        present, v, length = bundle.sections[i]
        if k == 0:
            while len(bundle.segments) < 64 + rng.choice([0, 1, 1, 2, 40]):
                bundle.segments.append((rng.choice(U64), rng.choice(U64), 0, 0))
        elif k == 1:
            bundle.sections[i] = (rng.choice([2, 3, 1 << 32, M64, 256]), v, length)
        elif k == 2:
            bundle.sections[i] = (rng.choice([1, 1, 0]), v, rng.choice([n + 1, M64, 1 << 63, n]))
        elif k == 3:
            at, length = rng.choice([n + 1, n, M64, M64 - 3, 0]), rng.choice([0, 1, 4, M64, n])
            bundle.binds.insert(rng.randrange(len(bundle.binds) + 1), (rng.choice(U64), at, length))
        elif k == 4:
            name = rng.choice(NOT_UTF8 + [b"ok", b"\xc3\xa9", b"\xf4\x8f\xbf\xbf", b"\xed\x9f\xbf", b"\xee\x80\x80"])
            bundle.binds.append((rng.choice(U64), n, len(name)))
            bundle.image.extend(name)
        elif k == 5:
            table = rng.choice([bundle.segments, bundle.binds])
            row = rng.choice(table)[:4 if table is bundle.segments else 3] if table else (0, 0, 0, 0)[:4 if table is bundle.segments else 3]
            table.insert(rng.randrange(len(table) + 1), (*row, rng.choice([0, 4, 5, 1 << 32, M64])))
        elif bundle.binds:
            j = rng.randrange(len(bundle.binds))
            slot, at, length = bundle.binds[j][:3]
            bundle.binds[j] = (slot, at, rng.choice([length + 1, n - at + 1, n - at, 0]) & M64)
    bundle.fit()
    return bundle.pack()


def length(rng, bundle):
    """13, or a bundle at its edge."""
    out = bytearray(bundle.pack())
    k = rng.randrange(7)
    if k == 0:
        return bytes(out[:rng.choice([0, 1, 8, 55, 56, 87, 96, 215, 216, len(out) - 1, len(out) - 8])])
    if k == 1:
        return bytes(out) + bytes(rng.choice([1, 8, 16, 100]))
    if k in (2, 3):     # a count changed; some products pass 64 bits and would come out right modulo 2^64
        i = rng.randrange(7)
        v = struct.unpack_from("<Q", out, 8 * i)[0]
        struct.pack_into("<Q", out, 8 * i, rng.choice([v + 1, v - 1, v + (1 << 59), v + (1 << 60), v + (1 << 61),
                                                       v ^ (1 << 63), M64, 0xFFFFFFFF, 0x100000000]) & M64)
        return bytes(out)
    if k == 4:          # counts that trade with each other: the length is right, the tables are others
        del bundle.image[len(bundle.image) // 40 * 40:]
        out = bytearray(bundle.pack())
        segments, rebases, binds, n = struct.unpack_from("<4Q", out)
        if n >= 40:
            struct.pack_into("<4Q", out, 0, segments + 1, rebases, binds, n - 40)
        return bytes(out)
    target = rng.choice([32767, 32768, 32768, 32769, 32776, 33000])
    bundle.image.extend(bytes(max(0, target - bundle.size())))
    return bundle.pack()
