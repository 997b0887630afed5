"""Generated files, thin and universal: a number decides its file, and about half are damaged."""
import random
import struct

ARCHS = [(0x0100000C, 0), (0x0100000C, 2), (0x0100000C, 0x80000002), (0x0100000C, 1), (0x01000007, 3), (0x01000007, 0x80000003),
         (0x01000007, 8), (0x0200000C, 1), (7, 3), (12, 9), (18, 0), (0x01000012, 0)]


def universal(g, wide):
    """A table, and parts after it one after another; some of their ranges pass the file's end."""
    count = g.choice([0, 1, 1, 2, 2, 2, 3, 3, 4, 6])
    at = 8 + (32 if wide else 20) * count
    table, body = b"", b""
    for _ in range(count):
        cputype, cpusubtype = g.choice(ARCHS)
        size = g.randrange(0, 20)
        offset = at + len(body)
        if g.randrange(12) == 0:
            offset, size = g.choice([(offset, size + 40), (offset + 60, size), (0, size), (2 ** 32 - 1, size), (offset, 2 ** 32 - 1)])
        if wide and g.randrange(12) == 0:
            offset, size = g.choice([(2 ** 64 - 1, size + 1), (2 ** 63, 2 ** 63), (offset + 2 ** 32, size), (offset, size + 2 ** 32)])
        table += struct.pack(">IIQQII" if wide else ">IIIII", cputype, cpusubtype, offset, size, 2, *([0] if wide else []))
        body += g.randbytes(g.randrange(0, 20) if g.randrange(6) == 0 else min(size, 40))
    return struct.pack(">II", 0xCAFEBABF if wide else 0xCAFEBABE, count) + table + body


def thin(g):
    magic = g.choice([0xFEEDFACF, 0xFEEDFACF, 0xFEEDFACF, 0xFEEDFACE, 0xCFFAEDFE, 0xBEBAFECA, 0])
    return struct.pack("<III", magic, *g.choice(ARCHS)) + g.randbytes(g.randrange(0, 30))


def file(number):
    g = random.Random(number)
    data = thin(g) if number % 8 == 0 else universal(g, number % 8 > 4)
    if g.randrange(2) == 0:
        return data
    how = g.randrange(4)
    if how == 0:
        return data[:g.randrange(len(data) + 1)]
    if how == 1 and len(data) > 7:
        return data[:4] + struct.pack(">I", g.choice([0, 1, 2, 3, 5, 7, 52, 0x80000000, 0xFFFFFFFF, 0x0CCCCCCD])) + data[8:]
    changed = bytearray(data)
    for _ in range(g.randrange(1, 4)):
        changed[g.randrange(len(changed))] ^= 1 << g.randrange(8)
    return bytes(changed)
