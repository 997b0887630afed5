"""A second reader of universal files, from fat.h, machine.h and loader.h: a list of all parts first, then a choice among them."""
import collections
import struct

Part = collections.namedtuple("Part", "cputype cpusubtype offset size")
MASK, ANY = 0xFF000000, 0xFFFFFFFF
ARM64 = (0x0100000C, 0)


def parts(data):
    """All parts of a universal file; None of a thin one; 16 where the table does not lie in the file."""
    entry = {b"\xca\xfe\xba\xbe": ">IIIII", b"\xca\xfe\xba\xbf": ">IIQQII"}.get(data[:4])
    if entry is None:
        return None
    if len(data) < 8:
        return 16
    (count,) = struct.unpack_from(">I", data, 4)
    if 8 + count * struct.calcsize(entry) > len(data):
        return 16
    return [Part(*row[:4]) for row in struct.iter_unpack(entry, data[8:8 + count * struct.calcsize(entry)])]


def whole(data):
    """A thin file as a part."""
    kind, sub = (int.from_bytes(data[k:k + 4], "little") if len(data) >= k + 4 else 0 for k in (4, 8))
    return Part(kind, sub, 0, len(data))


def is_of(part, arch):
    return part.cputype == arch[0] and (arch[1] == ANY or part.cpusubtype & ~MASK == arch[1] & ~MASK)


def find(data, arch):
    """The part of an architecture, or with None the one that is taken without one: a part, "absent" or 16."""
    all_parts = parts(data)
    if all_parts == 16:
        return 16
    if all_parts is None:
        other = arch is not None and data[:4] == b"\xcf\xfa\xed\xfe" and not is_of(whole(data), arch)
        return "absent" if other else whole(data)
    of = [p for p in all_parts if is_of(p, arch or ARM64)]
    if arch is None:
        of += [p for p in all_parts if p.cputype & 0x01000000]
    if not of:
        return "absent"
    return of[0] if of[0].offset + of[0].size <= len(data) else 16


def told(data, i):
    """Part i."""
    all_parts = parts(data)
    if all_parts == 16:
        return 16
    if all_parts is None:
        all_parts = [whole(data)]
    return all_parts[i] if i < len(all_parts) else "absent"
