#!/usr/bin/env python3
"""generate.py CLASSES OUT: a large arm64 dylib with chained fixups (DYLD_CHAINED_PTR_64_OFFSET), as a linker writes it.

Each class has 12 methods, 3 ivars and 3 properties with texts of their own length; its superclass is the class before it, every eighth's NSObject,
which is bound. That makes 62 fixups a class.
"""
import array
import struct
import sys

PAGE = 0x4000
METHODS, IVARS, PROPERTIES = 12, 3, 3
TYPES = [b"v16@0:8", b"@24@0:8@16", b"q16@0:8", b"v32@0:8@16@24", b"B24@0:8q16"]


def texts(n):
    """The bytes of all texts, and the offset of each by name."""
    out, at = bytearray(), {}

    def put(text):
        if text not in at:
            at[text] = len(out)
            out.extend(text + b"\0")
    for text in TYPES + [b"@\"NSString\"", b"T@\"NSString\",C,N,V_value"]:
        put(text)
    for k in range(4096):
        put(b"selector%dWithValue:other:" % k)
        put(b"_ivar%d" % k)
        put(b"property%d" % k)
    for k in range(n):
        put(b"Class%dOfTheLibrary" % k)
    return bytes(out), at


def data(n, base, text, code):
    """The words of the data segment, whose address is base; and its slots: those that hold an address, and those that are bound."""
    words, slots, bound = array.array("Q"), array.array("Q"), {}
    strings, at = text[0], text[1]

    def address(value):
        slots.append(len(words))
        words.append(value)

    def bind(ordinal):
        bound[len(words)] = ordinal
        slots.append(len(words))
        words.append(0)
    # A class's records: metaclass, class, their class_ro, methods, ivars with their offsets, properties.
    size = 5 + 5 + 9 + 9 + (1 + 3 * METHODS) + (1 + 4 * IVARS) + IVARS + (1 + 2 * PROPERTIES)
    first = n

    def record(k):
        return base + 8 * (first + size * k)
    for k in range(n):
        address(record(k) + 40)
    for k in range(n):
        meta, cls, metaro, ro = record(k), record(k) + 40, record(k) + 80, record(k) + 152
        methods, ivars = record(k) + 224, record(k) + 224 + 8 * (1 + 3 * METHODS)
        offsets = ivars + 8 * (1 + 4 * IVARS)
        properties = offsets + 8 * IVARS
        name = text[2] + at[b"Class%dOfTheLibrary" % k]
        root = k % 8 == 0
        bind(0)
        bind(0) if root else address(record(k - 1))
        words.extend((0, 0))
        address(metaro)
        address(meta)
        bind(1) if root else address(record(k - 1) + 40)
        words.extend((0, 0))
        address(ro)
        words.extend((1 + (40 << 32), 40, 0))
        address(name)
        words.extend((0, 0, 0, 0, 0))
        words.extend((8 << 32, 8 + 8 * IVARS, 0))
        address(name)
        address(methods)
        words.append(0)
        address(ivars)
        words.append(0)
        address(properties)
        words.append(24 + (METHODS << 32))
        for m in range(METHODS):
            address(text[2] + at[b"selector%dWithValue:other:" % ((k * METHODS + m) % 4096)])
            address(text[2] + at[TYPES[m % len(TYPES)]])
            address(code + 16 * ((k * METHODS + m) % 65536))
        words.append(32 + (IVARS << 32))
        for i in range(IVARS):
            address(offsets + 8 * i)
            address(text[2] + at[b"_ivar%d" % ((k + i) % 4096)])
            address(text[2] + at[b"@\"NSString\""])
            words.append(3 + (8 << 32))
        words.extend(8 + 8 * i for i in range(IVARS))
        words.append(16 + (PROPERTIES << 32))
        for p in range(PROPERTIES):
            address(text[2] + at[b"property%d" % ((k + p) % 4096)])
            address(text[2] + at[b"T@\"NSString\",C,N,V_value"])
    return words, slots, bound


def chain(words, slots, bound):
    """Turns each slot's word into a link of its page's chain; the start of each page."""
    per = PAGE // 8
    starts = [0xFFFF] * ((len(words) + per - 1) // per)
    following = {}
    for i in range(len(slots) - 1, -1, -1):
        slot = slots[i]
        page = slot // per
        step = (following[page] - slot) * 2 if page in following else 0
        following[page] = slot
        words[slot] = (1 << 63 | bound[slot] if slot in bound else words[slot]) | step << 51
        starts[page] = slot % per * 8
    return starts


def up(n):
    return (n + PAGE - 1) // PAGE * PAGE


def main():
    n = int(sys.argv[1])
    strings, at = texts(n)
    header, code = 0x4000, 0x10000
    text_size = up(header + len(strings))
    text = (strings, at, header)
    words, slots, bound = data(n, text_size, text, code)
    starts = chain(words, slots, bound)
    body = words.tobytes()
    data_size = up(len(body) + 8)
    info_at = len(body)
    body = body.ljust(data_size, b"\0")
    names = [b"_OBJC_METACLASS_$_NSObject", b"_OBJC_CLASS_$_NSObject"]
    symbols = b"\0" + b"\0".join(names) + b"\0"
    segment_starts = struct.pack("<IHHQIH", 22 + 2 * len(starts), PAGE, 6, text_size, 0, len(starts)) + struct.pack(f"<{len(starts)}H", *starts)
    segment_starts += bytes(-len(segment_starts) % 8)
    image_starts = struct.pack("<IIIII", 3, 0, 24, 0, 0) + bytes(4)
    imports_at = 32 + len(image_starts) + len(segment_starts)
    imports = struct.pack("<II", 1 | 1 << 9, 1 | (1 + len(names[0]) + 1) << 9)
    fixups = struct.pack("<IIIIIII", 0, 32, imports_at, imports_at + 8, 2, 1, 0) + bytes(4) + image_starts + segment_starts + imports + symbols
    link_at = text_size + data_size

    def segment(name, vmaddr, vmsize, fileoff, filesize, sections):
        out = struct.pack("<II16sQQQQIIII", 0x19, 72 + 80 * len(sections), name, vmaddr, vmsize, fileoff, filesize, 3, 3, len(sections), 0)
        for sect, addr, size, offset in sections:
            out += struct.pack("<16s16sQQIIIIIIII", sect, name, addr, size, offset, 3, 0, 0, 0, 0, 0, 0)
        return out
    commands = [
        segment(b"__TEXT", 0, text_size, 0, text_size, []),
        segment(b"__DATA", text_size, data_size, text_size, data_size,
                [(b"__objc_classlist", text_size, 8 * n, text_size), (b"__objc_imageinfo", text_size + info_at, 8, text_size + info_at)]),
        segment(b"__LINKEDIT", link_at, up(len(fixups)), link_at, len(fixups), []),
        struct.pack("<IIII", 0x80000034, 16, link_at, len(fixups)),
    ]
    head = struct.pack("<IIIIIIII", 0xFEEDFACF, 0x100000C, 0, 6, len(commands), sum(map(len, commands)), 0x85, 0) + b"".join(commands)
    with open(sys.argv[2], "wb") as f:
        f.write((head.ljust(header, b"\0") + strings).ljust(text_size, b"\0") + body + fixups)
    print(f"{n} classes, {len(slots)} fixups, {link_at + len(fixups)} bytes")


main()
