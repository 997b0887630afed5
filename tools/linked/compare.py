#!/usr/bin/env python3
"""compare.py [DIR]: the stored listings of the files of host/files (DIR), held to the Rust's over the same tables.

Rebases and binds are read here, a second reader of fixup-chains.h and of the bind opcodes of loader.h, and put with the segments into a bundle, each
segment without the zeros at its end, so that a file of 50 KiB fits the 32 KiB of a bundle; the oracle (tools/oracle/build.sh) lists that. Files
whose listing is a refusal are left out. The last line is `K agree, D differ`; the status is 0 if all agree.
"""
import os
import struct
import subprocess
import sys

ROOT = os.path.dirname(os.path.dirname(os.path.dirname(os.path.abspath(__file__))))
SECTIONS = [b"__objc_classlist", b"__objc_nlclslist", b"__objc_catlist", b"__objc_nlcatlist", b"__objc_protolist"]


def u(form, data, at):
    return struct.unpack_from("<" + form, data, at)[0]


def cstring(data, at):
    return data[at:data.index(b"\0", at)]


def commands(image):
    at = 32
    for _ in range(u("I", image, 16)):
        kind, size = struct.unpack_from("<II", image, at)
        yield kind, at
        at += size


def chained(image, at, segments):
    base = next(s[0] for s in segments if s[4] == b"__TEXT")
    body = image[u("I", image, at + 8):][:u("I", image, at + 12)]
    starts, imports, symbols = u("I", body, 4), u("I", body, 8), u("I", body, 12)
    assert u("I", body, 20) == 1
    rebases, binds = [], []
    for k in range(u("I", body, starts)):
        offset = u("I", body, starts + 4 + 4 * k)
        if offset == 0:
            continue
        info, (vmaddr, _, fileoff, _, _) = starts + offset, segments[k]
        page_size, form = u("H", body, info + 4), u("H", body, info + 6)
        assert form in (2, 6)
        for page in range(u("H", body, info + 20)):
            start = u("H", body, info + 22 + 2 * page)
            while start != 0xFFFF:
                offset = page * page_size + start
                word = u("Q", image, fileoff + offset)
                if word >> 63:
                    name = symbols + (u("I", body, imports + 4 * (word & 0xFFFFFF)) >> 9)
                    binds.append((vmaddr + offset, cstring(body, name)))
                else:
                    target = (word & 0xFFFFFFFFF) + (word >> 36 & 0xFF) * 2**56
                    rebases.append((vmaddr + offset, target + (base if form == 6 else 0)))
                start = start + 4 * (word >> 51 & 0xFFF) if word >> 51 & 0xFFF else 0xFFFF
    return rebases, binds


def opcodes(image, at, segments):
    binds = []
    for field in (16, 24, 32):
        body = image[u("I", image, at + field):][:u("I", image, at + field + 4)]
        i, name, slot = 0, None, None

        def uleb():
            nonlocal i
            value, shift = 0, 0
            while True:
                value |= (body[i] & 0x7F) << shift
                i, shift = i + 1, shift + 7
                if body[i - 1] < 0x80:
                    return value

        def bind(step):
            nonlocal slot
            binds.append((slot, name))
            slot = (slot + 8 + step) % 2**64
        while i < len(body):
            op, imm = body[i] & 0xF0, body[i] & 0xF
            i += 1
            if op == 0x00 and field != 32:
                break
            elif op == 0x40:
                name = cstring(body, i)
                i += len(name) + 1
            elif op == 0x70:
                slot = segments[imm][0] + uleb()
            elif op == 0x80:
                slot = (slot + uleb()) % 2**64
            elif op == 0x90:
                bind(0)
            elif op == 0xA0:
                bind(uleb())
            elif op == 0xB0:
                bind(8 * imm)
            elif op == 0xC0:
                count, step = uleb(), uleb()
                for _ in range(count):
                    bind(step)
            elif op in (0x20, 0x60):
                uleb()
            else:
                assert op in (0x00, 0x10, 0x30, 0x50)
    return [], binds


def bundle(image):
    segments, found, tables = [], {}, ([], [])
    for kind, at in commands(image):
        if kind == 0x19:
            segments.append((*struct.unpack_from("<QQQQ", image, at + 24), image[at + 8:at + 24].rstrip(b"\0")))
            for k in range(u("I", image, at + 64)):
                b = at + 72 + 80 * k
                found.setdefault(image[b:b + 16].rstrip(b"\0"), (u("Q", image, b + 32), u("Q", image, b + 40), u("I", image, b + 48)))
    for kind, at in commands(image):
        if kind == 0x80000034:
            tables = chained(image, at, segments)
        if kind in (0x22, 0x80000022):
            tables = opcodes(image, at, segments)
    packed, rows = bytearray(), b""
    for vmaddr, vmsize, fileoff, filesize, _ in segments:
        part = image[fileoff:fileoff + filesize].rstrip(b"\0")
        part += b"\0" * min(32, filesize - len(part))
        rows += struct.pack("<5Q", vmaddr, vmsize, len(packed), len(part), 0)
        packed += part
    bound = bytearray()
    for slot, name in tables[1]:
        bound += struct.pack("<4Q", slot, len(packed), len(name), 0)
        packed += name + b"\0"
    info = found[b"__objc_imageinfo"][2]
    sections = b"".join(struct.pack("<3Q", 1, *found[n][:2]) if n in found else bytes(24) for n in SECTIONS)
    rebased = b"".join(struct.pack("<2Q", *r) for r in tables[0])
    return struct.pack("<7Q4Q", len(segments), len(tables[0]), len(tables[1]), len(packed), 0, 0, 0, 0, 0, 0, 0) \
        + image[info:info + 8] + rows + sections + rebased + bound + packed


def thin(data):
    """The part that is listed: of a universal file the arm64 one, else the first."""
    if data[:4] != b"\xca\xfe\xba\xbe":
        return data
    parts = [struct.unpack_from(">5I", data, 8 + 20 * i) for i in range(struct.unpack_from(">I", data, 4)[0])]
    chosen = next((p for p in parts if p[:2] == (0x100000C, 0)), parts[0])
    return data[chosen[2]:chosen[2] + chosen[3]]


def main():
    place = sys.argv[1] if len(sys.argv) > 1 else os.path.join(ROOT, "host", "files")
    agree = differ = 0
    for name in sorted(os.listdir(place)):
        path = os.path.join(place, name)
        if not os.path.exists(path + ".listing"):
            continue
        listing = open(path + ".listing", "rb").read()
        if listing.startswith(b"refused"):
            continue
        made = bundle(thin(open(path, "rb").read()))
        theirs = subprocess.run([os.path.join(ROOT, "target/oracle/ended")], input=made, capture_output=True).stdout
        same = theirs == listing
        agree, differ = agree + same, differ + (not same)
        if not same:
            print(f"{name} differs ({len(made)} bytes)")
    print(f"{agree} agree, {differ} differ")
    return differ != 0


if __name__ == "__main__":
    sys.exit(main())
