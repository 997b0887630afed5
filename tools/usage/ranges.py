#!/usr/bin/env python3
"""ranges.py [--old] [--reads] [--long] [BUNDLE]: the ranges of an image's bytes that its listing uses (document 02, note 13), of a stored bundle or of the one on
standard input. Printed are their number and then one range a line, file, offset, length; or `refused` and the number. With --reads also what each
range was used for.

A second reader: the reads of documents 01 and 02, one after the other, noted in a set and merged at the end. It shares no code with the library.
"""
import argparse
import os
import struct
import sys

sys.path.insert(0, os.path.join(os.path.dirname(os.path.abspath(__file__)), "../cases"))
from image import Bundle    # noqa: E402

M64 = 1 << 64
LEGACY, INDIRECT, DIRECT, IVAR, PROPERTY = "legacy method", "small method", "direct method", "ivar", "property"
LEAST = {LEGACY: 24, INDIRECT: 12, DIRECT: 12, IVAR: 32, PROPERTY: 16}
METHODS, IVARS, PROPERTIES = "method list", "ivar list", "property list"


class Absent(Exception):
    """What is not there: a record, list, row, text, slot or name."""


class Refused(Exception):
    """A question says no."""


def utf8(data):
    try:
        data.decode("utf-8")
    except UnicodeDecodeError:
        return False
    return True


class Tables:
    """What a bundle holds; questions 13, 1 to 7, 14, 18 and 23 are asked in their order (8 is met by the index of the right length)."""

    def __init__(self, data, longest=32768):
        if not Bundle.HEAD <= len(data) <= longest:
            raise Refused(13)
        segments, rebases, binds, *lengths = struct.unpack_from("<7Q", data)
        said = Bundle.HEAD + Bundle.SEGMENT * segments + 16 * rebases + Bundle.BIND * binds + sum(lengths)
        if said != len(data):
            raise Refused(13)
        self.ends = struct.unpack_from("<4Q", data, 56)
        self.version, self.flags = struct.unpack_from("<2I", data, Bundle.INFO)
        self.info = data[Bundle.INFO:Bundle.INFO + 8]
        at = Bundle.INFO + 8

        def rows(count, width):
            nonlocal at
            out = [struct.unpack_from("<%dQ" % width, data, at + 8 * width * k) for k in range(count)]
            at += 8 * width * count
            return out
        self.segments, self.sections = rows(segments, 5), rows(5, 3)
        self.rebases, self.binds = rows(rebases, 2), rows(binds, 4)
        self.files_at, self.files = at, []
        for n in lengths:
            self.files.append(data[at:at + n])
            at += n

    def ask(self):
        longest = max(map(len, self.files))
        if longest > 0xFFFFFFFF:
            raise Refused(1)
        if len(self.segments) > 64:
            raise Refused(2)
        if any(s[4] > 3 for s in self.segments):
            raise Refused(18)
        if any(s[0] > 1 or s[0] == 1 and s[2] > longest for s in self.sections):
            raise Refused(3)
        if any(b[3] > 3 for b in self.binds):
            raise Refused(18)
        for _, offset, length, file in self.binds:
            if offset + length > len(self.files[file]):
                raise Refused(7)
        if not all(utf8(self.files[file][offset:offset + length]) for _, offset, length, file in self.binds):
            raise Refused(14)
        if self.ends[0] > self.ends[1] or self.ends[2] > self.ends[3]:
            raise Refused(23)
        return self


class Reader:
    """The reads of a listing. `used` has for each (file, offset, length) what was read there."""

    def __init__(self, tables, old=False):
        self.t, self.old = tables, old
        self.rebases = dict(tables.rebases)                     # a slot's last record wins
        self.binds = {b[0]: b[1:] for b in tables.binds}
        self.used, self.done = {}, {}

    def note(self, file, offset, length, what):
        if length:
            self.used.setdefault((file, offset, length), set()).add(what)

    def once(self, f, *args):
        """f(*args), or what it gave before: reads that are repeated are no other reads."""
        key = (f.__name__, *args)
        if key not in self.done:
            try:
                self.done[key] = True, f(*args)
            except Absent:
                self.done[key] = False, None
        there, value = self.done[key]
        if not there:
            raise Absent
        return value

    # -- reading rules

    def place(self, va):
        """The file and the offset of an address."""
        for vmaddr, vmsize, fileoff, filesize, file in self.t.segments:
            if vmaddr + vmsize >= M64:
                break
            if filesize > 0 and vmaddr <= va < vmaddr + vmsize:
                if va - vmaddr >= filesize or fileoff + va - vmaddr >= M64:
                    break
                return file, fileoff + va - vmaddr
        raise Absent

    def readable(self, va, k):
        """The place of k bytes that can be read; no byte is used."""
        file, offset = self.place(va)
        if offset + k > len(self.t.files[file]):
            raise Absent
        return file, offset

    def at(self, place, k, size, what):
        """The number of `size` bytes at k bytes past a place, of which it is known that they can be read."""
        file, offset = place[0], place[1] + k
        self.note(file, offset, size, what)
        return int.from_bytes(self.t.files[file][offset:offset + size], "little")

    def word(self, va, what):
        return self.at(self.readable(va, 8), 0, 8, what)

    def slot(self, va, what):
        if va in self.rebases:
            return self.rebases[va]
        return self.word(va, what) & 0x0000FFFFFFFFFFFF

    def slot_or_0(self, va, what):
        try:
            return self.slot(va, what)
        except Absent:
            return 0

    def text(self, va, what):
        if va == 0:
            raise Absent
        file, offset = self.place(va)
        data = self.t.files[file]
        if offset > len(data):
            raise Absent
        end = data.find(b"\0", offset)
        ended = end >= 0
        if not ended:
            end = len(data)
        self.note(file, offset, end + ended - offset, what)
        if not ended and not self.old or not utf8(data[offset:end]):
            raise Absent

    def text_or_empty(self, va, what):
        try:
            self.text(va, what)
        except Absent:
            pass

    def bind(self, va):
        """The name bound to a slot, prefix and all."""
        if va not in self.binds:
            raise Absent
        offset, length, file = self.binds[va]
        self.note(file, offset, length, "bind name")

    def pick(self, w):
        wide = w & 0x0F007FFFFFFFFFF8
        if wide:
            try:
                self.place(wide)
                return wide
            except Absent:
                pass
        narrow = w & 0x0000007FFFFFFFF8
        if narrow == 0:
            raise Absent
        return narrow

    # -- records

    def class_t(self, va):
        """isa, superclass and bits."""
        self.readable(va, 40)
        up, bits = field(va, 8), field(va, 32)
        isa = self.slot_or_0(va, "class slot")
        superclass = self.slot_or_0(up, "class slot")
        raw = self.word(bits, "class bits")
        try:
            target = self.rebases[bits] if bits in self.rebases else self.pick(raw)
        except Absent:
            target = 0
        return isa, superclass, target - target % 8 + raw % 8

    def class_ro(self, va):
        """Methods, protocols, ivars and properties."""
        p = self.readable(va, 72)
        for k in (0, 4, 8):
            self.at(p, k, 4, "class_ro number")
        self.slot_or_0(field(va, 16), "class_ro slot")
        name = self.slot(field(va, 24), "class_ro slot")
        methods, protocols, ivars, _, properties = [self.slot_or_0(field(va, k), "class_ro slot") for k in (32, 40, 48, 56, 64)]
        self.text(name, "class_ro name")
        return methods, protocols, ivars, properties

    def class_name(self, va):
        self.readable(va, 40)
        bits = field(va, 32)
        ro = self.rebases[bits] if bits in self.rebases else self.pick(self.word(bits, "class name's bits"))
        self.text(self.slot(field(ro, 24), "class name's slot"), "class name")

    def name_of(self, record, class_va):
        """The name of a superclass or of a category's class: of the class, else of the bind at +8."""
        try:
            if class_va == 0:
                raise Absent
            self.once(self.class_name, class_va)
        except Absent:
            try:
                self.bind(field(record, 8))
            except Absent:
                pass

    def protocol_t(self, va):
        """Protocols, the four method lists, properties, class properties."""
        p = self.readable(va, 72)
        name = self.slot(field(va, 8), "protocol slot")
        lists = [self.slot_or_0(field(va, k), "protocol slot") for k in (16, 24, 32, 40, 48, 56)]
        size = self.at(p, 64, 4, "protocol number")
        self.at(p, 68, 4, "protocol number")
        self.text(name, "protocol name")
        last = 0
        if size >= 96:
            at = field(va, 88)
            self.readable(at, 8)
            last = self.slot_or_0(at, "protocol slot")
        return (*lists, last)

    def category_t(self, va):
        """The class, instance and class methods, protocols, properties, class properties."""
        wide = self.t.flags >> 6 & 1
        self.readable(va, 56 if wide else 48)
        name = self.slot(va, "category slot")
        others = [self.slot_or_0(field(va, k), "category slot") for k in (8, 16, 24, 32, 40)]
        last = self.slot_or_0(field(va, 48), "category slot") if wide else 0
        self.text(name, "category name")
        return (*others, last)

    # -- lists and rows

    def regions(self):
        """The addresses of each segment whose bytes lie in its file."""
        for vmaddr, vmsize, fileoff, filesize, file in self.t.segments:
            if vmaddr + vmsize >= M64:
                return
            yield vmaddr, vmaddr + min(vmsize, filesize, max(0, len(self.t.files[file]) - fileoff))

    def inside(self, base, size, count):
        """The indices below the count whose addresses lie in a region: of no other can a byte be read."""
        found = set()
        for low, high in self.regions():
            found.update(range(max(0, -((base - low) // size)), min(count, (high - 1 - base) // size + 1)))
        return sorted(found)

    def rows(self, kind, va):
        if va == 0 or kind != IVARS and va % 2:
            raise Absent
        p = self.readable(va, 8)
        w, count = self.at(p, 0, 4, kind), self.at(p, 4, 4, kind)
        entry = {METHODS: LEGACY, IVARS: IVAR, PROPERTIES: PROPERTY}[kind]
        size = w
        if kind == METHODS:
            size = w & 0xFFFC
            if w & 0x80000000:
                entry = DIRECT if w & 0x40000000 else INDIRECT
        if size < LEAST[entry]:
            raise Absent
        base = field(va, 8)
        for j in self.inside(base, size, count):
            if base + j * size >= M64:
                break
            try:
                self.readable(base + j * size, LEAST[entry])
                self.once(self.row, entry, base + j * size)
            except Absent:
                pass

    def row(self, entry, va):
        {LEGACY: self.legacy, INDIRECT: self.indirect, DIRECT: self.direct, IVAR: self.ivar, PROPERTY: self.property}[entry](va)

    def legacy(self, va):
        name = self.slot(va, "legacy method slot")
        types = self.slot(field(va, 8), "legacy method slot")
        self.slot_or_0(field(va, 16), "legacy method slot")
        self.text(name, "selector")
        self.text_or_empty(types, "types")

    def small(self, va, through):
        p = self.readable(va, 12)
        name, types, _ = [self.at(p, k, 4, "small method offset") for k in (0, 4, 8)]
        second = field(va, 4)
        field(va, 8)
        target = relative(va, name)
        self.text(self.slot(target, "selector's slot") if through else target, "selector")
        self.text_or_empty(relative(second, types), "types")

    def indirect(self, va):
        self.small(va, True)

    def direct(self, va):
        self.small(va, False)

    def ivar(self, va):
        p = self.readable(va, 32)
        offset = self.slot_or_0(va, "ivar slot")
        name = self.slot(field(va, 8), "ivar slot")
        kind = self.slot_or_0(field(va, 16), "ivar slot")
        for k in (24, 28):
            self.at(p, k, 4, "ivar number")
        self.text(name, "ivar name")
        self.text_or_empty(kind, "ivar type")
        if offset:
            self.at(self.readable(offset, 4), 0, 4, "ivar offset")

    def property(self, va):
        name = self.slot(va, "property slot")
        attributes = self.slot_or_0(field(va, 8), "property slot")
        self.text(name, "property name")
        self.text_or_empty(attributes, "attributes")

    def names(self, va):
        """A protocol list."""
        if va == 0 or va % 2:
            raise Absent
        count = min(self.at(self.readable(va, 8), 0, 8, "protocol list"), 1048576)
        base = field(va, 8)
        slots = set(self.inside(base, 8, count))
        slots.update((a - base) // 8 for a in (*self.rebases, *self.binds) if a >= base and (a - base) % 8 == 0 and (a - base) // 8 < count)
        for k in sorted(slots):
            if base + 8 * k >= M64:
                break
            self.protocol_name(base + 8 * k)

    def protocol_name(self, slot):
        try:
            protocol = self.slot(slot, "protocol list's slot")
            if protocol == 0:
                raise Absent
            self.once(self.protocol_t, protocol)
        except Absent:
            try:
                self.bind(slot)
            except Absent:
                pass

    def lists(self, fields):
        for kind, va in fields:
            try:
                if kind is None:
                    self.once(self.names, va)
                else:
                    self.once(self.rows, kind, va)
            except Absent:
                pass

    # -- the listing

    def slots(self, which):
        """What the full slots of a section hold."""
        present, vmaddr, length = self.t.sections[which]
        for k in range(length // 8 if present else 0):
            va = self.slot_or_0((vmaddr + 8 * k) % M64, "section slot")
            if va:
                yield va

    def one_class(self, va):
        """Lines C, R and the rows; the isa."""
        isa, superclass, bits = self.class_t(va)
        self.name_of(va, superclass)
        try:
            methods, protocols, ivars, properties = self.class_ro(self.pick(bits))
            self.lists([(METHODS, methods), (IVARS, ivars), (PROPERTIES, properties), (None, protocols)])
        except Absent:
            pass
        return isa

    def one_protocol(self, va):
        protocols, *methods, properties, more = self.once(self.protocol_t, va)
        self.lists([(METHODS, m) for m in methods] + [(PROPERTIES, properties), (PROPERTIES, more), (None, protocols)])

    def one_category(self, va):
        class_va, instance, of_class, protocols, properties, more = self.category_t(va)
        self.name_of(va, class_va)
        self.lists([(METHODS, instance), (METHODS, of_class), (None, protocols), (PROPERTIES, properties), (PROPERTIES, more)])

    def listing(self):
        for which, f in ((0, self.one_class), (1, self.one_class), (4, self.one_protocol), (2, self.one_category), (3, self.one_category)):
            for va in self.slots(which):
                try:
                    isa = self.once(f, va)
                    if which < 2 and isa not in (0, va):
                        self.once(f, isa)
                except Absent:
                    pass
        return self

    def ranges(self):
        """Ascending, merged where they touch in one file."""
        out = []
        for file, offset, length in sorted(self.used):
            if out and out[-1][0] == file and offset <= out[-1][1] + out[-1][2]:
                out[-1][2] = max(out[-1][2], offset + length - out[-1][1])
            else:
                out.append([file, offset, length])
        return [tuple(r) for r in out]


def field(va, k):
    if va + k >= M64:
        raise Absent
    return va + k


def relative(va, offset):
    return (va + offset - (offset >> 31 << 32)) % M64


def used_ranges(data, old=False, longest=32768):
    """The ranges of a bundle, or the number that refuses it."""
    try:
        return Reader(Tables(data, longest).ask(), old).listing().ranges()
    except Refused as e:
        return e.args[0]


def show(answer):
    if isinstance(answer, int):
        return "refused %d\n" % answer
    return "".join(["%d\n" % len(answer), *("%d %d %d\n" % r for r in answer)])


def main():
    parser = argparse.ArgumentParser(description=__doc__, formatter_class=argparse.RawDescriptionHelpFormatter)
    parser.add_argument("--old", action="store_true", help="under the old reading of texts")
    parser.add_argument("--reads", action="store_true", help="what was read, too")
    parser.add_argument("--long", action="store_true", help="a bundle of any length")
    parser.add_argument("bundle", nargs="?")
    options = parser.parse_args()
    if options.bundle:
        with open(options.bundle, "rb") as file:
            data = file.read()
    else:
        data = sys.stdin.buffer.read()
    longest = 1 << 33 if options.long else 32768
    answer = used_ranges(data, options.old, longest)
    print(end=show(answer))
    if options.reads and not isinstance(answer, int):
        for (file, offset, length), what in sorted(Reader(Tables(data, longest).ask(), options.old).listing().used.items()):
            print(file, offset, length, ", ".join(sorted(what)))


if __name__ == "__main__":
    main()
