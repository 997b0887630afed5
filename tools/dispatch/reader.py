"""A second reader: the effective methods of a class, straight from the tables, by the rules of documents 01 and 02. It keeps lists and
dictionaries where the crate keeps nothing, and shares no code with it."""
import struct

M64 = 1 << 64
UNREADABLE, OVERFLOW = "unreadable", "overflow"


class Absent(Exception):
    """A record, list, row or text that is absent; `why` is told apart for classes only."""

    def __init__(self, why=None):
        self.why = why


class Tables:
    def __init__(self, files, segments, sections, info, rebases, old=False):
        self.files, self.segments, self.sections, self.info, self.old = files, segments, sections, info, old
        self.rebases = dict(rebases)    # the last of a slot wins

    # -- reading rules

    def place(self, va):
        for vmaddr, vmsize, fileoff, filesize, file in self.segments:
            if vmaddr + vmsize >= M64:
                return None
            if filesize and vmaddr <= va < vmaddr + vmsize:
                at = fileoff + va - vmaddr
                return None if va - vmaddr >= filesize or at >= M64 else (file, at)
        return None

    def bytes(self, va, k, field=0):
        """k bytes, `field` bytes past an address at which field + k can be read: only the first byte is looked up."""
        p = self.place(va)
        if p is None or p[1] + field + k > len(self.files[p[0]]):
            raise Absent(UNREADABLE)
        return self.files[p[0]][p[1] + field:p[1] + field + k]

    def slot(self, va):
        if va in self.rebases:
            return self.rebases[va]
        return int.from_bytes(self.bytes(va, 8), "little") % (1 << 48)

    def slot_or_0(self, va):
        try:
            return self.slot(va)
        except Absent:
            return 0

    def text(self, va):
        p = self.place(va) if va else None
        if p is None:
            raise Absent
        data = self.files[p[0]]
        if p[1] > len(data):
            raise Absent
        end = data.find(b"\0", p[1])
        if end < 0:
            if not self.old:
                raise Absent
            end = len(data)
        try:
            data[p[1]:end].decode("utf-8")
        except UnicodeDecodeError:
            raise Absent
        return p[0], p[1], end - p[1]

    def bytes_of(self, text):
        return self.files[text[0]][text[1]:text[1] + text[2]]

    # -- records

    def pick(self, w):
        wide = w & 0x0F007FFFFFFFFFF8
        if wide and self.place(wide):
            return wide
        narrow = w & 0x0000007FFFFFFFF8
        if not narrow:
            raise Absent
        return narrow

    def class_at(self, va):
        self.bytes(va, 40)
        inside(va, 32)
        isa = self.slot_or_0(va)
        raw = int.from_bytes(self.bytes(va + 32, 8), "little")
        try:
            target = self.rebases[va + 32] if va + 32 in self.rebases else self.pick(raw)
        except Absent:
            target = 0
        return va, isa, target - target % 8 + raw % 8

    def methods_of(self, c):
        """The address of the method list in a class's class_ro."""
        va = self.pick(c[2])
        self.bytes(va, 72)
        inside(va, 64)
        self.text(self.slot(va + 24))
        return self.slot_or_0(va + 32)

    def category_at(self, va):
        wide = self.info[4] >> 6 & 1
        self.bytes(va, 56 if wide else 48)
        named = self.slot(va)
        inside(va, 48 if wide else 40)
        self.text(named)
        return va, self.slot_or_0(va + 8), [self.slot_or_0(va + 16), self.slot_or_0(va + 24)]

    def categories(self):
        """Those of cat_list, then nlcat_list, each once."""
        met, out = set(), []
        for present, vmaddr, length in self.sections[2:4]:
            for k in range(length // 8 if present else 0):
                va = self.slot_or_0((vmaddr + 8 * k) % M64)
                if va == 0 or va in met:
                    continue
                met.add(va)
                try:
                    out.append(self.category_at(va))
                except Absent:
                    pass
        return out

    # -- lists

    def selectors(self, va):
        """The selectors of a method list's rows, in order."""
        try:
            if va == 0 or va % 2:
                return
            w, count = struct.unpack("<2I", self.bytes(va, 8))
            inside(va, 8)
        except Absent:
            return
        small, direct = w >> 31, w >> 30 & 1
        size, least = w & 0xFFFC, 12 if small else 24
        if size < least:
            return
        for j in self.near(va + 8, size, count):
            at = va + 8 + j * size
            try:
                if at >= M64:
                    return
                data = self.bytes(at, least)
                yield self.small(at, data, direct) if small else self.legacy(at)
            except Absent:
                pass

    def near(self, base, size, count):
        """The entries that begin in some segment: no other can be read."""
        found = set()
        for vmaddr, vmsize, _, filesize, _ in self.segments:
            low = max(0, -((base - vmaddr) // size)) if vmaddr > base else 0
            high = min(count, (vmaddr + min(vmsize, filesize) - base) // size + 1)
            found.update(range(max(0, low - 1), max(0, high)))
        return sorted(found)

    def legacy(self, at):
        name = self.slot(at)
        inside(at, 16)
        self.slot(at + 8)
        return self.text(name)

    def small(self, at, data, direct):
        inside(at, 8)
        target = (at + struct.unpack("<i", data[:4])[0]) % M64
        return self.text(target if direct else self.slot(target))

    # -- which method gets called

    def effective(self, va, side):
        """(file, offset, length, record) of each selector, by first appearance."""
        c = self.class_at(va)
        sources = []
        try:
            own = c
            if side:
                if c[1] in (0, va):
                    raise Absent
                own = self.class_at(c[1])
            sources.append((own[0], self.methods_of(own)))
        except Absent:
            pass
        sources += [(k[0], k[2][side]) for k in self.categories() if k[1] == va]
        stands, order = {}, []
        for record, methods in sources:
            here = {}
            for text in self.selectors(methods):
                here.setdefault(self.bytes_of(text), text + (record,))
            order += [name for name in here if name not in stands]
            stands.update(here)
        return [stands[name] for name in order]


def inside(va, k):
    if va + k >= M64:
        raise Absent(OVERFLOW)
