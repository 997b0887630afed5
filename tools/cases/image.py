"""Bundles (document 01, "The program's listing") and well-formed images with records and rows of every kind."""
import struct

M64 = (1 << 64) - 1

PREFIXES = ["_OBJC_CLASS_$_", "_OBJC_METACLASS_$_", "_OBJC_PROTOCOL_$_", "_OBJC_REF_$_", "_OBJC_LABEL_PROTOCOL_$_"]
NAMES = ["Hub", "Spoke", "NSObject", "up", "down:", "init", "dealloc", "name", "setName:", "count", "_ivar", "delegate",
         "é", "漢字", "🙂", "A", "", "x" * 20, "with space", "line\nbreak", "a:b", "_OBJC_CLASS_$_Twice", "-", "NSCoding"]
TYPES = ["v", "v16@0:8", "@16@0:8", "i", "Q", '@"NSString"', "{CGRect=dd}", "", "^v", "é"]
ATTRIBUTES = ['T@"NSString",C,N,V_name', "Ti,R", "TQ,N", "", 'T@"A,B",&,V_x', "T,,R", "R"]


class Bundle:
    """The tables of a bundle: segments (vmaddr, vmsize, fileoff, filesize), sections (present, vmaddr, length),
    rebases (slot, target), binds (slot, name offset, name length), ends (first and last frame, first and last slide).
    The image is file 0, and so are all segments' and binds' file numbers; a segment or bind with one word more has its
    own."""

    COUNTS = 7                      # segments, rebases, binds, and the bytes of four files
    INFO = 8 * COUNTS + 32          # where the image info stands, after the counts and the four ends
    HEAD = INFO + 8 + 120           # with the image info and the section table
    SEGMENT, BIND = 40, 32

    def __init__(self):
        self.ends = (0, 0, 0, 0)
        self.info = (0, 0)
        self.segments, self.rebases, self.binds = [], [], []
        self.sections = [(0, 0, 0)] * 5
        self.image = bytearray()
        self.others = [b"", b"", b""]

    def size(self):
        tables = self.SEGMENT * len(self.segments) + 16 * len(self.rebases) + self.BIND * len(self.binds)
        return self.HEAD + tables + len(self.image) + sum(map(len, self.others))

    def pack(self):
        files = [bytes(self.image), *self.others]
        counts = len(self.segments), len(self.rebases), len(self.binds), *map(len, files)
        out = [struct.pack("<11Q2I", *counts, *self.ends, *self.info)]
        segments = [(*row, 0)[:5] for row in self.segments]
        binds = [(*row, 0)[:4] for row in self.binds]
        for table in (segments, self.sections, self.rebases, binds):
            out += [struct.pack("<%dQ" % len(row), *[word & M64 for word in row]) for row in table]
        return b"".join(out + files)

    def fit(self):
        """Cuts the image until the bundle has at most 32,768 bytes."""
        if self.size() > 32768:
            del self.image[max(0, len(self.image) - (self.size() - 32768)):]


class Mark:
    """Where a record, list or text of a well-formed image stands; a list also has its entry size and least size."""

    def __init__(self, kind, segment, offset, length, size=0, least=0):
        self.kind, self.segment, self.offset, self.length = kind, segment, offset, length
        self.size, self.least = size, least

    def at(self):
        return self.segment, self.offset


class Builder:
    """Places records as (segment, offset) first, and gives addresses last."""

    def __init__(self, rng, scale):
        self.rng = rng
        self.scale = scale
        self.data = [bytearray() for _ in range(rng.choice([1, 1, 2, 2, 3, 4]))]
        self.pointers = []      # (segment, offset, target, signed)
        self.relatives = []     # (segment, offset, target)
        self.bits = []          # (segment, offset, target, low bits, signed)
        self.bound = []         # (segment, offset, name)
        self.marks = []
        self.rebased = rng.choice([0.0, 0.0, 0.3, 0.9, 1.0])
        self.signed = rng.choice([0.0, 0.0, 0.5])
        self.texts = {}
        self.classes, self.protocols, self.categories = [], [], []
        self.imps = []          # implementations, as addresses or as (segment, offset, distance)

    # -- places

    def take(self, size, align=8, segment=None):
        s = self.rng.randrange(len(self.data)) if segment is None else segment
        data = self.data[s]
        data.extend(bytes(-len(data) % align))
        offset = len(data)
        data.extend(bytes(size))
        return s, offset

    def record(self, kind, length, align=8, segment=None, size=0, least=0):
        at = self.take(length, align, segment)
        self.marks.append(Mark(kind, *at, length, size, least))
        return at

    def put(self, at, offset, form, *values):
        struct.pack_into("<" + form, self.data[at[0]], at[1] + offset, *values)

    def pointer(self, at, offset, target):
        if target is not None:
            self.pointers.append((at[0], at[1] + offset, target, self.rng.random() < self.signed))

    def bind(self, at, offset):
        self.bound.append((at[0], at[1] + offset, self.bind_name()))

    def text(self, text, segment=None):
        b = text.encode()
        if segment is None and b in self.texts and self.rng.random() < 0.8:
            return self.texts[b]
        at = self.record("text", len(b) + 1, 1, segment)
        self.data[at[0]][at[1]:at[1] + len(b)] = b
        self.texts[b] = at
        return at

    def word(self, pool):
        word = self.rng.choice(pool)
        return word + str(self.rng.randrange(100)) if self.rng.random() < 0.3 else word

    def bind_name(self):
        x = self.rng.random()
        prefix = self.rng.choice(PREFIXES)
        if x < 0.75:
            return prefix + self.word(NAMES)
        if x < 0.85:
            return prefix
        if x < 0.9:
            return prefix + self.rng.choice(PREFIXES) + "Z"
        if x < 0.95:
            return prefix[:-1]
        return self.word(NAMES)

    # -- lists

    def method_list(self, most=4):
        r = self.rng
        if r.random() < 0.2:
            return None
        form = r.choice(["legacy", "indirect", "direct"])
        count = r.randrange(most + 1)
        least = 24 if form == "legacy" else 12
        size = least + r.choice([0, 0, 0, 4, 8, 12])
        word = size | r.choice([0, 0, 1, 2, 3])
        if r.random() < 0.2:
            word |= r.randrange(1 << 14) << 16
        if form != "legacy":
            word |= 0xC0000000 if form == "direct" else 0x80000000
        elif r.random() < 0.2:
            word |= 0x40000000
        segment = r.randrange(len(self.data))
        near = segment if r.random() < 0.7 else None
        rows = [(self.text(self.word(NAMES), near), self.text(self.word(TYPES), near)) for _ in range(count)]
        slots = []
        if form == "indirect":
            for selector, _ in rows:
                slot = self.take(8, 8, near)
                self.pointer(slot, 0, selector)
                slots.append(slot)
        at = self.record("list", 8 + count * size, r.choice([8, 8, 4]), segment, size, least)
        self.put(at, 0, "II", word, count)
        for i, (selector, types) in enumerate(rows):
            e = at[0], at[1] + 8 + i * size
            self.marks.append(Mark("entry", *e, least))
            if form == "legacy":
                self.pointer(e, 0, selector)
                self.pointer(e, 8, types)
                if r.random() < 0.8:
                    imp = r.randrange(1 << 48)
                    self.imps.append(imp)
                    self.put(e, 16, "Q", imp | (r.randrange(1 << 16) << 48 if r.random() < self.signed else 0))
            else:
                self.relatives.append((*e, selector if form == "direct" else slots[i]))
                self.relatives.append((e[0], e[1] + 4, types))
                distance = r.choice([0, 1, -1, 0x7FFFFFFF, -0x80000000, 0x400, -0x100000])
                self.imps.append((e[0], e[1] + 8, distance))
                self.put(e, 8, "i", distance)
        return at

    def ivar_list(self):
        r = self.rng
        if r.random() < 0.3:
            return None
        count, size = r.randrange(4), 32 + r.choice([0, 0, 8, 1, 5])
        at = self.record("list", 8 + count * size, r.choice([8, 8, 1, 2]), None, size, 32)
        self.put(at, 0, "II", size, count)
        for i in range(count):
            e = at[0], at[1] + 8 + i * size
            self.marks.append(Mark("entry", *e, 32))
            if r.random() < 0.8:
                cell = self.take(4, 4)
                self.put(cell, 0, "I", r.choice([0, 8, 16, 24, 0xFFFFFFFF]))
                self.pointer(e, 0, cell)
            self.pointer(e, 8, self.text(self.word(NAMES)))
            if r.random() < 0.9:
                self.pointer(e, 16, self.text(self.word(TYPES)))
            self.put(e, 24, "II", r.choice([0, 2, 3, 4, 0x100, 0x103, 0xFFFFFFFF, 0xFFFFFFFE]), r.choice([1, 4, 8, 16]))
        return at

    def property_list(self):
        r = self.rng
        if r.random() < 0.4:
            return None
        count, size = r.randrange(4), 16 + r.choice([0, 0, 8, 3])
        at = self.record("list", 8 + count * size, r.choice([8, 8, 2]), None, size, 16)
        self.put(at, 0, "II", size, count)
        for i in range(count):
            e = at[0], at[1] + 8 + i * size
            self.marks.append(Mark("entry", *e, 16))
            self.pointer(e, 0, self.text(self.word(NAMES)))
            if r.random() < 0.9:
                self.pointer(e, 8, self.text(r.choice(ATTRIBUTES)))
        return at

    def protocol_list(self):
        r = self.rng
        if r.random() < 0.4:
            return None
        count = r.randrange(4)
        at = self.record("protocol list", 8 + count * 8)
        self.put(at, 0, "Q", count)
        for i in range(count):
            if self.protocols and r.random() < 0.6:
                self.pointer(at, 8 + 8 * i, r.choice(self.protocols))
            if r.random() < 0.4:
                self.bind(at, 8 + 8 * i)
        return at

    # -- records

    def protocol(self):
        r = self.rng
        size = r.choice([72, 72, 80, 88, 95, 96, 96, 104])
        at = self.record("protocol", max(72, (size + 7) // 8 * 8))
        self.pointer(at, 8, self.text(self.word(NAMES)))
        self.pointer(at, 16, self.protocol_list())
        for offset in (24, 32, 40, 48):
            self.pointer(at, offset, self.method_list(2))
        self.pointer(at, 56, self.property_list())
        self.put(at, 64, "II", size, r.choice([0, 1, 0x40000000, 0xFFFFFFFF]))
        if size >= 96:
            self.pointer(at, 88, self.property_list())
        self.protocols.append(at)

    def class_ro(self, meta):
        r = self.rng
        at = self.record("class_ro", 72)
        self.put(at, 0, "III", r.choice([0, 1, 2, 0x80, 0x184]) | meta, 8, r.choice([8, 16, 40]))
        self.pointer(at, 24, self.text(self.word(NAMES)))
        self.pointer(at, 32, self.method_list())
        self.pointer(at, 40, self.protocol_list())
        if not meta or r.random() < 0.1:
            self.pointer(at, 48, self.ivar_list())
        self.pointer(at, 64, self.property_list())
        return at

    def class_pair(self):
        r = self.rng
        pair = []
        for meta in (1, 0):
            at = self.record("class", 40)
            ro = self.class_ro(meta)
            self.bits.append((at[0], at[1] + 32, ro, r.choice([0, 0, 1, 2, 4, 6, 7]), r.random() < self.signed))
            if r.random() < 0.6 and self.classes:
                self.pointer(at, 8, r.choice(self.classes))
            if r.random() < 0.5:
                self.bind(at, 8)
            pair.append(at)
        meta, klass = pair
        x = r.random()
        if x < 0.8:
            self.pointer(klass, 0, meta)
        elif x < 0.9:
            self.pointer(klass, 0, klass)
        elif x < 0.95 and self.classes:
            self.pointer(klass, 0, r.choice(self.classes))
        if r.random() < 0.3:
            self.pointer(meta, 0, meta)
        self.classes.append(klass)

    def category(self, wide):
        r = self.rng
        at = self.record("category", 56 if wide else 48)
        self.pointer(at, 0, self.text(self.word(NAMES)))
        if self.classes and r.random() < 0.6:
            self.pointer(at, 8, r.choice(self.classes))
        if r.random() < 0.5:
            self.bind(at, 8)
        self.pointer(at, 16, self.method_list(2))
        self.pointer(at, 24, self.method_list(2))
        self.pointer(at, 32, self.protocol_list())
        self.pointer(at, 40, self.property_list())
        if wide:
            self.pointer(at, 48, self.property_list())
        self.categories.append(at)

    def section(self, records):
        at = self.record("section", 8 * len(records) + self.rng.choice([0, 0, 0, 3, 7]))
        for i, record in enumerate(records):
            self.pointer(at, 8 * i, record)
        return at, 8 * len(records)

    # -- addresses

    def addresses(self):
        """vmaddr and vmsize of each segment."""
        r = self.rng
        sizes = [len(d) for d in self.data]
        mode = r.choice(["low", "low", "standard", "gap", "gap", "adjacent", "zero", "wide", "top", "far"])
        a = {"low": 0x1000, "standard": 0x100000000, "gap": 0x4000, "adjacent": 0x1000, "zero": 0,
             "wide": 0x0100000000001000, "top": 0x2000, "far": 0x10000}[mode]
        vmaddrs = []
        for size in sizes:
            vmaddrs.append(a)
            if mode == "adjacent":
                a += size
            elif mode in ("gap", "far"):
                a += (size + 0xFFF) // 8 * 8 + r.randrange(1 << (18 if mode == "gap" else 25)) * 8
            else:
                a += (size + 0xFFF) // 0x1000 * 0x1000
        if mode == "wide":      # bits that only the wide data mask keeps
            vmaddrs = [v if r.random() < 0.7 else v & 0xFFFFFFFF | r.choice([0, 1 << 40, 1 << 46]) for v in vmaddrs]
        vmsizes = [max(1, s) if r.random() < 0.5 else (s + 0xFFF) // 0x1000 * 0x1000 for s in sizes]
        if mode == "top":       # the last segment reaches 2^64 inside or just behind one of its records
            last = len(sizes) - 1
            inside = [m.offset for m in self.marks if m.segment == last and m.kind != "text"] or [0]
            cut = r.choice(inside) + r.choice([1, 4, 7, 8, 9, 12, 16, 24, 25, 32, 40, 48, 56, 57, 64, 72, 88, 89, 96])
            if r.random() < 0.3:
                cut = sizes[last] + r.randrange(1, 64)
            vmaddrs[last] = (1 << 64) - cut
            vmsizes[last] = cut - 1
        return vmaddrs, vmsizes

    def address(self, at):
        return (self.vmaddrs[at[0]] + at[1]) & M64

    def starts(self):
        """The starts of the methods, once addresses are given."""
        return [i if isinstance(i, int) else (self.address(i[:2]) + i[2]) & M64 for i in self.imps]

    def build(self):
        r = self.rng
        bundle = Bundle()
        wide = r.random() < 0.5
        bundle.info = (r.choice([0, 0, 1, 0xFFFFFFFF]),
                       (0x40 if wide else 0) | r.choice([0, 0, 0x80, 0x700, 0xFFFFFFBF]))
        for _ in range(r.randrange(self.scale + 1)):
            self.protocol()
        for _ in range(r.randrange(1, self.scale + 2)):
            self.class_pair()
        for _ in range(r.randrange(self.scale + 1)):
            self.category(wide)

        def some(records, share):
            return [x for x in records if r.random() < share]
        sections = [self.section(some(self.classes, 0.95)), self.section(some(self.classes, 0.4)),
                    self.section(some(self.categories, 0.9)), self.section(some(self.categories, 0.4)),
                    self.section(some(self.protocols, 0.9) + some(self.protocols, 0.2))]
        names = [(s, o, name, self.text(name) if r.random() < 0.8 else None) for s, o, name in self.bound]
        self.vmaddrs, vmsizes = self.addresses()
        order = list(range(len(self.data)))
        r.shuffle(order)
        self.fileoffs = [0] * len(self.data)
        for s in order:
            bundle.image.extend(bytes(r.choice([0, 0, 0, 8, 5])))
            self.fileoffs[s] = len(bundle.image)
            bundle.image.extend(self.data[s])

        def store(s, o, form, value):
            struct.pack_into("<" + form, bundle.image, self.fileoffs[s] + o, value)
        for s, o, target, signed in self.pointers:
            a = self.address(target)
            if a >> 48 or r.random() < self.rebased:
                bundle.rebases.append((self.address((s, o)), a))
                if r.random() < 0.5:
                    store(s, o, "Q", r.randrange(1 << 64))
            else:
                store(s, o, "Q", a | (r.randrange(1 << 16) << 48 if signed else 0))
        for s, o, target, low, signed in self.bits:
            a = self.address(target)
            if a & ~0x0F007FFFFFFFFFF8 or r.random() < self.rebased:
                bundle.rebases.append((self.address((s, o)), a))
                store(s, o, "Q", r.randrange(1 << 64) & ~7 | low)
            else:
                store(s, o, "Q", a | low | (r.randrange(1 << 64) & ~0x0F007FFFFFFFFFFF if signed else 0))
        for s, o, target in self.relatives:
            d = (self.address(target) - self.address((s, o)) + (1 << 63)) % (1 << 64) - (1 << 63)
            store(s, o, "i", d if -0x80000000 <= d < 0x80000000 else r.randrange(-0x80000000, 0x80000000))
        for s, o, name, at in names:
            offset = len(bundle.image) if at is None else self.fileoffs[at[0]] + at[1]
            if at is None:
                bundle.image.extend(name.encode())
            bundle.binds.append((self.address((s, o)), offset, len(name.encode())))
        bundle.segments = [(v, vs, fo, len(d))
                           for v, vs, fo, d in zip(self.vmaddrs, vmsizes, self.fileoffs, self.data)]
        if r.random() < 0.3:
            r.shuffle(bundle.segments)
        if r.random() < 0.3:    # __PAGEZERO
            bundle.segments.insert(0, (0, min(self.vmaddrs), 0, 0))
        if r.random() < 0.1:    # one over 64 bits, behind all others
            bundle.segments.append((M64 - r.randrange(100), 200, 0, 50))
        bundle.sections = [(1, self.address(at), length) if r.random() < 0.95
                           else (0, r.randrange(1 << 64), r.randrange(1 << 64)) for at, length in sections]
        r.shuffle(bundle.rebases)
        return bundle


def well_formed(rng):
    """A bundle and the builder that knows where its records stand."""
    for scale in (rng.choice([1, 2, 3, 3, 5, 8]), 2, 1, 0):
        builder = Builder(rng, scale)
        bundle = builder.build()
        if bundle.size() <= 30000:
            return bundle, builder
    raise AssertionError("a well-formed image does not fit")
