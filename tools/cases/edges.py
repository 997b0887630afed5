"""Short bundles around the boundaries of document 01: edges() gives (name, bundle) in a fixed order. Each family goes
through all values where they are few, else through a grid of those next to the boundary."""
import itertools
import struct

from image import M64, PREFIXES, Bundle

TOP = 1 << 64
WINDOW = 0x70000000         # where a record under test is shown
CLASSES, NL_CLASSES, CATEGORIES, NL_CATEGORIES, PROTOCOLS = range(5)


class Sketch:
    """An image at 0x1000 in one segment, made by hand; a pointer is a word in it unless a rebase says otherwise."""

    BASE = 0x1000

    def __init__(self):
        self.b = Bundle()
        self.own = True             # the segment of the image itself comes first

    def add(self, data, align=8):
        self.b.image.extend(bytes(-len(self.b.image) % align))
        a = self.BASE + len(self.b.image)
        self.b.image.extend(data)
        return a

    def words(self, *words):
        return self.add(struct.pack("<%dQ" % len(words), *[w & M64 for w in words]))

    def text(self, text):
        return self.add((text if isinstance(text, bytes) else text.encode()) + b"\0", 1)

    def section(self, which, *records):
        self.b.sections[which] = (1, self.words(*records), 8 * len(records))

    def rebase(self, slot, target):
        self.b.rebases.append((slot & M64, target & M64))

    def bind(self, slot, name):
        at = len(self.b.image)
        self.b.image.extend(name.encode())
        self.b.binds.append((slot & M64, at, len(name.encode())))

    def show(self, v, vmsize, fileoff, filesize):
        self.b.segments.append((v & M64, vmsize & M64, fileoff & M64, filesize & M64))

    def pack(self):
        n = len(self.b.image)
        shown = self.b.segments
        if self.own:
            self.b.segments = [(self.BASE, n, 0, n), *shown]
        out = self.b.pack()
        self.b.segments = shown
        return out

    # -- records as bytes, and placed

    def class_ro(self, methods=0, protocols=0, ivars=0, properties=0, name="Hub"):
        return struct.pack("<4I7Q", 0, 8, 16, 0, 0, self.text(name), methods, protocols, ivars, 0, properties)

    def with_ro(self, **lists):
        """A class in class_list whose class_ro has these lists."""
        ro = self.add(self.class_ro(**lists))
        self.section(CLASSES, self.words(0, 0, 0, 0, ro))

    def methods(self, form, rows=2):
        out = struct.pack("<II", {"legacy": 24, "indirect": 0x8000000C, "direct": 0xC000000C}[form], rows)
        for i in range(rows):
            if form == "legacy":
                out += struct.pack("<3Q", self.text("up%d" % i), self.text("v"), 0x2000 + i)
            else:       # the window's distance is known, so relative offsets reach texts that stand at 0x1000
                selector = self.text("up%d" % i)
                if form == "indirect":
                    selector = self.words(selector)
                e = WINDOW + 8 + 12 * i
                out += struct.pack("<3i", selector - e, self.text("v") - e - 4, 16)
        return out

    def ivars(self, rows=2):
        out = struct.pack("<II", 32, rows)
        for i in range(rows):
            cell = self.add(struct.pack("<I", 8 * i), 4)
            out += struct.pack("<3Q2I", cell, self.text("_i%d" % i), self.text("q"), 3, 8)
        return out

    def properties(self, rows=2):
        out = struct.pack("<II", 16, rows)
        for i in range(rows):
            out += struct.pack("<2Q", self.text("p%d" % i), self.text("Ti,R"))
        return out

    def names(self, name):
        """A protocol list with one bound name."""
        at = self.words(1, 0)
        self.bind(at + 8, "_OBJC_PROTOCOL_$_" + name)
        return at

    def protocol(self, size, name="Proto"):
        lists = [self.names("Above")] + [self.add(self.methods("legacy", 1)) for _ in range(4)]
        out = struct.pack("<8Q2I", 0, self.text(name), *lists, self.add(self.properties(1)), size, 5)
        if size > 72:
            out += struct.pack("<3Q", 0, 0, self.add(self.properties(1)))
        return out

    def category(self, wide):
        methods = [self.add(self.methods("legacy", 1)) for _ in range(2)]
        out = struct.pack("<6Q", self.text("Cat"), 0, *methods, self.names("Added"), self.add(self.properties(1)))
        return out + (struct.pack("<Q", self.add(self.properties(1))) if wide else b"")


# -- 13, 2, 3, 7, 14

def diamond():
    """The ◆ bundle of document 01."""
    b = Bundle()
    b.image = bytearray(191)
    struct.pack_into("<Q", b.image, 0x20, 0x1028)
    struct.pack_into("<2I", b.image, 0x28 + 4, 8, 8)
    struct.pack_into("<2Q", b.image, 0x28 + 24, 0x1090, 0x1070)
    struct.pack_into("<2I3Q", b.image, 0x70, 24, 0xFFFFFFFF, 0x1094, 0x1097, 0x2000)
    b.image[0x90:0x99] = b"Hub\0up\0v\0"
    struct.pack_into("<Q", b.image, 0xA0, 0x1000)
    b.image[0xA8:0xA8 + 22] = b"_OBJC_CLASS_$_NSObject"
    b.segments, b.binds = [(0x1000, 191, 0, 191)], [(0x1008, 168, 22)]
    b.sections[CLASSES] = (1, 0x10A0, 8)
    return b


def lengths():
    whole = diamond().pack()
    for k in range(40, len(whole) + 34):        # those below: `more_lengths`
        yield "length %d" % k, (whole + bytes(34))[:k]
    for i in range(4):
        count = struct.unpack_from("<Q", whole, 8 * i)[0]
        # counts one off, and ones whose product is right modulo a power of two
        others = [count - 1, count + 1, M64, 1 << 63, 1 << 32] + [count + (1 << k) for k in range(24, 64)]
        for other in others:
            if other & M64 != count:
                yield "count %d %x" % (i, other), whole[:8 * i] + struct.pack("<Q", other & M64) + whole[8 * i + 8:]
    # counts that make the sum right modulo 2^64 together
    for segments, rebases, binds in itertools.product((0, 1 << 58, 1 << 59), (0, 1 << 59, 1 << 60), (0, 1 << 61)):
        tables = Bundle.SEGMENT * segments + 16 * rebases + Bundle.BIND * binds
        counts = struct.pack("<4Q", segments, rebases, binds, (len(whole) - Bundle.HEAD - tables) & M64)
        yield "sum %x %x %x" % (segments, rebases, binds), counts + whole[32:]
    for total in range(32760, 32778):
        b = diamond()
        b.image.extend(bytes(total - b.size()))
        yield "total %d" % total, b.pack()
    yield "empty", Bundle().pack()


def refused():
    for count in (0, 1, 2, 62, 63, 64, 65, 66, 128):
        b = diamond()
        b.segments += [(0, 0, 0, 0)] * (count - 1)
        del b.segments[count:]
        yield "segments %d" % count, b.pack()
    n = len(diamond().image)
    for k, present in itertools.product(range(5), (0, 1, 2, 3, 256, 1 << 32, 1 << 63, M64)):
        for length in (0, n - 1, n, n + 1, 1 << 32, M64):
            b = diamond()
            b.sections[k] = (present, 0x10A0, length)
            yield "section %d %x %x" % (k, present, length), b.pack()
    places = (0, 1, n - 1, n, n + 1, 1 << 32, M64 - n, M64)
    for at, length in itertools.product(places, (0, 1, 2, n - 1, n, n + 1, M64)):
        b = diamond()
        b.binds.append((0x1008, at, length))
        yield "bind name %x %x" % (at, length), b.pack()
    for k in range(8):      # which of 2, 3 and 7 comes first
        b = diamond()
        b.segments += [(0, 0, 0, 0)] * (64 * (k & 1))
        if k & 2:
            b.sections[3] = (2, 0, 0)
        if k & 4:
            b.binds.insert(0, (0, n, 1))
        yield "order %d" % k, b.pack()


# -- a record, list or text cut at each of its bytes

WAYS = {
    "image": "the image ends there",
    "spliced": "the image ends there, but all bytes behind the first are also shown whole from elsewhere",
    "vmsize": "its segment's range ends there",
    "filesize": "its segment's file part ends there",
    "top": "2^64 is there",
    "wrapped": "2^64 is there, and address 0 shows what would follow",
    "hole": "the byte there alone is not shown",
}


def cut(maker, how, k, filled):
    """The bundle with a made record cut at byte k, with or without rebases at all its slots, past the cut too."""
    s = Sketch()
    body, aim = maker(s)
    v = TOP - k if how in ("top", "wrapped") else WINDOW
    aim(s, v & M64)
    if filled:
        for field in range(0, len(body) - 7, 8):
            s.rebase(v + field, struct.unpack_from("<Q", body, field)[0])
    at = len(s.b.image)
    if how == "image":
        s.b.image.extend(body[:k])
        s.show(v, 0x1000, at, 0x1000)
        return s.pack()
    s.b.image.extend(body + bytes(8))
    if how == "spliced":
        s.show(v + 1, 0x1000, at + 1, 0x1000)
        s.show(v, 0x1000, len(s.b.image), 0x1000)
        s.b.image.extend(body[:k])
    elif how == "filesize":
        s.show(v, 0x1000, at, k)
    elif how in ("top", "wrapped"):
        s.show(v, max(0, k - 1), at, 0x1000)
        if how == "wrapped":
            s.show(0, 0x1000, at + k, 0x1000)
    else:
        s.show(v, k, at, 0x1000)
        if how == "hole":
            s.show(v + k + 1, 0x1000, at + k + 1, 0x1000)
    return s.pack()


def cuts():
    """Makers give a record's bytes and the function that aims a pointer at where it is shown."""
    def in_section(which):
        def aim(s, v):
            s.section(which, 0)
            s.rebase(s.b.sections[which][1], v)
        return aim

    def at_slot(slot):
        return lambda s, v: s.rebase(slot, v)

    def full_ro(s, name):
        lists = s.methods("legacy", 1), s.words(1, s.add(s.protocol(72))), s.ivars(1), s.properties(1)
        return s.class_ro(*[x if isinstance(x, int) else s.add(x) for x in lists], name)

    def class_bytes(s):
        above = s.words(0, 0, 0, 0, s.add(s.class_ro()))
        return struct.pack("<5Q", 0, above, 0, 0, s.add(full_ro(s, "Cut")))

    def klass(s):
        return class_bytes(s), in_section(CLASSES)

    def metaclass(s):
        body = class_bytes(s)
        outer = s.words(0, 0, 0, 0, s.add(s.class_ro()))
        s.section(CLASSES, outer)
        return body, at_slot(outer)

    def superclass(s):
        body = class_bytes(s)
        outer = s.words(0, 0, 0, 0, s.add(s.class_ro()))
        s.section(CLASSES, outer)
        s.bind(outer + 8, "_OBJC_CLASS_$_Bound")
        return body, at_slot(outer + 8)

    def class_ro(s):
        body = full_ro(s, "Cut")
        outer = s.words(0, 0, 0, 0, 5)
        s.section(CLASSES, outer)
        return body, at_slot(outer + 32)

    def name_of_superclass(s):
        body = s.class_ro(name="Above")
        above = s.words(0, 0, 0, 0, 0)
        s.section(CLASSES, s.words(0, above, 0, 0, s.add(s.class_ro())))
        return body, at_slot(above + 32)

    def protocol(size):
        return lambda s: (s.protocol(size), in_section(PROTOCOLS))

    def named_protocol(size):
        def make(s):
            body = s.protocol(size, "Named")
            names = s.words(1, 0)
            s.with_ro(protocols=names)
            s.bind(names + 8, "_OBJC_PROTOCOL_$_Bound")
            return body, at_slot(names + 8)
        return make

    def category(wide):
        def make(s):
            s.b.info = (0, 0x40 if wide else 0)
            return s.category(wide), in_section(CATEGORIES)
        return make

    def listed(field, body):
        def make(s):
            made = body(s)
            ro = s.add(s.class_ro())
            s.section(CLASSES, s.words(0, 0, 0, 0, ro))
            return made, at_slot(ro + field)
        return make

    def protocol_names(s):
        body = struct.pack("<3Q", 2, s.add(s.protocol(72, "One")), s.add(s.protocol(72, "Two")))
        ro = s.add(s.class_ro())
        s.section(CLASSES, s.words(0, 0, 0, 0, ro))
        return body, at_slot(ro + 40)

    def cell(s):            # the u32 that an ivar's offset slot points to
        ivars = s.add(s.ivars(1))
        s.with_ro(ivars=ivars)
        return struct.pack("<I", 0x12345678), at_slot(ivars + 8)

    def name(s):
        properties = s.add(s.properties(1))
        s.with_ro(properties=properties)
        return "aé🙂".encode() + b"\0", at_slot(properties + 8)

    def selector_slot(s):   # the slot of an indirect selector
        text = s.text("up")
        body = struct.pack("<Q", text)
        methods = s.add(struct.pack("<2I3i", 0x8000000C, 1, 0, 0, 0))
        s.with_ro(methods=methods)

        def aim(sketch, v):
            d = (v - methods - 8 + (1 << 63)) % TOP - (1 << 63)
            struct.pack_into("<i", sketch.b.image, methods + 8 - sketch.BASE, d if abs(d) < 1 << 31 else 0)
        return body, aim

    makers = {"class": klass, "metaclass": metaclass, "superclass": superclass, "class_ro": class_ro,
              "superclass's class_ro": name_of_superclass, "protocol 72": protocol(72), "protocol 96": protocol(96),
              "named protocol 72": named_protocol(72), "named protocol 96": named_protocol(96),
              "category 48": category(False), "category 56": category(True),
              "legacy": listed(32, lambda s: s.methods("legacy")),
              "indirect": listed(32, lambda s: s.methods("indirect")),
              "direct": listed(32, lambda s: s.methods("direct")), "ivars": listed(48, Sketch.ivars),
              "properties": listed(64, Sketch.properties), "protocol names": protocol_names, "cell": cell, "name": name,
              "selector slot": selector_slot}
    for kind, maker in makers.items():
        length = len(maker(Sketch())[0])
        for k, how, filled in itertools.product(range(length + 2), WAYS, (0, 1)):
            yield "cut %s %s %d %d" % (kind, how, k, filled), cut(maker, how, k, filled)


# -- lists

def rows_of(s, field, count):
    if field == "methods":
        return s.methods("legacy", count)[8:]
    if field == "ivars":
        return s.ivars(count)[8:]
    if field == "properties":
        return s.properties(count)[8:]
    return struct.pack("<%dQ" % count, *[s.add(s.protocol(72)) for _ in range(count)])


def list_heads():
    flags = (0, 0x40000000, 0x80000000, 0xC0000000, 0x10000, 0x3FFF0000, 0xFFFF0000)
    lows = list(range(50)) + list(range(0xFFF4, 0x10000))
    cases = [("methods", f | low) for f in flags for low in lows]
    cases += [("ivars", w) for w in [*range(66), 0xFFFF, 0x10020, 0x80000020, 0xFFFFFFFF]]
    cases += [("properties", w) for w in [*range(50), 0xFFFF, 0x10010, 0x80000010, 0xFFFFFFFF]]
    for field, word in cases:
        for count in (2, 0xFFFFFFFF):
            s = Sketch()
            at = s.add(struct.pack("<2I", word, count) + rows_of(s, field, 3))
            s.with_ro(**{field: at})
            yield "head %s %x %x" % (field, word, count), s.pack()
    kinds = {"methods": 24, "ivars": 32, "properties": 16, "protocols": 0}
    for field, count, odd in itertools.product(kinds, (0, 1, 2, 3, 4, 0x7FFFFFFF, 0xFFFFFFFF), range(9)):
        if field == "protocols" and count > 4:
            continue        # protocol_sizes() has these
        s = Sketch()
        head = struct.pack("<Q", count) if field == "protocols" else struct.pack("<2I", kinds[field], count)
        at = s.add(bytes(odd) + head + rows_of(s, field, 2)) + odd
        s.with_ro(**{field: at})
        yield "list %s %x at +%d" % (field, count, odd), s.pack()


def windows():
    """A property list without end, its head alone in a window; one further segment from a grid, before or after it."""
    grid = itertools.product((-24, -8, 0, 8, 16, 24, 48, 0xFFFFFFF0 * 16, 0xFFFFFFFE * 16), (0, 1, 16, 17, 40),
                             ("rows", "end - 16", "end - 15", "over"), (0, 1, 16, 40), (0, 1))
    for distance, vmsize, source, filesize, first in grid:
        s = Sketch()
        s.with_ro(properties=WINDOW)
        rows = s.properties(2)[8:]
        head = len(s.b.image)
        s.b.image.extend(struct.pack("<2I", 16, 0xFFFFFFFF) + rows)
        n = len(s.b.image)
        fileoff = {"rows": head + 8, "end - 16": n - 16, "end - 15": n - 15, "over": M64 - 20}[source]
        s.show(WINDOW, 8, head, 8)
        s.b.segments.insert(1 - first, (WINDOW + 8 + distance, vmsize, fileoff, filesize))
        yield "window %d %d %s %d %d" % (distance, vmsize, source, filesize, first), s.pack()


def lookups():
    """A class, and a segment that shows other bytes or none over a part of it, before or after the image's own."""
    grid = itertools.product((-8, 0, 1, 8, 32, 39, 40), (0, 1, 8, 40), ("same", "end", "over"), (0, 1, 8, 40, M64),
                             (0, 1))
    for distance, vmsize, source, filesize, first in grid:
        s = Sketch()
        ro = s.add(s.class_ro())
        meta = s.words(0, 0, 0, 0, ro)
        klass = s.words(meta, meta, 0, 0, ro)
        s.section(CLASSES, klass)
        n = len(s.b.image)
        fileoff = {"same": klass + distance - s.BASE, "end": n - 8, "over": M64 - 3}[source]
        extra = (klass + distance, vmsize, fileoff, filesize)
        s.own = False
        own = (s.BASE, n, 0, n)
        s.b.segments = [extra, own] if first else [own, extra]
        yield "lookup %d %d %s %x %d" % (distance, vmsize, source, filesize, first), s.pack()
    # a segment that passes 64 bits ends the lookup, one that reaches 2^64 - 1 does not
    for end, size, filesize, place in itertools.product((-2, -1, 0, 1, 2), (0, 1, 8, 1 << 63), (0, 1, 8), (0, 1)):
        s = Sketch()
        s.with_ro(methods=s.add(s.methods("legacy")))
        v = TOP + end - size
        if 0 <= v <= M64:
            n = len(s.b.image)
            s.own = False
            s.b.segments = [(s.BASE, n, 0, n)]
            s.b.segments.insert(place, (v, size, 0, filesize))
            yield "segment %x to 2^64 + %d, %d, %d" % (v, end, filesize, place), s.pack()


def protocol_sizes():
    sizes = 0, 1, 71, 72, 73, 80, 87, 88, 89, 95, 96, 97, 104, 0x7FFFFFFF, 0xFFFFFFFF
    for size, reach, filled in itertools.product(sizes, (72, 88, 95, 96, 97), (0, 1)):
        s = Sketch()
        body = bytearray(s.protocol(96))
        struct.pack_into("<I", body, 64, size)
        s.section(PROTOCOLS, WINDOW)
        if filled:
            s.rebase(WINDOW + 88, struct.unpack_from("<Q", body, 88)[0])
        at = len(s.b.image)
        s.b.image.extend(body[:reach])
        s.show(WINDOW, 0x1000, at, 0x1000)
        yield "protocol size %x %d %d" % (size, reach, filled), s.pack()
    for count in ((1 << 20) - 1, 1 << 20, (1 << 20) + 1, M64):
        s = Sketch()
        names = s.words(count)
        s.with_ro(protocols=names)
        for i in ((1 << 20) - 2, (1 << 20) - 1, 1 << 20):
            s.bind(names + 8 + 8 * i, "_OBJC_PROTOCOL_$_Far")
        yield "protocol names %x" % count, s.pack()


# -- pointers and masks

def masks():
    for bit in range(64):
        s = Sketch()
        ro = s.add(s.class_ro())
        klass = s.words(0, 0, 0, 0, ro ^ (1 << bit))
        s.section(CLASSES, klass, s.words(0, klass, 0, 0, ro))
        yield "bits word, bit %d" % bit, s.pack()
        for shown in (ro ^ (1 << bit), (ro ^ (1 << bit)) & 0x0F007FFFFFFFFFF8):
            s = Sketch()
            body = s.class_ro(name="Shown")
            ro = s.add(s.class_ro())
            klass = s.words(0, 0, 0, 0, ro ^ (1 << bit))
            s.section(CLASSES, klass, s.words(0, klass, 0, 0, ro))
            s.show(shown, 72, len(s.b.image), 72)
            s.b.image.extend(body)
            yield "bits word, bit %d, shown %x" % (bit, shown), s.pack()
        for place in ("slot", "bits", "isa"):
            s = Sketch()
            ro = s.add(s.class_ro())
            inner = s.words(0, 0, 0, 0, ro)
            klass = s.words(0, 0, 0, 0, ro)
            s.section(CLASSES, klass)
            slot, target = {"slot": (s.b.sections[0][1], klass), "bits": (klass + 32, ro), "isa": (klass, inner)}[place]
            struct.pack_into("<Q", s.b.image, slot - s.BASE, target ^ (1 << bit))
            yield "%s, bit %d stored" % (place, bit), s.pack()
            s.rebase(slot, target ^ (1 << bit))
            yield "%s, bit %d rebased" % (place, bit), s.pack()


def chains():
    for order in itertools.permutations(range(5)):
        s = Sketch()
        ros = [s.add(s.class_ro(name="Ro%d" % i)) for i in range(3)]
        klass = s.words(0, 0, 0, 0, 0)
        s.section(CLASSES, klass)
        slot = klass + 32
        rows = [(slot, ros[0]), (slot, ros[1]), (slot + 32768, ros[2]), (slot + 1, ros[2]), (slot - 32768, 0)]
        for i in order:
            s.rebase(*rows[i])
        for i in order:
            s.bind(klass + 8 + (0, 0, 32768, 1, -32768)[i], "_OBJC_CLASS_$_B%d" % i)
        yield "chain %d%d%d%d%d" % order, s.pack()


def prefixes():
    names = [""] + [p[:i] + end for p in PREFIXES for i in range(len(p) + 1) for end in ("", "X")]
    names += [p + q + "X" for p in PREFIXES for q in PREFIXES] + [" " + PREFIXES[0]] + [p + "é" for p in PREFIXES]
    for part in range(0, len(names), 100):
        s = Sketch()
        some = names[part:part + 100]
        at = s.words(len(some), *[0] * len(some))
        s.with_ro(protocols=at)
        for i, name in enumerate(some):
            s.bind(at + 8 + 8 * i, name)
        yield "prefixes %d" % part, s.pack()
    for name in (PREFIXES[0], PREFIXES[1] + "Meta", "", "Plain"):
        s = Sketch()
        s.b.info = (0, 0)
        klass = s.words(0, 0, 0, 0, s.add(s.class_ro()))
        s.section(CLASSES, klass)
        category = s.add(s.category(False))
        s.section(CATEGORIES, category)
        s.bind(klass + 8, name)
        s.bind(category + 8, name)
        yield "bound %r" % name, s.pack()


def zeros():
    """A record, list, text or cell at address 0, which a pointer does not name, and at 8, which it does."""
    def klass(s):
        return struct.pack("<5Q", 0, 0, 0, 0, s.add(s.class_ro(name="Low")))

    bodies = {"class": klass, "metaclass": klass, "superclass": klass, "category's class": klass,
              "category": lambda s: s.category(False), "protocol": lambda s: s.protocol(72),
              "named": lambda s: s.protocol(72), "named or bound": lambda s: s.protocol(72),
              "methods": lambda s: s.methods("legacy"), "ivars": Sketch.ivars, "properties": Sketch.properties,
              "protocols": lambda s: struct.pack("<2Q", 1, s.add(s.protocol(72))), "text": lambda s: b"low",
              "cell": lambda s: b"\1\2\3\4"}
    for (kind, body), at in itertools.product(bodies.items(), (0, 8)):
        s = Sketch()
        s.BASE = 0
        s.add(bytes(96))
        made = body(s)
        s.b.image[at:at + len(made)] = made
        if kind in ("methods", "ivars", "properties", "protocols"):
            s.with_ro(**{kind: at})
        elif kind in ("class", "category", "protocol"):
            s.section({"class": CLASSES, "category": CATEGORIES, "protocol": PROTOCOLS}[kind], at)
        elif kind in ("metaclass", "superclass"):
            ro = s.add(s.class_ro())
            s.section(CLASSES, s.words(at, 0, 0, 0, ro) if kind == "metaclass" else s.words(0, at, 0, 0, ro))
        elif kind == "category's class":
            category = bytearray(s.category(False))
            struct.pack_into("<Q", category, 8, at)
            s.section(CATEGORIES, s.add(category))
        elif kind in ("named", "named or bound"):
            names = s.words(1, at)
            s.with_ro(protocols=names)
            if kind == "named or bound":
                s.bind(names + 8, "_OBJC_PROTOCOL_$_Bound")
        elif kind == "text":
            s.with_ro(properties=s.words(16 | 1 << 32, at, at), methods=s.words(24 | 1 << 32, s.text("up"), at, 0))
        else:
            s.with_ro(ivars=s.words(32 | 1 << 32, at, s.text("_i"), 0, 0))
        yield "%s at %d" % (kind, at), s.pack()
        s.b.rebases += [(slot, at) for slot in range(0, len(s.b.image), 8)
                        if s.b.image[slot:slot + 8] == struct.pack("<Q", at) and slot >= 96]
        yield "%s at %d, rebased" % (kind, at), s.pack()


# -- rows

def texts():
    """UTF-8: all texts of one and two bytes; of three and four bytes those made of the bytes where ranges end."""
    edge = bytes([0x01, 0x7F, 0x80, 0x81, 0x8F, 0x90, 0x9F, 0xA0, 0xBF, 0xC0, 0xE0, 0xFF])
    leads = bytes([0x41, 0xC1, 0xC2, 0xDF, 0xE0, 0xE1, 0xEC, 0xED, 0xEE, 0xEF, 0xF0, 0xF1, 0xF3, 0xF4, 0xF5, 0xFF])
    every = [bytes([a]) for a in range(256)] + [bytes(p) for p in itertools.product(range(256), repeat=2)]
    every += [bytes(p) for p in itertools.product(leads, edge, edge)]
    every += [bytes(p) for p in itertools.product(leads[4:], edge, edge, edge)]
    every += [bytes(p) + b"z" for p in itertools.product(leads[4:], edge, edge)]
    for part in range(0, len(every), 1450):
        s = Sketch()
        some = every[part:part + 1450]
        places = [s.text(t) for t in some]
        rows = b"".join(struct.pack("<2Q", a, 0) for a in places)
        s.with_ro(properties=s.add(struct.pack("<2I", 16, len(some)) + rows))
        yield "texts %d" % part, s.pack()
    for tail in (b"a", b"ab", "é".encode(), b"\xc3", b"\xe6\xbc", b"\xf0\x9f\x99", b"a\0"):
        for back in range(-2, 5):
            s = Sketch()
            properties = s.add(s.properties(1))
            s.with_ro(properties=properties)
            s.b.image.extend(tail)
            n = len(s.b.image)
            s.rebase(properties + 8, WINDOW + 8 - back)
            s.show(WINDOW, 0x1000, n - 8, 0x1000)
            yield "text %r from %d before the end" % (tail, back), s.pack()


def alignments():
    words = [*range(0x200), *range(0xFFFFFF00, 0x100000000)]
    for part in (0, 1):
        s = Sketch()
        name = s.text("_i")
        some = words[part::2]
        rows = b"".join(struct.pack("<3Q2I", 0, name, name, w, w) for w in some)
        s.with_ro(ivars=s.add(struct.pack("<2I", 32, len(some)) + rows))
        yield "alignments %d" % part, s.pack()


def relatives():
    """A small method alone at a window; one field has the offset under test, and its target is shown."""
    offsets = (-0x80000000, -0x7FFFFFFF, -0x10000, -13, -12, -9, -8, -4, -1, 0, 1, 4, 8, 12, 0x10000, 0x7FFFFFFE,
               0x7FFFFFFF)
    # from the third an offset passes 2^64, from the fourth an imp is 0 after masking, from the fifth a target is 0
    places = WINDOW, 0x180000000, TOP - 64, (1 << 48) - 0x10010, 0x80000000 - 16
    for form, field, offset, v in itertools.product((0x8000000C, 0xC000000C), (0, 4, 8), offsets, places):
        s = Sketch()
        ro = s.add(s.class_ro())
        s.section(CLASSES, s.words(0, 0, 0, 0, ro))
        s.rebase(ro + 32, v)
        e = v + 8
        fields = [0, 0, 0]
        text = s.text("target")
        slot = s.words(text)
        fields[field // 4] = offset
        at = s.add(struct.pack("<2I3i", form, 1, *fields)) - s.BASE
        target = (e + field + offset) & M64
        s.own = False
        n = len(s.b.image)
        shown = slot if field == 0 and form == 0x8000000C else text
        s.b.segments = [(s.BASE, n, 0, n), (v, 20, at, 20)]
        s.show(target, 8 if target <= TOP - 9 else M64 - target, shown - s.BASE, 8)
        if field != 0:          # a selector that is there, so that the row is
            if form == 0x8000000C:
                s.rebase(e, text)
            else:
                struct.pack_into("<I", s.b.image, at + 8, 0x40)
                s.show((e + 0x40) & M64, 8, text - s.BASE, 8)
        yield "relative %x +%d %d at %x" % (form, field, offset, v), s.pack()


# -- sections and image info

def sections():
    for present in range(32):
        s = Sketch()
        ro = s.add(s.class_ro())
        klass, other = s.words(0, 0, 0, 0, ro), s.words(0, 0, 0, 0, ro)
        category, category2 = s.add(s.category(False)), s.add(s.category(False))
        protocol = s.add(s.protocol(72))
        tables = ((klass, 0, klass, 7), (other, klass, other), (category, category), (category2, category, 9),
                  (protocol, 0, protocol, 9))
        for k, records in enumerate(tables):
            s.section(k, *records)
            if not present >> k & 1:
                s.b.sections[k] = (0, M64, M64)
        yield "sections %x" % present, s.pack()
    for length in range(34):
        for k in range(5):
            s = Sketch()
            ro = s.add(s.class_ro())
            klass, category = struct.pack("<5Q", 0, 0, 0, 0, ro), s.category(False)
            record = (klass, klass, category, category, s.protocol(72))[k]
            s.section(k, *[s.add(record) for _ in range(4)])
            s.b.sections[k] = (1, s.b.sections[k][1], length)
            yield "section %d of %d bytes" % (k, length), s.pack()
    for back in range(34):
        s = Sketch()
        ro = s.add(s.class_ro())
        klass, category, protocol = s.words(0, 0, 0, 0, ro), s.add(s.category(False)), s.add(s.protocol(72))
        for i, (k, record) in enumerate(((CLASSES, klass), (NL_CATEGORIES, category), (PROTOCOLS, protocol))):
            s.b.sections[k] = (1, TOP - back, 40)
            s.rebase(TOP - back + 8 * (i + 1), record)
        yield "sections from 2^64 - %d" % back, s.pack()


def info():
    words = [(0, 1 << k) for k in range(32)] + [(1 << k, 0) for k in range(32)] + [(0xFFFFFFFF, 0xFFFFFFFF)]
    for version, flags in words:
        for length in (48, 55, 56):
            s = Sketch()
            s.b.info = (version, flags)
            body = s.category(True)
            s.section(CATEGORIES, WINDOW)
            at = len(s.b.image)
            s.b.image.extend(body[:length])
            s.show(WINDOW, 0x100, at, 0x100)
            yield "info %x %x %d" % (version, flags, length), s.pack()


# -- the smallest of some kinds

UTF8 = [                            # RFC 3629, section 4: the range of each byte
    [(0xC2, 0xDF), (0x80, 0xBF)],
    [(0xE0, 0xE0), (0xA0, 0xBF), (0x80, 0xBF)],
    [(0xE1, 0xEC), (0x80, 0xBF), (0x80, 0xBF)],
    [(0xED, 0xED), (0x80, 0x9F), (0x80, 0xBF)],
    [(0xEE, 0xEF), (0x80, 0xBF), (0x80, 0xBF)],
    [(0xF0, 0xF0), (0x90, 0xBF), (0x80, 0xBF), (0x80, 0xBF)],
    [(0xF1, 0xF3), (0x80, 0xBF), (0x80, 0xBF), (0x80, 0xBF)],
    [(0xF4, 0xF4), (0x80, 0x8F), (0x80, 0xBF), (0x80, 0xBF)],
]


def ranges():
    """Both sides of both ends of each range, the other bytes of the character the least or the greatest."""
    texts = {b"\x7f", b"\x80"}
    for character, end in itertools.product(UTF8, (0, 1)):
        for i, (low, high) in enumerate(character):
            for byte in (low - 1, low, high, high + 1):
                text = bytes(byte if j == i else pair[end] for j, pair in enumerate(character))
                texts |= {text, text[:-1]}
    s = Sketch()
    places = [s.text(text) for text in sorted(texts)]
    rows = b"".join(struct.pack("<2Q", a, 0) for a in places)
    s.with_ro(properties=s.add(struct.pack("<2I", 16, len(texts)) + rows))
    yield "ranges of UTF-8", s.pack()


def entries():
    """A list of more than a thousand entries, by 60 segments that all show the same 20; none has a name."""
    s = Sketch()
    s.with_ro(properties=WINDOW)
    head = len(s.b.image)
    s.b.image.extend(struct.pack("<2I", 16, 0xFFFFFFFF) + bytes(320))
    s.show(WINDOW, 8, head, 8)
    for i in range(60):
        s.show(WINDOW + 8 + 320 * i, 320, head + 8, 320)
    yield "entries 1200", s.pack()


# -- inputs of docs/DIFFERENCES.md that no family above has

def differences():
    for word in (3, 0x100, 0xFFFFFFFF):
        s = Sketch()
        s.with_ro(ivars=s.add(struct.pack("<2I3Q2I", 32, 1, 0, s.text("_i"), s.text("q"), word, 8)))
        yield "alignment %x" % word, s.pack()
    s = Sketch()
    cell = s.words(0x100000008)
    s.with_ro(ivars=s.add(struct.pack("<2I3Q2I", 32, 1, cell, s.text("_i"), s.text("q"), 3, 8)))
    yield "offset of 64 bits", s.pack()
    for ordinal in (0, 1):          # a bound slot that holds an ordinal, where address 0 is mapped
        s = Sketch()
        s.BASE = 0
        s.add(bytes(48))
        s.b.image[1:41] = struct.pack("<5Q", 0, 0, 0, 0, s.add(s.class_ro(name="Low")))
        klass = s.words(0, ordinal, 0, 0, s.add(s.class_ro()))
        s.section(CLASSES, klass)
        s.bind(klass + 8, "_OBJC_CLASS_$_Bound")
        yield "bound slot holds %d" % ordinal, s.pack()


# -- alignments beside offsets (note 8); last, so that the bundles before keep their numbers

def aligned():
    words = (0, 1, 2, 3, 4, 31, 32, 33, 40, 62, 63, 64, 65, 0xFF, 0x100, 0x103, 0x80000000, 0xFFFFFFFE, 0xFFFFFFFF)
    offsets = (None, 0, 1, 2, 3, 4, 8, 12, 16, 0x100, 0x40000000, 0x80000000, 0xC0000000, 0xFFFFFFFF)

    def bundle(rows):
        s = Sketch()
        name, rows = s.text("_i"), list(rows)
        cells = [0 if offset is None else s.add(struct.pack("<I", offset), 4) for _, offset in rows]
        some = b"".join(struct.pack("<3Q2I", cell, name, 0, word, 8) for cell, (word, _) in zip(cells, rows))
        s.with_ro(ivars=s.add(struct.pack("<2I", 32, len(rows)) + some))
        return s.pack()

    for word in words:
        yield "alignment word %x" % word, bundle((word, offset) for offset in offsets)
    for offset in offsets[1:]:
        yield "ivar offset %x" % offset, bundle((word, offset) for word in [*range(66), *words[13:]])


# -- bind names, 7 of all before 14 of all (note 2); last, so that the bundles before keep their numbers

def bind_names():
    n = len(diamond().image)
    names = b"ok", b"\xc3\xa9", b"\xff", b"a\xc3", b"\xe2(", b"\xe2\x82", b"\xed\xa0\x80", b"\xc0\x80", b"\xf4\x90\x80\x80"

    def bundle(*binds, segments=0, present=1):
        b = diamond()
        b.segments += [(0, 0, 0, 0)] * segments
        b.sections[3] = (present, 0, 0)
        for at, text, longer in binds:
            b.binds.insert(at, (0, len(b.image), len(text) + longer))
            b.image.extend(text)
        return b.pack()

    for name in names:
        for at in (0, 1):
            yield "bound name %s at %d" % (name.hex(), at), bundle((at, name, 0))
    for k in range(16):     # which of 2, 3, 7 and 14 comes first, the name that is not UTF-8 before the one outside
        binds = ([(0, b"\xe2(", 0)] if k & 8 else []) + ([(1 + (k >> 3), b"x", 1)] if k & 4 else [])
        yield "names order %d" % k, bundle(*binds, segments=64 * (k & 1), present=1 + (k >> 1 & 1))


# -- the last string of the image, by how it ends (note 12); last, so that the bundles before keep their numbers

ENDS = {"zero": b"end\0", "image": b"end", "nothing": b"", "past": None, "character": b"end\xe2\x82", "bad byte": b"e\xffd",
        "character, zero": b"end\xe2\x82\0", "whole character": "endé".encode(), "space": b" "}


def ends():
    def class_name(s):
        ro = s.add(s.class_ro())
        s.section(CLASSES, s.words(0, 0, 0, 0, ro))
        return ro + 24

    def superclass_name(s):
        ro = s.add(s.class_ro(name="Above"))
        above = s.words(0, 0, 0, 0, ro)
        s.section(CLASSES, s.words(0, above, 0, 0, s.add(s.class_ro())))
        return ro + 24

    def listed(field, body, at):
        def make(s):
            made = s.add(body(s))
            s.with_ro(**{field: made})
            return made + 8 + at
        return make

    def direct_selector(s):
        methods = s.add(struct.pack("<2I6i", 0xC000000C, 2, 0, 0, 0, 0, 0, 0))
        s.with_ro(methods=methods)
        return lambda a: struct.pack_into("<2i", s.b.image, methods + 8 - s.BASE, a - methods - 8, a - methods - 12)

    def protocol_name(s):
        protocol = s.add(s.protocol(72))
        s.section(PROTOCOLS, protocol)
        return protocol + 8

    def listed_protocol_name(s):
        protocol = s.add(s.protocol(72))
        s.with_ro(protocols=s.words(2, s.add(s.protocol(72, "First")), protocol))
        return protocol + 8

    def bound_protocol_name(s):     # the bind stands for a protocol whose name has no end
        protocol = s.add(s.protocol(72))
        names = s.words(1, protocol)
        s.with_ro(protocols=names)
        s.bind(names + 8, "_OBJC_PROTOCOL_$_Bound")
        return protocol + 8

    def category_name(s):
        category = s.add(s.category(False))
        s.section(CATEGORIES, category)
        return category

    makers = {"class name": class_name, "superclass name": superclass_name,
              "selector": listed("methods", lambda s: s.methods("legacy"), 24),
              "types": listed("methods", lambda s: s.methods("legacy"), 8), "direct selector": direct_selector,
              "ivar name": listed("ivars", lambda s: s.ivars(), 8), "ivar type": listed("ivars", lambda s: s.ivars(), 16),
              "property name": listed("properties", lambda s: s.properties(), 0),
              "attributes": listed("properties", lambda s: s.properties(), 8), "protocol name": protocol_name,
              "listed protocol name": listed_protocol_name, "bound protocol name": bound_protocol_name,
              "category name": category_name}
    for what, maker in makers.items():
        for how, tail in ENDS.items():
            s = Sketch()
            slot = maker(s)
            a = s.BASE + len(s.b.image) + (tail is None)
            if callable(slot):
                slot(a)
            else:
                s.rebase(slot, a)
            n = len(s.b.image)
            s.b.image.extend(tail or b"")
            s.own = False           # a segment with room past the image's end
            s.b.segments.append((s.BASE, n + 64, 0, n + 64))
            yield "%s ends by %s" % (what, how), s.pack()


# -- several files (note 6); last, so that the bundles before keep their numbers

def more_lengths():
    """The shortest lengths, and the counts of the other three files."""
    whole = diamond().pack()
    for k in range(40):
        yield "length %d" % k, whole[:k]
    for i in range(4, 7):
        for other in [1, M64, 1 << 63, 1 << 32, 32768, 32769, *[1 << k for k in range(24, 64)]]:
            yield "count %d %x" % (i, other), whole[:8 * i] + struct.pack("<Q", other) + whole[8 * i + 8:]
    for first, second in itertools.product(range(3, 7), repeat=2):     # lengths that trade with each other, modulo 2^64 too
        counts = list(struct.unpack_from("<7Q", whole))
        for by in (1, 191, 1 << 63):
            if first != second:
                moved = counts[:]
                moved[first], moved[second] = (moved[first] - by) & M64, (moved[second] + by) & M64
                yield "lengths %d %d %x" % (first, second, by), struct.pack("<7Q", *moved) + whole[56:]


NUMBERS = (0, 1, 2, 3, 4, 5, 255, 256, 1 << 32, 1 << 63, M64)


def file_numbers():
    """18: file numbers without a lent slice, of segments that no lookup reaches too, and which number comes first."""
    for number in NUMBERS[4:]:
        for segment in ((0x1000, 191, 0, 191), (0x9000, 8, 0, 0), (M64, 8, 0, 8)):
            for at in (0, 1):
                b = diamond()
                b.segments.insert(at, (*segment, number))
                yield "file %x of a segment %x at %d" % (number, segment[0], at), b.pack()
        for at in (0, 1):
            b = diamond()
            b.binds.insert(at, (0x7000, 168, 22, number))
            yield "file %x of a bind at %d" % (number, at), b.pack()
    for k in range(64):     # which of 2, 18 of a segment, 3, 18 of a bind, 7 and 14 comes first
        b = diamond()
        b.segments += [(0, 0, 0, 0)] * (64 * (k & 1))
        if k & 2:
            b.segments.append((0, 0, 0, 0, 4))
        if k & 4:
            b.sections[3] = (2, 0, 0)
        if k & 8:
            b.binds.append((0, 0, 0, 4))
        if k & 16:
            b.binds.append((0, len(b.image), 1))
        if k & 32:
            b.binds.insert(0, (0, len(b.image), 2))
            b.image.extend(b"\xe2(")
        yield "files order %d" % k, b.pack()


def frames():
    """Note 11: ranges of frames and slides about the starts of a class, of its metaclass and of a category: 0, two equal ones,
    one next to another, one far, and a method without imp; and where 23 stands."""
    def image(imps):
        s = Sketch()
        lists = []
        for of in imps:
            rows = b"".join(struct.pack("<3Q", s.text("up"), s.text("v"), imp) for imp in of)
            lists.append(s.add(struct.pack("<2I", 24, len(of)) + rows))
        small = s.add(struct.pack("<2I3i", 0xC000000C, 1, 0, 0, 0))     # an offset of 0: no imp
        for k, text in enumerate(("none", "v")):
            struct.pack_into("<i", s.b.image, small + 8 + 4 * k - s.BASE, s.text(text) - small - 8 - 4 * k)
        meta = s.words(0, 0, 0, 0, s.add(s.class_ro(lists[1])))
        klass = s.words(meta, 0, 0, 0, s.add(s.class_ro(lists[0])))
        s.section(CLASSES, klass)
        s.section(CATEGORIES, s.words(s.text("More"), klass, lists[2], small, 0, 0))
        return s

    sets = [(0, 8, 8), (9, 0x20), (4, M64 >> 16)], [(8,), (), ()], [(), (4, 4), (2,)], [(1 << 40,), (3, 0), ()]
    grid = (0, 1, 4, 8, 9, 12)
    for k, imps in enumerate(sets):
        for f0, f1, s0, s1 in itertools.product(grid, repeat=4):
            if f0 <= f1 and s0 <= s1 or k == 1 and f0 in (0, 9):
                s = image(imps)
                s.b.ends = f0, f1, s0, s1
                yield "frames %d %x %x slides %x %x" % (k, f0, f1, s0, s1), s.pack()
        for ends in itertools.product((0, 8, M64 >> 16, M64), repeat=4):
            s = image(imps)
            s.b.ends = ends
            yield "far frames %d %x %x slides %x %x" % (k, *ends), s.pack()
    for k in range(16):     # 23 after 2, 3 and 7
        b = diamond()
        b.ends = [(0, 0, 0, 0), (1, 0, 0, 0)][k & 1]
        b.segments += [(0, 0, 0, 0)] * (64 * (k >> 1 & 1))
        if k & 4:
            b.sections[3] = (2, 0, 0)
        if k & 8:
            b.binds.append((0, len(b.image), 1))
        yield "ranges order %d" % k, b.pack()
    whole = diamond().pack()
    for at, value in itertools.product(range(4), (1, 0x2000, 0x2001, 1 << 63, M64)):
        yield "end %d %x" % (at, value), whole[:56 + 8 * at] + struct.pack("<Q", value) + whole[64 + 8 * at:]


FAMILIES = [lengths, refused, cuts, list_heads, windows, lookups, protocol_sizes, masks, chains, prefixes, zeros,
            texts, alignments, relatives, sections, info, ranges, entries, differences, aligned, bind_names, ends, more_lengths, file_numbers,
            frames]


def edges():
    """The ◆ bundle and those of all families, each once."""
    seen = {diamond().pack()}
    yield "diamond", diamond().pack()
    for family in FAMILIES:
        for name, bundle in family():
            if bundle not in seen:
                seen.add(bundle)
                yield name, bundle
