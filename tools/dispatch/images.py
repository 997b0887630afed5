"""Images for comparing: classes with many categories, whose lists give few selectors again and again, over one to four files."""
import random
import struct

BASE = 0x10000


class Image:
    """Segments of one file each, at 0x10000, 0x20000, ..; records are placed one after the other."""

    def __init__(self, rng, files):
        self.rng = rng
        self.data = [bytearray(8) for _ in range(files)]
        self.slots = [[], [], [], [], []]
        self.rebases = []
        self.wide = rng.random() < 0.5

    def take(self, size, align=8):
        f = self.rng.randrange(len(self.data))
        data = self.data[f]
        data.extend(bytes(-len(data) % align + size))
        return f, len(data) - size

    def address(self, at):
        return BASE * (at[0] + 1) + at[1]

    def word(self, at, offset, value):
        """A pointer field: the word itself, or a rebase over another one."""
        if self.rng.random() < 0.2:
            self.rebases.append((self.address(at) + offset, value))
            value = self.rng.choice([0, value, 0x10008])
        struct.pack_into("<Q", self.data[at[0]], at[1] + offset, value)

    def text(self, b):
        at = self.take(len(b) + 1, 1)
        self.data[at[0]][at[1]:at[1] + len(b) + 1] = b + b"\0"
        return self.address(at)

    def methods(self, names, selectors):
        """A method list of these selectors; some rows have none."""
        form = self.rng.choice(["legacy", "indirect", "direct"])
        size = 24 if form == "legacy" else 12
        word = size | (0 if form == "legacy" else 0xC0000000 if form == "direct" else 0x80000000)
        at = self.take(8 + size * len(names))
        struct.pack_into("<2I", self.data[at[0]], at[1], word, len(names) + self.rng.choice([0, 0, 0, 5, 0xFFFF0000]))
        for j, name in enumerate(names):
            row = at[0], at[1] + 8 + j * size
            sel = self.rng.choice(selectors[name]) if name is not None else 0
            if form == "legacy":
                self.word(row, 0, sel)
                self.word(row, 8, self.rng.choice([0, sel, 0x10008]))
                continue
            target = sel
            if form == "indirect":
                ref = self.take(8)
                self.word(ref, 0, sel)
                target = self.address(ref)
            struct.pack_into("<i", self.data[row[0]], row[1], (target - self.address(row) + (1 << 31)) % (1 << 32) - (1 << 31))
        return self.address(at)

    def ro(self, methods, name):
        at = self.take(72)
        self.word(at, 24, name)
        self.word(at, 32, methods)
        return self.address(at)

    def record(self, isa, ro):
        at = self.take(40)
        self.word(at, 0, isa)
        struct.pack_into("<Q", self.data[at[0]], at[1] + 32, ro)
        return self.address(at)

    def category(self, name, target, lists):
        at = self.take(56 if self.wide else 48)
        for k, value in enumerate([name, target] + lists):
            self.word(at, 8 * k, value)
        return self.address(at)

    def tables(self):
        sections = []
        for slots in self.slots:
            if not slots and self.rng.random() < 0.5:
                sections.append((0, 7, 7))
                continue
            at = self.take(8 * len(slots))
            for k, va in enumerate(slots):
                self.word((at[0], at[1] + 8 * k), 0, va)
            sections.append((1, self.address(at), 8 * len(slots) + self.rng.randrange(8)))
        n = max(len(d) for d in self.data)
        sections = [(p, v, min(l, n)) for p, v, l in sections]
        segments = [(BASE * (f + 1), len(d), 0, len(d), f) for f, d in enumerate(self.data)]
        files = [bytes(d) for d in self.data] + [b""] * (4 - len(self.data))
        return files, segments, sections, struct.pack("<2I", 0, 64 if self.wide else 0), self.rebases, []


def image(number):
    """The tables, and the addresses to ask for."""
    rng = random.Random(number)
    im = Image(rng, rng.choice([1, 1, 2, 3, 4]))
    names = [b"up", b"down", b"init", b"", "é".encode(), b"set:to:", b"upper"][:rng.randrange(1, 8)]
    selectors = {n: [im.text(n) for _ in range(rng.randrange(1, 4))] for n in names}
    selectors[b"bad"] = [im.text(b"\xff"), 0, 0x7000]
    pool = names + [None, b"bad"]

    def methods():
        if rng.random() < 0.15:
            return rng.choice([0, 1, 0x7000])
        return im.methods([rng.choice(pool) for _ in range(rng.choice([0, 1, 2, 3, 5, 9]))], selectors)

    def ro():
        if rng.random() < 0.2:
            return rng.choice([0, 8, 0x7000, 7])
        return im.ro(methods(), im.text(b"Name") if rng.random() < 0.9 else 0)

    classes = []
    for _ in range(rng.randrange(1, 4)):
        meta = im.record(0, ro()) if rng.random() < 0.7 else rng.choice([0, 0x7000])
        classes.append(im.record(meta, ro()))
        if rng.random() < 0.1:
            im.word((classes[-1] // BASE - 1, classes[-1] % BASE), 0, classes[-1])
    listed = []
    for _ in range(rng.randrange(7)):
        target = rng.choice(classes + [classes[0]] * 3 + [0, 0x7000])
        listed.append(im.category(im.text(b"Cat") if rng.random() < 0.9 else 0, target, [methods(), methods()]))
    for k in (2, 3):
        im.slots[k] = [rng.choice(listed + [0, 0x7000, classes[0]]) for _ in range(rng.randrange(9))] if listed else []
    im.slots[0] = classes
    return im.tables(), classes + listed[:1] + [0, 0x7000, (1 << 64) - 8]
