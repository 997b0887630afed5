"""Damages a well-formed bundle: bits, lengths, counts, addresses, segments, rebases, binds, texts."""
import struct

from image import M64

U32 = [0, 1, 2, 8, 11, 12, 13, 15, 16, 17, 23, 24, 27, 31, 32, 33, 47, 64, 0x7FFFFFFF, 0x80000000, 0xFFFFFFFF,
       0xFFFFFFFE, 0x8000000C, 0x80000008, 0xC000000C, 0xC0000018, 0x80000010, 0x40000018, 0xFFFC, 0xFFFF, 0x10000,
       0x10018, 0x1000, 0x100]
U64 = [0, 1, 2, 7, 8, 9, 0x7F, 0xFFFFFFFF, 1 << 32, 1 << 47, 1 << 48, (1 << 48) - 1, 1 << 63, M64, M64 - 1, M64 - 7,
       M64 - 8, M64 - 15, M64 - 39, M64 - 71, 0x0F00000000000000, 1 << 20, (1 << 20) + 1]
NOT_UTF8 = [b"\xff", b"ab\xc3", b"\xed\xa0\x80", b"\xc0\x80", b"ok\x80", b"\xf4\x90\x80\x80", b"\xe0\x80\x80",
            b"\xf0\x8f\xbf\xbf"]
RECORDS = ("class", "class_ro", "protocol", "category")
LISTS = ("list", "protocol list")


class Damage:
    def __init__(self, rng, bundle, builder):
        self.r, self.b, self.made = rng, bundle, builder
        self.done = []              # names

    def some(self):
        """One damage of any sort."""
        self.do(self.r.choice(self.ALL))

    def directed(self):
        """One that aims at a record's or list's own edges."""
        self.do(self.r.choice(self.DIRECTED))

    def do(self, damage):
        damage(self)
        self.done.append(damage.__name__.replace("_", " "))

    # -- places and writes that the damages share

    def mark(self, *kinds):
        """A mark that the image still holds, each kind as likely as another."""
        held = [m for m in self.made.marks if self.file(m) + 8 <= len(self.b.image) and (not kinds or m.kind in kinds)]
        if not held:
            return None
        kind = self.r.choice(sorted({m.kind for m in held}))
        return self.r.choice([m for m in held if m.kind == kind])

    def file(self, m):
        return self.made.fileoffs[m.segment] + m.offset

    def va(self, m):
        return self.made.address(m.at())

    def address(self):
        r = self.r
        x = r.random()
        if x < 0.5:
            return (self.va(r.choice(self.made.marks)) + r.choice([0, 0, 0, 1, 4, 8, -8, 16])) & M64
        if x < 0.8:
            s = r.randrange(len(self.made.data))
            return (self.made.vmaddrs[s] + r.randrange(len(self.made.data[s]) + 16)) & M64
        return r.choice(U64)

    def offset(self):
        return self.r.randrange(len(self.b.image) + 1)

    def put(self, at, form, value):
        size = struct.calcsize(form)
        if 0 <= at <= len(self.b.image) - size:
            struct.pack_into("<" + form, self.b.image, at, value & ((1 << 8 * size) - 1))

    def insert(self, table, row):
        table.insert(self.r.randrange(len(table) + 1), row)

    def inside(self, m):
        """A byte of a record or list where something may begin or end."""
        if m.kind == "list":
            rows = max(1, (m.length - 8) // m.size)
            field = self.r.choice([0, 1, 4, 8, 12, 16, 23, 24, 28, 31, m.least])
            return self.r.choice([0, 4, 7, 8, 8 + m.size * self.r.randrange(rows) + field])
        return min(m.length, self.r.choice([0, 1, 4, 7, 8, 9, 16, 24, 31, 32, 33, 39, 40, 47, 48, 55, 56, 64, 71, 72,
                                            87, 88, 95, 96]))

    def segment_of(self, m):
        """The place in the segment table of the segment that holds a mark."""
        v = self.made.vmaddrs[m.segment]
        return next((k for k, s in enumerate(self.b.segments) if s[0] == v and s[3] > 0), None)

    def alias(self, m, v, vmsize, fileoff, filesize):
        """Shows file bytes at v, and sends there whoever points at the mark."""
        self.b.segments.insert(self.r.choice([0, len(self.b.segments)]), (v, vmsize, fileoff, filesize))
        for s, o, target in [x[:3] for x in self.made.pointers + self.made.bits]:
            if target == m.at():
                self.b.rebases.append((self.made.address((s, o)), v))
            within = o - m.offset
            if s == m.segment and 0 <= within < m.length and v + within <= M64 and self.r.random() < 0.9:
                self.b.rebases.append((v + within, self.made.address(target)))

    # -- bytes, heads, pointers

    def flip_bits(self):
        for _ in range(self.r.randrange(1, 12)):
            if self.b.image:
                self.b.image[self.r.randrange(len(self.b.image))] ^= 1 << self.r.randrange(8)

    def set_bytes(self):
        for _ in range(self.r.randrange(1, 6)):
            if self.b.image:
                self.b.image[self.r.randrange(len(self.b.image))] = self.r.choice([0, 1, 0x7F, 0x80, 0xC3, 0xFF])

    def set_word(self):
        self.put(self.offset() // 4 * 4, "I", self.r.choice(U32))

    def list_head(self):
        m = self.mark(*LISTS)
        if m:
            self.put(self.file(m), "I", self.r.choice(U32))
            self.put(self.file(m) + 4, "I", self.r.choice(U32 + [0xFFFFFFFF] * 8))

    def list_count(self):
        m = self.mark(*LISTS)
        if m:
            self.put(self.file(m) + 4, "I", self.r.choice(U32 + [0xFFFFFFFF] * 8))

    def list_size(self):
        m = self.mark("list")
        if m:
            self.put(self.file(m), "I", self.r.choice([0xFFFFFFFF, 0xFFFC, 0x8000FFFC, 0x7FFFFFFF, 0x10000, 0x100000]))
            self.put(self.file(m) + 4, "I", self.r.choice([0xFFFFFFFF, 1, 2, 3, 1000]))

    def odd_list(self):
        m = self.mark(*LISTS)
        if m:
            change = self.r.choice([1, 1, 2, 4])
            a = self.va(m)
            self.b.rebases = [(s, t ^ change if t == a else t) for s, t in self.b.rebases]
            for s, o, target, _ in self.made.pointers:
                if target == m.at():
                    self.put(self.made.fileoffs[s] + o, "Q", a ^ change)

    def set_pointers(self):
        zero = self.r.random() < 0.3
        for _ in range(self.r.randrange(1, 5)):
            m = self.mark(*RECORDS, "entry", "protocol list", "section")
            if m:
                at = self.file(m) + 8 * self.r.randrange(max(1, m.length // 8))
                self.put(at, "Q", 0 if zero else self.address())

    def own_isa(self):
        m = self.mark("class")
        if m:
            self.put(self.file(m), "Q", self.va(m))

    def not_utf8(self):
        m = self.mark("text")
        if m:
            t = self.r.choice(NOT_UTF8)
            self.b.image[self.file(m):self.file(m) + len(t)] = t

    # -- lengths

    def truncate(self):
        m = self.mark()
        cut = self.offset()
        if m and self.r.random() < 0.8:
            cut = self.file(m) + self.r.choice([0, 1, 4, 7, 8, 12, 16, 23, 24, 32, 39, 40, 47, 48, 56, 64, 71, 72, 88,
                                                95, 96])
        del self.b.image[cut:]
        if self.r.random() < 0.8:       # questions 3 and 7 stay content
            n = len(self.b.image)
            self.b.sections = [(p, v, min(length, n)) for p, v, length in self.b.sections]
            self.b.binds = [x for x in self.b.binds if x[1] + x[2] <= n]

    def record_at_end(self):
        """A record or list whose bytes stop at the image end."""
        m = self.mark(*RECORDS, *LISTS)
        if m:
            body = self.b.image[self.file(m):self.file(m) + m.length]
            end = len(self.b.image)
            self.b.image.extend(body[:self.inside(m)] if self.r.random() < 0.8 else body)
            self.alias(m, self.r.choice([0x7000000, 0x7000008, 0x7100000]), 0x1000, end,
                       self.r.choice([0x1000, M64, m.length]))

    def text_at_end(self):
        """Texts that run to the image end, begin at it, or past it."""
        if not self.b.segments:
            return
        r, n = self.r, len(self.b.image)
        k = r.randrange(len(self.b.segments))
        v, vmsize, fileoff, _ = self.b.segments[k]
        if r.random() < 0.5:
            self.b.segments[k] = (v, max(vmsize, n + 16), fileoff, n + 16)
        for _ in range(3):
            m = self.mark(*RECORDS[1:], "entry")
            if m:
                name = {"class_ro": 24, "protocol": 8, "category": 0}.get(m.kind, r.choice([0, 8]))
                end = v + n - fileoff + r.choice([0, 0, -1, -2, -3, 1])
                self.b.rebases.append(((self.va(m) + name) & M64, end & M64))
        if r.random() < 0.5 and n:
            self.b.image[-1] = r.choice([0x41, 0xC3, 0xFF, 0x20])

    # -- segments

    def segment_word(self):
        r = self.r
        if self.b.segments:
            k, j = r.randrange(len(self.b.segments)), r.randrange(4)
            s = list(self.b.segments[k])
            s[j] = r.choice([s[j] ^ (1 << r.randrange(64)), r.choice(U64), (s[j] + r.choice([1, -1, 8, -8, 4])) & M64,
                             len(self.b.image), len(self.b.image) + 1, self.address()])
            self.b.segments[k] = tuple(s)

    def segment_cut(self):
        """A segment whose range, file part or both stop at or inside a record."""
        m = self.mark()
        k = m and self.segment_of(m)
        if k is not None:
            v, vmsize, fileoff, filesize = self.b.segments[k]
            cut = m.offset + self.r.choice([0, 1, 4, 8, 9, 12, 16, 17, 24, 25, 32, 33, 40, 48, 56, 64, 72, 80, 88, 89])
            vmsize, filesize = self.r.choice([(cut, filesize), (vmsize, cut), (cut, cut)])
            self.b.segments[k] = (v, vmsize, fileoff, filesize)

    def segment_split(self):
        """Two segments for one, the second at the same or at other file bytes."""
        m = self.mark()
        k = m and self.segment_of(m)
        if k is not None:
            n = len(self.b.image)
            v, vmsize, fileoff, filesize = self.b.segments[k]
            cut = m.offset + self.r.choice([0, 1, 4, 8, 9, 12, 16, 17, 24, 25, 32, 33, 40, 48, 56, 64, 72, 80, 88, 89])
            self.b.segments[k] = (v, cut, fileoff, filesize)
            other = self.r.choice([fileoff + cut, fileoff + cut, 0, self.offset(), n - 8, M64 - 20])
            self.b.segments.insert(self.r.choice([k, k + 1, len(self.b.segments)]),
                                   (v + cut, max(0, vmsize - cut), other, max(1, filesize - cut)))

    def segment_shuffle(self):
        self.r.shuffle(self.b.segments)

    def segment_again(self):
        if self.b.segments:
            v, vmsize, fileoff, filesize = self.r.choice(self.b.segments)
            v = (v + self.r.choice([0, 8, -8, 0x100, 0x1000, 1 << 20])) & M64
            self.insert(self.b.segments, (v, vmsize, self.r.choice([fileoff, self.offset()]), filesize))

    def segment_over_64_bits(self):
        v = self.r.choice([M64, M64 - 0x1000, 1 << 63, self.address()]) or 1
        size = min(M64, M64 + 1 - v + self.r.choice([0, 0, 1, 100]))
        self.insert(self.b.segments, (v, size, self.offset(), self.r.choice([0, 8, 0x1000])))

    def segment_overlap(self):
        self.insert(self.b.segments, (self.address() & ~7, self.r.choice([1, 8, 24, 40, 100, 0x1000, 1 << 32]),
                                      self.offset(), self.r.choice([0, 1, 8, 30, 0x1000, M64])))

    def segment_at_zero(self):
        self.insert(self.b.segments, (0, self.r.choice([8, 0x40, 0x800, 0x1000]), self.offset(),
                                      self.r.choice([8, 0x100, 0x1000])))

    def segment_at_top(self):
        m, k = self.mark(), self.r.choice([0, 1, 8, 16, 40, 72, 100, 200])
        self.insert(self.b.segments, (M64 - k, k, self.file(m) if m else 0, self.r.choice([M64, 8, k + 1, 0x1000])))

    def hole(self):
        """A field without bytes, or with others, all else as before."""
        m = self.mark(*RECORDS, *LISTS)
        k = m and self.segment_of(m)
        if k is not None:
            n = len(self.b.image)
            v, vmsize, fileoff, filesize = self.b.segments[k]
            cut, width = m.offset + self.inside(m), self.r.choice([1, 1, 4, 8, 8, 16, 24])
            if self.r.random() < 0.4:
                other = self.r.choice([self.offset(), n - 4, M64])
                self.b.segments.insert(0, (v + cut, width, other, self.r.choice([1, width, width, 0x100])))
            else:
                self.b.segments[k] = (v, cut, fileoff, filesize)
                behind = cut + width
                self.b.segments.append((v + behind, max(0, vmsize - behind), fileoff + behind,
                                        max(0, filesize - behind)))
            if self.r.random() < 0.3:
                self.b.rebases.append(((v + cut) & M64, self.address()))

    # -- addresses near 2^64

    def record_at_top(self):
        """A record or list that 2^64 cuts, reached by rebases; some of its slots past 2^64 have rebases too."""
        m = self.mark(*RECORDS, "list", "list", "protocol list")
        if m:
            k = max(1, self.inside(m) + self.r.choice([0, 0, 1]))
            v = M64 + 1 - k
            self.alias(m, v, k - 1, self.file(m), self.r.choice([k, M64, 0x1000]))
            for field in (0, 8, 16, 24, 32, 40, 48, 56, 88):
                if self.r.random() < 0.1:
                    self.b.rebases.append(((v + field) & M64, self.address()))
            if self.r.random() < 0.4:       # what a wrapped address would read
                self.b.segments.append((0, 0x1000, self.file(m) + k, 0x1000))

    def small_at_top(self):
        """A small method list below 2^64 whose relative offsets wrap to low addresses."""
        r = self.r
        m = self.mark("list")
        texts = [self.va(x) for x in self.made.marks if x.kind == "text" and self.va(x) < 1 << 30]
        if not m or not texts:
            return
        direct, count, size = r.random() < 0.5, r.randrange(1, 4), r.choice([12, 12, 16])
        k = 8 + size * r.randrange(count) + r.choice([1, 2, 4, 5, 8, 9, 12])
        word = size | (0xC0000000 if direct else 0x80000000)
        body = bytearray(struct.pack("<II", word, r.choice([count, 0xFFFFFFFF])))
        for i in range(count):
            e = 8 + i * size - k        # the entry's address less 2^64
            target = r.choice(texts)
            if not direct:
                slot = r.choice([8 * r.randrange(64), target])
                self.b.rebases.append((slot, target))
                target = slot
            body += struct.pack("<3i", target - e, r.choice(texts) - e - 4, r.choice([0, 1, 7, 0x1000, -e - 8]))
            body += bytes(size - 12)
        end = len(self.b.image)
        self.b.image.extend(body)
        self.alias(m, M64 + 1 - k, k - 1, end, 0x1000)
        if r.random() < 0.3:
            self.b.segments.append((0, 0x200, end + k, 0x200))

    # -- long lists

    def protocol_list_cap(self):
        m = self.mark("protocol list")
        if m:
            cap = 1 << 20
            self.put(self.file(m), "Q", self.r.choice([cap, cap + 1, cap - 1, M64, 1 << 32]))
            protocol = self.mark("protocol")
            for i in (cap - 2, cap - 1, cap, 65536, 5000):
                slot = (self.va(m) + 8 + 8 * i) & M64
                if protocol and self.r.random() < 0.6:
                    self.b.rebases.append((slot, self.va(protocol)))
                if self.b.binds and self.r.random() < 0.4:
                    self.b.binds.append((slot, *self.r.choice(self.b.binds)[1:]))

    def far_entry(self):
        """Entries far from their list's head, at the count's edge or well inside."""
        r = self.r
        m = self.mark("list")
        if m and m.length > 8:
            for _ in range(r.choice([1, 1, 2, 4])):
                i = r.randrange(1 << r.choice([3, 10, 16, 20, 22, 27, 32]))
                self.put(self.file(m) + 4, "I", min(0xFFFFFFFF, r.choice([i, i + 1, i + 2, 0xFFFFFFFF, 0xFFFFFFFF])))
                v = self.va(m) + 8 + i * m.size + r.choice([0, 0, 0, -1, 1])
                source = self.file(m) + 8 + m.size * r.randrange((m.length - 8) // m.size)
                sizes = [1, m.least, m.size + 1, 3 * m.size]
                self.insert(self.b.segments, (v, r.choice(sizes), source, r.choice(sizes)))

    def scattered(self):
        """Many small segments, in no order and overlapping, over the entries of a list without end."""
        r = self.r
        m = self.mark("list")
        if m and m.length > 8:
            self.put(self.file(m) + 4, "I", 0xFFFFFFFF)
            span = 1 << r.choice([6, 10, 16, 32])
            first = self.va(m) + 8
            for _ in range(r.randrange(2, 40)):
                v = first + m.size * r.randrange(span) + r.choice([0, 0, 1, -1, m.least, m.size // 2])
                source = r.choice([self.file(m) + 8, self.offset(), len(self.b.image) - r.randrange(40)])
                self.insert(self.b.segments, (v, r.choice([0, 1, m.least, m.size, m.size * r.randrange(1, 6)]),
                                              source, r.choice([0, 1, m.least, m.size * 3, M64])))

    # -- rebases, binds, sections

    def rebases(self):
        for _ in range(self.r.randrange(1, 6)):
            self.insert(self.b.rebases, (self.address(), self.address()))

    def rebases_of_fields(self):
        for _ in range(self.r.randrange(1, 5)):
            m = self.mark(*RECORDS, "entry", "protocol list")
            if m:
                slot = self.va(m) + 8 * self.r.randrange(m.length // 8 + 1)
                self.b.rebases.append((slot & M64, self.address()))

    def rebases_again(self):
        if self.b.rebases:
            for _ in range(self.r.randrange(1, 4)):
                s, t = self.r.choice(self.b.rebases)
                # the same slot, one of the same chain, or one that shares its 8 bytes
                s = (s + self.r.choice([0, 0, 32768, -32768, 1, 65536])) & M64
                self.insert(self.b.rebases, (s, self.r.choice([t, self.address(), t ^ (1 << self.r.randrange(64))])))

    def binds(self):
        for _ in range(self.r.randrange(1, 4)):
            at = self.offset()
            length = self.r.randrange(min(24, len(self.b.image) - at) + 1)
            m = self.mark("class", "category", "protocol list")
            slot = self.address()
            if m and self.r.random() < 0.5:
                slot = (self.va(m) + self.r.choice([8, 8, 16, 24])) & M64
            try:
                bytes(self.b.image[at:at + length]).decode()
            except UnicodeDecodeError:
                length = length if self.r.random() < 0.05 else 0
            self.insert(self.b.binds, (slot, at, length))

    def binds_again(self):
        if self.b.binds:
            slot = (self.r.choice(self.b.binds)[0] + self.r.choice([0, 0, 32768, 1])) & M64
            self.insert(self.b.binds, (slot, *self.r.choice(self.b.binds)[1:]))

    def section_address(self):
        k = self.r.randrange(5)
        p, v, length = self.b.sections[k]
        v = self.r.choice([self.address(), M64 - 7, M64 - 15, v + self.r.choice([1, 4, 8, -8]), 0])
        self.b.sections[k] = (p, v & M64, length)

    def section_length(self):
        k, n = self.r.randrange(5), len(self.b.image)
        p, v, length = self.b.sections[k]
        length = self.r.choice([0, 7, 8, 9, 15, 16, 23, length + 1, length + 8, length + 100, n, max(0, length - 1)])
        self.b.sections[k] = (p, v, length if length <= n or self.r.random() < 0.1 else n)

    def section_of_rebases(self):
        """Slots where nothing is mapped, filled by rebases; some wrap at 2^64."""
        k = self.r.randrange(5)
        v = self.r.choice([M64 - 7, M64 - 15, M64 - 16, 1 << 60, 0xDEAD000, M64 - 3])
        slots = min(5, len(self.b.image) // 8)
        self.b.sections[k] = (1, v, 8 * slots)
        for i in range(slots):
            m = self.mark(["class", "class", "category", "category", "protocol"][k])
            if m and self.r.random() < 0.8:
                self.b.rebases.append(((v + 8 * i) & M64, self.va(m)))

    # Repeated ones are as much likelier.
    ALL = [flip_bits, flip_bits, set_bytes, set_word, set_word, list_head, list_head, list_count, list_size, odd_list,
           set_pointers, set_pointers, set_pointers, own_isa, not_utf8, truncate, truncate, record_at_end,
           record_at_end, text_at_end, segment_word, segment_word, segment_cut, segment_cut, segment_cut,
           segment_split, segment_split, segment_shuffle, segment_again, segment_over_64_bits, segment_overlap,
           segment_at_zero, segment_at_top, hole, hole, hole, record_at_top, record_at_top, small_at_top, far_entry,
           far_entry, scattered, rebases, rebases, rebases_of_fields, rebases_of_fields, rebases_again, binds, binds,
           binds_again, section_address, section_length, section_of_rebases]
    DIRECTED = [record_at_top, record_at_top, small_at_top, record_at_end, hole, hole, hole, far_entry, scattered,
                segment_split, segment_cut] * 2 + [protocol_list_cap]
