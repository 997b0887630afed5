"""A second reader of the chains above classes, written from the notes and the scope paper: it makes a graph of all classes that a list
leads to, and takes away what ends, from the ends down; what is left loops. It follows no chain of one class."""
import struct


class Refused(Exception):
    pass


class Reader:
    def __init__(self, image):
        self.image = image
        self.files = [image["first"], image["second"]]
        self.memory = {}

    def place(self, va):
        """File and offset of an address: the first segment that holds it decides."""
        words = self.image["segments"]
        for k in range(len(words) // 5):
            vm, vmsize, off, size, f = words[5 * k:5 * k + 5]
            if vm + vmsize >= 2 ** 64:
                return None
            if size > 0 and vm <= va < vm + vmsize:
                if va - vm >= size or off + (va - vm) >= 2 ** 64:
                    return None
                return f, off + va - vm
        return None

    def can_read(self, va, n):
        p = self.place(va)
        return p is not None and p[1] + n <= len(self.files[p[0]])

    def word(self, va):
        if not self.can_read(va, 8):
            return None
        f, at = self.place(va)
        return struct.unpack_from("<Q", self.files[f], at)[0]

    def rebase(self, slot):
        """The target of the slot's last rebase, by its chain in the index."""
        table, index = self.image["rebases"], self.image["index"]
        limit, n = len(table) // 2, index[slot // 8 % 4096]
        while n:
            if n > limit:
                raise Refused(9)
            if table[2 * (n - 1)] == slot:
                return table[2 * (n - 1) + 1]
            limit, n = n - 1, index[8192 + n - 1]
        return None

    def pointer(self, slot):
        target = self.rebase(slot)
        if target is not None:
            return target
        word = self.word(slot)
        return 0 if word is None else word & (2 ** 48 - 1)

    def superclass(self, va):
        """The superclass word of the class at va; None if no class decodes there."""
        if va not in self.memory:
            self.memory[va] = self.decode(va)
        if isinstance(self.memory[va], Refused):
            raise self.memory[va]
        return self.memory[va]

    def decode(self, va):
        try:
            if not self.can_read(va, 40) or va + 32 >= 2 ** 64:
                return None
            self.pointer(va)
            above = self.pointer(va + 8)
            if self.word(va + 32) is None:
                return None
            self.rebase(va + 32)
            return above
        except Refused as r:
            return r

    def graph(self, addresses):
        """For every class that the addresses lead to, the class above it, or None; a class whose step is refused leads to 'refused'."""
        up, ahead = {}, []
        for a in addresses:
            try:
                if self.superclass(a) is not None:
                    ahead.append(a)
            except Refused:
                up[a] = "refused"
        while ahead:
            a = ahead.pop()
            if a in up:
                continue
            try:
                b = self.superclass(a)
                up[a] = b if b and self.superclass(b) is not None else None
                if up[a] is not None:
                    ahead.append(b)
            except Refused:
                up[a] = "refused"
        return up

    def told(self, addresses):
        """By address: (count, last, looping), or 'refused'."""
        up = self.graph(addresses)
        below = {}
        for a, b in up.items():
            below.setdefault(b, []).append(a)
        known = {}
        row = [(a, (0, 0, 0)) for a in below.get(None, [])] + [(a, "refused") for a in below.get("refused", [])]
        while row:
            a, what = row.pop()
            known[a] = what
            for c in below.get(a, []):
                row.append((c, what if what == "refused" else (what[0] + 1, what[1] if what[0] else a, 0)))
        return {a: known.get(a, (0, 0, 1)) for a in up}

    def all(self, addresses):
        """The records of a list of addresses; ('number', 9) if a lookup is refused."""
        told = self.told(addresses)
        records = []
        for a in addresses:
            if a in told:
                if told[a] == "refused":
                    return "number", 9
                records.append(told[a])
        return "records", records

    def slots(self):
        """What the two class lists hold, each address once, or a number."""
        words, met = self.image["sections"], []
        try:
            for s in (0, 3):
                for k in range(words[s + 2] // 8 if words[s] else 0):
                    a = self.pointer((words[s + 1] + 8 * k) % 2 ** 64)
                    if a and a not in met:
                        met.append(a)
        except Refused:
            return None
        return met
