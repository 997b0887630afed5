"""Texts to read: a number decides its text.

First all texts of up to two bytes, then all of three to five out of twelve bytes that matter; then in turn random types as they are
written, the same damaged, types nested to around 32 levels, whole and cut off, and the types of methods.
"""
import random

FEW = b'i@"b3^[]{=}r'
SCALARS = "cislqCISLQfdBv*?#:"
QUALIFIERS = "rnNoORV"
NAMES = ["", "", "?", "a", "CGRect", "_NSRange", "std::pair<int, NSString*>", "b3", "^@:8", "é", "\xff"]
CLASSES = ["", "NSString", "NSArray<NSString>", "<NSCopying>", "{}[]()=", "\xc3"]
METHODS = ["v16@0:8", "@16@0:8", "v24@0:8@16", "B24@0:8@16", "@24@0:8:16", "v32@0:8d16@?24", "v48@0:8{_NSRange=QQ}16Q32@?40",
           "{CGRect={CGPoint=dd}{CGSize=dd}}16@0:8", "v40@0:8r^{__CFString=}16^{?=b8b4b1b1b18[8S]}24^?32", "Vv24@0:8@\"NSDictionary\"16",
           "^{__sFILE=*iiss{__sbuf=*i}i^v^?^?^?^?{__sbuf=*i}^{__sFILEX}i[3C][1C]{__sbuf=*i}iq}16@0:8", "v20@0:8b5", "q24@0:8n^N16",
           "@\"<NSObject>\"24@0:8@\"<A><B>\"16", "(?=i[4C]{a=bc})8@0:8"]


class Maker:
    def __init__(self, number):
        self.r = random.Random(number)

    def digits(self):
        return "".join(self.r.choice("0123456789") for _ in range(self.r.choice([1, 1, 1, 2, 3])))

    def type(self, levels):
        r = self.r
        kind = r.random()
        if levels <= 0 or kind < 0.35:
            return r.choice([r.choice(SCALARS), r.choice(SCALARS), "@", '@"%s"' % r.choice(CLASSES), "b" + self.digits()])
        if kind < 0.5:
            return r.choice(QUALIFIERS) + self.type(levels)
        if kind < 0.65:
            return "^" + self.type(levels - 1)
        if kind < 0.75:
            return "[" + self.digits() + self.type(levels - 1) + "]"
        left, right = r.choice(["{}", "()"])
        if kind < 0.82:
            return left + r.choice(NAMES) + right
        return left + r.choice(NAMES) + "=" + "".join(self.type(levels - 1) for _ in range(r.randint(0, 3))) + right

    def types(self, levels):
        return "".join(self.type(levels) + (self.digits() if self.r.random() < 0.6 else "") for _ in range(self.r.randint(1, 5)))

    def nested(self, levels):
        """A type of just so many levels."""
        r = self.r
        text = r.choice(["i", "@", "b3", "@\"A\"", "r*"])
        for _ in range(levels):
            text = r.choice(["^" + text, "[" + self.digits() + text + "]", "r^" + text,
                             "{" + r.choice(NAMES) + "=" + r.choice(["", "i", "^c", "b3"]) + text + r.choice(["", "@", "^^i"]) + "}",
                             "(" + r.choice(NAMES) + "=" + text + ")"])
        return r.choice(["", "", "i8"]) + text + r.choice(["", "8", "16@"])

    def damaged(self, text):
        r = self.r
        text = list(text)
        for _ in range(r.randint(1, 2)):
            i = r.randint(0, len(text))
            way = r.random()
            if way < 0.4 and text:
                del text[min(i, len(text) - 1)]
            elif way < 0.8 or not text:
                text.insert(i, r.choice(SCALARS + QUALIFIERS + '0123456789@"^[]{}()=bxz '))
            else:
                text[min(i, len(text) - 1)] = chr(r.randrange(256))
        return "".join(text)

    def text(self):
        r = self.r
        kind = r.randrange(8)
        if kind < 2:
            return self.types(r.choice([0, 1, 2, 3, 6]))
        if kind < 4:
            return self.damaged(self.types(r.choice([0, 1, 2, 3, 6])))
        if kind == 4:
            return self.nested(r.randint(29, 35))
        if kind == 5:
            text = self.nested(r.randint(31, 34))
            return self.damaged(text) if r.random() < 0.5 else text[:r.randint(0, len(text))]
        if kind == 6:
            return r.choice(METHODS)[:r.choice([1000, 1000, r.randint(1, 40)])]
        return self.damaged(r.choice(METHODS))


def text(number):
    n = number
    for size in range(3):
        if n < 256 ** size:
            return bytes(n >> 8 * k & 255 for k in range(size))
        n -= 256 ** size
    for size in range(3, 6):
        if n < len(FEW) ** size:
            return bytes(FEW[n // len(FEW) ** k % len(FEW)] for k in range(size))
        n -= len(FEW) ** size
    return Maker(number).text().encode("latin-1")
