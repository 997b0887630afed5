"""A second recogniser of type encodings, written from the words of note 5 and apart from the crate: it tries every way to read a text
and goes back where one fails, so that it also sees whether a text has two readings.

    answer(text) -> ("types", rows) | ("absent",) | ("number", 17)

rows are lists of four numbers. Texts are bytes, of some hundred at most.
"""
import sys

sys.setrecursionlimit(100_000)
LIMIT = 32
SCALARS = b"cislqCISLQfdBv*?#:"
QUALIFIERS = b"rnNoORV"
DIGITS = b"0123456789"
NOT_IN_A_NAME = b'="[]{}()'


class TooDeep(Exception):
    """A level beyond the limit is opened. Whoever gets there has read all before it, so the text with this byte begins one of the grammar."""


def digits(text, i):
    """The ends of one digit or more that start at i."""
    while i < len(text) and text[i] in DIGITS:
        i += 1
        yield i


def opened(levels):
    if levels == LIMIT:
        raise TooDeep
    return levels + 1


def types(text, i, levels):
    """Each way to read a type at i inside so many levels: where it ends, and whether its last bytes are a bit field's digits."""
    if i == len(text):
        return
    b = text[i]
    if b in SCALARS:
        yield i + 1, False
    if b in QUALIFIERS:
        yield from types(text, i + 1, levels)
    if b == ord("@"):
        yield i + 1, False
        if text[i + 1:i + 2] == b'"':
            end = text.find(b'"', i + 2)
            if end != -1:
                yield end + 1, False
    if b == ord("b"):
        for end in digits(text, i + 1):
            yield end, True
    if b == ord("^"):
        yield from types(text, i + 1, opened(levels))
    if b == ord("["):
        inside = opened(levels)
        for count in digits(text, i + 1):
            for end, _ in types(text, count, inside):
                if text[end:end + 1] == b"]":
                    yield end + 1, False
    for left, right in (b"{}", b"()"):
        if b == left:
            inside = opened(levels)
            end = i + 1
            while end < len(text) and text[end] not in NOT_IN_A_NAME:
                end += 1
            if end < len(text) and text[end] == right:
                yield end + 1, False
            if text[end:end + 1] == b"=":
                for last in fields(text, end + 1, inside):
                    if last < len(text) and text[last] == right:
                        yield last + 1, False


def fields(text, i, levels):
    """Each way to read any number of types from i on: where they end."""
    yield i
    for end, _ in types(text, i, levels):
        yield from fields(text, end, levels)


def outermost(text, i, rows):
    """Each way to read the rest of a text as outermost types, a frame offset after each or none."""
    if i == len(text):
        yield rows
        return
    for end, bits in types(text, i, 0):
        yield from outermost(text, end, rows + [[i, end - i, 0, 0]])
        if not bits:
            for last in digits(text, end):
                yield from outermost(text, last, rows + [[i, end - i, end, last - end]])


def answer(text):
    if not text:
        return ("absent",)
    try:
        readings = list(outermost(text, 0, []))
    except TooDeep:
        return ("number", 17)
    assert len(readings) < 2, f"two readings: {text!r}"
    return ("types", readings[0]) if readings else ("absent",)
