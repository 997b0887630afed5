#!/usr/bin/env python3
"""compare.py [--lib LIB] [COUNT [FIRST]]: texts through the crate `encodings` (LIB, which build.sh makes) and through the second recogniser.

Each text is lent room for its types, with words to spare; then none at all, and a word too little. Compared are the answer and every
word of the buffer, which must stay where nothing is written. The last line is `K agree, D differ`; the status is 0 if all agree.
"""
import argparse
import collections
import ctypes
import os
import sys

import readings
import texts

ap = argparse.ArgumentParser()
ap.add_argument("--lib", default=os.path.join(os.path.dirname(os.path.abspath(__file__)), "../../target/encodings/libface.so"))
ap.add_argument("count", nargs="?", type=int, default=500_000)
ap.add_argument("first", nargs="?", type=int, default=0)
a = ap.parse_args()
face = ctypes.CDLL(a.lib).face_types
face.restype = ctypes.c_uint64
face.argtypes = [ctypes.c_char_p, ctypes.c_uint64, ctypes.POINTER(ctypes.c_uint64), ctypes.c_uint64]
REFUSED = 2 ** 64 - 1001


def asked(text, room):
    """What the crate gives, and the buffer afterwards: `room` words are lent, and three behind them are not."""
    words = (ctypes.c_uint64 * (room + 3))(*(99 + k for k in range(room + 3)))
    got = face(text, len(text), words, room)
    if got == 0:
        return ("absent",), list(words)
    if got < 2 ** 32:
        return ("types", got), list(words)
    return ("number", got - REFUSED), list(words)


def wanted(answer, room):
    """The same, by the second recogniser."""
    before = [99 + k for k in range(room + 3)]
    if answer[0] != "types":
        return answer, before
    rows = answer[1]
    if room < 4 * len(rows):
        return ("number", 12), before
    return ("types", len(rows)), [w for r in rows for w in r] + before[4 * len(rows):]


seen, differ, most = collections.Counter(), 0, 0
for number in range(a.first, a.first + a.count):
    text = texts.text(number)
    answer = readings.answer(text)
    need = 4 * len(answer[1]) if answer[0] == "types" else 4 * len(text)
    seen["types" if answer[0] == "types" else answer[-1]] += 1
    if answer[0] == "types":
        most = max(most, len(answer[1]))
        seen["outermost"] += len(answer[1])
        seen["offsets"] += sum(r[3] > 0 for r in answer[1])
    for room in {need + number % 6, need, max(need, 1) - 1, 0}:
        got, want = asked(text, room), wanted(answer, room)
        seen["calls"] += 1
        seen[12] += want[0] == ("number", 12)
        if got != want:
            differ += 1
            print(f"text {number}, {text!r}, {room} words: {got[0]}, wanted {want[0]}" + ("" if got[0] != want[0] else ": words differ"))
            break
print(f"{seen['types']} read, with {seen['outermost']} types, {seen['offsets']} of them with an offset, {most} in one text;", end=" ")
print(f"{seen['absent']} absent; {seen[17]} with 17; 12 in {seen[12]} of {seen['calls']} calls")
print(f"{a.count - differ} agree, {differ} differ")
sys.exit(differ > 0)
