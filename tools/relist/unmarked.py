#!/usr/bin/env python3
"""unmarked.py <LISTINGS: the same with every mark 0. A text may hold newlines: it is passed by its length."""
import re
import sys

listings = sys.stdin.buffer.read()
at = 0
while at < len(listings):
    begin = at
    is_method = listings.startswith(b"m ", at)
    # a field that is a text: its length in hex and a colon, after one space
    text = re.compile(rb" ([0-9a-f]+):")
    while listings[at] != 0x0A:
        field = text.match(listings, at) if not listings.startswith(b"# ", begin) else None
        at = field.end() + int(field[1], 16) if field else at + 1
    line = listings[begin:at + 1]
    sys.stdout.buffer.write(line[:-2] + b"0\n" if is_method else line)
    at += 1
