#!/usr/bin/env python3
"""Times objclist beside the Rust on the same bundles.

    objclist.py [OBJCLIST [RUST]]

OBJCLIST is crates/objclist/out/objclist and RUST target/oracle/release (--bare) if left out. They take turns at five bundles near
32 KiB, a thousand runs of each; first their listings must be the same. A row has the user time of all runs, the ratio of
objclist's to the Rust's, and the ratio less the time of as many runs on a bundle without records. The last rows are a
bundle of 300 classes, and the ◆ bundle, a list that claims 4,294,967,295 rows: with the oracle's own jump, and once by
the Rust, which tries each row.
"""
import os
import resource
import struct
import subprocess
import sys
import tempfile

ROOT = os.path.dirname(os.path.dirname(os.path.dirname(os.path.abspath(__file__))))
sys.path.insert(0, os.path.join(ROOT, "tools", "cases"))

from edges import CATEGORIES, CLASSES, PROTOCOLS, Sketch, diamond     # noqa: E402

RUNS = 200
ROOM = 32768


def fill(add):
    """As many of what `add` adds as a bundle holds."""
    def made(count):
        s = Sketch()
        add(s, count)
        return s.pack()
    count = 1
    while len(made(count + 1)) <= ROOM:
        count += 1
    return made(count)


def classes(s, count):
    """Classes with their metaclasses, each with class_ro, a method and a name; superclasses by bind and by pointer."""
    made = []
    for i in range(count):
        meta, klass = [s.words(0, 0, 0, 0, s.add(s.class_ro(s.add(s.methods("legacy", 1)), name="HubClass%d" % i)))
                       for _ in range(2)]
        struct.pack_into("<2Q", s.b.image, klass - s.BASE, meta, made[-1] if made else 0)
        made.append(klass)
    s.bind(made[0] + 8, "_OBJC_CLASS_$_NSObject")
    s.section(CLASSES, *made)


def protocols(s, count):
    """Protocols with all their lists, and categories."""
    s.b.info = (0, 0x40)
    s.section(PROTOCOLS, *[s.add(s.protocol(96, "Protocol%d" % i)) for i in range(count)])
    s.section(CATEGORIES, *[s.add(s.category(True)) for _ in range(count)])


def lists(s, count):
    """One class with long lists."""
    made = s.methods("legacy", count), s.ivars(count), s.properties(count)
    methods, ivars, properties = [s.add(x) for x in made]
    s.with_ro(methods=methods, ivars=ivars, properties=properties)


def rebased(s, count):
    """One class with a list of methods, all pointers in the rebase table."""
    methods = s.add(struct.pack("<2I", 24, count) + bytes(24 * count))
    s.with_ro(methods=methods)
    for i in range(count):
        s.rebase(methods + 8 + 24 * i, s.text("method%d" % i))
        s.rebase(methods + 16 + 24 * i, s.text("v16@0:8"))


def texts(s, count):
    """One class with long names of properties."""
    rows = [(s.text("property%04d" % i + "x" * 200), s.text("Ti,R")) for i in range(count)]
    s.with_ro(properties=s.add(struct.pack("<2I", 16, count) + b"".join(struct.pack("<2Q", *row) for row in rows)))


def many_classes(s, count):
    """Classes, two with one class_ro; the first have a method."""
    made = []
    for i in range(count // 2):
        ro = s.add(s.class_ro(s.add(s.methods("legacy", 1)) if i < 60 else 0, name="Hub%d" % i))
        made += [s.words(0, 0, 0, 0, ro) for _ in range(2)]
    s.section(CLASSES, *made)


def user_time(command, bundle):
    """What a command says of a bundle, and the user time it takes."""
    with open(bundle, "rb") as given:
        before = resource.getrusage(resource.RUSAGE_CHILDREN).ru_utime
        said = subprocess.run(command, stdin=given, capture_output=True, check=True).stdout
        return said, resource.getrusage(resource.RUSAGE_CHILDREN).ru_utime - before


def measure(commands, bundle, runs):
    """The user time of all runs of each command, which take turns."""
    if len({user_time(command, bundle)[0] for command in commands}) > 1:
        sys.exit("the listings differ")
    times = [0.0] * len(commands)
    for _ in range(runs):
        for i, command in enumerate(commands):
            times[i] += user_time(command, bundle)[1]
    return times


def row(name, size, runs, times, start=None):
    less = "" if start is None else "%.2f" % ((times[0] - start[0]) / (times[1] - start[1]))
    print("| %s | %s | %d | %.3f | %.3f | %.2g | %s |" % (name, size, runs, *times, times[0] / times[1], less),
          flush=True)


def main(args):
    objclist = args[0] if args else os.path.join(ROOT, "crates", "objclist", "out", "objclist")
    rust = args[1] if len(args) > 1 else os.path.join(ROOT, "target", "oracle", "release")
    both = [objclist], [rust, "--bare"]
    print("| Bundle | bytes | runs | objclist, s | Rust, s | ratio | less start |\n|---|---|---|---|---|---|---|")
    with tempfile.TemporaryDirectory() as folder:
        path = os.path.join(folder, "bundle")

        def store(data):
            with open(path, "wb") as out:
                out.write(data)
            return len(data)
        size = store(Sketch().pack())
        start = measure(both, path, RUNS)
        row("no record", size, RUNS, start)
        total = [0.0, 0.0]
        for add in (classes, protocols, lists, rebased, texts):
            size = store(fill(add))
            times = measure(both, path, RUNS)
            total = [a + b for a, b in zip(total, times)]
            row(add.__name__, size, RUNS, times, start)
        row("all five", "", 5 * RUNS, total, [5 * x for x in start])
        many = Sketch()
        many_classes(many, 300)
        size = store(many.pack())
        row("300 classes", size, RUNS, measure(both, path, RUNS), start)
        size = store(diamond().pack())
        times = measure(([objclist], [rust]), path, RUNS)
        row("◆, with the oracle's jump", size, RUNS, times)
        row("◆", size, 1, (times[0] / RUNS, user_time([rust, "--bare"], path)[1]))


if __name__ == "__main__":
    main(sys.argv[1:])
