#!/usr/bin/env python3
"""linked.py [COUNT [FIRST]]: files of a linker, whose bind opcodes the crate `opcodes` reads as llvm-objdump does.

A number decides a source in assembly: pointers to symbols of other libraries, some with an addend, some in runs; weak definitions; calls, which
are bound lazily. The kit's clang assembles it and its linker, under the name ld64.lld, links it for macOS 10.12, which has no chained fixups.
Slots and names must be those that `llvm-objdump --bind --weak-bind --lazy-bind` lists, in its order: strong, weak, lazy. Needs llvm-objdump and
target/opcodes/compare. The last line is `K agree, D differ`; the status is 0 if all agree.
"""
import os
import random
import re
import shutil
import subprocess
import sys

ROOT = os.path.dirname(os.path.dirname(os.path.dirname(os.path.abspath(__file__))))
OUT = os.path.join(ROOT, "target", "opcodes", "linked")
HEADING = {"Bind table:": 0, "Weak bind table:": 1, "Lazy bind table:": 2}


def source(number):
    g = random.Random(number)
    names = [f"_OBJC_CLASS_$_C{i}" for i in range(g.randint(1, 5))] + [f"_ext{i}" for i in range(g.randint(1, 9))]
    weak = [f"_weak{i}" for i in range(g.randint(0, 3))]
    lines = [".section __TEXT,__text", ".globl _f", "_f:"]
    lines += [f"  callq {g.choice(names + weak)}" for _ in range(g.randint(0, 8))] + ["  retq"]
    for w in weak:
        lines += [f".globl {w}", f".weak_definition {w}", f"{w}: retq"]
    for section in g.sample(["__DATA,__data", "__DATA,__objc_data", "__DATA,__objc_classrefs", "__OTHER,__data"], g.randint(1, 3)):
        lines += [f".section {section}", ".p2align 3"]
        for _ in range(g.randint(1, 25)):
            name, gap = g.choice(names + weak), g.choice([0, 0, 0, 8, 8, 16, 120, 128, 4096])
            for _ in range(g.choice([1, 1, 1, 2, 3, 20])):
                lines.append(f"  .quad {name}" + g.choice(["", "", "", "+16", "-8"]) if gap == 0 else f"  .quad {name}")
                if gap:
                    lines.append(f"  .space {gap}")
    return "\n".join(lines) + "\n.subsections_via_symbols\n"


def listed(path):
    text = subprocess.run(["llvm-objdump", "--macho", "--bind", "--weak-bind", "--lazy-bind", path], capture_output=True, text=True, check=True).stdout
    tables, now = [[], [], []], None
    for line in text.split("\n"):
        now = HEADING.get(line, now)
        row = re.match(r"\S+\s+\S+\s+(0x[0-9A-F]+)\s.*\s(\S+)$", line)
        # a strong definition in the weak table binds nothing
        if row:
            tables[now].append(f"{int(row[1], 16):#x} {row[2]}")
    return tables


def main():
    count, first = [int(a) for a in sys.argv[1:3]] + [200, 0][len(sys.argv) - 1:]
    tools = os.path.join(os.path.dirname(os.path.dirname(os.path.realpath(shutil.which("rt")))), "toolchain", "bin")
    os.makedirs(OUT, exist_ok=True)
    linker = os.path.join(OUT, "ld64.lld")
    if not os.path.exists(linker):
        os.symlink(os.path.realpath(os.path.join(tools, "clang")), linker)
    agree, differ, sizes = 0, 0, [0, 0, 0]
    for number in range(first, first + count):
        path = os.path.join(OUT, str(number))
        with open(path + ".s", "w", encoding="utf-8") as f:
            f.write(source(number))
        subprocess.run([os.path.join(tools, "clang"), "--target=x86_64-apple-macos10.12", "-c", path + ".s", "-o", path + ".o"], check=True)
        subprocess.run([linker, "-dylib", "-arch", "x86_64", "-platform_version", "macos", "10.12", "10.12", "-undefined", "dynamic_lookup",
                        f"-O{number % 3}", "-o", path, path + ".o"], check=True)
        tables = listed(path)
        sizes = [a + len(b) for a, b in zip(sizes, tables)]
        ours = subprocess.run([os.path.join(ROOT, "target/opcodes/compare"), "--table", path], capture_output=True, text=True, check=True).stdout
        if ours.split("\n")[1:-1] == sum(tables, []):
            agree += 1
            for end in ("", ".s", ".o"):
                os.remove(path + end)
        else:
            differ += 1
            print(f"{path} differs")
    print(f"{sizes[0]} strong, {sizes[1]} weak and {sizes[2]} lazy binds")
    print(f"{agree} agree, {differ} differ")
    return differ != 0


sys.exit(main())
