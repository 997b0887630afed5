#!/usr/bin/env python3
"""lipo.py: universal files that llvm-lipo joins, each part held to what llvm-lipo takes out again.

Objects of five architectures are compiled with clang, and every choice of them, in two orders, is joined, with fat_arch and, where llvm-lipo
can, with fat_arch_64. It needs clang and llvm-lipo (LIPO names another) and target/universal/libface.so. The last line is `K agree, D differ`.
"""
import ctypes
import itertools
import os
import subprocess
import sys
import tempfile

import second

lib = ctypes.CDLL(os.path.join(os.path.dirname(os.path.abspath(__file__)), "../../target/universal/libface.so"))
word, out = ctypes.c_uint64, (ctypes.c_uint64 * 4)()
lib.face_find.restype = word
lib.face_find.argtypes = [ctypes.c_char_p, word, word, word, ctypes.c_void_p]
LIPO = os.environ.get("LIPO", "llvm-lipo")
ARCHS = {"x86_64": (0x01000007, 3), "x86_64h": (0x01000007, 8), "arm64": (0x0100000C, 0), "arm64e": (0x0100000C, 2), "i386": (7, 3)}


def run(*command):
    return subprocess.run(command, capture_output=True).returncode == 0


def found(data, arch):
    """The bytes of the part that the crate takes, None where there is none."""
    k = lib.face_find(data, len(data), *arch, out)
    part = second.Part(*out)
    return data[part.offset:part.offset + part.size] if k == 0 else None


def preferred(names):
    """arm64, else the first 64-bit one as the table has them."""
    return "arm64" if "arm64" in names else next((n for n in names if n != "i386"), None)


agree = differ = wides = 0
with tempfile.TemporaryDirectory() as room:
    os.chdir(room)
    for k, name in enumerate(ARCHS):
        open("a.c", "w").write("int f(void) { return %d; }" % k)
        if not run("clang", f"--target={name}-apple-macos11", "-c", "a.c", "-o", name):
            sys.exit(f"clang makes no object of {name}")
    objects = {name: open(name, "rb").read() for name in ARCHS}
    for n in range(1, len(ARCHS) + 1):
        for chosen, wide in itertools.product(itertools.permutations(ARCHS, n), ([], ["-fat64"])):
            if n > 2 and list(chosen) != sorted(chosen) and list(chosen) != sorted(chosen, reverse=True):
                continue
            if not run(LIPO, "-create", *wide, *chosen, "-output", "fat"):
                if wide:
                    continue
                sys.exit(f"{LIPO} does not join {chosen}")
            data = open("fat", "rb").read()
            table = subprocess.run([LIPO, "-archs", "fat"], capture_output=True, text=True).stdout.split()
            first = preferred(table)
            results = [found(data, (2 ** 64 - 1, 0)) == (objects[first] if first else None)]
            for name, arch in ARCHS.items():
                taken = run(LIPO, "-thin", name, "fat", "-output", "thin")
                results.append(found(data, arch) == (open("thin", "rb").read() if taken else None))
            wides += bool(wide)
            agree += all(results)
            differ += not all(results)
print(f"{wides} of fat_arch_64")
print(f"{agree} agree, {differ} differ")
sys.exit(differ > 0)
