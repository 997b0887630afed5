#!/usr/bin/env python3
"""build.py [OUT]: compiles and links the sources beside it into the files of host/files (OUT).

Needs clang (CLANG names another) and an ld64.lld of LLVM 19 or later (LD64 names it, with its words; left out it is `rust-lld -flavor darwin` of
the Rust toolchain). The listings beside the files are not written: `./list FILE` makes them, and tools/linked/compare.py holds them to the Rust.
"""
import glob
import os
import struct
import subprocess
import sys
import tempfile

HERE = os.path.dirname(os.path.abspath(__file__))

# name: source, architecture, least macOS, what the linker is told
FILES = {
    "shapes-arm64.dylib": ("shapes.m", "arm64", "13", "-dylib -fixup_chains -objc_relative_method_lists"),
    "shapes-arm64-legacy.dylib": ("shapes.m", "arm64", "13", "-dylib -fixup_chains -no_objc_relative_method_lists"),
    "shapes-arm64-opcodes.dylib": ("shapes.m", "arm64", "11", "-dylib -no_fixup_chains -objc_relative_method_lists"),
    "shapes-x86_64.dylib": ("shapes.m", "x86_64", "13", "-dylib -fixup_chains -no_objc_relative_method_lists"),
    "shapes-x86_64-opcodes.dylib": ("shapes.m", "x86_64", "10.12", "-dylib -no_fixup_chains -no_objc_relative_method_lists"),
    "app-arm64": ("app.m", "arm64", "13", "-fixup_chains"),
    "app-x86_64": ("app.m", "x86_64", "10.12", "-no_fixup_chains"),
    "plain.dylib": ("plain.c", "x86_64", "13", "-dylib -fixup_chains"),
    "object.o": ("app.m", "x86_64", "13", None),
}

# A universal file of two others, in this order.
UNIVERSAL = {"shapes.dylib": ("shapes-x86_64-opcodes.dylib", "shapes-arm64.dylib")}


def linker():
    if "LD64" in os.environ:
        return os.environ["LD64"].split()
    root = subprocess.run(["rustc", "--print", "sysroot"], capture_output=True, text=True, check=True).stdout.strip()
    return [glob.glob(f"{root}/lib/rustlib/*/bin/rust-lld")[0], "-flavor", "darwin"]


def build(name, out, work):
    source, arch, least, words = FILES[name]
    made = os.path.join(work, name + ".o")
    # -O1 keeps the code short; the paths of the sources stay out
    subprocess.run([os.environ.get("CLANG", "clang"), f"--target={arch}-apple-macos{least}", "-O1", "-c", source, "-o", made], check=True, cwd=HERE)
    path = os.path.join(out, name)
    if words is None:
        os.replace(made, path)
        return
    called = ["-install_name", "/usr/lib/" + name] if "-dylib" in words else []
    subprocess.run([*linker(), "-arch", arch, "-platform_version", "macos", least, least, "-undefined", "dynamic_lookup", "-x",
                    *words.split(), *called, "-o", path, made], check=True)


def universal(name, out):
    """fat.h: fat_header and a fat_arch for each part, big-endian; parts start at multiples of 16 KiB."""
    parts = [open(os.path.join(out, part), "rb").read() for part in UNIVERSAL[name]]
    table, body, at = b"", b"", 0x4000
    for part in parts:
        cputype, cpusubtype = struct.unpack_from("<II", part, 4)
        table += struct.pack(">IIIII", cputype, cpusubtype, at, len(part), 14)
        body = body.ljust(at - 0x4000, b"\0") + part
        at = (at + len(part) + 0x3FFF) // 0x4000 * 0x4000
    with open(os.path.join(out, name), "wb") as f:
        f.write((struct.pack(">II", 0xCAFEBABE, len(parts)) + table).ljust(0x4000, b"\0") + body)


def main():
    out = sys.argv[1] if len(sys.argv) > 1 else os.path.join(os.path.dirname(os.path.dirname(HERE)), "host", "files")
    os.makedirs(out, exist_ok=True)
    with tempfile.TemporaryDirectory() as work:
        for name in FILES:
            build(name, out, work)
    for name in UNIVERSAL:
        universal(name, out)


main()
