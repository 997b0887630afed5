#!/usr/bin/env python3
"""Respells the definitions and lemmas of the repository: camelCase and names joined by dashes or dots become snake_case, as today's Rattle writes words.

    python3 tools/respell.py          at the top of the repository: respells every file of crates/, README.md and docs/
    python3 tools/respell.py --look   says which names fall together, and changes nothing

A name is respelled if a file of specs/ or a lemma file of proofs/ defines it. Names that Rattle makes (in the proof folders of functions), names of
src/, types and modules keep their spelling.
"""
import os
import re
import sys

LEMMA = re.compile(r"^\s*(?:(?:unfoldable|abbrev|opaque|pub|data|record|private)\s+)*([^\s:(){}\[\],.;|=]+)((?:\s+[^\s:(){}\[\],.;|=]+)*)\s*:(?:\s|$)")
NAME = re.compile(r"(?<![A-Za-z0-9_'\-\u00b7\u2080-\u2089])[a-z][A-Za-z0-9_'\-\u00b7\u2080-\u2089]*")

# The cases of one type, which would fall together with the tests of the same words.
# A small method's fields, beside what is decoded from them.
APART = {"is-value": "a_value", "is-absent": "an_absence"} | {f"small\u00b7{f}": f"small_method_{f}" for f in ("size", "name", "types", "imp")}

# Lemmas with their function's words, already joined by _: crate, name, as a lemma is called that would have its function's name.
LEMMAS = [("dispatch", "same_bytes"), ("macho", "left_by"), ("attributes", "parts_from")]


def of_function(path):
    """A file of a function's proof; a lemma file right in proofs/ may have such a name too."""
    return os.path.basename(path) in ("Proof.antt", "Answers.antt", "Invariants.antt") and path.count("/") > 3


def files(kinds):
    for top, dirs, names in os.walk("crates"):
        dirs[:] = [d for d in dirs if d not in ("out", "target")]
        for n in sorted(names):
            if n.endswith(kinds):
                yield os.path.join(top, n)


def snake(name):
    if name in APART:
        return APART[name]
    s = name.replace("-", "_").replace("\u00b7", "_")
    s = re.sub(r"(?<=[a-z0-9])([A-Z])", lambda m: "_" + m.group(1).lower(), s)
    return re.sub(r"_+", "_", s)


def defined():
    found = {}
    for path in files(".antt"):
        if of_function(path):
            continue
        for line in open(path, encoding="utf-8"):
            m = LEMMA.match(line)
            if m:
                for n in [m.group(1)] + m.group(2).split():
                    found.setdefault(n, set()).add(path)
    return found


def apart(found):
    """Lemmas joined by dashes that would have the name of a definition in their own crate or in a file that names both."""
    names = {}
    for n, paths in found.items():
        names.setdefault(snake(n), {})[n] = {p.split("/")[1] for p in paths}
    meet = {}
    for path in files((".antt", ".rt")):
        if of_function(path):
            continue
        for n in set(NAME.findall(re.sub(r"--.*|//.*", "", open(path, encoding="utf-8").read()))) & set(found):
            meet.setdefault((path, snake(n)), set()).add(n)
    for s, ns in names.items():
        for n in ns:
            others = [o for o in ns if o != n]
            if "-" in n and n not in APART and (
                any(ns[n] & ns[o] for o in others) or any(n in both and len(both) > 1 for (_, t), both in meet.items() if t == s)
            ):
                APART[n] = s + "_lem"


def lemmas():
    for crate, name in LEMMAS:
        for path in files(".antt"):
            if path.startswith(f"crates/{crate}/proofs/") and not of_function(path) or f"/{crate}/proofs/" in path and of_function(path):
                text = open(path, encoding="utf-8").read()
                new = re.sub(r"(?<![A-Za-z0-9_'\-.])%s(?![A-Za-z0-9_'\-.])" % name, name + "_lem", text)
                if new != text:
                    open(path, "w", encoding="utf-8").write(new)


def main():
    if "--look" not in sys.argv:
        lemmas()
    found = defined()
    apart(found)
    old = {n for n in found if n[0].islower() and snake(n) != n}
    to = {n: snake(n) for n in old}
    if "--look" in sys.argv:
        back = {}
        for n in found:
            back.setdefault(to.get(n, n), set()).add(n)
        for n, ns in sorted(back.items()):
            if len(ns) > 1:
                print(n, sorted((k, sorted(p.split("/", 1)[1] for p in found[k])[:4]) for k in ns))
        library = set()
        for path in files((".antt", ".rt")):
            for line in open(path, encoding="utf-8"):
                m = re.match(r"\s*(?:ghost )?use (?:Rattle\.std|mathlib|Prim|lib|borrow|native|denote|logic)\S*\.\{(.*)\}", line)
                if m:
                    library |= {w.strip() for w in m.group(1).split(",")}
        for n in sorted(old):
            if to[n] in library:
                print("library:", n, to[n])
        print(len(old), "names")
        return
    new_names = {to.get(n, n) for n in found}
    pages = [p for p in ["README.md", "tools/README.md"] if os.path.exists(p)]
    for top, _, names in os.walk("docs"):
        pages += [os.path.join(top, n) for n in names if n.endswith(".md") and not n.startswith("PORT")]
    for path in list(files((".antt", ".rt", ".edit"))) + pages:
        text = open(path, encoding="utf-8").read()
        page = path.endswith(".md")

        # A file's names from a library are not this repository's.
        own = "|".join(sorted(os.listdir("crates")))
        theirs = set()
        for u in re.finditer(r"^(?:ghost )?use (?!Rattle\.(?:%s)\.)\S*\.\{(.*)\}" % own, text, re.M):
            theirs |= {w.strip() for w in u.group(1).split(",")}

        def turn(m):
            n = m.group(0)
            if n in theirs:
                return n
            # A page or an edit may also name what is respelled already.
            past = page or path.endswith(".edit")
            return to[n] if n in to else snake(n) if past and n not in new_names and snake(n) in new_names else n

        if page:
            new = re.sub(r"`[^`\n]*`", lambda q: q.group(0) if "/" in q.group(0) else NAME.sub(turn, q.group(0)), text)
        else:
            new = NAME.sub(turn, text)
        if new != text:
            open(path, "w", encoding="utf-8").write(new)


main()
