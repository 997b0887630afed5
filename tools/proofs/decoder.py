#!/usr/bin/env python3
"""decoder.py CRATE FN DEFINITION RESULT [--last TERM] [--tail] [--use LINE].. [--out CALL=OUTCOME,..] [--again] [--kept] [--size N] [--near]

Writes the proof file of a decoder: a function that looks one thing up after the other, leaves with what is missing, and so
follows its definition (a `Decode`, records/specs/Decode.antt). Each place of the code is reached from the one before it, by
one lemma a stage, so that the file grows with the stages and not with their square. Run at the repository's top:

    tools/proofs/decoder.py records list.list_at 'decodeList (s .args .kind) (s .args .va)' Layout --use '..'

FN is the function's path below proofs/, DEFINITION its definition over the start s of the function, RESULT what that
decodes. --last proves the last return (what is returned ≡ what the rest of the definition gives; `@x` stands for the path
to the place that binds x), --tail says that the last call's answer is returned, --again replaces a proof file, --kept reads the
places that the last run generated, --size is the size of a record whose fields are read near its spot, --near says that the spot is a parameter. What is refused is edited by hand.
"""
import argparse
import os
import re
import subprocess
import sys

PURE = ("u32In", "u64In", "i32In")
NEAR = ("first-slot", "first-slot-or-0", "field", "field-or-0", "ro-lists-at")
OUT = {"readable": "placeOutcome", "spot-place": "placeOutcome", "whole-category": "placeOutcome", "read-cstr": "textOutcome", "read-cstr-or-empty": "textOutcome",
       "types-at": "textOutcome", "offset-at": "offsetOutcome"}
SLICES = ("segments", "sections", "info", "rebases", "binds", "index")


def arguments():
    ap = argparse.ArgumentParser()
    ap.add_argument("crate"); ap.add_argument("fn"); ap.add_argument("definition"); ap.add_argument("result")
    ap.add_argument("--last", default="refl"); ap.add_argument("--tail", action="store_true"); ap.add_argument("--again", action="store_true"); ap.add_argument("--kept", action="store_true")
    ap.add_argument("--size", default="0"); ap.add_argument("--near", action="store_true"); ap.add_argument("--use", action="append", default=[]); ap.add_argument("--out", default="")
    return ap.parse_args()


def questions(crate, name):
    """The definition's questions in order: (word, arguments, name of the answer)."""
    for root, _, files in os.walk(f"crates/{crate}/specs"):
        for f in files:
            text = open(os.path.join(root, f), encoding="utf-8").read()
            m = re.search(rf"^{name}(?: \S+)* =\n?((?:.*\n)+?)(?:\n|\Z)", text, re.M)
            if m:
                return re.findall(r"then \((\S+) ?(.*?)\) (?:\(λ (\S+)\.|\w+)", m[1].replace("then info (λ", "then (info) (λ"))
    sys.exit(f"no definition {name}")


def places(crate, fn, kept):
    """The places of the code: record -> (record before it, what it binds), and each need's place."""
    made = os.path.abspath("target/places")
    if not kept:
        subprocess.run(["rm", "-rf", made]); os.makedirs(made)
        subprocess.run(["rt", "dev", crate, "--generated", made], capture_output=True)
    lts = f"{made}/Rattle·{crate}·proofs/proofs/{fn.replace('.', '/')}/Lts.antt"
    if not os.path.exists(lts):
        sys.exit(f"the check made no {lts}: is the function covered, and are its callees proved?")
    text = open(lts, encoding="utf-8").read()
    before = {m[1]: (m[2], m[3]) for m in re.finditer(r"^ +pub record (\S+) : Type 0 where\n +pub before : (\S+)\n +pub (\S+) : ", text, re.M)}
    calls = set(re.findall(r"abbrev pub (\S+)·gave :", text))
    needs = re.findall(r"^ +Need-(\S+) =\s+\(c : (\S+)\) →", text, re.M)
    return before, calls, needs


def way(before, place):
    """From a place up to the start: (record, what it binds)."""
    out = []
    while place in before:
        out.append((place, before[place][1]))
        place = before[place][0]
    return out


def up(n):
    return "c" + " .before" * n


def main():
    a = arguments()
    os.chdir(subprocess.run(["git", "rev-parse", "--show-toplevel"], capture_output=True, text=True).stdout.strip())
    outs = dict(OUT, **dict(x.split("=") for x in a.out.split(",") if x))
    name = a.fn.split(".")[-1].replace("_", "-")
    proof = f"crates/{a.crate}/proofs/{a.fn.replace('.', '/')}/Proof.antt"
    if os.path.exists(proof) and not a.again:
        sys.exit(f"{proof} is there: --again replaces it")
    os.makedirs(os.path.dirname(proof), exist_ok=True)
    head = f"use Rattle·{a.crate}·proofs.proofs.{a.fn}.Statement.{{statement}}\n"
    if not a.kept:
      with open(proof, "w", encoding="utf-8") as f:
        f.write(f"{head}\npub {name}-spec : {{M : Type 1}} → statement M\n{name}-spec = ?h\n")
    definition = a.definition.split()[0]
    asked = questions(a.crate, definition)
    before, calls, needs = places(a.crate, a.fn, a.kept)

    final = [p for n, p in needs if n.startswith("returns")][-1]
    path = way(before, final)
    # Stages: a call whose answer is matched; its end is the place that knows the arm taken.
    stages, i = [], len(path) - 1
    while i >= 0:
        place, binds = path[i]
        if place in calls and i > 0 and path[i - 1][0].startswith("At-match"):
            call, j = binds, i - 2
            told = path[j][1]
            value = told
            if not told.startswith("enum-told"):
                j -= 1
            stages.append(dict(call=call, end=path[j][0], index=j, at=i, value=value, bound=not told.startswith("enum-told")))
            i = j
        i -= 1
    impure = [q for q in asked if q[0] not in PURE]
    if len(impure) < len(stages):
        sys.exit(f"{len(stages)} stages, but the definition asks {[q[0] for q in asked]}")

    out = []
    out.append("-- All that the function is lent, and its definition.")
    out.append("abbrev tables : tie.Start → Tables\ntables s = under (s .args .setting) (tablesOf (filesLent (s .args .files .now)) " + " ".join(f"(s .args .{x} .now)" for x in SLICES) + ")\n")
    out.append(f"abbrev whole : tie.Start → Decode {a.result}\nwhole s = {a.definition}\n")
    found, k, q = {}, 0, 0
    start_of, rest_of = {}, {}
    used = set()
    near_end = None
    for s in stages:
        k += 1
        up_to = None
        # the call's place, from the stage's end
        call_up = s["at"] - s["index"]
        told = f"c .before .{s['value']} .given" if s["bound"] else f"c .{s['value']} .given"
        if k == 1:
            start = f"{up(len(path) - s['index'])}"
            base = f"whole ({start})"
            prior = None
        else:
            p = stages[k - 2]
            step = up(p["index"] - s["index"])
            start = f"start-{k - 1} ({step})"
            base = f"rest-{k - 1} ({step})"
            prior = f"reach-{k - 1} ({step})"
        out.append(f"-- Past {s['call']}.")
        out.append(f"abbrev start-{k} : tie.{s['end']} → tie.Start\nstart-{k} c = {start}\n")
        # pure questions asked before this stage's own, and after it
        while asked[q][0] in PURE:
            q += 1
        var = asked[q][2]; q += 1
        term = f"rest ({base}) ({told} .0 .0)"
        found[var] = k
        pures = []
        while q < len(asked) and asked[q][0] in PURE:
            pures.append(asked[q]); q += 1
        s["pures"] = pures
        inner = term
        for word, args, _ in pures:
            place, offset = args.split(" ", 1)
            st = stages[found[place] - 1]
            w = up(st["index"] - s["index"])
            val = f"{w} .before .{st['value']} .given .0 .0" if st["bound"] else f"{w} .{st['value']} .given .0 .0"
            inner = f"rest ({inner}) ({word} (tables (start-{k} c)) ({val}) {offset})"
            used.add(word)
        out.append(f"abbrev rest-{k} : tie.{s['end']} → Decode {a.result}\nunfolding {definition}\nrest-{k} c = {inner}\n")
        call = re.sub(r"(?<=[a-z])\d+$", "", s["call"]) if not s["call"].endswith("-0") else s["call"]
        call = re.sub(r"^(.*-0)\d+$", r"\1", call)
        outcome = outs.get(call, "wordOutcome"); used.add(outcome)
        fact = f"sym ({up(call_up)} .{s['call']} .ensures) ∙ ap {outcome} ({told} .1)"
        if call == "spot-place":
            # the spot was looked up just before: its place is that of the bytes, and fields are then read near it
            spot = next(d for d, (_, b) in enumerate(path) if d > s["at"] and b == "readable-spot") - s["index"]
            is_ = f"{up(spot)} .readable-spot .ensures"
            near = (f"near : (c : tie.{s['end']}) (reach : ℕ) → reach ≤ SIZE → Near (imageOf (filesLent (start-{k} c .args .files .now)) (start-{k} c .args .segments .now)) "
                    f"(start-{k} c .args .va) ({up(spot)} .readable-spot .result) reach\n"
                    f"near c reach h = near-placed _ _ _ reach _ ({is_}) ({fact}) h\n")
            near_end = s["end"]
            fact = f"sym (spot-place-readable _ _ _ (omega arith) _ ({is_})) ∙ {fact}"
        whole_at = f"whole (start-{k} c)"
        lemma = f"past (tables (start-{k} c)) ({base}) ({told} .0 .0) ({fact})"
        out.append(f"reach-{k} : (c : tie.{s['end']}) → run (tables (start-{k} c)) ({whole_at}) ≡ run (tables (start-{k} c)) (rest-{k} c)")
        out.append(f"unfolding {definition}")
        out.append(f"reach-{k} c = {lemma if not prior else prior + ' ∙ ' + lemma}\n")
        if call == "spot-place":
            out.append(near.replace("SIZE", a.size))
        s["outcome"] = outcome

    answers = []
    ends_at = {s["end"]: n + 1 for n, s in enumerate(stages)}
    for need, place in needs:
        if near_end and re.sub(r"-requires(-\d+)?$", "", need) in NEAR:
            step = up(next(d for d, (p, _) in enumerate(way(before, place)) if p == near_end))
            answers.append(f"(λ c κs. near ({step}) _ (omega arith))")
            continue
        if a.near and re.sub(r"-requires(-\d+)?$", "", need) in NEAR:
            answers.append(f"(λ c κs. near-less ({up(len(way(before, place)))} .pre) (omega arith))")
            continue
        if not need.startswith("returns"):
            answers.append("(λ c κs. search needs)" if "-requires" in need else "(λ c. search needs)")
            continue
        w = way(before, place)
        # the last stage passed on this way
        n, depth = next(((ends_at[p], d) for d, (p, _) in enumerate(w) if p in ends_at), (0, len(w)))
        step = up(depth)
        if place == final:
            term = re.sub(r"@([\w-]+)", lambda m: f"{up(next(d for d, (_, b) in enumerate(w) if b == m[1]))} .{m[1]}", a.last)
            if a.tail:
                term = f"c .{w[0][1]} .ensures"
            body = f"({term}) ∙ sym (reach-{n} ({step}))" if term != "refl" else f"sym (reach-{n} ({step}))"
        else:
            d = next(d for d, (_, b) in enumerate(w) if b.startswith("m") and not b.startswith("match"))
            m = w[d][1]
            call = next((dd, b) for dd, (p, b) in enumerate(w) if p in calls)
            s = stages[n]
            fact = f"sym ({up(call[0])} .{call[1]} .ensures) ∙ ap {s['outcome']} ({up(d)} .{m} .given .1)"
            if s["call"] == "spot-place":
                spot = next(dd for dd, (_, b) in enumerate(w) if b == "readable-spot")
                fact = f"sym (spot-place-readable _ _ _ (omega arith) _ ({up(spot)} .readable-spot .ensures)) ∙ {fact}"
            base = f"whole ({step})" if n == 0 else f"rest-{n} ({step})"
            t = f"tables ({step})" if n == 0 else f"tables (start-{n} ({step}))"
            body = f"stops ({t}) ({base}) ({up(d)} .{m} .given .0 .0) ({fact})"
            if n:
                body += f" ∙ sym (reach-{n} ({step}))"
        out.append(f"{need} : tie.Need-{need}\nunfolding {definition}\n{need} c = {body}\n")
        answers.append(need)
    uses = ["use mathlib.Core.Path.{_≡_, refl, sym, ap, _∙_}"]
    names = sorted(x for x in used if x in ("placeOutcome", "textOutcome", "wordOutcome"))
    uses.append(f"use Rattle·reads.specs.Answer.{{{', '.join(names)}}}")
    words = sorted(x for x in used if x in PURE)
    if words:
        uses.append(f"use Rattle·pointers.specs.Bytes.{{{', '.join(words)}}}")
    uses.append("use Rattle·reads.specs.Files.{filesLent}")
    uses.append("use Rattle·pointers.specs.Tables.{Tables, tablesOf, under}")
    own = "Rattle·records·specs.specs" if a.crate == "records" else "Rattle·records.specs"
    laws = "Rattle·records·proofs.proofs" if a.crate == "records" else "Rattle·records.proofs"
    uses += [f"use {own}.Decode.{{Decode, run}}", f"use {laws}.Stages.{{rest, past, stops}}"] + a.use
    if a.near:
        uses += ["use native.Mathlib.Omega.{arith}", f"use {laws}.NearFields.{{near-less}}"]
    if near_end:
        uses += ["use Prim.Native.Nat.{ℕ, _≤_}", "use native.Mathlib.Omega.{arith}", "use Rattle·reads.specs.Place.{imageOf}",
                 "use Rattle·reads.proofs.Spots.{spot-place-readable}", f"use {own}.Near.{{Near}}", f"use {laws}.NearFields.{{near-placed}}"]
    uses.append("use borrow.Author.Needs.{needs}")
    text = "\n".join(uses) + "\n" + head + f"use Rattle·{a.crate}·proofs.proofs.{a.fn}.Tie as tie\n\n" + "\n".join(out)
    text += f"\npub {name}-spec : {{M : Type 1}} → statement M\n{name}-spec =\n    tie.close\n    (tie.spec\n    " + "\n    ".join(answers) + ")\n"
    with open(proof, "w", encoding="utf-8") as f:
        f.write(text)
    print(f"wrote {proof}: {len(stages)} stages, {len(needs)} needs, {len(text)} bytes")


main()
