#!/usr/bin/env python3
"""Runs two listers over generated bundles and compares what they print, to the byte.

    compare.py [options] LISTER [ORACLE]

LISTER and ORACLE are commands that read a bundle on standard input; ORACLE, if left out, is target/oracle/ended, which
lists under the new reading, or with --old target/oracle/oracle, which lists as the Rust does, under the old one. The first bundles are the short ones of cases/edges.py, the others seeded. A bundle differs if the listings do, or if one of
the two prints nothing, ends by a signal, has status 70 (the oracle's own check) or 101 (a Rust panic), or is over the
time limit; other statuses are not compared. A differing bundle is stored with both listings. Status 0 if all agree.
"""
import argparse
import multiprocessing
import os
import shlex
import sys
import tempfile
from collections import Counter

ROOT = os.path.dirname(os.path.dirname(os.path.abspath(__file__)))
sys.path.insert(0, os.path.join(ROOT, "tools", "cases"))

import cases                # noqa: E402
import coverage             # noqa: E402
from lister import run      # noqa: E402


def compare(options, numbers):
    """Compares a batch: how many agree, a line for each that differs, and what the second listings show."""
    listers = [shlex.split(options.lister), shlex.split(options.oracle)]
    agree, differ, table = 0, [], Counter()
    with tempfile.TemporaryDirectory() as folder:
        path = os.path.join(folder, "bundle")
        for number in numbers:
            bundle = cases.case(number)
            cases.write(path, bundle)
            (mine, _, mine_fault), (theirs, _, theirs_fault) = [run(lister, path, options.limit) for lister in listers]
            if mine == theirs and not mine_fault and not theirs_fault:
                agree += 1
            else:
                for suffix, data in (("bundle", bundle), ("lister", mine), ("oracle", theirs)):
                    cases.write(os.path.join(options.keep, "%d.%s" % (number, suffix)), data)
                faults = [fault for fault in (mine_fault, theirs_fault) if fault]
                differ.append(" ".join(["differs: %d (%s)" % (number, cases.name(number)), *faults]))
            if options.coverage and not theirs_fault:
                coverage.count(theirs, table)
    return agree, differ, table


def main():
    parser = argparse.ArgumentParser(description=__doc__, formatter_class=argparse.RawDescriptionHelpFormatter)
    parser.add_argument("--count", type=int, default=100000, help="bundles (100000)")
    parser.add_argument("--first", type=int, default=0, help="number of the first bundle (0)")
    parser.add_argument("--batch", type=int, default=1000, help="bundles of a batch (1000)")
    parser.add_argument("--jobs", type=int, default=1, help="batches at a time (1)")
    parser.add_argument("--limit", type=float, default=60, help="seconds for a bundle (60)")
    parser.add_argument("--keep", default=os.path.join(ROOT, "target", "differ"), help="folder for differing bundles")
    parser.add_argument("--coverage", action="store_true", help="print what the second listings show")
    parser.add_argument("--old", action="store_true", help="LISTER lists under the old reading")
    parser.add_argument("lister", metavar="LISTER")
    parser.add_argument("oracle", metavar="ORACLE", nargs="?")
    options = parser.parse_args()
    if options.oracle is None:
        options.oracle = shlex.quote(os.path.join(ROOT, "target", "oracle", "oracle" if options.old else "ended"))
    os.makedirs(options.keep, exist_ok=True)
    end = options.first + options.count
    batches = [(options, range(k, min(end, k + options.batch))) for k in range(options.first, end, options.batch)]
    agree = differ = 0
    table = Counter()
    cases.edge_list()       # made once, before the jobs divide
    with multiprocessing.get_context("fork").Pool(options.jobs) as pool:
        for done in [pool.apply_async(compare, batch) for batch in batches]:
            more, lines, shown = done.get()
            agree += more
            differ += len(lines)
            table += shown
            print(*lines, "%d compared, %d differ" % (agree + differ, differ), sep="\n", flush=True)
    if options.coverage:
        print("\n".join(coverage.show(table)))
    if differ:
        print("stored in", os.path.relpath(options.keep))
    print("%d agree, %d differ" % (agree, differ))
    return 1 if differ else 0


if __name__ == "__main__":
    sys.exit(main())
