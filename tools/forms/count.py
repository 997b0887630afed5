#!/usr/bin/env python3
"""Counts the places of older forms in crates/*/src: forms/count.py [COMMIT] (nothing: the files as they are); -v lists them.

enums     enums of the shape of Result or Option: one variant that is absent, missing, nothing or a refusal, and one other; with more
          than one other they are listed as steps
refusals  a question's number written as a number
handed    matches that only hand an error on
twins     functions of one crate whose bodies (of six lines or more) are the same but for names and numbers
loops     while and loop; index: those that move an index by one
lent      functions with three or more of the parameters that are lent together
tests     a bool of slices or parts by hand (fn same_..); codes: numbers for the cases of an enum (fn .._code, .._number, .._letter)
answers   lines of proofs/**/Answers.antt, and files
"""
import os, re, subprocess, sys
from collections import defaultdict

args = [a for a in sys.argv[1:] if a != '-v']
verbose = '-v' in sys.argv
commit = args[0] if args else None
top = subprocess.check_output(['git', 'rev-parse', '--show-toplevel'], text=True).strip()


def files(pattern):
    if commit:
        names = subprocess.check_output(['git', '-C', top, 'ls-tree', '-r', '--name-only', commit, 'crates'], text=True).split('\n')
    else:
        names = subprocess.check_output(['git', '-C', top, 'ls-files', 'crates'], text=True).split('\n')
    for n in names:
        if re.search(pattern, n):
            if commit:
                yield n, subprocess.check_output(['git', '-C', top, 'show', f'{commit}:{n}'], text=True)
            elif os.path.exists(f'{top}/{n}'):
                yield n, open(f'{top}/{n}').read()


LENT = ('files', 'segments', 'sections', 'info', 'rebases', 'binds', 'index', 'setting')
found = defaultdict(list)
shapes = defaultdict(list)
for name, text in files(r'^crates/[a-z_]+/src/.*\.rt$'):
    crate = name.split('/')[1]
    code = re.sub(r'//[^\n]*', '', text)
    for m in re.finditer(r'^(?:pub(?:\([a-z]+\))? )?enum (\w+)[^{]*\{(.*?)^\}', code, re.M | re.S):
        variants = [v.strip() for v in re.split(r',\s*\n', m.group(2)) if v.strip()]
        none = [v for v in variants if re.match(r'(Missing|Refused|Nothing|Absent|Unknown)\b', v) and not re.match(r'(Absent\(Reason\))', v)]
        if none and m.group(1) not in ('Missing', 'Which'):
            found['enums' if len(variants) == 2 else 'steps'].append(f'{crate}::{m.group(1)}')
    for m in re.finditer(r'\b(?:[Rr]efused|Err)\((\d+)\)', code):
        found['refusals'].append(f'{name}: {m.group(0)}')
    for m in re.finditer(r'Err\((m|k)\) => (?:return )?Err\(\1\)', code):
        found['handed'].append(f'{name}: {m.group(0)}')
    for m in re.finditer(r'^[ ]*(while\b[^\n]*|loop) \{\n(.*?)^', code, re.M | re.S):
        found['loops'].append(f'{name}: {m.group(1)}')
    for m in re.finditer(r'^([ ]*)(while\b[^\n]*|loop) \{\n(.*?)^\1\}', code, re.M | re.S):
        if re.search(r'^\s*\w+ [+-]= 1;', m.group(3), re.M):
            found['index'].append(f'{name}: {m.group(2)}')
    for m in re.finditer(r'^([ ]*)(?:pub(?:\([a-z]+\))? )?(?:extern "C" )?fn (\w+)(?:<[^>]*>)?\(((?:[^()]|\([^()]*\))*)\)(?: -> [^\n{]*)?(?: \{)?\n(.*?)^\1\}', code, re.M | re.S):
        fn, params, rest = m.group(2), m.group(3), m.group(4)
        held = [p for p in LENT if re.search(r'\b' + p + r':', params)]
        if len(held) >= 3:
            found['lent'].append(f'{name}: {fn}')
        if re.match(r'same_', fn):
            found['tests'].append(f'{name}: {fn}')
        if re.search(r'_(code|number|letter)$', fn):
            found['codes'].append(f'{name}: {fn}')
        body = re.split(r'^' + m.group(1) + r'\{\n', rest, flags=re.M)[-1]
        if body.count('\n') >= 6:
            shape = re.sub(r'\b\d\w*\b', '0', re.sub(r'\b[A-Za-z_]\w*\b', 'x', body))
            shapes[(crate, re.sub(r'\s+', ' ', shape))].append(f'{name}: {fn}')
for (crate, shape), names in shapes.items():
    if len(names) > 1:
        found['twins'].append(' = '.join(names))
lines = count = 0
for name, text in files(r'/proofs/.*/Answers\.antt$'):
    lines += text.count('\n')
    count += 1
for key in ('enums', 'steps', 'refusals', 'handed', 'twins', 'loops', 'index', 'lent', 'tests', 'codes'):
    print(f'{key:9} {len(found[key])}')
    if verbose:
        for place in found[key]:
            print(f'          {place}')
print(f'answers   {lines} lines in {count} files')
