#!/usr/bin/env python3
"""Lists imports without a use in crates: forms/imports.py [CRATE ..] (nothing: all crates). Status 1 where there is one.

A name that a `use` or a `ghost use` brings into a file (.rt or .antt) and that stands nowhere else in it; of an operator as ◌≤◌ its sign
counts. What a `ghost use` brings must stand in a contract, what a `use` brings in the code. Comments do not count, nor what is of std, whose
traits are used by their methods alone.
"""
import os, re, subprocess, sys

top = subprocess.check_output(['git', 'rev-parse', '--show-toplevel'], text=True).strip()
crates = sys.argv[1:]
paths = subprocess.check_output(['git', '-C', top, 'ls-files', 'crates'], text=True).split('\n')
COMMENT = {'.rt': r'//[^\n]*', '.antt': r'(?m)(?:^|(?<=\s))--(?=\s|$)[^\n]*'}
USE = {'.rt': r'(?m)^[ ]*(?:pub )?(ghost )?use ([^;]*);', '.antt': r'(?m)^[ ]*(?:pub )?()use ([^\n{]*(?:\{[^}]*\})?[^\n]*)$'}
CONTRACT = re.compile(r"\b(?:(?:requires|ensures|invariant|keeps|proof)(?: \w+)?|ghost \w+ ?[:=]) ?\{")


def brought(statement):
    """The names that one statement brings in."""
    statement = ' '.join(statement.split())
    braces = re.match(r'(.*?)(?:\.|::)\{(.*)\}$', statement)
    for name in braces.group(2).split(',') if braces else [statement]:
        name = name.strip()
        if ' as ' in name:
            yield name.split(' as ')[1].strip()
        elif name == 'self':
            yield re.split(r'\.|::', braces.group(1))[-1]
        elif name and name not in '*_':
            yield name if braces else re.split(r'\.|::', name)[-1]


def parted(text):
    """The contracts of a .rt file, and its code."""
    contracts, code, at = [], [], 0
    for m in CONTRACT.finditer(text):
        if m.end() < at:
            continue
        end, deep = m.end(), 1
        while deep and end < len(text):
            deep += {'{': 1, '}': -1}.get(text[end], 0)
            end += 1
        code.append(text[at:m.end()])
        contracts.append(text[m.end():end - 1])
        at = end
    return ' '.join(contracts), ' '.join(code + [text[at:]])


def stands(name, text):
    signs = [s for s in name.split('◌') if s]
    if '◌' in name:
        return all(re.search(r'(?:^|[\s(){}])' + re.escape(s) + r'(?:$|[\s(){}])', text) for s in signs)
    if name == '[]':
        return name in text
    return re.search(r"(?<![\w'-])" + re.escape(name) + r"(?![\w'-])", text) is not None


found = 0
for path in paths:
    end = os.path.splitext(path)[1]
    if end not in USE or not os.path.exists(f'{top}/{path}') or crates and path.split('/')[1] not in crates:
        continue
    with open(f'{top}/{path}') as f:
        text = re.sub(COMMENT[end], '', f.read())
    rest = re.sub(USE[end], '', text)
    contracts, code = parted(rest) if end == '.rt' else (rest, rest)
    for ghost, statement in re.findall(USE[end], text):
        if statement.startswith('std::'):
            continue
        for name in brought(statement):
            if not stands(name, contracts if ghost else code):
                print(f'{path}: {name}')
                found += 1
sys.exit(found > 0)
