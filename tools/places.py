#!/usr/bin/env python3
"""Counts the places of src/ that an older form of the language is written in, by the points of docs/DESIGN-PASS.md.

  places.py [--list] [ROOT]    counts, one line a point; with --list each place too

A place is a line, but for twins (a group of functions of one shape), facts (a clause that three or more functions
have) and parameters (two or more that three or more functions take together).
"""
import collections
import pathlib
import re
import sys

listing = '--list' in sys.argv
names = [a for a in sys.argv[1:] if a != '--list']
root = pathlib.Path(names[0] if names else '.')
files = sorted(root.glob('crates/*/src/**/*.rt'))


def code(text):
    return re.sub(r'//[^\n]*', '', text)


lines = []
for f in files:
    for n, line in enumerate(code(f.read_text()).split('\n'), 1):
        lines.append((str(f.relative_to(root)), n, line))


def show(point, places):
    print(f'{point}: {len(places)}')
    if listing:
        for p in places:
            print('   ', p)


def grep(point, pattern, unless=None):
    found = [f'{f}:{n}: {l.strip()}' for f, n, l in lines
             if re.search(pattern, l) and not (unless and re.search(unless, l))]
    show(point, found)


def functions():
    """Each function: its file, its name, its head up to the body, and its body."""
    for f in files:
        text = code(f.read_text())
        text = re.sub(r'ghost use[^;]*;', '', text)
        for m in re.finditer(r'(?:#\[test\]\s*)?\b(?:pub(?:\(crate\))? )?fn (\w+)', text):
            at = m.end()
            depth = 0
            clause = False
            start = None
            # the body is the first brace that no clause opens
            while at < len(text):
                c = text[at]
                if c == ';' and depth == 0:
                    break
                if c in '([{':
                    if c == '{' and depth == 0:
                        before = text[m.end():at].rstrip()
                        clause = re.search(r'(requires|ensures)(\*)?( \w+)?$', before) is not None
                        if not clause:
                            start = at
                    depth += 1
                elif c in ')]}':
                    depth -= 1
                    if depth == 0 and start is not None:
                        break
                at += 1
            yield (str(f.relative_to(root)), m.group(1), text[m.start():start or at],
                   text[start:at + 1] if start else '')


def shape(body):
    """A body without its names, numbers and types."""
    body = re.sub(r"b?'(\\.|[^'\\])'|b?\"[^\"]*\"|\b\d[\d_]*(u8|u16|u32|u64|usize|i32|i64)?\b", 'N', body)
    body = re.sub(r'\b(?:Self|[A-Za-z_]\w*)(?:::(?:<[^>]*>|\w+))*', lambda m: m.group() if m.group() in KEEP else 'x', body)
    return re.sub(r'\s+', ' ', body)


KEEP = {'if', 'else', 'match', 'for', 'in', 'while', 'loop', 'return', 'let', 'mut', 'as', 'Some', 'None', 'Ok', 'Err'}

all_functions = list(functions())

# 1
grep('1 truth values as answers and fields', r'-> bool\b|\b\w+: bool\b')
grep('1 an optional refusal in place of a result', r'Option<Refusal>')
grep('1 numbers from variants, arm by arm', r'^\s*\w+::\w+(\(_\))? => \d+,')
grep('1 laws that answer a number', r'^pub fn \w+\(\) -> u8')
grep('1 operations as numbers', r'\boperation: u16|const JUMP\w*: u16|pack\(\d+,')
grep('1 a number that stands for none', r'\bPENDING\b|65_?535|None => 0,|_ => Ok\(0\)')
grep('1 a match where a question mark, if let or let else says it', r'^\s*(None|Err\(_\)|Ok\(\(\)\)) => (\{|return)|(None|_) => (return )?None,|^\s*(_|None) => (false|\{\})')
# 2
groups = collections.defaultdict(list)
for f, name, head, body in all_functions:
    if '#[test]' in head or not body:
        continue
    s = shape(body)
    groups[s].append(f'{f} {name}')
twins = [g for s, g in groups.items() if len(g) > 1 and len(s) > 12]
print(f'2 twins: {len(twins)} groups of {sum(len(g) for g in twins)} functions')
if listing:
    for g in twins:
        print('   ', ', '.join(g))
# 3
grep('3 loops by while or loop', r'\b(while|loop)\b', r'while let')
grep('3 loops over indices', r'for \w+ in [^{]*\.\.|for \(\w+, \w+\) in .*enumerate')
# 4
grep('4 by hand: equality and tests of one variant', r'\bsame\(|=> true,')
grep('4 by hand: copying field by field', r'\b(\w+): (self\.)?\w+\.\1\b')
grep('4 by hand: conversion and blanks', r'fn (number|\w+_number|blank|encode|decode|number_word|short|announced)\b')
grep('4 types without equality or Debug', r'#\[derive\(Clone, Copy(, Drop)?\)\]')
# 5
facts = collections.defaultdict(set)
for f, name, head, body in all_functions:
    for kind, clause in re.findall(r'(requires|ensures)(?: \w+)? \{ ([^\n]*) \}', head):
        if kind == 'requires':
            for part in re.split(r' × ', clause):
                facts[part.strip('() ')].add(f'{f} {name}')
facts = {c: n for c, n in facts.items() if len(n) > 2}
show('5 facts that three or more functions require', [f'{c}   ({len(n)})' for c, n in facts.items()])
together = collections.defaultdict(set)
for f, name, head, body in all_functions:
    m = re.search(r'fn \w+(?:<[^(]*>)?\((.*?)\)\s*(?:->|requires|ensures|$|\{)', head, re.S)
    if not m:
        continue
    ps = [re.sub(r'\s+', ' ', p.strip()) for p in m.group(1).split(',')]
    ps = [re.sub(r'^mut ', '', p) for p in ps if ':' in p]
    for i in range(len(ps)):
        for j in range(i + 1, len(ps)):
            together[(ps[i], ps[j])].add(f'{f} {name}')
pairs = {p: n for p, n in together.items() if len(n) > 2}
show('5 parameters that three or more functions take together', [f'{", ".join(p)}   ({len(n)})' for p, n in pairs.items()])
# 6
grep('6 fields: lent slices, and numbers that say where in them', r"pub\(crate\) \w+: (&'\w+ (mut )?\[|u16|usize)|^    (text: &'t|at: usize)")
grep('6 an index or a range by hand', r'\w\[\w+ as usize\]|\w\[self\.\w+( - 1)?\]|\w\[at\]|\w\[\w* ?\+? ?\w*\.\.')
# 7
grep('7 switches on a step, tables of functions', r'match (instruction|action|step)\b|match \*?mark\b|: fn\(|dyn ')
# 8
proofs = root.glob('crates/*/proofs/**/*.antt')
sizes = collections.Counter()
counts = collections.Counter()
for p in proofs:
    kind = p.name if p.name in ('Answers.antt', 'Invariants.antt', 'Proof.antt') else 'lemmas'
    sizes[kind] += len(p.read_text().split('\n')) - 1
    counts[kind] += 1
print('8 proofs: ' + ', '.join(f'{k} {counts[k]} files, {sizes[k]} lines' for k in sorted(sizes)))
