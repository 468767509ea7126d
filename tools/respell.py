#!/usr/bin/env python3
"""Respells this repository's own definitions, lemmas, fields and local names of antt: words in snake case, types and facts in
upper camel case. Names that come from the toolchain, goals and names that Rattle makes keep their spelling, and so do
functions of src/, strings and must-fail edits.

    python3 tools/respell.py [FOLDER]     once, right after port.py, at the top of the repository

It prints each name that would fall together with another of the same file, and changes nothing then."""
import re
import sys
from pathlib import Path

args = [a for a in sys.argv[1:] if not a.startswith('--')]
top = Path(args[0] if args else '.')
DASHED = re.compile(r"(?<![\w'◌-])([A-Za-z][\w']*(?:-[\w']+)+)(?![\w'-])")


def respelt(name):
    parts = name.split('-')
    if name[0].isupper():
        return ''.join(p[:1].upper() + p[1:] for p in parts)
    return '_'.join(p for p in parts)


def files(*folders):
    for crate in sorted((top / 'crates').iterdir()):
        for folder in folders:
            yield from sorted(p for p in (crate / folder).rglob('*') if p.suffix in ('.antt', '.rt'))


def bare(text):
    """The text without comments and strings, at the same places."""
    blank = lambda m: ' ' * len(m.group(0))
    return re.sub(r'--[ \t].*|--$|//.*|"(?:[^"\\\n]|\\.)*"', blank, text, flags=re.M)


def declared(text):
    """Names that a file of antt declares: definitions, fields, constructors, and what patterns, lambdas and lets bind."""
    own = set()
    for m in re.finditer(r'^(?:pub |abbrev |opaque |unfoldable |record |data |ruleset )*([A-Za-z][\w\'-]*)(?: [({].*)? :(?! *goal\.)', text, re.M):
        own.add(m.group(1))
    for m in re.finditer(r'^ +(?:pub )?([A-Za-z][\w\'-]*) :', text, re.M):
        own.add(m.group(1))
    for m in re.finditer(r'[({]((?:[A-Za-z_][\w\'-]* )+): ', text):
        own.update(m.group(1).split())
    for m in re.finditer(r'\blet ([A-Za-z][\w\'-]*)\b', text):
        own.add(m.group(1))
    for m in re.finditer(r'λ ((?:[A-Za-z_][\w\'-]* ?)+)\.', text):
        own.update(m.group(1).split())
    return own


def foreign(text):
    """Names that a file takes from the toolchain."""
    names = set()
    for m in re.finditer(r'^(?:pub )?(?:ghost )?use ([\w.·]+)\.\{([^}]*)\}', text, re.M):
        ours = re.match(r'Rattle\.(' + '|'.join(crates) + r')\.', m.group(1) + '.')
        if not ours:
            names.update(n.strip().split(' as ')[0] for n in m.group(2).split(','))
    return names


def aliases(text):
    """Names that a file gives to what it imports."""
    return {m for items in re.findall(r'^(?:pub )?(?:ghost )?use [\w.·]+\.\{([^}]*)\}', text, re.M) for m in re.findall(r' as ([\w\'-]+)', items)}


crates = [p.name for p in sorted((top / 'crates').iterdir())]
labels = set()
for p in files('src'):
    labels.update(re.findall(r'\b(?:ensures|requires|ghost|type) ([a-z_]\w*)', p.read_text()))

own, theirs = set(), set()
texts = {p: p.read_text() for p in files('specs', 'proofs', 'src')}
for p, text in texts.items():
    plain = bare(text)
    theirs |= foreign(plain)
    own |= aliases(plain)
    if p.suffix == '.antt':
        own |= declared(plain)
    for name in DASHED.findall(plain):
        if name.replace('-', '_') in labels:
            own.add(name)
names = {n: respelt(n) for n in own - theirs if '-' in n}


def turn(p, text):
    plain = bare(text)
    mine = foreign(plain)
    out, at = [], 0
    for m in DASHED.finditer(plain):
        name = m.group(1)
        if name not in names or name in mine:
            continue
        before = plain[:m.start()]
        # goals and steps of a proof are named by Rattle
        if re.search(r'\bgoal\.$', before) or re.match(r' : goal\.', plain[m.end():]):
            continue
        out.append(text[at:m.start()] + names[name])
        at = m.end()
    return ''.join(out) + text[at:]


clashes = []
for p, text in texts.items():
    if p.suffix != '.antt':
        continue
    plain = bare(text)
    have = declared(plain)
    for n in have:
        if n in names and names[n] in have:
            clashes.append(f'{p}: {n} and {names[n]}')
by = {}
for n, s in names.items():
    by.setdefault(s, set()).add(n)
clashes += [f'{sorted(ns)} both become {s}' for s, ns in by.items() if len(ns) > 1]
if '--list' in sys.argv:
    for n in sorted(names):
        print(n, names[n])
print('\n'.join(clashes) if clashes else f'{len(names)} names', file=sys.stderr)
if clashes or '--list' in sys.argv:
    sys.exit(1 if clashes else 0)
for p, text in texts.items():
    new = turn(p, text)
    if new != text:
        p.write_text(new)
