#!/usr/bin/env python3
"""Brings this repository's own definitions and lemmas to the kit's spelling: a word in snake case, a type or a fact in upper camel case; a dash
joins two names. It ran once, after /opt/rattle/port/port.py, which respells only some names.

Usage: respell.py [TOP]      rewrites the files of crates/ below TOP
       respell.py --names    prints each old name beside its new one, and writes nothing
"""
import glob
import os
import re
import sys

TOP = next((a for a in sys.argv[1:] if not a.startswith('-')), '.')
# a name of antt: what stands between spaces and these marks
NAME = re.compile(r'[^\s(){};,."«»|]+')
DECLARED = re.compile(r'^\s*(?:(?:abbrev|unfoldable|pub|data|record)\s+)*((?:[^\s:(){}.]+ )*[^\s:(){}.]+) :(?: |$)')
HEAD = re.compile(r'^\s*(?:(?:abbrev|unfoldable|pub)\s+)*(?:data|record)\s+([^\s:(){}]+)')
# words of the library that a lemma's name may join to another by a dash
LIBRARY = set('length take drop append map filter sum set sets replicate reverse get_or add sub mul div min max all any concat nil cons'.split())
# names whose rule would give one that stands there already
KEPT = {'Counts-As-Term': 'CountsAsTermHolds', 'rows-at': 'rows_at_lem'}


def files(*patterns):
    return sorted(f for p in patterns for f in glob.glob(os.path.join(TOP, 'crates', '*', p), recursive=True) if '/out/' not in f)


def is_made(path):
    """The proof of one function: most of its names are those of the function's goals."""
    return os.path.basename(path) == 'Proof.antt'


def declared():
    """Own names, and those among them that are functions."""
    names, words = set(), set()
    for path in files('src/**/*.rt'):
        with open(path) as file:
            names.update(name for line in file if line.startswith('ghost use') for name in re.findall(r' as ([^\s,}]+)', line))
    for path in files('specs/**/*.antt', 'proofs/**/*.antt'):
        if is_made(path):
            continue
        with open(path) as file:
            for line in file:
                head = HEAD.match(line)
                if head:
                    names.add(head[1])
                if line.startswith('use '):
                    names.update(re.findall(r' as ([^\s,}]+)', line))
                found = DECLARED.match(line)
                if not found or line.lstrip().startswith(('--', 'use ')):
                    continue
                names.update(found[1].split())
                if re.match(r'\s*(abbrev|unfoldable)', line):
                    words.update(found[1].split())
    return names, words


def snake(name):
    return re.sub(r'(?<=[a-z0-9])([A-Z])', lambda m: '_' + m[1].lower(), name.replace('getD', 'get_or'))


def respelled(name, words):
    """The new name. A dash stays where it joins two functions' names."""
    if name[0].isupper():
        return ''.join(part[0].upper() + part[1:] for part in name.split('-') if part)
    whole = snake(name.replace('-', '_'))
    known = {snake(w) for w in words} | LIBRARY
    for at, letter in enumerate(name):
        before, after = snake(name[:at].replace('-', '_')), snake(name[at + 1:].replace('-', '_'))
        if letter == '-' and before in known and after in known:
            return before + '-' + after
    return whole


def imported():
    """Names that come from the library, and so keep their spelling."""
    out = set()
    for path in files('specs/**/*.antt', 'proofs/**/*.antt', 'src/**/*.rt'):
        with open(path) as file:
            for line in file:
                found = re.match(r'\s*(?:ghost )?use (?:Rattle\.std|Prim|native|mathlib|lib|borrow|denote|logic)\.[^{]*\{([^}]*)\}', line)
                if found:
                    out.update(n.strip().split(' as ')[0] for n in found[1].split(','))
    return out


def table():
    """What each own name becomes, and what a lemma becomes that then has its function's name."""
    names, words = declared()
    own = names - imported()
    new = {name: KEPT.get(name, respelled(name, words)) for name in own}
    function = {new[name] for name in own if re.search('[a-z][A-Z]', name) and name[0].islower()}
    lemmas = {}
    for name in sorted(own):
        if new[name] in function and not re.search('[a-z][A-Z]', name):
            lemmas[name] = new[name] + '_lem'
    functions = {a: b for a, b in new.items() if a != b and a not in lemmas}
    return functions, lemmas


def respell_line(line, functions, lemmas):
    def turned(m):
        name, before = m[0], line[:m.start()]
        # what Rattle makes of a function stands behind `tie.`, and what is behind another point is no lemma
        if before.endswith('tie.'):
            return name
        if name in lemmas:
            return name if before.endswith('.') else lemmas[name]
        return functions.get(name, name)
    return NAME.sub(turned, line)


def main():
    functions, lemmas = table()
    if '--names' in sys.argv:
        for name, new in sorted({**functions, **lemmas}.items()):
            print(name, new)
        return
    for path in files('specs/**/*.antt', 'proofs/**/*.antt', 'src/**/*.rt'):
        code = path.endswith('.rt')
        with open(path) as file:
            lines = file.read().split('\n')
        out = [line if code and not re.match(r'\s*(ghost use|requires|ensures)\b', line)
               else respell_line(line, functions, {} if code else lemmas) for line in lines]
        if out != lines:
            with open(path, 'w') as file:
                file.write('\n'.join(out))


if __name__ == '__main__':
    main()
