#!/usr/bin/env python3
"""Lists the places in crates/*/src that docs/DESIGN-PASS.md counts: tools/places.py [POINT] [FOLDER].

Without a point it prints how many there are of each kind; with one (1 to 8) it prints them.
"""
import glob
import re
import sys
from collections import Counter

SIGNATURE = re.compile(r'fn (\w+)(?:<[^>]*>)?\s*\(([^)]*)\)\s*(?:->\s*([^\n{]+?))?\s*(?=\n|\{)')


def sources(folder):
    for path in sorted(glob.glob(folder + '/crates/*/src/*.rt')):
        yield path[len(folder) + 1:], open(path).read()


def code(text):
    """The text without comments and without the lines of contracts."""
    lines = []
    for line in text.split('\n'):
        if re.match(r'\s*(requires|ensures|ghost)\b', line):
            line = ''
        lines.append(re.sub(r'//.*', '', line))
    return '\n'.join(lines)


def line_of(text, at):
    return text.count('\n', 0, at) + 1


def lines(folder, pattern):
    for path, text in sources(folder):
        bare = code(text)
        for found in re.finditer(pattern, bare, re.M):
            yield f'{path}:{line_of(bare, found.start())}: {found.group(0).strip()[:100]}'


def signatures(folder, holds):
    for path, text in sources(folder):
        bare = code(text)
        for found in SIGNATURE.finditer(bare):
            name, given, answer = found.group(1), found.group(2), (found.group(3) or '').strip()
            if holds(name, [p for p in re.split(r',\s*', given.strip()) if p], answer):
                yield f'{path}:{line_of(bare, found.start())}: {name}'


def names_twice(folder, kind):
    seen = {}
    for path, text in sources(folder):
        for found in re.finditer(r'^\s*(?:pub(?:\(crate\))? )?' + kind + r' (\w+)', code(text), re.M):
            seen.setdefault(found.group(1), []).append(path)
    for name, paths in sorted(seen.items()):
        if len(paths) > 1 and name not in ('main', 'number', 'fmt'):
            for path in paths:
                yield f'{path}: {kind} {name}'


def clauses_often(folder):
    seen = Counter()
    for _, text in sources(folder):
        for found in re.finditer(r'^\s*requires(?: \w+)? \{ (.*) \}$', text, re.M):
            for fact in split(found.group(1)):
                seen[fact] += 1
    for fact, times in seen.most_common():
        if times > 2:
            yield f'{times} times: {fact}'


def split(clause):
    depth, start = 0, 0
    for i, c in enumerate(clause):
        depth += c in '({'
        depth -= c in ')}'
        if depth == 0 and c == '×':
            yield clause[start:i].strip().strip('()')
            start = i + 1
    yield clause[start:].strip().strip('()')


def proofs(folder, name):
    for path in sorted(glob.glob(folder + '/crates/*/proofs/**/' + name, recursive=True)):
        yield path[len(folder) + 1:]


KINDS = [
    (1, 'functions that answer a refusal by its number', lambda f: signatures(f, lambda n, p, a: 'refusal' in n and a == 'u32')),
    (1, 'enums and variants with a number for a refusal', lambda f: lines(f, r'\bRefused\(u32\)')),
    (1, 'a verdict or a number beside a value', lambda f: lines(f, r'^\s*pub (?:verdict|number): ')),
    (1, 'tests whether a number is 0', lambda f: lines(f, r'\b(?:\w*refusal\w*|number|eight|nine|sizes|before|both|lists|rule|slot|window)(?:\([^)]*\))? [!=]= 0\b')),
    (1, 'numbers for kinds', lambda f: lines(f, r'^pub const (?:ARRIVALS|DELAY|BUFFER): u32|\brule(?:: \w+ =| =| !=| ==) \d|\bby: (?:u32|0)')),
    (1, 'a number for a limit that is none', lambda f: lines(f, r'[!=]= NO_(?:DELAY|BUFFER)\w*|\bNO_(?:SUM|ENTRY)\b')),
    (2, 'functions of the same name', lambda f: names_twice(f, 'fn')),
    (2, 'types of the same name', lambda f: names_twice(f, 'struct')),
    (2, 'functions that make a blank array', lambda f: signatures(f, lambda n, p, a: not p and a.startswith('['))),
    (2, 'the same constant at another width', lambda f: lines(f, r'^pub const \w+_32: ')),
    (3, 'loops by while', lambda f: lines(f, r'^\s*while .*')),
    (4, 'calls of arithmetic of our own', lambda f: lines(f, r'(?<![.\w])(?:lesser|greater|plus|less|wide|smaller|fewer|later|widened|held|whole)\(')),
    (4, 'widening by as', lambda f: lines(f, r'\bas u64\b')),
    (5, 'facts in the requires of three functions or more', clauses_often),
    (5, 'functions with eight parameters or more', lambda f: signatures(f, lambda n, p, a: len(p) > 7)),
    (6, 'a buffer with a place beside it', lambda f: signatures(f, lambda n, p, a: any('at: usize' in x for x in p) and any('&mut [u8' in x for x in p))),
    (6, 'three lists that are written together', lambda f: signatures(f, lambda n, p, a: sum('&mut [u32' in x for x in p) > 2)),
    (7, 'function pointers, dyn, tables of functions', lambda f: lines(f, r'\bdyn \w+|: fn\(|\[fn\(')),
    (8, 'proofs that walk the code', lambda f: proofs(f, 'Proof.antt')),
    (8, 'files of answers', lambda f: proofs(f, 'Answers.antt')),
    (8, 'files of invariants', lambda f: proofs(f, 'Invariants.antt')),
]


def main():
    given = sys.argv[1:]
    point = int(given.pop(0)) if given and given[0].isdigit() else None
    folder = given[0].rstrip('/') if given else '.'
    for number, kind, places in KINDS:
        found = list(places(folder))
        if point is None:
            print(f'{number} {len(found):4} {kind}')
        elif point == number:
            print(f'-- {kind}')
            print('\n'.join(found))


main()
