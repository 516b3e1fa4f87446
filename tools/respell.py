#!/usr/bin/env python3
"""Respells the repository's own antt names as today's Rattle spells them, in place.

    tools/respell.py [FOLDER]

Words are in snake case (slotCounts becomes slot_counts). Fields and constructors have no dash. In the name of a law a dash
stands only before the name of a definition; any other word is joined by an underscore (closure-rises becomes closure_rises,
length-slotCounts becomes length-slot_counts). The law that ends a function's proof is named after the function, as or_else_spec.
Names of Rust functions, strings, and names that come from the library stay. A law that would have the name of a definition
or of a function gets the ending _lem. A field may have the name of a definition elsewhere; such names are printed.
"""
import collections
import os
import re
import sys

# The library's own words after which our laws are named.
LIBRARY = set('length map sum take drop append set reverse filter min max zero suc'.split())
# Tests that would have the names of the constructors that they decide.
TESTS = {f'over{what}': f'is_over_{what.lower()}' for what in ('Admitted', 'Arrivals', 'Buffer', 'Delay', 'Envelope')}
SPLIT = re.compile(r'([\s(){}\[\],;."`]+)')
SIGNATURE = re.compile(
    r'(\s*)(?:(?:abbrev|pub|data|record|unfoldable|opaque|irreducible|instance) +)*'
    r'([^\s:(){}\[\],;."]+)(?:\s*(?:\{[^{}]*\}|\((?:[^()]|\([^()]*\))*\)))*\s*:(?:\s|$)')
CAMEL = re.compile(r"^[a-z][a-z0-9_']*[A-Z]")


def snake(word):
    """slotCounts as slot_counts; a word that begins with a capital is a type or a fact and stays."""
    if not CAMEL.match(word):
        return word
    return re.sub(r'(?<=[a-z0-9_])_?([A-Z])', lambda m: '_' + m.group(1).lower(), word)


def files(top, *endings):
    for folder, inner, names in os.walk(top):
        inner[:] = [name for name in inner if name not in ('.git', 'out', 'target')]
        for name in sorted(names):
            if name.endswith(endings):
                yield os.path.join(folder, name)


def function_of(path):
    """The function whose proof a file is, or None."""
    parts = path.split('/')
    if parts[-1].split('__')[0] in ('Proof.antt', 'Proof', 'Answers.antt', 'Invariants.antt'):
        return parts[-2]
    return None


def read(path):
    with open(path, encoding='utf-8') as file:
        return file.read()


def foreign_names(texts):
    """Names that come from the library."""
    names = set()
    own = '|'.join(crate_names)
    for text in texts:
        for path, listed in re.findall(r'^(?:ghost )?use ([^\s{]+?)\.?\{([^}]*)\}', text, re.M):
            if not re.match(r'Rattle\.(?:%s)\.' % own, path + '.'):
                names.update(re.split(r'[\s,]+', listed))
    names.discard('')
    return names


def declared(text):
    """(name, what) of each signature; what is 'field' in a record or data, else 'definition' or 'law'."""
    inside = None
    for line in text.split('\n'):
        if line.strip() and not line.strip().startswith('--'):
            indent = len(line) - len(line.lstrip())
            if inside is not None and indent <= inside:
                inside = None
            found = SIGNATURE.match(line)
            if found:
                what = 'definition' if re.search(r'\b(?:abbrev|unfoldable) ', line) else 'law'
                yield found.group(2), 'field' if inside is not None else what
            if re.match(r'\s*(?:pub )?(?:record|data) ', line):
                inside = indent


def renamings(top):
    sources = {path: read(path) for path in files(os.path.join(top, 'crates'), '.antt', '.rt')}
    foreign = foreign_names(sources.values())
    definitions, laws, fields, specs = set(LIBRARY), set(), set(), {}
    for path, text in sources.items():
        if not path.endswith('.antt') or '__' in path:
            continue
        function = function_of(path)
        if function:
            plain = function.lstrip('+')
            specs[plain.replace('_', '-') + '-spec'] = plain + '_spec'
            continue
        for name, what in declared(text):
            if what == 'field':
                fields.add(name)
            elif '/specs/' in path or what == 'definition':
                definitions.add(name)
            else:
                laws.add(name)

    def respelt(name):
        parts = [snake(part) for part in name.split('-')]
        if name in fields and name not in laws and name not in definitions:
            return '_'.join(parts)
        if name not in laws and name not in definitions:
            return '-'.join(parts)
        told = {snake(word) for word in definitions} | set(definitions)
        result = parts[0]
        for i in range(1, len(parts)):
            after = any('-'.join(parts[i:j]) in told or '_'.join(parts[i:j]) in told for j in range(i + 1, len(parts) + 1))
            result += ('-' if after else '_') + parts[i]
        return result

    tokens = set()
    for path, text in sources.items():
        tokens.update(SPLIT.split(text))
    result = {}
    for token in tokens:
        if token in foreign or token in crate_names:
            continue
        circle = token.startswith('◌') or token.endswith('◌')
        bare = token.strip('◌')
        if bare in foreign or not bare:
            continue
        new = TESTS.get(bare) or specs.get(bare) or (respelt(bare) if '-' in bare and (bare in laws | definitions | fields) or CAMEL.match(bare) or re.search(r'-[a-z][a-z0-9_]*[A-Z]', bare) else bare)
        if new != bare:
            result[token] = token.replace(bare, new) if circle else new
            result[bare] = new
    # A definition may have the name of the function that computes it; a law that would have another's name gets an ending.
    taken = tokens - set(result) | {new for old, new in result.items() if old.strip('◌') in definitions}
    for old, new in sorted(result.items()):
        if old in laws and old not in definitions and new in taken:
            result[old] = new + '_lem'
    groups = collections.defaultdict(set)
    for old, new in result.items():
        groups[new].add(old)
    for new, olds in sorted(groups.items()):
        if len(olds) > 1:
            print('one name:', new, 'of', ' '.join(sorted(olds)))
    return result


def turned(text, names):
    return ''.join(names.get(part, part) for part in SPLIT.split(text))


def turned_source(text, names):
    """Rust text: strings stay."""
    return ''.join(part if i % 2 else turned(part, names) for i, part in enumerate(re.split(r'("(?:[^"\\]|\\.)*")', text)))


def turned_page(text, names):
    """A page: only what stands between backticks."""
    return re.sub(r'`[^`\n]*`', lambda m: turned(m.group(0), names), text)


def write(path, new):
    if read(path) != new:
        with open(path, 'w', encoding='utf-8') as file:
            file.write(new)


top = sys.argv[1] if len(sys.argv) > 1 else '.'
crate_names = sorted(os.listdir(os.path.join(top, 'crates')))
names = renamings(top)
for path in files(os.path.join(top, 'crates'), '.antt'):
    write(path, turned(read(path), names))
for path in files(os.path.join(top, 'crates'), '.rt'):
    write(path, turned_source(read(path), names))
for path in list(files(os.path.join(top, 'docs'), '.md')) + [os.path.join(top, 'README.md')]:
    write(path, turned_page(read(path), names))
listing = os.path.join(top, 'crates.txt')
write(listing, '\n'.join(
    line if '#' not in line else line.split('#', 1)[0] + '#' + ''.join(
        names.get(part, part) if '-' in part else part for part in SPLIT.split(line.split('#', 1)[1]))
    for line in read(listing).split('\n')))
with open(os.path.join('/tmp', 'respelt.tsv'), 'w', encoding='utf-8') as file:
    for old, new in sorted(names.items()):
        file.write(f'{old}\t{new}\n')
print(len(names), 'names')
