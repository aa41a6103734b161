#!/usr/bin/env python3
"""Respells the repository's own definitions and lemmas, once: words to snake case, types to camel case.

    python3 tools/respell.py [FOLDER]

Reads which names the files of specs/ and proofs/ define with a dash or a prime sign, and writes each of them anew in
every .antt, .rt and .edit file of crates/: `state-of` becomes `state_of`, `Came-lowest` becomes `CameLowest`. Names of
goals, of steps of a proof and of the library are left alone. It says what it did not decide.
"""
import collections
import glob
import os
import re
import sys

ROOT = sys.argv[1] if len(sys.argv) > 1 else '.'
SEPARATORS = r'[\s(){}\[\];,.«»`"]'
ANSWERS = ('/Answers.antt', '/Invariants.antt', '/Choices.antt', '/Proof.antt')
DEFINED = re.compile(
    r'^(\s*)(?:abbrev |unfoldable )?(?:pub )?(?:abbrev |unfoldable )?(record |data )?([^\s(){}:;,.«»]+)\s+'
    r'((?:\{[^}]*\}\s*|\([^)]*\)\s*)*):\s')
# A lemma that would get its function's name, and types that would get a variant's.
APART = {'reason-at': 'reason_at_lem', 'Too-wide': 'IsTooWide', 'Too-tall': 'IsTooTall'}


def files(*kinds):
    for kind in kinds:
        yield from sorted(glob.glob(f'{ROOT}/crates/*/**/*.{kind}', recursive=True))


def own(path):
    return '/out/' not in path and '/target/' not in path


def respelled(name):
    if name in APART:
        return APART[name]
    if name[0].isupper():
        return ''.join(part[:1].upper() + part[1:] for part in re.split('[-_]', name))
    return name.replace('-', '_').replace('′', "'")


def code_of(line):
    return '' if line.strip().startswith('--') else line


def collect():
    names, fields, seen = set(), set(), collections.Counter()
    for path in filter(own, files('antt')):
        answers = path.endswith(ANSWERS)
        for line in open(path, encoding='utf-8'):
            line = code_of(line)
            seen.update(t for t in re.split(SEPARATORS + '+', line) if t)
            found = DEFINED.match(line)
            if not found or (answers and 'goal.' in line):
                continue
            name = found.group(3)
            if '-' not in name and '′' not in name:
                continue
            names.add(name)
            if found.group(1):
                fields.add(name)
    return names, fields, seen


def imported(names):
    """Names that some file takes from elsewhere than the repository's crates."""
    crates = {os.path.basename(p.rstrip('/')) for p in glob.glob(f'{ROOT}/crates/*/')}
    taken = set()
    for path in filter(own, files('antt', 'rt')):
        for module, listed in re.findall(r'use ([A-Za-z0-9_.·+]+)\.\{([^}]*)\}', open(path, encoding='utf-8').read()):
            parts = module.replace('·', '.').split('.')
            if parts[0] == 'Rattle' and len(parts) > 1 and parts[1] in crates:
                continue
            taken.update(n.strip().split(' ')[0] for n in listed.split(','))
    return taken & names


def main():
    names, fields, seen = collect()
    foreign = imported(names)
    for name in sorted(foreign):
        print('left, since the library has it too:', name)
    names -= foreign
    to = {name: respelled(name) for name in names}
    for name in sorted(names):
        if to[name] in seen and name not in APART:
            print('falls together:', name, to[name])
    token = re.compile(r'(?<![^\s(){}\[\];,.«»`"])([^\s(){}\[\];,.«»`"]+)')
    for path in filter(own, files('antt', 'rt', 'edit')):
        text = open(path, encoding='utf-8').read()

        def put(found):
            word = found.group(1)
            if word not in to:
                return word
            at = found.start()
            if at > 0 and text[at - 1] == '.' and (at < 2 or not text[at - 2].isspace()):
                # behind a value: a field of a record of this repository, and no step of a proof
                before = re.search(r'[^\s(){}\[\];,«»`"]*$', text[:at - 1]).group(0)
                if word not in fields and before == 'c':
                    print('left:', os.path.relpath(path, ROOT), before + '.' + word)
                    return word
            return to[word]

        new = token.sub(put, text)
        if new != text:
            open(path, 'w', encoding='utf-8').write(new)
    print(len(to), 'names')


main()
