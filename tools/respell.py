#!/usr/bin/env python3
"""Brings the names of this repository's own definitions, fields, constructors and lemmas to snake case.

Run once, at the top of the repository, on what the kit's port script left: python3 tools/respell.py
A name is respelled where specs/, a lemma file of proofs/ or a ghost member defines it: tollAt becomes
toll_at, gates-lawful becomes gates_lawful, a prime becomes an apostrophe. Where a lemma and a definition
would fall together, the lemma gets the ending _lem. Functions of src/, goals and the names that the check
makes keep theirs; strings, inputs and outputs are not touched.
"""
import collections
import glob
import os
import re

LEMMAS = [p for p in glob.glob('crates/*/specs/**/*.antt', recursive=True) + glob.glob('crates/*/proofs/*.antt')]
ANSWERS = [p for p in glob.glob('crates/*/proofs/*/**/*.antt', recursive=True)]
SOURCES = glob.glob('crates/*/src/**/*.rt', recursive=True)

DEFINED = re.compile(r"^\s*(?:(?:pub|abbrev|private|unfoldable|opaque)\s+)*([^\s(){}:.=λ,;⌜]+) :\s")
TYPE = re.compile(r'^\s*(?:(?:pub|abbrev|private)\s+)*(?:record|data)\s+(\S+)')
TOKEN = re.compile(r"[^\s(){}\[\],;.|⌜⌝]+")


def snake(name):
    name = re.sub(r'([a-z0-9])([A-Z])', lambda m: m.group(1) + '_' + m.group(2).lower(), name)
    return name.replace('-', '_').replace('′', "'")


def named(path, goals):
    """The names that a file defines, each with whether it is a definition (abbrev, field, constructor) or a lemma."""
    out = {}
    for line in open(path, encoding='utf-8'):
        if TYPE.match(line):
            continue
        m = DEFINED.match(line)
        if not m or ' goal.' in line or ' need.' in line:
            continue
        name = m.group(1)
        if name[0].islower() and not name.startswith('_'):
            defines = 'abbrev' in line.split(name)[0] or not line.startswith(('pub ', name))
            out[name] = out.get(name, False) or (defines and '/specs/' in path)
    return out


defined = collections.defaultdict(bool)
for path in LEMMAS + ANSWERS:
    for name, is_def in named(path, path in ANSWERS).items():
        defined[name] |= is_def
for path in SOURCES:
    for line in open(path, encoding='utf-8'):
        m = re.match(r'\s*ghost (?:law |use )?([a-z][\w-]*)\s*[:=]', line)
        if m:
            defined[m.group(1)] = True
        if 'ghost use' in line:
            for alias in re.findall(r' as ([a-z][^\s,}]*)', line):
                defined[alias] |= False

groups = collections.defaultdict(list)
for name in defined:
    groups[snake(name)].append(name)
renamed = {}
for new, olds in groups.items():
    if len(olds) > 1:
        # camel case is a definition's spelling; dashes and what the port made of them are lemmas'
        olds.sort(key=lambda n: (not re.search('[a-z][A-Z]', n), n))
        print('falls together:', new, '<-', olds[0], '; with _lem:', ', '.join(olds[1:]))
    for at, old in enumerate(olds):
        to = new if at == 0 else new + '_lem'
        if to != old:
            renamed[old] = to

FOREIGN = re.compile(r'use (?!Rattle\.(?:%s)\.)[\w.]+\.\{([^}]*)\}' % '|'.join(sorted(os.listdir('crates'))))


def foreign(text):
    """The names that a file takes from a library of the kit."""
    return {name for names in FOREIGN.findall(text) for name in re.split(r', | as ', names)}


CAMEL = {old for old in renamed if re.search('[a-z][A-Z]', old)}


def code(text, name_of):
    """Applies name_of(token, is_after_dot) to the code of a text, and only the spelling of camel case to its comments."""
    def comment(line):
        return TOKEN.sub(lambda m: renamed[m.group(0)] if m.group(0) in CAMEL else m.group(0), line)

    out = []
    for line in text.split('\n'):
        m = re.search(r'(^|\s)(--|//)(\s|$|/|!)', line)
        head, tail = (line[:m.start()], line[m.start():]) if m else (line, '')
        parts = re.split(r'("(?:[^"\\]|\\.)*")', head)
        for i in range(0, len(parts), 2):
            piece = parts[i]
            parts[i] = TOKEN.sub(lambda t: name_of(t.group(0), piece[t.start() - 1:t.start()] == '.'), piece)
        out.append(''.join(parts) + comment(tail))
    return '\n'.join(out)


def rewrite(path, goals=()):
    text = open(path, encoding='utf-8').read()
    kept = foreign(text) | set(goals)
    for name in kept & set(renamed) - set(goals):
        print('kept as a library has it:', name, 'in', path)

    def name_of(token, after_dot):
        if token not in renamed or (token in kept and not after_dot):
            return token
        # after a dot in an answer stands a field or a step that the check names; both are in snake case
        return snake(token) if after_dot and path in ANSWERS else renamed[token]

    new = code(text, name_of)
    if new != text:
        open(path, 'w', encoding='utf-8').write(new)


for path in LEMMAS + SOURCES:
    rewrite(path)
for path in ANSWERS:
    rewrite(path, re.findall(r'^(?:abbrev )?(?:pub )?(\S+) : (?:goal|need)\.', open(path, encoding='utf-8').read(), re.M))
print('respelled:', len(renamed), 'names')
