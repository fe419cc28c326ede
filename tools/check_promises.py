#!/usr/bin/env python3
"""check_promises.py: whether each file that a table of docs/PROMISES.md names is there, and has each name that stands behind it."""
import os
import re
import sys

ROOT = os.path.join(os.path.dirname(os.path.abspath(__file__)), '..')
KINDS = ('specs', 'proofs', 'src', 'must-fail', 'data')


def place_of(path):
    """The file or folder of a path as the documents write it, or None where the text in backticks is no path."""
    parts = path.removeprefix('crates/').split('/')
    if len(parts) < 2 or parts[1] not in KINDS:
        return None
    folder = os.path.join(ROOT, 'crates', *parts)
    if parts[1] in ('specs', 'proofs'):
        return folder + '.antt'
    if parts[1] == 'src' and len(parts) == 2:
        lib = os.path.join(folder, 'lib.rt')
        return lib if os.path.exists(lib) else os.path.join(folder, 'main.rt')
    return folder


def has(place, name):
    if os.path.isdir(place):
        return os.path.exists(os.path.join(place, name + '.edit')) or os.path.exists(os.path.join(place, name))
    with open(place) as file:
        return name in file.read()


missing, seen = [], 0
with open(os.path.join(ROOT, 'docs', 'PROMISES.md')) as file:
    rows = [line for line in file if line.startswith('|')]
for row in rows:
    place = None
    for word in re.findall(r'`([^`]+)`', row):
        found = place_of(word)
        if found:
            place, seen = found, seen + 1
            if not os.path.exists(place):
                missing.append(word)
                place = None
        elif '/' in word:
            place = None
        elif place and re.fullmatch(r'[^\s:&\[]+', word):
            seen += 1
            if not has(place, word):
                missing.append(f'{word} in {os.path.relpath(place, ROOT)}')
for word in missing:
    print('missing:', word)
print(seen, 'names,', len(missing), 'missing')
sys.exit(1 if missing or not seen else 0)
