#!/usr/bin/env python3
"""gate_costs.py [--edits] [RUN]: what the gate's time goes into, from what a run of `rt ci` printed (standard input without RUN).

Prints core-seconds by crate, of its own check and of its edits; the edits that cost more than 8 seconds, or with --edits every edit
and where it is first refused; the places where more than two edits are first refused; and the floors of crates.txt with one crate,
on which the other core waits."""
import os
import re
import sys
from collections import defaultdict

ROOT = os.path.join(os.path.dirname(os.path.abspath(__file__)), '..')
COSTLY = 8

CHECKED = re.compile(r'rt: (\w+) proved \((\d+) s\)')
EDIT = re.compile(r'rt: must-fail (\w+)/(\w+): .*?(?:first at (\S+); )?(\d+) s\)')


def floors():
    """The crates of crates.txt by floor: a crate stands one above the highest that it uses."""
    uses = {}
    with open(os.path.join(ROOT, 'crates.txt')) as file:
        for line in file:
            name, colon, used = line.partition('#')[0].partition(':')
            if colon:
                uses[name.strip()] = used.split()
    heights = {}

    def height(name):
        if name not in heights:
            heights[name] = max((height(used) + 1 for used in uses[name] if used in uses), default=0)
        return heights[name]

    found = defaultdict(list)
    for name in uses:
        found[height(name)].append(name)
    return found


def read(lines):
    """The seconds of each crate's own check; of each crate its edits, as (seconds, name, place of the first error)."""
    own, edits = {}, defaultdict(list)
    for line in lines:
        if checked := CHECKED.match(line):
            own[checked[1]] = int(checked[2])
        elif edit := EDIT.match(line):
            crate, name, place, seconds = edit.groups()
            edits[crate].append((int(seconds), name, place or ''))
    return own, edits


def main():
    words = [word for word in sys.argv[1:] if word != '--edits']
    every = len(words) < len(sys.argv) - 1
    if words:
        with open(words[0]) as file:
            own, edits = read(file)
    else:
        own, edits = read(sys.stdin)
    if not own:
        sys.exit('no line of a run of rt ci')

    print('crate             check  edits  seconds  each')
    rows = [(sum(edit[0] for edit in edits[name]), len(edits[name]), name) for name in own]
    for seconds, count, name in sorted(rows, key=lambda row: (-row[0] - own[row[2]], row[2])):
        print(f'{name:16} {own[name]:6} {count:6} {seconds:8}', f'{seconds / count:5.1f}' if count else '')
    seconds, count = sum(row[0] for row in rows), sum(row[1] for row in rows)
    print(f'{"all":16} {sum(own.values()):6} {count:6} {seconds:8}', f'{seconds / count:5.1f}' if count else '')

    print('\nedits by seconds' if every else f'\nedits that cost more than {COSTLY} seconds')
    listed = [(seconds, f'{crate}/{name}', place) for crate in edits for seconds, name, place in edits[crate]]
    for seconds, edit, place in sorted(listed, key=lambda row: (-row[0], row[1])):
        if every:
            print(f'{seconds:4} {edit} {place}')
        elif seconds > COSTLY:
            print(f'{seconds:4} {edit}')

    print('\nplaces where more than two edits are first refused')
    places = defaultdict(list)
    for _, edit, place in listed:
        crate, name = edit.split('/')
        places[f'{crate}/{place}'].append(name)
    for place, names in sorted(places.items(), key=lambda item: (-len(item[1]), item[0])):
        if len(names) > 2:
            print(f'{len(names):4} {place}:', ' '.join(names))

    print('\nfloors with one crate')
    for floor, names in sorted(floors().items()):
        if len(names) == 1:
            print(f'{own.get(names[0], 0):4} s on floor {floor}: {names[0]}')


main()
