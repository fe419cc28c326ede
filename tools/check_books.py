#!/usr/bin/env python3
"""check_books.py: whether each block of docs/BOOKS.md is a book of crates/examples/data or stands in what `examples` prints."""
import os
import re
import sys

ROOT = os.path.join(os.path.dirname(os.path.abspath(__file__)), '..')
EXAMPLES = os.path.join(ROOT, 'crates', 'examples')


def text_of(*path):
    with open(os.path.join(*path)) as file:
        return file.read()


books = {text_of(EXAMPLES, 'data', name) for name in os.listdir(os.path.join(EXAMPLES, 'data'))}
printed = text_of(EXAMPLES, 'stdout')
blocks = re.findall(r'^```\n(.*?)^```$', text_of(ROOT, 'docs', 'BOOKS.md'), re.M | re.S)
stale = [block for block in blocks if block not in books and block not in printed]
for block in stale:
    print('in no book and in no output:\n' + block)
print(len(blocks), 'blocks,', len(stale), 'stale')
sys.exit(1 if stale or not blocks else 0)
