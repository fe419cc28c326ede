#!/usr/bin/env python3
"""make_trials.py: writes the records that crates/trials and crates/edges try, into the folder data of each.

Needs clingo (Debian's package gringo). The same seed and the same clingo give the same files; VERSION names both.
A record is a line with its label, the text of a book, an equals sign, numbers with a space between, and the line's end.

In crates/trials/data:

  samples     the books of document 01, each with its models
  paper       the worked examples of the paper, labelled by their numbers there, each with its models
  solver      random books of several kinds, each with the models that clingo gives of its positive form (Proposition 3.13)
  summaries   a book with the values that each name takes in a list (1, 2, 4, 8 for 0 to 3, added), 1 for each name that takes exactly one and 0 for another, and the list:
              of a book with clauses its models, by clingo, also where it has none; of a book without clauses one in which each name takes one, two, three, four values, or any number of them
  checks      a book with candidates, each followed by what the check finds, by its definition: 0 0 for p-stable, 1 and the violated clause, 2 and the least smaller subset
  nodes       a book with the number of nodes of its tree, and for each of its models how many nodes are visited when it is come to; the tree is formed here by its definition, and the models are clingo's
  days        a book with a day, the number that refuses the fixpoint on it or 0, the number of models, the number of nodes, the models, and candidates as in `checks`;
              models, nodes and answers are those of the book with the clauses that are not of the day left out, but that a clause has the number of its line
  holdings    a book with a clause as its last line, behind the equals sign the clause's three words and two days, a day, 0 where no equal clause stands before it and 1 where one does,
              the bytes before that line, number of models, nodes and models without the clause on that day, and nodes and models with it;
              or a book and a clause that is refused: the refusal, all bytes, and the book's nodes and models twice
  constraints a book with a constraint as its last line, and the numbers of `holdings`; that the models with it are those without it that satisfy it, on a day that it is of,
              and that none lies within another, is asserted here of clingo's

In crates/edges/data:

  refusals    texts, each with the number that refuses it, 0 where it is taken
  vocabulary  books, each with the number that refuses its fixpoint on day 0, 0 where W is at most 64
  rooms       books, each with the number of members of its largest stage on day 0, formed here by its definition
  tables      a book, a field of its table, a place in it and a value put there, and 9, or 0 where the table is then not refused
"""
import itertools
import os
import random
import subprocess
import sys

SEED = 20261115
MOST_MODELS = 300
LARGE_STAGE = 2000
MOST_LARGE = 3
CHECKED_BOOKS = 12
COUNTED_BOOKS = 12
HELD_BOOKS = 10
LAST_DAY = 65535
MOST_LISTED = 40
HELD_DATED_BOOKS = 6
MOST_NODES = 20000
TWELVE = ' '.join('abcdefghijkl')
HERE = os.path.dirname(os.path.abspath(__file__))
TRIALS = os.path.join(HERE, '..', 'crates', 'trials', 'data')
EDGES = os.path.join(HERE, '..', 'crates', 'edges', 'data')


# ---- books: a list of names and a list of clauses, each a list of values

def text_of(names, clauses):
    lines = [' '.join(names)] + [' '.join(str(v) for v in c) for c in clauses]
    return ''.join(line + '\n' for line in lines)


def dated_text(names, clauses, spans):
    """The text of a book in which each clause has a first and a last day; of an undated one where there are no spans."""
    if spans is None:
        return text_of(names, clauses)
    return text_of(names + ['from', 'to'], [c + list(span) for c, span in zip(clauses, spans)])


def of_day(clauses, spans, day):
    """The clauses of a day, each behind its number."""
    return [(k, c) for k, c in enumerate(clauses) if spans is None or spans[k][0] <= day <= spans[k][1]]


def left_on(clauses, spans, day):
    return [c for _, c in of_day(clauses, spans, day)]


def part(values, name_bit, negation_bit):
    """The literals of one part of a clause: 2i for name i, 2i + 1 for its negation."""
    found = []
    for i, v in enumerate(values):
        if v & name_bit:
            found.append(2 * i)
        if v & negation_bit:
            found.append(2 * i + 1)
    return found


def parts(values):
    return part(values, 1, 2), part(values, 4, 8), part(values, 16, 32)


def word(values):
    return sum(v << (2 * i) for i, v in enumerate(values))


# ---- the outside solver

def positive_form(clauses):
    """The program with an atom for each literal, as clingo reads it."""
    lines = []
    for values in clauses:
        head, body, naf = parts(values)
        right = [f'l{b}' for b in body] + [f'not l{b}' for b in naf]
        left = ' | '.join(f'l{b}' for b in head)
        lines.append(left + (' :- ' + ', '.join(right) if right else '') + '.')
    return '\n'.join(lines)


def words_in(answer):
    """The words of the models that clingo prints, rising."""
    lines = answer.split('\n')[:-1]
    if 'UNSATISFIABLE' in lines:
        return []
    return sorted(sum(1 << int(atom[1:]) for atom in line.split()) for line in lines if line != 'SATISFIABLE')


def solve(clauses):
    """The words of the stable models of the positive form, rising; None where there are more than MOST_MODELS."""
    run = subprocess.run(['clingo', '-n', str(MOST_MODELS + 1), '--verbose=0', '-Wnone'],
                         input=positive_form(clauses), capture_output=True, text=True)
    if run.returncode not in (10, 20, 30):
        sys.exit(f'clingo failed: {run.stderr}')
    found = words_in(run.stdout)
    return found if len(found) <= MOST_MODELS else None


# ---- the stages of the transform, by their definition

def transformed(n, clauses):
    """The clauses (a) to (d) as pairs of sets; a literal b, its K at 2n + b, stand-ins from 4n on."""
    rules, free = [], 4 * n
    for values in clauses:
        head, body, naf = parts(values)
        if not naf:
            rules.append((frozenset(head), frozenset(body)))
            continue
        stand = list(range(free, free + len(head)))
        free += len(head)
        rules.append((frozenset(stand + [2 * n + b for b in naf]), frozenset(body)))
        for s, h in zip(stand, head):
            rules.append((frozenset([h]), frozenset([s])))
            rules += [(frozenset(), frozenset([s, b])) for b in naf]
            rules += [(frozenset([s]), frozenset([h, t])) for t in stand if t != s]
    return rules, free


def following(rules, stage, most):
    result = set()
    for i in stage:
        if any(not h and b <= i for h, b in rules):
            continue
        found = {i}
        for h, b in rules:
            if b <= i:
                found = {j | {x} for j in found for x in h}
        result |= found
        if len(result) > most:
            return None
    return result


def largest_stage(n, clauses, most):
    """The number of members of the largest stage up to the one that ends the run; None above most."""
    rules, _ = transformed(n, clauses)
    stage, largest = {frozenset()}, 1
    while True:
        after = following(rules, stage, most)
        if after is None:
            return None
        largest = max(largest, len(after))
        if after == stage:
            return largest
        stage = after


# ---- random books

def names_for(rng, n):
    names = []
    while len(names) < n:
        first = rng.choice('abcdefghijklmnopqrstuvwxyz')
        name = first + ''.join(rng.choice('abcdefghijklmnopqrstuvwxyz0123456789') for _ in range(rng.choice([0, 0, 1, 3, 7])))
        if name not in names:
            names.append(name)
    return names


def clause(n, head, body, naf):
    values = [0] * n
    for literals, bit in ((head, 1), (body, 4), (naf, 16)):
        for b in literals:
            values[b // 2] |= bit << (b % 2)
    return values


def some_of(rng, n, low, high):
    return rng.sample(range(2 * n), min(2 * n, rng.randint(low, high)))


def dense(rng):
    n, p = rng.randint(1, 4), rng.choice([0.1, 0.2, 0.3])
    return n, [[sum(1 << b for b in range(6) if rng.random() < p) for _ in range(n)] for _ in range(rng.randint(0, 12))]


def disjunctions(rng):
    n = rng.randint(3, 8)
    return n, [clause(n, some_of(rng, n, 1, 3), some_of(rng, n, 0, 1), []) for _ in range(rng.randint(2, 9))]


def loops(rng):
    n = rng.randint(3, 8)
    ring = some_of(rng, n, 2, 2 * n)
    around = [clause(n, [b] + some_of(rng, n, 0, 1), [ring[k - 1]], []) for k, b in enumerate(ring)]
    return n, around + [clause(n, some_of(rng, n, 1, 2), [], some_of(rng, n, 0, 1)) for _ in range(rng.randint(1, 4))]


def constraints(rng):
    n = rng.randint(3, 7)
    either = [clause(n, [2 * i, 2 * i + 1], [], []) for i in rng.sample(range(n), rng.randint(1, n))]
    return n, either + [clause(n, [], some_of(rng, n, 1, 2), some_of(rng, n, 0, 1)) for _ in range(rng.randint(1, 6))]


def defaults(rng):
    n = rng.randint(3, 8)
    return n, [clause(n, some_of(rng, n, 1, 2), some_of(rng, n, 0, 1), some_of(rng, n, 1, 2)) for _ in range(rng.randint(2, 9))]


def mixed(rng, n, count):
    made = []
    for _ in range(count):
        made.append(clause(n, some_of(rng, n, 0, 2), some_of(rng, n, 0, 2), some_of(rng, n, 0, 1) if rng.random() < 0.3 else []))
    return n, made


def few(rng):
    return 12, [clause(12, some_of(rng, 12, 1, 3), some_of(rng, 12, 0, 1), some_of(rng, 12, 0, 1)) for _ in range(rng.randint(2, 6))]


def many(rng):
    facts = [clause(12, some_of(rng, 12, 1, 2), [], []) for _ in range(4)]
    bars = [clause(12, [], some_of(rng, 12, 2, 3), []) for _ in range(rng.randint(0, 3))]
    rest = 64 - len(facts) - len(bars)
    return 12, facts + bars + [clause(12, some_of(rng, 12, 1, 2), some_of(rng, 12, 1, 3), some_of(rng, 12, 1, 1) if rng.random() < 0.15 else []) for _ in range(rest)]


KINDS = [
    ('dense', 900, dense),
    ('disjunction', 300, disjunctions),
    ('loop', 300, loops),
    ('constraint', 300, constraints),
    ('default', 300, defaults),
    ('ten', 30, lambda rng: mixed(rng, rng.randint(9, 10), rng.randint(8, 24))),
    ('few', 6, few),
    ('many', 12, many),
]


def is_large(n, clauses):
    """Whether the fixpoint has to form a stage of more than LARGE_STAGE members."""
    return transformed(n, clauses)[1] <= 64 and largest_stage(n, clauses, LARGE_STAGE) is None


def solved(rng, make):
    """Random books with their models. Passed over: a line of zeros, too many models."""
    while True:
        n, clauses = make(rng)
        if all(any(c) for c in clauses):
            models = solve(clauses)
            if models is not None:
                yield n, clauses, models


def random_books(kind, count, make):
    """The books of a kind with their models. Passed over: large stages but for a few, which take long."""
    rng = random.Random(f'{SEED} {kind}')
    k, large = 0, 0
    for n, clauses, models in solved(rng, make):
        if is_large(n, clauses):
            if large == MOST_LARGE:
                continue
            large += 1
        k += 1
        yield f'{kind} {k}', names_for(rng, n), clauses, models
        if k == count:
            return


# ---- the books of document 01 and of the paper

def rows(line):
    return [[int(v) for v in c.split()] for c in line.split('/')] if line else []


SAMPLES = [
    ('report', 'fell due', '1 0 / 2 0 / 16 1', '3 0'),
    ('first', 'a b c', '1 1 0 / 2 0 0 / 0 2 0 / 0 0 1', '3 2 1 / 2 3 1'),
    ('second', 'a b', '17 0 / 0 1', ''),
    ('third', 'a b c', '2 1 0 / 1 0 8 / 0 0 18', '3 0 2 / 1 1 2'),
    ('fourth', 'a b', '2 0 / 1 16', '3 0'),
    ('fifth', 'a b', '1 0 / 2 0 / 0 17', ''),
    ('sixth', 'a', '4', '0'),
    ('seventh', 'a', '2', '2'),
    ('eighth', 'a', '1 / 4', ''),
    ('ninth', 'a b c', '1 1 16 / 0 1 0', '0 1 0'),
    ('tenth', 'a b c', '1 0 0 / 0 1 0 / 16 16 1', '1 1 0'),
    ('no clause', 'a', '', '0'),
]

PAPER = [
    ('2.5', 'a b c', '1 1 0 / 2 0 0 / 0 2 0 / 0 0 1', '3 2 1 / 2 3 1'),
    ('2.8', 'a b c d', '1 1 4 0 / 0 0 4 2 / 0 0 1 0 / 4 4 0 0', '1 0 1 2 / 0 1 1 2'),
    ('2.11', 'a b c d', '1 1 4 0 / 0 0 4 2 / 0 0 1 0 / 4 4 0 0', '1 0 1 2 / 0 1 1 2'),
    ('3.2', 'a b c d', '1 1 0 0 / 2 0 0 0 / 0 2 0 0 / 0 0 1 16', '3 2 1 0 / 2 3 1 0'),
    ('3.3', 'a b', '17 0 / 0 1', ''),
    ('3.8', 'a b c', '2 1 0 / 1 0 8 / 0 0 18', '3 0 2 / 1 1 2'),
    ('3.12 first', 'a b', '2 0 / 1 16', '3 0'),
    ('3.12 second', 'a b', '1 0 / 2 0 / 0 17', ''),
    ('4.1', 'a b c', '2 1 0 / 1 0 8 / 0 0 18', '3 0 2 / 1 1 2'),
    ('4.3', 'a b c d', '1 4 16 0 / 0 1 0 0 / 0 2 0 0 / 0 0 0 1', '1 3 0 1'),
    ('4.10', 'nn nc cn cc mn mc', '17 0 0 0 0 0 / 0 1 0 16 0 0 / 0 0 0 0 0 1', ''),
]


def written_out(table):
    for label, names, clauses, models in table:
        yield label, names.split(), rows(clauses), sorted(word(m) for m in rows(models))


# ---- lists and their summaries

def summed(n, words):
    """The numbers of a record: the values of each name, whether each has exactly one, and the list."""
    taken = [{w >> (2 * i) & 3 for w in words} for i in range(n)]
    return [sum(2 ** v for v in values) for values in taken] + [int(len(values) == 1) for values in taken] + words


# the values that each name takes and whether it has exactly one are written out, not counted
SUMMED = [
    ('circle', 'claim', '17', '0', '0', []),
    ('stalled', 'paid motor', '1 0 / 4 16', '0 0', '0 0', []),
    ('either', 'paid motor fell hung due', '1 0 0 0 0 / 4 1 0 0 0 / 0 4 1 1 0 / 0 0 0 4 1', '2 2 3 3 3', '1 1 0 0 0', [21, 325]),
    ('one undefined', 'a', '', '1', '1', [0]),
    ('one true', 'a', '', '2', '1', [1]),
    ('one false', 'a', '', '4', '1', [2]),
    ('one contradictory', 'a', '', '8', '1', [3]),
    ('one word twice', 'a', '', '4', '1', [2, 2]),
    ('two values', 'a', '', '9', '0', [0, 3]),
    ('two values, falling', 'a', '', '6', '0', [2, 1]),
    ('four values', 'a', '', '15', '0', [0, 1, 2, 3]),
    ('one and four values', 'a b', '', '2 15', '1 0', [1, 5, 9, 13]),
]


def books_with(some, label):
    """Sixty random books of three kinds with some model, or with none."""
    rng = random.Random(f'{SEED} {label}')
    k = 0
    for n, clauses, models in solved(rng, lambda rng: rng.choice((dense, constraints, defaults))(rng)):
        if clauses and bool(models) == some:
            k += 1
            yield f'{label} {k}', names_for(rng, n), clauses, models
        if k == 60:
            return


def words_with(rng, counts):
    """Words in no order, some of them more than once, in which the name i takes counts[i] values."""
    length = rng.randint(max(counts), 9)
    columns = []
    for count in counts:
        values = rng.sample(range(4), count)
        column = values + [rng.choice(values) for _ in range(length - count)]
        rng.shuffle(column)
        columns.append(column)
    return [word(values) for values in zip(*columns)]


def lists():
    """For each number of names a list in which each name takes one, two, three, four values, and one in which each takes any number of them."""
    rng = random.Random(f'{SEED} lists')
    for n in range(1, 13):
        for count in (1, 2, 3, 4):
            yield f'{count} of the values, {n} names', names_for(rng, n), [], words_with(rng, [count] * n)
        yield f'any of the values, {n} names', names_for(rng, n), [], words_with(rng, [rng.randint(1, 4) for _ in range(n)])


def summaries():
    for label, names, clauses, values, settled, words in SUMMED:
        yield label, names.split(), rows(clauses), [int(x) for x in (values + ' ' + settled).split()] + words
    for label, names, clauses, words in itertools.chain(books_with(False, 'without a model'), books_with(True, 'with models'), lists()):
        yield label, names, clauses, summed(len(names), words)


# ---- candidates and what the check finds of them

def clause_words(values):
    return [sum(1 << b for b in literals) for literals in parts(values)]


def satisfies(w, values):
    """Whether a word satisfies a clause: where its body lies in the word and its not-part misses the word, its head meets it."""
    head, body, naf = clause_words(values)
    return body & w != body or bool(naf & w) or bool(head & w)


def found(clauses, w):
    """What the check finds, by trying every proper subset of w, by size and not by number: 0, or 1 with the lowest violated clause, or 2 with the least smaller subset."""
    violated = [k for k, c in enumerate(clauses) if not satisfies(w, c)]
    if violated:
        return 1, min(violated)
    kept = [(head, body) for head, body, naf in map(clause_words, clauses) if not naf & w]
    bits = [1 << b for b in range(24) if w >> b & 1]
    subsets = [sum(some) for size in range(len(bits)) for some in itertools.combinations(bits, size)]
    models = [j for j in subsets if all(body & j != body or head & j for head, body in kept)]
    return (2, min(models)) if models else (0, 0)


def grown(rng, clauses, w, most):
    """A word from w on that satisfies its reduct, if a literal of each violated head brings it there within `most` literals."""
    while bin(w).count('1') < most:
        kind, k = found(clauses, w)
        head = parts(clauses[k])[0] if kind == 1 else []
        if not head:
            break
        w |= 1 << rng.choice(head)
    return w


def words_to_check(rng, n, clauses):
    """Every word of a book of up to three names; of another 0, words grown towards models, and those with some literals more."""
    if n <= 3:
        return range(4 ** n)
    words = {0}
    for _ in range(12):
        w = grown(rng, clauses, sum(1 << b for b in some_of(rng, n, 0, 3)), 9)
        words |= {w, grown(rng, clauses, w | sum(1 << b for b in some_of(rng, n, 1, 3)), 9)}
    return sorted(words)


# what the check finds is written out, not looked for
FACTS = [[v if i == k else 0 for i in range(12)] for k in range(12) for v in (1, 2)]
CHECKED = [
    ('every literal a fact', FACTS, '0 1 0 / 16777214 1 0 / 8388607 1 23 / 16777215 0 0'),
    ('the highest literal a fact', FACTS[23:], '8388607 1 0 / 8388608 0 0 / 8388609 2 8388608 / 12582912 2 8388608 / 16777215 2 8388608'),
    ('the lowest literal a fact', FACTS[:1], '8388608 1 0 / 1 0 0 / 8388609 2 1 / 3 2 1'),
    ('the highest literal brings the middle one', [clause(12, [11], [23], []), clause(12, [23, 0], [], [])], '8390656 0 0 / 1 0 0 / 8390657 2 1 / 2049 2 1'),
]


def checks():
    for label, clauses, answers in CHECKED:
        yield label, TWELVE.split(), clauses, [x for answer in rows(answers) for x in answer]
    for kind, _, make in KINDS:
        rng = random.Random(f'{SEED} checks {kind}')
        for k in range(1, CHECKED_BOOKS + 1):
            n, clauses = make(rng)
            clauses = [c for c in clauses if any(c)]
            yield f'{kind} {k}', names_for(rng, n), clauses, [x for w in words_to_check(rng, n, clauses) for x in (w, *found(clauses, w))]


# ---- trees and their nodes

def is_dead(rules, k, word):
    """Whether the node is violated or unsupported, where the literals from k on are decided and those of the set `word` are in."""
    def decided_in(literals):
        return {b for b in literals if b >= k and b in word}

    def decided_out(literals):
        return {b for b in literals if b >= k and b not in word}

    for head, body, naf in rules:
        if decided_in(body) == body and decided_out(naf) == naf and decided_out(head) == head:
            return True
    for b in word:
        if not any(b in head and b not in body and not decided_out(body) and not decided_in(naf) and not decided_in(head - {b}) for head, body, naf in rules):
            return True
    return False


def visits(rules, k, word):
    """The nodes of the tree below a node, in visiting order: the number of undecided literals and the set of those that are in."""
    yield k, word
    if k > 0 and not is_dead(rules, k, word):
        yield from visits(rules, k - 1, word)
        yield from visits(rules, k - 1, word | {k - 1})


def counted(n, clauses, models):
    """The number of nodes, and for each model the number of those that are visited when it is come to."""
    rules = [tuple(set(literals) for literals in parts(c)) for c in clauses]
    words = [sum(1 << b for b in word) if k == 0 else None for k, word in visits(rules, 2 * n, frozenset())]
    return [len(words)] + [words.index(m) + 1 for m in models]


# the counts are written out, not counted: those that document 02 prints, one for each condition of support, a whole tree, and one that never branches
NODES = [
    ('no clause', 'a', '', '5 3'),
    ('report', 'fell due', '1 0 / 2 0 / 16 1', '13 7'),
    ('a fact supports nothing else', 'a', '1', '5 4'),
    ('a literal from itself', 'a', '10', '5 3'),
    ('a literal from one that is out', 'a b', '0 9', '9 5'),
    ('a literal unless it holds', 'a', '34', '3'),
    ('one of two literals', 'a b', '0 3', '15 6 12'),
    ('a constraint of what nothing supports', 'a', '8', '5 3'),
    ('support decided last', 'a b c', '1 0 0 / 6 0 0 / 4 1 0 / 4 2 0 / 4 0 1 / 4 0 2', '127 127'),
    ('no clause, twelve names', 'a b c d e f g h i j k l', '', '49 25'),
]


def nodes():
    for label, names, clauses, counts in NODES:
        yield label, names.split(), rows(clauses), [int(x) for x in counts.split()]
    for kind, _, make in KINDS:
        rng = random.Random(f'{SEED} nodes {kind}')
        for k, (n, clauses, models) in enumerate(itertools.islice(solved(rng, make), COUNTED_BOOKS), 1):
            yield f'{kind} {k}', names_for(rng, n), clauses, counted(n, clauses, models)


# ---- dated books on their days

def without_days(names, lines):
    """The names, the clauses and the spans of a book whose lines are given; no spans where it is undated."""
    if len(names) < 3 or names[-2:] != ['from', 'to']:
        return names, lines, None
    return names[:-2], [line[:-2] for line in lines], [tuple(line[-2:]) for line in lines]


def found_on(clauses, spans, day, w):
    """What the check finds on a day; the number of a violated clause is that of its line."""
    numbered = of_day(clauses, spans, day)
    kind, number = found([c for _, c in numbered], w)
    return (kind, numbered[number][0]) if kind == 1 else (kind, number)


def is_deep(n, clauses):
    """Whether the tree has more than MOST_NODES nodes."""
    rules = [tuple(set(literals) for literals in parts(c)) for c in clauses]
    return next(itertools.islice(visits(rules, 2 * n, frozenset()), MOST_NODES, None), None) is not None


def answers_on(rng, n, clauses, spans, day):
    """The numbers of a record for a day; None where it has too many models or nodes, or too large a stage."""
    today = left_on(clauses, spans, day)
    models = solve(today)
    if models is None or len(models) > MOST_LISTED or is_deep(n, today) or is_large(n, today):
        return None
    refusal = 11 if transformed(n, today)[1] > 64 else 0
    words = set(models[:2]) | {0}
    for w in (0, *rng.sample(models, min(2, len(models)))):
        words |= {grown(rng, today, w | sum(1 << b for b in some_of(rng, n, 0, 2)), 9), grown(rng, clauses, w, 9)}
    words = sorted(w for w in words if bin(w).count('1') <= 9)
    return [day, refusal, len(models), counted(n, today, models)[0]] + models + [x for w in words for x in (w, *found_on(clauses, spans, day, w))]


def spans_for(rng, count):
    """Spans between a few days, so that they meet, overlap, lie apart or are one day."""
    marks = sorted(rng.sample(range(LAST_DAY + 1) if rng.random() < 0.6 else range(12), 4))
    spans = []
    for _ in range(count):
        first, last = sorted(rng.choices(marks, k=2))
        spans.append(rng.choice([(first, last), (first, last), (0, last), (first, LAST_DAY), (0, LAST_DAY), (first, first)]))
    return spans


def days_around(spans, k):
    """The first day and the last, and around the span k the day before, its first, one between, its last and the day behind."""
    first, last = spans[k]
    return sorted({day for day in (0, first - 1, first, (first + last) // 2, last, last + 1, LAST_DAY) if 0 <= day <= LAST_DAY})


# written out: the refusal of the fixpoint, the number of models, the nodes, the models, and candidates with what the check finds
FACT = '1 5 9'
TURN = '1 0 9 / 2 10 65535'
MEET = '1 0 10 / 2 10 65535'
BARRED = '1 0 65535 / 4 3 3'
BEHIND = '2 9 9 / 1 0 8 / 2 10 65535 / 1 0 65535'
ONE, NONE = '0 1 5 1 0 1 0 1 0 0 3 2 1', '0 1 5 0 0 0 0 1 2 0 2 2 0 3 2 0'
MEMBERS = ' / '.join(['5 0 32 0 0 0 0 0 0 0 0 0 5 10'] + ['5 0 32 0 0 0 0 0 0 0 0 0 0 8'] * 16)
DAYS = [
    ('a fact, day 0', 'a from to', FACT, 0, NONE),
    ('a fact, the day before', 'a from to', FACT, 4, NONE),
    ('a fact, its first day', 'a from to', FACT, 5, ONE),
    ('a fact, between', 'a from to', FACT, 7, ONE),
    ('a fact, its last day', 'a from to', FACT, 9, ONE),
    ('a fact, the day behind', 'a from to', FACT, 10, NONE),
    ('a fact, the last day of all', 'a from to', FACT, 65535, NONE),
    ('a fact for one day, before', 'a from to', '1 7 7', 6, NONE),
    ('a fact for one day', 'a from to', '1 7 7', 7, ONE),
    ('a fact for one day, behind', 'a from to', '1 7 7', 8, NONE),
    ('a fact for day 0', 'a from to', '1 0 0', 0, ONE),
    ('a fact for day 0, day 1', 'a from to', '1 0 0', 1, NONE),
    ('a fact for the last day, the day before', 'a from to', '1 65535 65535', 65534, NONE),
    ('a fact for the last day', 'a from to', '1 65535 65535', 65535, ONE),
    ('a fact until a day of one byte and all bits, behind', 'a from to', '1 0 255', 256, NONE),
    ('a fact from a day of two bytes, before', 'a from to', '1 256 65535', 255, NONE),
    ('a fact from a day of two bytes', 'a from to', '1 256 65535', 256, ONE),
    ('a fact for all days, day 0', 'a from to', '1 0 65535', 0, ONE),
    ('a fact for all days, the last', 'a from to', '1 0 65535', 65535, ONE),
    ('an undated fact, day 0', 'a', '1', 0, ONE),
    ('an undated fact, day 7', 'a', '1', 7, ONE),
    ('an undated fact, the last day', 'a', '1', 65535, ONE),
    ('no clause, day 0', 'a from to', '', 0, NONE),
    ('no clause, the last day', 'a from to', '', 65535, NONE),
    ('no clause, undated', 'a', '', 9, NONE),
    ('all expired', 'a from to', '1 0 3 / 2 4 8 / 4 1 1', 9, NONE),
    ('all still to come', 'a from to', '1 10 30 / 2 11 11 / 4 65535 65535', 9, NONE),
    ('a turn, the last day before it', 'a from to', TURN, 9, '0 1 5 1 0 1 0 1 0 0 2 1 0 3 2 1'),
    ('a turn, the first day behind it', 'a from to', TURN, 10, '0 1 5 2 0 1 1 1 1 1 2 0 0 3 2 2'),
    ('both on one day', 'a from to', MEET, 10, '0 1 5 3 0 1 0 1 1 1 2 1 0 3 0 0'),
    ('a constraint, the day before', 'a from to', BARRED, 2, '0 1 5 1 0 1 0 1 0 0 3 2 1'),
    ('a constraint, its day', 'a from to', BARRED, 3, '0 0 5 0 1 0 1 1 1 2 1 0 3 1 1'),
    ('a constraint, the day behind', 'a from to', BARRED, 4, '0 1 5 1 0 1 0 1 0 0 3 2 1'),
    ('the number of the last line', 'a from to', BEHIND, 10, '0 1 5 3 0 1 2 1 1 2 2 1 3 3 0 0'),
    ('the number of the second line', 'a from to', BEHIND, 8, '0 1 5 1 0 1 1 2 1 1 1 0 0 3 2 1'),
    ('the number of the first line', 'a from to', BEHIND, 9, '0 1 5 3 0 1 0 1 1 0 2 1 3 3 0 0'),
    ('W 64', TWELVE + ' from to', MEMBERS, 4, '0 1 49 0 0 0 0 1 2 0'),
    ('W 65, the first day', TWELVE + ' from to', MEMBERS, 5, '11 1 49 0 0 0 0 1 2 0'),
    ('W 65, the last day', TWELVE + ' from to', MEMBERS, 8, '11 1 49 0 0 0 0 1 2 0'),
    ('W 49', TWELVE + ' from to', MEMBERS, 9, '0 1 49 0 0 0 0 1 2 0'),
    ('W 48', TWELVE + ' from to', MEMBERS, 11, '0 1 49 0 0 0 0 1 2 0'),
]

# the names line and the lines of a book; its days are those around its first span
DATED = [
    ('names from and to behind another', 'a from to from to', '1 1 0 5 9 / 2 0 0 9 9 / 0 2 0 0 65535 / 0 0 1 4 10'),
    ('names from and to', 'from to from to', '1 0 3 8 / 4 1 0 65535 / 16 2 5 5'),
    ('names to and from', 'to from from to', '1 0 3 8 / 4 1 0 65535 / 16 2 5 5'),
    ('a name from', 'from from to', '3 65534 65535 / 16 0 65534'),
    ('a name to', 'to from to', '3 0 1 / 32 1 65535'),
    ('no clause, two names', 'a b from to', ''),
    ('no clause, twelve names', TWELVE + ' from to', ''),
    ('days that follow on each other', 'a b from to', '1 0 1 1 / 2 0 2 2 / 0 1 3 3 / 0 2 4 4 / 3 3 0 0'),
    ('a default that expires before its exception', 'fell due from to', '1 0 30 60 / 16 1 0 45 / 2 0 50 65535'),
    ('equal clauses on other days', 'a b c from to', '1 1 0 5 9 / 1 1 0 7 9 / 1 1 0 9 20 / 2 0 0 9 9'),
    ('the tenth of document 01, a clause each day', 'a b c from to', '1 0 0 1 3 / 0 1 0 2 3 / 16 16 1 3 4'),
    ('64 clauses, one for each day', 'a b from to', ' / '.join(f'{[1, 2, 4, 16, 33][k % 5]} {[0, 1, 2, 8][k % 4]} {k} {k}' for k in range(64))),
    ('64 clauses, one more each day', 'a b c from to', ' / '.join(f'{[1, 4, 20][k % 3]} {[0, 2, 16][k % 7 % 3]} {[0, 1, 3, 32][k % 4]} {60 - k if k < 60 else 0} 65535' for k in range(64))),
]

DATED_KINDS = [('dense', 14), ('disjunction', 7), ('loop', 7), ('constraint', 7), ('default', 7), ('ten', 4), ('few', 3), ('many', 2)]


def days_of(label, names, clauses, spans, days):
    """A record for each of the days that is small enough."""
    rng = random.Random(f'{SEED} days {label}')
    for day in days:
        numbers = answers_on(rng, len(names), clauses, spans, day)
        if numbers is not None:
            yield f'{label}, day {day}', dated_text(names, clauses, spans), numbers


def days():
    for label, names, lines, day, numbers in DAYS:
        yield label, text_of(names.split(), rows(lines)), [day] + [int(x) for x in numbers.split()]
    for label, names, lines in DATED:
        names, clauses, spans = without_days(names.split(), rows(lines))
        yield from days_of(label, names, clauses, spans, days_around(spans, 0) if spans else [0, 9, LAST_DAY])
    makers = {kind: make for kind, _, make in KINDS}
    for kind, count in DATED_KINDS:
        rng = random.Random(f'{SEED} days {kind}')
        for k in range(1, count + 1):
            clauses = []
            while not clauses:
                n, clauses = makers[kind](rng)
                clauses = [c for c in clauses if any(c)]
            spans = spans_for(rng, len(clauses))
            yield from days_of(f'{kind} {k}', names_for(rng, n), clauses, spans, days_around(spans, rng.randrange(len(spans))))
        n, clauses = makers[kind](rng)
        clauses = [c for c in clauses if any(c)]
        yield from days_of(f'{kind}, undated', names_for(rng, n), clauses, None, [0, rng.randint(1, LAST_DAY - 1), LAST_DAY])


# ---- clauses that are held and kept

def weighed(n, clauses):
    """The number of nodes and the models of a book; None where the fixpoint would form too large a stage or has too large a W."""
    models = solve(clauses)
    if models is None or transformed(n, clauses)[1] > 64 or largest_stage(n, clauses, LARGE_STAGE) is None:
        return None
    return counted(n, clauses, models)[0], models


def held(names, clauses, spans, values, span, day):
    """The text and the numbers of a clause that is taken; None where one of the two books is too large."""
    all_clauses, all_spans = clauses + [values], None if spans is None else spans + [span]
    before, after = weighed(len(names), left_on(clauses, spans, day)), weighed(len(names), left_on(all_clauses, all_spans, day))
    if before is None or after is None:
        return None
    equal = values in clauses if spans is None else (values, span) in zip(clauses, spans)
    (nodes, models), (nodes_after, models_after) = before, after
    numbers = [*span, day, int(equal), len(dated_text(names, clauses, spans)), len(models), nodes]
    return dated_text(names, all_clauses, all_spans), clause_words(values) + numbers + models + [nodes_after] + models_after


def not_held(names, clauses, words, span, day, refusal):
    """The text and the numbers of a clause that is refused."""
    text = text_of(names, clauses)
    names, clauses, spans = without_days(names, clauses)
    nodes, models = weighed(len(names), left_on(clauses, spans, day))
    return text, words + [*span, day, refusal, len(text), len(models), nodes] + models + [nodes] + models


# written out: the clause's words and its two days; then a day, whether an equal clause stands, the bytes before the last line,
# how many models the book has without it, its nodes and models, and the nodes and models with it
HELD = [
    ('a fact', 'a b', '1 0 / 4 1', '4 1 0 0 0', '0 0 8 1 9 1 13 5'),
    ('an equal clause', 'a', '1 / 1', '1 0 0 0 0', '0 1 4 1 5 1 5 1'),
    ('a constraint', 'a', '1 / 4', '0 1 0 0 0', '0 0 4 1 5 1 5'),
    ('the first clause', 'a', '2', '2 0 0 0 0', '0 0 2 1 5 0 5 2'),
    ('a default that takes the model away', 'a', '34', '2 0 2 0 0', '0 0 2 1 5 0 3'),
    ('equal head and body, another not-part', 'a b', '1 16 / 1 32', '1 0 8 0 0', '0 0 9 1 9 1 9 1'),
    ('a fact, its days passed over', 'a b', '1 0 / 4 1', '4 1 0 9 8', '65535 0 8 1 9 1 13 5'),
    ('an equal clause, its days passed over', 'a', '1 / 1', '1 0 0 3 4', '5 1 4 1 5 1 5 1'),
    ('an equal clause, equal days', 'a from to', '1 0 9 / 1 0 9', '1 0 0 0 9', '9 1 16 1 5 1 5 1'),
    ('an equal clause, another first day', 'a from to', '1 0 9 / 1 1 9', '1 0 0 1 9', '0 0 16 1 5 1 5 1'),
    ('an equal clause, another last day', 'a from to', '1 0 9 / 1 0 8', '1 0 0 0 8', '9 0 16 1 5 1 5 1'),
    ('another clause, equal days', 'a from to', '1 0 9 / 2 0 9', '2 0 0 0 9', '9 0 16 1 5 1 5 3'),
    ('equal to the third of four', 'a from to', '1 0 9 / 2 0 8 / 2 0 9 / 1 1 9 / 2 0 9', '2 0 0 0 9', '9 1 34 1 5 3 5 3'),
    ('an equal clause that is not of the day', 'a from to', '1 0 9 / 1 0 9', '1 0 0 0 9', '10 1 16 1 5 0 5 0'),
    ('the day before a clause is of the day', 'a from to', '1 0 9 / 2 10 10', '2 0 0 10 10', '9 0 16 1 5 1 5 1'),
    ('the day of a clause', 'a from to', '1 0 9 / 2 10 10', '2 0 0 10 10', '10 0 16 1 5 0 5 2'),
    ('the day behind a clause', 'a from to', '1 0 9 / 2 10 10', '2 0 0 10 10', '11 0 16 1 5 0 5 0'),
    ('the day before a constraint', 'a from to', '1 0 65535 / 4 10 10', '0 1 0 10 10', '9 0 20 1 5 1 5 1'),
    ('the day of a constraint', 'a from to', '1 0 65535 / 4 10 10', '0 1 0 10 10', '10 0 20 1 5 1 5'),
    ('the first clause, on the last day', 'a from to', '2 65535 65535', '2 0 0 65535 65535', '65535 0 10 1 5 0 5 2'),
    ('the first clause, for all days', 'from to from to', '0 2 0 65535', '8 0 0 0 65535', '777 0 16 1 9 0 9 8'),
]

EMPTY = [0, 0, 0]
NOT_HELD = [
    ('an empty clause', 'a b', '1 0', EMPTY, (0, 0), 0, 17),
    ('a head outside', 'a b', '1 0', [16, 0, 0], (0, 0), 0, 17),
    ('a body outside', 'a b', '1 0', [1, 16, 0], (0, 0), 0, 17),
    ('a not-part outside', 'a b', '1 0', [1, 0, 16], (0, 0), 0, 17),
    ('the highest bit', 'a b', '1 0', [2 ** 31, 0, 0], (0, 0), 0, 17),
    ('all bits', 'a b c d e f', '1 0 0 0 0 0', [2 ** 32 - 1] * 3, (0, 0), 0, 17),
    ('a head outside twelve names', 'a b c d e f g h i j k l', '1 0 0 0 0 0 0 0 0 0 0 0', [2 ** 24, 0, 0], (0, 0), 0, 17),
    ('64 clauses', 'a', ' / '.join(['1'] * 64), [1, 0, 0], (0, 0), 0, 18),
    ('64 clauses and an empty one', 'a', ' / '.join(['1'] * 64), EMPTY, (0, 0), 0, 17),
    ('64 clauses and one outside', 'a', ' / '.join(['1'] * 64), [4, 0, 0], (0, 0), 0, 17),
    ('an empty clause, its days passed over', 'a b', '1 0', EMPTY, (9, 8), 9, 17),
    ('64 clauses, the days passed over', 'a', ' / '.join(['1'] * 64), [1, 0, 0], (9, 8), 9, 18),
    ('days reversed', 'a from to', '1 0 9', [2, 0, 0], (9, 8), 9, 22),
    ('days reversed by far', 'a from to', '1 0 9', [2, 0, 0], (LAST_DAY, 0), 0, 22),
    ('days reversed on the day behind', 'a from to', '1 0 9', [2, 0, 0], (11, 10), 10, 22),
    ('days reversed, no clause', 'a from to', '', [2, 0, 0], (1, 0), 0, 22),
    ('days reversed, 63 clauses', 'a from to', ' / '.join(['1 0 9'] * 63), [1, 0, 0], (9, 0), 9, 22),
    ('days reversed of an empty clause', 'a from to', '1 0 9', EMPTY, (9, 8), 9, 17),
    ('days reversed of one outside', 'a from to', '1 0 9', [4, 0, 0], (9, 8), 9, 17),
    ('days reversed beside 64 clauses', 'a from to', ' / '.join(['1 0 9'] * 64), [1, 0, 0], (9, 8), 9, 18),
    ('an empty clause, days in order', 'a from to', '1 0 9', EMPTY, (8, 9), 9, 17),
    ('outside the name before from, to', 'a from to', '1 0 9', [0, 0, 16], (8, 9), 9, 17),
    ('64 clauses that are not of the day', 'a from to', ' / '.join(['1 0 9'] * 64), [1, 0, 0], (0, 9), 10, 18),
]


def to_hold(rng, n, clauses, spans):
    """A clause to hold, two days and a day to weigh on: of an undated book a clause that stands or another, of a dated one a clause that stands, with its days or others, or another."""
    kind = rng.random()
    if kind < (0.25 if spans is None else 0.5):
        values = rng.choice(clauses)
    else:
        values = clause(n, some_of(rng, n, 0, 2), some_of(rng, n, 0, 2), some_of(rng, n, 0, 1))
    if spans is None:
        return values, (0, 0), 0
    span = spans[clauses.index(values)] if kind < 0.25 else spans_for(rng, 1)[0]
    return values, span, rng.choice([0, LAST_DAY, *span, *span, *rng.choice(spans)])


def held_books(rng, make, is_dated):
    """Random books with a clause that is taken."""
    while True:
        n, clauses = make(rng)
        clauses = [c for c in clauses if any(c)]
        if not clauses:
            continue
        spans = spans_for(rng, len(clauses)) if is_dated else None
        values, span, day = to_hold(rng, n, clauses, spans)
        made = held(names_for(rng, n), clauses, spans, values, span, day) if any(values) else None
        if made is not None:
            yield made


def of_kinds(family, books):
    """Records of random books of several kinds, undated and dated."""
    for label, make in (('dense', dense), ('disjunction', disjunctions), ('loop', loops), ('constraint', constraints), ('default', defaults)):
        rng = random.Random(f'{SEED} {family} {label}')
        for k, made in enumerate(itertools.islice(books(rng, make, False), HELD_BOOKS), 1):
            yield (f'{label} {k}', *made)
        for k, made in enumerate(itertools.islice(books(rng, make, True), HELD_DATED_BOOKS), 1):
            yield (f'{label} {k}, dated', *made)


def holdings():
    for label, names, clauses, words, numbers in HELD:
        yield label, text_of(names.split(), rows(clauses)), [int(x) for x in (words + ' ' + numbers).split()]
    for label, names, clauses, *rest in NOT_HELD:
        yield (label, *not_held(names.split(), rows(clauses), *rest))
    yield ('the last place', *held(['a'], rows(' / '.join(['1'] * 63)), None, [2], (0, 0), 0))
    yield ('the last place, dated', *held(['a'], rows(' / '.join(['1'] * 63)), [(k, k + 1) for k in range(63)], [2], (20, 21), 20))
    yield from of_kinds('holdings', held_books)


# ---- constraints that are kept

def constrained(names, clauses, spans, values, span, day):
    """The text and the numbers of a constraint that is kept; None where one of the two books is too large."""
    made = held(names, clauses, spans, values, span, day)
    if made is not None:
        numbers = made[1]
        before, after = numbers[10:10 + numbers[8]], numbers[11 + numbers[8]:]
        is_of_day = spans is None or span[0] <= day <= span[1]
        assert after == [w for w in before if not is_of_day or satisfies(w, values)]
        assert all(v & w != v for v, w in itertools.permutations(before, 2))
    return made


# the names line and the lines, of which the last is the constraint; the days given for it where the book is undated; a day. The models are clingo's
CONSTRAINED = [
    ('one of two', 'a b', '1 1 / 4 0', (0, 0), 0),
    ('both of two', 'a b c', '1 1 0 / 4 0 1 / 0 4 1 / 0 0 4', (0, 0), 0),
    ('none of two', 'a b', '1 1 / 4 4', (0, 0), 0),
    ('by a not-part alone', 'a b', '1 1 / 16 0', (0, 0), 0),
    ('by a body and a not-part', 'a b c', '1 1 0 / 0 0 3 / 4 0 16', (0, 0), 0),
    ('by a contradiction', 'a b', '1 0 / 2 1 / 12 0', (0, 0), 0),
    ('unless it is denied', 'a b', '1 0 / 2 1 / 36 0', (0, 0), 0),
    ('a literal in the body and in the not-part', 'a', '1 / 20', (0, 0), 0),
    ('what nothing says', 'a b', '1 0 / 0 4', (0, 0), 0),
    ('what nothing says, asked for', 'a b', '1 0 / 0 16', (0, 0), 0),
    ('one of two defaults', 'a b', '16 1 / 1 16 / 0 4', (0, 0), 0),
    ('no model before', 'a', '17 / 4', (0, 0), 0),
    ('an equal constraint', 'a b', '1 1 / 4 0 / 4 0', (0, 0), 0),
    ('undated, its days passed over', 'a b', '1 1 / 4 0', (9, 10), 8),
    ('undated, its days reversed', 'a b', '1 1 / 4 0', (10, 9), 65535),
    ('dated, the day before', 'a b from to', '1 1 0 65535 / 4 0 9 10', None, 8),
    ('dated, its first day', 'a b from to', '1 1 0 65535 / 4 0 9 10', None, 9),
    ('dated, its last day', 'a b from to', '1 1 0 65535 / 4 0 9 10', None, 10),
    ('dated, the day behind', 'a b from to', '1 1 0 65535 / 4 0 9 10', None, 11),
    ('dated, on a day of no other clause', 'a b from to', '1 1 0 8 / 16 0 9 9', None, 9),
    ('an equal constraint on other days', 'a b from to', '1 1 0 65535 / 4 0 0 9 / 4 0 10 10', None, 10),
]


def to_forbid(rng, n, models, violated):
    """A constraint: any, or one that some model violates."""
    if not violated:
        return clause(n, [], some_of(rng, n, 0, 2), some_of(rng, n, 0, 2))
    w = rng.choice(models)
    inside, outside = [b for b in range(2 * n) if w >> b & 1], [b for b in range(2 * n) if not w >> b & 1]
    return clause(n, [], rng.sample(inside, min(len(inside), rng.randint(0, 2))), rng.sample(outside, min(len(outside), rng.randint(0, 2))))


def constrained_books(rng, make, is_dated):
    """Random books of two models or more on the day, with a constraint that is taken; where it is not of the day some model violates it."""
    while True:
        n, clauses = make(rng)
        clauses = [c for c in clauses if any(c)]
        spans = spans_for(rng, len(clauses)) if is_dated else None
        span = spans_for(rng, 1)[0] if is_dated else tuple(rng.choices(range(LAST_DAY + 1), k=2))
        first, last = sorted(span)
        day = rng.choice([*days_around([(first, last)], 0), first, (first + last) // 2, last])
        models = solve(left_on(clauses, spans, day))
        if models is None or not 2 <= len(models) <= MOST_LISTED:
            continue
        values = to_forbid(rng, n, models, is_dated and not span[0] <= day <= span[1] or rng.random() < 0.7)
        made = constrained(names_for(rng, n), clauses, spans, values, span, day) if any(values) else None
        if made is not None:
            yield made


def kept_constraints():
    for label, names, lines, given, day in CONSTRAINED:
        names, clauses, spans = without_days(names.split(), rows(lines))
        *clauses, values = clauses
        *before, span = spans or [given]
        yield (label, *constrained(names, clauses, before if spans else None, values, span, day))
    yield from of_kinds('constraints', constrained_books)


# ---- texts that are refused, and texts at the edges that are taken

ROW = ' '.join(['1'] + ['0'] * 11)


def book(names, *lines):
    return ''.join(line + '\n' for line in (names,) + lines)


SINGLE = [
    (1, ''),
    (1, book('a', *['1'] * 2047) + '1\n'),
    (1, 'a' * 4097),
    (1, '\n' * 4097),
    (1, book(TWELVE, *[ROW] * 64) + 'x' * 4000),
    (2, 'a'),
    (2, book('a b', '1 0') + '0 1'),
    (2, 'a' * 4096),
    (2, '\n a'),
    (2, book('a', '1') + ' '),
    (3, book('A')),
    (3, book('a', '+1')),
    (3, book('a', '1\t')),
    (3, book('a', '1\r')),
    (3, book('a', '-1')),
    (3, book('a b', '1 0', '0 1,')),
    (3, book('a', '1') + '\x00\n'),
    (3, book('a{', '1')),
    (3, book('a`', '1')),
    (3, book('a/', '1')),
    (3, book('a', '1:')),
    (4, book('a', *['1'] * 65)),
    (4, '\n' * 66),
    (4, '\n' * 4096),
    (4, book(TWELVE, *[ROW] * 65)),
    (5, book('')),
    (5, book(' a', '1')),
    (5, book('a ', '1 0')),
    (5, book('a  b', '1 0')),
    (5, book('1a', '1')),
    (5, book('0', '1')),
    (5, book('abcdefghi', '1')),
    (5, book('a abcdefgh9', '1 0')),
    (5, book(TWELVE + ' m', ROW + ' 0')),
    (5, book('a' * 4095)),
    (6, book('a a', '1 0')),
    (6, book('a b a')),
    (6, book('abcdefgh b abcdefgh', '1 0 0')),
    (6, book('a b c d e f g h i j k a', ROW)),
    (7, book('a', '')),
    (7, book('a', '64')),
    (7, book('a', '00')),
    (7, book('a', '01')),
    (7, book('a', '063')),
    (7, book('a', '100')),
    (7, book('a', '18446744073709551617')),
    (7, book('a', '1 ')),
    (7, book('a', ' 1')),
    (7, book('a b', '1')),
    (7, book('a b', '1 0 0')),
    (7, book('a b', '1  0')),
    (7, book('a b', '1 b')),
    (7, book('a', '1', '', '1')),
    (7, book('a', *(['1'] * 63 + ['64']))),
    (8, book('a', '0')),
    (8, book('a b', '1 0', '0 0')),
    (8, book(TWELVE, *([ROW] * 63 + [' '.join(['0'] * 12)]))),
    (0, book('a')),
    (0, book('a', '63')),
    (0, book('z9', '1')),
    (0, book('abcdefgh', '1')),
    (0, book('a0123456 a0123457', '1 0')),
    (0, book(TWELVE)),
    (0, book(TWELVE, *[ROW] * 64)),
    (0, book('a', *['1'] * 64)),
    (0, book(' '.join('abcdefg' + x for x in 'abcdefghijkl'), *[' '.join(['63'] * 12)] * 64)),
    (0, book('from to', '1 0')),
]


RENTED = book('paid due from to', '1 0 0 30', '4 1 31 60', '16 2 0 0')
LONGEST = book(' '.join('abcdefg' + x for x in 'abcdefghijkl') + ' from to', *[' '.join(['63'] * 12 + ['65535'] * 2)] * 64)

DATED_SINGLE = [
    (1, book('a from to', *['1 0 65535'] * 63 + ['1 0 65535' + ' 0' * 1722 + ' 00'])),
    (1, LONGEST + '1' * 909),
    (2, 'a from to'),
    (2, book('a from to', '1 0 9') + '1 0 9'),
    (3, book('a from to', '1 0 -9')),
    (3, book('a From to', '1 0 9')),
    (3, book('a from to', '1 0 9.')),
    (4, book('a from to', *['1 0 9'] * 65)),
    (4, LONGEST + '1 9 8\n'),
    (5, book(TWELVE + ' m from to', ROW + ' 0 0 9')),
    (5, book(TWELVE + ' from', ROW + ' 0')),
    (5, book(TWELVE + ' to from', ROW + ' 0 9')),
    (5, book(' from to', '1 0')),
    (5, book(' from to', '1 0 9')),
    (5, book('a  from to', '1 0 9')),
    (5, book('a from  to', '1 0 9')),
    (5, book('a from to ', '1 0 9')),
    (5, book(' a from to', '1 0 9')),
    (5, book('9 from to', '1 0 9')),
    (5, book('abcdefghi from to', '1 0 9')),
    (6, book('a a from to', '1 0 0 9')),
    (6, book('from from from to', '1 0 0 9')),
    (6, book('to b to from to', '1 0 0 0 9')),
    (6, book('from to to', '1 0 0')),
    (6, book('from to from', '1 0 0')),
    (6, book('a b c d e f g h i j k a from to', ROW + ' 0 9')),
    (7, book('a from to', '1 0 65536')),
    (7, book('a from to', '1 65536 65536')),
    (7, book('a from to', '1 65536 0')),
    (7, book('a from to', '1 0 100000')),
    (7, book('a from to', '1 0 18446744073709551616')),
    (7, book('a from to', '1 00 9')),
    (7, book('a from to', '1 0 09')),
    (7, book('a from to', '1 0 065535')),
    (7, book('a from to', '01 0 9')),
    (7, book('a from to', '64 0 9')),
    (7, book('a from to', '1 0')),
    (7, book('a from to', '1')),
    (7, book('a from to', '')),
    (7, book('a from to', '1 0 9 9')),
    (7, book('a from to', '1 0 9 ')),
    (7, book('a from to', '1  0 9')),
    (7, book('a from to', '1 0 b')),
    (7, book('a from to', '1 from to')),
    (7, book('a from to', '1 0 9', '1 0 9', '1')),
    (7, book('a from to', *(['1 0 9'] * 63 + ['1 0 65536']))),
    (7, book('a b from to', '1 0 9')),
    (7, book('a b from to', '1 0 0 9 0')),
    (7, book('from to', '1 0 0 9')),
    (7, book('from to', '1 64')),
    (7, book('a to from', '1 0 0 0 9')),
    (7, book('a to from', '1 0 64')),
    (7, book('a from too', '1 0 64')),
    (7, book('a b from to from to', '1 0 0 9')),
    (7, book('a from to', *['1 0 65535'] * 63 + ['1 0 65535' + ' 0' * 1723])),
    (7, book('a from to', '1 9 8', '1 0 65536')),
    (7, book('a from to', '1 0 65536', '1 9 8')),
    (7, book('a from to', '0 9 8', '64 9 8')),
    (8, book('a from to', '0 0 9')),
    (8, book('a from to', '0 0 0')),
    (8, book('a from to', '0 9 8')),
    (8, book('a from to', '1 9 8', '0 0 9')),
    (8, book('a from to', '0 0 9', '1 9 8')),
    (8, book('a b from to', '1 0 0 9', '0 0 3 9')),
    (8, book(TWELVE + ' from to', *([ROW + ' 0 9'] * 63 + [' '.join(['0'] * 12) + ' 1 1']))),
    (22, book('a from to', '1 9 8')),
    (22, book('a from to', '1 65535 65534')),
    (22, book('a from to', '1 65535 0')),
    (22, book('a from to', '1 1 0')),
    (22, book('a from to', '1 100 99')),
    (22, book('a from to', '1 10 9')),
    (22, book('a from to', '1 0 9', '2 9 8')),
    (22, book('a from to', '2 9 8', '1 0 9')),
    (22, book('a from to', *(['1 9 9'] * 63 + ['1 9 8']))),
    (22, book('from to from to', '0 1 9 8')),
    (22, book('a from to from to', '1 0 9 9 8')),
    (22, book(TWELVE + ' from to', ROW + ' 9 8')),
    (0, book('a from to')),
    (0, book('a from to', '1 0 0')),
    (0, book('a from to', '1 65535 65535')),
    (0, book('a from to', '63 0 65535')),
    (0, book('a from to', '1 9 9')),
    (0, book('a from to', '1 9 10')),
    (0, book('a from to', '1 0 64')),
    (0, book('a from to', *['1 0 9'] * 64)),
    (0, book('a b from to', '1 0 9 9')),
    (0, book('from to', '1 63')),
    (0, book('to from', '9 8')),
    (0, book('from')),
    (0, book('a to from', '1 9 8')),
    (0, book('a from', '9 8')),
    (0, book('a from too', '1 9 8')),
    (0, book('a afrom to', '1 9 8')),
    (0, book('a from to b', '1 0 9 8')),
    (0, book('from to a', '1 9 8')),
    (0, book('from from to', '1 0 9')),
    (0, book('to from to', '1 0 9')),
    (0, book('from to from to', '1 0 0 9')),
    (0, book('a from to from to', '1 0 0 0 9')),
    (0, book('a b c d e f g h i j from to', '1 0 0 0 0 0 0 0 0 0 0 9')),
    (0, book('a b c d e f g h i j from to from to', ROW + ' 0 9')),
    (0, book(TWELVE + ' from to', ROW + ' 0 9')),
    (0, book(TWELVE + ' from to')),
    (0, LONGEST),
]



def faulty(faults, days=()):
    """A text with each of the faults 1 to 8 and 22 that is asked for, and with none that has a lower number than all of these; dated where the names and each line get something behind them."""
    behind_names, behind = days or ('', '')
    names = ['a', 'b', 'c']
    if 6 in faults:
        names[2] = 'a'
    if 5 in faults:
        names[1] = '9b'
    lines = ['1 0 0' + behind, '0 16 1' + behind]
    if 22 in faults:
        lines.insert(1, '1 0 0 9 8')
    if 8 in faults:
        lines.insert(0, '0 0 0' + behind)
    if 7 in faults:
        lines.append('1 0 64' + behind)
    if 3 in faults:
        lines.append('1 0 0!' + behind)
    if 4 in faults:
        lines += ['1 0 0' + behind] * (66 - len(lines))
    made = book(' '.join(names) + behind_names, *lines)
    if 1 in faults:
        made += ('1 0 0' + behind + '\n') * ((4097 - len(made)) // (6 + len(behind)) + 1)
    if 2 in faults:
        made += 'x'
    return made


def refusals():
    for k, (number, made) in enumerate(SINGLE):
        yield f'single {k + 1}', made, number
    k = 0
    for size in (2, 3, 8):
        for faults in itertools.combinations(range(1, 9), size):
            k += 1
            yield f'several {k}', faulty(faults), min(faults)
    for k, (number, made) in enumerate(DATED_SINGLE):
        yield f'dated {k + 1}', made, number
    dated = [faults for size in (2, 3, 9) for faults in itertools.combinations([1, 2, 3, 4, 5, 6, 7, 8, 22], size)]
    for k, faults in enumerate(faults for faults in dated if len(faults) != 3 or (22 in faults and 1 not in faults)):
        yield f'dated, several {k + 1}', faulty(faults, (' from to', ' 0 65535')), min(faults)


# ---- tables forged by hand: 0 the names, 1 a byte of a name, 2 the clauses, 3 to 5 a head, a body, a not-part,
# 6 to 8 a head, a body, a not-part that is held, 9 to 11 the same in a place that is not in use,
# 12 the two days of a clause that is held, 13 the same in a place that is not in use, 14 a first day, 15 a last day, 16 whether the book was dated

LAST = 2 ** 32 - 1
SOLD = book('fell due', '1 0', '2 0', '16 1')
FULL = book(TWELVE, *[ROW] * 64)

TABLES = [
    ('no name', SOLD, 0, 0, 0, 9),
    ('a name too few', SOLD, 0, 0, 1, 9),
    ('as many names', SOLD, 0, 0, 2, 0),
    ('a name too many', SOLD, 0, 0, 3, 9),
    ('thirteen names', FULL, 0, 0, 13, 9),
    ('2^64 - 1 names', SOLD, 0, 0, LAST, 9),
    ('an empty name', SOLD, 1, 0, 0, 9),
    ('a capital', SOLD, 1, 0, ord('F'), 9),
    ('a digit first', SOLD, 1, 0, ord('9'), 9),
    ('a digit second', SOLD, 1, 1, ord('9'), 0),
    ('a space in a name', SOLD, 1, 1, ord(' '), 9),
    ('a gap in a name', SOLD, 1, 1, 0, 9),
    ('a name of eight', SOLD, 1, 4, ord('x'), 0),
    ('a gap before the last byte', SOLD, 1, 7, ord('x'), 9),
    ('a byte behind the names', SOLD, 1, 16, ord('x'), 9),
    ('the last byte', SOLD, 1, 95, ord('x'), 9),
    ('equal names', book('ab ac', '1 0'), 1, 9, ord('b'), 9),
    ('names that still differ', book('ab ac', '1 0'), 1, 9, ord('d'), 0),
    ('a clause too few', SOLD, 2, 0, 2, 9),
    ('as many clauses', SOLD, 2, 0, 3, 0),
    ('a clause too many', SOLD, 2, 0, 4, 9),
    ('65 clauses', FULL, 2, 0, 65, 9),
    ('63 of 64 clauses', FULL, 2, 0, 63, 9),
    ('2^64 - 1 clauses', SOLD, 2, 0, LAST, 9),
    ('a head outside', SOLD, 3, 0, 16, 9),
    ('the highest head', SOLD, 3, 0, 15, 0),
    ('a body outside', SOLD, 4, 1, 16, 9),
    ('the highest body', SOLD, 4, 1, 15, 0),
    ('a not-part outside', SOLD, 5, 2, LAST, 9),
    ('the highest not-part', SOLD, 5, 2, 15, 0),
    ('a head outside twelve names', FULL, 3, 63, 2 ** 24, 9),
    ('an empty clause', SOLD, 3, 1, 0, 9),
    ('a head behind the clauses', SOLD, 3, 3, 1, 9),
    ('a body behind the clauses', SOLD, 4, 63, 1, 9),
    ('a not-part behind the clauses', SOLD, 5, 63, 1, 9),
    ('a head held', SOLD, 6, 0, 1, 0),
    ('a body held', SOLD, 7, 0, 1, 0),
    ('a not-part held', SOLD, 8, 0, 1, 0),
    ('the highest head held', SOLD, 6, 0, 15, 0),
    ('the highest body held', SOLD, 7, 0, 15, 0),
    ('the highest not-part held', SOLD, 8, 0, 15, 0),
    ('nothing in a place in use', SOLD, 6, 0, 0, 9),
    ('a head held outside', SOLD, 6, 0, 16, 9),
    ('a body held outside', SOLD, 7, 0, 16, 9),
    ('a not-part held outside', SOLD, 8, 0, LAST, 9),
    ('a head held outside twelve names', book(TWELVE, ROW), 6, 0, 2 ** 24, 9),
    ('the last place held', book(TWELVE, *[ROW] * 63), 6, 0, 1, 0),
    ('a head held beside 64 clauses', FULL, 6, 0, 1, 9),
    ('nothing held beside 64 clauses', FULL, 9, 0, 0, 0),
    ('nothing held', SOLD, 9, 0, 0, 0),
    ('a head in a place not in use', SOLD, 9, 0, 1, 9),
    ('a body in a place not in use', SOLD, 10, 0, 1, 9),
    ('a not-part in a place not in use', SOLD, 11, 0, 1, 9),
    ('all bits in a place not in use', SOLD, 11, 0, LAST, 9),
    ('days of a held clause that is undated', SOLD, 12, 0, 0, 0),
    ('a first day of a held clause that is undated', SOLD, 12, 1, 0, 9),
    ('a last day of a held clause that is undated', SOLD, 12, 0, 1, 9),
    ('both days of a held clause that is undated', SOLD, 12, LAST_DAY, LAST_DAY, 9),
    ('a first day in a place not in use, undated', SOLD, 13, 1, 0, 9),
    ('a last day in a place not in use, undated', SOLD, 13, 0, 1, 9),
    ('a held clause for one day', RENTED, 12, 7, 7, 0),
    ('a held clause for all days', RENTED, 12, 0, LAST_DAY, 0),
    ('a held clause for the last day', RENTED, 12, LAST_DAY, LAST_DAY, 0),
    ('a held clause for a day less than one', RENTED, 12, 8, 7, 9),
    ('a held clause from the last day to the first', RENTED, 12, LAST_DAY, 0, 9),
    ('no day in a place not in use', RENTED, 13, 0, 0, 0),
    ('a first day in a place not in use', RENTED, 13, 7, 0, 9),
    ('a last day in a place not in use', RENTED, 13, 0, 7, 9),
    ('days in order in a place not in use', RENTED, 13, 7, 8, 9),
    ('the last place held, with days', book(TWELVE + ' from to', *[ROW + ' 0 9'] * 63), 12, 3, 4, 0),
    ('a clause with days held beside 64', book(TWELVE + ' from to', *[ROW + ' 0 9'] * 64), 12, 3, 4, 9),
    ('a first day where none was read', SOLD, 14, 0, 1, 9),
    ('a last day where none was read', SOLD, 15, 2, 1, 9),
    ('the highest last day where none was read', SOLD, 15, 0, LAST_DAY, 9),
    ('a first day behind the clauses, undated', SOLD, 14, 3, 1, 9),
    ('a last day behind the clauses, undated', SOLD, 15, 63, 1, 9),
    ('no day where none was read', SOLD, 15, 0, 0, 0),
    ('a first day after its last', RENTED, 14, 0, 31, 9),
    ('a first day at its last', RENTED, 14, 0, 30, 0),
    ('a last day before its first', RENTED, 15, 1, 30, 9),
    ('a last day at its first', RENTED, 15, 1, 31, 0),
    ('the last day of all', RENTED, 15, 2, LAST_DAY, 0),
    ('a first day after the last of all but one', RENTED, 14, 2, LAST_DAY, 9),
    ('a first day behind the clauses', RENTED, 14, 3, 1, 9),
    ('a last day behind the clauses', RENTED, 15, 3, 1, 9),
    ('a last day in the last row', RENTED, 15, 63, LAST_DAY, 9),
    ('a last day before its first in row 63', book('a from to', *['1 5 9'] * 64), 15, 63, 4, 9),
    ('a first day of all 64 rows in use', book('a from to', *['1 5 9'] * 64), 14, 63, 9, 0),
    ('a head of an empty clause with days', RENTED, 3, 0, 0, 9),
    ('a clause too few, dated', RENTED, 2, 0, 2, 9),
    ('a clause too few, with no day', book('a from to', '1 0 0', '2 0 0'), 2, 0, 1, 9),
    ('a name too few, dated', book('a b from to', '1 0 0 0'), 0, 0, 1, 9),
    ('undated now, with days', RENTED, 16, 0, 0, 9),
    ('undated now, with no days', book('a b from to', '1 0 0 0', '4 1 0 0'), 16, 0, 0, 0),
    ('undated now, with a last day', book('a b from to', '1 0 0 0', '4 1 0 1'), 16, 0, 0, 9),
    ('undated now, with no clause', book('a b c from to'), 16, 0, 0, 0),
    ('undated now, three names that end in from, to', book('a from to from to', '1 0 0 0 0'), 16, 0, 0, 9),
    ('undated now, twelve names that end in from, to', book('a b c d e f g h i j from to from to'), 16, 0, 0, 9),
    ('undated now, the two names from, to', book('from to from to', '1 0 0 0'), 16, 0, 0, 0),
    ('undated now, three names, from and to before the last', book('from to a from to', '1 0 0 0 0'), 16, 0, 0, 0),
    ('undated now, three names that end in to, from', book('a to from from to', '1 0 0 0 0'), 16, 0, 0, 0),
    ('dated, three names that end in from, to', book('a from to from to', '1 0 0 0 9'), 16, 0, 1, 0),
    ('dated, the two names from, to', book('from to from to', '1 0 0 9'), 16, 0, 1, 0),
    ('dated now, the two names from, to', book('from to', '1 0'), 16, 0, 1, 0),
    ('dated now, with no days', SOLD, 16, 0, 1, 0),
    ('the name tt becomes to', book('a from tt', '1 0 0'), 1, 17, ord('o'), 9),
    ('the name prom becomes from', book('a prom to', '1 0 0'), 1, 8, ord('f'), 9),
    ('the name tt becomes to, of two', book('from tt', '1 0'), 1, 9, ord('o'), 0),
    ('the name tt becomes to, dated', book('a from tt from to', '1 0 0 0 0'), 1, 17, ord('o'), 0),
    ('the name from becomes froma', book('a from tt', '1 0 0'), 1, 12, ord('a'), 0),
]


# ---- W at its edge, and rooms at theirs

def vocabulary():
    """Clauses whose body cannot hold at stage 0 keep the stages small, so that W alone decides."""
    for n in (1, 2, 5, 11, 12):
        names, room = TWELVE.split()[:n], 64 - 4 * n
        for count in (room - 1, room, room + 1):
            if count > 64:
                continue
            lines = [clause(n, [0], [0], [1]) for _ in range(count)]
            yield f'single heads, {n} names, W {4 * n + count}', names, lines, 0 if count <= room else 11
        wide = [clause(n, [0, 1], [0], [1]) for _ in range(room // 2)]
        yield f'double heads, {n} names, W 64', names, wide, 0
        if len(wide) < 64:
            yield f'double heads, {n} names, W 66', names, wide + [clause(n, [0, 1], [0], [1])], 11
    yield 'empty heads count nothing', names, [clause(12, [], [0], [1]) for _ in range(64)], 0
    yield 'clauses without a not-part count nothing', names, [clause(12, [0, 1, 2], [0], []) for _ in range(64)], 0
    yield 'seventeen equal lines', names, [clause(12, [0], [], [0]) for _ in range(17)], 11
    single = clause(12, [0], [0], [1])
    for number, lasts in ((0, [0] * 16), (11, [0] * 17), (0, list(range(16)))):
        today, behind = [single + [0, last] for last in lasts], [single + [1, LAST_DAY]] * 40
        yield f'dated, {len(today)} clauses of day 0, the last until {lasts[-1]}', names + ['from', 'to'], behind + today, number


def rooms():
    yield '2.11', 'a b c d'.split(), rows('1 1 4 0 / 0 0 4 2 / 0 0 1 0 / 4 4 0 0'), 3
    yield 'no clause', ['a'], [], 1
    yield 'dated, three of day 0', 'a b from to'.split(), rows('3 0 0 9 / 0 3 1 9 / 0 1 0 0 / 1 2 0 65535 / 0 3 9 9'), 5
    yield 'dated, none of day 0', 'a b from to'.split(), rows('3 0 1 9 / 0 3 1 65535'), 1
    for label, count, make in (('dense', 120, dense), ('disjunction', 60, disjunctions), ('default', 60, defaults)):
        rng = random.Random(f'{SEED} rooms {label}')
        k = 0
        while k < count:
            n, clauses = make(rng)
            if any(not any(c) for c in clauses) or transformed(n, clauses)[1] > 64:
                continue
            largest = largest_stage(n, clauses, 3000)
            if largest is None:
                continue
            k += 1
            yield f'{label} {k}', names_for(rng, n), clauses, largest


# ---- the files

def record(label, text, numbers):
    assert '=' not in text and '\n' not in label
    return label + '\n' + text + '=' + ' '.join(str(x) for x in numbers) + '\n'


def save(folder, name, records):
    with open(os.path.join(folder, name), 'w', newline='') as out:
        out.write(''.join(records))
    print(name, len(records))


def main():
    version = subprocess.run(['clingo', '--version'], capture_output=True, text=True).stdout.split('\n')[0]
    os.makedirs(TRIALS, exist_ok=True)
    os.makedirs(EDGES, exist_ok=True)
    save(TRIALS, 'samples', [record(a, text_of(n, c), m) for a, n, c, m in written_out(SAMPLES)])
    save(TRIALS, 'paper', [record(a, text_of(n, c), m) for a, n, c, m in written_out(PAPER)])
    save(EDGES, 'refusals', [record(a, t, [r]) for a, t, r in refusals()])
    save(EDGES, 'vocabulary', [record(a, text_of(n, c), [r]) for a, n, c, r in vocabulary()])
    save(EDGES, 'rooms', [record(a, text_of(n, c), [r]) for a, n, c, r in rooms()])
    save(TRIALS, 'solver', [record(a, text_of(n, c), m) for kind in KINDS for a, n, c, m in random_books(*kind)])
    save(TRIALS, 'summaries', [record(a, text_of(n, c), numbers) for a, n, c, numbers in summaries()])
    save(TRIALS, 'checks', [record(a, text_of(n, c), numbers) for a, n, c, numbers in checks()])
    save(TRIALS, 'nodes', [record(a, text_of(n, c), numbers) for a, n, c, numbers in nodes()])
    save(TRIALS, 'days', [record(a, t, numbers) for a, t, numbers in days()])
    save(TRIALS, 'holdings', [record(a, t, numbers) for a, t, numbers in holdings()])
    save(TRIALS, 'constraints', [record(a, t, numbers) for a, t, numbers in kept_constraints()])
    save(EDGES, 'tables', [record(a, t, numbers) for a, t, *numbers in TABLES])
    with open(os.path.join(TRIALS, 'VERSION'), 'w') as out:
        out.write(f'seed {SEED}\n{version}\n')


if __name__ == '__main__':
    main()
