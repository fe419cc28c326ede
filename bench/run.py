#!/usr/bin/env python3
"""Builds plain.c and stages.c with gcc -O2, compares what they and the engine's programs print, byte for byte, and prints the two times and their ratio:
the least processor time, user and system, of several turns, one program after the other; a time below 20 ms is the mean of as many runs as
make that up, since of a shorter one the ratio says nothing. Compared with plain.c, at most 1.3 times its time, are the report of every book of
books/ and, for three of them, the check of the word of all twenty-four literals. Then the report against clingo (Debian's package gringo),
asked for 4,097 models of the positive form: wall clock of the whole process, the least of ten, on the same books and on random ones; where
clingo is a bar, the report takes at most 0.7 of its time.
Then the fixpoint of each book of stages/, by crates/pstable/out/pstable with 65,536 words in each working slice, against a limit in seconds,
and compared with stages.c, at most 1.5 times its time;
and the tools that look for what the documents name. With books named, only their reports are compared with C.
With --against PROGRAM only the report and another build of it, as that of an earlier commit, are compared, on the books of a million nodes
and more: on none slower by more than a tenth, and faster in their sum. With --against-stages PROGRAM only the fixpoint by pstable and by an
earlier build of it are compared, on three books of stages/: on each at least five times faster.
From the repository's root, behind an rt run in crates/report and one in crates/pstable: python3 bench/run.py [RUNS [BOOK .. | --against PROGRAM | --against-stages PROGRAM]]"""
import os
import random
import resource
import shutil
import subprocess
import sys
import time

here = os.path.dirname(os.path.abspath(__file__))
sys.path.append(os.path.join(here, "..", "tools"))
sys.dont_write_bytecode = True
import make_trials
report = os.path.join(here, "..", "crates", "report", "out", "report")
pstable = os.path.join(here, "..", "crates", "pstable", "out", "pstable")
plain = os.path.join(here, "..", "target", "plain_c")
plain_stages = os.path.join(here, "..", "target", "stages_c")
os.makedirs(os.path.dirname(plain), exist_ok=True)
runs = int(sys.argv[1]) if len(sys.argv) > 1 else 5
# the time that one turn takes at least, in seconds
SHORTEST = 0.02
for built, source in ((plain, "plain.c"), (plain_stages, "stages.c")):
    subprocess.run(["gcc", "-O2", "-o", built, os.path.join(here, source)], check=True)


def in_books(name):
    return os.path.join(here, "books", name)


def in_stages(name):
    return os.path.join(here, "stages", name)


def used():
    spent = resource.getrusage(resource.RUSAGE_CHILDREN)
    return spent.ru_utime + spent.ru_stime


def run(program, book, *words, again=1):
    """The processor time of a run, as the mean of so many, and what it prints."""
    before = used()
    for _ in range(again):
        with open(book) as text:
            out = subprocess.run([program, *words], stdin=text, capture_output=True).stdout
    return (used() - before) / again, out


def last_line(out):
    return out.decode().rstrip("\n").split("\n")[-1]


def compare(label, program, books, times, *words, other=plain, name="C", bar=1.3):
    """A line for each book; whether the program prints what the other does on all, on none slower than the bar times its time."""
    well = True
    print("%-15s %8s %8s %6s  %s" % (label, os.path.basename(program), name, "ratio", "last line"))
    for book in books:
        again = 1 + int(SHORTEST / max(run(other, book, *words)[0], 0.0002))
        ours, theirs = [], []
        for _ in range(times):
            ours.append(run(program, book, *words, again=again))
            theirs.append(run(other, book, *words, again=again))
        outs = {out for _, out in ours + theirs}
        a, c = min(t for t, _ in ours), min(t for t, _ in theirs)
        last = last_line(min(outs))
        if len(outs) != 1:
            well, last = False, "THE OUTPUTS DIFFER"
        if a > 5 or a > bar * c:
            well, last = False, last + "  (slow)"
        print("%-15s %8.4f %8.4f %6.2f  %s" % (os.path.basename(book), a, c, a / c, last))
    return well


# ---- clingo
# books in which support stays open until the lowest literals are decided: their trees have a million nodes and more, and clingo is no bar for them
LATE = ("late_choices", "late_default", "late_heads", "late_many", "late_support")


def from_file(name):
    with open(in_books(name)) as text:
        names, *lines = text.read().splitlines()
    return name, names.split(), [[int(v) for v in line.split()] for line in lines]


def random_books():
    """Eight books of 8 clauses and eight of 64, over twelve names."""
    rng = random.Random("bench")
    literals = make_trials.some_of
    for k in range(1, 9):
        made = [make_trials.clause(12, literals(rng, 12, 1, 3), literals(rng, 12, 0, 1), literals(rng, 12, 0, 1)) for _ in range(8)]
        yield "random_8_%d" % k, list("abcdefghijkl"), made
    for k in range(1, 9):
        yield "random_64_%d" % k, list("abcdefghijkl"), make_trials.many(rng)[1]


def least_wall(command, text):
    least = None
    for _ in range(10):
        start = time.perf_counter()
        out = subprocess.run(command, input=text, capture_output=True, text=True).stdout
        taken = time.perf_counter() - start
        least = taken if least is None else min(least, taken)
    return least, out


def words_of(lines):
    return [make_trials.word([int(v) for v in line.split()]) for line in lines]


def same_models(out, answer):
    """Whether the report lists what clingo finds; where its list is full, only that clingo finds more than it has places for."""
    _, *models, last = out.splitlines()
    found = make_trials.words_in(answer)
    return len(found) > 4096 if last.startswith("full") else words_of(models) == found


def against_clingo(books):
    """A line for each book; whether the report lists the same models, and takes at most 0.7 of clingo's time on each that has a bar."""
    if not shutil.which("clingo"):
        print("clingo is not there")
        return False
    well = True
    print("%-15s %8s %8s %6s  %s" % ("clingo", "report", "clingo", "ratio", "last line"))
    for name, names, clauses in books:
        a, out = least_wall([report], make_trials.text_of(names, clauses))
        c, answer = least_wall(["clingo", "-n", "4097", "--verbose=0", "-Wnone"], make_trials.positive_form(clauses))
        last = last_line(out.encode())
        if not same_models(out, answer):
            well, last = False, "THE MODELS DIFFER"
        elif name in LATE:
            last += "  (no bar)"
        elif a > 0.7 * c:
            well, last = False, last + "  (slow)"
        print("%-15s %8.4f %8.4f %6.2f  %s" % (name, a, c, a / c, last))
    return well


def against(program):
    """A line for each book of a million nodes and more; whether the report prints the same, no slower than the bars say."""
    well, sums = True, [0, 0]
    print("%-15s %8s %8s %6s  %s" % ("books", "report", "other", "ratio", "last line"))
    for book in LATE:
        tries = [(run(report, in_books(book)), run(program, in_books(book))) for _ in range(runs)]
        least = [min(t[k][0] for t in tries) for k in (0, 1)]
        sums = [sums[k] + least[k] for k in (0, 1)]
        outs = {t[k][1] for t in tries for k in (0, 1)}
        last = last_line(min(outs))
        if len(outs) != 1:
            well, last = False, "THE OUTPUTS DIFFER"
        if least[0] > 1.1 * least[1]:
            well, last = False, last + "  (slow)"
        print("%-15s %8.4f %8.4f %6.2f  %s" % (book, *least, least[0] / least[1], last))
    print("%-15s %8.4f %8.4f %6.2f" % ("sum", *sums, sums[0] / sums[1]))
    return well and sums[0] < sums[1]


# ---- the fixpoint
FIXPOINT = ("fixpoint", "4096", "65536")
# the seconds that the fixpoint of a book may take, and how its output ends
STAGES = {
    "one_head": (0.05, "complete 6"),
    "random_heads": (2, "refused 12"),
    "large_stage": (1, "complete 120"),
    "all_literals": (0.25, "complete 16"),
    "all_literals_16": (0.25, "complete 16"),
    "pairs": (0.25, "complete 1024"),
}
# books of large stages that many choices make
CROWDED = ("all_literals", "all_literals_16", "pairs")


def within(name, limit, end):
    """The fixpoint of the book ends so, in so many seconds."""
    tries = [run(pstable, in_stages(name), *FIXPOINT) for _ in range(runs)]
    a, last = min(t for t, _ in tries), last_line(tries[0][1])
    well = a <= limit and last == end
    print("%-15s %8.3f %8.2f  %s" % (name, a, limit, last if well else last + "  (expected %s in %s s)" % (end, limit)))
    return well


def tool(name):
    print(name, flush=True)
    return subprocess.run([sys.executable, os.path.join(here, "..", "tools", name)]).returncode == 0


if sys.argv[2:3] == ["--against"] and len(sys.argv) == 4:
    sys.exit(not against(os.path.abspath(sys.argv[3])))
if sys.argv[2:3] == ["--against-stages"] and len(sys.argv) == 4:
    earlier = os.path.abspath(sys.argv[3])
    sys.exit(not compare("stages", pstable, [in_stages(name) for name in CROWDED], runs, *FIXPOINT, other=earlier, name="earlier", bar=0.2))
if len(sys.argv) > 2:
    sys.exit(not compare("books", report, sys.argv[2:], runs))
names = sorted(os.listdir(in_books("")))
results = [compare("books", report, [in_books(name) for name in names], runs)]
checks = ("facts", "repeated_facts", "highest_fact")
results.append(compare("checks", pstable, [in_books(name) for name in checks], runs, "check", "16777215"))
results.append(against_clingo([from_file(name) for name in names] + list(random_books())))
print("%-15s %8s %8s  %s" % ("stages", "fixpoint", "limit", "last line"))
results += [within(name, limit, end) for name, (limit, end) in STAGES.items()]
results.append(compare("stages", pstable, [in_stages(name) for name in STAGES], runs, *FIXPOINT, other=plain_stages, bar=1.5))
results += [tool(name) for name in ("check_promises.py", "check_books.py")]
sys.exit(not all(results))
