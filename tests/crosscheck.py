#!/usr/bin/env python3
"""The line program against plain enumeration (oracle.py), on random small trees, with valid and damaged lines mixed.

  crosscheck.py PROGRAM [--cases N] [--seed S]

Each case is a session on a fresh book and tree. Half of them have loads and load rules of other kinds than 0. Every printed line is compared.
Each session is run again with other zeros in front of its numbers, and must print the same; so it must with kinds of 0 written where they were
not, and left out where they were, and with `plan` in the place of each `last` that shows an outcome.
The save that each ends with is fed to another process, after other lines, which must take it line by line and save the same bytes; so must
those of a fresh planner and of the fullest cabinet. Where `save1` is not refused its lines are fed in the same way, and both saves must be the
same then. The sessions of edges.py have answers written by hand, which the program and the oracle must both give, or fronts.py where the oracle
would never end. Then the lines, but for those of the largest trees, are given to oracles that are wrong on purpose (wrong_oracles.py), and each
must be told apart from the program: a comparison that cannot fail would show nothing. Sessions of up to 128 loads are those of largecheck.py.
The last line is 'N passed, M failed'.
"""
import argparse
import random
import re
import subprocess
import sys
from collections import Counter, namedtuple
from itertools import compress

from edges import BELOW, EDGES, EVERY_OTHER, LARGEST_EDGES, ON_BY_ROW, ON_FIRST, WIDE_EDGES
from edges import NEAR_DROPS, NEAR_KINDS, NEAR_LASTS, NEAR_NEEDS, NEAR_SAVES
from fronts import Fronts
from limits import LINE_BYTES, MAX_BUDGET, MAX_DIGITS, MAX_KIND, MAX_LOADS, MAX_NEED, MAX_POWER, MAX_RULES, MAX_STAGES, MAX_STATES, MAX_WORTH
from limits import NOTHING, WORD_LOADS
from oracle import WORDS, Oracle
from wrong_oracles import WRONG, with_fields

MOST_RUNS = 1500  # a tree with more runs is left out: plain enumeration would be slow
BATCH = 100  # sessions that are given to one run of the program
TRIED, ENOUGH = 400, 20  # sessions that a wrong oracle is given at most, and those that tell it apart till no more are

# The powers and the worths of a session's loads, and its budgets. Of the second sort many sets are equal in worth, and some in both. Of the
# third sort the book is the largest, so that three loads and more have too few cells for the greatest budget.
Figures = namedtuple('Figures', 'powers worths budgets')
MIXED = Figures((0, 1, 2, 3, 5, 8), (0, 1, 1, 2, 3), range(21))
EQUALS = Figures((0, 1, 2, 3), (0, 1), range(7))
FEW_CELLS = Figures(MIXED.powers, MIXED.worths, (0, 5, 20, MAX_BUDGET, MAX_BUDGET))
FREE_BOOKS = [book.split() for book in (BELOW, EVERY_OTHER, ON_FIRST, ON_BY_ROW)]  # these leave most loads the choice

# The kinds of a session's loads and of its load rules, with how often they are taken. By the last ones some loads have no rule, or some rules
# no load.
Kinds = namedtuple('Kinds', 'loads rules')
NO_KINDS, EVERY_KIND = Kinds((0,), (0,)), Kinds(range(MAX_KIND + 1), range(MAX_KIND + 1))
KINDS = {
    NO_KINDS: 20, Kinds((0, 1), (0, 1)): 8, Kinds((0, 0, 0, 3), (0, 3)): 4, Kinds((1, 2), (1, 2)): 2, Kinds((2,), (2,)): 2, EVERY_KIND: 2,
    Kinds((0, 0, 1), (0,)): 2, Kinds((0, 1), (1,)): 1, Kinds((0,), (0, 0, 2)): 2,
}
KIND_OF_NONE = re.compile(rb'((?:rule|load)(?:,[0-9]{1,%d}){3})(,0{1,%d})?' % (MAX_DIGITS, MAX_DIGITS))  # with the kind 0, or none


def padded(rng, line):
    """The line with other zeros in front of its numbers, these still within their digits."""
    return with_fields(line, lambda field: field if len(field) > MAX_DIGITS else (field.lstrip(b'0') or b'0').zfill(rng.randint(1, MAX_DIGITS)))


def few_runs(oracle):
    """Does enumeration stay small? Counts the runs of the tree without keeping them."""
    def branch(k, state):
        load = oracle.loads[k - 1]
        return sum(row(oracle.children(k), r[2]) for r in oracle.rules if r[0] == state and oracle.serves(r, load))

    def row(loads, stage):
        if not loads:
            return 1
        return sum(branch(loads[0], r[1]) * row(loads[1:], r[2]) for r in oracle.rows if r[0] == stage)
    return not oracle.loads or sum(branch(1, q) for q in oracle.starts) <= MOST_RUNS


def any_kinds(rng):
    (kinds,) = rng.choices(list(KINDS), KINDS.values())
    return kinds


def with_kind(rng, line, kind):
    """The line of a load rule or of a load with its kind, which is now and then left out if it is 0."""
    return line if kind == 0 and rng.random() < 0.6 else '%s,%d' % (line, kind)


def of_kinds(rng, line, kinds):
    """The line of a load rule, for one of the kinds or for more of them."""
    chosen = [kind for kind in sorted(set(kinds.rules)) if rng.random() < 0.7] or [rng.choice(kinds.rules)]
    return [with_kind(rng, line, kind) for kind in chosen]


def book_lines(rng, kinds=NO_KINDS):
    states, stages = rng.randint(1, 3), rng.randint(1, 3)
    lines = ['book,%d,%d' % (states, stages)]
    lines += ['start,%d' % q for q in range(1, states + 1) if rng.random() < 0.7]
    lines += ['end,%d' % g for g in range(1, stages + 1) if rng.random() < 0.7]
    for _ in range(rng.randint(1, 6)):
        lines += of_kinds(rng, 'rule,%d,%d,%d' % (rng.randint(1, states), rng.randint(0, 1), rng.randint(1, stages)), kinds)
    for _ in range(rng.randint(1, 6)):
        lines.append('row,%d,%d,%d' % (rng.randint(1, stages), rng.randint(1, states), rng.randint(1, stages)))
    return lines


def free_book(rng, kinds):
    """The lines of a book that leaves most loads the choice, its load rules for several kinds."""
    lines = [of_kinds(rng, line, kinds) if line.startswith('rule,') else [line] for line in rng.choice(FREE_BOOKS)]
    return [line for part in lines for line in part]


def any_book(rng, figures, kinds=NO_KINDS):
    """The lines of a book: by chance, but half of the books for many equals or for several kinds leave most loads the choice."""
    free = (figures is EQUALS or kinds is not NO_KINDS) and rng.random() < 0.5
    lines = free_book(rng, kinds) if free else book_lines(rng, kinds)
    return ['book,%d,%d' % (MAX_STATES, MAX_STAGES), *lines[1:]] if figures is FEW_CELLS else lines


def load_line(rng, count, figures, kinds=NO_KINDS):
    """The line of a load that comes after so many others."""
    line = 'load,%d,%d,%d' % (rng.randint(1, count) if count else 0, rng.choice(figures.powers), rng.choice(figures.worths))
    return with_kind(rng, line, rng.choice(kinds.loads))


def tree_lines(rng, figures=MIXED, kinds=NO_KINDS):
    return [load_line(rng, count, figures, kinds) for count in range(rng.randint(1, 5))]


def budget_line(rng, figures):
    return 'budget,%d' % rng.choice(figures.budgets)


def field(rng):
    """A field that may be a number: in range or at an edge, or of the wrong form."""
    edges = (
        MAX_STATES + 1, WORD_LOADS + 1, MAX_LOADS, MAX_LOADS + 1, MAX_BUDGET, MAX_BUDGET + 1, MAX_WORTH, MAX_WORTH + 1, MAX_NEED, MAX_NEED + 1,
        10**MAX_DIGITS - 1, 10**MAX_DIGITS)
    zeros = ('00', '01', '0' * MAX_DIGITS, '1'.zfill(MAX_DIGITS), '0' * (MAX_DIGITS + 1), '1'.zfill(MAX_DIGITS + 1))
    return rng.choice(('0', '1', '2', '3', *zeros, *map(str, edges), '', '-1', ' 1', '1 ', 'x'))


def damaged(rng):
    """A line that may break its form, its range or its length in any way."""
    sort = rng.randrange(9)
    word = rng.choice((*WORDS, 'check', 'Plan', 'plans', 'Save', 'saves', 'Last', 'lasts', 'Need', 'needs', ''))
    if sort > 6:
        return rng.choice(rng.choice((NEAR_DROPS, NEAR_LASTS, NEAR_KINDS, NEAR_SAVES, NEAR_NEEDS)))
    if sort < 4 and word != 'clear':
        return ','.join([word] + [field(rng) for _ in range(rng.randint(0, 5))]).encode()
    if sort == 4:
        return bytes(rng.choice((0, 9, 13, 32, 44, 48, 49, 57, 99, 112, 128, 255)) for _ in range(rng.randint(0, 12)))
    if sort == 5:
        return b'check,' + rng.choice((b'0', b'1')) * rng.randint(1, LINE_BYTES)
    return rng.choice((b'budget,', b'save,', b'save', b'save1', b'last', b'need,')) + b'0' * rng.randint(LINE_BYTES - 20, LINE_BYTES + 10)


def drop_line(rng, oracle):
    """A drop: of a load without children most often, or of any number up to the one after the last, of 0 too."""
    numbers = range(len(oracle.loads) + 2)
    leaves = [k for k in numbers[1:-1] if not oracle.children(k)]
    return b'drop,%d' % rng.choice(leaves if leaves and rng.random() < 0.6 else numbers)


def need_line(rng, oracle):
    """A need: of the worth of the plan at a budget up to the one in force, of one near it, or of an end of the range."""
    budget = oracle.budget if rng.random() < 0.6 else rng.randint(0, oracle.budget)
    best = oracle.best(oracle.tree_runs(), budget) if oracle.loads else None
    worth = best[0] if best else 1
    near = 0, 1, worth, worth, worth, worth + 1, worth + 1, max(0, worth - 1)
    return b'need,%d' % rng.choice(near if rng.random() < 0.8 else (MAX_NEED, MAX_NEED + 1, 2**16 + worth, 2**17 + worth, 10**MAX_DIGITS - 1))


def same_again(rng, oracle):
    """A line that leaves every table equal, if the planner takes it: a mark, a rule or a figure that is there, or an empty book."""
    marks = [b'start,%d' % state for state in oracle.starts] + [b'end,%d' % stage for stage in oracle.ends]
    rules = [with_kind(rng, 'rule,%d,%d,%d' % rule[:3], rule[3]).encode() for rule in oracle.rules]
    rules += [b'row,%d,%d,%d' % row for row in oracle.rows]
    loads = [b'%s,%d,%d' % (word, k, load[at]) for k, load in enumerate(oracle.loads, 1) for word, at in ((b'power', 1), (b'worth', 2))]
    book = [] if marks or rules else [b'book,%d,%d' % (oracle.states, oracle.stages)]
    return rng.choice(rng.choice([lines for lines in (marks, rules, loads, book) if lines] + [[b'budget,%d' % oracle.budget]]))


def near_a_kind(rng, oracle):
    """A load rule that is there, or a load that could be, with another kind, in its range or not."""
    kind = rng.choice((*range(MAX_KIND + 3), MAX_KIND + 1, 255, 256, 65536, 10**MAX_DIGITS - 1))
    if oracle.rules and rng.random() < 0.7:
        return b'rule,%d,%d,%d,%d' % (*rng.choice(oracle.rules)[:3], kind)
    return b'load,%d,1,1,%d' % (min(1, len(oracle.loads)), kind)


def question(rng, oracle, figures, kinds):
    """A line of a session whose book and tree stand: mostly plans and what changes them."""
    loads = len(oracle.loads)
    return rng.choice((
        lambda: budget_line(rng, figures).encode(), *4 * [lambda: b'plan'], lambda: b'save', lambda: b'save1', lambda: b'last',
        lambda: same_again(rng, oracle), lambda: near_a_kind(rng, oracle), *3 * [lambda: need_line(rng, oracle)],
        lambda: b'check,' + bytes(rng.choice(b'01') for _ in range(loads)),
        lambda: b'power,%d,%d' % (rng.randint(1, loads + 1), rng.choice(figures.powers)),
        lambda: b'worth,%d,%d' % (rng.randint(1, loads + 1), rng.choice(figures.worths)),
        *2 * [lambda: drop_line(rng, oracle), lambda: load_line(rng, loads, figures, kinds).encode()],
        lambda: damaged(rng)))()


class Said:
    """What is said in a session: its lines, and the oracle's answers."""

    def __init__(self, rng):
        self.rng = rng
        self.oracle = Oracle()
        self.lines = []
        self.answers = []

    def add(self, line):
        self.lines.append(line)
        self.answers.append(self.oracle.answer(line))

    def say(self, line):
        """A line, now and then with other zeros, and often `last` after it if an outcome is or was stored. Are there few runs then?"""
        stored = self.oracle.outcome != NOTHING
        self.add(padded(self.rng, line) if self.rng.random() < 0.4 else line)
        if self.rng.random() < (0.4 if stored or self.oracle.outcome != NOTHING else 0.05):
            self.add(b'last')
        return few_runs(self.oracle)


def session(rng):
    """The lines of a session that starts with `clear`, and the oracle's answers; or nothing where there are too many runs."""
    said, kinds, (figures,) = Said(rng), any_kinds(rng), rng.choices((MIXED, EQUALS, FEW_CELLS), (4, 5, 1))
    book, tree = any_book(rng, figures, kinds), tree_lines(rng, figures, kinds)
    for line in ['clear', budget_line(rng, figures)] + rng.choice((book + tree, tree + book)):
        if not said.say(line.encode()):
            return None
        if rng.random() < 0.05:
            said.say(rng.choice((b'save', b'save1', b'plan', need_line(rng, said.oracle))))
    for _ in range(rng.randint(4, 14)):
        line = question(rng, said.oracle, figures, kinds)
        if line.startswith((b'load,', b'book', b'rule', b'row', b'start')) and rng.random() < 0.5:
            continue  # half of what would change the book or the tree is left out, so that more plans are of the cabinet built
        if not said.say(line):
            return None
    for line in (b'plan', b'last', b'save1', b'save'):
        said.add(line)
    return said.lines, said.answers


def sessions(rng, count):
    """So many sessions."""
    made = []
    while len(made) < count:
        one = session(rng)
        if one:
            made.append(one)
    return made


def printed(program, lines):
    """The lines that the program prints for lines, and what it prints after the last line feed, if anything."""
    data = b''.join(line + b'\n' for line in lines)
    out = subprocess.run([program], input=data, stdout=subprocess.PIPE, check=True).stdout
    *ended, rest = out.decode('latin-1').split('\n')
    return ended + [rest] if rest else ended


def shares(program, batch):
    """What the program prints for sessions given to one run of it, cut up by how much each should print. The last one gets the rest."""
    out = printed(program, [line for lines, _ in batch for line in lines])
    parts = []
    for _, answers in batch[:-1]:
        count = sum(len(answer) for answer in answers)
        parts.append(out[:count])
        out = out[count:]
    return parts + [out]


def all_printed(program, cases):
    """What the program prints for each session."""
    batches = [cases[at:at + BATCH] for at in range(0, len(cases), BATCH)]
    return [part for batch in batches for part in shares(program, batch)]


def difference(lines, answers, out):
    """None, or the first line whose answer is not what was printed; an empty line stands for what was printed besides."""
    at = 0
    for line, answer in zip(lines, answers):
        got = out[at:at + len(answer)]
        if got != answer:
            return line, answer, got
        at += len(answer)
    return (b'', [], out[at:]) if out[at:] else None


def differing(cases, outs):
    """The sessions in which something else was printed than the oracle says."""
    found = [(lines, difference(lines, answers, out)) for (lines, answers), out in zip(cases, outs)]
    return [(lines, wrong) for lines, wrong in found if wrong]


def again(rng, cases):
    """The sessions with other zeros in front of their numbers, and the same answers."""
    return [([padded(rng, line) for line in lines], answers) for lines, answers in cases]


def with_kind_or_not(rng, line):
    """The line with a kind of 0 if it has none but may, and without it if it has."""
    found = KIND_OF_NONE.fullmatch(line)
    if not found:
        return line
    return found[1] if found[2] else found[1] + b',' + b'0' * rng.choice((1, 1, MAX_DIGITS))


def in_other_form(rng, cases):
    """The sessions with kinds of 0 written where they were not, and left out where they were, and the same answers."""
    return [([with_kind_or_not(rng, line) for line in lines], answers) for lines, answers in cases]


def planned_anew(case):
    """The session with `plan` in the place of each `last` that shows an outcome, and the same answers: "equals what `plan` .. would print"."""
    lines, answers = case
    return [b'plan' if line == b'last' and answer != ['no,12'] else line for line, answer in zip(lines, answers)], answers


def fed_back(case, out, other):
    """A session that ends with a save, fed back: the lines of another one, those that were printed for the save, and a save. Each line fed is to
    be taken, and the save to be the same."""
    saved = out[-len(case[1][-1]):]
    lines, answers = other
    return lines + [line.encode('latin-1') for line in saved] + [b'save'], answers + [['ok']] * len(saved) + [saved]


def fed_back_old(case, out, other):
    """A session that ends with `save1` and `save`, fed back by what was printed for the first: both are to be the same then. Where it is refused,
    nothing is fed."""
    ends = len(case[1][-1]), len(case[1][-2])
    old, saved = out[-sum(ends):-ends[0]], out[-ends[0]:]
    lines, answers = other
    if old == ['no,14']:
        return lines, answers
    return lines + [line.encode('latin-1') for line in old] + [b'save1', b'save'], answers + [['ok']] * len(old) + [old, saved]


def answered_by(oracle, lines):
    return [oracle.answer(line) for line in lines]


def told_apart(wrong, cases, outs):
    """In how many sessions a wrong oracle was told apart from the program, and how many it was given."""
    told = given = 0
    for (lines, _), out in zip(cases[:TRIED], outs):
        if told < ENOUGH:
            told += difference(lines, answered_by(wrong(), lines), out) is not None
            given += 1
    return told, given


def fullest():
    """The lines of the fullest cabinet: every mark, as many rules and loads as there may be, the widest figures, and every kind."""
    lines = ['book,%d,%d' % (MAX_STATES, MAX_STAGES)]
    lines += ['start,%d' % (q + 1) for q in range(MAX_STATES)] + ['end,%d' % (g + 1) for g in range(MAX_STAGES)]
    lines += ['rule,%d,%d,%d,%d' % (n % MAX_STATES + 1, n // MAX_STATES % 2, n // MAX_STATES // 2 + 1, n % (MAX_KIND + 1)) for n in range(MAX_RULES)]
    lines += ['row,%d,%d,%d' % (n % MAX_STAGES + 1, n // MAX_STAGES + 1, MAX_STAGES) for n in range(MAX_RULES)]
    lines += ['load,%d,%d,%d,%d' % (k, MAX_POWER, MAX_WORTH, k % (MAX_KIND + 1)) for k in range(MAX_LOADS)]
    return lines + ['budget,%d' % MAX_BUDGET]


def with_save(lines):
    """The session of these lines and a save."""
    encoded = [line.encode() for line in lines + ['save']]
    return encoded, answered_by(Oracle(), encoded)


NAMED = {'a fresh planner': with_save([]), 'the fullest cabinet': with_save(fullest())}


def rebuilt(program, case):
    """Is the save of a session as it should be, and also once it is fed to the fullest cabinet, in another process?"""
    out = printed(program, case[0])
    fed = fed_back(case, out, NAMED['the fullest cabinet'])
    return not difference(*case, out) and not difference(*fed, printed(program, fed[0]))


def oracle_of(name):
    """The oracle for a session by name: fronts, where enumeration would never end."""
    return Fronts() if name in WIDE_EDGES else Oracle()


def edge_right(name, out):
    """Are the answers that were written by hand those of the program and of the oracle?"""
    lines, answers = EDGES[name]
    return not difference(lines, answers, out) and answered_by(oracle_of(name), lines) == answers


# ---- what is printed of each comparison, and how many failed


def counted(answer):
    """What an answer is counted as: a refusal with its number, or the word of its first line."""
    return answer[0] if answer[0].startswith('no,') else answer[0].split(',')[0]


def sessions_differ(wrong, cases):
    for lines, first in wrong[:3]:
        print('DIFFERS at %r: expected %r, printed %r, in the session %r' % (*first, lines))
    said = Counter((line.split(b',')[0], counted(answer)) for case in cases for line, answer in zip(*case))
    plans, checks = [said[b'plan', first] for first in ('plan', 'no,9', 'no,8')], [said[b'check', first] for first in ('yes', 'no,10')]
    print('%d sessions with %d plans shown, %d refusals 9, %d refusals 8, %d sets allowed, %d not' % (len(cases), *plans, *checks))
    print('last: %d plans shown, %d refusals 9, %d refusals 12' % tuple(said[b'last', first] for first in ('plan', 'no,9', 'no,12')))
    needs = [said[b'need', first] for first in ('need', 'no,15', 'no,9', 'no,8', 'no,5', 'no,4')]
    print('need: %d budgets shown, %d refusals 15, %d refusals 9, %d refusals 8, %d refusals 5, %d refusals 4' % tuple(needs))
    print('%d sessions with kinds in use' % sum(['no,14'] in answers for _, answers in cases))
    return len(wrong)


def saves_differ(program):
    right = {name: rebuilt(program, case) for name, case in NAMED.items()}
    for name, case in NAMED.items():
        print('%s: a save of %d lines, %s' % (name, len(case[1][-1]), 'rebuilt' if right[name] else 'DIFFERS'))
    return list(right.values()).count(False)


def edges_differ(outs):
    wrong = [name for name, out in zip(EDGES, outs) if not edge_right(name, out)]
    for name in wrong:
        print('DIFFERS: ' + name)
    print('%d sessions by name, with %d lines' % (len(outs), sum(len(lines) for lines, _ in EDGES.values())))
    return len(wrong)


def not_told_apart(cases, outs):
    counts = {oracle: told_apart(oracle, cases, outs) for oracle in WRONG}
    for oracle, (told, given) in counts.items():
        print('%s: told apart in %d of %d sessions' % (oracle.__name__, told, given))
    return sum(told == 0 for told, _ in counts.values())


def main():
    options = argparse.ArgumentParser()
    options.add_argument('program')
    options.add_argument('--cases', type=int, default=2000)
    options.add_argument('--seed', type=int, default=1)
    args = options.parse_args()
    rng = random.Random(args.seed)
    cases, edges = sessions(rng, args.cases), list(EDGES.values())
    outs, edge_outs = all_printed(args.program, cases), [printed(args.program, lines) for lines, _ in edges]
    others = again(rng, cases) + in_other_form(rng, cases) + [planned_anew(case) for case in cases]
    others += [feed(*three) for feed in (fed_back, fed_back_old) for three in zip(cases, outs, cases[1:] + cases[:1])]
    wrong = differing(cases, outs) + differing(others, all_printed(args.program, others))
    failed = sessions_differ(wrong, cases) + saves_differ(args.program) + edges_differ(edge_outs)
    quick = [name not in LARGEST_EDGES and name not in WIDE_EDGES for name in EDGES]
    failed += not_told_apart([*compress(edges, quick), *cases], [*compress(edge_outs, quick), *outs])
    print('%d passed, %d failed' % (len(cases) + len(others) + len(NAMED) + len(edges) + len(WRONG) - failed, failed))
    return 1 if failed else 0


if __name__ == '__main__':
    sys.exit(main())
