#!/usr/bin/env python3
"""Large trees, of up to as many loads as there may be (request Ten of paper 02), through the line program and through the library as firmware
links it, against the fronts of fronts.py.

  largecheck.py PROGRAM LIBRARY.so [--cases N] [--seed S]

First the fronts are held to plain enumeration, on the small sessions of crosscheck.py, and their test of runs to the runs that are enumerated.
Trees by fronts that are wrong on purpose must be told apart there.
Then each case is a chain, a star, or another tree, most often of more loads than one word of a set has marks, with plans, last plans, checks,
needs, drops and saves. The program must print what the fronts say, and take and write its save again in another process. Through the library the
same is asked with any budget, and with output and work of any length; the judge is given the run of the last plan, and such with a number
changed, and pages are drawn from loads around the ends of both words.
Oracles that are wrong only with so many loads (wrong_oracles.py) must be told apart by what the program prints.
The last line is 'N passed, M failed'.
"""
import argparse
import random
import sys
from collections import Counter

from crosscheck import EQUALS, EVERY_KIND, MIXED, NO_KINDS, Figures
from crosscheck import answered_by, any_book, counted, difference, fed_back, printed, sessions, with_kind
from edges import ALL_ON, BELOW, EVERY_OTHER, ON_BY_ROW, ON_FIRST, TOGETHER
from fronts import Fronts, Tree, is_run
from judgecheck import cabinet, flat, proposal, runs_of
from library import Library, Planner
from librarycheck import LargeCaller, calls_of, first_fault, rubbish
from limits import CELLS, MAX_BUDGET, MAX_LOADS, MAX_NEED, MAX_POWER, MAX_WORTH, NO_SET, NOT_A_RUN, NOTHING, PAGE_BYTES, PLANNER_BYTES, SAVE_BYTES
from limits import WORD_LOADS
from oracle import Oracle
from pages import Asked, Pages
from script import keeps_limits, searches, stored
from wrong_oracles import WRONG_LARGE

SMALL = 300  # sessions, and as many cabinets with their runs, by which fronts are held to enumeration
COUNTS = WORD_LOADS - 1, WORD_LOADS, WORD_LOADS + 1, WORD_LOADS + 2, 100, MAX_LOADS - 1, *4 * [MAX_LOADS]
# The parent of the load after so many others.
SHAPES = {
    'chain': lambda rng, count: count,
    'star': lambda rng, count: 1,
    'pairs': lambda rng, count: (count + 1) // 2,
    'comb': lambda rng, count: max(1, count - count % 2),
    'near': lambda rng, count: rng.randint(max(1, count - 3), count),
    'any': lambda rng, count: rng.randint(1, count),
}
BOOKS = [book.split() for book in (BELOW, BELOW, EVERY_OTHER, ON_FIRST, ON_BY_ROW, TOGETHER, ALL_ON)]
WIDE = Figures(range(MAX_POWER + 1), range(MAX_WORTH + 1), range(MAX_BUDGET + 1))
RICH = Figures((0, 0, 0, 1, 2), (MAX_WORTH, MAX_WORTH, MAX_WORTH - 1), range(20))
IDLE = Figures((1,), (0, 0, 0, 0, 0, 0, 0, 1, 2, 3), range(9))  # of these a plan has few on
MOST_CELLS = 10 * CELLS  # for a session through the library
PAGES_FROM = 1, WORD_LOADS - 6, WORD_LOADS - 1, WORD_LOADS, WORD_LOADS + 1, MAX_LOADS - 7, MAX_LOADS - 6, MAX_LOADS, MAX_LOADS + 1


# ---- a session


def budget_of(rng, oracle, figures, cells):
    """A budget: one of the figures, or the greatest that there are cells for, or a watt more."""
    each = max(1, len(oracle.loads) * (oracle.states + oracle.stages))
    most = min(MAX_BUDGET, cells // each - 1)
    return rng.choice((min(most, rng.choice(figures.budgets)), min(most, rng.choice(figures.budgets)), most, min(MAX_BUDGET, most + 1)))


def bits_of(run, count):
    """The bits of a run's set, or of none."""
    return [run[k][0] for k in sorted(run)] if isinstance(run, dict) else [0] * count


def turned(bits):
    """The bits with the two words in each other's place, as far as they go."""
    return bits[WORD_LOADS:] + bits[:WORD_LOADS]


def from_the_top(rng, loads):
    """Bits in which no load is on below one that is off."""
    on = [1]  # as if load 0 were on
    for parent, *_ in loads:
        on.append(int(on[parent] and rng.random() < 0.8))
    return on[1:]


def some_bits(rng, oracle):
    """The bits of a set: that of the last plan, with its words turned or without one of them, or another one."""
    count = len(oracle.loads)
    planned = bits_of(oracle.outcome, count)
    alone = rng.randrange(count)
    return rng.choice((
        planned, turned(planned), planned[:WORD_LOADS] + [0] * len(planned[WORD_LOADS:]), [0] * len(planned[:WORD_LOADS]) + planned[WORD_LOADS:],
        from_the_top(rng, oracle.loads), [int(k == alone) for k in range(count)], [0] * count, [1] * count, rng.choices((0, 1), k=count),
        [0] * rng.choice((count - 1, count + 1, WORD_LOADS, MAX_LOADS + 10))))


def worth_near(rng, oracle):
    """A worth for a need: that of the last plan or near it, a part of it, or an end of the range."""
    worth = sum(oracle.loads[k - 1][2] for k, entry in oracle.outcome.items() if entry[0]) if isinstance(oracle.outcome, dict) else 9
    return rng.choice((0, worth, worth, worth + 1, max(0, worth - 1), rng.randint(0, worth), WORD_LOADS * MAX_WORTH + 1, MAX_NEED, MAX_NEED + 1))


def high_number(rng, count):
    """The number of a load, most often of the second word or around its ends."""
    return rng.choice((rng.randint(1, count), rng.randint(min(count, WORD_LOADS), count), WORD_LOADS, WORD_LOADS + 1, count, count + 1))


def leaf(rng, oracle):
    """The number of a load without children, the last one most often."""
    leaves = sorted({*range(1, len(oracle.loads) + 1)} - {load[0] for load in oracle.loads})
    return leaves[-1] if rng.random() < 0.3 else rng.choice(leaves)


class Cabinet:
    """The lines of a session on a large tree, the answers by fronts, and how the tree goes on."""

    def __init__(self, rng, cells, figures):
        self.rng, self.cells, self.figures = rng, cells, figures
        self.shape = rng.choice(list(SHAPES.values()))
        self.kinds = EVERY_KIND if rng.random() < 0.3 else NO_KINDS
        self.oracle, self.lines, self.answers = Fronts(), [], []

    def say(self, line):
        self.lines.append(line.encode())
        self.answers.append(self.oracle.answer(self.lines[-1], self.cells))

    def load(self):
        rng, count = self.rng, len(self.oracle.loads)
        line = 'load,%d,%d,%d' % (self.shape(rng, count) if count else 0, rng.choice(self.figures.powers), rng.choice(self.figures.worths))
        return with_kind(rng, line, rng.choice(self.kinds.loads))

    def book(self):
        """The lines of a book that leaves most loads the choice, each load rule for each kind, or of one by chance."""
        if self.rng.random() < 0.2:
            return any_book(self.rng, self.figures, self.kinds)
        kinds = sorted(set(self.kinds.rules))
        of_kinds = [[line] if not line.startswith('rule,') else [f'{line},{kind}' for kind in kinds] for line in self.rng.choice(BOOKS)]
        return [line for lines in of_kinds for line in lines]

    def budget(self):
        return 'budget,%d' % budget_of(self.rng, self.oracle, self.figures, self.cells)

    def question(self):
        """A line of a session whose book and tree stand."""
        rng, oracle, count = self.rng, self.oracle, len(self.oracle.loads)
        return rng.choice((
            *3 * [lambda: 'plan'], lambda: 'last', *4 * [lambda: 'check,' + ''.join(map(str, some_bits(rng, oracle)))],
            *2 * [lambda: 'need,%d' % worth_near(rng, oracle)], self.load, self.budget,
            lambda: 'drop,%d' % (leaf(rng, oracle) if rng.random() < 0.8 else high_number(rng, count)),
            lambda: 'power,%d,%d' % (high_number(rng, count), rng.choice(self.figures.powers)),
            lambda: 'worth,%d,%d' % (high_number(rng, count), rng.choice(self.figures.worths))))()


def session(rng, cells):
    """The lines of a session that starts with `clear` and ends with a save, and their answers."""
    cabinet = Cabinet(rng, cells, rng.choice((MIXED, EQUALS, RICH, IDLE, WIDE)))
    for line in ('clear', *cabinet.book()):
        cabinet.say(line)
    for _ in range(rng.choice(COUNTS)):
        cabinet.say(cabinet.load())
    cabinet.say(cabinet.budget())
    for line in ('plan', 'last'):
        cabinet.say(line)
    for _ in range(rng.randint(4, 10)):
        cabinet.say(cabinet.question())
    for line in ('plan', 'last', 'save1', 'save'):
        cabinet.say(line)
    return cabinet.lines, cabinet.answers


# ---- fronts against plain enumeration


class LastFirst(Tree):
    """Of equals the highest rule is taken."""

    def order(self, numbers):
        return reversed(numbers)


class GreatestShare(Tree):
    """A branch takes the greatest allowance."""

    def shares(self, allowance):
        return reversed(range(allowance + 1))


def of_tree(tree):
    return type('Fronts' + tree.__name__, (Fronts,), {'tree': tree})


WRONG_TREES = [of_tree(tree) for tree in (LastFirst, GreatestShare)]


def unlike(oracle, cases):
    """In how many sessions an oracle says something else than stands there."""
    return sum(answered_by(oracle(), lines) != answers for lines, answers in cases)


def run_faults(rng):
    """How many proposed runs of a small cabinet the fronts' test takes for what they are not, and how many there are of each sort."""
    tables, seen, wrong = Oracle(), Counter(), 0
    for line in cabinet(rng):
        tables.answer(line)
    runs = runs_of(tables)
    asked = [numbers for numbers in (proposal(rng, tables, sorted(runs)) for _ in range(9)) if tables.loads and len(numbers) == 3 * len(tables.loads)]
    for numbers in asked:
        seen[tuple(numbers) in runs] += 1
        wrong += is_run(tables, numbers) != (tuple(numbers) in runs)
    return wrong, seen


def fronts_faults(rng):
    """What is wrong with the fronts, beside plain enumeration."""
    cases, seen, wrong = sessions(rng, SMALL), Counter(), 0
    for _ in range(SMALL):
        missed, found = run_faults(rng)
        wrong, seen = wrong + missed, seen + found
    print('%d small sessions, and %d runs and %d others, by fronts and by enumeration' % (len(cases), seen[True], seen[False]))
    differing = unlike(Fronts, cases)
    faults = ['%d small sessions by fronts' % differing if differing else None, '%d runs by fronts' % wrong if wrong else None]
    return faults + [None if unlike(fronts, cases) else fronts.__name__ + ': not told apart' for fronts in WRONG_TREES]


# ---- through the line program


def program_faults(program, cases):
    """What differs in each session, and once its save is fed to another process."""
    outs = [printed(program, lines) for lines, _ in cases]
    fed = [fed_back(case, out, ([b'clear'], [['ok']])) for case, out in zip(cases, outs)]
    faults = [difference(*case, out) for case, out in zip(cases, outs)]
    return outs, faults + [difference(*case, printed(program, case[0])) for case in fed]


def with_fronts(wrong):
    """A wrong oracle with fronts in the place of enumeration."""
    return type(wrong.__name__, (wrong, Fronts), {})


def told_apart(oracle, cases, outs):
    """Does some session tell a wrong oracle apart?"""
    return any(difference(lines, answered_by(oracle(), lines), out) for (lines, _), out in zip(cases, outs))


def oracle_faults(cases, outs):
    """None for each wrong oracle, or that no session tells it apart."""
    return [None if told_apart(with_fronts(wrong), cases, outs) else wrong.__name__ + ': not told apart' for wrong in WRONG_LARGE]


# ---- through the library


def changed_numbers(rng, numbers):
    """The numbers of a run, with one changed, most often of a load of the second word, or with two loads in each other's place."""
    other = list(numbers)
    place = rng.randrange(min(3 * WORD_LOADS, len(numbers) - 1), len(numbers)) if rng.random() < 0.7 else rng.randrange(len(numbers))
    other[place] += rng.choice((1, -1, 256)) if numbers[place] else 1
    return rng.choice((numbers, other, other, other, numbers[3 * WORD_LOADS:] + numbers[:3 * WORD_LOADS], numbers[:-3], numbers + [1, 1, 1]))


def verdict(oracle, numbers):
    if len(numbers) != 3 * len(oracle.loads):
        return 5
    return 0 if is_run(oracle, numbers) else NOT_A_RUN


def judge_fault(rng, planner, oracle, seen):
    """None, or that the judge says something else of a run, or of what may be one, than the test of fronts.py."""
    if oracle.outcome in (NOTHING, NO_SET):
        return None
    run = list(flat(oracle.outcome))
    for numbers in [run] + [changed_numbers(rng, run) for _ in range(9)]:
        got = planner.judge(numbers)
        seen[got] += 1
        if got != verdict(oracle, numbers):
            return 'the judge says %d of %r' % (got, numbers)
    return None


def page_fault(rng, planner, oracle):
    """None, or that a page is drawn otherwise."""
    p = stored(oracle)
    for load in PAGES_FROM:
        asked = Asked(p, keeps_limits(p), load, rubbish(rng, PAGE_BYTES))
        if planner.draw(load, asked.page) != Pages().drawn(asked):
            return 'the page from load %d' % load
    return None


def built(library, lines):
    """A planner of the library after lines, with cells for any plan of a session, and the oracle after them."""
    planner, oracle = Planner(library).fresh(), Fronts()
    for line in lines:
        planner.call(line, bytes(SAVE_BYTES), 0, bytes(4 * MOST_CELLS) if searches(line) else b'')
        oracle.answer(line, MOST_CELLS)
    return planner, oracle


def library_faults(rng, library, count, seen):
    """What differs in so many sessions through the library: in their calls, by the judge and on pages."""
    faults = []
    for _ in range(count):
        lines, _ = session(rng, MOST_CELLS)
        calls = calls_of(rng, Planner(library, rubbish(rng, PLANNER_BYTES)).fresh(), lines, LargeCaller)
        planner, oracle = built(library, lines)
        faults += [first_fault(LargeCaller(), calls), judge_fault(rng, planner, oracle, seen), page_fault(rng, planner, oracle)]
    return faults


def print_counts(cases, seen):
    said = Counter((line.split(b',')[0].decode(), counted(answer)) for case in cases for line, answer in zip(*case))
    shown = ', '.join('%s %s %d' % (*one, said[one]) for one in sorted(said) if one[0] in ('plan', 'last', 'check', 'need', 'load'))
    print('%d large sessions: %s' % (len(cases), shown))
    print('the judge: %s' % ', '.join('%d times %d' % (seen[number], number) for number in sorted(seen)))


def main():
    options = argparse.ArgumentParser()
    options.add_argument('program')
    options.add_argument('library')
    options.add_argument('--cases', type=int, default=200)
    options.add_argument('--seed', type=int, default=1)
    args = options.parse_args()
    rng, seen = random.Random(args.seed), Counter()
    faults = fronts_faults(rng)
    cases = [session(rng, CELLS) for _ in range(args.cases)]
    outs, found = program_faults(args.program, cases)
    faults += found + library_faults(rng, Library(args.library), args.cases // 4, seen) + oracle_faults(cases, outs)
    for fault in [fault for fault in faults if fault][:5]:
        print('DIFFERS: %.600s' % (fault,))
    print_counts(cases, seen)
    failed = sum(fault is not None for fault in faults)
    print('%d passed, %d failed' % (len(faults) - failed, failed))
    return 1 if failed else 0


if __name__ == '__main__':
    sys.exit(main())
