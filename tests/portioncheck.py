#!/usr/bin/env python3
"""Planning by portions, through the library as firmware links it, against a plain model (portions.py) with cells by plain enumeration (oracle.py).

  portioncheck.py LIBRARY.so [--sessions N] [--seed S]

Each session is a random small cabinet, and portions of it, of any n, in range or not, with lines between them: accepted changes, such as leave every
table equal among them, refused lines, and commands that change nothing, with the work of the portions or with another. Now and then the work is
too short or longer than the plan needs, altered since the last portion or another one, the output too short or the place past its end, and the
planner handed in with any count of filled cells. After each call are compared the number, the counts, every byte of the output, every cell of the
work and every field of the planner. A cell that portions filled has to hold what the enumeration has, wherever the cells filled before it did, and
the answer has to be that of `plan`. Where they did not, as after a damage, cells and answer are free: the other cells must be as they were, and the
answer of a plan's form. Other sessions are of up to 128 loads and a million cells, against fronts (fronts.py), whose cells are held to the
enumeration on each small cabinet.
The sessions of portion_edges.py stand there by hand, for the library and for the model. Then the same is asked of models that are wrong on
purpose (wrong_portions.py), and each must be told apart.
The last line is 'N passed, M failed'.
"""
import argparse
import copy
import random
import sys
from collections import Counter, namedtuple

from crosscheck import EQUALS, MIXED, NO_KINDS, Figures, any_book, any_kinds, budget_line, drop_line, load_line, question, same_again, tree_lines
from edges import BELOW
from fronts import Fronts
from largecheck import Cabinet
from library import Lent, Library, Planner, content_with, held
from librarycheck import lent, rubbish, text_of, written
from limits import CELLS, FREE_BYTES, LINE_BYTES, MAX_BUDGET, MAX_LOADS, MAX_PORTION, MAX_STAGES, MAX_STATES, PAGE_BYTES, PLANNER_BYTES, RUN_BYTES
from limits import SAVE_BYTES
from oracle import Oracle
from outcomes import with_any_count, with_any_outcome
from pages import Asked as Drawing
from pages import Pages
from portion_edges import EDGES
from portions import CELL_BYTES, Asked, Done, Portions, cell_bytes, cells_in, holds, right_values
from script import keeps_limits, reply, searches, stored, tables_of, verdict
from script import Lent as Room
from wrong_portions import WRONG

MOST_RUNS = 3000  # a cabinet with more runs, of all its branches and rows together, is left out: plain enumeration would be slow
FIGURES = MIXED, MIXED, EQUALS, EQUALS, Figures((0, 1, 7, 40), (0, 1, 500, 1000), (0, 1, 39, 41, 60))
OTHER_NUMBERS = 0, MAX_PORTION + 1, 2**16 + 1, 2**32, 2**32 + 1, 2**63 + 1, 2**64 - 1
KEPT = 500  # sessions that the wrong models are given
LARGE = 50  # small sessions for each large one

# A portion that was asked for: the planner before, what was asked, what was seen, with the planner after in the place of the tables. And a line: the
# planner before, what was lent to it, and what was seen.
Portioned = namedtuple('Portioned', 'p asked seen')
Told = namedtuple('Told', 'p line given seen left')


def few_runs(tables):
    """Does enumeration stay small? Counts the runs of every branch and row without keeping them."""
    def branch(k, state):
        load = tables.loads[k - 1]
        return sum(row(tables.children(k), r[2]) for r in tables.rules if r[0] == state and tables.serves(r, load))

    def row(loads, stage):
        return sum(branch(loads[0], r[1]) * row(loads[1:], r[2]) for r in tables.rows if r[0] == stage) if loads else 1
    numbers = range(1, len(tables.loads) + 1)
    branches = sum(branch(k, state) for k in numbers for state in range(1, tables.states + 1))
    return branches + sum(row(tables.row_from(k), stage) for k in numbers for stage in range(1, tables.stages + 1)) <= MOST_RUNS


# ---- what the model says of a call


def asked_of(p, most, output, place, work):
    return Asked(tables_of(p) if keeps_limits(p) else None, most, output, place, work)


def portion_fault(model, record):
    """None, or that a portion did something else than a model says."""
    done, seen = model.done(record.asked, record.seen), record.seen
    left = stored(done.tables) if done.tables else record.p
    if done[:-1] == seen[:-1] and left.same(seen.tables):
        return None
    count = record.p.filled, record.asked.tables and record.asked.tables.cells()
    return 'most %d at %d in %d bytes with %d cells, filled %s of %s: %r for %r' % (
        record.asked.most, record.asked.place, len(record.asked.output), len(record.asked.work) // CELL_BYTES, *count, seen[:3], done[:3])


def line_fault(record):
    """None, or that a line between portions did something else than the paper says."""
    output, place, work = record.given
    want = reply(record.p, Room(len(output), len(work) // CELL_BYTES, place), record.line)
    text, zeros = text_of(want.lines), CELL_BYTES * want.zero_cells
    if record.seen == (want.number, len(text), written(output, place, text), bytes(zeros) + work[zeros:]) and record.left.same(want.planner):
        return None
    return '%r between portions: %r for %r' % (record.line, record.seen[:2], (want.number, len(text)))


def count_differs(model, record):
    """Does a model leave another count after a line that was not turned away?"""
    number, count, output, _ = record.seen
    answer = output[record.given[1]:record.given[1] + count].decode('latin-1').split('\n')[:-1]
    return number != 1 and model.after_line(tables_of(record.p), record.line, answer) != record.left.filled


def told_apart(model, records):
    """Does a model say something else than was seen?"""
    return any(count_differs(model, one) if isinstance(one, Told) else portion_fault(model, one) for one in records)


# ---- a session


def any_line(rng, tables, figures, kinds):
    """A line between portions."""
    loads = max(1, len(tables.loads))
    return rng.choice((
        *6 * [lambda: question(rng, tables, figures, kinds)], *2 * [lambda: same_again(rng, tables)], *2 * [lambda: b'plan'],
        *2 * [lambda: budget_line(rng, figures).encode()], lambda: b'last', lambda: b'need,0', lambda: b'need,9', lambda: b'budget,501',
        lambda: b'x' * (LINE_BYTES + 1), lambda: b'plan,', lambda: b'save', lambda: b'save1', lambda: b'check,' + b'0' * loads,
        lambda: b'clear' if rng.random() < 0.2 else b'last',
        lambda: b'book,%d,%d' % (rng.randint(1, 3), rng.randint(1, 3)) if rng.random() < 0.2 else b'last',
        lambda: drop_line(rng, tables), lambda: load_line(rng, len(tables.loads), figures, kinds).encode(),
        lambda: b'power,%d,%d' % (rng.randint(1, loads), rng.choice(figures.powers)), lambda: b'start,1', lambda: b'end,1',
        lambda: b'rule,1,%d,1' % rng.randint(0, 1), lambda: b'row,1,1,1'))()


def any_number(rng, left):
    """n, given how many cells are open: most often such that the filling goes on for some portions."""
    if rng.random() < 0.06:
        return rng.choice(OTHER_NUMBERS)
    few = rng.randint(1, 9), rng.randint(1, max(1, left // 3)), rng.randint(1, max(1, left))
    return min(MAX_PORTION, rng.choice((1, *few, *few, max(1, left - 1), max(1, left), left + 1, 256, MAX_PORTION)))


def altered(rng, work, filled):
    """A work that somebody wrote in, in a filled cell most often, or in all of them."""
    cell = rng.randrange(filled) if filled and rng.random() < 0.8 else rng.randrange(max(1, len(work) // CELL_BYTES))
    start, end = CELL_BYTES * cell, CELL_BYTES * (cell + 1)
    value = int.from_bytes(work[start:end], 'little')
    other = rng.choice((0, 1, 511, 512, value + 1, value + 512, max(0, value - 512), 2**31, 2**32 - 1, rng.randrange(2**32))) % 2**32
    one = work[:start] + other.to_bytes(CELL_BYTES, 'little') + work[end:]
    shifted = work[CELL_BYTES:] + work[:CELL_BYTES]
    return rng.choice((one, one, one, bytes(len(work)), b'\xff' * len(work), rubbish(rng, len(work)), shifted))[:len(work)]


class Session:
    """A planner, the work of its portions, and what came of all that was asked of it."""

    def __init__(self, rng, library, lines, kept=False):
        self.rng = rng
        self.planner = Planner(library, rubbish(rng, PLANNER_BYTES)).fresh()
        self.work = b''
        self.kept, self.records = kept, []  # what was asked, if it is kept
        self.faults, self.seen = [], Counter()  # a fault or None for each comparison, and how often there was what
        for line in lines:
            self.planner.call(line, bytes(SAVE_BYTES), 0, b'')

    def held(self):
        return held(self.planner.state.content())

    def note(self, record, fault):
        self.faults.append(fault)
        if self.kept:
            self.records.append(record)

    def portion(self, most, output, place, work):
        """What is seen of a portion."""
        p = self.held()
        asked, seen = asked_of(p, most, output, place, work), self.planner.portion(most, output, place, work)
        record = Portioned(p, asked, Done(*seen, self.held()))
        self.note(record, portion_fault(Portions(), record))
        right = asked.tables is not None and holds(asked)
        self.seen['portions with %d' % seen[0]] += 1
        self.seen['cells by enumeration' if right else 'cells left free'] += seen[1]
        self.seen['answers by enumeration' if right else 'answers left free'] += seen[2] > 0
        return record.seen

    def tell(self, line, output, place, work):
        """The work after a line."""
        p, seen = self.held(), self.planner.call(line, output, place, work)
        record = Told(p, line, (output, place, work), seen, self.held())
        self.note(record, line_fault(record))
        self.seen['lines'] += 1
        return seen[3]

    # ---- the work, from portion to portion

    def lent_work(self, cells):
        """The work of the portions, with rubbish behind it if it is too short."""
        self.work += rubbish(self.rng, max(0, CELL_BYTES * cells - len(self.work)))
        return self.work

    def any_work(self, tables):
        """The work for a portion: mostly that of the one before, now and then altered, another one, a longer one, or one that is too short."""
        rng, cells = self.rng, tables.cells()
        work, sort = self.lent_work(cells), rng.random()
        if sort < 0.06:
            return altered(rng, work, tables.filled)
        if sort < 0.09:
            return rubbish(rng, len(work))
        if sort < 0.12:
            return work + rubbish(rng, CELL_BYTES * rng.randint(1, 9))
        if sort < 0.15:
            return right_values(tables) + rubbish(rng, CELL_BYTES * rng.randint(0, 3))
        if sort < 0.19 and cells:
            return work[:CELL_BYTES * rng.choice((cells - 1, rng.randrange(cells), 0))]
        return work[:CELL_BYTES * cells] if sort < 0.4 else work

    # ---- what is asked

    def tables(self):
        """The oracle with what the planner holds, an empty one where that breaks a limit."""
        p = self.held()
        return tables_of(p) if keeps_limits(p) else Oracle()

    def any_portion(self):
        tables = self.tables()
        output, place = lent(self.rng, b'plan', 0)[:2] if self.rng.random() < 0.4 else (rubbish(self.rng, RUN_BYTES), 0)
        seen = self.portion(any_number(self.rng, tables.cells() - tables.filled), output, place, self.any_work(tables))
        self.work = seen.work + self.work[len(seen.work):]

    def any_line(self, figures, kinds):
        """A line between portions, unless it would make too many runs. A plan gets the work of the portions now and then."""
        tables = self.tables()
        line, after = any_line(self.rng, tables, figures, kinds), copy.deepcopy(tables)
        after.answer(line, 0)
        if not few_runs(after):
            return
        output, place, work = lent(self.rng, line, tables.cells())
        if searches(line) and self.rng.random() < 0.8:
            self.tell(line, output, place, work)
        else:
            self.work = self.tell(line, output, place, self.lent_work(tables.cells()))

    def hand_in(self):
        """The planner handed in with any count, often with any outcome: to portions, to a line, to the judge and to be drawn. Then it goes on as it
        was, or, now and then, as it is, if it keeps the limits."""
        before, p, page = self.planner.state.content(), with_any_count(self.rng, self.held()), rubbish(self.rng, PAGE_BYTES)
        p = with_any_outcome(self.rng, p) if self.rng.random() < 0.5 else p
        self.planner.state = Lent(content_with(p))
        same = self.planner.judge([]) == int(verdict(p, [])) and self.planner.draw(1, page) == Pages().drawn(Drawing(p, keeps_limits(p), 1, page))
        self.faults.append(None if same else 'the judge or a page with %d cells filled' % p.filled)
        for _ in range(2):
            self.any_portion()
        self.any_line(MIXED, NO_KINDS)
        if self.rng.random() < 0.5 or not keeps_limits(self.held()):
            self.planner.state = Lent(before)

    def to_the_answer(self, numbers):
        """Portions till the answer, with nothing altered between them."""
        tables = self.tables()
        while tables.loads:
            seen = self.portion(self.rng.choice(numbers), rubbish(self.rng, RUN_BYTES + 9), 9, self.lent_work(tables.cells()))
            self.work = seen.work
            if seen.count or seen.number:
                return

    def start_over(self):
        """A change that leaves the tables equal."""
        self.tell(b'budget,%d' % self.tables().budget, rubbish(self.rng, FREE_BYTES), 0, b'')


# ---- small cabinets


def small_lines(rng, figures, kinds):
    """The lines of a small cabinet, mostly one that has a plan. Now and then it has no loads, or no book."""
    while True:
        book, tree = any_book(rng, figures, kinds), tree_lines(rng, figures, kinds)
        book, tree = rng.choice(((book, []), ([], tree))) if rng.random() < 0.05 else (book, tree)
        lines, tables = [line.encode() for line in (*book, *tree, budget_line(rng, figures))], Oracle()
        for line in lines:
            tables.answer(line)
        if few_runs(tables) and (rng.random() < 0.3 or tables.loads and tables.plan()):
            return lines


def small_session(rng, library, kept):
    figures, kinds = rng.choice(FIGURES), any_kinds(rng)
    session = Session(rng, library, small_lines(rng, figures, kinds), kept)
    for _ in range(rng.randint(3, 18)):
        sort = rng.random()
        if sort < 0.72:
            session.any_portion()
        elif sort < 0.96:
            session.any_line(figures, kinds)
        else:
            session.hand_in()
    cells = session.tables().cells()
    for _ in range(2):  # the second one fills from the first cell on
        session.to_the_answer([min(MAX_PORTION, n) for n in (cells + 1, cells // 2 + 1, cells // 5 + 1, MAX_PORTION)])
    session.faults.append(fronts_fault(session.tables()))
    return session


def fronts_fault(tables):
    """None, or that fronts have other cells than the enumeration."""
    fronts = Fronts()
    vars(fronts).update(vars(tables))
    return None if cell_bytes(fronts.cell_values()) == right_values(tables) else 'the fronts of %r' % tables.save()


# ---- large cabinets


def large_lines(rng):
    """The lines of a cabinet of up to 128 loads."""
    cabinet = Cabinet(rng, 4 * CELLS, Figures(range(9), range(99), range(MAX_BUDGET)))
    for line in cabinet.book():
        cabinet.say(line)
    for _ in range(rng.choice((10, 33, MAX_LOADS - 1, MAX_LOADS))):
        cabinet.say(cabinet.load())
    cabinet.say(cabinet.budget())
    return cabinet.lines


def largest_lines():
    """The largest cabinet, of 1,026,048 cells. A load may be on only if its parent is."""
    book = ['book,%d,%d' % (MAX_STATES, MAX_STAGES), *BELOW.split()[1:]]
    tree = ['load,%d,%d,%d' % ((count + 1) // 2 if count else 0, 3 + count % 7, 1 + count * 37 % 101) for count in range(MAX_LOADS)]
    return [line.encode() for line in (*book, *tree, 'budget,%d' % MAX_BUDGET)]


def large_session(rng, library, lines):
    """Portions, with a refused line between them that gets their work, and a plan that gets another; a change; and portions to the answer."""
    session = Session(rng, library, lines)
    cells = session.tables().cells()
    for line in (b'budget,%d' % (MAX_BUDGET + 1), b'plan'):
        seen = session.portion(rng.randint(1, MAX_PORTION), rubbish(rng, RUN_BYTES), 0, session.lent_work(cells))
        session.work = seen.work
        lent_work = rubbish(rng, CELL_BYTES * cells) if line == b'plan' else session.work
        session.tell(line, rubbish(rng, RUN_BYTES), 0, lent_work)
    session.to_the_answer((MAX_PORTION,))
    session.start_over()
    session.to_the_answer((MAX_PORTION - 1, MAX_PORTION, cells // 40 % MAX_PORTION + 1))
    return session


# ---- the sessions by name


class Named:
    """A session by name: a planner, and the work of its portions, which is longer than any of them needs."""

    def __init__(self, library, model):
        self.planner, self.model = Planner(library).fresh(), model
        self.work = self.whole = rubbish(random.Random(1), CELL_BYTES * 2000)

    def held(self):
        return held(self.planner.state.content())

    def tell(self, line, work):
        """Whether the model has the same count after a line, the lines of its answer, and the work after it."""
        p = self.held()
        number, count, output, left = self.planner.call(line, bytes(SAVE_BYTES), 0, work)
        lines = ['no,1'] if number == 1 else output[:count].decode().split('\n')[:-1]
        return number == 1 or self.model.after_line(tables_of(p), line, lines) == self.held().filled, lines, left

    def lines(self, given):
        lines, answer = given
        told = [self.tell(line, bytes(CELL_BYTES * CELLS)) for line in lines]
        return all(same and (not answer or got == answer) for same, got, _ in told)

    def same(self, lines):
        """Lines that must leave the work of the portions as it is."""
        return all(same and left == self.work for same, _, left in (self.tell(line, self.work) for line in lines))

    def filled(self, count):
        p = self.held()
        p.filled = count
        self.planner.state = Lent(content_with(p))
        return True

    def count(self, count):
        return self.held().filled == count

    def cells(self, given):
        first, values = given
        return cells_in(self.work, first, len(values)) == cell_bytes(values)

    def rubbish(self, given):
        first, end = given
        return cells_in(self.work, first, end - first) == cells_in(self.whole, first, end - first)

    def portion(self, given):
        p, output = self.held(), bytes(SAVE_BYTES if given.size is None else given.size)
        cells = p.load_count * (p.states + p.stages) * (p.budget + 1) + 20 if given.cells is None else given.cells
        asked = asked_of(p, given.most, output, given.place or 0, self.work[:CELL_BYTES * cells])
        seen = Done(*self.planner.portion(*asked[1:]), self.held())
        self.work = seen.work + self.work[len(seen.work):]
        text = text_of(given.lines)
        number = 9 if given.lines == ['no,9'] else given.number
        want = number, given.filled, len(text), written(output, asked.place, text)
        return seen[:4] == want and portion_fault(self.model, Portioned(p, asked, seen)) is None


def edge_fault(library, name):
    """None, or the first step of a session by name of which something else comes than stands there, by the library or by the model."""
    named = Named(library, Portions())
    wrong = next((step for step in EDGES[name] if not getattr(named, step.sort)(step.given)), None)
    return wrong and '%s: %s %r' % (name, *wrong)


# ---- all of it


def main():
    options = argparse.ArgumentParser()
    options.add_argument('library')
    options.add_argument('--sessions', type=int, default=1000)
    options.add_argument('--seed', type=int, default=1)
    args = options.parse_args()
    rng, library = random.Random(args.seed), Library(args.library)
    faults, seen, records = [edge_fault(library, name) for name in EDGES], Counter(), []
    for number in range(args.sessions):
        session = small_session(rng, library, number < KEPT)
        faults += session.faults
        records += session.records
        seen += session.seen
    for lines in [largest_lines()] + [large_lines(rng) for _ in range(args.sessions // LARGE)]:
        session = large_session(rng, library, lines)
        faults += session.faults
        seen += session.seen
    untold = [wrong.__name__ for wrong in WRONG if not told_apart(wrong(), records)]
    faults += [name + ': not told apart' for name in untold] + [None] * (len(WRONG) - len(untold))
    for fault in [fault for fault in faults if fault][:5]:
        print('DIFFERS: %.600s' % fault)
    print(', '.join('%s: %d' % one for one in sorted(seen.items())))
    print('%d sessions by name; %d wrong models, of which %d are told apart' % (len(EDGES), len(WRONG), len(WRONG) - len(untold)))
    failed = sum(fault is not None for fault in faults)
    print('%d passed, %d failed' % (len(faults) - failed, failed))
    return 1 if failed else 0


if __name__ == '__main__':
    sys.exit(main())
