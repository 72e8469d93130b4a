#!/usr/bin/env python3
"""The handheld's pages and stretches, through the library as firmware links it, against a plain model of them (pages.py).

  pagecheck.py LIBRARY.so [--cases N] [--seed S]

Half of the pages are drawn in random sessions, of whose plans the enumeration says what they are (oracle.py), after each line. The others are of
planners handed in: cabinets of any size with any outcome, in range or not, some with any count of filled cells, and such as break a limit of
their tables. Each is drawn from loads around every end, on pages of every length around theirs, with rubbish on them. Compared are the number and
every byte of the page; the planner and the bytes around the page must stay as they are. What is drawn goes to a glass: compared are the place, the
count and the row of each stretch, and the glass with the stretch on it. So are stretches of every set of differing rows, of each single bit, and
of other lengths. The pages of page_edges.py stand there by hand, and must be those of the library and of the model; those that docs/ELECTRICIAN.md
shows must be among them.
Then the same is asked of models that are wrong on purpose (wrong_pages.py), and each must be told apart.
The last line is 'N passed, M failed'.
"""
import argparse
import copy
import random
import re
import sys
from collections import Counter
from itertools import product
from pathlib import Path

from crosscheck import EVERY_KIND, Figures, any_book, budget_line, load_line, session
from edges import ALL_ON
from library import Library, Planner, content_with
from limits import MAX_BUDGET, MAX_LOADS, MAX_POWER, MAX_WORTH, NO_SET, NOTHING, PAGE_BYTES, PAGE_ROWS, PLANNED, ROW_BYTES, WORD_LOADS
from oracle import Oracle
from outcomes import with_any_count, with_any_outcome
from page_edges import EDGES
from pages import Asked, Pages, put
from script import DARK, Followed, changed, keeps_limits, padded, stored
from wrong_pages import WRONG

WIDE = Figures(range(MAX_POWER + 1), range(MAX_WORTH + 1), range(MAX_BUDGET + 1))
COUNTS = 0, 1, 2, 6, 7, 8, 13, 14, 15, 33, WORD_LOADS, WORD_LOADS + 1, MAX_LOADS - 1, MAX_LOADS
LENGTHS = PAGE_BYTES, PAGE_BYTES - 1, PAGE_BYTES + 1, 0, 1, ROW_BYTES, 2 * PAGE_BYTES, 2**8 + PAGE_BYTES
IN_SESSION = 2  # pages drawn after each line
HANDED_IN = 8  # and of each planner handed in
BROKEN = (
    'size 9 1', 'size 0 1', 'marks 255 0', 'marks 0 255', 'budget 501', 'counts 33 0 0', 'counts 0 33 0', 'counts 0 0 129', 'rubbish',
    'rule of sort 1 at place 31: 0 0 1', 'rule of sort 2 at place 31: 1 0 0', 'load at place 0: 1 0 0', 'load at place 0: 0 501 0',
    'load at place 0: 0 0 1001', 'load at place 127: 128 0 0', 'load at place 0: 0 0 0 4', 'rule of sort 1 at place 0: 1 0 1 4',
    'rule of sort 2 at place 0: 1 1 1 1', 'rule of sort 1 at place 31: 0 0 0 1', 'rule of sort 2 at place 31: 0 0 0 1',
)


def loads_near(count):
    """The numbers of loads around every end, with so many loads."""
    near = 0, 1, 2, count - 7, count - 6, count - 5, count - 1, count, count + 1, WORD_LOADS - 3, WORD_LOADS + 1, MAX_LOADS, MAX_LOADS + 1
    return sorted({k for k in near if k >= 0}) + [2**8 + 1, 2**16 + 1, 2**32, 2**32 + 1, 2**63 + 1, 2**64 - 7, 2**64 - 1]


def any_load(rng, count):
    """A load's number: one that is there, or one around an end."""
    return rng.randint(1, count) if count and rng.random() < 0.6 else rng.choice(loads_near(count))


def any_length(rng):
    return PAGE_BYTES if rng.random() < 0.8 else rng.choice(LENGTHS)


# ---- planners


def with_lines(lines):
    """What a planner holds after lines without a plan."""
    oracle = Oracle()
    for line in lines:
        oracle.answer(line.encode())
    return stored(oracle)


def cabinet(rng):
    """A cabinet of any size, with any outcome, in range or not; now and then with any count, and now and then it breaks a limit of its tables."""
    count = rng.choice((*COUNTS, rng.randint(0, MAX_LOADS)))
    loads = [load_line(rng, number, WIDE, EVERY_KIND) for number in range(count)]
    p = with_any_outcome(rng, with_lines([*any_book(rng, WIDE, EVERY_KIND), *loads, budget_line(rng, WIDE)]))
    p = with_any_count(rng, p) if rng.random() < 0.2 else p
    return changed(p, [rng.choice(BROKEN)]) if rng.random() < 0.1 else p


def plain_cabinet(count, status):
    """So many loads, no two with the same figures, and an outcome of this status, with every third load on where it is a plan."""
    p = with_lines([*ALL_ON.split(), *('load,%d,%d,%d' % (min(k, 1), 3 * k, 1000 - k) for k in range(count))])
    p.status = status
    if status == PLANNED:
        p.run, p.set = padded([(1, 1, min(k, 1)) for k in range(count)], MAX_LOADS), sum(1 << k for k in range(0, count, 3))
    return p


def with_all_on(p):
    """The planner with each load on in the plan that is stored: of the most loads the worth has six digits."""
    q = copy.copy(p)
    q.set = 2**p.load_count - 1
    return q


def made_old(p, latest):
    """The planner as if no change had made its latest outcome old, if one has: `latest` is the one that held it."""
    if p.status != NOTHING or latest is None:
        return None
    q = copy.copy(p)
    q.status, q.run, q.set = latest.status, latest.run, latest.set
    return q


# ---- what is drawn and sent, and what a model says of it


class Observed:
    """What was asked of the library, each with what came of it, and the glass."""

    def __init__(self, library):
        self.library = library
        self.drawings = []  # what was asked, the number, and the page after it
        self.stretches = []  # the glass, the drawn page, the stretch, and the glass with it
        self.glass = DARK

    def draw(self, planner, asked):
        got = planner.draw(asked.load, asked.page)
        self.drawings.append((asked, got))
        if got[0] == 0:
            self.glass = self.send(self.glass, got[1])
        return got

    def send(self, glass, drawn):
        """The glass with what is sent to it."""
        stretch = start, count, row = self.library.stretch(glass, drawn)
        shown = put(glass, row, drawn[start:start + count])
        self.stretches.append((glass, drawn, (stretch, shown)))
        return shown


def stretched(model, glass, drawn):
    """The stretch that a model has, and the glass with it."""
    stretch = model.stretch(glass, drawn)
    return stretch, put(glass, stretch[2], model.sent(glass, drawn))


def drawing_faults(model, drawings):
    return (asked for asked, got in drawings if model.drawn(asked) != got)


def stretch_faults(model, stretches):
    return ((glass, drawn) for glass, drawn, got in stretches if stretched(model, glass, drawn) != got)


def differs(model, observed):
    """Does a model say something else than came of it?"""
    faults = drawing_faults(model, observed.drawings), stretch_faults(model, observed.stretches)
    return any(next(one, None) is not None for one in faults)


# ---- where the planners and the pages come from


def of_session(rng, observed):
    """Pages of a random session, after each line."""
    planner, followed, latest = Planner(observed.library).fresh(), Followed(), None
    for line, answer in zip(*(session(rng) or ([], []))):
        planner.answer(line)
        followed.follow(line, answer)
        p = stored(followed)
        latest = p if p.status != NOTHING else latest
        kept, stale = keeps_limits(p), made_old(p, latest)
        for _ in range(IN_SESSION):
            observed.draw(planner, Asked(p, kept, any_load(rng, p.load_count), rng.randbytes(any_length(rng)), stale))


def of_cabinet(rng, observed):
    """Pages of a planner handed in."""
    p = cabinet(rng)
    planner, kept, count = Planner(observed.library, content_with(p)), keeps_limits(p), min(p.load_count, MAX_LOADS + 1)
    for _ in range(HANDED_IN):
        observed.draw(planner, Asked(p, kept, any_load(rng, count), rng.randbytes(any_length(rng))))


def of_every_end(rng, observed):
    """Pages of cabinets of several sizes, with some loads on and with all, with each other status of an outcome and one that there is not, from
    each load around an end, on each length."""
    for count in COUNTS:
        planned = plain_cabinet(count, PLANNED)
        for p in [planned, with_all_on(planned), *(plain_cabinet(count, status) for status in (NOTHING, NO_SET, PLANNED + 1))]:
            planner, kept = Planner(observed.library, content_with(p)), keeps_limits(p)
            for load in loads_near(count):
                for length in LENGTHS:
                    observed.draw(planner, Asked(p, kept, load, rng.randbytes(length)))


def with_bits_changed(page, places, bit=0):
    """The page with a bit changed of the bytes at these places."""
    return bytes(byte ^ 1 << bit if at in places else byte for at, byte in enumerate(page))


def of_every_stretch(rng, observed):
    """Stretches of every set of rows that differ, in one byte each; of each single bit; of other lengths; and of a page and itself."""
    page = Pages().page(plain_cabinet(MAX_LOADS, PLANNED), 20)
    for rows in range(2**PAGE_ROWS):
        places = {ROW_BYTES * row + rng.randrange(ROW_BYTES) for row in range(PAGE_ROWS) if rows >> row & 1}
        observed.send(with_bits_changed(page, places), page)
        observed.send(page, with_bits_changed(page, places, 7))
    for bit in range(8 * PAGE_BYTES):
        observed.send(page, with_bits_changed(page, {bit // 8}, bit % 8))
    for first, second in product(LENGTHS, LENGTHS):
        observed.send((3 * page)[:first], (3 * page)[:second])
        observed.send((3 * page)[:first], rng.randbytes(second))
    observed.send(page, page)


# ---- the pages by name


def edge_fault(planner, model, edges):
    """None, or the first page of a session by name that is not drawn as it stands there, by the library or by a model."""
    observed, followed = Observed(planner.library), Followed()
    for edge in edges:
        for line in edge.lines:
            followed.follow(line, planner.answer(line))
        p, first, last = stored(followed), *edge.rows
        asked, before = Asked(p, keeps_limits(p), edge.load, bytes(edge.size)), observed.glass
        drawn = edge.number, asked.page if edge.number else edge.page
        sent = (ROW_BYTES * (first - 1), ROW_BYTES * (last + 1 - first), first) if first else (0, 0, 0)
        if observed.draw(planner, asked) != drawn or model.drawn(asked) != drawn:
            return 'the page from load %d on %d bytes, after %r' % (edge.load, edge.size, edge.lines)
        if not edge.number and not observed.stretches[-1][2] == stretched(model, before, edge.page) == (sent, edge.page):
            return 'what goes to the glass of the page from load %d, after %r' % (edge.load, edge.lines)
    return None


def documented():
    """The pages that docs/ELECTRICIAN.md shows, each in a frame."""
    text = (Path(__file__).parent.parent / 'docs' / 'ELECTRICIAN.md').read_text()
    frames = re.findall(r'\+-{20}\+\n(.*?)\+-{20}\+', text, re.DOTALL)
    return [''.join(re.findall(r'\|(.{20})\|', frame)).encode() for frame in frames]


def document_fault():
    """None, or that the document does not show the worked cabinet after its plan, at its second screen, and a page after refusal 9."""
    after_plan, _, second_screen = [edge.page for edge in EDGES['the worked cabinet'][:3]]
    expected = [after_plan, second_screen, b'no plan'.ljust(PAGE_BYTES)]
    return None if documented() == expected else 'docs/ELECTRICIAN.md shows other pages'


# ---- all of it


def observed_of(rng, library, cases):
    """All that is asked of the library: pages of sessions, of planners handed in and around every end, and stretches."""
    observed = Observed(library)
    while len(observed.drawings) < cases // 2:
        of_session(rng, observed)
    while len(observed.drawings) < cases:
        of_cabinet(rng, observed)
    of_every_end(rng, observed)
    of_every_stretch(rng, observed)
    return observed


def faults_of(observed):
    """What differs from the model, each in a line."""
    for asked in drawing_faults(Pages(), observed.drawings):
        outcome = asked.p.status, asked.p.set
        yield 'the page from load %d on %d bytes, with %d loads and the outcome %r' % (asked.load, len(asked.page), asked.p.load_count, outcome)
    for glass, drawn in stretch_faults(Pages(), observed.stretches):
        yield 'the stretch of %r on %r' % (drawn, glass)


def main():
    options = argparse.ArgumentParser()
    options.add_argument('library')
    options.add_argument('--cases', type=int, default=20000)
    options.add_argument('--seed', type=int, default=1)
    args = options.parse_args()
    library = Library(args.library)
    observed = observed_of(random.Random(args.seed), library, args.cases)
    faults = list(faults_of(observed))
    named = {name: edge_fault(Planner(library).fresh(), Pages(), edges) for name, edges in EDGES.items()}
    faults += ['%s: %s' % (name, fault) for name, fault in named.items() if fault] + [fault for fault in [document_fault()] if fault]
    untold = [wrong.__name__ for wrong in WRONG if not differs(wrong(), observed)]
    for fault in faults[:5]:
        print('DIFFERS: ' + fault)
    for name in untold:
        print('%s: not told apart' % name)
    numbers, empty = Counter(got[0] for _, got in observed.drawings), sum(got[0][1] == 0 for *_, got in observed.stretches)
    print('%d drawings: %s' % (len(observed.drawings), ', '.join('%d times %d' % (numbers[number], number) for number in sorted(numbers))))
    print('%d stretches, %d of them empty; %d sessions by name, with %d pages' % (
        len(observed.stretches), empty, len(EDGES), sum(map(len, EDGES.values()))))
    print('%d wrong models, of which %d are told apart' % (len(WRONG), len(WRONG) - len(untold)))
    failed = len(faults) + len(untold)
    print('%d passed, %d failed' % (len(observed.drawings) + len(observed.stretches) + len(EDGES) + 1 + len(WRONG) - failed, failed))
    return 1 if failed else 0


if __name__ == '__main__':
    sys.exit(main())
