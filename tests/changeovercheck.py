#!/usr/bin/env python3
"""Changeovers through the library as firmware links it, against a plain model of them (changeovers.py).

  changeovercheck.py LIBRARY.so [--cases N] [--seed S]

First every pair of sets of every tree of up to five loads, with some powers and budgets. Then random cabinets of up to 128 loads, chains, stars and
others, with any book and any outcome: their sets are most often such as the supply carries, or nearly so, with a budget that they meet to the watt;
now and then a byte is wrong, or the length. The list has any number of places around that of the steps, and holds rubbish. Some planners handed
in break a limit. Compared are the number, the count and every byte of the list; the planner, both sets and the bytes around the list must stay as
they are. Each list of steps is replayed, step by step, by what the paper demands of them.
The changeovers of changeover_edges.py stand there by hand, for the library and for the model. Then the same is asked of models that are wrong
on purpose (wrong_changeovers.py), and each must be told apart; the replay must tell apart those whose steps are others.
The last line is 'N passed, M failed'.
"""
import argparse
import random
import sys
from collections import Counter
from itertools import product

from changeover_edges import EDGES
from changeovers import Asked, Changeovers, Done, replay_fault, step_bytes, steps_in
from crosscheck import MIXED, any_book, any_kinds
from largecheck import SHAPES
from library import Library, Planner, content_with, held
from limits import MAX_BUDGET, MAX_LOADS, MAX_POWER, STEP_BYTES, WORD_LOADS
from outcomes import with_any_count, with_any_kind, with_any_outcome
from pagecheck import BROKEN, with_lines
from script import changed, keeps_limits
from wrong_changeovers import WRONG, WRONG_STEPS

SMALL = 5  # loads of the trees whose pairs of sets are all tried
COUNTS = 1, 2, 3, 5, 8, 33, WORD_LOADS - 1, WORD_LOADS, WORD_LOADS + 1, MAX_LOADS - 1, MAX_LOADS, MAX_LOADS
POWERS = (0,), (1,), (0, 1), (0, 1, 2, 3), (0, 0, 1, 7, 40), (1, 20, 100, 255, 256), range(MAX_POWER + 1)
OTHER_BYTES = b'\x00\x01 /2:\xb0\xb1\xff'
IN_CABINET = 10  # changeovers of each random cabinet
DISTINCT = [1 << k for k in range(SMALL)]  # powers of which no two sets have the same


class Observed:
    """What was asked of the library, each with what came of it, and the faults that the model and the replay find."""

    def __init__(self, library):
        self.library = library
        self.model = Changeovers()
        self.cases, self.faults = [], []

    def ask(self, planner, asked):
        got = Done(*planner.changeover(asked.old, asked.new, asked.list))
        self.cases.append((asked, got))
        fault = fault_of(self.model.done(asked), asked, got)
        if fault:
            self.faults.append('%s: from %r to %r with %d places, %d loads and %d W' % (
                fault, asked.old, asked.new, len(asked.list) // STEP_BYTES, asked.p.load_count, asked.p.budget))
        return got


def fault_of(want, asked, got):
    """None, or what is wrong with what came of a changeover."""
    if want != got:
        return '%r, not %r' % (got[:2], want[:2])
    return replay_fault(asked.p, asked.old, asked.new, steps_in(got.list, got.count)) if got.number == 0 else None


def replay_tells(model, cases):
    """Does the replay find a fault in what a model lists where the library lists steps?"""
    accepted = (asked for asked, got in cases if got.number == 0)
    return any(replay_fault(asked.p, asked.old, asked.new, made_by(model, asked)) for asked in accepted)


def made_by(model, asked):
    return model.steps(model.on(asked.old), model.on(asked.new))


# ---- sets


def text_of(p, on):
    """A set of loads, written as for `check`."""
    return b''.join(b'1' if k in on else b'0' for k in range(1, p.load_count + 1))


def power_of(p, on):
    return sum(p.loads[k - 1][1] for k in on)


def carried(rng, p, share):
    """Loads that are on from the top, this share of those that may be, within the greatest budget."""
    on, left = set(), MAX_BUDGET
    for k, (parent, power, *_) in enumerate(p.loads[:p.load_count], 1):
        if (k == 1 or parent in on) and power <= left and rng.random() < share:
            on.add(k)
            left -= power
    return on


def without_branch(p, on, load):
    """The set without a load and without those below it."""
    gone = {load}
    for k in range(load + 1, p.load_count + 1):
        if p.loads[k - 1][0] in gone:
            gone.add(k)
    return on - gone


def near(rng, p, on):
    """A set that differs little: a branch goes, or a load comes, most often one whose parent is on."""
    loads = range(1, p.load_count + 1)
    ready = [k for k in loads if k not in on and (k == 1 or p.loads[k - 1][0] in on)]
    return rng.choice((
        without_branch(p, on, rng.choice(loads)), without_branch(p, on, p.load_count), on | {rng.choice(ready or loads)},
        on | {rng.choice(loads)}, on ^ {rng.choice(loads)}))


def sets_of(rng, p):
    """Sets of a cabinet: such as the supply carries, and others near them."""
    sets = [carried(rng, p, rng.choice((0.5, 0.9, 0.97, 1))) for _ in range(3)]
    return [*sets, *(near(rng, p, on) for on in sets), set(), {1}]


def spoiled(rng, text):
    """A set with a byte that none has, or of another length."""
    at = rng.choice((0, rng.randrange(len(text)), len(text) - 1)) if text else 0
    byte = bytes([rng.choice((*OTHER_BYTES, rng.randrange(256)))])
    other = text[:at] + byte + text[at + 1:]
    return rng.choice((other, other, text[:-1], text + b'0', text + b'1', b'', text[1:], 2 * text, text + bytes(2**8)))


# ---- lists


def any_list(rng, p, old, new):
    """A list of rubbish, most often with as many places as there are steps, or nearly so."""
    model = Changeovers()
    steps = len(model.steps(model.on(old), model.on(new)))
    near = steps, steps, steps, steps + 1, max(0, steps - 1), rng.randint(0, steps)
    return rng.randbytes(STEP_BYTES * rng.choice((*near, 0, p.load_count % 2**8, MAX_LOADS, MAX_LOADS + 9)))


# ---- where the planners and the sets come from


def trees(count):
    """Every tree of so many loads: the parent of each."""
    return product(*((0,) if k == 0 else range(1, k + 1) for k in range(count)))


def small_cabinets(rng, parents):
    """Planners with a tree: powers that tell the sets apart, and others, each with a budget for all, for one watt less, and another."""
    for powers in rng.sample(DISTINCT[:len(parents)], len(parents)), rng.choices((0, 1, 2), k=len(parents)):
        whole = sum(powers)
        for budget in sorted({whole, max(0, whole - 1), rng.randint(0, whole)}):
            yield with_lines([*('load,%d,%d,%d' % (parent, power, parent) for parent, power in zip(parents, powers)), 'budget,%d' % budget])


def of_lists(rng, observed, planner, asked):
    """A changeover with a list of any length, and, where its steps may be taken, with every length up to one more than they are."""
    got = observed.ask(planner, asked)
    if got.number in (0, 17):
        for places in range(len(made_by(observed.model, asked)) + 2):
            observed.ask(planner, asked._replace(list=rng.randbytes(STEP_BYTES * places)))


def of_small_trees(rng, observed):
    """Every pair of sets of every small tree."""
    for count in range(1, SMALL + 1):
        for p in (p for parents in trees(count) for p in small_cabinets(rng, parents)):
            planner, texts = Planner(observed.library, content_with(p)), [bytes(bits) for bits in product(b'01', repeat=count)]
            for old, new in product(texts, texts):
                of_lists(rng, observed, planner, Asked(p, True, old, new, any_list(rng, p, old, new)))


def cabinet(rng):
    """A cabinet of any size and shape, with any book, that draws something."""
    kinds, shape, powers = any_kinds(rng), rng.choice(list(SHAPES.values())), rng.choice(POWERS)
    count = rng.choice((*COUNTS, rng.randint(1, MAX_LOADS)))
    loads = ['load,%d,%d,%d,%d' % (shape(rng, k) if k else 0, rng.choice(powers), rng.randint(0, 9), rng.choice(kinds.loads)) for k in range(count)]
    return with_lines([*(any_book(rng, MIXED, kinds) if rng.random() < 0.8 else []), *loads])


def budget_near(rng, powers):
    """A budget that sets of these powers meet to the watt, or nearly so."""
    power = rng.choice((max(powers), max(powers), rng.choice(powers)))
    return min(MAX_BUDGET, max(0, rng.choice((power, power, power, power - 1, power + 1, MAX_BUDGET))))


def handed_in(rng, p):
    """The planner with what need not be so: any outcome, any count, any kind, or a change that breaks a limit."""
    return rng.choice((
        *3 * [lambda: p], lambda: with_any_outcome(rng, p), lambda: with_any_count(rng, p), lambda: with_any_kind(rng, p),
        lambda: changed(p, [rng.choice(BROKEN)])))()


def of_cabinet(rng, observed):
    """Changeovers between sets of a random cabinet."""
    p = cabinet(rng)
    sets = sets_of(rng, p)
    p.budget = budget_near(rng, [power_of(p, on) for on in sets[:3]])
    texts, p = [text_of(p, on) for on in sets], handed_in(rng, p)
    planner, kept = Planner(observed.library, content_with(p)), keeps_limits(p)
    for _ in range(IN_CABINET):
        old, new = (rng.choice(texts[:3] + texts) for _ in range(2))
        old, new = (spoiled(rng, text) if rng.random() < 0.06 else text for text in (old, new))
        observed.ask(planner, Asked(p, kept, old, new, any_list(rng, p, old, new)))


def of_no_loads(rng, observed):
    """Changeovers with no loads, with a book and without, and with a limit broken."""
    for p in with_lines([]), with_lines(['book,8,8', 'budget,500']), *(changed(with_lines([]), [change]) for change in BROKEN):
        planner, kept = Planner(observed.library, content_with(p)), keeps_limits(p)
        for old, new, places in product((b'', b'0', b'1', b'01', b'\xff', b'1' * MAX_LOADS), (b'', b'0', b'2', b'0' * MAX_LOADS), (0, 1, MAX_LOADS)):
            observed.ask(planner, Asked(p, kept, old, new, rng.randbytes(STEP_BYTES * places)))


def of_every_byte(rng, observed):
    """Sets with each byte that there is, at each place, on cabinets of one and of two words."""
    for count in 3, WORD_LOADS + 2:
        p = with_lines(['load,%d,1,1' % min(k, 1) for k in range(count)] + ['budget,%d' % MAX_BUDGET])
        planner, text = Planner(observed.library, content_with(p)), b'1' + b'0' * (count - 1)
        for at, byte in product((0, 1, count - 2, count - 1), range(256)):
            other = text[:at] + bytes([byte]) + text[at + 1:]
            for old, new in (text, other), (other, text), (other, other):
                observed.ask(planner, Asked(p, True, old, new, rng.randbytes(STEP_BYTES * 2)))


# ---- the changeovers by name


def edge_fault(observed, name):
    """None, or the first changeover of a session by name of which something else comes than stands there, by the library or by the model."""
    planner = Planner(observed.library).fresh()
    for edge in EDGES[name]:
        for line in edge.lines:
            planner.answer(line)
        p = changed(held(planner.state.content()), edge.changes)
        places, made = b'\xa5' * STEP_BYTES * edge.places, step_bytes(edge.steps)
        want = Done(edge.number, len(edge.steps), made + places[len(made):])
        asked = Asked(p, keeps_limits(p), edge.old, edge.new, places)
        got = observed.ask(Planner(observed.library, content_with(p)), asked)
        if got != want or observed.model.done(asked) != want:
            return '%s: from %r to %r: %r' % (name, edge.old, edge.new, got[:2])
    return None


# ---- all of it


def observed_of(rng, library, cases):
    """All that is asked of the library, and the faults of the changeovers by name."""
    observed = Observed(library)
    named = [edge_fault(observed, name) for name in EDGES]
    of_no_loads(rng, observed)
    of_every_byte(rng, observed)
    end = len(observed.cases) + cases
    while len(observed.cases) < end:
        of_cabinet(rng, observed)
    of_small_trees(rng, observed)
    return observed, [fault for fault in named if fault]


def main():
    options = argparse.ArgumentParser()
    options.add_argument('library')
    options.add_argument('--cases', type=int, default=20000)
    options.add_argument('--seed', type=int, default=1)
    args = options.parse_args()
    observed, faults = observed_of(random.Random(args.seed), Library(args.library), args.cases)
    faults += observed.faults
    untold = [wrong.__name__ for wrong in WRONG if all(wrong().done(asked) == got for asked, got in observed.cases)]
    untold += ['a replay of ' + wrong.__name__ for wrong in WRONG_STEPS if not replay_tells(wrong(), observed.cases)]
    for fault in faults[:5]:
        print('DIFFERS: %.600s' % fault)
    for name in untold:
        print('%s: not told apart' % name)
    numbers, steps = Counter(got.number for _, got in observed.cases), sum(got.count for _, got in observed.cases)
    print('%d changeovers with %d steps: %s' % (
        len(observed.cases), steps, ', '.join('%d times %d' % (numbers[number], number) for number in sorted(numbers))))
    print('%d sessions by name, with %d changeovers; %d wrong models, %d of them by a replay too, of which %d are not told apart' % (
        len(EDGES), sum(map(len, EDGES.values())), len(WRONG), len(WRONG_STEPS), len(untold)))
    failed = len(faults) + len(untold)
    print('%d passed, %d failed' % (len(observed.cases) + len(EDGES) + len(WRONG) + len(WRONG_STEPS) - failed, failed))
    return 1 if failed else 0


if __name__ == '__main__':
    sys.exit(main())
