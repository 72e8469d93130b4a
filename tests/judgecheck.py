#!/usr/bin/env python3
"""The judge, through the library as firmware links it, against plain enumeration (oracle.py), on random small trees.

  judgecheck.py LIBRARY.so [--cases N] [--seed S]

Each case is a book and a tree, built line by line, half of them with several kinds, and proposed runs of every sort: runs, what would be runs
but for one rule of the paper, that of kinds among them, runs with one number changed, numbers that name nothing, numbers of another width, and
too few or too many of them. Numbers are a run exactly if the enumeration has them, whatever outcome the planner stores: none, that of its plan,
or any other in range; and however many cells are filled. One with an outcome out of range, or with more filled than it has cells, is refusal 1.
Then the same numbers are given to oracles that are wrong on purpose, and each must be told apart from the judge.
The last line is 'N passed, M failed'.
"""
import argparse
import random
import sys

from crosscheck import MIXED, any_book, any_kinds, few_runs, tree_lines
from library import Library, Planner, content_with, held
from limits import MAX_RULES, MAX_STATES, NOT_A_RUN, NOTHING
from oracle import Oracle
from outcomes import with_any_count, with_any_outcome
from script import OutcomeLimits, TableLimits, keeps_limits
from wrong_oracles import HigherServed, KindsIgnored, LeafAlwaysEnds, NoneServedByAll, NoneServesAll, RootOfAnyKind, StageRestarts


class Judge(Oracle):
    """The oracle, asked for its runs and for the planners that it does not turn away."""

    def keeps(self, p):
        return keeps_limits(p)


class AnyRoot(Judge):
    """The root may have any state."""

    def tree_runs(self):
        for q in range(1, self.states + 1):
            yield from self.branch_runs(1, q)


class LeafEnds(LeafAlwaysEnds, Judge):
    """The last stage reached need not be an end stage."""


class RowRestarts(StageRestarts, Judge):
    """A row starts its stage anew at each child."""


class BlindToKinds(KindsIgnored, Judge):
    """A load may have a load rule of any kind."""


class NoneForAll(NoneServesAll, Judge):
    """A load may have a load rule of kind 0, whatever its own."""


class AllForNone(NoneServedByAll, Judge):
    """A load of kind 0 may have a load rule of any kind."""


class LowerForHigher(HigherServed, Judge):
    """A load may have a load rule of a lower kind."""


class AnyKindOfRoot(RootOfAnyKind, Judge):
    """The root may have a load rule of any kind."""


class OutcomeNotTested(Judge):
    """An outcome out of range is not turned away."""

    def keeps(self, p):
        return keeps_limits(p.without_outcome())


class OutcomeTurnedAway(Judge):
    """A planner that stores an outcome is turned away."""

    def keeps(self, p):
        return super().keeps(p) and p.status == NOTHING


class CountNotTested(Judge):
    """A planner with more filled than it has cells is not turned away."""

    def keeps(self, p):
        return TableLimits().keep(p) and OutcomeLimits().keep(p)


class CountTurnedAway(Judge):
    """A planner of which cells are filled is turned away."""

    def keeps(self, p):
        return super().keeps(p) and p.filled == 0


WRONG = [
    AnyRoot, LeafEnds, RowRestarts, BlindToKinds, NoneForAll, AllForNone, LowerForHigher, AnyKindOfRoot, OutcomeNotTested, OutcomeTurnedAway,
    CountNotTested, CountTurnedAway,
]
PROPOSED = 12  # runs judged in each case


def flat(run):
    """Three numbers for each load in load order: state, load rule, row rule."""
    return tuple(number for k in sorted(run) for number in run[k][1:])


def verdict(oracle, runs, p, numbers):
    """What the paper says of the numbers, the planner handed in being this and the runs of the tree these."""
    if not oracle.keeps(p):
        return 1
    if not oracle.loads:
        return 4
    if len(numbers) != 3 * len(oracle.loads):
        return 5
    return 0 if tuple(numbers) in runs else NOT_A_RUN


def any_number(rng):
    return rng.choice((0, 1, 1, 2, 2, 3, 3, 4, 5, 6, 7, MAX_STATES + 1, MAX_RULES + 1, 255, 256, 257, 65537, 2**32 - 1))


def proposal(rng, oracle, runs):
    """Numbers that may be a run, made of numbers that are one or nearly so."""
    sort = rng.randrange(6)
    length = 3 * len(oracle.loads)
    if sort == 0 or not runs:
        return [rng.randint(0, 4) for _ in range(length)]
    numbers = list(rng.choice(runs))
    place = rng.randrange(length)
    if sort == 2:
        numbers[place] = any_number(rng)
    elif sort == 3:
        numbers[place] += rng.choice((256, 65536, 2**31))
    elif sort == 4:
        numbers = rng.choice((numbers[:place], numbers + [0], numbers + numbers, []))
    return numbers


def after(oracle, lines):
    """The oracle with the tables that the lines build."""
    for line in lines:
        oracle.answer(line)
    return oracle


def runs_of(oracle):
    return {flat(run) for _, _, run in oracle.tree_runs()} if oracle.loads else set()


def cabinet(rng):
    """The lines of a random cabinet with few runs. Now and then it has no loads."""
    while True:
        kinds = any_kinds(rng)
        lines = [b'clear'] + [line.encode() for line in any_book(rng, MIXED, kinds) + tree_lines(rng, MIXED, kinds)]
        if rng.random() < 0.02:
            lines = lines[:1]
        if few_runs(after(Oracle(), lines)):
            return lines


def left(planner, lines):
    """What a planner holds after lines."""
    for line in lines:
        planner.answer(line)
    return held(planner.state.content())


def judged_runs(rng, planner, lines):
    """Proposed runs of a cabinet, each with the planner handed in and the judge's answer. It has no outcome, that of its plan, or any, or any count
    of filled cells."""
    bare, planned = left(planner, lines), left(planner, [b'plan'])
    oracles = [after(judge(), lines) for judge in [Judge] + WRONG]
    near = sorted(set().union(*(runs_of(oracle) for oracle in oracles)))
    planners = [lambda: bare, lambda: planned, lambda: with_any_outcome(rng, bare), lambda: with_any_count(rng, planned)]
    asked = [(rng.choice(planners)(), proposal(rng, oracles[0], near)) for _ in range(PROPOSED)]
    return [(p, numbers, Planner(planner.library, content_with(p)).judge(numbers)) for p, numbers in asked]


def differences(oracle, judged):
    """The judged numbers of which an oracle says something else."""
    runs = runs_of(oracle)
    return [(numbers, answer) for p, numbers, answer in judged if verdict(oracle, runs, p, numbers) != answer]


def main():
    options = argparse.ArgumentParser()
    options.add_argument('library')
    options.add_argument('--cases', type=int, default=2000)
    options.add_argument('--seed', type=int, default=1)
    args = options.parse_args()
    rng, planner = random.Random(args.seed), Planner(Library(args.library))
    cases = []
    for _ in range(args.cases):
        lines = cabinet(rng)
        cases.append((lines, judged_runs(rng, planner, lines)))
    failed = 0
    for lines, judged in cases:
        wrong = differences(after(Judge(), lines), judged)
        failed += bool(wrong)
        for numbers, answer in wrong[:1]:
            print('DIFFERS: the judge says %d of %r after %r' % (answer, numbers, lines))
    answers = [answer for _, judged in cases for *_, answer in judged]
    counts = ', '.join('%d times %d' % (answers.count(a), a) for a in sorted(set(answers)))
    print('%d cabinets, %d proposed runs; answers: %s' % (len(cases), len(answers), counts))
    for judge in WRONG:
        told = sum(bool(differences(after(judge(), lines), judged)) for lines, judged in cases[:500])
        print('%s: told apart in %d of %d cabinets' % (judge.__name__, told, len(cases[:500])))
        failed += told == 0
    print('%d passed, %d failed' % (len(cases) + len(WRONG) - failed, failed))
    return 1 if failed else 0


if __name__ == '__main__':
    sys.exit(main())
