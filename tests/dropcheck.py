#!/usr/bin/env python3
"""Loads that come and go: "a plan after a drop is the plan of a tree entered without that load" (request Three of paper 02).

  dropcheck.py PROGRAM [--sessions N] [--seed S]

In some sessions hundreds of loads come and go; in others the fullest tree is emptied leaf by leaf, in any order, and filled again. In most the
loads are of several kinds. After each drop both saves, a plan, checks and needs are asked for, and the last plan: none is current before the plan,
and then it is that. Another process is fed the tree without that load: the lines of the save before the drop, without the line of the load and with
the parents above it one less. It must take them all, and answer the same questions the same.
Sessions on small trees are given to the oracle too, and to oracles that are wrong on purpose (wrong_oracles.py), in the program's place. Each
wrong one must be told apart.
The last line is 'N passed, M failed'.
"""
import argparse
import random
import sys

from crosscheck import Kinds, book_lines, printed, with_kind
from edges import BELOW, EVERY_OTHER, TOGETHER
from limits import CELLS, MAX_DIGITS, MAX_KIND, MAX_LOADS
from oracle import Oracle
from texts import entered_without, grouped
from wrong_oracles import WRONG_DROPS, keeping

BOOKS = [book.split() for book in (BELOW, EVERY_OTHER, TOGETHER)]
KINDS = (0,), (0, 1), (0, 0, 0, 3), range(MAX_KIND + 1)  # those of the loads of a session
MOST_WAYS = 6  # states and stages of a book
STEPS = 400  # loads that enter or leave, in a session in which they come and go
SMALL, SMALL_STEPS, SMALL_SESSIONS = 6, 350, 6  # the most loads, the steps and the sessions that an oracle is given
WRONG = [*WRONG_DROPS, keeping('drop'), keeping('load')]


class Question:
    """What is asked after a drop: the load, the place of the save before it among the lines of a session, and the lines that are asked."""

    def __init__(self, load, save, asked):
        self.load = load
        self.save = save
        self.asked = asked


class Session:
    """The lines of a session, those of their answers that are known beforehand, the loads as they stand, and what is asked after each drop."""

    def __init__(self, rng, book, most, kinds):
        self.rng = rng
        self.most = most  # loads
        self.kinds = kinds
        self.reach = rng.choice((2, 9, MAX_LOADS))  # how far before a load its parent may be
        self.most_worth = rng.choice((1, 9))  # of a load; where it is 1, many sets are equal in worth
        self.lines = []
        self.known = {}  # by the place of the line
        self.loads = []  # the lines that enter them
        self.questions = []
        for line in ['clear', *book]:
            self.say(line)

    def say(self, line, answer=None):
        if answer is not None:
            self.known[len(self.lines)] = [answer]
        self.lines.append(line)

    def parents(self):
        """The number of each load's parent."""
        return [int(line.split(',')[1]) for line in self.loads]

    # ---- a load enters

    def enter(self):
        """A load enters, or is one too many."""
        count = len(self.loads)
        parent = self.rng.randint(max(1, count - self.reach), count) if count else 0
        line = 'load,%d,%d,%d' % (parent, self.rng.choice((0, 1, 1, 2, 3, 5)), self.rng.randint(0, self.most_worth))
        line = with_kind(self.rng, line, self.rng.choice(self.kinds))
        if count < self.most:
            self.loads.append(line)
            self.say(line, 'ok')
        elif count == MAX_LOADS:
            self.say(line, 'no,6')

    # ---- a load leaves

    def set_from_the_top(self):
        """A set in which no load is on below one that is off, as bits."""
        on = [True]  # as if load 0 were on
        for parent in self.parents():
            on.append(on[parent] and self.rng.random() < 0.7)
        return ''.join('01'[mark] for mark in on[1:])

    def checks(self):
        """Checks of sets of the loads as they stand, and one with a bit too many."""
        count = len(self.loads)
        sets = ['0' * count, self.set_from_the_top(), ''.join(self.rng.choices('01', k=count)), '0' * (count + 1)]
        return ['check,' + bits for bits in sets if bits]

    def needs(self):
        """Needs of worths that a few of the loads may have."""
        return ['need,%d' % self.rng.randint(0, most * self.most_worth) for most in (0, 2, 5)]

    def budget(self):
        """A budget for which the cells of the line program are enough."""
        most = CELLS // (MOST_WAYS * max(1, len(self.loads))) - 1
        return 'budget,%d' % self.rng.randint(0, min(40, most))

    def leave(self):
        """A load without children leaves, after a plan and a save, and is asked about."""
        load = self.rng.choice(sorted({*range(1, len(self.loads) + 1)} - {*self.parents()}))
        self.say(self.budget(), 'ok')
        self.say('plan')
        self.say('save')
        self.say('drop,' + str(load).zfill(self.rng.choice((1, 1, MAX_DIGITS))), 'ok')
        self.loads = entered_without(self.loads, load)
        question = Question(load, len(self.lines) - 2, ['save', 'save1', 'last', 'plan', *self.needs(), 'last', *self.checks()])
        self.questions.append(question)
        for line in question.asked:
            self.say(line)

    def refused(self):
        """Drops that are refused, and change nothing, the last plan neither."""
        for number in (0, len(self.loads) + 1):
            self.say('drop,%d' % number, 'no,5')
        if len(self.loads) > 1:
            self.say('drop,%d' % self.rng.choice(self.parents()[1:]), 'no,11')
        self.say('last')

    # ---- all of them

    def fill(self):
        while len(self.loads) < self.most:
            self.enter()
        self.enter()

    def empty(self):
        while self.loads:
            self.leave()
        self.say('drop,1', 'no,5')
        self.say('plan', 'no,4')
        self.say('last')


# ---- the two sorts of sessions


def come_and_go(session, steps):
    """Loads enter and leave. In some stretches more enter, in others more leave."""
    for step in range(steps):
        entering = 0.8 if step // 50 % 2 == 0 else 0.3
        if not session.loads or session.rng.random() < entering:
            session.enter()
        else:
            session.leave()
        if session.rng.random() < 0.1:
            session.refused()


def emptied(session, turns):
    """The tree is filled, and emptied leaf by leaf."""
    for _ in range(turns):
        session.fill()
        session.refused()
        session.empty()


def for_kinds(book, kinds):
    """The lines of a book, each load rule for each of the kinds."""
    lines = [['%s,%d' % (line, kind) for kind in sorted(set(kinds))] if line.startswith('rule,') else [line] for line in book]
    return [line for part in lines for line in part]


def any_book(rng, kinds):
    return for_kinds(rng.choice(BOOKS), kinds) if rng.random() < 0.8 else book_lines(rng, Kinds(kinds, kinds))


def any_session(rng):
    kinds = rng.choice(KINDS)
    return Session(rng, any_book(rng, kinds), MAX_LOADS, kinds)


def sessions(rng, count):
    """So many sessions of each sort."""
    made = []
    for _ in range(count):
        going, full = any_session(rng), any_session(rng)
        come_and_go(going, STEPS)
        emptied(full, 2)
        made += [going, full]
    return made


def small_sessions(rng):
    drawn = [(BOOKS[number % len(BOOKS)], KINDS[number % len(KINDS)]) for number in range(SMALL_SESSIONS)]
    made = [Session(rng, for_kinds(book, kinds), SMALL, kinds) for book, kinds in drawn]
    for session in made:
        come_and_go(session, SMALL_STEPS)
        emptied(session, 1)
    return made


# ---- what another planner is fed, and what is compared


def unlike(session, answers, ask):
    """The first drop after which another answer is given than without that load, if any."""
    fed = [entered_without(answers[question.save], question.load) for question in session.questions]
    found = list(ask([line for lines, question in zip(fed, session.questions) for line in lines + question.asked]))
    for lines, question in zip(fed, session.questions):
        first, end = question.save + 2, len(lines) + len(question.asked)
        after = answers[first:first + len(question.asked)]
        if found[:end] != [['ok']] * len(lines) + after:
            return 'after the drop of load %d: %s, and without that load %s' % (question.load, after, found[len(lines):end])
        found = found[end:]
    return None


def latest_after(line, answer, latest):
    """What `last` is to be answered after a line: the answer of a plan that was asked for since the last change, or that none was."""
    if answer == ['ok']:
        return ['no,12']
    return answer if line == 'plan' and answer not in (['no,4'], ['no,8']) else latest


def fault(session, ask):
    """What is wrong with the answers to a session, or None. No answer is taken after a wrong one."""
    answers, latest = [], ['no,12']
    for place, answer in enumerate(ask(session.lines)):
        line = session.lines[place]
        if answer != session.known.get(place, latest if line == 'last' else answer):
            return '%s is answered %s' % (line, answer)
        latest = latest_after(line, answer, latest)
        answers.append(answer)
    if len(answers) != len(session.lines):
        return '%d answers to %d lines' % (len(answers), len(session.lines))
    return unlike(session, answers, ask)


def faults(made, ask):
    found = [fault(session, ask) for session in made]
    return [what for what in found if what]


# ---- who is asked


def of_program(program):
    """What the program answers to lines that a new process is given."""
    return lambda lines: grouped(printed(program, [line.encode() for line in lines]))


def of_oracle(oracle):
    """What a fresh oracle answers, line by line."""
    return lambda lines: map(oracle().answer, [line.encode() for line in lines])


def print_counts(made, ask):
    firsts = [answer[0] for session in made for answer in ask(session.lines)]
    print('%d drops compared in %d sessions of %d lines, with %d plans shown, %d refusals 9, %d sets allowed, %d not' % (
        sum(len(session.questions) for session in made), len(made), len(firsts), sum(first.startswith('plan') for first in firsts),
        firsts.count('no,9'), firsts.count('yes'), firsts.count('no,10')))


def main():
    options = argparse.ArgumentParser()
    options.add_argument('program')
    options.add_argument('--sessions', type=int, default=10)
    options.add_argument('--seed', type=int, default=1)
    args = options.parse_args()
    rng = random.Random(args.seed)
    made, small = sessions(rng, args.sessions), small_sessions(rng)
    wrong = faults(made + small, of_program(args.program)) + faults(small, of_oracle(Oracle))
    for what in wrong[:3]:
        print('DIFFERS: ' + what)
    print_counts(made + small, of_program(args.program))
    untold = [oracle for oracle in WRONG if not faults(small, of_oracle(oracle))]
    for oracle in untold:
        print('%s: not told apart' % oracle.__name__)
    failed = len(wrong) + len(untold)
    print('%d passed, %d failed' % (len(made) + 2 * len(small) + len(WRONG) - failed, failed))
    return 1 if failed else 0


if __name__ == '__main__':
    sys.exit(main())
