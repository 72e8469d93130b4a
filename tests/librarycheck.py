#!/usr/bin/env python3
"""Calls through the library as firmware links it: number, count, output, work and planner, against plain enumeration (oracle.py).

  librarycheck.py LIBRARY.so [--sessions N] [--seed S]

Each line of a random session is handed to the library with an output full of rubbish, of any length and with any place in it, and with a work
full of rubbish, of any length. In half of the sessions no change is turned away by that, so that the cabinet is built as it was meant. Compared
are the number, the count, every byte of the output, every cell of the work and every field of the planner. The lines of the save that each
session ends with, each with the free bytes that it needs, must make the planner that an earlier session left hold the same tables and no outcome.
Then the planner is handed in with any outcome in the place of its own, and now and then with any kind or any count of filled cells, in range or
not. Callers that are wrong on purpose are given the same lines, with the same output and work, and each must be told apart.
The sessions of edges.py, with what the line program lends, must have the answers that stand there, and planners that are wrong on purpose must
be told apart in one of them. The free bytes that lines need are given to the last byte, by name, on a cabinet of the most loads and on a fresh
planner. The last line is 'N passed, M failed'.
"""
import argparse
import copy
import random
import sys
from collections import Counter, namedtuple

import script
from crosscheck import NAMED, sessions
from edges import EDGES, LAST, ON_FIRST, marked
from fronts import Fronts
from library import Lent, Library, Planner, content_with, held
from limits import FREE_BYTES, LINE_BYTES, MAX_BUDGET, MAX_LOADS, MAX_NEED, NO_SET, NOTHING, PLANNED, PLANNER_BYTES, RUN_BYTES, SAVE_BYTES
from limits import WORD_LOADS
from oracle import Oracle, bytes_needed, parse
from outcomes import with_any_count, with_any_kind, with_any_outcome
from script import is_plan, number_of, searches, stored, zero_cells
from wrong_oracles import CellsOfLeast, FewCellsWipe, budget_in

HANDED_IN = 3  # outcomes that a session's planner is handed in with
FULLEST = 300  # and that of the fullest cabinet
SHOWING = b'plan', b'need', b'check', b'last', b'save', b'save1'  # the words that change no table


def rubbish(rng, count):
    """Bytes by chance, none of them 0."""
    return rng.randbytes(count).replace(b'\0', b'\1')


def lent(rng, line, cells):
    """An output, a place in it, and a work: mostly enough for the line, now and then too little."""
    needed = bytes_needed(line)
    room = rng.choice((needed, needed, needed, needed + 9, needed - 1, FREE_BYTES, RUN_BYTES, 0))
    place = rng.choice((0, 0, 1, 40))
    output = rubbish(rng, room + place)
    if rng.random() < 0.05:
        place = rng.choice((len(output) + 1, 2**64 - 1))
    return output, place, rubbish(rng, 4 * rng.choice((cells, cells, cells + 3, max(0, cells - 1))))


def enough(rng, line):
    """An output that is long enough for a change, a place in it, and no work."""
    return rubbish(rng, bytes_needed(line)), 0, b''


# ---- what the paper says of a call


def text_of(lines):
    """The bytes of an answer."""
    return ''.join(line + '\n' for line in lines).encode()


def written(output, place, text):
    """The output after a text was written from a place on."""
    return output[:place] + text + output[place + len(text):]


class Caller(Oracle):
    """The oracle, called with a line, an output, a place in it and a work."""

    def needed(self, line):
        """How many bytes must be free."""
        return bytes_needed(line)

    def turned_away(self, line):
        """A call that is turned away leaves everything as it was."""

    def zero_cells(self, line, number):
        """How many cells are 0 after a line with this number, before which the tables were these."""
        return zero_cells(line, number, self.cells())

    def call(self, line, output, place, work):
        """Number, count, output and work after the call."""
        if place > len(output) or len(output) - place < self.needed(line):
            self.turned_away(line)
            return 1, 0, output, work
        lines = self.answer(line, len(work) // 4)
        number, text = number_of(lines), text_of(lines)
        zeros = 4 * self.zero_cells(line, number)
        return number, len(text), written(output, place, text), bytes(zeros) + work[zeros:]


class LargeCaller(Fronts, Caller):
    """The caller with fronts in the place of enumeration, for large trees."""


# ---- callers that are wrong on purpose in what no line program can tell


def parse_word(line):
    """The word of a line that is in form, or None."""
    command = parse(line) if len(line) <= LINE_BYTES else None
    return command and command[0]


class FewCells(FewCellsWipe, Caller):
    """A plan with too few cells makes the last one old."""


class TurnedAwayWipes(Caller):
    """A call that is turned away makes the last plan old."""

    def turned_away(self, line):
        self.wipe()


class TurnedAwayStores(Caller):
    """A plan with too few free bytes is stored though it is turned away."""

    def turned_away(self, line):
        if is_plan(line) and self.loads:
            self.store(self.plan())


class LastFillsWork(Caller):
    """`last` leaves 0 in a plan's cells."""

    def zero_cells(self, line, number):
        return self.cells() if line == b'last' and number in (0, 9) else super().zero_cells(line, number)


class LastNeedsCells(Caller):
    """`last` with too few cells for a plan is refused as a plan is."""

    def refusal(self, command, cells):
        number = super().refusal(command, cells)
        return 8 if number == 0 and command == ('last', []) and cells < self.cells() else number


class LastNeedsRoomOfSave(Caller):
    """`last` needs as many free bytes as a save."""

    def needed(self, line):
        return SAVE_BYTES if line == b'last' else super().needed(line)


class NoPlanNeedsLittleRoom(Caller):
    """`last` with no current plan needs no more than the bytes of its answer."""

    def needed(self, line):
        return len('no,12\n') if line == b'last' and self.outcome == NOTHING else super().needed(line)


class NineNeedsLittleRoom(Caller):
    """`last` after refusal 9 needs no more than the bytes of its answer."""

    def needed(self, line):
        return len('no,9\n') if line == b'last' and self.outcome == NO_SET else super().needed(line)


class RunNeedsLittleRoom(Caller):
    """A command that shows a run needs as many free bytes as any other line, as before request Ten. Those below name it."""
    word = b''

    def needed(self, line):
        return FREE_BYTES if parse_word(line) == self.word else super().needed(line)


class PlanNeedsLittleRoom(RunNeedsLittleRoom):
    """1,024 bytes are enough for `plan`."""
    word = 'plan'


class LastNeedsLittleRoom(RunNeedsLittleRoom):
    """1,024 bytes are enough for `last`."""
    word = 'last'


class CheckNeedsLittleRoom(RunNeedsLittleRoom):
    """1,024 bytes are enough for `check`."""
    word = 'check'


class RefusedCheckNeedsLittleRoom(Caller):
    """1,024 bytes are enough for a check of another number of bits than there are loads."""

    def needed(self, line):
        is_refused = parse_word(line) == 'check' and not self.in_range(*parse(line))
        return FREE_BYTES if is_refused else super().needed(line)


class BrokenCheckNeedsRoom(Caller):
    """A line that only begins like a check needs as many free bytes as one."""

    def needed(self, line):
        return RUN_BYTES if line.startswith(b'check,') else super().needed(line)


class BrokenPlanNeedsRoom(Caller):
    """A line that only begins like `plan` or `last` needs as many free bytes as it does."""

    def needed(self, line):
        return RUN_BYTES if line.startswith((b'plan', b'last')) else super().needed(line)


class ChangeNeedsRoomOfRun(Caller):
    """Every line but a save needs as many free bytes as a plan."""

    def needed(self, line):
        return max(RUN_BYTES, super().needed(line))


class NeedNeedsRoomOfRun(Caller):
    """`need` needs as many free bytes as a plan."""

    def needed(self, line):
        return RUN_BYTES if is_need(line) else super().needed(line)


class RunNeedsRoomOfSave(Caller):
    """`plan`, `last` and `check` need as many free bytes as a save."""

    def needed(self, line):
        return SAVE_BYTES if super().needed(line) == RUN_BYTES else super().needed(line)


class ByteLess(Caller):
    """A line that needs more than others needs one byte less than it does."""

    def needed(self, line):
        needed = super().needed(line)
        return needed - 1 if needed > FREE_BYTES else needed


class SaveNeedsRoomAsBefore(Caller):
    """A save needs 3,000 free bytes, as before request Ten."""

    def needed(self, line):
        return 3000 if super().needed(line) == SAVE_BYTES else super().needed(line)


class SaveNeedsRoomOfRun(Caller):
    """A save needs as many free bytes as a plan."""

    def needed(self, line):
        return min(RUN_BYTES, super().needed(line))


class Save1NeedsLittleRoom(Caller):
    """`save1` needs as many free bytes as any other line."""

    def needed(self, line):
        return FREE_BYTES if line == b'save1' else super().needed(line)


class KindsNeedLittleRoom(Caller):
    """`save1` needs as many free bytes as a save only where it is not refused."""

    def needed(self, line):
        return FREE_BYTES if line == b'save1' and self.kinds_in_use() else super().needed(line)


class BrokenSave1NeedsRoom(Caller):
    """A line that only begins like `save1` needs as many free bytes as it does."""

    def needed(self, line):
        return SAVE_BYTES if line.startswith(b'save1') else super().needed(line)


class Save1FillsWork(Caller):
    """`save1` leaves 0 in a plan's cells."""

    def zero_cells(self, line, number):
        return self.cells() if line == b'save1' else super().zero_cells(line, number)


def is_need(line):
    return searches(line) and not is_plan(line)


class NeedNeedsRoomOfSave(Caller):
    """`need` needs as many free bytes as a save."""

    def needed(self, line):
        return SAVE_BYTES if is_need(line) else super().needed(line)


class NeedNeedsLittleRoom(Caller):
    """`need` needs no more than the bytes of its longest answer."""

    def needed(self, line):
        return len('need,%d\n' % MAX_BUDGET) if is_need(line) else super().needed(line)


class NeedKeepsWork(Caller):
    """`need` that shows a budget leaves the work as it was."""

    def zero_cells(self, line, number):
        return 0 if is_need(line) and number == 0 else super().zero_cells(line, number)


class PoorKeepsWork(Caller):
    """`need` that is refused since the plan is worth less leaves the work as it was."""

    def zero_cells(self, line, number):
        return 0 if number == 15 else super().zero_cells(line, number)


class NoneFitsNeedKeepsWork(Caller):
    """`need` that no allowed set fits leaves the work as it was."""

    def zero_cells(self, line, number):
        return 0 if is_need(line) and number == 9 else super().zero_cells(line, number)


class OutOfRangeZeroes(Caller):
    """`need` of a worth out of its range leaves 0 in a plan's cells, if there are as many."""

    def zero_cells(self, line, number):
        return self.cells() if is_need(line) and number == 5 else super().zero_cells(line, number)


class FewCellsZeroes(Caller):
    """`need` with too few cells leaves 0 in those that there are."""

    def zero_cells(self, line, number):
        return max(0, self.cells() - 1) if is_need(line) and number == 8 else super().zero_cells(line, number)


class CellsOfLeastZeroes(Caller):
    """`need` leaves 0 only in the cells of a plan at the budget that it shows."""

    def need(self, worth):
        answer = super().need(worth)
        self.shown_budget = budget_in(answer)
        return answer

    def zero_cells(self, line, number):
        each = len(self.loads) * (self.states + self.stages)
        return each * (self.shown_budget + 1) if is_need(line) and number == 0 else super().zero_cells(line, number)


class NeedWithFewerCells(CellsOfLeast, Caller):
    """`need` is refused only where there are too few cells for a plan at the budget that it shows."""


class TurnedAwayNeedWipes(Caller):
    """`need` with too few free bytes makes the last plan old."""

    def turned_away(self, line):
        if is_need(line):
            self.wipe()


WRONG = [
    FewCells, TurnedAwayWipes, TurnedAwayStores, LastFillsWork, LastNeedsCells, LastNeedsRoomOfSave, NoPlanNeedsLittleRoom, NineNeedsLittleRoom,
    Save1NeedsLittleRoom, KindsNeedLittleRoom, BrokenSave1NeedsRoom, Save1FillsWork, NeedNeedsRoomOfSave, NeedNeedsLittleRoom,
    NeedKeepsWork, PoorKeepsWork, NoneFitsNeedKeepsWork, OutOfRangeZeroes, FewCellsZeroes, CellsOfLeastZeroes,
    NeedWithFewerCells, TurnedAwayNeedWipes, PlanNeedsLittleRoom, LastNeedsLittleRoom, CheckNeedsLittleRoom, RefusedCheckNeedsLittleRoom,
    BrokenCheckNeedsRoom, BrokenPlanNeedsRoom, ChangeNeedsRoomOfRun, NeedNeedsRoomOfRun, RunNeedsRoomOfSave, ByteLess, SaveNeedsRoomAsBefore,
    SaveNeedsRoomOfRun,
]


# ---- the calls of a session, and what differs

Call = namedtuple('Call', 'line given got left')  # given: output, place and work; left: the planner


def calls_of(rng, planner, lines, caller=Caller):
    """The calls of a session. The tables as the paper has them say how many cells a plan needs. In half of the sessions a change is lent enough."""
    caller, made, built = caller(), [], rng.random() < 0.5
    for line in lines:
        is_change = line.split(b',')[0] not in SHOWING
        given = enough(rng, line) if built and is_change else lent(rng, line, caller.cells())
        caller.call(line, *given)
        made.append(Call(line, given, planner.call(line, *given), held(planner.state.content())))
    return made


def first_fault(caller, calls):
    """None, or the first of these calls that a caller would see answered otherwise, or after which it holds something else."""
    for line, given, got, left in calls:
        want = caller.call(line, *given)
        if got != want:
            output, place, work = given
            return '%r at %d in %d bytes with %d cells: %r for %r' % (line, place, len(output), len(work) // 4, got[:2], want[:2])
        if not left.same(stored(caller)):
            return '%r leaves another planner' % line
    return None


def rebuilds(planner, other):
    """Is each line of a planner's save accepted by another planner, and does that hold the same tables then, and no outcome?"""
    _, count, output, _ = planner.call(b'save', bytes(SAVE_BYTES), 0, b'')
    replies = [other.call(line, bytes(FREE_BYTES), 0, b'')[:2] for line in output[:count].splitlines()]
    return set(replies) == {(0, len('ok\n'))} and held(other.state.content()).same(held(planner.state.content()).without_outcome())


# ---- planners handed in with any outcome, with any kind and with any count of filled cells


def handed_in_fault(rng, library, p, lines):
    """None, or the first of the lines after which a planner handed in says or holds something else than the paper has, or the judge does."""
    room = script.Lent(SAVE_BYTES + rng.randrange(9), 0, rng.randrange(2))
    for line in lines:
        planner, output, reply = Planner(library, content_with(p)), rubbish(rng, room.size), script.reply(p, room, line)
        got, text = planner.call(line, output, room.place, b''), text_of(reply.lines)
        want = reply.number, len(text), written(output, room.place, text), b''
        if got != want or not held(planner.state.content()).same(reply.planner):
            return '%r on a planner handed in with %r: %r for %r' % (line, vars(p), got[:2], want[:2])
    judged = Planner(library, content_with(p)).judge([])
    return None if judged == int(script.verdict(p, [])) else 'the judge says %d' % judged


def outcome_faults(rng, library, p, lines, count, seen):
    """What is wrong with a planner handed in with so many outcomes by chance, and now and then with a kind or a count by chance. What `last` answers
    is counted, 1 where one of them is out of range."""
    faults = []
    for _ in range(count):
        q = with_any_outcome(rng, p)
        if rng.random() < 0.4:
            q = with_any_kind(rng, q)
        if rng.random() < 0.3:
            q = with_any_count(rng, q)
        seen[script.reply(q, script.ROOM, b'last').number] += 1
        faults.append(handed_in_fault(rng, library, q, lines))
    return faults


def fullest(library):
    """The fullest cabinet."""
    planner = Planner(library).fresh()
    for line in NAMED['the fullest cabinet'][0]:
        planner.answer(line)
    return held(planner.state.content())


# ---- the sessions by name


class PlaceKept(Planner):
    """A planner that is wrong on purpose: the place that a drop frees keeps what it held."""

    def call(self, line, output, place, work):
        before = held(self.state.content())
        reply = super().call(line, output, place, work)
        after = held(self.state.content())
        if line.startswith(b'drop,') and after.load_count < before.load_count:
            after.loads[after.load_count] = before.loads[after.load_count]
            self.state = Lent(content_with(after))
        return reply


class KindKept(Planner):
    """A planner that is wrong on purpose: the place that a drop frees keeps its kind."""

    def call(self, line, output, place, work):
        before = held(self.state.content())
        reply = super().call(line, output, place, work)
        after = held(self.state.content())
        if line.startswith(b'drop,') and after.load_count < before.load_count:
            after.loads[after.load_count] = (0, 0, 0, before.loads[after.load_count][3])
            self.state = Lent(content_with(after))
        return reply


class KindsKept(Planner):
    """A planner that is wrong on purpose: the places that a new book frees keep the kinds of their load rules."""

    def call(self, line, output, place, work):
        before = held(self.state.content())
        reply = super().call(line, output, place, work)
        after = held(self.state.content())
        if line.startswith(b'book,') and after.load_rule_count < before.load_rule_count:
            after.load_rules = [(0, 0, 0, rule[3]) for rule in before.load_rules]
            self.state = Lent(content_with(after))
        return reply


class RunKept(Planner):
    """A planner that is wrong on purpose: an outcome that is wiped leaves its run."""

    def call(self, line, output, place, work):
        before = held(self.state.content())
        reply = super().call(line, output, place, work)
        after = held(self.state.content())
        if (before.status, after.status) == (PLANNED, NOTHING):
            after.run = before.run
            self.state = Lent(content_with(after))
        return reply


WRONG_PLANNERS = [PlaceKept, KindKept, KindsKept, RunKept]


def edge_fault(planner, name):
    """None, or the first line of a session by name that is not answered as it stands there, or leaves another planner."""
    oracle = Fronts()
    for line, answer in zip(*EDGES[name]):
        got = planner.answer(line)
        oracle.answer(line)
        if got != answer:
            return '%r: %r for %r' % (line, got, answer)
        if not held(planner.state.content()).same(stored(oracle)):
            return '%r leaves another planner' % line
    return None


def edge_faults(kind, library):
    """What is wrong in each session by name, with a planner of this kind."""
    return (edge_fault(kind(library).fresh(), name) for name in EDGES)


# ---- free bytes, to the last one


# The lines of a cabinet of the most loads, each of which is on or off as it likes.
FREE_CABINET = [line.encode() for line in (*ON_FIRST.split(), 'load,0,1,1', *['load,1,1,1'] * (MAX_LOADS - 1), 'budget,9')]
BITS = marked((WORD_LOADS, WORD_LOADS + 1, LAST)).encode()
# Lines, each with the free bytes that it needs, on that cabinet and on a fresh planner.
ROOMS = {
    **dict.fromkeys((b'plan', b'last', b'check,' + BITS, b'check,0' + BITS, b'check,1', b'check,'.ljust(LINE_BYTES, b'1')), RUN_BYTES),
    **dict.fromkeys((b'save', b'save1'), SAVE_BYTES),
    **dict.fromkeys((b'', b'plan,', b'Plan', b'last,', b'check', b'check,', b'check,2', b'check,' + BITS[1:] + b'2', b'check,1,1'), FREE_BYTES),
    **dict.fromkeys((b'check,'.ljust(LINE_BYTES + 1, b'1'), b'plan'.ljust(LINE_BYTES, b'n'), b'save'.ljust(LINE_BYTES + 1, b'e')), FREE_BYTES),
    **dict.fromkeys((b'need,0', b'need,%d' % (MAX_NEED + 1), b'need,', b'save,', b'save1,', b'save,1', b'saves'), FREE_BYTES),
    **dict.fromkeys((b'clear', b'budget,500', b'budget,501', b'load,1,1,1', b'load,0,1,1', b'drop,%d' % LAST, b'power,%d,0' % LAST), FREE_BYTES),
}


def room_fault(rng, library, tables, line, free):
    """None, or that a line on a planner with these tables is not answered as it is to be with so many free bytes."""
    planner, caller = Planner(library, content_with(stored(tables))), copy.deepcopy(tables)
    given = rubbish(rng, free + 9), 9, rubbish(rng, 4 * caller.cells())
    want, got = caller.call(line, *given), planner.call(line, *given)
    if got == want and (got[0] == 1) == (free < ROOMS[line]) and held(planner.state.content()).same(stored(caller)):
        return None
    return '%r with %d free bytes: %r for %r' % (line, free, got[:2], want[:2])


def room_faults(rng, library):
    """What is wrong with each line with just the free bytes that it needs, with one less, and with those that other lines need."""
    fresh, full = LargeCaller(), LargeCaller()
    for line in FREE_CABINET:
        full.answer(line)
    rooms = FREE_BYTES - 1, FREE_BYTES, RUN_BYTES - 1, RUN_BYTES, SAVE_BYTES - 1, SAVE_BYTES
    return [room_fault(rng, library, tables, line, free) for tables in (fresh, full) for line in ROOMS for free in rooms]


# ---- all of it


class Checked:
    """What was found: a fault or None for each comparison, the wrong callers that no session told apart yet, and what `last` answered."""

    def __init__(self, rng, library):
        self.rng = rng
        self.library = library
        self.other = Planner(library).fresh()
        self.faults = []
        self.untold = set(WRONG)
        self.seen = Counter()

    def session(self, lines):
        planner = Planner(self.library, rubbish(self.rng, PLANNER_BYTES)).fresh()
        calls = calls_of(self.rng, planner, lines)
        self.faults.append(first_fault(Caller(), calls))
        self.untold = {caller for caller in self.untold if not first_fault(caller(), calls)}
        self.faults.append(None if rebuilds(planner, self.other) else 'the save after %r does not rebuild the planner' % lines)
        asked = (b'last', b'plan', b'save', b'save1', b'clear', b'budget,501', b'last,', b'check,1', b'need,0', b'need,%d' % (MAX_NEED + 1))
        self.faults += outcome_faults(self.rng, self.library, calls[-1].left, asked, HANDED_IN, self.seen)

    def named(self):
        self.faults += [*edge_faults(Planner, self.library), *room_faults(self.rng, self.library)]
        asked = (b'last', b'save', b'save1', b'drop,%d' % MAX_LOADS, b'need,0')
        self.faults += outcome_faults(self.rng, self.library, fullest(self.library), asked, FULLEST, self.seen)
        untold = sorted(caller.__name__ for caller in self.untold)
        untold += [kind.__name__ for kind in WRONG_PLANNERS if not any(edge_faults(kind, self.library))]
        told = len(WRONG) + len(WRONG_PLANNERS) - len(untold)
        self.faults += [name + ': not told apart' for name in untold] + [None] * told


def main():
    options = argparse.ArgumentParser()
    options.add_argument('library')
    options.add_argument('--sessions', type=int, default=1000)
    options.add_argument('--seed', type=int, default=1)
    args = options.parse_args()
    rng = random.Random(args.seed)
    checked, cases = Checked(rng, Library(args.library)), [lines for lines, _ in sessions(rng, args.sessions)]
    for lines in cases:
        checked.session(lines)
    checked.named()
    for fault in [f for f in checked.faults if f][:5]:
        print('DIFFERS: ' + fault)
    failed = sum(fault is not None for fault in checked.faults)
    print('%d calls in %d sessions, and %d sessions by name' % (sum(map(len, cases)), len(cases), len(EDGES)))
    print('%d outcomes, kinds and counts handed in; last: %s' % (
        sum(checked.seen.values()), ', '.join('%d times %d' % (checked.seen[number], number) for number in sorted(checked.seen))))
    print('%d passed, %d failed' % (len(checked.faults) - failed, failed))
    return 1 if failed else 0


if __name__ == '__main__':
    sys.exit(main())
