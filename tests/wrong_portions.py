"""Portions (portions.py) that are wrong on purpose, each in one place. A check that cannot tell them from the product's would show nothing."""
import copy
from array import array

from limits import FREE_BYTES, MAX_PORTION, NO_SET, NOTHING, RUN_BYTES, SAVE_BYTES
from oracle import Oracle, parse
from portions import CELL_BYTES, Portions, cell_bytes, with_filled
from script import number_of
from wrong_oracles import KindsIgnored, LeafAlwaysEnds

# ---- refusals


class AnyRoom(Portions):
    """Free bytes are tested only where there is an answer to write."""

    def has_room(self, asked):
        return asked.tables is not None and self.open(asked.tables) > 0 or super().has_room(asked)


class RoomOfLine(Portions):
    """A portion needs as many free bytes as most lines."""

    def has_room(self, asked):
        return asked.place <= len(asked.output) and len(asked.output) - asked.place >= FREE_BYTES


class RoomOfSave(Portions):
    """A portion needs as many free bytes as a save."""

    def has_room(self, asked):
        return asked.place <= len(asked.output) and len(asked.output) - asked.place >= SAVE_BYTES


class RoomLess(Portions):
    """A byte less will do."""

    def has_room(self, asked):
        return asked.place <= len(asked.output) and len(asked.output) - asked.place >= RUN_BYTES - 1


class PlaceNotTested(Portions):
    """The place is not looked at before the answer."""

    def has_room(self, asked):
        filling = asked.tables is not None and self.open(asked.tables) > 0
        return len(asked.output) >= RUN_BYTES if filling else super().has_room(asked)


class RangeBeforeLoads(Portions):
    """5 is tested before 4."""

    def refusal(self, asked):
        number = super().refusal(asked)
        return 5 if number == 4 and not self.in_range(asked.most) else number


class RangeBeforeRoom(Portions):
    """5 is tested before the free bytes."""

    def refusal(self, asked):
        number = super().refusal(asked)
        return 5 if number == 1 and asked.tables is not None and asked.tables.loads and not self.in_range(asked.most) else number


class CellsBeforeRange(Portions):
    """8 is tested before 5."""

    def refusal(self, asked):
        number = super().refusal(asked)
        return 8 if number == 5 and not self.has_cells(asked) else number


class NoneTaken(Portions):
    """n may be 0: then no cell is filled."""

    def in_range(self, most):
        return most == 0 or super().in_range(most)


class OneMoreTaken(Portions):
    """n may be 16,385."""

    def in_range(self, most):
        return 1 <= most <= MAX_PORTION + 1


class LastNotTaken(Portions):
    """n is less than 16,384."""

    def in_range(self, most):
        return 1 <= most < MAX_PORTION


class AnyTaken(Portions):
    """A greater n is taken, and no more than 16,384 cells are filled."""

    def in_range(self, most):
        return most >= 1

    def count(self, asked):
        return min(MAX_PORTION, super().count(asked))


class LowWordTested(Portions):
    """Of n the last 32 binary digits are looked at."""

    def done(self, asked, seen=None):
        return super().done(asked._replace(most=asked.most % 2**32), seen)


class RangeNotTestedAtAnswer(Portions):
    """n is not tested where no cell is open."""

    def refusal(self, asked):
        number = super().refusal(asked)
        return 0 if number == 5 and self.open(asked.tables) == 0 and self.has_cells(asked) else number


class CellsNotTestedAtAnswer(Portions):
    """The cells are not counted where none is open."""

    def refusal(self, asked):
        number = super().refusal(asked)
        return 0 if number == 8 and self.open(asked.tables) == 0 else number


class CellsOfPortion(Portions):
    """No more cells are needed than are filled after the portion."""

    def has_cells(self, asked):
        return len(asked.work) // CELL_BYTES >= asked.tables.filled + self.count(asked)


class CellLessNeeded(Portions):
    """One cell less will do."""

    def has_cells(self, asked):
        return len(asked.work) // CELL_BYTES >= asked.tables.cells() - 1


class NoBookRefused(Portions):
    """Where there is no book, there is too little work."""

    def has_cells(self, asked):
        return asked.tables.states > 0 and super().has_cells(asked)


class RefusalWritten(Portions):
    """A refusal is written as that of a line is."""

    def refused(self, asked, number):
        text = b'no,%d\n' % number if number != 1 else b''
        output = asked.output[:asked.place] + text + asked.output[asked.place + len(text):]
        return super().refused(asked, number)._replace(count=len(text), output=output)


class RefusalReports(Portions):
    """A refusal reports the cells that are still open."""

    def refused(self, asked, number):
        done = super().refused(asked, number)
        return done._replace(filled=self.count(asked)) if asked.tables is not None else done


class RefusalCounts(Portions):
    """A refusal reports how many are filled."""

    def refused(self, asked, number):
        done = super().refused(asked, number)
        return done._replace(filled=asked.tables.filled) if asked.tables is not None else done


class RefusalClears(Portions):
    """A refusal leaves 0 in the plan's cells, as far as there are any."""

    def refused(self, asked, number):
        done = super().refused(asked, number)
        if number == 1 or asked.tables is None:
            return done
        zeros = min(len(asked.work), CELL_BYTES * asked.tables.cells())
        return done._replace(work=bytes(zeros) + asked.work[zeros:])


class StartedOverBy(Portions):
    """A refusal with a number starts the filling over. Those below name the number."""
    number = 0

    def refused(self, asked, number):
        done = super().refused(asked, number)
        return done._replace(tables=with_filled(asked.tables, 0)) if number == self.number and asked.tables is not None else done


class StartedOverByRoom(StartedOverBy):
    """A portion with too few free bytes starts the filling over."""
    number = 1


class StartedOverByRange(StartedOverBy):
    """A portion of 0 cells or of too many starts the filling over."""
    number = 5


class StartedOverByCells(StartedOverBy):
    """A portion with too few cells starts the filling over."""
    number = 8


# ---- filling


class CellMore(Portions):
    """One cell more than n is filled."""

    def count(self, asked):
        return min(asked.most + 1, self.open(asked.tables))


class CellLess(Portions):
    """One cell less than n is filled, but for n = 1."""

    def count(self, asked):
        return min(max(1, asked.most - 1), self.open(asked.tables))


class AllAtOnce(Portions):
    """Every cell that is open is filled."""

    def count(self, asked):
        return self.open(asked.tables)


class WholeRows(Portions):
    """No row of cells, one for each allowance, is left half filled."""

    def count(self, asked):
        each, first = asked.tables.budget + 1, asked.tables.filled
        end = (first + super().count(asked)) // each * each
        return end - first if end > first else min(each - first % each, self.open(asked.tables))


class ReportsN(Portions):
    """n is reported, though fewer cells were open."""

    def filling(self, asked, seen):
        return super().filling(asked, seen)._replace(filled=asked.most)


class ReportsAll(Portions):
    """Reported is how many cells are filled by now."""

    def filling(self, asked, seen):
        done = super().filling(asked, seen)
        return done._replace(filled=done.tables.filled)


class ReportsOpen(Portions):
    """Reported is how many cells are open then."""

    def filling(self, asked, seen):
        done = super().filling(asked, seen)
        return done._replace(filled=self.open(done.tables))


class CountAsBytes(Portions):
    """The count of filled cells is reported as that of bytes written."""

    def filling(self, asked, seen):
        done = super().filling(asked, seen)
        return done._replace(count=done.filled)


class CountNotKept(Portions):
    """The planner's count stays."""

    def filling(self, asked, seen):
        return super().filling(asked, seen)._replace(tables=asked.tables)


class CountOfLatest(Portions):
    """The planner's count is that of the latest portion."""

    def filling(self, asked, seen):
        done = super().filling(asked, seen)
        return done._replace(tables=with_filled(asked.tables, done.filled))


class CountOfN(Portions):
    """The planner's count grows by n."""

    def filling(self, asked, seen):
        done = super().filling(asked, seen)
        return done._replace(tables=with_filled(asked.tables, asked.tables.filled + asked.most))


class LastCellStartsOver(Portions):
    """With the last cell the planner's count is 0 again."""

    def filling(self, asked, seen):
        done = super().filling(asked, seen)
        return done if self.open(done.tables) else done._replace(tables=with_filled(asked.tables, 0))


class ClearsLater(Portions):
    """A portion leaves 0 in the cells that are still open."""

    def filling(self, asked, seen):
        done = super().filling(asked, seen)
        start, end = CELL_BYTES * done.tables.filled, CELL_BYTES * asked.tables.cells()
        return done._replace(work=done.work[:start] + bytes(end - start) + done.work[end:])


class ClearsEarlier(Portions):
    """A portion leaves 0 in the cells that were filled before."""

    def filling(self, asked, seen):
        done, end = super().filling(asked, seen), CELL_BYTES * asked.tables.filled
        return done._replace(work=bytes(end) + done.work[end:])


class ClearsAtFirst(ClearsLater):
    """The first portion leaves 0 in the cells that it does not fill."""

    def filling(self, asked, seen):
        return super().filling(asked, seen) if asked.tables.filled == 0 else Portions.filling(self, asked, seen)


class ClearsBeyond(Portions):
    """A portion leaves 0 in the cells that no plan needs."""

    def filling(self, asked, seen):
        done, end = super().filling(asked, seen), CELL_BYTES * asked.tables.cells()
        return done._replace(work=done.work[:end] + bytes(len(done.work) - end))


class WritesOk(Portions):
    """A portion before the answer writes `ok`."""

    def filling(self, asked, seen):
        output = asked.output[:asked.place] + b'ok\n' + asked.output[asked.place + 3:]
        return super().filling(asked, seen)._replace(count=3, output=output)


class FillingWipes(Portions):
    """A portion makes the last plan old."""

    def filling(self, asked, seen):
        done = super().filling(asked, seen)
        done.tables.outcome = NOTHING
        return done


class AnswerWithLastCells(Portions):
    """The portion that fills the last cells gives the answer."""

    def filling(self, asked, seen):
        done = super().filling(asked, seen)
        if self.open(done.tables):
            return done
        answered = self.answered(asked._replace(work=done.work, tables=done.tables), self.answer(asked.tables))
        return answered._replace(filled=done.filled)


# ---- the cells and their order


class OtherCells(Portions):
    """Cells in another order, or with other figures. `other` says which, given a place for each load, part and allowance."""

    def values(self, tables):
        values, parts, each = array('I', super().values(tables)), tables.states + tables.stages, tables.budget + 1
        loads = [values[at:at + parts * each] for at in range(0, len(values), parts * each)] if values else []
        return cell_bytes(self.other(tables, [[load[at:at + each] for at in range(0, len(load), each)] for load in loads]))

    def other(self, tables, loads):
        """The cells, given those of each load from the last on, and of each its states and stages."""
        raise NotImplementedError


def flat(loads):
    return [cell for load in loads for part in load for cell in part]


class LoadsUpward(OtherCells):
    """The loads stand from first to last."""

    def other(self, tables, loads):
        return flat(loads[::-1])


class StagesFirst(OtherCells):
    """The stages stand before the states."""

    def other(self, tables, loads):
        return flat(load[tables.states:] + load[:tables.states] for load in loads)


class StatesDownward(OtherCells):
    """The states stand from last to first."""

    def other(self, tables, loads):
        return flat(load[tables.states - 1::-1] + load[tables.states:] for load in loads)


class StagesDownward(OtherCells):
    """The stages stand from last to first."""

    def other(self, tables, loads):
        return flat(load[:tables.states] + load[:tables.states - 1:-1] for load in loads)


class AllowancesDownward(OtherCells):
    """The allowances stand from the budget down."""

    def other(self, tables, loads):
        return flat([part[::-1] for part in load] for load in loads)


class AllowancesFirst(OtherCells):
    """Of each load the allowances stand first: for each of them its states and stages."""

    def other(self, tables, loads):
        return flat([part[allowance:allowance + 1] for part in load] for load in loads for allowance in range(tables.budget + 1))


class PartsFirst(OtherCells):
    """The states and stages stand first: for each of them the loads."""

    def other(self, tables, loads):
        return flat([load[part]] for part in range(tables.states + tables.stages) for load in loads)


class StatesOfAllFirst(OtherCells):
    """The states of every load stand before the stages of any."""

    def other(self, tables, loads):
        return flat([load[:tables.states] for load in loads] + [load[tables.states:] for load in loads])


class WholeBudget(OtherCells):
    """Every cell of a part is that of the whole budget."""

    def other(self, tables, loads):
        return flat([[part[-1]] * len(part) for part in load] for load in loads)


class NoneForFirstRow(OtherCells):
    """No row begins with load 1."""

    def other(self, tables, loads):
        rows = [[0] * (tables.budget + 1)] * tables.stages
        return flat(loads[:-1] + [loads[-1][:tables.states] + rows] if loads else [])


class StartStatesAlone(OtherCells):
    """Load 1 has none in a state that is no start state."""

    def other(self, tables, loads):
        first = loads[-1] if loads else []
        kept = [part if at >= tables.states or at + 1 in tables.starts else [0] * len(part) for at, part in enumerate(first)]
        return flat(loads[:-1] + [kept])


class Figured(OtherCells):
    """Each cell holds another figure. Those below say which, given worth and power, or None for none."""

    def other(self, tables, loads):
        return [self.figure((cell - 1) // 512, (-cell) % 512) if cell else self.none for cell in flat(loads)]

    none = 0

    def figure(self, worth, power):
        return worth * 512 + 512 - power


class WithoutPower(Figured):
    """A cell has no power in it."""

    def figure(self, worth, power):
        return worth * 512 + 512


class PowerAdded(Figured):
    """The power is added."""

    def figure(self, worth, power):
        return worth * 512 + 512 + power


class TakenFromLimit(Figured):
    """511 stands in the place of 512."""

    def figure(self, worth, power):
        return worth * 512 + 511 - power


class TimesPowers(Figured):
    """The worth is taken times 501."""

    def figure(self, worth, power):
        return worth * 501 + 501 - power


class EmptySetIsNone(Figured):
    """A set of worth 0 that draws nothing is as none."""

    def figure(self, worth, power):
        return super().figure(worth, power) if worth or power else 0


class NoneAsEmptySet(Figured):
    """None is as the empty set."""
    none = 512


class NoneIsGreatest(Figured):
    """None has every binary digit."""
    none = 2**32 - 1


class OfOracle(Portions):
    """The cells are those of an oracle that is wrong. Those below name it."""
    oracle = Oracle

    def values(self, tables):
        other = copy.copy(tables)
        other.__class__ = self.oracle
        return cell_bytes(other.cell_values())


class WorthAlone(OfOracle):
    """The best is of greatest worth, whatever it draws: of equals the one that draws most."""

    class oracle(Oracle):
        def best(self, runs, allowance):
            worth, power = max(((v, w) for v, w, _ in runs if w <= allowance), default=(None, 0))
            return None if worth is None else (worth, -power)


class LeastPower(OfOracle):
    """The best draws least, whatever it is worth."""

    class oracle(Oracle):
        def best(self, runs, allowance):
            power, worth = max(((-w, v) for v, w, _ in runs if w <= allowance), default=(None, 0))
            return None if power is None else (worth, power)


class RowOfItself(OfOracle):
    """Every load is a row of itself."""

    class oracle(Oracle):
        def row_from(self, k):
            return [k]


class RowOfAll(OfOracle):
    """A row is of all the siblings of a load."""

    class oracle(Oracle):
        def row_from(self, k):
            return self.children(self.loads[k - 1][0]) if k > 1 else [1]


class RowOfLater(OfOracle):
    """A row is of all later loads, whatever their parents."""

    class oracle(Oracle):
        def row_from(self, k):
            return list(range(k, len(self.loads) + 1)) if k > 1 else [1]


class RowToLoad(OfOracle):
    """A row is of the siblings up to a load."""

    class oracle(Oracle):
        def row_from(self, k):
            return [j for j in range(1, k + 1) if self.loads[j - 1][0] == self.loads[k - 1][0]]


class BranchesEnd(OfOracle):
    """The last stage reached need not be an end stage."""

    class oracle(LeafAlwaysEnds):
        pass


class KindsNotLookedAt(OfOracle):
    """A rule serves loads of every kind."""

    class oracle(KindsIgnored):
        pass


class AllowanceLess(OfOracle):
    """What is drawn has to be less than the allowance, but for nothing."""

    class oracle(Oracle):
        def best(self, runs, allowance):
            return super().best(runs, max(0, allowance - 1))


# ---- the answer


class AnswerStored(Portions):
    """The answer is stored for `last`."""

    def answered(self, asked, lines):
        done, after = super().answered(asked, lines), copy.copy(asked.tables)
        after.answer(b'plan', after.cells())
        done.tables.outcome = after.outcome
        return done


class NineStored(Portions):
    """Refusal 9 as an answer is stored for `last`."""

    def answered(self, asked, lines):
        done = super().answered(asked, lines)
        if done.number == 9:
            done.tables.outcome = NO_SET
        return done


class AnswerWipes(Portions):
    """The answer makes the last plan old."""

    def answered(self, asked, lines):
        done = super().answered(asked, lines)
        done.tables.outcome = NOTHING
        return done


class AnswerShowsLast(Portions):
    """The answer is the last plan, if one is stored."""

    def answer(self, tables):
        return super().answer(tables) if tables.outcome == NOTHING else tables.shown()


class AnswerKeepsCells(Portions):
    """The answer leaves the cells as they are."""

    def answered(self, asked, lines):
        return super().answered(asked, lines)._replace(work=asked.work)


class NineKeepsCells(Portions):
    """Refusal 9 leaves the cells as they are."""

    def answered(self, asked, lines):
        done = super().answered(asked, lines)
        return done._replace(work=asked.work) if done.number == 9 else done


class AnswerClearsAll(Portions):
    """The answer leaves 0 in every cell that is lent."""

    def answered(self, asked, lines):
        return super().answered(asked, lines)._replace(work=bytes(len(asked.work)))


class AnswerKeepsLastCell(Portions):
    """The answer leaves the last of the cells as it is."""

    def answered(self, asked, lines):
        done, zeros = super().answered(asked, lines), CELL_BYTES * max(0, asked.tables.cells() - 1)
        return done._replace(work=bytes(zeros) + asked.work[zeros:])


class AnswerKeepsCount(Portions):
    """The answer leaves the count as it is: the next portion gives it again."""

    def answered(self, asked, lines):
        return super().answered(asked, lines)._replace(tables=asked.tables)


class NineKeepsCount(Portions):
    """Refusal 9 leaves the count as it is."""

    def answered(self, asked, lines):
        done = super().answered(asked, lines)
        return done._replace(tables=asked.tables) if done.number == 9 else done


class AnswerReports(Portions):
    """The answer reports the cells that are filled."""

    def answered(self, asked, lines):
        return super().answered(asked, lines)._replace(filled=asked.tables.filled)


class AnswerReportsN(Portions):
    """The answer reports n."""

    def answered(self, asked, lines):
        return super().answered(asked, lines)._replace(filled=asked.most)


class NineAccepted(Portions):
    """Refusal 9 is returned as 0."""

    def answered(self, asked, lines):
        return super().answered(asked, lines)._replace(number=0)


class NineUnwritten(Portions):
    """Refusal 9 writes nothing."""

    def answered(self, asked, lines):
        done = super().answered(asked, lines)
        return done._replace(count=0, output=asked.output) if done.number == 9 else done


class AnswerAtStart(Portions):
    """The answer is written from the start of the output on."""

    def answered(self, asked, lines):
        return super().answered(asked._replace(place=0), lines)


class NineFirst(Portions):
    """Where no allowed set fits, the first portion says so."""

    def filling(self, asked, seen):
        lines = self.answer(asked.tables)
        return self.answered(asked, lines) if lines == ['no,9'] else super().filling(asked, seen)


class AnswerByN(Portions):
    """The answer goes on with the next filling."""

    def answered(self, asked, lines):
        done = super().answered(asked, lines)
        return done._replace(tables=with_filled(asked.tables, min(asked.most, asked.tables.cells())))


# ---- lines between portions


class KeptOverChange(Portions):
    """An accepted change leaves the filling as it is, as far as there are cells."""

    def after_line(self, before, line, answer):
        return before.filled


class KeptOverEqual(Portions):
    """An accepted change that leaves every table equal leaves the filling as it is."""

    def after_line(self, before, line, answer):
        after = copy.deepcopy(before)
        if answer == ['ok']:
            after.act(*parse(line))
        return before.filled if after.save() == before.save() else super().after_line(before, line, answer)


class StartedOverByLine(Portions):
    """Every line starts the filling over."""

    def after_line(self, before, line, answer):
        return 0


class StartedOverByRefusal(Portions):
    """A refused line starts the filling over."""

    def after_line(self, before, line, answer):
        return 0 if number_of(answer) else super().after_line(before, line, answer)


def kept_over(word):
    """The portions whose filling an accepted change by a word leaves as it is."""
    def after_line(self, before, line, answer):
        return before.filled if line.startswith(word + b',') or line == word else Portions.after_line(self, before, line, answer)
    return type('KeptOver' + word.decode().title(), (Portions,), {'after_line': after_line})


def started_over_by(word):
    """The portions whose filling a command by a word starts over, if it is not refused."""
    def after_line(self, before, line, answer):
        shows = parse(line)[0] == word if number_of(answer) == 0 else False
        return 0 if shows else Portions.after_line(self, before, line, answer)
    return type('StartedOverBy' + word.title(), (Portions,), {'after_line': after_line})


def started_over_by_number(number):
    """The portions whose filling a line that is refused with a number starts over."""
    def after_line(self, before, line, answer):
        return 0 if number_of(answer) == number else Portions.after_line(self, before, line, answer)
    return type('StartedOverBy%d' % number, (Portions,), {'after_line': after_line})


CHANGES = b'clear', b'book', b'start', b'end', b'rule', b'row', b'load', b'power', b'worth', b'budget', b'drop'
SHOWING = 'plan', 'check', 'last', 'need', 'save', 'save1'
NUMBERS = 2, 3, 5, 7, 8, 9, 10, 11, 12, 14, 15
BASES = StartedOverBy, OtherCells, Figured, OfOracle


def below(kind):
    """The classes below one, and those below them."""
    return [found for one in kind.__subclasses__() for found in (one, *below(one))]


WRONG = [kind for kind in below(Portions) if kind not in BASES]
WRONG += [*map(kept_over, CHANGES), *map(started_over_by, SHOWING), *map(started_over_by_number, NUMBERS)]
