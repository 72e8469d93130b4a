"""Planning by portions, request Eleven of paper 02, sentence by sentence: what a portion reports, and what it leaves of output, work and planner. It
shares no code with the product, and with the header of the product only the limits. What the cells are to hold the oracle says, by plain
enumeration, and fronts.py on large trees.
"""
import copy
import re
from array import array
from collections import namedtuple

from limits import MAX_PORTION, RUN_BYTES

# What is asked of a portion: an oracle with the planner's tables, its outcome and its count of filled cells, or None where the planner handed in
# breaks a limit; n; and output, place and work, both given as bytes.
Asked = namedtuple('Asked', 'tables most output place work')
# What a portion reports and leaves: as Asked has them, with the count of cells filled and that of bytes written.
Done = namedtuple('Done', 'number filled count output work tables')
CELL_BYTES = 4
ENTRY = re.compile('([0-9]+),([01]),([0-9]+),([0-9]+),([0-9]+)')
VALUES = {}  # what the cells of tables are to hold, by these


def cells_in(work, first, count):
    """So many cells of a work, from one on, as bytes."""
    return work[CELL_BYTES * first:CELL_BYTES * (first + count)]


def cell_bytes(values):
    return array('I', values).tobytes()


def right_values(tables):
    """What each cell is to hold, as bytes."""
    book = tables.states, tables.stages, frozenset(tables.starts), frozenset(tables.ends), tuple(tables.rules), tuple(tables.rows)
    key = book, tuple(tables.loads), tables.budget
    if key not in VALUES:
        VALUES[key] = cell_bytes(tables.cell_values())
    return VALUES[key]


def holds(asked):
    """Do the filled cells hold what they are to hold? "Provided the planner goes unaltered from call to call since fresh and each portion .. gets the
    work as the last such left it" they do."""
    filled = asked.tables.filled
    return cells_in(asked.work, 0, filled) == cells_in(right_values(asked.tables), 0, filled)


def with_filled(tables, filled):
    """The oracle with so many cells filled: "No such call changes a table", nor what `last` shows."""
    after = copy.copy(tables)
    after.filled = filled
    return after


def is_answer(tables, lines):
    """Has an answer that is left free the form of a plan's? It is refusal 9, or there is a line for each load, with figures of the book, after the
    worth, the power and the number of the loads that are on."""
    entries = [tuple(map(int, found.groups())) for found in map(ENTRY.fullmatch, lines[1:]) if found]
    ranges = [(1, tables.states), (1, len(tables.rules))]
    for k, entry in enumerate(entries, 1):
        rows = (0, 0) if k == 1 else (1, len(tables.rows))
        if entry[0] != k or not all(low <= figure <= high for figure, (low, high) in zip(entry[2:], [*ranges, rows])):
            return False
    shown = copy.copy(tables)
    shown.outcome = {entry[0]: entry[1:] for entry in entries}
    return lines == ['no,9'] or len(entries) == len(tables.loads) and shown.shown() == lines


def lines_written(done, place):
    """The lines of the answer that was written, with what stands after the last line feed as another."""
    return done.output[place:place + done.count].decode('latin-1').split('\n')


class Portions:
    """What a portion does. wrong_portions.py gets each of these wrong on purpose."""

    # ---- "n from 1 to 16,384 (else 5)", "It meets refusals 1, 4 and 8 where `plan` does; these and 5 report 0, and before the answer no output is
    # written. .. a refusal before the answer changes none."

    def has_room(self, asked):
        return asked.place <= len(asked.output) and len(asked.output) - asked.place >= RUN_BYTES

    def in_range(self, most):
        return 1 <= most <= MAX_PORTION

    def has_cells(self, asked):
        return len(asked.work) // CELL_BYTES >= asked.tables.cells()

    def refusal(self, asked):
        """The lowest number that applies, 0 for none, but for 9, which is an answer."""
        if asked.tables is None or not self.has_room(asked):
            return 1
        if not asked.tables.loads:
            return 4
        if not self.in_range(asked.most):
            return 5
        return 0 if self.has_cells(asked) else 8

    def refused(self, asked, number):
        return Done(number, 0, 0, asked.output, asked.work, asked.tables)

    # ---- "and reports how many it filled: the lesser of n and the cells still open"; "A call changes no cell but those it fills"

    def open(self, tables):
        return tables.cells() - tables.filled

    def count(self, asked):
        return min(asked.most, self.open(asked.tables))

    def values(self, tables):
        return right_values(tables)

    def filling(self, asked, seen):
        """Cells that are left free hold what was seen there."""
        first, count = asked.tables.filled, self.count(asked)
        cells = cells_in(self.values(asked.tables) if holds(asked) else seen.work, first, count)
        work = asked.work[:CELL_BYTES * first] + cells + asked.work[CELL_BYTES * (first + count):]
        return Done(0, count, 0, asked.output, work, with_filled(asked.tables, first + count))

    # ---- "the next such after the last cell gives exactly `plan`'s answer"; "the answer leaves the work as `plan` does"; "Only an accepted change
    # and the answer, which `last` doesn't show, start the filling over."

    def answer(self, tables):
        return copy.copy(tables).answer(b'plan', tables.cells())

    def answering(self, asked, seen):
        """An answer that is left free is the one that was seen, if it has the form."""
        lines = self.answer(asked.tables)
        if not holds(asked):
            *found, rest = lines_written(seen, asked.place)
            lines = found if is_answer(asked.tables, found) and not rest else lines
        return self.answered(asked, lines)

    def answered(self, asked, lines):
        text, zeros = ''.join(line + '\n' for line in lines).encode(), CELL_BYTES * asked.tables.cells()
        output = asked.output[:asked.place] + text + asked.output[asked.place + len(text):]
        number = 9 if lines == ['no,9'] else 0
        return Done(number, 0, len(text), output, bytes(zeros) + asked.work[zeros:], with_filled(asked.tables, 0))

    # ---- all of it

    def done(self, asked, seen=None):
        """What a portion reports and leaves. Where the cells or the answer are left free, `seen` is what it did."""
        number = self.refusal(asked)
        if number:
            return self.refused(asked, number)
        return self.filling(asked, seen) if self.open(asked.tables) > 0 else self.answering(asked, seen)

    def after_line(self, before, line, answer):
        """How many cells are filled after a line, given the oracle before it and the lines of its answer."""
        return 0 if answer == ['ok'] else before.filled
