"""The handheld page, request Six of paper 02 with the six digits of request Ten, sentence by sentence: pages, drawings and stretches. It shares no
code with the product, and with the header of the product only the limits.
"""
from collections import namedtuple

from limits import NO_SET, NOTHING, PAGE_BYTES, PAGE_ROWS, ROW_BYTES

# What a drawing is asked for: a planner (of script.py), whether it keeps its limits, the load to begin with, and the page as it is before. Where
# a change has made the plan old, `stale` is the planner as if it had not.
Asked = namedtuple('Asked', 'p kept load page stale', defaults=[None])


def cut(page, row):
    """A row of a page, the topmost being row 0."""
    return page[ROW_BYTES * row:ROW_BYTES * (row + 1)]


class Pages:
    """What is drawn, and what of it goes to the glass. wrong_pages.py gets each of these wrong on purpose."""
    worth_digits = 6  # "the page's worth six digits" (request Ten)

    # ---- "A page is 8 rows of 20 ASCII bytes."

    def digits(self, number, count):
        """"Digits are filled with zeros in front". Of a number that has more, the last ones are shown."""
        return str(number).zfill(count)[-count:]

    def filled(self, text):
        """".., rows with blanks"."""
        return text.ljust(ROW_BYTES).encode()

    def is_on(self, p, k):
        return p.set >> (k - 1) & 1 == 1

    def worth_and_power(self, p):
        """Those of the loads that are on."""
        on = [load for k, load in enumerate(p.loads[:p.load_count], 1) if self.is_on(p, k)]
        return sum(load[2] for load in on), sum(load[1] for load in on)

    def first_row(self, p):
        """"Row one is `worth `, [six] digits, a blank, three digits of power and `W`, or `no plan` after refusal 9"."""
        if p.status == NO_SET:
            return 'no plan'
        worth, power = self.worth_and_power(p)
        return 'worth ' + self.digits(worth, self.worth_digits) + ' ' + self.digits(power, 3) + 'W'

    def own_power(self, p, k):
        """"the load's own power, on or off"."""
        return p.loads[k - 1][1]

    def mark(self, on):
        return 'on ' if on else 'off'

    def load_row(self, p, k):
        """"the number in three digits, a blank, `on ` or `off`, a blank, the load's own power, on or off, in three digits and `W`"."""
        return self.digits(k, 3) + ' ' + self.mark(self.is_on(p, k)) + ' ' + self.digits(self.own_power(p, k), 3) + 'W'

    def row_of(self, p, k):
        """"missing loads, and all loads after refusal 9, are blank rows"."""
        return '' if k > p.load_count or p.status == NO_SET else self.load_row(p, k)

    def loads_shown(self, p, k):
        """"Rows two to eight show loads k to k+6"."""
        return range(k, k + 7)

    def page(self, p, k):
        rows = [self.first_row(p), *(self.row_of(p, number) for number in self.loads_shown(p, k))]
        return b''.join(map(self.filled, rows))

    # ---- "The load k asked for must exist (5), and the plan must be current (12)." "13, a page to draw on not of 160 bytes, tested first."

    def causes(self, asked):
        """What refuses a drawing, each with its number, in the order of the tests. A planner that breaks a limit is 1."""
        p = asked.p
        return (13, len(asked.page) != PAGE_BYTES), (1, not asked.kept), (5, not 1 <= asked.load <= p.load_count), (12, p.status == NOTHING)

    def number(self, asked):
        return next((number for number, applies in self.causes(asked) if applies), 0)

    def untouched(self, asked):
        """"A refused drawing leaves its page untouched"."""
        return asked.page

    def drawn(self, asked):
        """The number of a drawing, and the page after it."""
        number = self.number(asked)
        return number, self.untouched(asked) if number else self.page(asked.p, asked.load)

    # ---- the second call: "the stretch of the drawn page from the first differing row to the last, empty if none differs"

    def are_pages(self, glass, drawn):
        """"if either page isn't 160 bytes its stretch is empty"."""
        return len(glass) == len(drawn) == PAGE_BYTES

    def differing(self, glass, drawn):
        """The rows that differ, the topmost being row 0."""
        return [row for row in range(PAGE_ROWS) if cut(glass, row) != cut(drawn, row)]

    def rows_of(self, glass, drawn):
        """The first row of the stretch and the one after the last, or None where it is empty."""
        rows = self.differing(glass, drawn) if self.are_pages(glass, drawn) else []
        return (rows[0], rows[-1] + 1) if rows else None

    def stretch(self, glass, drawn):
        """The place of its first byte in the drawn page, the count of its bytes, and the row at which it begins, row one being 1."""
        rows = self.rows_of(glass, drawn)
        return (ROW_BYTES * rows[0], ROW_BYTES * (rows[1] - rows[0]), rows[0] + 1) if rows else (0, 0, 0)

    def sent(self, glass, drawn):
        """Its bytes, "of the drawn page"."""
        start, count, _ = self.stretch(glass, drawn)
        return drawn[start:start + count]


def put(glass, row, stretch):
    """The glass with a stretch on it, from a row on; as it is where that is row 0."""
    start = ROW_BYTES * (row - 1)
    return glass[:start] + stretch + glass[start + len(stretch):] if row else glass
