"""Pages, drawings and stretches (pages.py) that are wrong on purpose, each in one place. A check that cannot tell them from the product's would
show nothing."""
from itertools import permutations

from limits import NO_SET, NOTHING, PAGE_BYTES, PAGE_ROWS, ROW_BYTES, WORD_LOADS
from pages import Pages, cut
from script import FilledLimits, OutcomeLimits, TableLimits

# ---- rows


class OffDrawsNothing(Pages):
    """A load that is off is shown with a power of 0."""

    def own_power(self, p, k):
        return super().own_power(p, k) if self.is_on(p, k) else 0


class WorthForPower(Pages):
    """A load is shown with its worth."""

    def own_power(self, p, k):
        return p.loads[k - 1][2]


class BlanksInFront(Pages):
    """Digits are filled with blanks."""

    def digits(self, number, count):
        return str(number).rjust(count)[-count:]


class ZerosBehind(Pages):
    """Digits are filled with zeros behind them."""

    def digits(self, number, count):
        return str(number).ljust(count, '0')[:count]


class MoreDigits(Pages):
    """A number that has more digits is shown whole."""

    def digits(self, number, count):
        return str(number).zfill(count)


class AtMost999(Pages):
    """A number that has more digits is shown as the greatest that has not."""

    def digits(self, number, count):
        return super().digits(min(number, 10**count - 1), count)


class WorthInFiveDigits(Pages):
    """The worth has five digits, as before request Ten."""
    worth_digits = Pages.worth_digits - 1


class WorthInSevenDigits(Pages):
    """The worth has seven digits."""
    worth_digits = Pages.worth_digits + 1


class WorthCutToFive(Pages):
    """Of the worth the last five digits are shown, after a zero."""

    def first_row(self, p):
        row = super().first_row(p)
        return row if p.status == NO_SET else row[:len('worth ')] + '0' + row[len('worth ') + 1:]


class WorthInTwoBytes(Pages):
    """Of the worth the last 16 binary digits are shown."""

    def worth_and_power(self, p):
        worth, power = super().worth_and_power(p)
        return worth % 2**16, power


class NumberInTwoDigits(Pages):
    """The number of a load has two digits."""

    def load_row(self, p, k):
        return super().load_row(p, k)[1:]


class OnWithoutBlank(Pages):
    """`on` has no blank behind it but the one before the power."""

    def mark(self, on):
        return 'on' if on else 'off'


class OffForOn(Pages):
    """`on` and `off` have changed places."""

    def mark(self, on):
        return super().mark(not on)


class OnInFront(Pages):
    """The blank of `on ` stands before it."""

    def mark(self, on):
        return ' on' if on else 'off'


class SmallUnit(Pages):
    """The unit is a small letter."""

    def filled(self, text):
        return super().filled(text.replace('W', 'w'))


class BlankBeforeUnit(Pages):
    """A blank stands before the unit."""

    def filled(self, text):
        return super().filled(text.replace('W', ' W'))


class FilledWithZeros(Pages):
    """Rows are filled with bytes of 0."""

    def filled(self, text):
        return text.encode().ljust(ROW_BYTES, b'\0')


class RowsWithFeeds(Pages):
    """A row ends with a line feed."""

    def filled(self, text):
        return super().filled(text)[:-1] + b'\n'


class BudgetForPower(Pages):
    """Row one has the budget."""

    def worth_and_power(self, p):
        return super().worth_and_power(p)[0], p.budget


class FiguresOfAll(Pages):
    """Row one has the worth and the power of every load."""

    def worth_and_power(self, p):
        return sum(load[2] for load in p.loads), sum(load[1] for load in p.loads)


class FiguresOfPage(Pages):
    """Row one has the worth and the power of the loads that the page shows."""

    def page(self, p, k):
        self.first = k
        return super().page(p, k)

    def worth_and_power(self, p):
        shown = [p.loads[k - 1] for k in self.loads_shown(p, self.first) if k <= p.load_count and self.is_on(p, k)]
        return sum(load[2] for load in shown), sum(load[1] for load in shown)


class PowerBeforeWorth(Pages):
    """Row one has worth and power in each other's place."""

    def worth_and_power(self, p):
        return super().worth_and_power(p)[::-1]


class MarkOfNext(Pages):
    """A load has the mark of the next one."""

    def is_on(self, p, k):
        return super().is_on(p, k + 1)


class MarkOfRule(Pages):
    """A load has the mark of the load rule that is stored, whatever set is."""

    def is_on(self, p, k):
        return p.load_rules[p.run[k - 1][1] - 1][1] == 1


class SetOf32(Pages):
    """No load above 32 is on."""

    def is_on(self, p, k):
        return k <= 32 and super().is_on(p, k)


class SetOfOneWord(Pages):
    """No load above 64 is on."""

    def is_on(self, p, k):
        return k <= WORD_LOADS and super().is_on(p, k)


class WordsShared(Pages):
    """A load above 64 has the mark of the one 64 before it."""

    def is_on(self, p, k):
        return super().is_on(p, k - WORD_LOADS if k > WORD_LOADS else k)


class WordsSwapped(Pages):
    """The marks of the two words are in each other's place."""

    def is_on(self, p, k):
        return super().is_on(p, k - WORD_LOADS if k > WORD_LOADS else k + WORD_LOADS)


class RowOneOfOneWord(Pages):
    """Row one has the worth and the power of the loads up to 64."""

    def worth_and_power(self, p):
        on = [load for k, load in enumerate(p.loads[:min(WORD_LOADS, p.load_count)], 1) if self.is_on(p, k)]
        return sum(load[2] for load in on), sum(load[1] for load in on)


class NoLoadsAboveAWord(Pages):
    """A load above 64 may not be asked for."""

    def causes(self, asked):
        return *super().causes(asked), (5, asked.load > WORD_LOADS)


class LoadsAboveAWordMissing(Pages):
    """Loads above 64 are shown as missing."""

    def row_of(self, p, k):
        return '' if k > WORD_LOADS else super().row_of(p, k)


# ---- which loads


class FromNextLoad(Pages):
    """The load asked for is left out, and the seven behind it are shown."""

    def loads_shown(self, p, k):
        return range(k + 1, k + 8)


class SixLoads(Pages):
    """The last row is blank."""

    def page(self, p, k):
        return super().page(p, k)[:-ROW_BYTES] + bytes(b' ' * ROW_BYTES)


class NumbersFromOne(Pages):
    """The loads of a page are numbered from 1."""

    def page(self, p, k):
        self.first = k
        return super().page(p, k)

    def load_row(self, p, k):
        return self.digits(k - self.first + 1, 3) + super().load_row(p, k)[3:]


class LastSeven(Pages):
    """A page that would have blank rows begins so that it has none."""

    def loads_shown(self, p, k):
        first = max(1, min(k, p.load_count - 6))
        return range(first, first + 7)


class RoundAndRound(Pages):
    """After the last load comes the first one."""

    def loads_shown(self, p, k):
        return [(number - 1) % p.load_count + 1 for number in super().loads_shown(p, k)]


class MissingLoadsOff(Pages):
    """A load that is missing is shown as off."""

    def row_of(self, p, k):
        return self.digits(k, 3) + ' off 000W' if k > p.load_count and p.status != NO_SET else super().row_of(p, k)


class LoadsOnAlone(Pages):
    """Loads that are off are blank rows."""

    def row_of(self, p, k):
        return super().row_of(p, k) if self.is_on(p, k) else ''


# ---- after refusal 9


class LoadsAfterNine(Pages):
    """The loads are shown after refusal 9 too, all off."""

    def row_of(self, p, k):
        return '' if k > p.load_count else self.load_row(p, k)


class NineIsWorthNothing(Pages):
    """Refusal 9 is shown as a plan of worth 0."""

    def first_row(self, p):
        return 'worth ' + self.digits(0, self.worth_digits) + ' 000W'


class NineIsBlank(Pages):
    """Refusal 9 is shown as a blank page."""

    def first_row(self, p):
        return '' if p.status == NO_SET else super().first_row(p)


class NineRefused(Pages):
    """After refusal 9 nothing is drawn, and that is the number."""

    def causes(self, asked):
        return *super().causes(asked), (9, asked.p.status == NO_SET)


class NineNotCurrent(Pages):
    """After refusal 9 no plan is current."""

    def causes(self, asked):
        return *super().causes(asked), (12, asked.p.status == NO_SET)


class NineOfAnyLoad(Pages):
    """After refusal 9 the load need not exist."""

    def causes(self, asked):
        return [(number, applies and not (number == 5 and asked.p.status == NO_SET)) for number, applies in super().causes(asked)]


# ---- refusals


def in_order(*order):
    """The drawing whose tests have this order."""
    def causes(self, asked):
        return sorted(Pages.causes(self, asked), key=lambda cause: order.index(cause[0]))
    return type('Order' + '_'.join(map(str, order)), (Pages,), {'causes': causes})


RIGHT_ORDER = 13, 1, 5, 12
OTHER_ORDERS = [in_order(*order) for order in permutations(RIGHT_ORDER) if order != RIGHT_ORDER]


class Passed(Pages):
    """What would refuse is passed over where `passes` says so, and the page is drawn if nothing else does."""

    def passes(self, number, asked):
        """Is it?"""

    def causes(self, asked):
        return [(number, applies and not self.passes(number, asked)) for number, applies in super().causes(asked)]


class LengthNotTested(Passed):
    """A page of another length is drawn on, as far as it goes."""

    def passes(self, number, asked):
        return number == 13

    def drawn(self, asked):
        number, page = super().drawn(asked)
        return number, page if number else page[:len(asked.page)] + asked.page[PAGE_BYTES:]


class LongerTaken(LengthNotTested):
    """A longer page is drawn on."""

    def passes(self, number, asked):
        return number == 13 and len(asked.page) > PAGE_BYTES


class ShorterTaken(LengthNotTested):
    """A shorter page is drawn on."""

    def passes(self, number, asked):
        return number == 13 and len(asked.page) < PAGE_BYTES


class NoPageTaken(LengthNotTested):
    """A page of no bytes is drawn on."""

    def passes(self, number, asked):
        return number == 13 and not asked.page


class LimitsNotTested(Passed):
    """A planner that breaks a limit is drawn, if its counts let it."""

    def passes(self, number, asked):
        return number == 1 and asked.p.load_count <= len(asked.p.loads)


class OutcomeNotTested(Passed):
    """A planner whose outcome is out of range is drawn."""

    def passes(self, number, asked):
        return number == 1 and TableLimits().keep(asked.p) and FilledLimits().keep(asked.p)


class CountNotTested(Passed):
    """A planner with more filled than it has cells is drawn."""

    def passes(self, number, asked):
        return number == 1 and TableLimits().keep(asked.p) and OutcomeLimits().keep(asked.p)


class CountTurnedAway(Pages):
    """A planner of which cells are filled is not drawn."""

    def causes(self, asked):
        first, broken, *others = super().causes(asked)
        return first, (1, broken[1] or asked.p.filled > 0), *others


class NumberNotTested(Passed):
    """A load past the last is shown as missing."""

    def passes(self, number, asked):
        return number == 5 and asked.load > 0


class NextAfterLast(Passed):
    """The load after the last may be asked for."""

    def passes(self, number, asked):
        return number == 5 and asked.load == asked.p.load_count + 1


class LoadNoneTaken(Passed):
    """Load 0 may be asked for."""

    def passes(self, number, asked):
        return number == 5 and asked.load == 0 and asked.p.load_count > 0

    def load_row(self, p, k):
        return super().load_row(p, k) if k else ''


class NothingIsNone(Passed):
    """With no current plan `no plan` is shown."""

    def passes(self, number, asked):
        return number == 12

    def drawn(self, asked):
        number, page = super().drawn(asked)
        return (0, b'no plan'.ljust(PAGE_BYTES)) if not number and asked.p.status == NOTHING else (number, page)


class OldPlanShown(Pages):
    """A change does not make the plan old."""

    def drawn(self, asked):
        return super().drawn(asked._replace(p=asked.stale) if asked.stale else asked)


def in_bits(bits):
    """The drawing for which only the last bits of a load's number count, so many."""
    return type('LoadIn%dBits' % bits, (Pages,), {'drawn': lambda self, asked: Pages.drawn(self, asked._replace(load=asked.load % 2**bits))})


FEWER_BITS = [in_bits(bits) for bits in (6, 7, 8, 16, 32, 63)]


class LastLoadRefused(Pages):
    """The last load may not be asked for."""

    def causes(self, asked):
        return *super().causes(asked), (5, asked.load == asked.p.load_count)


class OneLoadRefused(Pages):
    """A cabinet of one load is not drawn."""

    def causes(self, asked):
        return *super().causes(asked), (5, asked.p.load_count == 1)


class FourOfNoLoads(Pages):
    """With no loads it is 4, as of a plan."""

    def number(self, asked):
        number = super().number(asked)
        return 4 if number == 5 and asked.p.load_count == 0 else number


class TwelveOfNoLoads(Pages):
    """With no loads it is 12, as of `last`."""

    def number(self, asked):
        number = super().number(asked)
        return 12 if number == 5 and asked.p.load_count == 0 and asked.p.status == NOTHING else number


# ---- a page before and after


class RefusedBlanks(Pages):
    """A refused drawing leaves a blank page."""

    def untouched(self, asked):
        return b' ' * len(asked.page)


class FirstRowDrawn(Pages):
    """Row one is drawn before the load is looked for."""

    def untouched(self, asked):
        row = self.filled(self.first_row(asked.p)) if self.number(asked) == 5 and asked.p.status != NOTHING else b''
        return row + asked.page[len(row):]


class BlankedBeforeTwelve(Pages):
    """The page is blank once the load was found, with no current plan too."""

    def untouched(self, asked):
        return b' ' * PAGE_BYTES if self.number(asked) == 12 else asked.page


class LastRowLeft(Pages):
    """The last row is not drawn on."""

    def drawn(self, asked):
        number, page = super().drawn(asked)
        return number, page if number else page[:-ROW_BYTES] + asked.page[-ROW_BYTES:]


class RowsNotFilled(Pages):
    """The bytes behind the text of a row are left as they were."""

    def drawn(self, asked):
        number, page = super().drawn(asked)
        lengths = [len(cut(page, row).rstrip()) for row in range(PAGE_ROWS)]
        return number, page if number else b''.join(
            cut(page, row)[:length] + cut(asked.page, row)[length:] for row, length in enumerate(lengths))


# ---- stretches


class OtherRows(Pages):
    """The stretch has other rows: `others` makes them of those that differ."""

    def others(self, rows):
        """The first row of the stretch and the one after the last."""

    def rows_of(self, glass, drawn):
        rows = self.differing(glass, drawn) if self.are_pages(glass, drawn) else []
        return self.others(rows) if rows else None


class EndsAtEqualRow(OtherRows):
    """It ends before the first row after its beginning that is equal."""

    def others(self, rows):
        return rows[0], next(row for row in range(rows[0], PAGE_ROWS + 1) if row not in rows)


class StartsLate(OtherRows):
    """It begins a row late."""

    def others(self, rows):
        return min(rows[0] + 1, rows[-1]), rows[-1] + 1


class StartsEarly(OtherRows):
    """It begins a row early."""

    def others(self, rows):
        return max(rows[0] - 1, 0), rows[-1] + 1


class EndsEarly(OtherRows):
    """It ends a row early."""

    def others(self, rows):
        return rows[0], max(rows[-1], rows[0] + 1)


class EndsLate(OtherRows):
    """It ends a row late."""

    def others(self, rows):
        return rows[0], min(rows[-1] + 2, PAGE_ROWS)


class FirstRowAlone(OtherRows):
    """It is the first differing row."""

    def others(self, rows):
        return rows[0], rows[0] + 1


class LastRowAlone(OtherRows):
    """It is the last differing row."""

    def others(self, rows):
        return rows[-1], rows[-1] + 1


class ToTheEnd(OtherRows):
    """It goes on to the end of the page."""

    def others(self, rows):
        return rows[0], PAGE_ROWS


class FromTheTop(OtherRows):
    """It begins at row one."""

    def others(self, rows):
        return 0, rows[-1] + 1


class WholePage(OtherRows):
    """It is the whole page, if a row differs."""

    def others(self, rows):
        return 0, PAGE_ROWS


class AlwaysWholePage(Pages):
    """It is the whole page, even if no row differs."""

    def rows_of(self, glass, drawn):
        return (0, PAGE_ROWS) if self.are_pages(glass, drawn) else None


class DifferingRowsAlone(Pages):
    """It has as many rows as differ, and not those between."""

    def stretch(self, glass, drawn):
        start, count, row = super().stretch(glass, drawn)
        return start, ROW_BYTES * len(self.differing(glass, drawn)) if count else 0, row


class RowOneNotCompared(Pages):
    """Row one is not looked at."""

    def differing(self, glass, drawn):
        return [row for row in super().differing(glass, drawn) if row > 0]


class LastRowNotCompared(Pages):
    """The last row is not looked at."""

    def differing(self, glass, drawn):
        return [row for row in super().differing(glass, drawn) if row < PAGE_ROWS - 1]


class LastByteNotCompared(Pages):
    """The last byte of a row is not looked at."""

    def differing(self, glass, drawn):
        return [row for row in super().differing(glass, drawn) if cut(glass, row)[:-1] != cut(drawn, row)[:-1]]


class FirstByteNotCompared(Pages):
    """The first byte of a row is not looked at."""

    def differing(self, glass, drawn):
        return [row for row in super().differing(glass, drawn) if cut(glass, row)[1:] != cut(drawn, row)[1:]]


class BlanksNotCompared(Pages):
    """Only bytes that are no blanks on the drawn page are looked at."""

    def differing(self, glass, drawn):
        return [row for row in super().differing(glass, drawn) if any(d not in (32, g) for g, d in zip(cut(glass, row), cut(drawn, row)))]


class SmallLettersSame(Pages):
    """Small and great letters are the same."""

    def differing(self, glass, drawn):
        return super().differing(glass.lower(), drawn.lower())


class FromFirstByte(Pages):
    """It begins with the first byte that differs."""

    def stretch(self, glass, drawn):
        start, count, row = super().stretch(glass, drawn)
        first = next((at for at in range(start, start + count) if glass[at] != drawn[at]), start)
        return first, count - (first - start), row


class ToLastByte(Pages):
    """It ends with the last byte that differs."""

    def stretch(self, glass, drawn):
        start, count, row = super().stretch(glass, drawn)
        return start, max((at + 1 - start for at in range(start, start + count) if glass[at] != drawn[at]), default=0), row


class CountInRows(Pages):
    """Its count is one of rows."""

    def stretch(self, glass, drawn):
        start, count, row = super().stretch(glass, drawn)
        return start, count // ROW_BYTES, row


class RowFromNought(Pages):
    """Row one has number 0."""

    def stretch(self, glass, drawn):
        start, count, row = super().stretch(glass, drawn)
        return start, count, max(row - 1, 0)


class RowOfEmpty(Pages):
    """An empty stretch begins at row one."""

    def stretch(self, glass, drawn):
        start, count, row = super().stretch(glass, drawn)
        return start, count, max(row, 1)


class EmptyAtEnd(Pages):
    """An empty stretch begins at the end of the page."""

    def stretch(self, glass, drawn):
        return super().stretch(glass, drawn) if self.rows_of(glass, drawn) else (len(drawn), 0, 0)


class OfTheGlass(Pages):
    """It is one of the glass."""

    def sent(self, glass, drawn):
        return super().sent(drawn, glass)


class AnyLengths(Pages):
    """Pages of other lengths are compared as far as rows go."""

    def are_pages(self, glass, drawn):
        return True


class GlassOfAnyLength(Pages):
    """The glass may have any length."""

    def are_pages(self, glass, drawn):
        return len(drawn) == PAGE_BYTES


class DrawnOfAnyLength(Pages):
    """The drawn page may have any length."""

    def are_pages(self, glass, drawn):
        return len(glass) == PAGE_BYTES


class SameLength(Pages):
    """Two pages of one length are compared, whatever it is."""

    def are_pages(self, glass, drawn):
        return len(glass) == len(drawn)


class LongEnough(Pages):
    """Longer pages are compared too."""

    def are_pages(self, glass, drawn):
        return min(len(glass), len(drawn)) >= PAGE_BYTES


class OtherLengthWhole(Pages):
    """Where a page has another length the whole drawn page is sent."""

    def rows_of(self, glass, drawn):
        return super().rows_of(glass, drawn) if self.are_pages(glass, drawn) else (0, PAGE_ROWS)


def below(model):
    """The classes below one that have none below them."""
    return [last for one in model.__subclasses__() for last in below(one) or [one]]


# LengthNotTested has classes below it, and is wrong by itself too.
WRONG = [*below(Pages), LengthNotTested]
