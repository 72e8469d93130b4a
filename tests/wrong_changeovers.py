"""Changeovers (changeovers.py) that are wrong on purpose, each in one place. A check that cannot tell them from the product's would show nothing."""
from itertools import permutations

from changeovers import OFF, ON, Changeovers, Done, step_bytes
from limits import MAX_BUDGET, MAX_LOADS, NOTHING, PLANNED, STEP_BYTES, WORD_LOADS
from script import FilledLimits, OutcomeLimits, TableLimits, tables_of

# ---- the order of the refusals


def in_order(*order):
    """The changeover whose tests have this order."""
    def causes(self, asked):
        return sorted(Changeovers.causes(self, asked), key=lambda cause: order.index(cause[0]))
    return type('Order' + '_'.join(map(str, order)), (Changeovers,), {'causes': causes})


RIGHT_ORDER = 1, 4, 5, 16, 17
OTHER_ORDERS = [in_order(*order) for order in permutations(RIGHT_ORDER) if order != RIGHT_ORDER]


# ---- refusals


class Passed(Changeovers):
    """What would refuse is passed over where `passes` says so."""

    def passes(self, number, asked):
        """Is it?"""

    def causes(self, asked):
        return [(number, applies and not self.passes(number, asked)) for number, applies in super().causes(asked)]

    def listed(self, asked, steps):
        """As far as the list goes."""
        number, count, places = super().listed(asked, steps)
        return Done(number, count, places[:len(asked.list)])


class LimitsNotTested(Passed):
    """A planner that breaks a limit is taken."""

    def passes(self, number, asked):
        return number == 1


class OutcomeNotTested(Passed):
    """A planner whose outcome is out of range is taken."""

    def passes(self, number, asked):
        return number == 1 and TableLimits().keep(asked.p) and FilledLimits().keep(asked.p)


class CountNotTested(Passed):
    """A planner with more filled than it has cells is taken."""

    def passes(self, number, asked):
        return number == 1 and TableLimits().keep(asked.p) and OutcomeLimits().keep(asked.p)


class BookNotTested(Passed):
    """Of a planner only loads and budget are tested."""

    def passes(self, number, asked):
        return number == 1 and TableLimits().loads_keep(asked.p.loads, asked.p.load_count) and asked.p.budget <= MAX_BUDGET


class CountTurnedAway(Changeovers):
    """A planner of which cells are filled is turned away."""

    def causes(self, asked):
        broken, *others = super().causes(asked)
        return (1, broken[1] or asked.p.filled > 0), *others


class PlanNeeded(Changeovers):
    """A plan must be current."""

    def causes(self, asked):
        return *super().causes(asked), (12, asked.p.status == NOTHING)


class BookNeeded(Changeovers):
    """Each set must be allowed."""

    def causes(self, asked):
        return *super().causes(asked), (10, asked.kept and any(self.refuses(asked.p, text) for text in (asked.old, asked.new)))

    def refuses(self, p, text):
        return 0 < p.load_count <= 3 and tables_of(p).answer(b'check,' + text) == ['no,10']


class NoLoadsStay(Passed):
    """With no loads two empty sets have no steps."""

    def passes(self, number, asked):
        return number in (4, 5) and asked.p.load_count == 0 and not asked.old and not asked.new


class EqualRefused(Changeovers):
    """Equal sets are refused: there is nothing to switch."""

    def causes(self, asked):
        return *super().causes(asked), (16, asked.old == asked.new)


class EqualNotTested(Passed):
    """Equal sets have no steps, whatever they are."""

    def passes(self, number, asked):
        return number == 16 and asked.old == asked.new


class EqualNotRead(Passed):
    """Equal sets have no steps, whatever their bytes are."""

    def passes(self, number, asked):
        return number in (5, 16) and asked.old == asked.new


# ---- sets as they are written


class Numbered(Changeovers):
    """A set that is not as it should be is refused with another number than 5, where `number_for` has one."""

    def number_for(self, p, text):
        """The number, or 5."""

    def number(self, asked):
        number, broken = super().number(asked), [text for text in (asked.old, asked.new) if not self.is_written(asked.p, text)]
        return self.number_for(asked.p, broken[0]) if number == 5 else number


class BadForm(Numbered):
    """A set that is not as it should be is 3, as a field of the wrong form is."""

    def number_for(self, p, text):
        return 3


class OtherByteIsThree(Numbered):
    """Another byte is 3."""

    def number_for(self, p, text):
        return 5 if all(byte in b'01' for byte in text) else 3


class EmptyIsThree(Numbered):
    """An empty set is 3."""

    def number_for(self, p, text):
        return 5 if text else 3


class OtherLengthIsThree(Numbered):
    """Another length is 3."""

    def number_for(self, p, text):
        return 5 if len(text) == p.load_count else 3


class LongerTaken(Changeovers):
    """Of a longer set the bytes beyond the loads are not looked at."""

    def is_written(self, p, text):
        return super().is_written(p, text[:p.load_count])

    def done(self, asked):
        count = asked.p.load_count
        return super().done(asked._replace(old=asked.old[:count], new=asked.new[:count]))


class ShorterTaken(Changeovers):
    """Loads that a set does not name are off."""

    def is_written(self, p, text):
        return super().is_written(p, text.ljust(min(p.load_count, MAX_LOADS), b'0'))


class EmptyTaken(Changeovers):
    """In an empty set every load is off."""

    def is_written(self, p, text):
        return not text or super().is_written(p, text)


class SameLengthTaken(Changeovers):
    """Only that both sets have the same length is tested."""

    def causes(self, asked):
        written = len(asked.old) == len(asked.new) and all(byte in b'01' for byte in asked.old + asked.new)
        return [(number, not written if number == 5 else applies) for number, applies in super().causes(asked)]


class OldNotRead(Changeovers):
    """The bytes of the old set are not tested."""

    def causes(self, asked):
        unread = not self.is_written(asked.p, asked.new) or len(asked.old) != asked.p.load_count
        return [(number, unread if number == 5 else applies) for number, applies in super().causes(asked)]


class NewNotRead(Changeovers):
    """The bytes of the new set are not tested."""

    def causes(self, asked):
        unread = not self.is_written(asked.p, asked.old) or len(asked.new) != asked.p.load_count
        return [(number, unread if number == 5 else applies) for number, applies in super().causes(asked)]


class OtherBytes(Changeovers):
    """Other bytes are taken too: as '0' and '1' where `read` says so."""

    def read(self, byte):
        """The byte that it stands for."""

    def translated(self, text):
        return bytes(self.read(byte) for byte in text)

    def done(self, asked):
        return super().done(asked._replace(old=self.translated(asked.old), new=self.translated(asked.new)))


class AnyByteOff(OtherBytes):
    """A byte other than '1' is off."""

    def read(self, byte):
        return ord('1') if byte == ord('1') else ord('0')


class AnyByteOn(OtherBytes):
    """A byte other than '0' is on."""

    def read(self, byte):
        return ord('0') if byte == ord('0') else ord('1')


class NumbersTaken(OtherBytes):
    """The bytes 0 and 1 are marks too."""

    def read(self, byte):
        return byte + ord('0') if byte < 2 else byte


class LastDigitTaken(OtherBytes):
    """Of a byte the last binary digit is looked at."""

    def read(self, byte):
        return ord('0') + byte % 2


class SevenDigitsTaken(OtherBytes):
    """Of a byte the first binary digit is not looked at."""

    def read(self, byte):
        return byte % 2**7


class BlankTaken(OtherBytes):
    """A blank is off."""

    def read(self, byte):
        return ord('0') if byte == ord(' ') else byte


class TwoTaken(OtherBytes):
    """A '2' is on."""

    def read(self, byte):
        return ord('1') if byte == ord('2') else byte


class LowerTaken(OtherBytes):
    """A byte below '0' is off."""

    def read(self, byte):
        return max(byte, ord('0'))


class HigherTaken(OtherBytes):
    """A byte above '1' is on."""

    def read(self, byte):
        return min(byte, ord('1'))


class LastByteNotTested(Changeovers):
    """The last byte of a set is not tested."""

    def is_written(self, p, text):
        return super().is_written(p, text[:-1] + b'0' if text else text)


class BytesOfOneWordTested(Changeovers):
    """The bytes of loads above 64 are not tested."""

    def is_written(self, p, text):
        return super().is_written(p, text[:WORD_LOADS] + b'0' * len(text[WORD_LOADS:]))


# ---- power


class OldPowerNotTested(Changeovers):
    """The power of the old set is not looked at."""

    def are_carried(self, p, old, new):
        return self.fits(p, new) and self.is_fed(p, old) and self.is_fed(p, new)


class NewPowerNotTested(Changeovers):
    """The power of the new set is not looked at."""

    def are_carried(self, p, old, new):
        return self.fits(p, old) and self.is_fed(p, old) and self.is_fed(p, new)


class PowerNotTested(Changeovers):
    """No power is looked at."""

    def fits(self, p, on):
        return True


class BelowBudget(Changeovers):
    """The power has to be below the budget."""

    def fits(self, p, on):
        return self.power(p, on) < p.budget


class WattMore(Changeovers):
    """The power may be a watt over the budget."""

    def fits(self, p, on):
        return self.power(p, on) <= p.budget + 1


class GreatestBudget(Changeovers):
    """The budget is the greatest that there is."""

    def fits(self, p, on):
        return self.power(p, on) <= MAX_BUDGET


class WorthForPower(Changeovers):
    """The worths are added up."""

    def power(self, p, on):
        return sum(p.loads[k - 1][2] for k in on)


class CountForPower(Changeovers):
    """The loads are counted."""

    def power(self, p, on):
        return len(on)


class PowerOfOneWord(Changeovers):
    """Loads above 64 draw nothing."""

    def power(self, p, on):
        return super().power(p, {k for k in on if k <= WORD_LOADS})


class PowerInOneByte(Changeovers):
    """Of the power the last 8 binary digits are looked at."""

    def power(self, p, on):
        return super().power(p, on) % 2**8


class PowerInNineDigits(Changeovers):
    """Of the power the last 9 binary digits are looked at."""

    def power(self, p, on):
        return super().power(p, on) % 2**9


class RootDrawsNothing(Changeovers):
    """Load 1 draws nothing."""

    def power(self, p, on):
        return super().power(p, on - {1})


class LastDrawsNothing(Changeovers):
    """The last load draws nothing."""

    def power(self, p, on):
        return super().power(p, on - {p.load_count})


class PowerOfNext(Changeovers):
    """A load draws what the next one draws."""

    def power(self, p, on):
        return sum(p.loads[k % MAX_LOADS][1] for k in on)


class BothAtOnce(Changeovers):
    """The loads of both sets together have to be within the budget."""

    def are_carried(self, p, old, new):
        return super().are_carried(p, old, new) and self.fits(p, old | new)


class DifferenceAlone(Changeovers):
    """Only the loads that go on have to be within the budget, and those that go off."""

    def are_carried(self, p, old, new):
        return self.fits(p, new - old) and self.fits(p, old - new) and self.is_fed(p, old) and self.is_fed(p, new)


# ---- parents


class OldParentsNotTested(Changeovers):
    """Parents in the old set are not looked at."""

    def are_carried(self, p, old, new):
        return self.fits(p, old) and self.fits(p, new) and self.is_fed(p, new)


class NewParentsNotTested(Changeovers):
    """Parents in the new set are not looked at."""

    def are_carried(self, p, old, new):
        return self.fits(p, old) and self.fits(p, new) and self.is_fed(p, old)


class ParentsNotTested(Changeovers):
    """No parent is looked at."""

    def is_fed(self, p, on):
        return True


class OldNotTested(Changeovers):
    """The old set is not looked at."""

    def are_carried(self, p, old, new):
        return super().are_carried(p, new, new)


class NewNotTested(Changeovers):
    """The new set is not looked at."""

    def are_carried(self, p, old, new):
        return super().are_carried(p, old, old)


class RootNeedsParent(Changeovers):
    """Load 1 needs a parent that is on."""

    def is_fed(self, p, on):
        return 1 not in on


class RootNeeded(Changeovers):
    """Load 1 has to be on."""

    def is_fed(self, p, on):
        return 1 in on and super().is_fed(p, on)


class RootSuffices(Changeovers):
    """It is enough that load 1 is on."""

    def parent(self, p, k):
        return 1


class ParentBefore(Changeovers):
    """The parent of a load is the one before it."""

    def parent(self, p, k):
        return k - 1


class ParentFromNought(Changeovers):
    """The parent has a number one higher."""

    def parent(self, p, k):
        return super().parent(p, k) + 1


class AncestorSuffices(Changeovers):
    """It is enough that the parent's parent is on."""

    def is_fed(self, p, on):
        return all(k == 1 or self.parent(p, k) in on or self.parent(p, max(1, self.parent(p, k))) in on for k in on)


class IdleNeedNoParent(Changeovers):
    """A load that draws nothing needs no parent."""

    def is_fed(self, p, on):
        return all(k == 1 or p.loads[k - 1][1] == 0 or self.parent(p, k) in on for k in on)


class LastNeedsNoParent(Changeovers):
    """The last load needs no parent."""

    def is_fed(self, p, on):
        return super().is_fed(p, on) or all(k in (1, p.load_count) or self.parent(p, k) in on for k in on)


class ParentsOfOneWord(Changeovers):
    """Loads above 64 need no parent."""

    def is_fed(self, p, on):
        return super().is_fed(p, {k for k in on if k <= WORD_LOADS})


class ParentsAboveAWord(Changeovers):
    """A parent above 64 is taken for the one 64 before it."""

    def parent(self, p, k):
        parent = super().parent(p, k)
        return parent - WORD_LOADS if parent > WORD_LOADS else parent


class ParentInEitherSet(Changeovers):
    """It is enough that the parent is on in one of the sets."""

    def are_carried(self, p, old, new):
        return self.fits(p, old) and self.fits(p, new) and self.is_fed(p, old | new)


class ChildrenNeeded(Changeovers):
    """With a load its children have to be on."""

    def is_fed(self, p, on):
        return super().is_fed(p, on) and all(k in on or self.parent(p, k) not in on for k in range(2, min(p.load_count, MAX_LOADS) + 1))


# ---- steps


class OtherSteps(Changeovers):
    """Other steps, or another order of them, which a replay finds as well."""


class OnsFirst(OtherSteps):
    """Loads that go on come first."""

    def steps(self, old, new):
        return self.on_steps(old, new) + self.off_steps(old, new)


class OffsLowestFirst(OtherSteps):
    """Loads go off lowest first."""

    def off_steps(self, old, new):
        return super().off_steps(old, new)[::-1]


class OnsHighestFirst(OtherSteps):
    """Loads go on highest first."""

    def on_steps(self, old, new):
        return super().on_steps(old, new)[::-1]


class ByNumber(OtherSteps):
    """The steps stand by the numbers of their loads."""

    def steps(self, old, new):
        return sorted(super().steps(old, new))


class ByNumberDown(OtherSteps):
    """The steps stand by the numbers of their loads, from the highest down."""

    def steps(self, old, new):
        return sorted(super().steps(old, new), reverse=True)


class Backward(OtherSteps):
    """The steps are those of the way back."""

    def steps(self, old, new):
        return super().steps(new, old)


class EveryLoadStepped(OtherSteps):
    """A load that is on in both sets is switched on again."""

    def on_steps(self, old, new):
        return [(k, ON) for k in sorted(new)]


class EveryLoadOff(OtherSteps):
    """Every load goes off first, and then those of the new set go on."""

    def steps(self, old, new):
        return super().steps(old, set()) + super().steps(set(), new)


class OffsAlone(OtherSteps):
    """No load goes on."""

    def on_steps(self, old, new):
        return []


class OnsAlone(OtherSteps):
    """No load goes off."""

    def off_steps(self, old, new):
        return []


class RootForgotten(OtherSteps):
    """Load 1 has no step."""

    def steps(self, old, new):
        return [step for step in super().steps(old, new) if step[0] != 1]


class HighestForgotten(OtherSteps):
    """Of the loads that differ the highest has no step."""

    def steps(self, old, new):
        steps = super().steps(old, new)
        return [step for step in steps if step != max(steps)]


class LastOffForgotten(OtherSteps):
    """Of the loads that go off the lowest has no step."""

    def off_steps(self, old, new):
        return super().off_steps(old, new)[:-1]


class StepsOfOneWord(OtherSteps):
    """Loads above 64 have no steps."""

    def steps(self, old, new):
        return [step for step in super().steps(old, new) if step[0] <= WORD_LOADS]


class LastOfAllForgotten(OtherSteps):
    """Load 128 has no step."""

    def steps(self, old, new):
        return [step for step in super().steps(old, new) if step[0] != MAX_LOADS]


class NumbersOfOneWord(OtherSteps):
    """A load above 64 has the number of the one 64 before it."""

    def steps(self, old, new):
        return [((load - 1) % WORD_LOADS + 1, mark) for load, mark in super().steps(old, new)]


class NumbersFromNought(OtherSteps):
    """Load 1 has number 0."""

    def steps(self, old, new):
        return [(load - 1, mark) for load, mark in super().steps(old, new)]


class MarksSwapped(OtherSteps):
    """Mark 0 is on, and mark 1 off."""

    def steps(self, old, new):
        return [(load, 1 - mark) for load, mark in super().steps(old, new)]


class MarksAsText(OtherSteps):
    """The marks are '0' and '1'."""

    def steps(self, old, new):
        return [(load, mark + ord('0')) for load, mark in super().steps(old, new)]


class MarkFirst(OtherSteps):
    """The mark stands before the load."""

    def steps(self, old, new):
        return [(mark, load) for load, mark in super().steps(old, new)]


class OffTwice(OtherSteps):
    """The first load that goes off has two steps."""

    def off_steps(self, old, new):
        steps = super().off_steps(old, new)
        return steps[:1] + steps


class WordsApart(OtherSteps):
    """The loads up to 64 are switched, off and on, and then the others."""

    def steps(self, old, new):
        first, second = set(range(1, WORD_LOADS + 1)), set(range(WORD_LOADS + 1, MAX_LOADS + 1))
        return super().steps(old & first, new & first) + super().steps(old & second, new & second)


class OldOfPlan(Changeovers):
    """Where a plan is stored the old set is that of the plan."""

    def listed(self, asked, steps):
        planned = {k for k in range(1, MAX_LOADS + 1) if asked.p.set >> (k - 1) & 1}
        steps = self.steps(planned, self.on(asked.new)) if asked.p.status == PLANNED else steps
        done = super().listed(asked, steps)
        return done._replace(list=done.list[:len(asked.list)])


# ---- the list and the count


class PlaceFewer(Passed):
    """A list that is one place too short is taken, and the last step is not written."""

    def is_short(self, places, steps):
        return places + 1 < len(steps)


class PlaceMore(Changeovers):
    """One place more is needed."""

    def is_short(self, places, steps):
        return places <= len(steps)


class SomePlaceNeeded(Changeovers):
    """A list of no places is too short."""

    def is_short(self, places, steps):
        return places == 0 or super().is_short(places, steps)


class PlaceForEachLoad(Passed):
    """A list needs a place for each load."""

    def causes(self, asked):
        return *super().causes(asked), (17, len(asked.list) // STEP_BYTES < asked.p.load_count)


class PlacesOfMost(Changeovers):
    """A list needs as many places as there may be loads."""

    def is_short(self, places, steps):
        return places < MAX_LOADS


class ShortTaken(Passed):
    """Of more steps as many are written as there are places, and told."""

    def passes(self, number, asked):
        return number == 17

    def listed(self, asked, steps):
        return super().listed(asked, steps[:len(asked.list) // STEP_BYTES])


class ShortCounted(Passed):
    """Of more steps as many are written as there are places, and all are told."""

    def passes(self, number, asked):
        return number == 17


class LongRefused(Changeovers):
    """A list of more places than there may be loads is refused."""

    def causes(self, asked):
        return *super().causes(asked), (17, len(asked.list) // STEP_BYTES > MAX_LOADS)


class BeyondCleared(Changeovers):
    """Places beyond the steps are cleared."""

    def listed(self, asked, steps):
        return Done(0, len(steps), step_bytes(steps).ljust(len(asked.list), b'\0'))


class NextCleared(Changeovers):
    """The place after the last step is cleared, as an end."""

    def listed(self, asked, steps):
        return super().listed(asked, steps)._replace(list=super().listed(asked, [*steps, (0, 0)]).list[:len(asked.list)])


class PlacesOfLoadsCleared(Changeovers):
    """As many places as there are loads are cleared first."""

    def listed(self, asked, steps):
        count = STEP_BYTES * asked.p.load_count
        cleared = bytes(count) + asked.list[count:]
        return super().listed(asked._replace(list=cleared[:len(asked.list)]), steps)


class ListFromEnd(Changeovers):
    """The steps stand at the end of the list."""

    def listed(self, asked, steps):
        made = step_bytes(steps)
        return Done(0, len(steps), asked.list[:len(asked.list) - len(made)] + made)


class CountInBytes(Changeovers):
    """The bytes are counted."""

    def listed(self, asked, steps):
        return super().listed(asked, steps)._replace(count=STEP_BYTES * len(steps))


class CountOfPlaces(Changeovers):
    """The places of the list are counted."""

    def listed(self, asked, steps):
        return super().listed(asked, steps)._replace(count=len(asked.list) // STEP_BYTES)


class CountOfOffs(Changeovers):
    """The loads that go off are counted."""

    def listed(self, asked, steps):
        return super().listed(asked, steps)._replace(count=sum(mark == OFF for _, mark in steps))


class CountOfOns(Changeovers):
    """The loads that are on then are counted."""

    def listed(self, asked, steps):
        return super().listed(asked, steps)._replace(count=len(self.on(asked.new)))


class CountLess(Changeovers):
    """One step fewer is told."""

    def listed(self, asked, steps):
        return super().listed(asked, steps)._replace(count=max(0, len(steps) - 1))


class Refusing(Changeovers):
    """A refusal with one of these numbers tells or writes something."""
    numbers = 1, 4, 5, 16, 17

    def steps_of(self, asked):
        return self.steps(self.on(asked.old), self.on(asked.new))

    def told(self, asked):
        """What it tells, and the list then."""

    def refused(self, asked, number):
        return Done(number, *self.told(asked)) if number in self.numbers else super().refused(asked, number)


class RefusalCounts(Refusing):
    """A refusal tells how many steps there are. Those below name the number."""

    def told(self, asked):
        return len(self.steps_of(asked)), asked.list


class RefusalWrites(Refusing):
    """A refusal writes as many steps as there are places for. Those below name the number."""

    def told(self, asked):
        return 0, (step_bytes(self.steps_of(asked)) + asked.list[STEP_BYTES * len(self.steps_of(asked)):])[:len(asked.list)]


class RefusalClears(Refusing):
    """A refusal clears the list. Those below name the number."""

    def told(self, asked):
        return 0, bytes(len(asked.list))


def with_number(refusing, number):
    return type('%s%d' % (refusing.__name__, number), (refusing,), {'numbers': (number,)})


OF_ONE_NUMBER = [with_number(refusing, number) for refusing in (RefusalCounts, RefusalWrites, RefusalClears) for number in RIGHT_ORDER]
BASES = Passed, Numbered, OtherBytes, OtherSteps, Refusing


def below(kind):
    """The classes below one, and those below them."""
    return [found for one in kind.__subclasses__() for found in (one, *below(one))]


WRONG = [kind for kind in below(Changeovers) if kind not in BASES]
WRONG_STEPS = below(OtherSteps)
