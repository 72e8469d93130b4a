"""Models that are wrong on purpose, each in one place. A comparison that cannot tell them from the program would show nothing."""
from limits import WORD_LOADS  # of tests/, which model.py put on the path
from model import Model


class LongerLine(Model):
    """A line may have one byte more."""
    most_bytes = Model.most_bytes + 1


class ShorterLine(Model):
    """A line may have one byte fewer."""
    most_bytes = Model.most_bytes - 1


class MoreDigits(Model):
    """A number may have one digit more."""
    most_digits = Model.most_digits + 1


class FewerDigits(Model):
    """A number may have one digit fewer."""
    most_digits = Model.most_digits - 1


def padded(field):
    """Has a field a zero in front of another byte?"""
    return len(field) > 1 and field.startswith(b'0')


def unpadded(field):
    """A field without such zeros."""
    return field.lstrip(b'0') or field[:1]


class ZerosBarred(Model):
    """A number may have no zero in front."""

    def number(self, field):
        return None if padded(field) else super().number(field)


class PaddedZeroBarred(Model):
    """The number 0 may have no zero in front."""

    def number(self, field):
        return None if padded(field) and not field.strip(b'0') else super().number(field)


class ZerosNotCounted(Model):
    """Zeros in front of a number count as no digits."""

    def number(self, field):
        return super().number(unpadded(field))


class ZerosBarredInOneWord(Model):
    """The numbers of `worth` may have no zero in front."""

    def read(self, line):
        return None if line.startswith(b'worth,') and any(map(padded, line.split(b','))) else super().read(line)


class ZerosInFrontOfBits(Model):
    """Zeros in front of the bits of a check count as no bits."""

    def bits(self, field):
        return super().bits(field[-len(self.loads):] if field and not field[:-len(self.loads)].strip(b'0') else field)


class ZerosNotInTheLength(Model):
    """Zeros in front of a number do not count to the length of a line."""

    def take(self, line):
        return super().take(b','.join(map(unpadded, line.split(b','))) if len(line) > self.most_bytes else line)


class EmptyFieldIsZero(Model):
    """An empty field counts as 0."""

    def number(self, field):
        return super().number(field or b'0')


class CarriageReturn(Model):
    """A carriage return before the line feed is left out."""

    def read(self, line):
        return super().read(line.removesuffix(b'\r'))


class LeadingNul(Model):
    """A byte 0 before the word is left out."""

    def read(self, line):
        return super().read(line.removeprefix(b'\0'))


class Blanks(Model):
    """Blanks around a number are left out."""

    def number(self, field):
        return super().number(field.strip(b' '))


class Capitals(Model):
    """Words may have capitals."""

    def read(self, line):
        return super().read(line.lower())


class FieldsLeftOver(Model):
    """Fields past the last are left out."""

    def read(self, line):
        return super().read(line) or super().read(line.rpartition(b',')[0])


class EmptyBits(Model):
    """A check with an empty field is in form."""

    def bits(self, field):
        return super().bits(field) if field else []


class MoreStates(Model):
    """A book may have one state more."""
    most_states = Model.most_states + 1


class FewerStages(Model):
    """A book may have one stage fewer."""
    most_stages = Model.most_stages - 1


class MarkTwo(Model):
    """A load rule may have mark 2."""
    most_mark = 2


class MorePower(Model):
    """A load may have one watt more."""
    most_power = Model.most_power + 1


class LessWorth(Model):
    """A load may have the greatest worth but one only."""
    most_worth = Model.most_worth - 1


class MoreBudget(Model):
    """The budget may be one watt more."""
    most_budget = Model.most_budget + 1


class MoreLoads(Model):
    """There may be one load more."""
    most_loads = Model.most_loads + 1


class FewerLoads(Model):
    """There may be one load fewer."""
    most_loads = Model.most_loads - 1


class LoadsAsBefore(Model):
    """There may be 64 loads, as before request Ten."""
    most_loads = WORD_LOADS


class LineAsBefore(Model):
    """A line may have 80 bytes, as before request Ten."""
    most_bytes = 80


class FewerRules(Model):
    """There may be one rule of each sort fewer."""
    most_rules = Model.most_rules - 1


class RulesTogether(Model):
    """The two sorts of rules are counted together."""

    def full(self, word, values):
        return super().full(word, values) or word in (b'rule', b'row') and len(self.rules) + len(self.rows) >= self.most_rules


class SixBeforeFive(Model):
    """A full list is told before a value out of its range."""

    def cause(self, word, values):
        number = super().cause(word, values)
        return 6 if number == 5 and self.full(word, values) else number


class SevenBeforeSix(Model):
    """A rule that is there already is told before a full list."""

    def cause(self, word, values):
        number = super().cause(word, values)
        return 7 if number == 6 and self.known(word, values) else number


class SameRuleTwice(Model):
    """The same rule may stand twice."""

    def known(self, word, values):
        return False


class SortsMixed(Model):
    """A row rule with the numbers of a load rule counts as the same rule."""

    def known(self, word, values):
        return word in (b'rule', b'row') and values[:3] in [rule[:3] for rule in self.rules + self.rows] or super().known(word, values)


class StartTwice(Model):
    """A state that is marked already is refused as the same."""

    def known(self, word, values):
        return super().known(word, values) or word == b'start' and values[0] in self.starts


class NoLoadsIsFive(Model):
    """A check with no loads has the wrong number of bits."""

    def cause(self, word, values):
        return 5 if word == b'check' and not self.loads else super().cause(word, values)


class OneCellFewer(Model):
    """One cell fewer is lent."""
    cells_lent = Model.cells_lent - 1


class CellsOfTheBudget(Model):
    """A plan needs a cell for each watt, and none for allowance 0."""

    def cells(self):
        return len(self.loads) * (self.states + self.stages) * self.budget


class ClearKeepsBudget(Model):
    """`clear` leaves the budget."""

    def clear(self):
        budget = getattr(self, 'budget', 0)
        super().clear()
        self.budget = budget


class BookKeepsRules(Model):
    """A new book keeps the rules."""

    def book(self, states, stages):
        rules = getattr(self, 'rules', [])
        super().book(states, stages)
        self.rules = rules


class BookDropsLoads(Model):
    """A new book has no loads."""

    def book(self, states, stages):
        super().book(states, stages)
        self.loads = []


class PowerNotStored(Model):
    """`power` is answered `ok` and nothing is stored."""

    def power(self, k, watts):
        pass


class WorthOfTheNext(Model):
    """`worth` sets the figure of the next load."""

    def worth(self, k, value):
        super().worth(k % len(self.loads) + 1, value)


class StartNotStored(Model):
    """`start` is answered `ok` and nothing is stored."""

    def start(self, state):
        pass


class EndNotStored(Model):
    """`end` is answered `ok` and nothing is stored."""

    def end(self, stage):
        pass


class RefusedBudgetStored(Model):
    """A budget that is refused is stored all the same."""

    def cause(self, word, values):
        number = super().cause(word, values)
        if word == b'budget' and number == 5:
            self.set_budget(values[0])
        return number


class MarksDescend(Model):
    """A save has the greatest mark first."""

    def ascending(self, marks):
        return sorted(marks, reverse=True)


class LoadsFirst(Model):
    """A save has the loads before the rules."""

    def rebuilding(self):
        return sorted(super().rebuilding(), key=lambda line: line[0] in (b'rule', b'row', b'budget'))


class NoBudgetOfNone(Model):
    """A save leaves out a budget of 0."""

    def rebuilding(self):
        return (line for line in super().rebuilding() if line != (b'budget', (0,)))


class SaveClears(Model):
    """A save leaves a fresh planner."""

    def saved(self):
        lines = super().saved()
        self.clear()
        return lines


class ParentsStay(Model):
    """A drop leaves every parent's number as it was."""

    def falls(self, number, k):
        return False


class OwnNumberFalls(Model):
    """Of the parents' numbers only that of the load that leaves falls."""

    def falls(self, number, k):
        return number == k


class NextNumberFalls(Model):
    """Of the parents' numbers only the one after that of the load that leaves falls."""

    def falls(self, number, k):
        return number == k + 1


class LowerNumberFalls(Model):
    """The number before that of the load that leaves falls too."""

    def falls(self, number, k):
        return number > 1 and number >= k - 1


class LastIntoGap(Model):
    """The last load takes the place of the one that leaves."""

    def drop(self, k):
        self.loads[k - 1] = self.loads[-1]
        self.loads.pop()


class ParentDropped(Model):
    """A load with children may leave."""

    def has_children(self, k):
        return False


class RootDropped(Model):
    """Load 1 may leave though there are others."""

    def has_children(self, k):
        return k > 1 and super().has_children(k)


class ChildrenOfTheNext(Model):
    """The children of the next load are taken for those of the load that is to leave."""

    def has_children(self, k):
        return super().has_children(k + 1)


class RefusedDropTaken(Model):
    """A load with children leaves though the drop is refused."""

    def cause(self, word, values):
        number = super().cause(word, values)
        if number == 11:
            self.drop(values[0])
        return number


class ElevenBeforeFive(Model):
    """That load k has children is told before that there is no load k: load 1 counts as a child of load 0."""

    def cause(self, word, values):
        return 11 if word == b'drop' and self.has_children(values[0]) else super().cause(word, values)


class FiveForEleven(Model):
    """A load with children is told as a number out of its range."""

    def cause(self, word, values):
        number = super().cause(word, values)
        return 5 if number == 11 else number


class NoDropOfNoLoads(Model):
    """A drop with no loads is refused as a plan is."""

    def cause(self, word, values):
        return 4 if word == b'drop' and not self.loads else super().cause(word, values)


class DropNotMade(Model):
    """`drop` is answered `ok` and the load stays."""

    def drop(self, k):
        pass


class PlaceLost(Model):
    """The place that a drop frees is not filled again: so many loads enter in all, and no more."""

    def clear(self):
        super().clear()
        self.entered = 0

    def load(self, *figures):
        super().load(*figures)
        self.entered += 1

    def full(self, word, values):
        return super().full(word, values) or word == b'load' and self.entered >= self.most_loads


class LongLineWipes(Model):
    """A line that is too long wipes the outcome."""

    def wipes(self, number, word):
        return number == 2 or super().wipes(number, word)


class BrokenLineWipes(Model):
    """A line that breaks its form wipes the outcome."""

    def wipes(self, number, word):
        return number == 3 or super().wipes(number, word)


class OutOfRangeWipes(Model):
    """A value out of its range wipes the outcome."""

    def wipes(self, number, word):
        return number == 5 or super().wipes(number, word)


class FullWipes(Model):
    """A load or a rule for which there is no place wipes the outcome."""

    def wipes(self, number, word):
        return number == 6 or super().wipes(number, word)


class SameRuleWipes(Model):
    """A rule that is there already wipes the outcome."""

    def wipes(self, number, word):
        return number == 7 or super().wipes(number, word)


class HasChildrenWipes(Model):
    """A drop of a load with children wipes the outcome."""

    def wipes(self, number, word):
        return number == 11 or super().wipes(number, word)


class CheckWipes(Model):
    """A check wipes the outcome."""

    def wipes(self, number, word):
        return number == 0 and word == b'check' or super().wipes(number, word)


class SaveWipes(Model):
    """A save wipes the outcome."""

    def wipes(self, number, word):
        return word == b'save' or super().wipes(number, word)


class LastWipes(Model):
    """`last` shows an outcome once."""

    def wipes(self, number, word):
        return word == b'last' or super().wipes(number, word)


class PlanNotStored(Model):
    """A plan stores nothing."""

    def stores(self, number, word):
        return False


class CheckStored(Model):
    """A check stores an outcome as a plan does."""

    def stores(self, number, word):
        return number == 0 and word == b'check' or super().stores(number, word)


class FewCellsStored(Model):
    """A plan with too few cells stores an outcome."""

    def stores(self, number, word):
        return number == 8 or super().stores(number, word)


class NoLoadsStored(Model):
    """A plan with no loads stores an outcome."""

    def stores(self, number, word):
        return number == 4 and word == b'plan' or super().stores(number, word)


class EqualTablesKeep(Model):
    """A change that leaves every table equal keeps the outcome."""

    def settle(self, line):
        before = self.saved()
        settled = super().settle(line)
        self.equal = before == self.saved()
        return settled

    def wipes(self, number, word):
        return super().wipes(number, word) and not self.equal


class SameBudgetKeeps(Model):
    """A budget that was the same keeps the outcome."""

    def settle(self, line):
        self.before = self.budget
        return super().settle(line)

    def wipes(self, number, word):
        return super().wipes(number, word) and not (word == b'budget' and self.budget == self.before)


class SecondMarkKeeps(Model):
    """A mark that was there keeps the outcome."""

    def settle(self, line):
        before = len(self.starts), len(self.ends)
        settled = super().settle(line)
        self.equal = before == (len(self.starts), len(self.ends))
        return settled

    def wipes(self, number, word):
        return super().wipes(number, word) and not (word in (b'start', b'end') and self.equal)


class TablesComeBack(Model):
    """The outcome is that of the tables for which it was stored, and current again where they come back."""

    def take(self, line):
        taken = super().take(line)
        self.planned = self.saved() if self.stores(*taken[:2]) else getattr(self, 'planned', None)
        self.stored = self.stored or self.planned == self.saved()
        return taken


class LastNeedsLoads(Model):
    """`last` with no loads is refused as a plan is."""

    def cause(self, word, values):
        return 4 if word == b'last' and not self.loads else super().cause(word, values)


class NineForTwelve(Model):
    """`last` with no current plan says that no allowed set fits."""

    def cause(self, word, values):
        number = super().cause(word, values)
        return 9 if number == 12 else number


class LastTakesFields(Model):
    """`last` may have a field."""

    def read(self, line):
        return super().read(b'last' if line.startswith(b'last,') else line)


# ---- kinds


class KindMore(Model):
    """There is one kind more."""
    most_kind = Model.most_kind + 1


class KindFewer(Model):
    """There is one kind fewer."""
    most_kind = Model.most_kind - 1


class KindNotTested(Model):
    """A kind may be any number."""
    most_kind = 10 ** Model.most_digits - 1


class KindWanted(Model):
    """A line of a load rule or of a load has a kind."""

    def with_kind(self, word, fields):
        return fields


class KindBarred(Model):
    """A line of a load rule or of a load may have no kind."""

    def with_kind(self, word, fields):
        return fields + [b''] if word in (b'rule', b'load') and len(fields) == 4 else super().with_kind(word, fields)


class EmptyKindTaken(Model):
    """An empty last field counts as kind 0."""

    def with_kind(self, word, fields):
        is_empty = word in (b'rule', b'load') and len(fields) == 4 and not fields[3]
        return super().with_kind(word, fields[:3] if is_empty else fields)


class FieldAfterKind(Model):
    """A field after the kind is left out."""

    def with_kind(self, word, fields):
        return super().with_kind(word, fields[:4] if word in (b'rule', b'load') else fields)


class RowKindTaken(Model):
    """A row rule may have a kind, which means nothing."""

    def with_kind(self, word, fields):
        return fields[:3] if word == b'row' else super().with_kind(word, fields)


class KindOfWrongForm(Model):
    """A kind out of its range is told as a wrong form."""

    def cause(self, word, values):
        number = super().cause(word, values)
        return 3 if number == 5 and word in (b'rule', b'load') and values[3] > self.most_kind else number


class KindNotStored(Model):
    """The kind of a load rule is answered `ok` and not stored."""

    def rule(self, *rule):
        super().rule(*rule[:3], 0)


class LoadKindNotStored(Model):
    """The kind of a load is answered `ok` and not stored."""

    def load(self, *figures):
        super().load(*figures[:3], 0)


class SameWithoutKind(Model):
    """Two load rules that differ in their kinds alone are the same."""

    def known(self, word, values):
        return super().known(word, values) or word == b'rule' and values[:3] in [rule[:3] for rule in self.rules]


class SameOfAKindTaken(Model):
    """The same load rule of a kind other than 0 is taken twice."""

    def known(self, word, values):
        return super().known(word, values) and (word == b'row' or values[3] == 0)


class RulesOfEachKind(Model):
    """There may be so many load rules of each kind."""

    def full(self, word, values):
        of_kind = [rule for rule in self.rules if rule[3] == values[3]] if word == b'rule' else []
        return super().full(word, values) and (word != b'rule' or len(of_kind) >= self.most_rules)


class NoneServed(Model):
    """A rule of a kind other than 0 serves no load."""

    def serves(self, rule, load):
        return super().serves(rule, load) and rule[3] == 0


class SaveWithoutKinds(Model):
    """`save` writes no kinds."""

    def saved(self):
        return self.saved_before()


class SaveWithoutKindNone(Model):
    """`save` leaves out a kind of 0."""

    def saved(self):
        return [self.written(word, values[:3] if values[3:] == [0] else values) for word, values in self.rebuilding()]


class SaveKindsIfAny(Model):
    """`save` writes kinds only while some are other than 0."""

    def saved(self):
        return super().saved() if self.kinds_in_use() else self.saved_before()


class SaveRowKinds(Model):
    """`save` writes a kind of 0 for a row rule too."""

    def saved(self):
        return [self.written(word, [*values, 0] if word == b'row' else values) for word, values in self.rebuilding()]


class Save1WithKinds(Model):
    """`save1` writes kinds as `save` does."""

    def saved_before(self):
        return self.saved()


class KindsDropped(Model):
    """`save1` leaves out kinds other than 0."""

    def kinds_in_use(self):
        return False


class KindsOfLoadsAlone(Model):
    """`save1` is refused for the kind of a load alone."""

    def kinds_in_use(self):
        return any(load[3] for load in self.loads)


class KindsOfRulesAlone(Model):
    """`save1` is refused for the kind of a load rule alone."""

    def kinds_in_use(self):
        return any(rule[3] for rule in self.rules)


class FiveForFourteen(Model):
    """`save1` while kinds are in use is told as a value out of its range."""

    def cause(self, word, values):
        number = super().cause(word, values)
        return 5 if number == 14 else number


class Save1TakesFields(Model):
    """`save1` may have a field."""

    def read(self, line):
        return super().read(b'save1' if line.startswith(b'save1,') else line)


class Save1Wipes(Model):
    """`save1` wipes the outcome."""

    def wipes(self, number, word):
        return number == 0 and word == b'save1' or super().wipes(number, word)


class KindsWipe(Model):
    """`save1` that is refused wipes the outcome."""

    def wipes(self, number, word):
        return number == 14 or super().wipes(number, word)


class DropForgetsKinds(Model):
    """A drop leaves the loads behind the one that leaves kind 0."""

    def drop(self, k):
        super().drop(k)
        for load in self.loads[k - 1:]:
            load[3] = 0


class KindsStay(Model):
    """A drop leaves the kinds at their places, whatever loads move there."""

    def drop(self, k):
        kinds = [load[3] for load in self.loads]
        super().drop(k)
        for load, kind in zip(self.loads, kinds):
            load[3] = kind


class PowerForgetsKind(Model):
    """`power` leaves its load kind 0."""

    def power(self, k, watts):
        super().power(k, watts)
        self.loads[k - 1][3] = 0


class WorthForgetsKind(Model):
    """`worth` leaves its load kind 0."""

    def worth(self, k, value):
        super().worth(k, value)
        self.loads[k - 1][3] = 0


class BookForgetsKinds(Model):
    """A new book leaves every load kind 0."""

    def book(self, states, stages):
        super().book(states, stages)
        for load in self.loads:
            load[3] = 0


# ---- needs


class NeedMore(Model):
    """A worth may be one greater."""
    most_need = Model.most_need + 1


class NeedLess(Model):
    """A worth may be only one less than the greatest."""
    most_need = Model.most_need - 1


class NeedOfOneLoad(Model):
    """A worth may be as great as that of a load."""
    most_need = Model.most_worth


class NeedNotTested(Model):
    """A worth may be any number."""
    most_need = 10 ** Model.most_digits - 1


class NeedAsBefore(Model):
    """A worth may be that of 64 loads, as before request Ten."""
    most_need = WORD_LOADS * Model.most_worth


class NeedUnknown(Model):
    """`need` is no command."""

    def read(self, line):
        return None if line.startswith(b'need,') else super().read(line)


class NeedTakesFields(Model):
    """`need` may have a second field."""

    def read(self, line):
        return super().read(line.rpartition(b',')[0] if line.startswith(b'need,') and line.count(b',') == 2 else line)


class NeedOfNoField(Model):
    """`need` without a field is of worth 0."""

    def read(self, line):
        return super().read(b'need,0' if line == b'need' else line)


class FiveBeforeFour(Model):
    """A worth out of its range is told before that there are no loads."""

    def cause(self, word, values):
        return 5 if word == b'need' and not self.in_range(word, values) else super().cause(word, values)


class EightBeforeFive(Model):
    """Too few cells for a need are told before a worth out of its range."""

    def cause(self, word, values):
        number = super().cause(word, values)
        return 8 if number == 5 and word == b'need' and self.cells() > self.cells_lent else number


class NeedOfNoLoads(Model):
    """A need with no loads is not refused for that."""

    def cause(self, word, values):
        number = super().cause(word, values)
        return 0 if number == 4 and word == b'need' else number


class NeedWithoutCells(Model):
    """A need has cells of its own."""

    def cause(self, word, values):
        number = super().cause(word, values)
        return 0 if number == 8 and word == b'need' else number


class NeedOfLast(Model):
    """A need with no current plan is refused as `last` is."""

    def cause(self, word, values):
        number = super().cause(word, values)
        return 12 if number == 0 and word == b'need' and not self.stored else number


class NeedWipes(Model):
    """A need wipes the outcome."""

    def wipes(self, number, word):
        return number == 0 and word == b'need' or super().wipes(number, word)


class NeedStored(Model):
    """A need stores an outcome as a plan does."""

    def stores(self, number, word):
        return number == 0 and word == b'need' or super().stores(number, word)


class NeedSetsBudget(Model):
    """A need leaves the first budget that it tried in force."""

    def settle(self, line):
        settled = super().settle(line)
        if settled[:2] == (0, b'need'):
            self.set_budget(0)
        return settled


# ---- 128 loads


class HighMarksLost(Model):
    """The marks of loads above 64 do not count for the figures of a plan."""

    def is_on(self, k, mark):
        return k <= WORD_LOADS and super().is_on(k, mark)


class HighBitsLost(Model):
    """The bits of a check above 64 are 0."""

    def bits(self, field):
        values = super().bits(field)
        return values and values[:WORD_LOADS] + [0] * len(values[WORD_LOADS:])


class HighBitsLow(Model):
    """The bits of a check above 64 are taken for the low ones."""

    def bits(self, field):
        values = super().bits(field)
        if not values:
            return values
        high = values[WORD_LOADS:2 * WORD_LOADS]
        low = [max(pair) for pair in zip(values, [*high, *[0] * WORD_LOADS])]
        return low[:WORD_LOADS] + [0] * len(values[WORD_LOADS:])


class ParentInAWord(Model):
    """Of a parent's number above 64 only what is above 64 is stored."""

    def load(self, *figures):
        super().load(figures[0] - WORD_LOADS if figures[0] > WORD_LOADS else figures[0], *figures[1:])


class HighLoadsNotStored(Model):
    """A load above 64 is answered `ok`, and its figures are those of an unused place."""

    def load(self, *figures):
        super().load(*(figures if len(self.loads) < WORD_LOADS else (figures[0], 0, 0, 0)))


def keeping(words):
    """The model in which changes by some words keep the outcome."""
    def wipes(self, number, word):
        return Model.wipes(self, number, word) and word not in words
    name = ''.join(word.decode().title() for word in words) + 'Keeps'
    return type(name, (Model,), {'wipes': wipes})


CHANGES = (b'clear',), (b'book',), (b'start', b'end'), (b'rule',), (b'row',), (b'load',), (b'power',), (b'worth',), (b'budget',), (b'drop',)
# Held here, since __subclasses__ forgets a class that nobody holds.
KEEPING = [keeping(words) for words in CHANGES]
WRONG = {kind.__name__: kind for kind in Model.__subclasses__()}
