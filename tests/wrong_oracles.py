"""Oracles that are wrong on purpose, each in one place. A comparison that cannot tell them from the product would show nothing."""
from limits import CELLS, LINE_BYTES, MAX_BUDGET, MAX_DIGITS, MAX_KIND, MAX_LOADS, MAX_NEED, MAX_RULES, MAX_WORTH, NO_SET, NOTHING, WORD_LOADS
from oracle import WITH_KIND, Oracle, parse


def with_fields(line, change):
    """The line with each number field changed. The field of `check` is no number."""
    word, *fields = line.split(b',')
    if word == b'check':
        return line
    return b','.join([word] + [change(field) if field.isdigit() else field for field in fields])


def without_zeros(line):
    return with_fields(line, lambda field: field.lstrip(b'0') or b'0')


class StageRestarts(Oracle):
    """A row starts its stage anew at each child."""

    def next_stage(self, row):
        return row[0]


class LeafAlwaysEnds(Oracle):
    """The last stage reached need not be an end stage."""

    def ends_here(self, stage):
        return True


class HighestFirst(Oracle):
    """Of equals the highest rule and the largest allowance are taken."""

    def order(self, numbers):
        return reversed(numbers)


class PowerKept(Oracle):
    """A row keeps the power of the load above it as allowance."""

    def left_for_row(self, allowance, power):
        return allowance


class FirstBudget(Oracle):
    """The plan of the first budget is repeated."""

    def act(self, word, f):
        if word == 'budget' and self.budget:
            return
        super().act(word, f)


class StoresNothing(Oracle):
    """A second rule is answered `ok` and not stored."""

    def act(self, word, f):
        if word == 'rule' and len(self.rules) > 1:
            return
        super().act(word, f)


class ZerosBarred(Oracle):
    """A number may have no zero in front."""

    def answer(self, line, cells=CELLS):
        return super().answer(line if without_zeros(line) == line else b'', cells)


class ZerosNotCounted(Oracle):
    """Zeros in front of a number count as no digits."""

    def answer(self, line, cells=CELLS):
        return super().answer(without_zeros(line), cells)


def in_order(lines, *words):
    """The lines of a save in another order of their words."""
    return sorted(lines, key=lambda line: words.index(line.split(',')[0]))


class EndsFirst(Oracle):
    """A save has the end stages before the start states."""

    def save(self):
        return in_order(super().save(), 'clear', 'book', 'end', 'start', 'rule', 'row', 'load', 'budget')


class RowsFirst(Oracle):
    """A save has the row rules before the load rules."""

    def save(self):
        return in_order(super().save(), 'clear', 'book', 'start', 'end', 'row', 'rule', 'load', 'budget')


class MarksDescend(Oracle):
    """A save has the greatest mark first."""

    def mark_lines(self, word, marks):
        return super().mark_lines(word, marks)[::-1]


class BookOfNone(Oracle):
    """A save has a book though there are no states."""

    def book_lines(self):
        return ['book,%d,%d' % (self.states, self.stages)]


class NoBudgetOfNone(Oracle):
    """A save leaves out a budget of 0."""

    def save(self):
        return super().save() if self.budget else super().save()[:-1]


class PaddedSave(Oracle):
    """A save writes its budget with two digits at least."""

    def save(self):
        return super().save()[:-1] + ['budget,%02d' % self.budget]


class NoSaveOfNoLoads(Oracle):
    """A save with no loads is refused."""

    def refusal(self, command, cells):
        return 4 if command == ('save', []) and not self.loads else super().refusal(command, cells)


class SaveTakesFields(Oracle):
    """A save may have fields."""

    def answer(self, line, cells=CELLS):
        return super().answer(b'save' if line.startswith(b'save,') else line, cells)


class ParentsStay(Oracle):
    """A drop leaves every parent's number as it was."""

    def fallen(self, number, k):
        return number


class OwnNumberFalls(Oracle):
    """Of the parents' numbers only that of the load that leaves falls."""

    def fallen(self, number, k):
        return number - 1 if number == k else number


class NextNumberFalls(Oracle):
    """Of the parents' numbers only the one after that of the load that leaves falls."""

    def fallen(self, number, k):
        return number - 1 if number == k + 1 else number


class LowerNumberFalls(Oracle):
    """The number before that of the load that leaves falls too."""

    def fallen(self, number, k):
        return number - 1 if number >= max(2, k - 1) else number


class LastIntoGap(Oracle):
    """The last load takes the place of the one that leaves."""

    def drop(self, k):
        self.loads[k - 1] = self.loads[-1]
        self.loads.pop()


def dropped(command):
    """The number of the load that a command would drop, or None."""
    return command[1][0] if command and command[0] == 'drop' else None


class ParentDropped(Oracle):
    """A load with children may leave."""

    def refusal(self, command, cells):
        number = super().refusal(command, cells)
        return 0 if number == 11 else number


class RootDropped(Oracle):
    """Load 1 may leave though there are others."""

    def refusal(self, command, cells):
        number = super().refusal(command, cells)
        return 0 if number == 11 and dropped(command) == 1 else number


class RefusedDropTaken(Oracle):
    """A load with children leaves though the drop is refused."""

    def refusal(self, command, cells):
        number = super().refusal(command, cells)
        if number == 11:
            self.drop(dropped(command))
            self.wipe()
        return number


class ChildrenFirst(Oracle):
    """That load k has children is told before that there is no load k: load 1 counts as a child of load 0."""

    def refusal(self, command, cells):
        return 11 if dropped(command) == 0 and self.loads else super().refusal(command, cells)


class OutOfRangeWithChildren(Oracle):
    """A load with children is told as a number out of its range."""

    def refusal(self, command, cells):
        number = super().refusal(command, cells)
        return 5 if number == 11 else number


class NoDropOfNoLoads(Oracle):
    """A drop with no loads is refused as a plan is."""

    def refusal(self, command, cells):
        return 4 if dropped(command) is not None and not self.loads else super().refusal(command, cells)


class PlaceLost(Oracle):
    """The place that a drop frees is not filled again."""

    def clear(self):
        super().clear()
        self.lost = 0

    def drop(self, k):
        super().drop(k)
        self.lost += 1

    def refusal(self, command, cells):
        number = super().refusal(command, cells)
        lacking = number == 0 and command[0] == 'load' and len(self.loads) + self.lost >= MAX_LOADS
        return 6 if lacking else number


class PlaceNotCleared(Oracle):
    """The place that a drop frees keeps what it held. Such a planner breaks a limit, and every later line is turned away."""

    def clear(self):
        super().clear()
        self.broken = False

    def drop(self, k):
        super().drop(k)
        self.broken = True

    def answer(self, line, cells=CELLS):
        return [] if self.broken else super().answer(line, cells)


class DropTakesMore(Oracle):
    """A drop may have further fields."""

    def answer(self, line, cells=CELLS):
        return super().answer(b','.join(line.split(b',')[:2]) if line.startswith(b'drop,') else line, cells)


def greatest(runs, allowance, merit):
    """The greatest of what runs within an allowance are compared by, two numbers of worth and power, or None."""
    return max((merit(worth, power) for worth, power, _ in runs if power <= allowance), default=None)


def by_worth(runs, allowance):
    return greatest(runs, allowance, lambda worth, power: (worth, 0))


class WorthAlone(Oracle):
    """Worth alone is best, as in paper 01, and the smallest allowance of a first child passes for the least power."""

    def best(self, runs, allowance):
        return by_worth(runs, allowance)


class PowerAtRootAlone(Oracle):
    """Power tells only between start states: load rules, row rules and allowances are chosen by worth alone."""

    def best_branch(self, runs, allowance):
        return by_worth(runs, allowance)

    def best_row(self, runs, allowance):
        return by_worth(runs, allowance)


class BranchesByWorth(Oracle):
    """Load rules are chosen by worth alone."""

    def best_branch(self, runs, allowance):
        return by_worth(runs, allowance)


class RowsByWorth(Oracle):
    """Row rules and allowances are chosen by worth alone."""

    def best_row(self, runs, allowance):
        return by_worth(runs, allowance)


class WarmerOfEquals(Oracle):
    """Of equal worth the set that draws more is taken."""

    def best(self, runs, allowance):
        return greatest(runs, allowance, lambda worth, power: (worth, power))


class PowerBeforeWorth(Oracle):
    """The plan is of least power, then of greatest worth."""

    def best(self, runs, allowance):
        return greatest(runs, allowance, lambda worth, power: (-power, worth))


class FewerLoads(Oracle):
    """Of equal worth the set with fewer loads on is taken, whatever it draws."""

    def best(self, runs, allowance):
        fitting = [(worth, run) for worth, power, run in runs if power <= allowance]
        return max(((worth, -sum(entry[0] for entry in run.values())) for worth, run in fitting), default=None)


class OffDraws(Oracle):
    """A load that is off draws its power too."""

    def figures(self, k, mark):
        return self.loads[k - 1][1], super().figures(k, mark)[1]


class WholeBudgetIsNone(Oracle):
    """A cell is worth * 500 + 500 - power, so that a set of worth 0 that draws 500 W is taken for none."""

    def best(self, runs, allowance):
        found = greatest(runs, allowance, lambda worth, power: (MAX_BUDGET * worth - power, 0))
        return None if found == (-MAX_BUDGET, 0) else found


class PowerIntoWorth(Oracle):
    """A cell is worth * 256 + 256 - power, so that 257 W more outweigh a worth of 1."""

    def best(self, runs, allowance):
        return greatest(runs, allowance, lambda worth, power: (256 * worth - power, 0))


class NumberWipes(Oracle):
    """Refusals with a number wipe the outcome. Those below name the number."""
    number = 0

    def answer(self, line, cells=CELLS):
        answer = super().answer(line, cells)
        if answer == ['no,%d' % self.number]:
            self.wipe()
        return answer


class LongLineWipes(NumberWipes):
    """A line that is too long wipes the outcome."""
    number = 2


class BrokenLineWipes(NumberWipes):
    """A line that breaks its form wipes the outcome."""
    number = 3


class OutOfRangeWipes(NumberWipes):
    """A value out of its range wipes the outcome."""
    number = 5


class FullWipes(NumberWipes):
    """A load for which there is no place wipes the outcome."""
    number = 6


class SameRuleWipes(NumberWipes):
    """A rule that is there already wipes the outcome."""
    number = 7


class FewCellsWipe(NumberWipes):
    """A plan with too few cells wipes the outcome."""
    number = 8


class NoneFitsNotStored(NumberWipes):
    """A plan's refusal 9 is not stored, and `last` says 12 then."""
    number = 9


class NotAllowedWipes(NumberWipes):
    """A checked set that is not allowed wipes the outcome."""
    number = 10


class ParentWipes(NumberWipes):
    """A drop of a load with children wipes the outcome."""
    number = 11


class WordWipes(Oracle):
    """A command that shows something wipes the outcome. Those below name the word."""
    word = ''

    def answer(self, line, cells=CELLS):
        answer = super().answer(line, cells)
        if parse(line) and parse(line)[0] == self.word and not answer[0].startswith('no,'):
            self.wipe()
        return answer


class AllowedWipes(WordWipes):
    """A checked set that is allowed wipes the outcome."""
    word = 'check'


class SaveWipes(WordWipes):
    """A save wipes the outcome."""
    word = 'save'


class LastWipes(WordWipes):
    """`last` shows a plan once."""
    word = 'last'


class Keeps(Oracle):
    """Accepted changes keep the outcome, of the loads that are still there, where `keeps` says so."""

    def keeps(self, word, saved):
        """Does a change by this word keep the outcome? The tables before it are those of the save."""

    def answer(self, line, cells=CELLS):
        saved, outcome = self.save(), self.outcome
        answer = super().answer(line, cells)
        if answer == ['ok'] and self.keeps(parse(line)[0], saved):
            is_run = outcome not in (NOTHING, NO_SET)
            self.outcome = {k: entry for k, entry in outcome.items() if k <= len(self.loads)} if is_run else outcome
        return answer


class EqualTablesKeep(Keeps):
    """A change that leaves every table equal keeps the outcome."""

    def keeps(self, word, saved):
        return self.save() == saved


class SecondMarkKeeps(Keeps):
    """A second `start` or `end` keeps the outcome."""

    def keeps(self, word, saved):
        return word in ('start', 'end') and self.save() == saved


class SameFigureKeeps(Keeps):
    """A power or a worth that was the same keeps the outcome."""

    def keeps(self, word, saved):
        return word in ('power', 'worth') and self.save() == saved


class SameBudgetKeeps(Keeps):
    """A budget that was the same keeps the outcome."""

    def keeps(self, word, saved):
        return word == 'budget' and self.save() == saved


class SameBookKeeps(Keeps):
    """A new book in the place of one that was as empty keeps the outcome."""

    def keeps(self, word, saved):
        return word == 'book' and self.save() == saved


class NoneFitsKept(Keeps):
    """A change wipes a plan, and not that no allowed set fits."""

    def keeps(self, word, saved):
        return self.none_fitted

    def answer(self, line, cells=CELLS):
        self.none_fitted = self.outcome == NO_SET
        return super().answer(line, cells)


def keeping(word):
    """The oracle in which changes by a word keep the outcome."""
    return type(word.title() + 'Keeps', (Keeps,), {'keeps': lambda self, found, saved: found == word})


class TablesComeBack(Oracle):
    """The outcome is that of the tables for which it was stored, and current again where they come back."""

    def store(self, run):
        super().store(run)
        self.planned = self.save(), self.outcome

    def answer(self, line, cells=CELLS):
        answer = super().answer(line, cells)
        if answer == ['ok'] and getattr(self, 'planned', (None,))[0] == self.save():
            self.outcome = self.planned[1]
        return answer


class CheckStores(Oracle):
    """A checked set that is allowed is stored as if it were planned."""

    def check(self, bits):
        run = super().check(bits)
        if run is not None:
            self.store(run)
        return run


class RefusedCheckStores(Oracle):
    """A checked set that is not allowed is stored as if none fitted."""

    def check(self, bits):
        run = super().check(bits)
        if run is None:
            self.store(run)
        return run


class FewCellsStored(Oracle):
    """A plan with too few cells is stored as if no allowed set fitted."""

    def answer(self, line, cells=CELLS):
        answer = super().answer(line, cells)
        if answer == ['no,8']:
            self.store(None)
        return answer


class LastNumber(Oracle):
    """`last` with no current plan has another number than 12. Those below name it."""
    number = 12

    def refusal(self, command, cells):
        number = super().refusal(command, cells)
        return self.number if number == 12 else number


class NoPlanIsNine(LastNumber):
    """`last` with no current plan says that no allowed set fits."""
    number = 9


class NoPlanIsFive(LastNumber):
    """`last` with no current plan is told as a value out of its range."""
    number = 5


class LastNeedsLoads(Oracle):
    """`last` with no loads is refused as a plan is."""

    def refusal(self, command, cells):
        return 4 if command == ('last', []) and not self.loads else super().refusal(command, cells)


class LastIsPlan(Oracle):
    """`last` plans anew."""

    def answer(self, line, cells=CELLS):
        return super().answer(b'plan' if line == b'last' else line, cells)


class LastPlansIfNone(Oracle):
    """`last` plans where no plan is current and there are loads."""

    def answer(self, line, cells=CELLS):
        return super().answer(b'plan' if line == b'last' and self.outcome == NOTHING and self.loads else line, cells)


class FirstLineAlone(Oracle):
    """`last` shows the first line of a plan alone."""

    def answer(self, line, cells=CELLS):
        answer = super().answer(line, cells)
        return answer[:1] if line == b'last' else answer


class LastIsYes(Oracle):
    """`last` shows its run as a check does."""

    def answer(self, line, cells=CELLS):
        answer = super().answer(line, cells)
        return ['yes', *answer[1:]] if line == b'last' and answer[0].startswith('plan,') else answer


class LastTakesFields(Oracle):
    """`last` may have fields."""

    def answer(self, line, cells=CELLS):
        return super().answer(b'last' if line.startswith(b'last,') else line, cells)


class LastUnknown(Oracle):
    """`last` is no command, as it was before request Five."""

    def answer(self, line, cells=CELLS):
        return super().answer(b'' if line == b'last' else line, cells)


# ---- kinds: which rules serve


class KindsIgnored(Oracle):
    """A rule serves every load."""

    def serves(self, rule, load):
        return True


class PlanBlind(Oracle):
    """A plan is made by rules of every kind."""
    blind = False

    def serves(self, rule, load):
        return self.blind or super().serves(rule, load)

    def plan(self):
        self.blind = True
        run = super().plan()
        self.blind = False
        return run


class CheckBlind(PlanBlind):
    """A set is checked by rules of every kind."""

    def plan(self):
        return Oracle.plan(self)

    def check(self, bits):
        self.blind = True
        run = super().check(bits)
        self.blind = False
        return run


class NoneServesAll(Oracle):
    """A rule of kind 0 serves every load."""

    def serves(self, rule, load):
        return rule[3] == 0 or super().serves(rule, load)


class NoneServedByAll(Oracle):
    """A load of kind 0 is served by every rule."""

    def serves(self, rule, load):
        return load[3] == 0 or super().serves(rule, load)


class HigherServed(Oracle):
    """A rule serves loads of higher kinds too."""

    def serves(self, rule, load):
        return rule[3] <= load[3]


class LowerServed(Oracle):
    """A rule serves loads of lower kinds too."""

    def serves(self, rule, load):
        return rule[3] >= load[3]


class OthersServed(Oracle):
    """There are two sorts of rules: those of kind 0, and those of the other kinds, which serve each other's loads."""

    def serves(self, rule, load):
        return (rule[3] == 0) == (load[3] == 0)


class RootOfAnyKind(Oracle):
    """The root is served by every rule."""

    def serves(self, rule, load):
        return load[0] == 0 or super().serves(rule, load)


class NoneServed(Oracle):
    """A rule serves only loads of kind 0 that it has the kind of: those of other kinds have no run."""

    def serves(self, rule, load):
        return rule[3] == load[3] == 0


class KindOfParent(Oracle):
    """A load that is entered without a kind has that of its parent."""

    def answer(self, line, cells=CELLS):
        command = parse(line)
        if command and command[0] == 'load' and line.count(b',') == 3 and 1 <= command[1][0] <= len(self.loads):
            line += b',%d' % self.loads[command[1][0] - 1][3]
        return super().answer(line, cells)


# ---- kinds: the lines of load rules and loads


class KindMore(Oracle):
    """There is one kind more."""
    most_kind = MAX_KIND + 1


class KindFewer(Oracle):
    """There is one kind fewer."""
    most_kind = MAX_KIND - 1


class KindNotTested(Oracle):
    """A kind may be any number."""
    most_kind = 10**MAX_DIGITS - 1


def with_last(line, change):
    """The line of a load rule or of a load with its kind changed, if it has one and is in form."""
    command = parse(line)
    has_kind = command and command[0] in WITH_KIND and line.count(b',') == 4
    return line[:line.rindex(b',')] + change(command[1][3]) if has_kind else line


class KindInAByte(Oracle):
    """Of a kind the last 8 binary digits count."""

    def answer(self, line, cells=CELLS):
        return super().answer(with_last(line, lambda kind: b',%d' % (kind % 256)), cells)


class KindNotStored(Oracle):
    """A kind in its range is taken, and not stored."""

    def answer(self, line, cells=CELLS):
        return super().answer(with_last(line, lambda kind: b',%d' % (kind if kind > MAX_KIND else 0)), cells)


class KindBarred(Oracle):
    """A line may have no kind, as before request Eight."""

    def answer(self, line, cells=CELLS):
        return super().answer(with_last(line, lambda kind: b',x'), cells)


class KindWanted(Oracle):
    """A line of a load rule or of a load has a kind."""

    def answer(self, line, cells=CELLS):
        return super().answer(b'' if line.startswith((b'rule,', b'load,')) and line.count(b',') == 3 else line, cells)


class RulesAloneHaveKinds(Oracle):
    """The line of a load may have no kind."""

    def answer(self, line, cells=CELLS):
        return super().answer(b'' if line.startswith(b'load,') and line.count(b',') == 4 else line, cells)


class EmptyKindTaken(Oracle):
    """An empty last field counts as kind 0."""

    def answer(self, line, cells=CELLS):
        is_empty = line.startswith((b'rule,', b'load,')) and line.endswith(b',') and line.count(b',') == 4
        return super().answer(line + b'0' if is_empty else line, cells)


class FieldAfterKind(Oracle):
    """A field after the kind is left out."""

    def answer(self, line, cells=CELLS):
        return super().answer(b','.join(line.split(b',')[:5]) if line.startswith((b'rule,', b'load,')) else line, cells)


class RowKindTaken(Oracle):
    """A row rule may have a kind, which means nothing."""

    def answer(self, line, cells=CELLS):
        return super().answer(b','.join(line.split(b',')[:4]) if line.startswith(b'row,') else line, cells)


class KindOfWrongForm(Oracle):
    """A kind out of its range is told as a wrong form."""

    def refusal(self, command, cells):
        number = super().refusal(command, cells)
        return 3 if number == 5 and command[0] in WITH_KIND and command[1][3] > MAX_KIND else number


class KindAfterFull(Oracle):
    """That there is no place is told before a kind out of its range."""

    def refusal(self, command, cells):
        number = super().refusal(command, cells)
        if number == 5 and command[0] in WITH_KIND and super().refusal((command[0], [*command[1][:3], 0]), cells) == 6:
            return 6
        return number


# ---- kinds: which rules are the same, and how many there may be


class SameWithoutKind(Oracle):
    """Two load rules that differ in their kinds alone are the same."""

    def is_same(self, rule, other):
        return rule[:3] == other[:3]


class SameOfAKindTaken(Oracle):
    """The same load rule of a kind other than 0 is taken twice."""

    def is_same(self, rule, other):
        return super().is_same(rule, other) and (len(rule) == 3 or rule[3] == 0)


class WrittenKindDiffers(Oracle):
    """A load rule whose kind 0 is written is another one than without."""

    def answer(self, line, cells=CELLS):
        self.written = line.count(b',') == 4
        return super().answer(line, cells)

    def refusal(self, command, cells):
        number = super().refusal(command, cells)
        return 0 if number == 7 and command[0] == 'rule' and self.written and command[1][3] == 0 else number


class RulesOfEachKind(Oracle):
    """As many load rules as there may be of each kind."""

    def refusal(self, command, cells):
        number = super().refusal(command, cells)
        if number == 6 and command[0] == 'rule':
            of_kind = [rule for rule in self.rules if rule[3] == command[1][3]]
            return 6 if len(of_kind) >= MAX_RULES else 7 if tuple(command[1]) in of_kind else 0
        return number


# ---- kinds: saves


class SaveWithoutKinds(Oracle):
    """`save` writes no kinds, as before request Eight."""

    def save(self):
        return self.save1()


class SaveWithoutKindNone(Oracle):
    """`save` leaves out a kind of 0."""

    def save(self):
        return [line[:-2] if line.startswith(WITH_KIND) and line.endswith(',0') else line for line in super().save()]


class SaveKindsOfRules(Oracle):
    """`save` writes the kinds of load rules alone."""

    def save(self):
        return [old if old.startswith('load') else line for line, old in zip(super().save(), self.save1())]


class SaveKindsOfLoads(Oracle):
    """`save` writes the kinds of loads alone."""

    def save(self):
        return [old if old.startswith('rule') else line for line, old in zip(super().save(), self.save1())]


class SaveKindsIfAny(Oracle):
    """`save` writes kinds only while some are other than 0."""

    def save(self):
        return super().save() if self.kinds_in_use() else self.save1()


class SaveRowKinds(Oracle):
    """`save` writes a kind of 0 for a row rule too."""

    def save(self):
        return [line + ',0' if line.startswith('row') else line for line in super().save()]


class Save1WithKinds(Oracle):
    """`save1` writes kinds as `save` does."""

    def save1(self):
        return self.save()


class KindsDropped(Oracle):
    """`save1` leaves out kinds other than 0."""

    def kinds_in_use(self):
        return False


class KindsOfLoadsAlone(Oracle):
    """`save1` is refused for the kind of a load alone."""

    def kinds_in_use(self):
        return any(load[3] for load in self.loads)


class KindsOfRulesAlone(Oracle):
    """`save1` is refused for the kind of a load rule alone."""

    def kinds_in_use(self):
        return any(rule[3] for rule in self.rules)


class KindsOfBoth(Oracle):
    """`save1` is refused only where a load and a load rule have kinds."""

    def kinds_in_use(self):
        return any(load[3] for load in self.loads) and any(rule[3] for rule in self.rules)


class KindsOfFirst(Oracle):
    """`save1` is refused only for the kind of the first load or of the first load rule."""

    def kinds_in_use(self):
        return any(one[3] for one in self.rules[:1] + self.loads[:1])


class Save1Number(Oracle):
    """`save1` while kinds are in use has another number than 14. Those below name it."""
    number = 14

    def refusal(self, command, cells):
        number = super().refusal(command, cells)
        return self.number if number == 14 else number


class KindsAreFive(Save1Number):
    """`save1` while kinds are in use is told as a value out of its range."""
    number = 5


class KindsAreThree(Save1Number):
    """`save1` while kinds are in use is told as no command."""
    number = 3


class KindsBeforeForm(Oracle):
    """That kinds are in use is told before a wrong form of `save1`."""

    def answer(self, line, cells=CELLS):
        return super().answer(b'save1' if line.startswith(b'save1,') and self.kinds_in_use() else line, cells)


class KindsBarSave(Oracle):
    """`save` is refused too while kinds are in use."""

    def refusal(self, command, cells):
        return super().refusal(('save1', []) if command == ('save', []) else command, cells)


class Save1TakesFields(Oracle):
    """`save1` may have fields."""

    def answer(self, line, cells=CELLS):
        return super().answer(b'save1' if line.startswith(b'save1,') else line, cells)


class Save1AsField(Oracle):
    """`save,1` is `save1`."""

    def answer(self, line, cells=CELLS):
        return super().answer(b'save1' if line == b'save,1' else line, cells)


class Save1Unknown(Oracle):
    """`save1` is no command, as it was before request Eight."""

    def answer(self, line, cells=CELLS):
        return super().answer(b'' if line == b'save1' else line, cells)


class Save1OfNoLoads(Oracle):
    """`save1` with no loads is refused as a plan is."""

    def refusal(self, command, cells):
        return 4 if command == ('save1', []) and not self.loads else super().refusal(command, cells)


class Save1Wipes(WordWipes):
    """`save1` wipes the outcome."""
    word = 'save1'


class KindsWipe(NumberWipes):
    """`save1` that is refused wipes the outcome."""
    number = 14


def without_kind(one):
    """A load rule or a load with kind 0."""
    return *one[:3], 0


class Save1ForgetsKinds(Oracle):
    """`save1` that is refused leaves every kind 0."""

    def refusal(self, command, cells):
        number = super().refusal(command, cells)
        if number == 14:
            self.rules, self.loads = [without_kind(rule) for rule in self.rules], [without_kind(load) for load in self.loads]
        return number


# ---- kinds: changes


class DropForgetsKinds(Oracle):
    """A drop leaves every load kind 0."""

    def drop(self, k):
        super().drop(k)
        self.loads = [without_kind(load) for load in self.loads]


class DropForgetsLater(Oracle):
    """A drop leaves the loads behind the one that leaves kind 0."""

    def drop(self, k):
        super().drop(k)
        self.loads = self.loads[:k - 1] + [without_kind(load) for load in self.loads[k - 1:]]


class KindsStay(Oracle):
    """A drop leaves the kinds at their places, whatever loads move there."""

    def drop(self, k):
        kinds = [load[3] for load in self.loads]
        super().drop(k)
        self.loads = [(*load[:3], kind) for load, kind in zip(self.loads, kinds)]


def forgetting(word):
    """The oracle in which a change by a word leaves the load that it names kind 0."""
    def act(self, found, f):
        Oracle.act(self, found, f)
        if found == word:
            self.loads[f[0] - 1] = without_kind(self.loads[f[0] - 1])
    return type(word.title() + 'ForgetsKind', (Oracle,), {'act': act})


class BookForgetsKinds(Oracle):
    """A new book leaves every load kind 0."""

    def act(self, word, f):
        super().act(word, f)
        if word == 'book':
            self.loads = [without_kind(load) for load in self.loads]


# ---- needs: which budget


def needed(command):
    """The worth that a command asks the least budget for, or None."""
    return command[1][0] if command and command[0] == 'need' else None


def budget_in(answer):
    """The budget that the answer to a need shows, or None."""
    return int(answer[0][len('need,'):]) if answer[0].startswith('need,') else None


class MoreThanWorth(Oracle):
    """A plan does only if it has more than the worth."""

    def does(self, best, worth):
        return best is not None and best[0] > worth


class MoreBelowBudget(Oracle):
    """Below the budget in force a plan does only if it has more than the worth."""

    def least(self, bests, worth):
        return next((budget for budget, best in enumerate(bests) if best is not None and best[0] > worth), self.budget)


class ExactWorth(Oracle):
    """A plan does only if it has just the worth."""

    def does(self, best, worth):
        return best is not None and best[0] == worth


class GreatestBudget(Oracle):
    """The greatest budget that does is shown, which is the one in force."""

    def least(self, bests, worth):
        return self.budget


class FirstPlan(Oracle):
    """The first budget that has a plan is shown, whatever the plan is worth."""

    def least(self, bests, worth):
        return next(budget for budget, best in enumerate(bests) if best is not None)


class NothingForNothing(Oracle):
    """For a worth of 0 the budget 0 is shown, though it may have no plan."""

    def least(self, bests, worth):
        return super().least(bests, worth) if worth else 0


class WattLess(Oracle):
    """The greatest budget that does not do is shown."""

    def least(self, bests, worth):
        return max(0, super().least(bests, worth) - 1)


class WattMore(Oracle):
    """The budget after the least is shown, if it is not above the one in force."""

    def least(self, bests, worth):
        return min(self.budget, super().least(bests, worth) + 1)


class BudgetFromOne(Oracle):
    """A budget of 0 is not tried, but where it is in force."""

    def least(self, bests, worth):
        return max(min(1, self.budget), super().least(bests, worth))


class PowerOfPlan(Oracle):
    """The power of the plan at the budget in force is shown."""

    def least(self, bests, worth):
        return -bests[-1][1]


class HalfAndHalf(Oracle):
    """The least budget is sought by halves, above one that is taken not to do: a budget of 0 is not tried."""

    def least(self, bests, worth):
        low, high = 0, self.budget
        while high - low > 1:
            middle = (low + high) // 2
            low, high = (low, middle) if self.does(bests[middle], worth) else (middle, high)
        return high


class WarmestOfWorth(Oracle):
    """The greatest power of a set that is worth just as much, or else the least budget, is shown."""

    def need(self, worth):
        answer = super().need(worth)
        powers = [power for found, power, _ in self.tree_runs() if found == worth and power <= self.budget]
        return ['need,%d' % max(powers)] if powers and budget_in(answer) is not None else answer


class NeedBlind(PlanBlind):
    """A need is met by rules of every kind."""

    def plan(self):
        return Oracle.plan(self)

    def need(self, worth):
        self.blind = True
        answer = super().need(worth)
        self.blind = False
        return answer


class BudgetsAbove(Oracle):
    """Budgets above the one in force are tried too."""

    def need(self, worth):
        in_force, self.budget = self.budget, MAX_BUDGET
        answer = super().need(worth)
        self.budget = in_force
        return answer


# ---- needs: refusals


class PoorBeforeNone(Oracle):
    """That the plan is worth less is told before that no allowed set fits."""

    def need(self, worth):
        answer = super().need(worth)
        return ['no,15'] if answer == ['no,9'] else answer


class PoorBeforeNoneButOfNothing(Oracle):
    """That no allowed set fits is told only for a worth of 0, and otherwise that the plan is worth less."""

    def need(self, worth):
        answer = super().need(worth)
        return ['no,15'] if answer == ['no,9'] and worth else answer


class PoorFirst(Oracle):
    """That the plan is worth less is told before that there are too few cells."""

    def refusal(self, command, cells):
        number = super().refusal(command, cells)
        return 15 if number == 8 and needed(command) is not None and self.need(needed(command)) == ['no,15'] else number


class NoneBeforeCells(Oracle):
    """That no allowed set fits is told before that there are too few cells."""

    def refusal(self, command, cells):
        number = super().refusal(command, cells)
        return 9 if number == 8 and needed(command) is not None and self.need(0) == ['no,9'] else number


class RangeAfterCells(Oracle):
    """Too few cells are told before a worth out of its range."""

    def refusal(self, command, cells):
        number = super().refusal(command, cells)
        return 8 if number == 5 and needed(command) is not None and cells < self.cells() else number


class RangeAfterNone(Oracle):
    """That no allowed set fits is told before a worth out of its range."""

    def refusal(self, command, cells):
        number = super().refusal(command, cells)
        return 9 if number == 5 and needed(command) is not None and cells >= self.cells() and self.need(0) == ['no,9'] else number


class RangeBeforeLoads(Oracle):
    """A worth out of its range is told before that there are no loads."""

    def refusal(self, command, cells):
        number = super().refusal(command, cells)
        return 5 if number == 4 and needed(command) is not None and not self.in_range(*command) else number


class NeedNumber(Oracle):
    """Where the plan is worth less the answer is another than 15. Those below name it."""
    poor = 'no,15'

    def need(self, worth):
        answer = super().need(worth)
        return [self.poor] if answer == ['no,15'] else answer


class PoorIsNine(NeedNumber):
    """That the plan is worth less is told as that no allowed set fits."""
    poor = 'no,9'


class PoorIsFive(NeedNumber):
    """That the plan is worth less is told as a worth out of its range."""
    poor = 'no,5'


class PoorIsFourteen(NeedNumber):
    """That the plan is worth less has the number before its own."""
    poor = 'no,14'


class PoorNotRefused(Oracle):
    """Where the plan is worth less the budget in force is shown."""

    def need(self, worth):
        answer = super().need(worth)
        return ['need,%d' % self.budget] if answer == ['no,15'] else answer


class NoneIsNothing(Oracle):
    """Where no allowed set fits a worth of 0 needs a budget of 0."""

    def need(self, worth):
        answer = super().need(worth)
        return ['need,0'] if answer == ['no,9'] and worth == 0 else answer


class NeedMore(Oracle):
    """A worth may be one greater."""
    most_need = MAX_NEED + 1


class NeedLess(Oracle):
    """A worth may be only one less than the greatest."""
    most_need = MAX_NEED - 1


class NeedOfOneLoad(Oracle):
    """A worth may be as great as that of a load."""
    most_need = MAX_WORTH


class NeedNotTested(Oracle):
    """A worth may be any number."""
    most_need = 10**MAX_DIGITS - 1


class NeedOfLoadsThere(Oracle):
    """A worth may be as great as so many loads as there are can have."""

    def in_range(self, word, f):
        return super().in_range(word, f) and (word != 'need' or f[0] <= MAX_WORTH * len(self.loads))


class NeedOfWorthThere(Oracle):
    """A worth may be as great as that of all loads together."""

    def in_range(self, word, f):
        return super().in_range(word, f) and (word != 'need' or f[0] <= sum(load[2] for load in self.loads))


class NeedInTwoBytes(Oracle):
    """Of a worth the last 16 binary digits count."""

    def answer(self, line, cells=CELLS):
        worth = needed(parse(line))
        return super().answer(line if worth is None else b'need,%d' % (worth % 2**16), cells)


class NeedOfNoLoads(Oracle):
    """With no loads a worth of 0 needs a budget of 0."""

    def answer(self, line, cells=CELLS):
        return ['need,0'] if needed(parse(line)) == 0 and not self.loads else super().answer(line, cells)


class NeedWithoutCells(Oracle):
    """A need has cells of its own, and is not refused for want of them."""

    def refusal(self, command, cells):
        number = super().refusal(command, cells)
        return 0 if number == 8 and needed(command) is not None else number


class CellsOfLeast(Oracle):
    """A need is refused only where there are too few cells for a plan at the budget that it shows."""

    def refusal(self, command, cells):
        number = super().refusal(command, cells)
        found = budget_in(self.need(needed(command))) if number == 8 and needed(command) is not None else None
        return number if found is None or len(self.loads) * (self.states + self.stages) * (found + 1) > cells else 0


# ---- needs: lines


class NeedUnknown(Oracle):
    """`need` is no command, as it was before request Nine."""

    def answer(self, line, cells=CELLS):
        return super().answer(line if needed(parse(line)) is None else b'', cells)


class NeedTakesMore(Oracle):
    """A need may have further fields."""

    def answer(self, line, cells=CELLS):
        return super().answer(b','.join(line.split(b',')[:2]) if line.startswith(b'need,') else line, cells)


class NeedOfNoField(Oracle):
    """A need without a field, or with an empty one, is of worth 0."""

    def answer(self, line, cells=CELLS):
        return super().answer(b'need,0' if line in (b'need', b'need,') else line, cells)


def of_more_digits(field):
    """A number of one digit more than it may have as one that is in form."""
    return b'%d' % min(int(field), 10**MAX_DIGITS - 1) if len(field) == MAX_DIGITS + 1 else field


class NeedInMoreDigits(Oracle):
    """A worth that is asked for may have one digit more."""

    def answer(self, line, cells=CELLS):
        return super().answer(with_fields(line, of_more_digits) if line.startswith(b'need,') else line, cells)


class NeedShowsWorth(Oracle):
    """The worth that was asked for is shown too."""

    def need(self, worth):
        answer = super().need(worth)
        return answer if budget_in(answer) is None else ['%s,%d' % (answer[0], worth)]


class NeedShowsPlan(Oracle):
    """The plan at the least budget is shown in the place of that."""

    def need(self, worth):
        answer = super().need(worth)
        return answer if budget_in(answer) is None else self.planned_at(budget_in(answer))

    def planned_at(self, budget):
        before, outcome, self.budget = self.budget, self.outcome, budget
        self.store(self.plan())
        shown, self.budget, self.outcome = self.shown(), before, outcome
        return shown


class NeedPadded(Oracle):
    """The budget is shown in three digits."""

    def need(self, worth):
        answer = super().need(worth)
        return answer if budget_in(answer) is None else ['need,%03d' % budget_in(answer)]


# ---- needs: what they leave


class NeedLeaves(Oracle):
    """A need leaves something else than it found, where it shows a budget. Those below say what."""

    def leave(self, budget):
        """Changes what is left."""

    def need(self, worth):
        answer = super().need(worth)
        if budget_in(answer) is not None:
            self.leave(budget_in(answer))
        return answer


class BudgetSet(NeedLeaves):
    """The budget that is shown is in force then."""

    def leave(self, budget):
        self.budget = budget


class BudgetTried(NeedLeaves):
    """The budget that was tried before the last is in force then."""

    def leave(self, budget):
        self.budget = max(0, budget - 1)


class NeedWipes(NeedLeaves):
    """A need wipes the outcome."""

    def leave(self, budget):
        self.wipe()


class NeedStores(NeedLeaves):
    """A need stores the plan at the budget that it shows."""

    def leave(self, budget):
        in_force, self.budget = self.budget, budget
        self.store(self.plan())
        self.budget = in_force


class NeedStoresInForce(NeedLeaves):
    """A need stores the plan at the budget in force."""

    def leave(self, budget):
        self.store(self.plan())


class PoorWipes(NumberWipes):
    """A need that is refused since the plan is worth less wipes the outcome."""
    number = 15


class PoorStores(Oracle):
    """A need that is refused since the plan is worth less stores that plan."""

    def need(self, worth):
        answer = super().need(worth)
        if answer == ['no,15']:
            self.store(self.plan())
        return answer


class NoneFitsNeedStores(Oracle):
    """A need that no allowed set fits is stored as a plan's is."""

    def need(self, worth):
        answer = super().need(worth)
        if answer == ['no,9']:
            self.store(None)
        return answer


class NoneFitsNeedWipes(Oracle):
    """A need that no allowed set fits wipes the outcome."""

    def need(self, worth):
        answer = super().need(worth)
        if answer == ['no,9']:
            self.wipe()
        return answer


class NeedOfLast(Oracle):
    """A need with no current plan is refused as `last` is."""

    def refusal(self, command, cells):
        number = super().refusal(command, cells)
        return 12 if number == 0 and needed(command) is not None and self.outcome == NOTHING else number


# ---- 128 loads: limits


class LoadMore(Oracle):
    """There may be one load more."""
    most_loads = MAX_LOADS + 1


class LoadFewer(Oracle):
    """There may be one load fewer."""
    most_loads = MAX_LOADS - 1


class LoadsAsBefore(Oracle):
    """There may be as many loads as before request Ten: those of one word."""
    most_loads = WORD_LOADS


class LineLonger(Oracle):
    """A line may have one byte more."""
    most_bytes = LINE_BYTES + 1


class LineShorter(Oracle):
    """A line may have one byte fewer."""
    most_bytes = LINE_BYTES - 1


class LineAsBefore(Oracle):
    """A line may have as many bytes as before request Ten."""
    most_bytes = 80


class DigitMore(Oracle):
    """A number may have one digit more."""

    def answer(self, line, cells=CELLS):
        return super().answer(with_fields(line, of_more_digits), cells)


class DigitsAsBefore(Oracle):
    """A number may have one digit fewer, as before request Ten."""

    def answer(self, line, cells=CELLS):
        return super().answer(with_fields(line, lambda field: b'x' if len(field) == MAX_DIGITS else field), cells)


class NeedAsBefore(Oracle):
    """A worth may be as great as before request Ten: that of the loads of one word."""
    most_need = WORD_LOADS * MAX_WORTH


class ParentInAWord(Oracle):
    """Of a parent's number above 64 only what is above 64 counts."""

    def act(self, word, f):
        above = word == 'load' and f[0] > WORD_LOADS
        super().act(word, [f[0] - WORD_LOADS, *f[1:]] if above else f)


# ---- 128 loads: the two words of a set


class OtherMarks(Oracle):
    """A run of a plan has other marks than those of its rules. Those below say which."""

    def other(self, marks):
        """Other marks for those of the loads in order."""

    def with_others(self, run):
        marks = self.other([run[k][0] for k in sorted(run)])
        return {k: (mark, *run[k][1:]) for k, mark in zip(sorted(run), marks)}

    def plan(self):
        run = super().plan()
        return None if run is None else self.with_others(run)


def in_words(marks):
    """The marks of the first word, and those of the second one."""
    return marks[:WORD_LOADS], marks[WORD_LOADS:]


class HighMarksLost(OtherMarks):
    """No mark of the second word is kept."""

    def other(self, marks):
        low, high = in_words(marks)
        return low + [0] * len(high)


class HighMarksLow(OtherMarks):
    """A mark of the second word is kept in the first one."""

    def other(self, marks):
        low, high = in_words(marks)
        return [mark or k < len(high) and high[k] for k, mark in enumerate(low)] + [0] * len(high)


class WordsShared(OtherMarks):
    """There is one word: a load and the one 64 behind it have one mark."""

    def other(self, marks):
        return [max(marks[k % WORD_LOADS::WORD_LOADS]) for k in range(len(marks))]


class LowMarksLost(OtherMarks):
    """With more loads than a word has marks those of the first word are lost."""

    def other(self, marks):
        low, high = in_words(marks)
        return [0] * len(low) + high if high else low


class LastMarkLost(OtherMarks):
    """The last load that there may be has no mark."""

    def other(self, marks):
        return marks[:MAX_LOADS - 1] + [0] * len(marks[MAX_LOADS - 1:])


class FirstHighMarkLost(OtherMarks):
    """The first load of the second word has no mark."""

    def other(self, marks):
        return [0 if k == WORD_LOADS else mark for k, mark in enumerate(marks)]


class CheckedBits(Oracle):
    """A check is of another set. Those below say which."""

    def other(self, bits):
        """The bits that are checked."""

    def check(self, bits):
        return super().check(self.other(bits))


class HighBitsLost(CheckedBits):
    """Bits above 64 are 0."""

    def other(self, bits):
        return HighMarksLost.other(self, bits)


class HighBitsLow(CheckedBits):
    """Bits above 64 are taken for the low ones."""

    def other(self, bits):
        return HighMarksLow.other(self, bits)


class HighBitsRepeat(CheckedBits):
    """The bits above 64 are those of the first word again."""

    def other(self, bits):
        low, high = in_words(bits)
        return low + low[:len(high)]


class BitsSwapped(CheckedBits):
    """Of as many loads as there may be the bits of the two words are in each other's place."""

    def other(self, bits):
        low, high = in_words(bits)
        return high + low if len(low) == len(high) else bits


class ShownOtherwise(Oracle):
    """A plan's first line has another figure. Those below say which."""

    def other(self, worth, power, count):
        """The figures that are shown."""

    def shown(self):
        lines = super().shown()
        if not lines[0].startswith('plan,'):
            return lines
        return ['plan,%d,%d,%d' % self.other(*map(int, lines[0].split(',')[1:])), *lines[1:]]


class CountOfFirstWord(ShownOtherwise):
    """The number of loads on is that of the first word."""

    def other(self, worth, power, count):
        return worth, power, sum(entry[0] for k, entry in self.outcome.items() if k <= WORD_LOADS)


class CountOfSecondWord(ShownOtherwise):
    """With more loads than a word has marks the number of loads on is that of the second word."""

    def other(self, worth, power, count):
        high = sum(entry[0] for k, entry in self.outcome.items() if k > WORD_LOADS)
        return worth, power, high if len(self.loads) > WORD_LOADS else count


class WorthInTwoBytes(ShownOtherwise):
    """Of the worth the last 16 binary digits are shown."""

    def other(self, worth, power, count):
        return worth % 2**16, power, count


class WorthInFiveDigits(ShownOtherwise):
    """Of the worth the last five digits are shown."""

    def other(self, worth, power, count):
        return worth % 10**5, power, count


# Those that are wrong in a drop that has its form, in `last`, in kinds and in needs, and all of them. FewCellsWipe is not among them: with the
# line program's cells a plan that was stored is never refused with 8 (librarycheck.py).
WRONG_DROPS = [
    ParentsStay, OwnNumberFalls, NextNumberFalls, LowerNumberFalls, LastIntoGap, ParentDropped, RootDropped, RefusedDropTaken, ChildrenFirst,
    OutOfRangeWithChildren, NoDropOfNoLoads, PlaceLost, PlaceNotCleared, DropForgetsKinds, DropForgetsLater, KindsStay,
]
WRONG_LASTS = [
    LongLineWipes, BrokenLineWipes, OutOfRangeWipes, FullWipes, SameRuleWipes, NoneFitsNotStored, NotAllowedWipes, ParentWipes, AllowedWipes,
    SaveWipes, LastWipes, EqualTablesKeep, SecondMarkKeeps, SameFigureKeeps, SameBudgetKeeps, SameBookKeeps, NoneFitsKept,
    *map(keeping, ('clear', 'book', 'start', 'end', 'rule', 'row', 'load', 'power', 'worth', 'budget', 'drop')), TablesComeBack, CheckStores,
    RefusedCheckStores, FewCellsStored, NoPlanIsNine, NoPlanIsFive, LastNeedsLoads, LastIsPlan, LastPlansIfNone, FirstLineAlone, LastIsYes,
    LastTakesFields, LastUnknown,
]
WRONG_KINDS = [
    KindsIgnored, PlanBlind, CheckBlind, NoneServesAll, NoneServedByAll, HigherServed, LowerServed, OthersServed, RootOfAnyKind, NoneServed,
    KindOfParent, KindMore, KindFewer, KindNotTested, KindInAByte, KindNotStored, KindBarred, KindWanted, RulesAloneHaveKinds, EmptyKindTaken,
    FieldAfterKind, RowKindTaken, KindOfWrongForm, KindAfterFull, SameWithoutKind, SameOfAKindTaken, WrittenKindDiffers, RulesOfEachKind,
    SaveWithoutKinds, SaveWithoutKindNone, SaveKindsOfRules, SaveKindsOfLoads, SaveKindsIfAny, SaveRowKinds, Save1WithKinds, KindsDropped,
    KindsOfLoadsAlone, KindsOfRulesAlone, KindsOfBoth, KindsOfFirst, KindsAreFive, KindsAreThree, KindsBeforeForm, KindsBarSave,
    Save1TakesFields, Save1AsField, Save1Unknown, Save1OfNoLoads, Save1Wipes, KindsWipe, Save1ForgetsKinds, *map(forgetting, ('power', 'worth')),
    BookForgetsKinds,
]
WRONG_NEEDS = [
    MoreThanWorth, MoreBelowBudget, ExactWorth, GreatestBudget, FirstPlan, NothingForNothing, WattLess, WattMore, BudgetFromOne, PowerOfPlan,
    HalfAndHalf, WarmestOfWorth, NeedBlind, BudgetsAbove, PoorBeforeNone, PoorBeforeNoneButOfNothing, PoorFirst, NoneBeforeCells, RangeAfterCells,
    RangeAfterNone, RangeBeforeLoads, PoorIsNine, PoorIsFive, PoorIsFourteen, PoorNotRefused, NoneIsNothing, NeedMore, NeedLess, NeedOfOneLoad,
    NeedNotTested, NeedOfLoadsThere, NeedOfWorthThere, NeedInTwoBytes, NeedOfNoLoads, NeedWithoutCells, CellsOfLeast, NeedUnknown, NeedTakesMore,
    NeedOfNoField, NeedInMoreDigits, NeedShowsWorth, NeedShowsPlan, NeedPadded, BudgetSet, BudgetTried, NeedWipes, NeedStores, NeedStoresInForce,
    PoorWipes, PoorStores, NoneFitsNeedStores, NoneFitsNeedWipes, NeedOfLast,
]
WRONG_LIMITS = [LoadMore, LoadFewer, LoadsAsBefore, LineLonger, LineShorter, LineAsBefore, DigitMore, DigitsAsBefore, NeedAsBefore]
# These are wrong only with more loads than plain enumeration takes (largecheck.py).
WRONG_LARGE = [
    ParentInAWord, HighMarksLost, HighMarksLow, WordsShared, LowMarksLost, LastMarkLost, FirstHighMarkLost, HighBitsLost, HighBitsLow, HighBitsRepeat,
    BitsSwapped, CountOfFirstWord, CountOfSecondWord, WorthInTwoBytes, WorthInFiveDigits,
]
WRONG = [
    StageRestarts, LeafAlwaysEnds, HighestFirst, PowerKept, FirstBudget, StoresNothing, ZerosBarred, ZerosNotCounted,
    EndsFirst, RowsFirst, MarksDescend, BookOfNone, NoBudgetOfNone, PaddedSave, NoSaveOfNoLoads, SaveTakesFields, DropTakesMore, *WRONG_DROPS,
    WorthAlone, PowerAtRootAlone, BranchesByWorth, RowsByWorth, WarmerOfEquals, PowerBeforeWorth, FewerLoads, OffDraws, WholeBudgetIsNone,
    PowerIntoWorth, *WRONG_LASTS, *WRONG_KINDS, *WRONG_NEEDS, *WRONG_LIMITS,
]
