"""Limits of kinds, of the most loads, of a stored outcome and of filled cells (script.py) that are wrong on purpose, each in one place. A script
that cannot tell them from the product's would show nothing."""
import copy

from limits import MAX_BUDGET, MAX_KIND, MAX_LOADS, MAX_PORTION, MAX_STAGES, MAX_STATES, NO_SET, NOTHING, PLANNED, WORD_LOADS
from script import NONE, UNUSED, FilledLimits, OutcomeLimits, TableLimits, keeps_limits, verdict

# ---- kinds


class LoadKindMore(TableLimits):
    """A load may have one kind more."""
    load_kinds = range(MAX_KIND + 2)


class LoadKindFewer(TableLimits):
    """No load may have the last kind."""
    load_kinds = range(MAX_KIND)


class LoadKindNotTested(TableLimits):
    """The kind of a load may be any number."""
    load_kinds = range(256)


class LoadKindBarred(TableLimits):
    """A load has kind 0."""
    load_kinds = range(1)


class RuleKindMore(TableLimits):
    """A load rule may have one kind more."""
    rule_kinds = range(MAX_KIND + 2)


class RuleKindFewer(TableLimits):
    """No load rule may have the last kind."""
    rule_kinds = range(MAX_KIND)


class RuleKindNotTested(TableLimits):
    """The kind of a load rule may be any number."""
    rule_kinds = range(256)


class RuleKindBarred(TableLimits):
    """A load rule has kind 0."""
    rule_kinds = range(1)


class RowWithKind(TableLimits):
    """A row rule may have a kind as a load rule may."""
    row_kinds = TableLimits.rule_kinds


class RowKindNotTested(TableLimits):
    """What stands in the place of a row rule's kind is not tested."""
    row_kinds = range(256)


class SameWithoutKind(TableLimits):
    """Two load rules that differ in their kinds alone are the same."""

    def different(self, rules):
        return super().different([rule[:3] for rule in rules])


class SameOfAKind(TableLimits):
    """A load rule of a kind other than 0 may be there twice."""

    def different(self, rules):
        return super().different([rule for rule in rules if rule[3] == 0])


class UnusedLoadKind(TableLimits):
    """The kind in an unused place for a load is not tested."""

    def unused_load(self, place):
        return place[:3] == UNUSED[:3]


class UnusedRuleKind(TableLimits):
    """The kind in an unused place for a load rule is not tested."""

    def unused_rule(self, place):
        return place[:3] == UNUSED[:3]


class UnusedRowKind(TableLimits):
    """What stands in the place of a kind in an unused place for a row rule is not tested."""

    def unused_row(self, place):
        return place[:3] == UNUSED[:3]


class RootOfKindNone(TableLimits):
    """Load 1 has kind 0."""

    def load_keeps(self, number, load):
        return super().load_keeps(number, load) and (number > 1 or load[3] == 0)


class RootKindNotTested(TableLimits):
    """The kind of load 1 is not tested."""

    def load_keeps(self, number, load):
        return super().load_keeps(number, (*load[:3], 0) if number == 1 else load)


class KindOfParent(TableLimits):
    """A load has the kind of its parent."""

    def keep(self, p):
        return super().keep(p) and all(load[3] == p.loads[load[0] - 1][3] for load in p.loads[1:p.load_count])


class KindWithRule(TableLimits):
    """A load has a kind of which there is a load rule, if there is any."""

    def keep(self, p):
        kinds = {rule[3] for rule in p.load_rules[:p.load_rule_count]}
        return super().keep(p) and (not kinds or all(load[3] in kinds for load in p.loads[:p.load_count]))


# ---- the most loads


class LoadMore(TableLimits):
    """There may be one load more."""

    def loads_keep(self, loads, count):
        return super().loads_keep(loads, min(count, MAX_LOADS) if count == MAX_LOADS + 1 else count)


class LoadFewer(TableLimits):
    """There may be one load fewer."""

    def loads_keep(self, loads, count):
        return count < MAX_LOADS and super().loads_keep(loads, count)


class LoadsOfOneWord(TableLimits):
    """There may be 64 loads, as before request Ten."""

    def loads_keep(self, loads, count):
        return count <= WORD_LOADS and super().loads_keep(loads, count)


class LoadsAboveAWordNotTested(TableLimits):
    """The figures of loads above 64 are not tested."""

    def load_keeps(self, number, load):
        return number > WORD_LOADS or super().load_keeps(number, load)


class LastLoadNotTested(TableLimits):
    """The figures of the last load that there may be are not tested."""

    def load_keeps(self, number, load):
        return number == MAX_LOADS or super().load_keeps(number, load)


class ParentsOfOneWord(TableLimits):
    """A parent has a number up to 64."""

    def load_keeps(self, number, load):
        return load[0] <= WORD_LOADS and super().load_keeps(number, load)


class UnusedAboveAWordNotTested(TableLimits):
    """Unused places for loads above 64 are not tested."""

    def loads_keep(self, loads, count):
        tested = max(count, WORD_LOADS)
        return super().loads_keep(loads[:tested] + [UNUSED] * len(loads[tested:]), count)


# ---- a stored outcome


class StatusMore(OutcomeLimits):
    """There is one status more."""
    statuses = *OutcomeLimits.statuses, PLANNED + 1


class StatusNotTested(OutcomeLimits):
    """A status may be any number."""
    statuses = range(256)


class NoSetBarred(OutcomeLimits):
    """That no allowed set fits may not be stored."""
    statuses = NOTHING, PLANNED


class StateNone(OutcomeLimits):
    """A load may have state 0."""

    def states(self, p):
        return range(p.states + 1)


class StateMore(OutcomeLimits):
    """A load may have one state more."""

    def states(self, p):
        return range(1, p.states + 2)


class StateFewer(OutcomeLimits):
    """No load may have the last state."""

    def states(self, p):
        return range(1, p.states)


class StateAsStage(OutcomeLimits):
    """There are as many states as stages."""

    def states(self, p):
        return range(1, p.stages + 1)


class LoadRuleNone(OutcomeLimits):
    """A load may have load rule 0."""

    def load_rules(self, p):
        return range(p.load_rule_count + 1)


class LoadRuleMore(OutcomeLimits):
    """A load may have one load rule more."""

    def load_rules(self, p):
        return range(1, p.load_rule_count + 2)


class LoadRuleFewer(OutcomeLimits):
    """No load may have the last load rule."""

    def load_rules(self, p):
        return range(1, p.load_rule_count)


class SortsMixed(OutcomeLimits):
    """There are as many load rules as row rules."""

    def load_rules(self, p):
        return range(1, p.row_rule_count + 1)


class RowRuleNone(OutcomeLimits):
    """Every load may have row rule 0."""

    def row_rules(self, p, number):
        return range(1) if number == 1 else range(p.row_rule_count + 1)


class RowRuleMore(OutcomeLimits):
    """A load may have one row rule more."""

    def row_rules(self, p, number):
        return range(1) if number == 1 else range(1, p.row_rule_count + 2)


class RowRuleFewer(OutcomeLimits):
    """No load may have the last row rule."""

    def row_rules(self, p, number):
        return range(1) if number == 1 else range(1, p.row_rule_count)


class RootWithRowRule(OutcomeLimits):
    """The root may have a row rule."""

    def row_rules(self, p, number):
        return range(p.row_rule_count + 1) if number == 1 else super().row_rules(p, number)


class RootOnlyWithRowRule(OutcomeLimits):
    """The root has a row rule as the others have."""

    def row_rules(self, p, number):
        return range(1, p.row_rule_count + 1)


class RootNotTested(OutcomeLimits):
    """The figures of the root are not tested."""

    def entry_keeps(self, p, number, entry):
        return number == 1 or super().entry_keeps(p, number, entry)


class LastNotTested(OutcomeLimits):
    """The figures of the last load are not tested."""

    def entry_keeps(self, p, number, entry):
        return number == p.load_count or super().entry_keeps(p, number, entry)


class LastPlaceNotTested(OutcomeLimits):
    """The last place of all is not tested."""

    def entry_keeps(self, p, number, entry):
        return number == MAX_LOADS or super().entry_keeps(p, number, entry)


class UnusedNotTested(OutcomeLimits):
    """The places beyond the loads may hold anything."""

    def unused(self, entries):
        return True


class UnusedStateAlone(OutcomeLimits):
    """Of the places beyond the loads the states alone are tested."""

    def unused(self, entries):
        return all(entry[0] == 0 for entry in entries)


class UnusedRulesNotTested(OutcomeLimits):
    """Of the places beyond the loads the load rules are not tested."""

    def unused(self, entries):
        return all((state, row) == (0, 0) for state, _, row in entries)


class UnusedRowsNotTested(OutcomeLimits):
    """Of the places beyond the loads the row rules are not tested."""

    def unused(self, entries):
        return all((state, rule) == (0, 0) for state, rule, _ in entries)


class UnusedStatesNotTested(OutcomeLimits):
    """Of the places beyond the loads the states are not tested."""

    def unused(self, entries):
        return all((rule, row) == (0, 0) for _, rule, row in entries)


class FirstUnusedNotTested(OutcomeLimits):
    """The first place beyond the loads is not tested."""

    def unused(self, entries):
        return super().unused(entries[1:])


class LastUnusedNotTested(OutcomeLimits):
    """The last place beyond the loads is not tested."""

    def unused(self, entries):
        return super().unused(entries[:-1])


class SetNotTested(OutcomeLimits):
    """The set may have any loads."""

    def sets(self, p):
        return range(2**MAX_LOADS)


class HighWordNotTested(OutcomeLimits):
    """The second word of the set may have any loads."""

    def keep(self, p):
        q = copy.copy(p)
        q.set = p.set % 2**WORD_LOADS
        return super().keep(q)


class HighWordOfMoreNotTested(OutcomeLimits):
    """Where there are more than 64 loads the set may have any."""

    def sets(self, p):
        return range(2**MAX_LOADS) if self.used(p) > WORD_LOADS else super().sets(p)


class HighWordEmpty(OutcomeLimits):
    """The set has no load above 64."""

    def sets(self, p):
        return range(2 ** min(WORD_LOADS, self.used(p)))


class LowWordNotTested(OutcomeLimits):
    """The first word of the set may have any loads."""

    def keep(self, p):
        q = copy.copy(p)
        q.set = p.set >> WORD_LOADS << WORD_LOADS
        return super().keep(q)


class EntriesAboveAWordNotTested(OutcomeLimits):
    """The figures of loads above 64 are not tested."""

    def entry_keeps(self, p, number, entry):
        return number > WORD_LOADS or super().entry_keeps(p, number, entry)


class UnusedRunAboveAWordNotTested(OutcomeLimits):
    """The places above 64 that are beyond the loads may hold anything."""

    def keep(self, p):
        q, tested = copy.copy(p), max(self.used(p), WORD_LOADS)
        q.run = p.run[:tested] + [NONE] * len(p.run[tested:])
        return super().keep(q)


class SetWithNextLoad(OutcomeLimits):
    """The set may have the load after the last."""

    def sets(self, p):
        return range(2 ** (self.used(p) + 1))


class SetNotEmpty(OutcomeLimits):
    """The set of a plan has a load."""

    def sets(self, p):
        return range(p.status == PLANNED, 2 ** self.used(p))


class SetWithoutPlan(OutcomeLimits):
    """The set may have loads where no plan is stored."""

    def sets(self, p):
        return range(2**p.load_count)


class RunWithoutPlan(OutcomeLimits):
    """The run may have figures where no plan is stored."""

    def used(self, p):
        return p.load_count if p.run[0] != NONE else super().used(p)


class NothingNotTested(OutcomeLimits):
    """Where nothing is stored, run and set may be anything."""

    def keep(self, p):
        return p.status == NOTHING or super().keep(p)


class NoSetNotTested(OutcomeLimits):
    """Where no allowed set fits, run and set may be anything."""

    def keep(self, p):
        return p.status == NO_SET or super().keep(p)


class PlanOfLoads(OutcomeLimits):
    """A plan may be stored only where there are loads."""

    def keep(self, p):
        return super().keep(p) and (p.status != PLANNED or p.load_count > 0)


class NoSetOfLoads(OutcomeLimits):
    """That no allowed set fits may be stored only where there are loads."""

    def keep(self, p):
        return super().keep(p) and (p.status != NO_SET or p.load_count > 0)


class WithinBudget(OutcomeLimits):
    """The set that is stored draws no more than the budget."""

    def keep(self, p):
        power = sum(load[1] for k, load in enumerate(p.loads) if p.set >> k & 1)
        return super().keep(p) and power <= p.budget


class MarksOfRules(OutcomeLimits):
    """The set that is stored is that of the load rules' marks."""

    def keep(self, p):
        return super().keep(p) and all(p.load_rules[rule - 1][1] == p.set >> k & 1 for k, (_, rule, _) in enumerate(p.run) if rule)


class StatesOfRules(OutcomeLimits):
    """Each load rule that is stored begins with the state beside it."""

    def keep(self, p):
        return super().keep(p) and all(p.load_rules[rule - 1][0] == state for state, rule, _ in p.run if rule)


class RunOfTables(OutcomeLimits):
    """What is stored is a run of the tables, if these are small enough to enumerate."""

    def keep(self, p):
        small = 0 < p.load_count <= 4 and p.load_rule_count <= 4
        return super().keep(p) and (p.status != PLANNED or not small or verdict(p, sum(map(list, p.run[:p.load_count]), [])) == 'yes')


class NotTested(OutcomeLimits):
    """An outcome is not tested at all."""

    def keep(self, p):
        return True


class KindsOfRules(OutcomeLimits):
    """Each load rule that is stored is of its load's kind."""

    def keep(self, p):
        return super().keep(p) and all(p.load_rules[rule - 1][3] == load[3] for (_, rule, _), load in zip(p.run, p.loads) if rule)


# ---- filled cells


class FilledNotTested(FilledLimits):
    """Any count of filled cells will do."""

    def keep(self, p):
        return True


class FilledMore(FilledLimits):
    """There may be one more filled than there are cells."""

    def cells(self, p):
        return super().cells(p) + 1


class NotAllFilled(FilledLimits):
    """Not every cell may be filled."""

    def keep(self, p):
        return p.filled == 0 or p.filled < self.cells(p)


class FilledBarred(FilledLimits):
    """No cell may be filled."""

    def keep(self, p):
        return p.filled == 0


class FilledOfStates(FilledLimits):
    """There are no cells for stages."""

    def cells(self, p):
        return p.load_count * p.states * (p.budget + 1)


class FilledOfWatts(FilledLimits):
    """There is no cell for the allowance of 0."""

    def cells(self, p):
        return p.load_count * (p.states + p.stages) * p.budget


class FilledOfOneLoad(FilledLimits):
    """There are the cells of one load."""

    def cells(self, p):
        return min(1, p.load_count) * (p.states + p.stages) * (p.budget + 1)


class FilledOfPlacesForLoads(FilledLimits):
    """There are the cells of the most loads."""

    def cells(self, p):
        return MAX_LOADS * (p.states + p.stages) * (p.budget + 1)


class FilledOfMostCells(FilledLimits):
    """There are the cells of the largest cabinet."""

    def cells(self, p):
        return MAX_LOADS * (MAX_STATES + MAX_STAGES) * (MAX_BUDGET + 1)


class FilledByOnePortion(FilledLimits):
    """No more cells may be filled than one portion fills."""

    def cells(self, p):
        return min(MAX_PORTION, super().cells(p))


class FilledInTwoBytes(FilledLimits):
    """Of the count the last 16 binary digits are tested."""

    def keep(self, p):
        return p.filled % 2**16 <= self.cells(p)


class FilledSigned(FilledLimits):
    """A count whose first binary digit is 1 is not tested."""

    def keep(self, p):
        return p.filled >= 2**31 or super().keep(p)


class FilledWithoutOutcome(FilledLimits):
    """No cell may be filled where an outcome is stored."""

    def keep(self, p):
        return super().keep(p) and (p.filled == 0 or p.status == NOTHING)


class FilledNotTestedWithOutcome(FilledLimits):
    """The count is not tested where an outcome is stored."""

    def keep(self, p):
        return p.status != NOTHING or super().keep(p)


class FilledOfNoLoads(FilledLimits):
    """The count is not tested where there are no loads."""

    def keep(self, p):
        return p.load_count == 0 or super().keep(p)


class FilledOfNoBook(FilledLimits):
    """The count is not tested where there is no book."""

    def keep(self, p):
        return p.states == 0 or super().keep(p)


def keeps(p, wrong):
    """Does a planner keep the limits with such as are wrong in the place of the right ones?"""
    return keeps_limits(p, **{wrong.of: wrong()})


WRONG = TableLimits.__subclasses__() + OutcomeLimits.__subclasses__() + FilledLimits.__subclasses__()
