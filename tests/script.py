"""Scripts of tests: what every call and every run has to be answered, worked out without the product. oracle.py answers the lines, by plain
enumeration, and fronts.py those on large trees.

Each line of a script is one step, a word and what follows it:

    # TEXT                            a heading
    fresh                             go on with a fresh planner
    lent B bytes, C cells, place P    what is lent to the calls that follow
    told LINE LINE ..                 calls that set a planner up; only one that is refused is reported
    call LINE LINE ..                 calls, each reported; each is on the planner that the one before left
    judge N N ..                      a run for the judge, three numbers for each load
    page LOAD BYTES                   the page from a load on, drawn on so many bytes, and put on the glass, which `fresh` makes dark
    most N N ..                       portions of at most so many cells, each reported, in a work that no line gets and `fresh` fills with rubbish
    steps OLD NEW PLACES              the steps from one set to another, for a list of so many places
    with CHANGE and CHANGE ..         calls, runs, pages, portions and changeovers for the planner with changes from outside, which are then forgotten

LINEs and sets are parted by one blank each, so two blanks stand around an empty one. crates/planner_tests/stdin is a script, of every step but
`with`. tests/largest is another, for which planner_tests has no room, and tests/damaged a third, where `%` and two digits of base 16 stand for a byte
of a LINE or of a set. A CHANGE is one of these, with places counted from 0:

    size STATES STAGES                marks STARTS ENDS (the numbers that hold the marks)
    budget WATTS                      counts LOAD-RULES ROW-RULES LOADS
    rule of sort 1 at place I: STATE MARK STAGE      rule of sort 2 at place I: STAGE STATE NEXT
    load at place I: PARENT POWER WORTH              rubbish (255 in every byte)
    status STATUS (of the outcome)                   set LOW HIGH (the words that hold the outcome's loads, HIGH being 0 without it)
    run at place I: STATE LOAD-RULE ROW-RULE (of the outcome)
    filled CELLS (that portions have filled)

A rule, of either sort, and a load may have a kind as last number, which is 0 without it.
"""
import copy
import re
import sys

from changeovers import Asked as Changeover
from changeovers import Changeovers
from fronts import Fronts, is_run
from limits import LINE_BYTES, MAX_BUDGET, MAX_KIND, MAX_LOADS, MAX_NEED, MAX_PORTION, MAX_POWER, MAX_RULES, MAX_STAGES, MAX_STATES, MAX_WORTH
from limits import NO_SET, NOTHING, PAGE_BYTES, PLANNED, STEP_BYTES, WORD_LOADS
from oracle import Oracle, bytes_needed, parse
from pages import Asked, Pages, put
from portions import CELL_BYTES, Portions
from portions import Asked as Portion

NONE = (0, 0, 0)  # what an unused place of a run holds
UNUSED = (0, 0, 0, 0)  # and one of the rules or of the loads
WORKED_RUN = [1, 2, 0, 1, 2, 1, 1, 2, 1, 1, 1, 1]
HANDED_IN = (
    b'last', b'plan', b'', b'clear', b'check,1110', b'save', b'save1', b'drop,4', b'last,', b'need,70', b'need,0', b'need,%d' % (MAX_NEED + 1),
    b'need,', b'x' * (LINE_BYTES + 1),
)
HANDED_IN_PAGES = (1, PAGE_BYTES), (4, PAGE_BYTES), (5, PAGE_BYTES), (MAX_LOADS, PAGE_BYTES), (1, PAGE_BYTES - 1), (0, PAGE_BYTES + 1)
HANDED_IN_PORTIONS = 1, 17, MAX_PORTION, MAX_PORTION + 1, 0
HANDED_IN_SETS = (
    (b'1110', b'1000', 2), (b'0000', b'1110', 4), (b'1110', b'1110', 0), (b'1110', b'0000', 2), (b'1111', b'0100', 0), (b'1112', b'111', 0),
    (b'', b'', 0),
)
RUBBISH_BYTE = b'\xaa'  # what an output, a page, a glass and a list of steps hold before: no byte of an answer, a page and a step is this one
RUBBISH_CELL = CELL_BYTES * RUBBISH_BYTE  # and a work: no plan and no portion leaves such a cell
DARK = RUBBISH_BYTE * PAGE_BYTES
ENUMERATED = 9  # trees of more loads are not enumerated


class Planner:
    """A planner as it is handed in: its places whether they are used or not, and its counts."""

    def __init__(self):
        self.states = 0
        self.stages = 0
        self.starts = 0  # marks: bit 0 is for number 1
        self.ends = 0
        self.load_rules = [UNUSED] * MAX_RULES  # (state, mark, stage, kind)
        self.row_rules = [UNUSED] * MAX_RULES  # (stage, state, next stage, 0)
        self.load_rule_count = 0
        self.row_rule_count = 0
        self.loads = [UNUSED] * MAX_LOADS  # (parent, power, worth, kind)
        self.load_count = 0
        self.budget = 0
        self.status = NOTHING  # of the outcome
        self.run = [NONE] * MAX_LOADS  # its (state, load rule, row rule)
        self.set = 0  # its loads: bit 0 is for load 1
        self.filled = 0  # the cells that portions have filled

    def same(self, other):
        return vars(self) == vars(other)

    def without_outcome(self):
        """The planner with these tables and no current plan."""
        other = copy.copy(self)
        other.status, other.run, other.set = NOTHING, [NONE] * MAX_LOADS, 0
        return other


# ---- The limits of "Loads and book", "a stored figure out of range for the tables", and "more filled than it has cells"


def marks_on(marks):
    """The numbers that have a mark."""
    return {n for n in range(1, marks.bit_length() + 1) if marks >> (n - 1) & 1}


class TableLimits:
    """What the figures of the tables range over. wrong_limits.py gets what a kind adds to it wrong on purpose."""
    of = 'tables'
    load_kinds = rule_kinds = range(MAX_KIND + 1)
    row_kinds = range(1)  # a row rule has no kind

    def different(self, rules):
        """"Two load rules are the same only if their kinds agree too." """
        return len(set(rules)) == len(rules)

    def unused_load(self, place):
        return place == UNUSED

    def unused_rule(self, place):
        return place == UNUSED

    def unused_row(self, place):
        return place == UNUSED

    def rules_keep(self, rules, count, unused, *ranges):
        """Are the rules in use in range and all different, and do the other places hold nothing?"""
        used = rules[:count]
        in_range = all(figure in figures for rule in used for figure, figures in zip(rule, ranges))
        return count <= MAX_RULES and in_range and self.different(used) and all(map(unused, rules[count:]))

    def load_keeps(self, number, load):
        parent, power, worth, kind = load
        parents = [0] if number == 1 else range(1, number)
        return parent in parents and power <= MAX_POWER and worth <= MAX_WORTH and kind in self.load_kinds

    def loads_keep(self, loads, count):
        used = all(self.load_keeps(k + 1, load) for k, load in enumerate(loads[:count]))
        return count <= MAX_LOADS and used and all(map(self.unused_load, loads[count:]))

    def keep(self, p):
        states = range(1, p.states + 1)
        stages = range(1, p.stages + 1)
        return (
            p.states <= MAX_STATES
            and p.stages <= MAX_STAGES
            and (p.states == 0) == (p.stages == 0)
            and marks_on(p.starts) <= set(states)
            and marks_on(p.ends) <= set(stages)
            and self.rules_keep(p.load_rules, p.load_rule_count, self.unused_rule, states, (0, 1), stages, self.rule_kinds)
            and self.rules_keep(p.row_rules, p.row_rule_count, self.unused_row, stages, states, stages, self.row_kinds)
            and self.loads_keep(p.loads, p.load_count)
            and p.budget <= MAX_BUDGET
        )


class OutcomeLimits:
    """What the figures of a stored outcome range over, given tables that keep their limits. wrong_limits.py gets each wrong on purpose."""
    of = 'outcome'
    statuses = NOTHING, NO_SET, PLANNED

    def used(self, p):
        """The places of the run in use: one for each load, where it is a plan."""
        return p.load_count if p.status == PLANNED else 0

    def states(self, p):
        return range(1, p.states + 1)

    def load_rules(self, p):
        return range(1, p.load_rule_count + 1)

    def row_rules(self, p, number):
        """Those of the load with this number. The root has row rule 0."""
        return range(1) if number == 1 else range(1, p.row_rule_count + 1)

    def unused(self, entries):
        """May the places that are not in use hold this?"""
        return all(entry == NONE for entry in entries)

    def sets(self, p):
        """The numbers that hold a set of loads that are there, where it is a plan."""
        return range(2 ** self.used(p))

    def entry_keeps(self, p, number, entry):
        state, rule, row = entry
        return state in self.states(p) and rule in self.load_rules(p) and row in self.row_rules(p, number)

    def keep(self, p):
        used = self.used(p)
        in_range = all(self.entry_keeps(p, k + 1, entry) for k, entry in enumerate(p.run[:used]))
        return p.status in self.statuses and in_range and self.unused(p.run[used:]) and p.set in self.sets(p)


class FilledLimits:
    """What the count of filled cells ranges over, given tables that keep their limits. wrong_limits.py gets it wrong on purpose."""
    of = 'filled'

    def cells(self, p):
        return p.load_count * (p.states + p.stages) * (p.budget + 1)

    def keep(self, p):
        """"A planner with more filled than it has cells is refusal 1." """
        return p.filled <= self.cells(p)


def keeps_limits(p, tables=TableLimits(), outcome=OutcomeLimits(), filled=FilledLimits()):
    return tables.keep(p) and outcome.keep(p) and filled.keep(p)


# ---- A planner that keeps the limits, and the tables of the oracle


def tables_of(p):
    tables = Oracle() if p.load_count <= ENUMERATED else Fronts()
    tables.states, tables.stages = p.states, p.stages
    tables.starts, tables.ends = marks_on(p.starts), marks_on(p.ends)
    tables.rules = p.load_rules[: p.load_rule_count]
    tables.rows = [rule[:3] for rule in p.row_rules[: p.row_rule_count]]
    tables.loads = p.loads[: p.load_count]
    tables.budget = p.budget
    run = {k + 1: (p.set >> k & 1, *entry) for k, entry in enumerate(p.run[: p.load_count])}
    tables.outcome = run if p.status == PLANNED else p.status
    tables.filled = p.filled
    return tables


def padded(items, length, unused=NONE):
    return items + [unused] * (length - len(items))


def stored(tables):
    p = Planner()
    p.states, p.stages = tables.states, tables.stages
    p.starts = sum(1 << (q - 1) for q in tables.starts)
    p.ends = sum(1 << (g - 1) for g in tables.ends)
    p.load_rules, p.load_rule_count = padded(tables.rules, MAX_RULES, UNUSED), len(tables.rules)
    p.row_rules, p.row_rule_count = padded([(*row, 0) for row in tables.rows], MAX_RULES, UNUSED), len(tables.rows)
    p.loads, p.load_count = padded(tables.loads, MAX_LOADS, UNUSED), len(tables.loads)
    p.budget = tables.budget
    if tables.outcome in (NOTHING, NO_SET):
        p.status = tables.outcome
    else:
        p.status, run = PLANNED, tables.outcome
        p.run = padded([run[k][1:] for k in sorted(run)], MAX_LOADS)
        p.set = sum(run[k][0] << (k - 1) for k in run)
    p.filled = tables.filled
    return p


class Followed(Oracle):
    """The tables and the outcome after lines whose answers are known. Nothing is enumerated."""

    def follow(self, line, answer):
        if answer == ['ok']:
            self.act(*parse(line))
            self.wipe()
            self.start_over()
        elif is_plan(line) and answer == ['no,9']:
            self.store(None)
        elif is_plan(line) and answer[0].startswith('plan,'):
            entries = [tuple(map(int, entry.split(','))) for entry in answer[1:]]
            self.store({entry[0]: entry[1:] for entry in entries})


# ---- A call on a line


class Lent:
    def __init__(self, size, cells, place):
        self.size = size
        self.cells = cells
        self.place = place

    def has_room(self, line):
        return self.place <= self.size and self.size - self.place >= bytes_needed(line)


ROOM = Lent(4190, 610, 20)


class Reply:
    """What a call leaves: the next planner, its number, the lines of its answer, and how many cells of the work are 0."""

    def __init__(self, planner, number, lines, zero_cells):
        self.planner = planner
        self.number = number
        self.lines = lines
        self.zero_cells = zero_cells


def number_of(answer):
    """The number of a refusal, 0 for any other answer."""
    refused = re.fullmatch(r'no,([0-9]+)', answer[0])
    return int(refused.group(1)) if refused else 0


def is_plan(line):
    return len(line) <= LINE_BYTES and parse(line) == ('plan', [])


def searches(line):
    """Has a line the form of those that work in a plan's cells, `plan` and `need`?"""
    command = parse(line) if len(line) <= LINE_BYTES else None
    return command is not None and command[0] in ('plan', 'need')


def zero_cells(line, number, cells):
    """How many cells are 0 after a line with this number, where a plan needs so many."""
    return cells if searches(line) and number in (0, 9, 15) else 0


def reply(p, lent, line):
    if not keeps_limits(p) or not lent.has_room(line):
        return Reply(p, 1, [], 0)
    tables = tables_of(p)
    cells_of_plan = tables.cells()
    answer = tables.answer(line, lent.cells)
    number = number_of(answer)
    return Reply(stored(tables), number, answer, zero_cells(line, number, cells_of_plan))


# ---- The judge


def verdict(p, run):
    """The number of a refusal, or yes exactly if the run is one."""
    if not keeps_limits(p):
        return '1'
    if p.load_count == 0:
        return '4'
    if len(run) != 3 * p.load_count:
        return '5'
    return 'yes' if is_among_runs(tables_of(p), run) else 'no'


def is_among_runs(tables, run):
    """Is a run among all runs? On a large tree they are not enumerated."""
    if len(tables.loads) > ENUMERATED:
        return is_run(tables, run)
    asked = {k + 1: tuple(run[3 * k : 3 * k + 3]) for k in range(len(tables.loads))}
    return any({k: entry[1:] for k, entry in entries.items()} == asked for _, _, entries in tables.tree_runs())


# ---- Changes from outside


def numbers(text):
    """The number of each word that begins with a digit."""
    return [int(n) for n in re.findall(r'(?:^| )([0-9]+)', text)]


def fill(p):
    """Every byte of the planner holds 255."""
    p.states = p.stages = p.starts = p.ends = 2**8 - 1
    p.load_rules = p.row_rules = [(2**8 - 1,) * 4] * MAX_RULES
    p.loads = [(2**8 - 1, 2**16 - 1, 2**16 - 1, 2**8 - 1)] * MAX_LOADS
    p.load_rule_count = p.row_rule_count = p.load_count = 2**64 - 1
    p.budget = 2**16 - 1
    p.status, p.run, p.set = 2**8 - 1, [(2**8 - 1,) * 3] * MAX_LOADS, 2**MAX_LOADS - 1
    p.filled = 2**32 - 1


def with_kind(figures):
    """The figures of a rule or of a load, the kind last, 0 where none is given."""
    return tuple(padded(figures, len(UNUSED), 0))


def changed(p, changes):
    """The planner with each of these changes."""
    q = copy.deepcopy(p)
    for change in changes:
        make(q, change)
    return q


def make(q, change):
    """Makes a change to a planner: a word and numbers, as `marks 7 3`. Places are counted from 0."""
    name = change.split(' ')[0]
    n = numbers(change)
    if name == 'size':
        q.states, q.stages = n
    elif name == 'marks':
        q.starts, q.ends = n
    elif name == 'counts':
        q.load_rule_count, q.row_rule_count, q.load_count = n
    elif name == 'budget':
        (q.budget,) = n
    elif name == 'rule':
        rules = {1: q.load_rules, 2: q.row_rules}[n[0]]
        rules[n[1]] = with_kind(n[2:])
    elif name == 'load':
        q.loads[n[0]] = with_kind(n[1:])
    elif name == 'status':
        (q.status,) = n
    elif name == 'set':
        q.set = n[0] + (n[1] << WORD_LOADS if len(n) > 1 else 0)
    elif name == 'run':
        q.run[n[0]] = tuple(n[1:])
    elif name == 'filled':
        (q.filled,) = n
    elif name == 'rubbish':
        fill(q)
    else:
        sys.exit('no such change: ' + change)


# ---- The steps of a script


class Script:
    """The planner that the steps so far left, what is lent to its calls, and what the glass shows. What becomes of each step is for the classes
    below it to say."""
    pages = Pages()
    portions = Portions()
    changeovers = Changeovers()

    def __init__(self):
        self.lent = ROOM
        self.start()

    def start(self):
        self.planner, self.glass, self.work = Planner(), DARK, b''

    def told(self, line):
        """A step but for `call`, `judge`, `page`, `most` and `steps`."""

    def called(self, p, lent, line, reply, every):
        """A call, and what it leaves. It is to be reported if it is refused or every call is."""

    def judged(self, p, run, verdict):
        """A run for the judge, and its verdict."""

    def paged(self, asked, drawn, stretch, glass):
        """A drawing, what it leaves, the stretch for the glass, and what that shows then. A refused drawing leaves the glass as it is."""

    def portioned(self, p, asked):
        """A portion. Returned is what it leaves."""
        return self.portions.done(asked)

    def switched(self, asked, done):
        """A changeover, and what it leaves."""

    def line_of(self, word):
        """The line that a LINE stands for, or the set."""
        return word.encode()

    def call(self, p, lent, line, every):
        """The planner after a call."""
        left = reply(p, lent, line)
        self.called(p, lent, line, left, every)
        return left.planner

    def calls(self, lent, words, every):
        for word in words:
            self.planner = self.call(self.planner, lent, self.line_of(word), every)

    def page(self, p, load, size):
        """What the glass shows after a drawing. The stretch of a refused one is of the bytes that were lent, but stays off the glass."""
        asked = Asked(p, keeps_limits(p), load, RUBBISH_BYTE * size)
        drawn = self.pages.drawn(asked)
        stretch = self.pages.stretch(self.glass, drawn[1])
        glass = self.glass if drawn[0] else put(self.glass, stretch[2], self.pages.sent(self.glass, drawn[1]))
        self.paged(asked, drawn, stretch, glass)
        return glass

    def portion(self, p, lent, most, work):
        """What a portion leaves, on as much of a work as is lent, with rubbish after it if that is more."""
        rubbish = RUBBISH_CELL * (lent.cells - len(work) // CELL_BYTES)
        lent_work = work[:CELL_BYTES * lent.cells] + rubbish
        return self.portioned(p, Portion(tables_of(p) if keeps_limits(p) else None, most, RUBBISH_BYTE * lent.size, lent.place, lent_work))

    def portions_of(self, numbers):
        for most in numbers:
            done = self.portion(self.planner, self.lent, most, self.work)
            self.planner = stored(done.tables) if done.tables else self.planner
            self.work = done.work + self.work[len(done.work):]

    def changeover(self, p, old, new, places):
        asked = Changeover(p, keeps_limits(p), old, new, RUBBISH_BYTE * STEP_BYTES * places)
        self.switched(asked, self.changeovers.done(asked))

    def handed_in(self, p):
        for line in HANDED_IN:
            self.call(p, ROOM, line, True)
        self.judged(p, WORKED_RUN, verdict(p, WORKED_RUN))
        self.judged(p, [], verdict(p, []))
        for load, size in HANDED_IN_PAGES:
            self.page(p, load, size)
        for most in HANDED_IN_PORTIONS:
            self.portion(p, ROOM, most, b'')
        for old, new, places in HANDED_IN_SETS:
            self.changeover(p, old, new, places)

    def step(self, line):
        """One line of the script."""
        word, *rest = line.split(' ')
        if word not in ('call', 'judge', 'page', 'most', 'steps'):
            self.told(line)
        if word == 'fresh':
            self.start()
        elif word == 'lent':
            self.lent = Lent(*numbers(line))
        elif word == 'told':
            self.calls(ROOM, rest, False)
        elif word == 'call':
            self.calls(self.lent, rest, True)
        elif word == 'judge':
            self.judged(self.planner, numbers(line), verdict(self.planner, numbers(line)))
        elif word == 'page':
            self.glass = self.page(self.planner, *numbers(line))
        elif word == 'most':
            self.portions_of(numbers(line))
        elif word == 'steps':
            old, new, places = rest
            self.changeover(self.planner, self.line_of(old), self.line_of(new), int(places))
        elif word == 'with':
            self.handed_in(changed(self.planner, ' '.join(rest).split(' and ')))
        elif word != '#':
            sys.exit('no such step: ' + line)

    def follow(self, text):
        for line in text.splitlines():
            self.step(line)
