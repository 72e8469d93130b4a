"""A plain model of the planner's tables, straight from papers 01 and 02: what each line changes, the refusals that the tables settle, the lines
of both saves, and whether the outcome of a plan is stored.

It does no planning, so what the outcome is it does not know; that is held to what was printed for the plan (soak.py). Nor does it know what budget
a need shows; plans tell that (needs.py). It shares no code with the product, nor with tests/oracle.py; the limits are those of the header, by
tests/limits.py.
The limits and the steps that wrong.py gets wrong on purpose are attributes and methods of their own.
"""
import sys
from pathlib import Path

sys.path.append(str(Path(__file__).resolve().parent.parent / 'tests'))
import limits  # noqa: E402


class Model:
    """The tables and whether an outcome is stored, and what a line does to them."""

    most_bytes = limits.LINE_BYTES
    most_digits = limits.MAX_DIGITS
    most_states = limits.MAX_STATES
    most_stages = limits.MAX_STAGES
    most_mark = 1
    most_loads = limits.MAX_LOADS
    most_rules = limits.MAX_RULES
    most_power = limits.MAX_POWER
    most_worth = limits.MAX_WORTH
    most_budget = limits.MAX_BUDGET
    most_kind = limits.MAX_KIND
    most_need = limits.MAX_NEED
    cells_lent = limits.CELLS

    def __init__(self):
        self.clear()
        self.stored = False

    # ---- "A fresh planner has 0 states and stages, no rules, no loads and budget 0"

    def clear(self):
        self.loads = []  # Load k is [parent, power, worth, kind] at place k - 1.
        self.budget = 0
        self.book(0, 0)

    def book(self, states, stages):
        self.states = states
        self.stages = stages
        self.starts = set()
        self.ends = set()
        self.rules = []  # [state, mark, stage, kind]
        self.rows = []

    # ---- "Lines": the form of a line

    def number(self, field):
        """The value of a field that is a number, or None."""
        if not 1 <= len(field) <= self.most_digits:
            return None
        value = 0
        for byte in field:
            if not ord('0') <= byte <= ord('9'):
                return None
            value = 10 * value + byte - ord('0')
        return value

    def bits(self, field):
        """The marks of a field of bits, or None."""
        if not field or field.strip(b'01'):
            return None
        return [byte - ord('0') for byte in field]

    def with_kind(self, word, fields):
        """The fields of a load rule or of a load with its kind: "Lines without it mean kind 0." """
        return [*fields, b'0'] if word in (b'rule', b'load') and len(fields) == 3 else fields

    def read(self, line):
        """The word and its values, or None for a line that is no command of the table or breaks its form."""
        word, *fields = line.split(b',')
        if word == b'check':
            values = self.bits(fields[0]) if len(fields) == 1 else None
            return None if values is None else (word, values)
        fields = self.with_kind(word, fields)
        if word not in RANGES or len(fields) != len(RANGES[word](self)):
            return None
        values = [self.number(field) for field in fields]
        return None if None in values else (word, values)

    # ---- "Causes and numbers", from 4 to 8, 11, 12 and 14

    def in_range(self, word, values):
        if word == b'check':
            return len(values) == len(self.loads)
        return all(low <= value <= high for value, (low, high) in zip(values, RANGES[word](self)))

    def full(self, word, values):
        if word == b'load':
            return len(self.loads) >= self.most_loads
        if word == b'rule':
            return len(self.rules) >= self.most_rules
        return word == b'row' and len(self.rows) >= self.most_rules

    def known(self, word, values):
        if word == b'rule':
            return values in self.rules
        return word == b'row' and values in self.rows

    def cells(self):
        return len(self.loads) * (self.states + self.stages) * (self.budget + 1)

    def has_children(self, k):
        return any(load[0] == k for load in self.loads)

    def kinds_in_use(self):
        """"some load or load rule has a kind other than 0"."""
        return any(one[3] for one in self.rules + self.loads)

    def serves(self, rule, load):
        """"a rule serves only loads of its kind"."""
        return rule[3] == load[3]

    def is_on(self, k, mark):
        """Is load k on, if its line has this mark?"""
        return mark == 1

    def cause(self, word, values):
        """The lowest number that applies and that the tables settle, or 0."""
        if word in (b'plan', b'check', b'need') and not self.loads:
            return 4
        if not self.in_range(word, values):
            return 5
        if self.full(word, values):
            return 6
        if self.known(word, values):
            return 7
        if word in (b'plan', b'need') and self.cells() > self.cells_lent:
            return 8
        if word == b'drop' and self.has_children(values[0]):
            return 11
        if word == b'last' and not self.stored:
            return 12
        if word == b'save1' and self.kinds_in_use():
            return 14
        return 0

    # ---- "Lines": the effect of an accepted line

    def start(self, state):
        self.starts.add(state)

    def end(self, stage):
        self.ends.add(stage)

    def rule(self, *rule):
        self.rules.append(list(rule))

    def row(self, *rule):
        self.rows.append(list(rule))

    def load(self, *figures):
        self.loads.append(list(figures))

    def power(self, k, watts):
        self.loads[k - 1][1] = watts

    def worth(self, k, value):
        self.loads[k - 1][2] = value

    def set_budget(self, watts):
        self.budget = watts

    # ---- "`drop,k` removes load k ..; higher numbers fall by one, in parents too"

    def falls(self, number, k):
        """Does the number of a parent fall when load k leaves?"""
        return number > k

    def drop(self, k):
        del self.loads[k - 1]
        for load in self.loads:
            if self.falls(load[0], k):
                load[0] -= 1

    # ---- "lines that rebuild the state: `clear`, then `book` if there are states, .. `budget` last"

    def ascending(self, marks):
        return sorted(marks)

    def rebuilding(self):
        """The word and the values of each line of a save."""
        yield b'clear', ()
        if self.states > 0:
            yield b'book', (self.states, self.stages)
        for state in self.ascending(self.starts):
            yield b'start', (state,)
        for stage in self.ascending(self.ends):
            yield b'end', (stage,)
        for word, listed in ((b'rule', self.rules), (b'row', self.rows), (b'load', self.loads)):
            for values in listed:
                yield word, values
        yield b'budget', (self.budget,)

    def written(self, word, values):
        return b','.join([word] + [b'%d' % value for value in values])

    def saved(self):
        """The lines of `save`, which "writes every kind, 0 too"."""
        return [self.written(word, values) for word, values in self.rebuilding()]

    def saved_before(self):
        """The lines of `save1`, which "writes the form of request Two"."""
        return [self.written(word, values[:3]) for word, values in self.rebuilding()]

    # ---- "A plan, or its refusal 9, stores its outcome beside the tables ..; an accepted change wipes it."

    def stores(self, number, word):
        """Does a line with this number and word store an outcome? What number a plan has that planning alone can tell makes no difference."""
        return number == 0 and word == b'plan'

    def wipes(self, number, word):
        return number == 0 and word in EFFECTS

    # ---- a line

    def settle(self, line):
        """The number of a line that the tables settle, its word and its values. An accepted change is made."""
        if len(line) > self.most_bytes:
            return 2, None, None
        command = self.read(line)
        if command is None:
            return 3, None, None
        word, values = command
        number = self.cause(word, values)
        if number == 0 and word in EFFECTS:
            getattr(self, EFFECTS[word])(*values)
        return number, word, values

    def take(self, line):
        """Takes a line: the number that the tables settle, the word and its values."""
        number, word, values = self.settle(line)
        self.stored = self.stores(number, word) or self.stored and not self.wipes(number, word)
        return number, word, values


# The least and the greatest value of each field of a line, given the tables.
RANGES = {
    b'clear': lambda t: (),
    b'book': lambda t: ((1, t.most_states), (1, t.most_stages)),
    b'start': lambda t: ((1, t.states),),
    b'end': lambda t: ((1, t.stages),),
    b'rule': lambda t: ((1, t.states), (0, t.most_mark), (1, t.stages), (0, t.most_kind)),
    b'row': lambda t: ((1, t.stages), (1, t.states), (1, t.stages)),
    b'load': lambda t: ((min(1, len(t.loads)), len(t.loads)), (0, t.most_power), (0, t.most_worth), (0, t.most_kind)),
    b'power': lambda t: ((1, len(t.loads)), (0, t.most_power)),
    b'worth': lambda t: ((1, len(t.loads)), (0, t.most_worth)),
    b'budget': lambda t: ((0, t.most_budget),),
    b'plan': lambda t: (),
    b'save': lambda t: (),
    b'save1': lambda t: (),
    b'drop': lambda t: ((1, len(t.loads)),),
    b'last': lambda t: (),
    b'need': lambda t: ((0, t.most_need),),
}

# The method that makes each change; `plan`, `check`, `save`, `save1`, `last` and `need` change no table.
EFFECTS = {
    b'clear': 'clear', b'book': 'book', b'start': 'start', b'end': 'end', b'rule': 'rule', b'row': 'row',
    b'load': 'load', b'power': 'power', b'worth': 'worth', b'budget': 'set_budget', b'drop': 'drop',
}
