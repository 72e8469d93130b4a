"""Paper 01 and requests One to Five and Eight to Eleven of paper 02 by plain enumeration: every run of every set, straight from the text. It shares
no code with the product, and with the header of the product only the limits.

It is slow on purpose. Trees of up to five or six loads and small books are what it is for. For large trees there is fronts.py.
"""
import re

from limits import CELLS, FREE_BYTES, LINE_BYTES, RUN_BYTES, SAVE_BYTES
from limits import MAX_BUDGET, MAX_DIGITS, MAX_KIND, MAX_LOADS, MAX_NEED, MAX_POWER, MAX_RULES, MAX_STAGES, MAX_STATES, MAX_WORTH
from limits import NO_SET, NOTHING

WORDS = {
    'clear': 0, 'book': 2, 'start': 1, 'end': 1, 'rule': 4, 'row': 3, 'load': 4, 'power': 2, 'worth': 2, 'budget': 1, 'plan': 0, 'save': 0,
    'save1': 0, 'drop': 1, 'last': 0, 'need': 1,
}
WITH_KIND = 'rule', 'load'  # their last field is a kind, and may be left out
NUMBER = re.compile(rb'[0-9]{1,%d}\Z' % MAX_DIGITS)
BITS = re.compile(rb'[01]+\Z')


def parse(line):
    """The word and its fields, or None for a line that is no command of the table or breaks its form."""
    parts = line.split(b',')
    word, fields = parts[0], parts[1:]
    if word == b'check':
        if len(fields) == 1 and BITS.match(fields[0]):
            return 'check', [b - 48 for b in fields[0]]
        return None
    try:
        name = word.decode('ascii')
    except UnicodeDecodeError:
        return None
    if name in WITH_KIND and len(fields) == WORDS[name] - 1:
        fields.append(b'0')  # "Lines without it mean kind 0."
    if name not in WORDS or len(fields) != WORDS[name]:
        return None
    if not all(NUMBER.match(f) for f in fields):
        return None
    return name, [int(f) for f in fields]


NEEDED = {'plan': RUN_BYTES, 'last': RUN_BYTES, 'check': RUN_BYTES, 'save': SAVE_BYTES, 'save1': SAVE_BYTES}


def bytes_needed(line):
    """How many bytes must be free for the answer to a line: "`plan`, `last` and `check` need 2,048 free bytes, saves 4,096"."""
    command = parse(line) if len(line) <= LINE_BYTES else None
    return NEEDED.get(command[0], FREE_BYTES) if command else FREE_BYTES


class Oracle:
    """The tables of a planner, the outcome that it stores and how many cells portions have filled, and what each line answers. portions.py has what a
    portion does."""
    most_bytes = LINE_BYTES  # of a line
    most_loads = MAX_LOADS
    most_kind = MAX_KIND
    most_need = MAX_NEED

    def __init__(self):
        self.clear()
        self.wipe()
        self.start_over()

    def clear(self):
        self.loads = []  # (parent, power, worth, kind), load k at place k - 1
        self.budget = 0
        self.new_book(0, 0)

    def new_book(self, states, stages):
        self.states, self.stages = states, stages
        self.starts, self.ends = set(), set()
        self.rules, self.rows = [], []  # (state, mark, stage, kind), (stage, state, next stage)

    # ---- "A plan, or its refusal 9, stores its outcome beside the tables ..; an accepted change wipes it."

    def store(self, run):
        """The outcome of a plan: a run as enumerated below, or None where no allowed set fits. NO_SET is stored for None."""
        self.outcome = NO_SET if run is None else run

    def wipe(self):
        self.outcome = NOTHING

    def start_over(self):
        """"Only an accepted change and the answer .. start the filling over." """
        self.filled = 0

    def shown(self):
        """What is stored, as `plan` prints it. The figures are those of its set."""
        if self.outcome == NO_SET:
            return ['no,9']
        on = [k for k, entry in self.outcome.items() if entry[0] == 1]
        worth = sum(self.loads[k - 1][2] for k in on)
        power = sum(self.loads[k - 1][1] for k in on)
        return ['plan,%d,%d,%d' % (worth, power, len(on))] + self.lines_of(self.outcome)

    # ---- the cases that a deliberately wrong oracle changes

    def ends_here(self, stage):
        return stage in self.ends

    def next_stage(self, row):
        return row[2]

    def left_for_row(self, allowance, power):
        return allowance - power

    def order(self, numbers):
        return numbers

    def fallen(self, number, k):
        """The number of a load after load k has left."""
        return number - 1 if number > k else number

    def serves(self, rule, load):
        """"a rule serves only loads of its kind": both have it last."""
        return rule[3] == load[3]

    def is_same(self, rule, other):
        """"Two load rules are the same only if their kinds agree too": a kind is a load rule's last figure."""
        return rule == other

    # ---- runs, by enumeration

    def children(self, k):
        return [j for j in range(k + 1, len(self.loads) + 1) if self.loads[j - 1][0] == k]

    def figures(self, k, mark):
        return (self.loads[k - 1][1], self.loads[k - 1][2]) if mark else (0, 0)

    def branch_runs(self, k, state):
        """Every run of load k's branch from a state: (worth, power, {load: (mark, state, load rule, row rule)})."""
        for n in range(1, len(self.rules) + 1):
            yield from self.rule_runs(k, state, n)

    def rule_runs(self, k, state, n):
        """Those with load rule n."""
        q, mark, stage, _ = self.rules[n - 1]
        if q != state or not self.serves(self.rules[n - 1], self.loads[k - 1]):
            return
        power, worth = self.figures(k, mark)
        for v, w, below in self.row_runs(self.children(k), stage):
            yield v + worth, w + power, {k: (mark, state, n, 0), **below}

    def row_runs(self, row, stage):
        """Every run of a row of children from a stage."""
        if not row:
            if self.ends_here(stage):
                yield 0, 0, {}
            return
        for n in range(1, len(self.rows) + 1):
            yield from self.step_runs(row, stage, n)

    def step_runs(self, row, stage, n):
        """Those whose first child takes row rule n."""
        g, state, _ = self.rows[n - 1]
        if g != stage:
            return
        later = list(self.row_runs(row[1:], self.next_stage(self.rows[n - 1])))
        for v, w, branch in self.branch_runs(row[0], state):
            mark, q, rule, _ = branch[row[0]]
            for v2, w2, rest in later:
                yield v + v2, w + w2, {**branch, row[0]: (mark, q, rule, n), **rest}

    def tree_runs(self):
        for q in range(1, self.states + 1):
            if q in self.starts:
                yield from self.branch_runs(1, q)

    # ---- "Which plan among equals" of paper 01, "where "best" and "greatest worth" mean both" worth and power (request Four of paper 02)

    def best(self, runs, allowance):
        """"Of greatest worth, then of least power": the worth, and the power with a minus sign, of the best run within an allowance, or None."""
        return max(((v, -w) for v, w, _ in runs if w <= allowance), default=None)

    def best_branch(self, runs, allowance):
        """The best by which a load rule is chosen."""
        return self.best(runs, allowance)

    def best_row(self, runs, allowance):
        """The best by which a row rule and the allowance of a branch are chosen."""
        return self.best(runs, allowance)

    @staticmethod
    def together(one, other):
        """The best of a branch and of the later row together, or None."""
        return None if one is None or other is None else (one[0] + other[0], one[1] + other[1])

    def choose_branch(self, k, state, row_rule, allowance, out):
        goal = self.best_branch(self.branch_runs(k, state), allowance)
        for n in self.order(range(1, len(self.rules) + 1)):
            if self.best_branch(self.rule_runs(k, state, n), allowance) == goal:
                break
        mark, stage = self.rules[n - 1][1], self.rules[n - 1][2]
        out[k] = (mark, state, n, row_rule)
        self.choose_row(self.children(k), stage, self.left_for_row(allowance, self.figures(k, mark)[0]), out)

    def choose_row(self, row, stage, allowance, out):
        if not row:
            return
        goal = self.best_row(self.row_runs(row, stage), allowance)
        for n in self.order(range(1, len(self.rows) + 1)):
            if self.best_row(self.step_runs(row, stage, n), allowance) == goal:
                break
        state = self.rows[n - 1][1]
        branch = list(self.branch_runs(row[0], state))
        rest = list(self.row_runs(row[1:], self.next_stage(self.rows[n - 1])))
        for share in self.order(range(allowance + 1)):
            if self.together(self.best_row(branch, share), self.best_row(rest, allowance - share)) == goal:
                break
        self.choose_branch(row[0], state, n, share, out)
        self.choose_row(row[1:], self.next_stage(self.rows[n - 1]), allowance - share, out)

    def plan(self):
        """The chosen run, or None where no allowed set fits."""
        goal = self.best(self.tree_runs(), self.budget)
        if goal is None:
            return None
        for q in self.order(range(1, self.states + 1)):
            if q in self.starts and self.best(self.branch_runs(1, q), self.budget) == goal:
                break
        out = {}
        self.choose_branch(1, q, 0, self.budget, out)
        return out

    # ---- "the least budget, at most the one in force, whose plan has worth v or more": every budget is planned at, in turn

    def does(self, best, worth):
        """Has a plan "worth v or more"? Given is the best within its budget, None where there is no plan."""
        return best is not None and best[0] >= worth

    def least(self, bests, worth):
        """The least budget that does, given the best within each from 0 on."""
        return next(budget for budget, best in enumerate(bests) if self.does(best, worth))

    def need(self, worth):
        """The lines printed for `need`."""
        runs = list(self.tree_runs())
        bests = [self.best(runs, budget) for budget in range(self.budget + 1)]
        if bests[-1] is None:
            return ['no,9']
        return ['need,%d' % self.least(bests, worth)] if self.does(bests[-1], worth) else ['no,15']

    # ---- "There is a cell for each load, state and allowance, and one for each load, stage and allowance"

    def row_from(self, k):
        """"the row from that load onward (load 1 is a row of itself)": it and its later siblings."""
        return [j for j in range(k, len(self.loads) + 1) if self.loads[j - 1][0] == self.loads[k - 1][0]]

    def parts_of(self, k):
        """Every run of load k's branch from each state, and then of the row from it onward at each stage."""
        branches = [self.branch_runs(k, state) for state in range(1, self.states + 1)]
        return branches + [self.row_runs(self.row_from(k), stage) for stage in range(1, self.stages + 1)]

    def cell(self, runs, allowance):
        """"the best of their branch or row, as worth × 512 + 512 − power, or 0 for none"."""
        best = self.best(runs, allowance)
        return 0 if best is None else best[0] * 512 + 512 + best[1]

    def cell_values(self):
        """What every cell is to hold: "loads from last to first, states then stages, allowances upward"."""
        values = []
        for k in range(len(self.loads), 0, -1):
            for runs in self.parts_of(k):
                figures = {(worth, power, None) for worth, power, _ in runs}
                values += [self.cell(figures, allowance) for allowance in range(self.budget + 1)]
        return values

    # ---- the run of a checked set: the lowest from the top down that can be completed

    def check(self, bits):
        want = {k + 1: b for k, b in enumerate(bits)}
        runs = [r for _, _, r in self.tree_runs() if all(r[k][0] == want[k] for k in r)]
        if not runs:
            return None
        return min(runs, key=self.sequence)

    def sequence(self, run):
        """Start state, load rule, then for each child row rule, load rule, the loads below and the later children."""
        def row(loads):
            out = []
            for j in loads:
                out += [run[j][3], run[j][2]] + row(self.children(j))
            return out
        return [run[1][1], run[1][2]] + row(self.children(1))

    # ---- a save: the lines that rebuild the tables

    def book_lines(self):
        return ['book,%d,%d' % (self.states, self.stages)] if self.states else []

    def mark_lines(self, word, marks):
        return ['%s,%d' % (word, number) for number in sorted(marks)]

    def save(self):
        """"`save` now writes every kind, 0 too"."""
        return self.rebuilding('rule,%d,%d,%d,%d', 'load,%d,%d,%d,%d', 4)

    def save1(self):
        """"`save1` writes the form of request Two"."""
        return self.rebuilding('rule,%d,%d,%d', 'load,%d,%d,%d', 3)

    def rebuilding(self, rule_form, load_form, figures):
        """The lines of a save, those of load rules and loads in these forms, with so many of their figures."""
        return [
            'clear',
            *self.book_lines(),
            *self.mark_lines('start', self.starts),
            *self.mark_lines('end', self.ends),
            *(rule_form % rule[:figures] for rule in self.rules),
            *('row,%d,%d,%d' % row for row in self.rows),
            *(load_form % load[:figures] for load in self.loads),
            'budget,%d' % self.budget,
        ]

    def kinds_in_use(self):
        """"some load or load rule has a kind other than 0"."""
        return any(rule[3] for rule in self.rules) or any(load[3] for load in self.loads)

    # ---- lines

    def in_range(self, word, f):
        """Is every value of a command in its range?"""
        n, states, stages = len(self.loads), self.states, self.stages
        if word == 'book':
            return 1 <= f[0] <= MAX_STATES and 1 <= f[1] <= MAX_STAGES
        if word == 'start':
            return 1 <= f[0] <= states
        if word == 'end':
            return 1 <= f[0] <= stages
        if word == 'rule':
            return 1 <= f[0] <= states and f[1] <= 1 and 1 <= f[2] <= stages and f[3] <= self.most_kind
        if word == 'row':
            return 1 <= f[0] <= stages and 1 <= f[1] <= states and 1 <= f[2] <= stages
        if word == 'load':
            return (f[0] == 0 if n == 0 else 1 <= f[0] <= n) and f[1] <= MAX_POWER and f[2] <= MAX_WORTH and f[3] <= self.most_kind
        if word == 'power':
            return 1 <= f[0] <= n and f[1] <= MAX_POWER
        if word == 'worth':
            return 1 <= f[0] <= n and f[1] <= MAX_WORTH
        if word == 'budget':
            return f[0] <= MAX_BUDGET
        if word == 'drop':
            return 1 <= f[0] <= n
        if word == 'need':
            return f[0] <= self.most_need
        return word != 'check' or len(f) == n

    def refusal(self, command, cells):
        """The lowest number that applies, 0 for none, but for 9, 10 and 15, which need enumeration or what is stored."""
        if command is None:
            return 3
        word, f = command
        if word in ('plan', 'check', 'need') and not self.loads:
            return 4
        if not self.in_range(word, f):
            return 5
        kept, most = {'load': (self.loads, self.most_loads), 'rule': (self.rules, MAX_RULES), 'row': (self.rows, MAX_RULES)}.get(word, ([], 1))
        if len(kept) >= most:
            return 6
        if word in ('rule', 'row') and any(self.is_same(tuple(f), rule) for rule in kept):
            return 7
        if word in ('plan', 'need') and cells < self.cells():
            return 8
        if word == 'drop' and self.children(f[0]):
            return 11
        if word == 'last' and self.outcome == NOTHING:
            return 12
        if word == 'save1' and self.kinds_in_use():
            return 14
        return 0

    def cells(self):
        return len(self.loads) * (self.states + self.stages) * (self.budget + 1)

    def drop(self, k):
        """Load k leaves, and the numbers above it fall, in parents too."""
        staying = self.loads[:k - 1] + self.loads[k:]
        self.loads = [(self.fallen(parent, k), *others) for parent, *others in staying]

    def act(self, word, f):
        if word == 'clear':
            self.clear()
        elif word == 'book':
            self.new_book(*f)
        elif word == 'start':
            self.starts.add(f[0])
        elif word == 'end':
            self.ends.add(f[0])
        elif word == 'rule':
            self.rules.append(tuple(f))
        elif word == 'row':
            self.rows.append(tuple(f))
        elif word == 'load':
            self.loads.append(tuple(f))
        elif word == 'power':
            p, _, v, t = self.loads[f[0] - 1]
            self.loads[f[0] - 1] = (p, f[1], v, t)
        elif word == 'worth':
            p, w, _, t = self.loads[f[0] - 1]
            self.loads[f[0] - 1] = (p, w, f[1], t)
        elif word == 'budget':
            self.budget = f[0]
        elif word == 'drop':
            self.drop(f[0])

    def lines_of(self, run):
        return ['%d,%d,%d,%d,%d' % (k, *run[k]) for k in sorted(run)]

    def answer(self, line, cells=CELLS):
        """The lines printed for a line."""
        if len(line) > self.most_bytes:
            return ['no,2']
        command = parse(line)
        number = self.refusal(command, cells)
        if number:
            return ['no,%d' % number]
        word, f = command
        if word == 'plan':
            self.store(self.plan())
            return self.shown()
        if word == 'last':
            return self.shown()
        if word == 'check':
            run = self.check(f)
            return ['no,10'] if run is None else ['yes'] + self.lines_of(run)
        if word == 'need':
            return self.need(f[0])
        if word == 'save':
            return self.save()
        if word == 'save1':
            return self.save1()
        self.act(word, f)
        self.wipe()
        self.start_over()
        return ['ok']
