"""The oracle for large trees: what `plan`, `check` and `need` answer there, and what portions fill, where plain enumeration (oracle.py) would never
end. It shares no code with the product. largecheck.py and portioncheck.py hold it to plain enumeration on small trees.

A run of a branch or of a row counts only if every other one that draws no more is worth less. The powers and the worths of those that count are a
front: pairs of a power and a worth, both ascending.
"""
from oracle import Oracle

EMPTY, NOTHING_DRAWN = [], [(0, 0)]  # the front of no run at all, and that of the one run of an empty row


def front(pairs):
    """The front of runs with these powers and worths."""
    kept = []
    for power, worth in sorted(pairs, key=lambda pair: (pair[0], -pair[1])):
        if not kept or worth > kept[-1][1]:
            kept.append((power, worth))
    return kept


def best(runs, allowance):
    """The worth, and the power with a minus sign, of the best run of a front within an allowance, or None."""
    fitting = [(worth, -power) for power, worth in runs if power <= allowance]
    return fitting[-1] if fitting else None


def cells_of(runs, budget):
    """The cells of a front, for each allowance up to the budget."""
    values = [0] * (budget + 1)
    for (power, worth), (following, _) in zip(runs, [*runs[1:], (budget + 1, 0)]):
        values[power:following] = [worth * 512 + 512 - power] * (following - power)
    return values


def families(loads):
    """The first child of each load that has any, and the next brother of each load that has one."""
    first, after, latest = {}, {}, {}
    for k, (parent, *_) in enumerate(loads, 1):
        if parent in latest:
            after[latest[parent]] = k
        else:
            first[parent] = k
        latest[parent] = k
    return first, after


class Tree:
    """The fronts of every branch and of every row of an oracle's tables, within its budget."""

    def __init__(self, tables):
        self.tables = tables
        self.first, self.after = families(tables.loads)
        self.branches, self.rows = {}, {}  # by load and state; and, for the row from a load on, by load and stage
        for k in range(len(tables.loads), 0, -1):  # the loads below load k and its later brothers have greater numbers
            self.branches.update({(k, state): self.branch_front(k, state) for state in range(1, tables.states + 1)})
            self.rows.update({(k, stage): self.row_front(k, stage) for stage in range(1, tables.stages + 1)})

    def branch_front(self, k, state):
        return front(pair for n in self.rules_of(k, state) for pair in self.by_rule(k, n))

    def row_front(self, k, stage):
        return front(pair for n in self.rows_at(stage) for pair in self.by_row(k, n))

    def rules_of(self, k, state):
        """The numbers of the load rules for a load in a state."""
        tables = self.tables
        return [n for n, rule in enumerate(tables.rules, 1) if rule[0] == state and tables.serves(rule, tables.loads[k - 1])]

    def rows_at(self, stage):
        """The numbers of the row rules at a stage."""
        return [n for n, row in enumerate(self.tables.rows, 1) if row[0] == stage]

    def row(self, k, stage):
        """The front of the row from load k on, None for none, at a stage."""
        if k is None:
            return NOTHING_DRAWN if stage in self.tables.ends else EMPTY
        return self.rows[k, stage]

    def sums(self, one, other):
        """The powers and the worths of runs of two fronts together, within the budget."""
        return [(p + q, v + w) for p, v in one for q, w in other if p + q <= self.tables.budget]

    def by_rule(self, k, n):
        """Those of the runs of load k's branch with load rule n."""
        _, mark, stage, _ = self.tables.rules[n - 1]
        return self.sums([self.tables.figures(k, mark)], self.row(self.first.get(k), stage))

    def by_row(self, k, n):
        """Those of the runs of the row from load k on whose first row rule is n."""
        _, state, following = self.tables.rows[n - 1]
        return self.sums(self.branches[k, state], self.row(self.after.get(k), following))

    def parts(self):
        """The fronts in the order of the cells: loads from last to first, states then stages."""
        states, stages = range(1, self.tables.states + 1), range(1, self.tables.stages + 1)
        for k in range(len(self.tables.loads), 0, -1):
            yield from [self.branches[k, state] for state in states] + [self.rows[k, stage] for stage in stages]

    def whole(self):
        """The front of the whole tree."""
        return front(pair for state in self.tables.starts for pair in self.branches[1, state])

    # ---- "Which plan among equals"

    def chosen(self):
        """The chosen run, or None where no allowed set fits."""
        budget = self.tables.budget
        goal = best(self.whole(), budget)
        if goal is None:
            return None
        start = next(q for q in self.order(sorted(self.tables.starts)) if best(self.branches[1, q], budget) == goal)
        out, waiting = {}, [(1, start, 0, budget)]
        while waiting:
            k, state, row_rule, allowance = waiting.pop()
            goal = best(self.branches[k, state], allowance)
            n = next(n for n in self.order(self.rules_of(k, state)) if best(front(self.by_rule(k, n)), allowance) == goal)
            mark, stage = self.tables.rules[n - 1][1:3]
            out[k] = mark, state, n, row_rule
            waiting += self.children_chosen(self.first.get(k), stage, allowance - self.tables.figures(k, mark)[0])
        return out

    def children_chosen(self, k, stage, allowance):
        """For load k and each brother after it: the load, its state, its row rule and its allowance."""
        while k is not None:
            goal = best(self.rows[k, stage], allowance)
            n = next(n for n in self.order(self.rows_at(stage)) if best(front(self.by_row(k, n)), allowance) == goal)
            _, state, stage = self.tables.rows[n - 1]
            share = self.smallest_share(self.branches[k, state], self.row(self.after.get(k), stage), allowance, goal)
            yield k, state, n, share
            k, allowance = self.after.get(k), allowance - share

    def smallest_share(self, branch, rest, allowance, goal):
        """The smallest allowance for a branch by which it and the rest of the row reach the goal."""
        shares = self.shares(allowance)
        return next(share for share in shares if Oracle.together(best(branch, share), best(rest, allowance - share)) == goal)

    # ---- what largecheck.py gets wrong on purpose

    def order(self, numbers):
        return numbers

    def shares(self, allowance):
        return range(allowance + 1)


class Marked:
    """From which states the branch of each load can have the marks of a set, and from which stages the row from each load on."""

    def __init__(self, tables, marks):
        self.tables = tables
        self.marks = marks
        self.first, self.after = families(tables.loads)
        self.branches, self.rows = {}, {}
        for k in range(len(tables.loads), 0, -1):
            self.branches[k] = {tables.rules[n - 1][0] for n in self.rules_for(k)}
            self.rows[k] = {row[0] for row in tables.rows if self.follows(k, row)}

    def ends(self, k, stage):
        """Can the row from load k on, None for none, have the marks from a stage?"""
        return stage in (self.tables.ends if k is None else self.rows[k])

    def rules_for(self, k):
        """The numbers of the load rules by which load k can have its mark, and the loads below it theirs."""
        tables, found = self.tables, []
        for n, rule in enumerate(tables.rules, 1):
            if rule[1] == self.marks[k - 1] and tables.serves(rule, tables.loads[k - 1]) and self.ends(self.first.get(k), rule[2]):
                found.append(n)
        return found

    def follows(self, k, row):
        """Can load k take a row rule, and the later row go on?"""
        return row[1] in self.branches[k] and self.ends(self.after.get(k), row[2])

    def chosen(self):
        """The lowest run from the top down, or None."""
        starts = sorted(self.tables.starts & self.branches[1])
        out, waiting = {}, [(1, starts[0], 0)] if starts else []
        while waiting:
            k, state, row_rule = waiting.pop()
            n = next(n for n in self.rules_for(k) if self.tables.rules[n - 1][0] == state)
            out[k] = self.marks[k - 1], state, n, row_rule
            waiting += self.children_chosen(self.first.get(k), self.tables.rules[n - 1][2])
        return out or None

    def children_chosen(self, k, stage):
        """For load k and each brother after it: the load, its state and its row rule."""
        while k is not None:
            n, row = next((n, row) for n, row in enumerate(self.tables.rows, 1) if row[0] == stage and self.follows(k, row))
            yield k, row[1], n
            k, stage = self.after.get(k), row[2]


class Fronts(Oracle):
    """The oracle with fronts in the place of enumeration. Its tables, refusals and saves are the same."""
    tree = Tree

    def plan(self):
        return self.tree(self).chosen()

    def cell_values(self):
        return [value for runs in self.tree(self).parts() for value in cells_of(runs, self.budget)]

    def check(self, bits):
        return Marked(self, bits).chosen()

    def need(self, worth):
        """"the least budget .. whose plan has worth v or more" is the least power of a set that has it."""
        whole = self.tree(self).whole()
        if not whole:
            return ['no,9']
        return next((['need,%d' % power] for power, found in whole if found >= worth), ['no,15'])


def is_run(tables, numbers):
    """Are three numbers for each load a run of the tables? One pass in load order follows every row, since a parent comes before its children."""
    reached, numbers = [], list(numbers)
    for k, load in enumerate(tables.loads):
        state, n, row_number = numbers[3 * k:3 * k + 3]
        if not 1 <= n <= len(tables.rules) or tables.rules[n - 1][0] != state or not tables.serves(tables.rules[n - 1], load):
            return False
        if k == 0 and (row_number != 0 or state not in tables.starts):
            return False
        if k > 0:
            row = tables.rows[row_number - 1] if 1 <= row_number <= len(tables.rows) else None
            if row is None or (row[0], row[1]) != (reached[load[0] - 1], state):
                return False
            reached[load[0] - 1] = row[2]
        reached.append(tables.rules[n - 1][2])
    return tables.ends.issuperset(reached)
