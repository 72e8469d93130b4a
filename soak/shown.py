"""The answers of `plan`, `check` and `need` where the tables settle no refusal, read as far as that needs no planning.

Either the refusal that planning alone can tell (9 or 10), or a first line and a line for each load. Those lines must be a run by paper 01,
and the first line the figures of its set. Whether a better set exists, or whether the refusal is right, is not asked here. A need is answered with
9, 15 or a budget up to the one in force; whether that is the least is not asked here.
"""

OTHERWISE = {b'plan': b'no,9', b'check': b'no,10'}


def entry(line, number):
    """The mark, state, load rule and row rule of a load's line, or None."""
    fields = line.split(b',')
    if len(fields) != 5 or not all(field.isdigit() and str(int(field)).encode() == field for field in fields):
        return None
    values = [int(field) for field in fields]
    return values[1:] if values[0] == number else None


def load_rule(model, entry, load):
    """The load rule of a load's entry, if it is one of the book, serves the load, and begins with the entry's state and mark."""
    mark, state, number, _ = entry
    if not 1 <= number <= len(model.rules):
        return None
    rule = model.rules[number - 1]
    return rule if rule[:2] == [state, mark] and model.serves(rule, load) else None


def reached(model, entry, stage):
    """The stage that a row reaches through a child with this entry, or None if its row rule does not follow on."""
    _, state, _, row = entry
    if not 1 <= row <= len(model.rows):
        return None
    return model.rows[row - 1][2] if model.rows[row - 1][:2] == [stage, state] else None


def is_tree(model):
    """Does each parent come before its children? A model that is wrong on purpose may leave a load whose parent does not."""
    return all(0 < parent < k if k > 1 else parent == 0 for k, (parent, *_) in enumerate(model.loads, 1))


def is_run(model, entries):
    """Is this a run? A parent comes before its children, and children come in order, so one pass in load order follows every row."""
    stages = []
    for k, entry in enumerate(entries):
        rule = load_rule(model, entry, model.loads[k])
        if rule is None:
            return False
        if k == 0:
            right = entry[1] in model.starts and entry[3] == 0
        else:
            parent = model.loads[k][0] - 1
            stages[parent] = reached(model, entry, stages[parent])
            right = stages[parent] is not None
        if not right:
            return False
        stages.append(rule[2])
    return model.ends.issuperset(stages)


def figures(model, entries):
    """The worth, the power and the number of the loads with mark 1."""
    on = [load for k, (load, entry) in enumerate(zip(model.loads, entries), 1) if model.is_on(k, entry[0])]
    return sum(load[2] for load in on), sum(load[1] for load in on), len(on)


def wrong(model, word, values, lines):
    """What is wrong with the lines of an answer, or None."""
    entries = [entry(line, k) for k, line in enumerate(lines[1:], 1)]
    if len(entries) != len(model.loads) or None in entries:
        return 'a line for each load'
    if not is_tree(model) or not is_run(model, entries):
        return 'a run'
    if word == b'check':
        return None if lines[0] == b'yes' and [e[0] for e in entries] == values else 'yes and the set checked'
    worth, power, count = figures(model, entries)
    if power > model.budget:
        return 'a set within the budget'
    return None if lines[0] == b'plan,%d,%d,%d' % (worth, power, count) else 'the figures of the set shown'


def wrong_need(model, worth, line):
    """What is wrong with the answer to a need, or None. No worth is too great if it is 0, and none is reached that all loads together lack."""
    if line == b'no,9' or line == b'no,15' and worth > 0:
        return None
    budget = line.removeprefix(b'need,')
    in_form = line.startswith(b'need,') and budget.isdigit() and b'%d' % int(budget) == budget and int(budget) <= model.budget
    return None if in_form and worth <= sum(load[2] for load in model.loads) else 'a budget up to %d' % model.budget


def read(model, word, values, printed, at):
    """Reads the answer to an accepted `plan`, `check` or `need` from the printed lines at a place: what was expected but not found, or None;
    the kind of the answer; and how many lines it has."""
    if word == b'need':
        line = printed[at] if at < len(printed) else b''
        return wrong_need(model, values[0], line), line, 1
    if at < len(printed) and printed[at] == OTHERWISE[word]:
        return None, printed[at], 1
    lines = printed[at:at + 1 + len(model.loads)]
    return wrong(model, word, values, lines), word, len(lines)
