"""Outcomes, kinds and counts of filled cells by chance, in range and out of it, for planners that are handed in."""
import copy

from limits import MAX_KIND, MAX_LOADS, MAX_RULES, NO_SET, NOTHING, PLANNED, WORD_LOADS
from script import padded


def near(rng, most):
    """A figure from 0 to a greatest one, or just past its range."""
    return rng.choice((0, 1, most, most + 1, rng.randint(0, most), 255))


def any_run(rng, p):
    """An entry for each load, in range for the tables but no run of them, or none where nothing is in range."""
    if not p.states or not p.load_rule_count or p.load_count > 1 and not p.row_rule_count:
        return []
    figures = [(p.states, p.load_rule_count, p.row_rule_count if k else 0) for k in range(p.load_count)]
    return [tuple(rng.randint(min(1, most), most) for most in mosts) for mosts in figures]


def damage(rng, q):
    """Changes one figure of an outcome."""
    ends = max(0, q.load_count - 1), min(q.load_count, MAX_LOADS - 1), WORD_LOADS - 1, WORD_LOADS, MAX_LOADS - 1
    place = rng.choice((0, *ends, rng.randrange(MAX_LOADS)))
    state, rule, row = q.run[place]
    figure = rng.choice(('state', 'rule', 'row', 'set', 'status'))
    if figure == 'state':
        q.run[place] = near(rng, q.states), rule, row
    elif figure == 'rule':
        q.run[place] = state, near(rng, q.load_rule_count), row
    elif figure == 'row':
        q.run[place] = state, rule, near(rng, q.row_rule_count)
    elif figure == 'set':
        q.set ^= 1 << place
    else:
        q.status = rng.choice((NOTHING, NO_SET, PLANNED, PLANNED + 1, 255))


def with_any_kind(rng, p):
    """The planner with one kind by chance, of a load, a load rule or a row rule, in use or not."""
    q = copy.deepcopy(p)
    places, used, most = rng.choice(
        ((q.loads, q.load_count, MAX_LOADS), (q.load_rules, q.load_rule_count, MAX_RULES), (q.row_rules, q.row_rule_count, MAX_RULES)))
    place = rng.choice((0, max(0, used - 1), min(used, most - 1), most - 1, rng.randrange(most)))
    places[place] = *places[place][:3], rng.choice((0, 1, rng.randint(0, MAX_KIND), MAX_KIND, MAX_KIND + 1, 255))
    return q


def with_any_outcome(rng, p):
    """The planner with an outcome by chance, mostly a plan. In half of them one figure is changed."""
    q = p.without_outcome()
    q.status = rng.choice((NOTHING, NO_SET, *6 * [PLANNED]))
    if q.status == PLANNED:
        q.run = padded(any_run(rng, p), MAX_LOADS)
        q.set = rng.choice((0, 2**p.load_count - 1, rng.randrange(2**p.load_count)))
    if rng.random() < 0.5:
        damage(rng, q)
    return q


def with_any_count(rng, p):
    """The planner with a count of filled cells by chance, in range or not."""
    q, cells = copy.copy(p), p.load_count * (p.states + p.stages) * (p.budget + 1)
    near = 0, 1, cells - 1, cells, cells, cells + 1, cells + 2, 2**16, 2**16 + cells, 2**31, 2**32 - 1
    q.filled = rng.choice((rng.randint(0, cells), max(0, rng.choice(near))))
    return q
