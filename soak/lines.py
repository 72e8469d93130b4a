"""Random lines, valid and damaged, for the tables in force.

The weights of the words change from season to season, so that lists run full, books are replaced, and plans are asked for.
"""
from collections import namedtuple

from model import RANGES, Model
from edges import BELOW  # of tests/, which model.py put on the path

SEASON = 150  # lines
SEASONS = (
    {b'load': 30, b'power': 2, b'worth': 2, b'budget': 1, b'plan': 2, b'check': 2, b'save': 1, b'save1': 1, b'last': 1, b'need': 1},
    {b'start': 2, b'end': 2, b'rule': 20, b'row': 20, b'load': 3, b'plan': 2, b'check': 2, b'save': 1, b'save1': 1, b'last': 1, b'need': 1},
    {b'start': 1, b'end': 1, b'rule': 5, b'row': 5, b'load': 2, b'power': 5, b'worth': 5, b'budget': 5, b'plan': 8, b'check': 5, b'save': 1,
     b'save1': 1, b'last': 3, b'need': 4},
    {b'book': 1, b'start': 6, b'end': 6, b'rule': 8, b'row': 8, b'load': 1, b'budget': 2, b'plan': 2, b'check': 2, b'save': 1, b'save1': 1,
     b'last': 1, b'need': 1},
    {b'load': 20, b'drop': 20, b'power': 1, b'worth': 1, b'budget': 2, b'plan': 3, b'check': 3, b'save': 2, b'save1': 1, b'last': 1, b'need': 1},
    {b'load': 10, b'drop': 20, b'rule': 3, b'row': 3, b'budget': 2, b'plan': 2, b'check': 2, b'save': 1, b'save1': 1, b'last': 1, b'need': 1},
    {word: 1 for word in (*RANGES, b'check')},
)
OTHER_WORDS = (
    b'', b'Plan', b'plans', b'pla', b'save', b'saves', b'save1', b'save2', b'Save1', b'drop', b'Drop', b'drops', b'dro', b' drop', b'last',
    b'Last', b'lasts', b'las', b'need', b'Need', b'needs', b'nee', b'rules', b'check1', b'cler', b'0', b'no', b'ok',
)
ASKED = (b'save', b'save1', b'last', b'plan', b'last', b'check', b'need')  # after a drop; they change no table
POLLED = 0.3  # how often `last` comes after a line before or after which an outcome is stored
# The greatest power and worth, each with its place in a line, in a season in which many sets are equal in worth.
EQUALS = {b'load': {1: 3, 2: 1}, b'power': {1: 3}, b'worth': {1: 1}}
# The kinds of the load rules and of the loads of a season that begins without any, and numbers that are no kind.
KINDS = (0,), (0,), (0,), (0, 1), (2,), range(Model.most_kind + 1)
NO_KINDS = Model.most_kind + 1, Model.most_kind + 2, 255, 256, 257, 10 ** Model.most_digits - 1
WITH_KIND = b'rule', b'load'
Style = namedtuple('Style', 'equals kinds')  # of a season: are many sets equal in worth, and which kinds are there?
STRAY = bytes((0, 1, 9, 11, 13, 32, 34, 43, 44, 45, 46, 47, 48, 49, 57, 58, 65, 97, 127, 128, 255))
LONG = (*range(Model.most_bytes - 1, Model.most_bytes + 3), Model.most_bytes + 20, 1024, 1025, 4095, 4096, 4097, 9000)

LONG_BITS = tuple(length - len(b'check,') for length in LONG[:3])


# ---- lines that are in form

def at_an_edge(rng, low, high):
    """A value at an end of its range, just past it, or far from it."""
    most = 10 ** Model.most_digits
    others = (0, 1, Model.most_states + 1, Model.most_loads, Model.most_loads + 1, Model.most_power, Model.most_worth + 1)
    return max(0, rng.choice((low, high, low - 1, high + 1, high + 1, *others, most // 10 - 1, most // 10, most - 1)))


def budget(rng, model):
    """A budget: any, a small one, the greatest for which the cells lent are enough, or one more than that."""
    each = max(1, len(model.loads) * (model.states + model.stages))
    last = model.cells_lent // each - 1
    sort = rng.randrange(4)
    if sort == 0:
        return rng.randint(0, model.most_budget)
    if sort == 1:
        return rng.randint(0, 12)
    return max(0, last + sort - 2)


def bits(rng, model):
    """Bits for the loads, or a few more or fewer."""
    count = len(model.loads) if rng.random() < 0.9 else rng.choice((1, len(model.loads) - 1, len(model.loads) + 1, *LONG_BITS))
    return bytes(rng.choices(b'01', k=max(1, count)))


def worth_wanted(rng, model):
    """A worth for a need: none, that of some loads together, one more, that of all loads, or one more."""
    all_loads = sum(load[2] for load in model.loads)
    some = sum(load[2] for load in rng.sample(model.loads, min(len(model.loads), rng.randint(1, 4))))
    return rng.choice((0, 1, some, some, some + 1, all_loads, all_loads + 1))


def leaf(rng, model):
    """The number of a load without children."""
    return rng.choice(sorted({*range(1, len(model.loads) + 1)} - {parent for parent, *_ in model.loads}))


def values(rng, model, word, style):
    """Values for the fields of a word: in their ranges, now and then at an edge, now and then those of a rule that is there. A load that is to
    leave has mostly no children. By the season's style loads have few different figures or many, and few kinds."""
    there = {b'rule': model.rules, b'row': model.rows}.get(word)
    if there and rng.random() < 0.1:
        return rng.choice(there)
    if word == b'budget' and rng.random() < 0.6:
        return [budget(rng, model)]
    if word == b'drop' and model.loads and rng.random() < 0.6:
        return [leaf(rng, model)]
    if word == b'need' and rng.random() < 0.8:
        return [worth_wanted(rng, model)]
    ranges = RANGES[word](model)
    found = [rng.randint(low, max(low, high)) for low, high in ranges]
    for place, most in EQUALS.get(word, {}).items() if style.equals else ():
        found[place] = rng.randint(0, most)
    if word in WITH_KIND:
        found[-1] = rng.choice(style.kinds if rng.random() < 0.95 else NO_KINDS)
    if ranges and rng.random() < 0.2:
        field = rng.randrange(min(3, len(ranges)))  # any but the kind
        found[field] = at_an_edge(rng, *ranges[field])
    return found


def number(rng, value):
    """A number as it is written, now and then with zeros in front."""
    return (b'%d' % value).zfill(rng.randint(1, Model.most_digits) if rng.random() < 0.3 else 1)


def line_of(rng, model, word, style):
    """A line that is in form. A kind of 0 is often left out."""
    if word == b'check':
        return b'check,' + bits(rng, model)
    found = values(rng, model, word, style)
    if word in WITH_KIND and found[-1] == 0 and rng.random() < 0.6:
        found = found[:-1]
    return b','.join([word] + [number(rng, value) for value in found])


# ---- damage to a line

def byte_changed(rng, line):
    at = rng.randrange(len(line))
    return line[:at] + bytes((rng.choice(STRAY),)) + line[at + 1:]


def byte_added(rng, line):
    at = rng.choice((0, len(line), rng.randint(0, len(line))))
    return line[:at] + bytes((rng.choice(STRAY),)) + line[at:]


def byte_left_out(rng, line):
    at = rng.randrange(len(line))
    return line[:at] + line[at + 1:]


def carriage_return(rng, line):
    return line + b'\r'


def field_changed(rng, line):
    """A field with zeros in front, with too many digits, now and then by zeros in front, with a sign or a blank, or empty."""
    parts = line.split(b',')
    at = rng.randint(min(1, len(parts) - 1), len(parts) - 1)
    field = parts[at]
    too_long = rng.choice((b'1' + field.zfill(Model.most_digits), field.zfill(Model.most_digits + 1), b'%d' % 10**Model.most_digits))
    parts[at] = rng.choice((b'', b'0' + field, b'00' + field, too_long, too_long, b'+' + field, b'-' + field, b' ' + field, field + b' '))
    return b','.join(parts)


def fields_changed(rng, line):
    """A field too many or too few."""
    return rng.choice((line + b',', line + b',0', line + b',1,1', line.rpartition(b',')[0], b',' + line))


def other_word(rng, line):
    comma = line.find(b',')
    return rng.choice(OTHER_WORDS) + (line[comma:] if comma >= 0 else b'')


def capitals(rng, line):
    return rng.choice((line.upper(), line.capitalize()))


def made_long(rng, line):
    """The line filled up to a length at or past the limit, in form or not."""
    length = rng.choice(LONG)
    filling = rng.choice((b'0', b'1', b',', b' ', b'x', b'\0'))
    return rng.choice((line, b'check,', b'budget,', b'save', b'save1', b'last', b'need,')).ljust(length, filling)


def noise(rng, line):
    return bytes(rng.choices(STRAY, k=rng.choice((0, 0, 1, 2, 5, 12, Model.most_bytes, Model.most_bytes + 1))))


DAMAGE = (
    byte_changed, byte_added, byte_left_out, carriage_return, field_changed, field_changed, fields_changed,
    other_word, capitals, made_long, noise,
)


# ---- the lines of a session

def book_lines(rng):
    """A new book, often the largest, and often one whose states and stages are all marked."""
    most = Model.most_states, Model.most_stages
    states, stages = rng.choice((most, [rng.randint(1, number) for number in most], (rng.randint(1, 3), rng.randint(1, 3))))
    lines = [b'book,%d,%d' % (states, stages)]
    if rng.random() < 0.5:
        lines += [b'start,%d' % state for state in range(1, states + 1)]
        lines += [b'end,%d' % stage for stage in range(1, stages + 1)]
    return lines


def first_lines(rng, model):
    """How a season begins: now and then with a fresh planner, after a budget that must not stay; now and then with a new book, most often
    where there is none."""
    lines = [b'budget,%d' % Model.most_budget, b'clear'] if rng.random() < 0.25 else []
    if rng.random() < (0.8 if lines or model.states == 0 else 0.3):
        lines += book_lines(rng)
    return lines


def dropped(taken):
    """The load that a line takes out, or None, by what the model says of it."""
    number, word, values = taken
    return values[0] if number == 0 and word == b'drop' else None


def after(rng, model, line, style):
    """What follows a line, which the model takes: the words of ASKED after a drop, and often `last` where an outcome is stored or was."""
    stored = model.stored
    if dropped(model.take(line)):
        return [line_of(rng, model, word, style) for word in ASKED]
    return [b'last'] if (stored or model.stored) and rng.random() < POLLED else []


def kinds_for(rng, model):
    """The kinds for a season: those that are there, mostly, so that most loads have a rule."""
    there = [one[3] for one in model.rules + model.loads]
    return there if there and rng.random() < 0.8 else rng.choice(KINDS)


def season(rng, model):
    """The lines of a season. The model takes each, so that the next one is written for the tables in force."""
    weights, lines = rng.choice(SEASONS), first_lines(rng, model)
    words, shares = list(weights), list(weights.values())
    for line in lines:
        model.take(line)
    style = Style(rng.random() < 0.4, kinds_for(rng, model))
    while len(lines) < SEASON:
        line = line_of(rng, model, rng.choices(words, shares)[0], style)
        if rng.random() < 0.2:
            line = rng.choice(DAMAGE)(rng, line)
        following = after(rng, model, line, style)
        for next_line in following:
            model.take(next_line)
        lines += [line, *following]
    return lines


def one_rule_more():
    """The largest book, with one rule of each sort more than there may be, and then one that is there already."""
    states, stages = Model.most_states, Model.most_stages
    rules = [b'rule,%d,0,%d' % (q, g) for q in range(1, states + 1) for g in range(1, stages + 1)]
    rows = [b'row,1,%d,%d' % (q, h) for q in range(1, states + 1) for h in range(1, stages + 1)]
    return [b'book,%d,%d' % (states, stages)] + [line for sort in (rules, rows) for line in (*sort[:Model.most_rules + 1], sort[0])]


def kinds_past_all():
    """As many load rules of one kind as there may be, and then one more of each kind, of one past the last, and of those that are there."""
    rules = [b'rule,%d,%d,%d,1' % (n % 8 + 1, n // 8 % 2, n // 16 + 1) for n in range(Model.most_rules)]
    return [b'book,8,8', *rules] + [b'rule,1,0,%d,%d' % (stage, kind) for stage in (1, 8) for kind in range(Model.most_kind + 2)]


# Lines of load rules and of loads with kinds at every edge, and lines that are nearly such.
NEAR_KINDS = (
    b'rule,1,0,1', b'rule,1,0,1,0', b'rule,1,0,1,000000', b'rule,1,0,1,1', b'rule,1,0,1,1', b'rule,1,0,1,3', b'rule,1,0,1,000003', b'rule,1,0,1,4',
    b'rule,1,0,1,256', b'rule,1,0,1,', b'rule,1,0,1,0,0', b'rule,1,0,1,0000000', b'row,1,1,1,0', b'row,1,1,1,1', b'row,1,1,1,', b'row,1,1,1',
    b'load,0,1,1,3', b'load,1,1,1,4', b'load,1,1,1,65536', b'load,1,1,1,', b'load,1,1,1,0,0', b'load,1,1,1', b'load,1,1,1,0', b'load,2,2,2,2',
)


def of_kinds():
    """A kind on a load alone and on a load rule alone, both at every edge, and what changes loads, books and plans with them, with saves between."""
    lines = [b'clear', b'save1', b'load,0,1,1', b'save1', b'load,1,1,1,1', b'save1', b'drop,2', b'save1', b'book,2,2', b'rule,2,0,2,3', b'save1']
    lines += [b'save1,', b'save1,1', b'save,1', b'save1s', b'book,1,1', b'save1', *NEAR_KINDS, b'drop,4', b'power,1,9', b'worth,1,9', b'power,3,9']
    lines += [b'worth,4,2', b'drop,3', b'start,1', b'end,1', b'budget,20', b'plan', b'rule,1,1,1,3', b'rule,1,1,1,2', b'rule,1,0,1,2', b'plan']
    lines = [line for one in lines for line in (one, b'save', b'last')]
    return lines + [b'plan', b'save1', b'last', b'check,000', b'check,101', b'check,111', b'book,2,2', b'save', b'clear', b'save1']


def all_cells():
    """Plans and needs that take every cell that is lent, and more, of half of the loads that there may be and of all."""
    lines, asked = [b'book,1,1', b'load,0,0,0'], [b'plan', b'need,0', b'need,%d' % Model.most_need, b'need,%d' % (Model.most_need + 1)]
    for entering, loads in ((Model.most_loads // 2 - 1, Model.most_loads // 2), (Model.most_loads - Model.most_loads // 2, Model.most_loads)):
        budget = Model.cells_lent // (2 * loads) - 1
        lines += [b'load,1,0,0'] * entering + [b'budget,%d' % budget, *asked, b'budget,%d' % (budget + 1), *asked]
    return lines


HALF = Model.most_loads // 2  # the loads whose marks are in the first word of a set


def checks_of_all():
    """Checks of as many loads as there may be, of which the first half are a chain: all of these on with others or none, these off, and bits that
    are one too many or too few."""
    ends = b'0' * HALF, b'1' * HALF, b'01' * (HALF // 2), b'1'.ljust(HALF, b'0'), b'1'.rjust(HALF, b'0')
    checks = [b'check,' + b'1' * HALF + end for end in ends] + [b'check,' + b'0' * HALF + end for end in ends]
    return [*checks, checks[0] + b'0', checks[0][:-1]]


def most_loads():
    """As many loads as there may be, and one more: a chain to the half, and then a row below its end, with plans, checks and drops among loads of
    both halves. A load may be on only if its parent is."""
    last = Model.most_loads
    loads = [b'load,%d,%d,%d' % (min(k, HALF), k % 4 // 3, k % 7) for k in range(last + 1)]
    asked = [b'plan', b'last', *checks_of_all(), b'need,100', b'save', b'save1']
    drops = [b'drop,%d' % k for k in (last + 1, HALF, HALF + 1, last, last - 1)]
    figures = [b'power,%d,9' % last, b'worth,%d,9' % last, b'power,%d,9' % (last + 1), b'worth,%d,9' % (last + 1)]
    lines = [b'clear', *BELOW.encode().split(), *loads, b'budget,31', *asked, *drops, b'plan', b'last']
    return lines + [b'load,%d,1,1' % HALF, b'load,1,1,1', b'load,1,1,1', *asked, *figures, b'plan', b'save']


def cameras(*powers):
    """A feed with cameras of equal worth and space for one of them, and its plan. A load may be on only if its parent is."""
    loads = [b'load,0,0,0'] + [b'load,1,%d,20' % power for power in powers]
    return [b'clear', *BELOW.encode().split(), *loads, b'budget,%d' % max(powers), b'plan']


# Lines that leave the last plan of a feed with two cameras as it is, and lines that do not, though they leave every table equal.
LEFT = (
    b'budget,501', b'drop,4', b'power,4,1', b'rule,1,0,2', b'row,2,2,2', b'drop,1', b'check,110', b'check,101', b'check,011', b'save', b'save1',
    b'last', b'rule,1,0,2,0', b'rule,1,0,2,4', b'load,1,1,1,4', b'plan', b'plan,', b'', b'last,', b'need,0', b'need,20', b'need,21',
    b'need,%d' % (Model.most_need + 1), b'need,', b'clear'.ljust(Model.most_bytes + 1, b','),
)
WIPED = (b'start,1', b'end,2', b'power,2,9', b'worth,3,20', b'budget,9')


def polled():
    """The last plan of a feed with two cameras after lines of every sort and after each word that can change, and with no loads and too few
    cells."""
    lines = [b'last', b'plan', b'last', *cameras(9, 6), b'last']
    lines += [line for one in LEFT for line in (one, b'last')] + [line for one in WIPED for line in (one, b'last', b'plan', b'last')]
    changes = (b'rule,1,1,2', b'row,1,2,1', b'load,1,1,1', b'drop,4', b'book,2,2', b'book,2,2', b'clear', b'clear')
    lines += [line for one in changes for line in (one, b'last', b'plan', b'last')]
    return lines + [b'book,1,1', b'load,0,0,0', b'plan', b'last'] + [b'load,1,0,0'] * (Model.most_loads - 1) + [
        b'budget,%d' % Model.most_budget, b'plan', b'last', b'budget,0', b'last', b'plan', b'load,1,0,0', b'last']


# Lines that ask for the least budget, at every edge of the worth, and lines that are nearly such.
NEEDS = (
    b'need,0', b'need,000000', b'need,1', b'need,20', b'need,000020', b'need,21', b'need,40', b'need,41', b'need,64000', b'need,64001',
    b'need,%d' % Model.most_need, b'need,%d' % (Model.most_need + 1), b'need,65556', b'need,99999', b'need,131092', b'need,999999', b'need,1000000',
    b'need,0000020', b'need', b'need,', b'need,20,', b'need,20,0', b'needs,20', b'Need,20', b'need,-1', b'need,'.ljust(Model.most_bytes + 1, b'0'),
)


def needed():
    """Needs with no loads, with no book, of two cameras with several budgets, with no allowed set, and with as many cells as are lent and fewer;
    with saves and the last plan between."""
    lines = [b'clear', *NEEDS, b'budget,9', b'load,0,0,0', *NEEDS, b'clear', *cameras(9, 6)]
    for budget in (0, 5, 6, 14, 15, 500):
        lines += [b'budget,%d' % budget, *NEEDS, b'plan', *(line for one in NEEDS for line in (one, b'last')), b'save']
    lines += [b'book,2,2', *NEEDS, b'last', b'plan', *NEEDS, b'last', *all_cells()]
    return lines


def seldom():
    """What random lines seldom have, in a session of its own."""
    sizes = [b'book,%d,1' % (Model.most_states + 1), b'book,1,%d' % (Model.most_stages + 1)]
    others = [b'\0plan', b'\0budget,1', b'check,', b'save']
    lines = sizes + one_rule_more() + kinds_past_all() + all_cells() + others + cameras(9, 6) + cameras(6, 9) + polled() + of_kinds() + needed()
    return lines + most_loads()


def session(rng, model, count):
    """Lines for a program that starts fresh."""
    lines = []
    while len(lines) < count:
        lines += season(rng, model)
    return lines[:count]
