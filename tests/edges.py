"""Sessions by name, each with its answers as paper 02 has them: of loads that leave (request Three), of equal plans, of which the cooler one
wins (request Four), of the last plan, shown again (request Five), of kinds of load (request Eight), of how little supply would do (request Nine),
and of 128 loads (request Ten). The answers are written by hand but for the listings of the fullest trees, which a formula makes.

In the text of a session a row is `LINE LINE .. -> ANSWER`: each of the lines has this answer, and an answer's lines are parted by blanks. Where
the answer of `save` has a line without a kind, the kind 0 is added to it. That of `save1` stands as it is.
"""
import re

from limits import CELLS, LINE_BYTES, MAX_BUDGET, MAX_KIND, MAX_LOADS, MAX_NEED, MAX_RULES, MAX_STAGES, MAX_STATES, MAX_WORTH, WORD_LOADS

# A load may be on only if its parent is.
BELOW = 'book,2,2 start,1 start,2 end,1 end,2 rule,1,0,2 rule,1,1,1 rule,2,0,2 row,1,1,1 row,2,2,2'
# Of the children of a load the first, the third and so on may be on, and the others are off.
EVERY_OTHER = 'book,2,2 start,1 end,1 end,2 rule,1,1,1 rule,1,0,1 rule,2,0,1 row,1,1,2 row,2,2,1'
# Every load is on.
ALL_ON = 'book,1,1 start,1 end,1 rule,1,1,1 row,1,1,1'
# Every load may be on or off, and its rule for on is the lower one.
ON_FIRST = 'book,1,1 start,1 end,1 rule,1,1,1 rule,1,0,1 row,1,1,1'
# The root is on in state 1 and off in state 2, and has no children.
ON_BY_STATE = 'book,2,1 start,1 start,2 end,1 rule,1,1,1 rule,2,0,1'
# The root is on. By its lower rule its children are on, by its higher one off.
ON_BY_RULE = 'book,3,2 start,1 end,1 end,2 rule,1,1,1 rule,1,1,2 rule,2,1,1 rule,3,0,1 row,1,2,1 row,2,3,2'
# The root is on. A child is on by the lower row rule, off by the higher one.
ON_BY_ROW = 'book,3,1 start,3 end,1 rule,1,1,1 rule,2,0,1 rule,3,1,1 row,1,1,1 row,1,2,1'
# Of the children of the root the first may be off, and every other load is on.
FIRST_FREE = 'book,3,2 start,3 end,2 rule,3,1,1 rule,2,0,2 rule,2,1,2 rule,1,1,2 row,1,2,2 row,2,1,2'
# Of the children of the root the first is off by row rule 1, or the second by row rules 2 and 3. Every other load is on.
ONE_OF_TWO = 'book,3,3 start,3 end,2 rule,3,1,1 rule,1,1,2 rule,2,0,2 row,1,2,2 row,1,1,3 row,3,2,2 row,2,1,2'

# The loads that are on hang together, and there are some.
TOGETHER = 'book,3,3 start,1 end,1 end,2 rule,1,0,3 rule,1,1,2 rule,2,0,1 rule,2,1,2 rule,3,0,1 row,1,3,1 row,2,2,2 row,3,3,3 row,3,1,1'

# The cabinet of paper 01: its loads, its lines but for the budget, and its plans with a budget of 30 and of 32.
CABINET = 'load,0,10,0 load,1,15,40 load,1,5,30 load,2,7,50'
WORKED = f'{BELOW} {CABINET}'
PLAN_30 = 'plan,70,30,3 1,1,1,2,0 2,1,1,2,1 3,1,1,2,1 4,0,1,1,1'
PLAN_32 = 'plan,90,32,3 1,1,1,2,0 2,1,1,2,1 3,0,1,1,1 4,1,1,2,1'

# Lines that are nearly drops of a load: each breaks its form, and is answered with 3.
NEAR_DROPS = (
    b'drop', b'drop,', b'drop,,', b'drop,,2', b'drop,2,', b'drop,1,2', b'drop,2,2', b'Drop,2', b'DROP,2', b'drops,2', b'dro,2', b'drop2',
    b'drop;2', b' drop,2', b'drop ,2', b'drop, 2', b'drop,2 ', b'drop,2\r', b'drop,2\0', b'\0drop,2', b',drop,2', b'drop,-2', b'drop,+2',
    b'drop,2.0', b'drop,0x2', b'drop,x', b'drop,0000002', b'drop,1000000', b'drop,'.ljust(LINE_BYTES, b'0'),
)
LONG_DROP = b'drop,'.ljust(LINE_BYTES + 1, b'0')

# Lines that are nearly `last`: each breaks its form, and is answered with 3.
NEAR_LASTS = (
    b'last,', b'last,,', b'last,0', b'last,1', b'last,00001', b'last,1,1', b'last,plan', b'plan,last', b'Last', b'LAST', b'lasts', b'last1',
    b'las', b'las,', b'latest', b'last;', b' last', b'last ', b'last\t', b'last\r', b'last\0', b'\0last', b',last', b'\xefast', b'last\xff',
    b'last'.ljust(LINE_BYTES, b't'), b'last,'.ljust(LINE_BYTES, b'0'),
)
LONG_LAST = b'last,'.ljust(LINE_BYTES + 1, b'0')

# Lines that are nearly a load rule or a load with a kind, or another line with one more field, which none has: each is answered with 3.
NEAR_KINDS = (
    b'rule,1,0,1,', b'rule,1,0,1,,', b'rule,1,0,1,,0', b'rule,1,0,1,0,', b'rule,1,0,1,0,0', b'rule,1,0,1,1,1', b'rule,1,0,1,0000000',
    b'rule,1,0,1,0000001', b'rule,1,0,1,1000000', b'rule,1,0,1,-1', b'rule,1,0,1,+1', b'rule,1,0,1, 1', b'rule,1,0,1,1 ', b'rule,1,0,1,1\r',
    b'rule,1,0,1,x', b'rule,1,0,1;1', b'rule,1,0,,1', b'rule,,0,1,1', b'rule,1,0', b'rules,1,0,1,1', b'load,1,2,3,', b'load,1,2,3,,',
    b'load,1,2,3,,0', b'load,1,2,3,0,', b'load,1,2,3,0,0', b'load,1,2,3,1,1', b'load,1,2,3,0000000', b'load,1,2,3,0000003', b'load,1,2,3,-1',
    b'load,1,2,3,1\0', b'load,1,2,3,1 ', b'load,1,2,3,x', b'load,1,2,,1', b'load,,2,3,1', b'load,1,2', b'loads,1,2,3,1', b'row,1,1,1,',
    b'row,1,1,1,0', b'row,1,1,1,1', b'row,1,1,1,3', b'row,1,1,1,4', b'row,1,1,1,00000', b'row,1,1,1,0,0', b'power,1,1,0', b'worth,1,1,1',
    b'drop,1,0', b'start,1,0', b'end,1,1', b'book,1,1,0', b'budget,1,0', b'kind,1,1', b'rule1,1,0,1', b'load1,1,2,3',
)

# Lines that are nearly `save1`: each breaks its form, and is answered with 3.
NEAR_SAVES = (
    b'save1,', b'save1,,', b'save1,0', b'save1,1', b'save1,00001', b'save,1', b'save,', b'save0', b'save2', b'save01', b'save10', b'save11',
    b'save1s', b'saves1', b'Save1', b'SAVE1', b'sav1', b'save 1', b'save1 ', b' save1', b'save1\t', b'save1\r', b'save1\0', b'\0save1',
    b'save\xb1', b',save1', b'1', b'save1'.ljust(LINE_BYTES, b'1'), b'save1,'.ljust(LINE_BYTES, b'0'),
)
LONG_SAVE = b'save1'.ljust(LINE_BYTES + 1, b'1')

# Lines that are nearly `need`: each breaks its form, and is answered with 3.
NEAR_NEEDS = (
    b'need', b'need,', b'need,,', b'need,,70', b'need,70,', b'need,70,0', b'need,70,70', b'Need,70', b'NEED,70', b'needs,70', b'needed,70',
    b'nee,70', b'need70', b'need;70', b' need,70', b'need ,70', b'need, 70', b'need,70 ', b'need,70\t', b'need,70\r', b'need,70\0', b'\0need,70',
    b',need,70', b'70,need', b'need,-1', b'need,+70', b'need,70.0', b'need,0x46', b'need,x', b'need,plan', b'need,0000000', b'need,0000070',
    b'need,0%d' % MAX_NEED, b'need,1000000', b'need,\xb7', b'\xeeeed,70', b'need,'.ljust(LINE_BYTES, b'0'), b'need,'.ljust(LINE_BYTES, b','),
)
LONG_NEED = b'need,'.ljust(LINE_BYTES + 1, b'0')

WITHOUT_KIND = re.compile('(rule|load)(,[0-9]+){3}')


def with_kinds(lines):
    """The lines of a save, of load rules and of loads each with its kind, 0 where none is written."""
    return [line + ',0' if WITHOUT_KIND.fullmatch(line) else line for line in lines]


def steps(text):
    """The lines of a session's text, each with the lines of its answer."""
    for row in text.strip().splitlines():
        lines, answer = row.split(' -> ')
        for line in lines.split():
            yield line.encode(), with_kinds(answer.split()) if line == 'save' else answer.split()


def parted(said):
    """The lines of what was said, and their answers."""
    return [line for line, _ in said], [answer for _, answer in said]


def session(text):
    """The lines of a session that starts with `clear`, and their answers."""
    return parted([(b'clear', ['ok']), *steps(text)])


def near_drops():
    """The lines that are nearly drops, on a tree that some could be meant for. It stays as it is, and then its last load leaves."""
    return parted([
        *steps('clear load,0,1,1 load,1,2,2 -> ok'),
        *((line, ['no,3']) for line in NEAR_DROPS),
        (LONG_DROP, ['no,2']),
        *steps('save -> clear load,0,1,1 load,1,2,2 budget,0\ndrop,000002 -> ok\nsave -> clear load,0,1,1 budget,0'),
    ])


def near_lasts():
    """The lines that are nearly `last`, with no current plan and with one, which stays as it is."""
    near = [*((line, ['no,3']) for line in (b'', *NEAR_LASTS)), (LONG_LAST, ['no,2'])]
    return parted([
        *steps(f'clear {WORKED} budget,30 -> ok'), *near,
        *steps(f'last -> no,12\nplan -> {PLAN_30}'), *near,
        *steps(f'last -> {PLAN_30}'),
    ])


def near_kinds():
    """The lines that are nearly of a kind, with a book and a load that some could be meant for. Both stay as they are."""
    saved = 'save -> clear book,1,1 rule,1,1,1 load,0,1,1,2 budget,0'
    return parted([
        *steps(f'clear book,1,1 rule,1,1,1 load,0,1,1,2 -> ok\n{saved}'),
        *((line, ['no,3']) for line in NEAR_KINDS),
        (b'rule,1,0,1'.ljust(LINE_BYTES + 1, b','), ['no,2']),
        *steps(f'{saved}\nrule,1,0,1,1 load,1,2,3,3 -> ok\nsave -> clear book,1,1 rule,1,1,1 rule,1,0,1,1 load,0,1,1,2 load,1,2,3,3 budget,0'),
    ])


def near_saves():
    """The lines that are nearly `save1`, while every kind is 0 and while some are not: 3 comes before 14."""
    near = [*((line, ['no,3']) for line in NEAR_SAVES), (LONG_SAVE, ['no,2'])]
    return parted([
        *steps('clear load,0,1,1 -> ok'), *near, *steps('save1 -> clear load,0,1,1 budget,0'),
        *steps('load,1,2,2,1 -> ok'), *near, *steps('save1 -> no,14'),
    ])


def near_needs():
    """The lines that are nearly `need`, with no loads, with loads and with a plan, which stays: 3 comes before 4."""
    near = [*((line, ['no,3']) for line in NEAR_NEEDS), (LONG_NEED, ['no,2'])]
    return parted([
        (b'clear', ['ok']), *near, *steps(f'{WORKED} budget,30 -> ok'), *near,
        *steps(f'need,70 -> need,30\nlast -> no,12\nplan -> {PLAN_30}'), *near,
        *steps(f'last -> {PLAN_30}\nsave -> clear {BELOW} {CABINET} budget,30'),
    ])


# A root and as many loads below it as there may be, of worth 2 and so on. No load draws anything.
STAR = ['load,0,0,1'] + ['load,1,0,%d' % worth for worth in range(2, MAX_LOADS + 1)]
# That without the load of worth 30 and the last one, and with two loads that came later.
STAR_LATER = STAR[:29] + STAR[30:-1] + ['load,1,0,%d' % (MAX_LOADS + 1), 'load,%d,0,%d' % (MAX_LOADS - 1, MAX_LOADS + 2)]
# A plan that has every load on.
STAR_RUN = ['1,1,1,1,0'] + ['%d,1,1,1,1' % k for k in range(2, MAX_LOADS + 1)]

DROP_EDGES = {
    'near drops': near_drops(),
    'no loads': session('''
drop,1 drop,0 drop,2 drop,64 drop,65 drop,128 drop,129 drop,99999 drop,999999 -> no,5
book,1,1 budget,9 -> ok
drop,1 drop,0 -> no,5
plan -> no,4
save -> clear book,1,1 budget,9
'''),
    'number 0, of which load 1 is the child': session('''
load,0,1,1 -> ok
drop,0 drop,00000 drop,000000 -> no,5
load,1,2,2 load,2,3,3 -> ok
drop,0 drop,000 -> no,5
save -> clear load,0,1,1 load,1,2,2 load,2,3,3 budget,0
'''),
    'the number after the last': session('''
load,0,1,1 -> ok
drop,2 drop,00002 -> no,5
load,1,2,2 load,1,3,3 -> ok
drop,4 drop,5 drop,64 drop,128 drop,130 drop,258 drop,65538 drop,99999 drop,131074 drop,999999 -> no,5
save -> clear load,0,1,1 load,1,2,2 load,1,3,3 budget,0
'''),
    'the root alone': session(f'''
{BELOW} load,0,10,5 budget,30 -> ok
plan -> plan,5,10,1 1,1,1,2,0
drop,1 -> ok
plan check,0 check,1 -> no,4
drop,1 load,1,1,1 power,1,1 worth,1,1 -> no,5
save -> clear {BELOW} budget,30
load,0,7,9 -> ok
plan -> plan,9,7,1 1,1,1,2,0
drop,1 load,0,31,9 -> ok
plan -> plan,0,0,0 1,0,1,1,0
drop,00001 -> ok
save -> clear {BELOW} budget,30
'''),
    'the root with others': session('''
load,0,1,1 load,1,2,2 -> ok
drop,1 drop,00001 -> no,11
load,1,3,3 -> ok
drop,1 -> no,11
save -> clear load,0,1,1 load,1,2,2 load,1,3,3 budget,0
drop,2 -> ok
drop,1 -> no,11
drop,2 drop,1 -> ok
save -> clear budget,0
'''),
    'inner loads': session('''
load,0,1,1 load,1,2,2 load,2,3,3 load,3,4,4 -> ok
drop,1 drop,2 drop,3 drop,00002 -> no,11
save -> clear load,0,1,1 load,1,2,2 load,2,3,3 load,3,4,4 budget,0
drop,4 -> ok
drop,2 -> no,11
drop,3 -> ok
save -> clear load,0,1,1 load,1,2,2 budget,0
drop,2 drop,1 -> ok
'''),
    # Load 3 leaves. Later loads have their parents below it, at it until that one has left, just above it and further above it.
    'a leaf in the middle': session(f'''
{BELOW} budget,12 -> ok
load,0,1,1 load,1,2,2 load,2,3,3 load,1,4,4 load,2,5,5 load,4,6,6 load,3,7,7 load,6,8,8 load,5,9,9 -> ok
drop,3 -> no,11
drop,7 drop,3 -> ok
save -> clear {BELOW} load,0,1,1 load,1,2,2 load,1,4,4 load,2,5,5 load,3,6,6 load,5,8,8 load,4,9,9 budget,12
plan -> plan,12,12,4 1,1,1,2,0 2,1,1,2,1 3,1,1,2,1 4,1,1,2,1 5,0,1,1,1 6,0,2,3,2 7,0,1,1,1
check,1111000 -> yes 1,1,1,2,0 2,1,1,2,1 3,1,1,2,1 4,1,1,2,1 5,0,1,1,1 6,0,2,3,2 7,0,1,1,1
check,1100010 -> no,10
check,111100 check,11110000 -> no,5
'''),
    'the last load': session('''
load,0,1,1 load,1,2,2 load,2,3,3 load,1,4,4 -> ok
drop,4 -> ok
save -> clear load,0,1,1 load,1,2,2 load,2,3,3 budget,0
drop,4 -> no,5
drop,3 -> ok
drop,3 -> no,5
load,2,5,5 -> ok
save -> clear load,0,1,1 load,1,2,2 load,2,5,5 budget,0
'''),
    # Of 10, 20, 40 and 80 the first and the third may be on, then of 10, 40 and 80, then of 40 and 80.
    'a leaf between brothers': session(f'''
{EVERY_OTHER} load,0,0,0 load,1,1,10 load,1,1,20 load,1,1,40 load,1,1,80 budget,9 -> ok
plan -> plan,50,2,3 1,1,1,1,0 2,1,1,1,1 3,0,2,3,2 4,1,1,1,1 5,0,2,3,2
drop,3 -> ok
plan -> plan,90,2,3 1,1,1,1,0 2,1,1,1,1 3,0,2,3,2 4,1,1,1,1
save -> clear {EVERY_OTHER} load,0,0,0 load,1,1,10 load,1,1,40 load,1,1,80 budget,9
drop,2 -> ok
plan -> plan,40,1,2 1,1,1,1,0 2,1,1,1,1 3,0,2,3,2
check,110 -> yes 1,1,1,1,0 2,1,1,1,1 3,0,2,3,2
check,101 -> no,10
'''),
    'more loads in all than there may be': session(f'''
{ALL_ON} {' '.join(STAR)} -> ok
load,1,0,0 -> no,6
drop,{MAX_LOADS + 1} drop,0 -> no,5
drop,1 -> no,11
drop,30 load,1,0,{MAX_LOADS + 1} -> ok
load,1,0,0 -> no,6
drop,{MAX_LOADS - 1} load,{MAX_LOADS - 1},0,{MAX_LOADS + 2} -> ok
load,{MAX_LOADS},0,0 -> no,6
drop,{MAX_LOADS - 1} -> no,11
save -> clear {ALL_ON} {' '.join(STAR_LATER)} budget,0
drop,{MAX_LOADS} -> ok
drop,{MAX_LOADS} -> no,5
drop,{MAX_LOADS - 1} -> ok
save -> clear {ALL_ON} {' '.join(STAR_LATER[:-2])} budget,0
'''),
    'a drop that is refused': session(f'''
{BELOW} load,0,10,0 load,1,15,40 load,1,5,30 load,2,7,50 budget,30 -> ok
save -> clear {BELOW} load,0,10,0 load,1,15,40 load,1,5,30 load,2,7,50 budget,30
drop,0 drop,5 drop,99999 -> no,5
drop,1 drop,2 -> no,11
drop, drop,3,4 -> no,3
save -> clear {BELOW} load,0,10,0 load,1,15,40 load,1,5,30 load,2,7,50 budget,30
plan -> plan,70,30,3 1,1,1,2,0 2,1,1,2,1 3,1,1,2,1 4,0,1,1,1
'''),
}

COOLER_EDGES = {
    # "With two lone cameras of worth 20, one of 9 W and one of 6 W, and space for one, the 6 W camera stays on."
    'two cameras, the warmer one first': session(f'''
{BELOW} load,0,0,0 load,1,9,20 load,1,6,20 budget,9 -> ok
plan -> plan,20,6,2 1,1,1,2,0 2,0,1,1,1 3,1,1,2,1
budget,5 -> ok
plan -> plan,0,0,0 1,0,1,1,0 2,0,2,3,2 3,0,2,3,2
budget,6 -> ok
plan -> plan,20,6,2 1,1,1,2,0 2,0,1,1,1 3,1,1,2,1
budget,8 -> ok
plan -> plan,20,6,2 1,1,1,2,0 2,0,1,1,1 3,1,1,2,1
budget,14 -> ok
plan -> plan,20,6,2 1,1,1,2,0 2,0,1,1,1 3,1,1,2,1
budget,15 -> ok
plan -> plan,40,15,3 1,1,1,2,0 2,1,1,2,1 3,1,1,2,1
'''),
    # By paper 01 alone the first child would have the smallest allowance, 0, and the camera of 9 W would stay on.
    'two cameras, the cooler one first': session(f'''
{BELOW} load,0,0,0 load,1,6,20 load,1,9,20 budget,9 -> ok
plan -> plan,20,6,2 1,1,1,2,0 2,1,1,2,1 3,0,1,1,1
budget,5 -> ok
plan -> plan,0,0,0 1,0,1,1,0 2,0,2,3,2 3,0,2,3,2
budget,6 -> ok
plan -> plan,20,6,2 1,1,1,2,0 2,1,1,2,1 3,0,1,1,1
budget,8 -> ok
plan -> plan,20,6,2 1,1,1,2,0 2,1,1,2,1 3,0,1,1,1
budget,14 -> ok
plan -> plan,20,6,2 1,1,1,2,0 2,1,1,2,1 3,0,1,1,1
budget,15 -> ok
plan -> plan,40,15,3 1,1,1,2,0 2,1,1,2,1 3,1,1,2,1
'''),
    'a watt more, the same, a watt less': session(f'''
{BELOW} load,0,0,0 load,1,6,20 load,1,7,20 budget,9 -> ok
plan -> plan,20,6,2 1,1,1,2,0 2,1,1,2,1 3,0,1,1,1
power,3,6 -> ok
plan -> plan,20,6,2 1,1,1,2,0 2,0,1,1,1 3,1,1,2,1
power,3,5 -> ok
plan -> plan,20,5,2 1,1,1,2,0 2,0,1,1,1 3,1,1,2,1
worth,2,21 -> ok
plan -> plan,21,6,2 1,1,1,2,0 2,1,1,2,1 3,0,1,1,1
'''),
    'the cooler camera leaves, and another one comes': session(f'''
{BELOW} load,0,0,0 load,1,6,20 load,1,9,20 budget,9 -> ok
plan -> plan,20,6,2 1,1,1,2,0 2,1,1,2,1 3,0,1,1,1
drop,2 -> ok
plan -> plan,20,9,2 1,1,1,2,0 2,1,1,2,1
load,1,6,20 -> ok
plan -> plan,20,6,2 1,1,1,2,0 2,0,1,1,1 3,1,1,2,1
'''),
    # Load 1 would be on by the lower rule, with budget to spare.
    'a load of worth 0 stays off': session(f'''
{ON_FIRST} load,0,2,0 load,1,3,4 load,1,1,0 budget,9 -> ok
plan -> plan,4,3,1 1,0,1,2,0 2,1,1,1,1 3,0,1,2,1
worth,1,1 -> ok
plan -> plan,5,5,2 1,1,1,1,0 2,1,1,1,1 3,0,1,2,1
{BELOW} worth,1,0 -> ok
plan -> plan,4,5,2 1,1,1,2,0 2,1,1,2,1 3,0,1,1,1
'''),
    'a load of worth 0 stays on for one below it': session(f'''
{BELOW} load,0,2,0 load,1,3,0 load,2,1,7 load,1,1,0 budget,9 -> ok
plan -> plan,7,6,3 1,1,1,2,0 2,1,1,2,1 3,1,1,2,1 4,0,1,1,1
budget,6 -> ok
plan -> plan,7,6,3 1,1,1,2,0 2,1,1,2,1 3,1,1,2,1 4,0,1,1,1
budget,5 -> ok
plan -> plan,0,0,0 1,0,1,1,0 2,0,2,3,2 3,0,2,3,2 4,0,2,3,2
budget,9 worth,3,0 -> ok
plan -> plan,0,0,0 1,0,1,1,0 2,0,2,3,2 3,0,2,3,2 4,0,2,3,2
'''),
    'worth 0 that draws the whole budget': session(f'''
{ALL_ON} load,0,500,0 budget,500 -> ok
plan -> plan,0,500,1 1,1,1,1,0
budget,499 -> ok
plan -> no,9
power,1,299 load,1,200,0 -> ok
plan -> plan,0,499,2 1,1,1,1,0 2,1,1,1,1
load,2,1,0 -> ok
plan -> no,9
budget,500 -> ok
plan -> plan,0,500,3 1,1,1,1,0 2,1,1,1,1 3,1,1,1,1
power,1,11 budget,212 -> ok
plan -> plan,0,212,3 1,1,1,1,0 2,1,1,1,1 3,1,1,1,1
'''),
    'worth 1 that draws the whole budget': session(f'''
{BELOW} load,0,500,1 budget,500 -> ok
plan -> plan,1,500,1 1,1,1,2,0
budget,499 -> ok
plan -> plan,0,0,0 1,0,1,1,0
budget,500 power,1,0 worth,1,0 load,1,500,1 -> ok
plan -> plan,1,500,2 1,1,1,2,0 2,1,1,2,1
load,1,0,1 -> ok
plan -> plan,2,500,3 1,1,1,2,0 2,1,1,2,1 3,1,1,2,1
budget,499 -> ok
plan -> plan,1,0,2 1,1,1,2,0 2,0,1,1,1 3,1,1,2,1
'''),
    'greater worth wins, whatever it draws': session(f'''
{BELOW} load,0,0,0 load,1,9,21 load,1,1,20 budget,9 -> ok
plan -> plan,21,9,2 1,1,1,2,0 2,1,1,2,1 3,0,1,1,1
budget,8 -> ok
plan -> plan,20,1,2 1,1,1,2,0 2,0,1,1,1 3,1,1,2,1
budget,10 -> ok
plan -> plan,41,10,3 1,1,1,2,0 2,1,1,2,1 3,1,1,2,1
'''),
    # Loads 2 and 3 draw 2 W together, and load 4 draws 3 W alone. By paper 01 alone load 2 would have the smallest allowance, 0.
    'two loads that draw less than one': session(f'''
{BELOW} load,0,0,0 load,1,1,1 load,1,1,1 load,1,3,2 budget,3 -> ok
plan -> plan,2,2,3 1,1,1,2,0 2,1,1,2,1 3,1,1,2,1 4,0,1,1,1
budget,2 -> ok
plan -> plan,2,2,3 1,1,1,2,0 2,1,1,2,1 3,1,1,2,1 4,0,1,1,1
budget,4 -> ok
plan -> plan,3,4,3 1,1,1,2,0 2,0,1,1,1 3,1,1,2,1 4,1,1,2,1
budget,5 -> ok
plan -> plan,4,5,4 1,1,1,2,0 2,1,1,2,1 3,1,1,2,1 4,1,1,2,1
'''),
    'equal in both: the smallest allowance for the first child': session(f'''
{BELOW} load,0,0,0 load,1,4,20 load,1,4,20 budget,7 -> ok
plan -> plan,20,4,2 1,1,1,2,0 2,0,1,1,1 3,1,1,2,1
budget,8 -> ok
plan -> plan,40,8,3 1,1,1,2,0 2,1,1,2,1 3,1,1,2,1
power,2,1 worth,2,1 power,3,2 worth,3,2 load,1,3,3 budget,3 -> ok
plan -> plan,3,3,2 1,1,1,2,0 2,0,1,1,1 3,0,1,1,1 4,1,1,2,1
'''),
    'equal in both: the lowest load rule': session(f'''
{ON_FIRST} load,0,0,0 load,1,0,0 budget,5 -> ok
plan -> plan,0,0,2 1,1,1,1,0 2,1,1,1,1
{BELOW} -> ok
plan -> plan,0,0,0 1,0,1,1,0 2,0,2,3,2
'''),
    # Load 2 takes the lower row rule, though it needs the greater allowance.
    'equal in both: the lowest row rule before the smallest allowance': session(f'''
{ON_BY_ROW} load,0,0,0 load,1,4,20 load,1,4,20 budget,7 -> ok
plan -> plan,20,4,2 1,1,3,3,0 2,1,1,1,1 3,0,2,2,2
power,2,5 -> ok
plan -> plan,20,4,2 1,1,3,3,0 2,0,2,2,2 3,1,1,1,1
'''),
    'the higher start state draws less': session(f'''
{ON_BY_STATE} load,0,3,0 budget,9 -> ok
plan -> plan,0,0,0 1,0,2,2,0
check,1 -> yes 1,1,1,1,0
worth,1,1 -> ok
plan -> plan,1,3,1 1,1,1,1,0
check,0 -> yes 1,0,2,2,0
worth,1,0 power,1,0 -> ok
plan -> plan,0,0,1 1,1,1,1,0
'''),
    'the higher load rule draws less': session(f'''
{ON_BY_RULE} load,0,1,5 load,1,4,0 budget,9 -> ok
plan -> plan,5,1,1 1,1,1,2,0 2,0,3,4,2
check,11 -> yes 1,1,1,1,0 2,1,2,3,1
worth,2,1 -> ok
plan -> plan,6,5,2 1,1,1,1,0 2,1,2,3,1
check,10 -> yes 1,1,1,2,0 2,0,3,4,2
worth,2,0 power,2,0 -> ok
plan -> plan,5,1,2 1,1,1,1,0 2,1,2,3,1
'''),
    'the higher row rule draws less': session(f'''
{ON_BY_ROW} load,0,0,0 load,1,4,0 load,1,2,0 budget,9 -> ok
plan -> plan,0,0,1 1,1,3,3,0 2,0,2,2,2 3,0,2,2,2
check,111 -> yes 1,1,3,3,0 2,1,1,1,1 3,1,1,1,1
power,2,0 -> ok
plan -> plan,0,0,2 1,1,3,3,0 2,1,1,1,1 3,0,2,2,2
worth,3,1 -> ok
plan -> plan,1,2,3 1,1,3,3,0 2,1,1,1,1 3,1,1,1,1
check,100 -> yes 1,1,3,3,0 2,0,2,2,2 3,0,2,2,2
check,000 -> no,10
'''),
    # The camera of 6 W is below load 2, that of 9 W below load 3.
    'two cameras, each below a switch': session(f'''
{BELOW} load,0,0,0 load,1,0,0 load,1,0,0 load,2,6,20 load,3,9,20 budget,9 -> ok
plan -> plan,20,6,3 1,1,1,2,0 2,1,1,2,1 3,0,1,1,1 4,1,1,2,1 5,0,2,3,2
power,2,4 power,3,1 budget,11 -> ok
plan -> plan,20,10,3 1,1,1,2,0 2,0,1,1,1 3,1,1,2,1 4,0,2,3,2 5,1,1,2,1
power,3,2 -> ok
plan -> plan,20,10,3 1,1,1,2,0 2,1,1,2,1 3,0,1,1,1 4,1,1,2,1 5,0,2,3,2
'''),
    # Of the cameras below load 2 the cooler one has to be weighed against load 5.
    'two cameras below a switch, and one beside it': session(f'''
{BELOW} load,0,0,0 load,1,0,0 load,2,9,20 load,2,6,20 load,1,7,20 budget,9 -> ok
plan -> plan,20,6,3 1,1,1,2,0 2,1,1,2,1 3,0,1,1,1 4,1,1,2,1 5,0,1,1,1
power,5,6 -> ok
plan -> plan,20,6,2 1,1,1,2,0 2,0,1,1,1 3,0,2,3,2 4,0,2,3,2 5,1,1,2,1
power,3,5 -> ok
plan -> plan,20,5,3 1,1,1,2,0 2,1,1,2,1 3,1,1,2,1 4,0,1,1,1 5,0,1,1,1
'''),
    'a check looks at no figure': session(f'''
{BELOW} load,0,0,0 load,1,6,20 load,1,9,20 budget,9 -> ok
plan -> plan,20,6,2 1,1,1,2,0 2,1,1,2,1 3,0,1,1,1
check,110 -> yes 1,1,1,2,0 2,1,1,2,1 3,0,1,1,1
check,101 -> yes 1,1,1,2,0 2,0,1,1,1 3,1,1,2,1
check,100 -> yes 1,1,1,2,0 2,0,1,1,1 3,0,1,1,1
check,000 -> yes 1,0,1,1,0 2,0,2,3,2 3,0,2,3,2
check,111 -> yes 1,1,1,2,0 2,1,1,2,1 3,1,1,2,1
check,011 -> no,10
'''),
    # A plan of the same worth is the same plan, whatever is to spare.
    'the budget rises and falls': session(f'''
{ON_FIRST} load,0,1,0 load,1,2,1 load,1,3,1 load,1,1,1 -> ok
plan -> plan,0,0,0 1,0,1,2,0 2,0,1,2,1 3,0,1,2,1 4,0,1,2,1
budget,1 -> ok
plan -> plan,1,1,1 1,0,1,2,0 2,0,1,2,1 3,0,1,2,1 4,1,1,1,1
budget,2 -> ok
plan -> plan,1,1,1 1,0,1,2,0 2,0,1,2,1 3,0,1,2,1 4,1,1,1,1
budget,3 -> ok
plan -> plan,2,3,2 1,0,1,2,0 2,1,1,1,1 3,0,1,2,1 4,1,1,1,1
budget,5 -> ok
plan -> plan,2,3,2 1,0,1,2,0 2,1,1,1,1 3,0,1,2,1 4,1,1,1,1
budget,6 -> ok
plan -> plan,3,6,3 1,0,1,2,0 2,1,1,1,1 3,1,1,1,1 4,1,1,1,1
budget,500 -> ok
plan -> plan,3,6,3 1,0,1,2,0 2,1,1,1,1 3,1,1,1,1 4,1,1,1,1
budget,4 -> ok
plan -> plan,2,3,2 1,0,1,2,0 2,1,1,1,1 3,0,1,2,1 4,1,1,1,1
'''),
}

LAST_EDGES = {
    'near lasts': near_lasts(),
    # "The display polls many times between changes."
    'polled many times': session(f'''
{WORKED} budget,30 -> ok
plan -> {PLAN_30}
last last last last last last last -> {PLAN_30}
plan -> {PLAN_30}
last last -> {PLAN_30}
'''),
    # "refusal 9 included"
    'no allowed set fits': session(f'''
{TOGETHER} {CABINET} budget,4 -> ok
plan -> no,9
last last last -> no,9
plan last -> no,9
check,0000 -> no,10
check,0010 -> yes 1,0,1,1,0 2,0,3,5,3 3,1,1,2,4 4,0,3,5,1
last -> no,9
budget,501 -> no,5
last -> no,9
budget,4 -> ok
last -> no,12
plan last -> no,9
'''),
    # "the latest outcome"
    'a plan, then none, then a plan': session(f'''
{TOGETHER} {CABINET} budget,5 -> ok
plan last -> plan,30,5,1 1,0,1,1,0 2,0,3,5,3 3,1,1,2,4 4,0,3,5,1
budget,4 -> ok
last -> no,12
plan last last -> no,9
budget,5 -> ok
last -> no,12
plan last last -> plan,30,5,1 1,0,1,1,0 2,0,3,5,3 3,1,1,2,4 4,0,3,5,1
'''),
    'the budget raised and lowered': session(f'''
{WORKED} budget,30 -> ok
plan last -> {PLAN_30}
budget,32 -> ok
last last -> no,12
plan last -> {PLAN_32}
budget,30 -> ok
last -> no,12
plan last -> {PLAN_30}
'''),
    # "Any line that printed `ok` counts as a change": each word that can, between two plans. The rules that are added allow no further set.
    'each word that can change': session(f'''
{WORKED} budget,30 -> ok
plan last -> {PLAN_30}
rule,1,1,2 -> ok
last -> no,12
plan last -> {PLAN_30}
row,1,2,1 -> ok
last -> no,12
plan last -> {PLAN_30}
power,4,8 -> ok
last -> no,12
plan last -> {PLAN_30}
worth,3,29 -> ok
last -> no,12
plan last -> plan,69,30,3 1,1,1,2,0 2,1,1,2,1 3,1,1,2,1 4,0,1,1,1
load,4,1,1 -> ok
last -> no,12
plan last -> plan,69,30,3 1,1,1,2,0 2,1,1,2,1 3,1,1,2,1 4,0,1,1,1 5,0,2,3,2
drop,5 -> ok
last -> no,12
plan last -> plan,69,30,3 1,1,1,2,0 2,1,1,2,1 3,1,1,2,1 4,0,1,1,1
budget,29 -> ok
last -> no,12
plan last -> plan,40,25,2 1,1,1,2,0 2,1,1,2,1 3,0,1,1,1 4,0,1,1,1
book,2,2 -> ok
last -> no,12
plan last -> no,9
start,1 -> ok
last -> no,12
plan last -> no,9
end,1 -> ok
last -> no,12
plan last -> no,9
clear -> ok
last -> no,12
'''),
    # ".. even if every table stayed equal."
    'changes that leave every table equal': session(f'''
{WORKED} budget,30 -> ok
plan last -> {PLAN_30}
start,1 -> ok
last -> no,12
plan last -> {PLAN_30}
start,00002 -> ok
last -> no,12
plan last -> {PLAN_30}
end,2 -> ok
last -> no,12
plan last -> {PLAN_30}
power,1,10 -> ok
last -> no,12
plan last -> {PLAN_30}
worth,4,50 -> ok
last -> no,12
plan last -> {PLAN_30}
budget,30 -> ok
last -> no,12
plan last -> {PLAN_30}
budget,00030 -> ok
last -> no,12
save -> clear {BELOW} {CABINET} budget,30
last -> no,12
plan last -> {PLAN_30}
'''),
    'a book anew that was as empty': session('''
load,0,1,1 budget,5 book,2,3 -> ok
plan last -> no,9
book,2,3 -> ok
last -> no,12
plan last -> no,9
book,2,9 -> no,5
last -> no,9
'''),
    # Tables that come back are no tables that stayed.
    'a figure changed and changed back': session(f'''
{WORKED} budget,30 -> ok
plan last -> {PLAN_30}
budget,31 budget,30 -> ok
last -> no,12
plan last -> {PLAN_30}
load,4,1,1 drop,5 -> ok
last -> no,12
plan last -> {PLAN_30}
power,2,14 power,2,15 worth,2,41 worth,2,40 -> ok
last -> no,12
plan last -> {PLAN_30}
{BELOW} -> ok
last -> no,12
plan last -> {PLAN_30}
clear {WORKED} budget,30 -> ok
last -> no,12
plan last -> {PLAN_30}
'''),
    # "Refused commands don't make it old."
    'refused commands': session(f'''
{WORKED} budget,30 -> ok
plan last -> {PLAN_30}
budget,501 load,5,1,1 load,0,1,1 power,5,1 power,1,501 worth,0,1 worth,1,1001 book,9,1 book,0,0 -> no,5
last -> {PLAN_30}
start,3 end,0 rule,3,0,1 rule,1,2,1 row,1,1,3 drop,0 drop,5 check,111 check,00000 -> no,5
last -> {PLAN_30}
rule,1,0,2 row,2,2,2 -> no,7
last -> {PLAN_30}
drop,1 drop,2 -> no,11
last -> {PLAN_30}
check,0100 check,0001 -> no,10
last -> {PLAN_30}
plan, Plan clear, budget,-1 check,012 save,1 drop rules,1,1,1 -> no,3
last -> {PLAN_30}
{LONG_DROP.decode()} {'clear'.ljust(LINE_BYTES + 1, ',')} -> no,2
last last -> {PLAN_30}
save -> clear {BELOW} {CABINET} budget,30
'''),
    # There is no book, and so no plan.
    'lists that are full': session(f'''
{' '.join(STAR)} -> ok
plan last -> no,9
load,1,0,0 load,{MAX_LOADS},500,1000 -> no,6
last -> no,9
drop,{MAX_LOADS} -> ok
last -> no,12
'''),
    # "and no other": what prints something else than `ok`, and is not refused.
    'checks and saves': session(f'''
{WORKED} budget,30 -> ok
check,1110 -> yes 1,1,1,2,0 2,1,1,2,1 3,1,1,2,1 4,0,1,1,1
last -> no,12
save -> clear {BELOW} {CABINET} budget,30
last -> no,12
plan last -> {PLAN_30}
check,1111 -> yes 1,1,1,2,0 2,1,1,2,1 3,1,1,2,1 4,1,1,2,1
last -> {PLAN_30}
check,0000 -> yes 1,0,1,1,0 2,0,2,3,2 3,0,2,3,2 4,0,2,3,2
last -> {PLAN_30}
check,1110 -> yes 1,1,1,2,0 2,1,1,2,1 3,1,1,2,1 4,0,1,1,1
last -> {PLAN_30}
save -> clear {BELOW} {CABINET} budget,30
last -> {PLAN_30}
'''),
    # "leaves only these as they were": the tables.
    'a plan leaves the tables': session(f'''
{WORKED} budget,30 -> ok
save -> clear {BELOW} {CABINET} budget,30
plan last -> {PLAN_30}
save -> clear {BELOW} {CABINET} budget,30
last -> {PLAN_30}
save -> clear {BELOW} {CABINET} budget,30
budget,32 -> ok
last -> no,12
save -> clear {BELOW} {CABINET} budget,32
plan last -> {PLAN_32}
'''),
    # A save holds no plan.
    'a save that is fed back': session(f'''
{WORKED} budget,30 -> ok
plan last -> {PLAN_30}
save -> clear {BELOW} {CABINET} budget,30
last -> {PLAN_30}
clear {BELOW} {CABINET} budget,30 -> ok
last -> no,12
save -> clear {BELOW} {CABINET} budget,30
last -> no,12
plan last -> {PLAN_30}
'''),
    # "12, no current plan": with no loads it is no 4.
    'no plan of no loads': session(f'''
last last -> no,12
plan check,1 -> no,4
last -> no,12
clear -> ok
last -> no,12
{BELOW} budget,30 -> ok
last -> no,12
plan -> no,4
last -> no,12
last, -> no,3
load,0,10,5 -> ok
last -> no,12
plan last -> plan,5,10,1 1,1,1,2,0
drop,1 -> ok
last -> no,12
plan -> no,4
last -> no,12
save -> clear {BELOW} budget,30
last -> no,12
'''),
    'loads and no book': session('''
load,0,10,5 load,1,1,1 budget,30 -> ok
last -> no,12
plan last last -> no,9
drop,2 -> ok
last -> no,12
'''),
    'no plan was asked for': session(f'''
{WORKED} budget,30 -> ok
last last -> no,12
check,0100 -> no,10
last -> no,12
budget,501 -> no,5
last -> no,12
'''),
    'loads that leave': session(f'''
{WORKED} budget,30 -> ok
plan last -> {PLAN_30}
drop,2 -> no,11
drop,5 -> no,5
last -> {PLAN_30}
drop,4 -> ok
last -> no,12
drop,4 -> no,5
last -> no,12
plan last -> plan,70,30,3 1,1,1,2,0 2,1,1,2,1 3,1,1,2,1
drop,3 -> ok
last -> no,12
plan last -> plan,40,25,2 1,1,1,2,0 2,1,1,2,1
drop,2 drop,1 -> ok
last -> no,12
'''),
    # Three loads, eight states and eight stages have cells for a budget of 300, and not for one of 500.
    'too few cells': session('''
book,8,8 start,1 end,1 rule,1,1,1 row,1,1,1 load,0,1,1 load,1,2,2 load,1,3,3 budget,500 -> ok
plan plan -> no,8
last -> no,12
plan, -> no,3
last -> no,12
budget,300 -> ok
last -> no,12
plan last -> plan,6,6,3 1,1,1,1,0 2,1,1,1,1 3,1,1,1,1
budget,500 -> ok
last -> no,12
plan -> no,8
last -> no,12
check,111 -> yes 1,1,1,1,0 2,1,1,1,1 3,1,1,1,1
last -> no,12
'''),
    'the empty set is a plan': session(f'''
{WORKED} budget,9 -> ok
plan last last -> plan,0,0,0 1,0,1,1,0 2,0,2,3,2 3,0,2,3,2 4,0,2,3,2
budget,9 -> ok
last -> no,12
'''),
}

# Cameras, of kind 0, may be on only if their parent is. A safety reader, of kind 1, is on exactly if its parent is.
READERS = 'book,2,2 start,1 start,2 end,1 end,2 rule,1,0,2 rule,1,1,1 rule,2,0,2 rule,1,1,1,1 rule,2,0,2,1 row,1,1,1 row,2,2,2'
# A feed with a camera, a safety reader and another camera.
PLANT = 'load,0,10,0 load,1,15,40 load,1,5,0,1 load,1,7,50'
READER_ON = 'plan,50,22,3 1,1,1,2,0 2,0,1,1,1 3,1,1,4,1 4,1,1,2,1'

# As many load rules as there may be, in turn of each kind.
OF_EVERY_KIND = ' '.join('rule,%d,%d,%d,%d' % (n // 4 % 8 + 1, n // 32, 1, n % 4) for n in range(MAX_RULES))

KIND_EDGES = {
    'near kinds': near_kinds(),
    'near saves': near_saves(),
    'kinds 0 to 3, and past them': session(f'''
book,1,1 -> ok
rule,1,0,1,0 rule,1,0,1,1 rule,1,0,1,2 rule,1,0,1,{MAX_KIND} -> ok
rule,1,1,1,{MAX_KIND + 1} rule,1,1,1,5 rule,1,1,1,255 rule,1,1,1,256 rule,1,1,1,257 rule,1,1,1,65537 rule,1,1,1,99999 -> no,5
load,0,1,1,{MAX_KIND} load,1,2,2,2 load,1,3,3,1 load,1,4,4,0 load,1,5,5 -> ok
load,1,6,6,{MAX_KIND + 1} load,1,6,6,5 load,1,6,6,255 load,1,6,6,256 load,1,6,6,257 load,1,6,6,65536 load,1,6,6,99999 -> no,5
save -> clear book,1,1 rule,1,0,1,0 rule,1,0,1,1 rule,1,0,1,2 rule,1,0,1,3 load,0,1,1,3 load,1,2,2,2 load,1,3,3,1 load,1,4,4,0 load,1,5,5,0 budget,0
'''),
    'kinds with zeros in front': session('''
book,1,1 rule,1,0,1,000003 rule,01,00,001,02 rule,1,0,1,00000 load,0,1,1,000003 load,001,00002,2,000 -> ok
rule,1,0,1,3 rule,1,0,1,003 rule,1,0,1,2 rule,1,0,1 rule,1,0,1,0 -> no,7
rule,1,0,1,00004 load,1,1,1,000004 load,1,1,1,0010 -> no,5
rule,1,1,1,0000003 load,1,1,1,0000000 -> no,3
save -> clear book,1,1 rule,1,0,1,3 rule,1,0,1,2 rule,1,0,1,0 load,0,1,1,3 load,1,2,2,0 budget,0
'''),
    # A kind out of its range is 5 with a book and without one, among other values out of theirs, and before 6 and 7.
    'kinds among the other values': session('''
rule,1,0,1,1 rule,1,0,1,4 -> no,5
book,1,1 rule,1,0,1 load,0,1,1,1 -> ok
rule,2,0,1,3 rule,1,2,1,1 rule,1,0,2,0 rule,0,0,1,4 rule,1,0,1,4 load,2,1,1,1 load,0,1,1,1 load,1,501,0,0 load,1,0,1001,4 load,1,0,0,4 -> no,5
rule,1,0,1,0 -> no,7
save -> clear book,1,1 rule,1,0,1,0 load,0,1,1,1 budget,0
'''),
    'kind 0, written and not': session(f'''
book,1,1 rule,1,0,1 -> ok
rule,1,0,1 rule,1,0,1,0 rule,1,0,1,00000 -> no,7
book,1,1 rule,1,0,1,0 -> ok
rule,1,0,1,0 rule,1,0,1 -> no,7
load,0,1,1 load,1,2,2,0 -> ok
save -> clear book,1,1 rule,1,0,1,0 load,0,1,1,0 load,1,2,2,0 budget,0
save1 -> clear book,1,1 rule,1,0,1 load,0,1,1 load,1,2,2 budget,0
{' '.join(with_kinds(BELOW.split()))} -> ok
save1 -> clear {BELOW} load,0,1,1 load,1,2,2 budget,0
'''),
    # "Two load rules are the same only if their kinds agree too."
    'the same rule of another kind': session('''
book,2,2 rule,1,0,1,1 -> ok
rule,1,0,1,1 -> no,7
rule,1,0,1 -> ok
rule,1,0,1 rule,1,0,1,0 rule,1,0,1,1 -> no,7
rule,1,0,1,3 rule,1,0,1,2 rule,1,1,1,1 -> ok
rule,1,0,1,0 rule,1,0,1,1 rule,1,0,1,2 rule,1,0,1,3 rule,1,1,1,1 -> no,7
save -> clear book,2,2 rule,1,0,1,1 rule,1,0,1,0 rule,1,0,1,3 rule,1,0,1,2 rule,1,1,1,1 budget,0
'''),
    # 32 load rules in all, whatever their kinds.
    'as many load rules as there may be, of every kind': session(f'''
book,{MAX_STATES},{MAX_STAGES} {OF_EVERY_KIND} -> ok
rule,1,0,1,0 rule,1,0,1,3 rule,1,0,2,0 rule,8,1,8,1 rule,8,1,8,2 rule,8,1,8,3 rule,8,1,8 -> no,6
rule,1,0,1,4 rule,9,0,1,0 rule,1,2,1,3 -> no,5
row,1,1,1 row,1,1,2 -> ok
save1 -> no,14
save -> clear book,{MAX_STATES},{MAX_STAGES} {OF_EVERY_KIND} row,1,1,1 row,1,1,2 budget,0
book,{MAX_STATES},{MAX_STAGES} rule,8,1,8,3 -> ok
'''),
    'as many load rules of one kind': session(f'''
book,{MAX_STATES},{MAX_STAGES} {' '.join('rule,%d,%d,%d,2' % (n % 8 + 1, n // 8 % 2, n // 16 + 1) for n in range(MAX_RULES))} -> ok
rule,1,0,3,2 rule,1,0,1,0 rule,1,0,1,1 rule,1,0,1,3 rule,1,0,1,2 -> no,6
'''),
    'as many loads as there may be, of every kind': session(f'''
{' '.join('load,%d,1,1,%d' % (min(k, 1), k % 4) for k in range(MAX_LOADS))} -> ok
load,1,1,1,1 load,1,1,1,3 load,1,1,1 -> no,6
load,1,1,1,4 load,{MAX_LOADS + 1},1,1,1 load,0,1,1,0 -> no,5
save1 -> no,14
save -> clear {' '.join('load,%d,1,1,%d' % (min(k, 1), k % 4) for k in range(MAX_LOADS))} budget,0
'''),
    # "Safety readers must obey other rules than cameras."
    'a safety reader that may not be off': session(f'''
{READERS} {PLANT} budget,30 -> ok
plan last -> {READER_ON}
check,1101 check,1000 check,0010 -> no,10
check,1010 -> yes 1,1,1,2,0 2,0,1,1,1 3,1,1,4,1 4,0,1,1,1
check,1111 -> yes 1,1,1,2,0 2,1,1,2,1 3,1,1,4,1 4,1,1,2,1
check,0000 -> yes 1,0,1,1,0 2,0,2,3,2 3,0,2,5,2 4,0,2,3,2
budget,14 -> ok
plan last -> plan,0,0,0 1,0,1,1,0 2,0,2,3,2 3,0,2,5,2 4,0,2,3,2
budget,36 -> ok
plan last -> {READER_ON}
budget,37 -> ok
plan last -> plan,90,37,4 1,1,1,2,0 2,1,1,2,1 3,1,1,4,1 4,1,1,2,1
drop,3 budget,30 -> ok
plan last -> plan,50,17,2 1,1,1,2,0 2,0,1,1,1 3,1,1,2,1
load,1,5,0 -> ok
plan last -> plan,50,17,2 1,1,1,2,0 2,0,1,1,1 3,1,1,2,1 4,0,1,1,1
'''),
    # Without a rule of its kind a load has no run, whatever rules the others have.
    'only kind 0 has rules': session(f'''
{BELOW} load,0,1,1 load,1,2,2,1 budget,9 -> ok
plan last -> no,9
check,00 check,10 check,11 -> no,10
drop,2 -> ok
plan last -> plan,1,1,1 1,1,1,2,0
load,1,2,2 -> ok
plan last -> plan,3,3,2 1,1,1,2,0 2,1,1,2,1
'''),
    'only kind 1 has rules': session('''
book,1,1 start,1 end,1 rule,1,1,1,1 rule,1,0,1,1 row,1,1,1 load,0,1,1 load,1,2,2,1 budget,9 -> ok
plan last -> no,9
check,00 check,01 check,10 check,11 -> no,10
rule,1,0,1,2 -> ok
plan last -> no,9
rule,1,0,1 -> ok
plan last -> plan,2,2,1 1,0,1,4,0 2,1,1,1,1
check,01 -> yes 1,0,1,4,0 2,1,1,1,1
check,00 -> yes 1,0,1,4,0 2,0,1,2,1
check,10 check,11 -> no,10
'''),
    'every load and every rule of one kind': session(f'''
book,2,2 start,1 start,2 end,1 end,2 rule,1,0,2,3 rule,1,1,1,3 rule,2,0,2,3 row,1,1,1 row,2,2,2 -> ok
load,0,10,0,3 load,1,15,40,3 load,1,5,30,3 load,2,7,50,3 budget,30 -> ok
plan last -> {PLAN_30}
check,0100 -> no,10
save1 -> no,14
load,2,0,0 -> ok
plan last -> no,9
drop,5 -> ok
plan last -> {PLAN_30}
'''),
    # Load 2 has power and worth for rule 1, but not its kind. Of its own kind the lowest rule is rule 3, and a rule's number counts every kind.
    'the lowest rule of its kind': session('''
book,1,1 start,1 end,1 rule,1,1,1,2 rule,1,0,1,1 rule,1,0,1 rule,1,1,1 row,1,1,1 load,0,0,0 load,1,0,0 load,1,0,0,1 load,1,0,5,2 budget,9 -> ok
plan last -> plan,5,0,1 1,0,1,3,0 2,0,1,3,1 3,0,1,2,1 4,1,1,1,1
check,0101 -> yes 1,0,1,3,0 2,1,1,4,1 3,0,1,2,1 4,1,1,1,1
check,0111 check,0000 -> no,10
worth,2,1 -> ok
plan last -> plan,6,0,2 1,0,1,3,0 2,1,1,4,1 3,0,1,2,1 4,1,1,1,1
'''),
    # The kind parts loads that stand in one row and in one state, and loads below one another.
    'kinds in a row and in a branch': session('''
book,1,1 start,1 end,1 rule,1,1,1 rule,1,0,1,1 rule,1,1,1,2 rule,1,0,1,2 row,1,1,1 budget,9 -> ok
load,0,1,1 load,1,1,1,1 load,1,1,1,2 load,2,1,1 load,4,1,1,1 load,4,9,9,2 load,1,1,1 -> ok
plan last -> plan,4,4,4 1,1,1,1,0 2,0,1,2,1 3,1,1,3,1 4,1,1,1,1 5,0,1,2,1 6,0,1,4,1 7,1,1,1,1
check,1001001 -> yes 1,1,1,1,0 2,0,1,2,1 3,0,1,4,1 4,1,1,1,1 5,0,1,2,1 6,0,1,4,1 7,1,1,1,1
check,1011011 -> yes 1,1,1,1,0 2,0,1,2,1 3,1,1,3,1 4,1,1,1,1 5,0,1,2,1 6,1,1,3,1 7,1,1,1,1
check,1101001 check,1001101 check,0001001 check,1000001 check,1001000 -> no,10
'''),
    'the root has a kind': session('''
book,1,1 start,1 end,1 rule,1,1,1,1 rule,1,0,1 load,0,1,5,1 budget,1 -> ok
plan last -> plan,5,1,1 1,1,1,1,0
check,0 -> no,10
budget,0 -> ok
plan last -> no,9
drop,1 load,0,1,5 -> ok
plan last -> plan,0,0,0 1,0,1,2,0
check,1 -> no,10
'''),
    # "`save` now writes every kind, 0 too, and `save1` writes the form of request Two": nothing is added to a row rule or to the budget.
    'save and save1': session(f'''
save1 save1 -> clear budget,0
{WORKED} budget,30 -> ok
save1 -> clear {BELOW} {CABINET} budget,30
save -> clear {BELOW} {CABINET} budget,30
save1 -> clear {BELOW} {CABINET} budget,30
drop,3 -> ok
save1 -> clear {BELOW} load,0,10,0 load,1,15,40 load,2,7,50 budget,30
book,1,1 budget,0 -> ok
save1 -> clear book,1,1 load,0,10,0 load,1,15,40 load,2,7,50 budget,0
clear -> ok
save1 -> clear budget,0
'''),
    # "14, `save1` while some load or load rule has a kind other than 0"
    'save1 while a load has a kind': session('''
load,0,1,1 load,1,2,2,1 -> ok
save1 save1 -> no,14
save -> clear load,0,1,1 load,1,2,2,1 budget,0
load,1,3,3 -> ok
save1 -> no,14
drop,2 -> ok
save1 -> clear load,0,1,1 load,1,3,3 budget,0
load,1,2,2,3 -> ok
save1 -> no,14
book,1,1 budget,9 -> ok
save1 -> no,14
clear -> ok
save1 -> clear budget,0
'''),
    # .. "even if no plan would use it": no state 2 is reached, and there are no loads at first.
    'save1 while a load rule has a kind': session('''
book,2,1 start,1 end,1 rule,1,1,1 -> ok
save1 -> clear book,2,1 start,1 end,1 rule,1,1,1 budget,0
rule,2,1,1,2 -> ok
save1 save1 -> no,14
load,0,1,1 budget,9 -> ok
plan last -> plan,1,1,1 1,1,1,1,0
save1 -> no,14
save -> clear book,2,1 start,1 end,1 rule,1,1,1,0 rule,2,1,1,2 load,0,1,1,0 budget,9
book,2,1 -> ok
save1 -> clear book,2,1 load,0,1,1 budget,9
'''),
    'save1 while both have kinds': session(f'''
{READERS} {PLANT} -> ok
save1 -> no,14
drop,3 -> ok
save1 -> no,14
{BELOW} -> ok
save1 -> clear {BELOW} load,0,10,0 load,1,15,40 load,1,7,50 budget,0
'''),
    # A save1 that is written, and one that is refused, are no changes.
    'the last plan after save1': session(f'''
save1 -> clear budget,0
last -> no,12
{WORKED} budget,30 -> ok
plan last -> {PLAN_30}
save1 -> clear {BELOW} {CABINET} budget,30
last -> {PLAN_30}
save -> clear {BELOW} {CABINET} budget,30
last -> {PLAN_30}
save1, -> no,3
last -> {PLAN_30}
rule,1,1,1,1 -> ok
last -> no,12
save1 -> no,14
last -> no,12
'''),
    'the last plan after 14': session(f'''
{READERS} {PLANT} budget,30 -> ok
save1 -> no,14
last -> no,12
plan last -> {READER_ON}
save1 save1 -> no,14
last -> {READER_ON}
budget,0 {ALL_ON} -> ok
last -> no,12
plan last -> no,9
save1 -> no,14
last -> no,9
'''),
    'a drop keeps the kinds': session(f'''
{READERS} load,0,1,1 load,1,2,2,1 load,2,3,3,2 load,1,4,4,3 load,2,5,5 load,4,6,6,1 budget,9 -> ok
drop,3 -> ok
save -> clear {READERS} load,0,1,1 load,1,2,2,1 load,1,4,4,3 load,2,5,5,0 load,3,6,6,1 budget,9
drop,5 drop,3 -> ok
save -> clear {READERS} load,0,1,1 load,1,2,2,1 load,2,5,5,0 budget,9
plan last -> plan,8,8,3 1,1,1,2,0 2,1,1,4,1 3,1,1,2,1
load,3,0,1 -> ok
save -> clear {READERS} load,0,1,1 load,1,2,2,1 load,2,5,5,0 load,3,0,1,0 budget,9
drop,4 drop,3 drop,2 drop,1 load,0,1,1 -> ok
save -> clear {READERS} load,0,1,1,0 budget,9
'''),
    'power and worth keep the kinds': session('''
load,0,1,1,1 load,1,2,2,2 load,1,3,3,3 -> ok
power,2,500 worth,2,1000 power,1,0 worth,3,0 power,3,3 -> ok
save -> clear load,0,0,1,1 load,1,500,1000,2 load,1,3,0,3 budget,0
power,2,501 worth,4,1 -> no,5
save -> clear load,0,0,1,1 load,1,500,1000,2 load,1,3,0,3 budget,0
'''),
    # "loads (with kinds) and budget stay": the rules go, and their kinds with them.
    'a new book': session(f'''
{READERS} {PLANT} budget,30 book,2,2 -> ok
save -> clear book,2,2 {PLANT} budget,30
save1 -> no,14
{READERS} -> ok
plan last -> {READER_ON}
'''),
    # "An old save, taken in and written with `save1`, comes back byte for byte"
    'an old save': session(f'''
{READERS} {PLANT} budget,9 -> ok
clear {BELOW} {CABINET} budget,30 -> ok
save1 -> clear {BELOW} {CABINET} budget,30
save -> clear {BELOW} {CABINET} budget,30
clear load,0,0,0 budget,0 -> ok
save1 -> clear load,0,0,0 budget,0
clear book,8,1 end,1 rule,8,1,1 rule,1,0,1 budget,500 -> ok
save1 -> clear book,8,1 end,1 rule,8,1,1 rule,1,0,1 budget,500
'''),
    'a save with kinds, fed back': session(f'''
{READERS} {PLANT} budget,30 -> ok
plan last -> {READER_ON}
save -> clear {READERS} {PLANT} budget,30
clear {' '.join(with_kinds(f'{READERS} {PLANT} budget,30'.split()))} -> ok
last -> no,12
save -> clear {READERS} {PLANT} budget,30
plan last -> {READER_ON}
'''),
}

NEED_EDGES = {
    'near needs': near_needs(),
    # The plan has worth 70 and draws 30 W.
    'the worth of the plan, one less and one more': session(f'''
{WORKED} budget,30 -> ok
plan -> {PLAN_30}
need,70 need,69 -> need,30
need,71 need,72 -> no,15
need,0 -> need,0
need,1 -> need,15
'''),
    # The plans are of worth 0, and from 15, 25, 30, 32 and 37 W on of 30, 40, 70, 90 and 120.
    'each step of the plans': session(f'''
{WORKED} budget,500 -> ok
need,0 -> need,0
need,1 need,2 need,29 need,30 -> need,15
need,31 need,39 need,40 -> need,25
need,41 need,69 need,70 -> need,30
need,71 need,89 need,90 -> need,32
need,91 need,119 need,120 -> need,37
need,121 need,122 -> no,15
budget,37 -> ok
need,120 need,91 -> need,37
need,121 -> no,15
budget,36 -> ok
need,120 need,91 -> no,15
need,90 -> need,32
budget,14 -> ok
need,1 need,30 -> no,15
need,0 -> need,0
budget,15 -> ok
need,1 need,30 -> need,15
need,31 -> no,15
'''),
    # "`need` up to 128,000" (request Ten)
    'a worth out of its range': session(f'''
{WORKED} budget,30 -> ok
need,{MAX_NEED} need,{MAX_NEED - 1} need,1000 need,1001 need,4000 need,4001 need,64000 need,64001 need,65535 need,65536 need,65606 -> no,15
need,99999 need,100000 -> no,15
need,{MAX_NEED + 1} need,131071 need,131072 need,131142 need,999999 -> no,5
need,1000000 need,0{MAX_NEED} need,1000070 -> no,3
need,70 -> need,30
'''),
    'a worth with zeros in front': session(f'''
{WORKED} budget,30 -> ok
need,070 need,0070 need,00070 need,000070 -> need,30
need,00 need,000 need,00000 need,000000 -> need,0
need,00071 need,000071 -> no,15
need,0000070 need,0000000 -> no,3
'''),
    # "meets 4": before 5, whatever the worth is.
    'a need of no loads': session(f'''
need,0 need,1 need,{MAX_NEED} need,{MAX_NEED + 1} need,999999 -> no,4
need, need,0000001 -> no,3
{BELOW} budget,30 -> ok
need,0 need,{MAX_NEED + 1} -> no,4
load,0,10,5 -> ok
need,5 -> need,10
need,{MAX_NEED + 1} -> no,5
drop,1 -> ok
need,0 need,5 need,{MAX_NEED + 1} -> no,4
save -> clear {BELOW} budget,30
'''),
    'a budget of 0': session(f'''
{WORKED} -> ok
need,0 -> need,0
need,1 need,{MAX_NEED} -> no,15
power,1,0 worth,1,5 -> ok
need,0 need,1 need,5 -> need,0
need,6 -> no,15
{ALL_ON} -> ok
need,0 need,1 -> no,9
power,2,0 power,3,0 power,4,0 -> ok
need,0 need,125 -> need,0
need,126 -> no,15
'''),
    # "b is the least budget .. whose plan": the loads that are on hang together, and there are some. From 5, 7, 22 and 37 W on the worth is 30,
    # 50, 90 and 120.
    'no plan below some budget': session(f'''
{TOGETHER} {CABINET} budget,40 -> ok
need,0 need,1 need,30 -> need,5
need,31 need,50 -> need,7
need,51 need,90 -> need,22
need,91 need,120 -> need,37
need,121 -> no,15
budget,5 -> ok
need,0 need,30 -> need,5
need,31 -> no,15
budget,6 -> ok
need,0 need,30 -> need,5
need,31 -> no,15
worth,3,0 -> ok
need,0 -> need,5
need,1 -> no,15
'''),
    # "15 .. tested after 9": where no set fits, no worth is too great but one out of its range.
    'a need that no allowed set fits': session(f'''
{TOGETHER} {CABINET} budget,4 -> ok
need,0 need,1 need,30 need,120 need,121 need,{MAX_NEED} -> no,9
need,{MAX_NEED + 1} -> no,5
budget,5 -> ok
need,0 -> need,5
book,1,1 start,1 end,1 rule,1,0,1 -> ok
need,0 need,{MAX_NEED} -> no,9
row,1,1,1 -> ok
need,0 -> need,0
need,1 need,{MAX_NEED} -> no,15
'''),
    'a need with no book': session(f'''
load,0,10,5 load,1,1,1 budget,30 -> ok
need,0 need,5 need,{MAX_NEED} -> no,9
need,{MAX_NEED + 1} -> no,5
budget,0 -> ok
need,0 -> no,9
last -> no,12
'''),
    # Four loads, eight states and eight stages take all cells of the line program at a budget of 255. "meets .. 8": after 5, before 9 and 15.
    'a need with too few cells, and with just enough': session(f'''
book,8,8 start,1 end,1 rule,1,1,1 row,1,1,1 load,0,1,1 load,1,2,2 load,1,3,3 load,1,4,4 budget,255 -> ok
need,0 need,10 -> need,10
need,11 -> no,15
budget,256 -> ok
need,0 need,10 need,11 need,{MAX_NEED} -> no,8
need,{MAX_NEED + 1} -> no,5
need, -> no,3
power,4,500 -> ok
need,0 need,{MAX_NEED} -> no,8
need,{MAX_NEED + 1} -> no,5
budget,255 -> ok
need,0 need,{MAX_NEED} -> no,9
power,4,249 -> ok
need,0 need,10 -> need,255
last -> no,12
'''),
    # It stores nothing and wipes nothing.
    'the last plan after a need': session(f'''
{WORKED} budget,30 -> ok
need,70 -> need,30
last -> no,12
need,0 -> need,0
last -> no,12
need,71 -> no,15
last -> no,12
plan last -> {PLAN_30}
need,70 -> need,30
last -> {PLAN_30}
need,30 -> need,15
last -> {PLAN_30}
need,0 -> need,0
last -> {PLAN_30}
need,71 need,{MAX_NEED} -> no,15
last -> {PLAN_30}
need,{MAX_NEED + 1} -> no,5
last -> {PLAN_30}
need, -> no,3
last -> {PLAN_30}
budget,30 -> ok
last -> no,12
need,70 -> need,30
last -> no,12
'''),
    'the last plan after a need that no set fits': session(f'''
{TOGETHER} {CABINET} budget,4 -> ok
need,0 -> no,9
last -> no,12
plan last -> no,9
need,0 need,30 -> no,9
last -> no,9
budget,7 -> ok
need,51 -> no,15
last -> no,12
plan last -> plan,50,7,1 1,0,1,1,0 2,0,1,1,4 3,0,3,5,1 4,1,1,2,4
need,30 -> need,5
need,51 -> no,15
last -> plan,50,7,1 1,0,1,1,0 2,0,1,1,4 3,0,3,5,1 4,1,1,2,4
'''),
    'the tables after needs': session(f'''
{WORKED} budget,30 -> ok
need,30 -> need,15
save -> clear {BELOW} {CABINET} budget,30
need,70 need,70 -> need,30
need,71 -> no,15
save -> clear {BELOW} {CABINET} budget,30
plan last -> {PLAN_30}
need,40 -> need,25
save -> clear {BELOW} {CABINET} budget,30
save1 -> clear {BELOW} {CABINET} budget,30
plan last -> {PLAN_30}
'''),
    'needs while figures change': session(f'''
{WORKED} budget,30 -> ok
need,70 -> need,30
worth,3,29 -> ok
need,70 -> no,15
need,69 -> need,30
power,3,4 -> ok
need,69 -> need,29
budget,29 -> ok
need,69 -> need,29
budget,28 -> ok
need,69 -> no,15
drop,3 -> ok
need,40 -> need,25
need,41 -> no,15
load,1,5,30 budget,30 -> ok
need,70 -> need,30
'''),
    # Of two cameras of worth 20 the cooler one draws 6 W.
    'a need of equal sets': session(f'''
{BELOW} load,0,0,0 load,1,9,20 load,1,6,20 budget,14 -> ok
need,1 need,20 -> need,6
need,21 need,40 -> no,15
budget,15 -> ok
need,21 need,40 -> need,15
need,20 -> need,6
power,3,9 -> ok
need,20 -> need,9
need,21 -> no,15
'''),
    # A set of less worth may draw more, and is not needed then.
    'a richer set that draws less': session(f'''
{BELOW} load,0,0,0 load,1,9,20 load,1,3,21 budget,9 -> ok
need,1 need,20 need,21 -> need,3
need,22 need,41 -> no,15
budget,12 -> ok
need,22 need,41 -> need,12
'''),
    'a need of the whole budget': session(f'''
{ALL_ON} load,0,{MAX_BUDGET},0 budget,{MAX_BUDGET} -> ok
need,0 -> need,{MAX_BUDGET}
need,1 -> no,15
worth,1,{MAX_WORTH} -> ok
need,0 need,{MAX_WORTH} -> need,{MAX_BUDGET}
need,{MAX_WORTH + 1} -> no,15
budget,{MAX_BUDGET - 1} -> ok
need,0 need,{MAX_WORTH} need,{MAX_WORTH + 1} -> no,9
power,1,{MAX_BUDGET - 1} -> ok
need,{MAX_WORTH} -> need,{MAX_BUDGET - 1}
{ON_FIRST} -> ok
need,0 -> need,0
need,1 need,{MAX_WORTH} -> need,{MAX_BUDGET - 1}
'''),
    # The reader has to be on with its feed: cameras of worth 50 and 40 need 22 W and 37 W together with it.
    'a need with kinds': session(f'''
{READERS} {PLANT} budget,37 -> ok
need,0 -> need,0
need,1 need,50 -> need,22
need,51 need,90 -> need,37
need,91 -> no,15
budget,36 -> ok
need,51 -> no,15
load,1,0,9,2 -> ok
need,0 need,50 -> no,9
save1 -> no,14
rule,1,1,1,2 rule,2,0,2,2 -> ok
need,1 need,9 -> need,15
need,10 need,59 -> need,22
need,60 -> no,15
'''),
}

# As many loads as there may be, of the greatest worth, that draw nothing.
RICHEST = ['load,0,0,%d' % MAX_WORTH] + ['load,1,0,%d' % MAX_WORTH] * (MAX_LOADS - 1)
WORTH_OF_ALL = MAX_WORTH * MAX_LOADS


def listing(first, rule, row):
    """The lines of the loads from one on that are on in state 1, by these rules."""
    return ' '.join('%d,1,1,%d,%d' % (k, rule, row) for k in range(first, MAX_LOADS + 1))


# The greatest budget for which the cells of the line program are enough: for the most loads, one state and one stage.
WIDE_BUDGET = CELLS // (2 * MAX_LOADS) - 1
# A chain of loads of worth 0 that draw the greatest budget together: as many as have cells for it in the line program.
CHAIN_LOADS = CELLS // (2 * (MAX_BUDGET + 1))
CHAIN_POWER = MAX_BUDGET // CHAIN_LOADS
CHAIN = ['load,0,%d,0' % (MAX_BUDGET - CHAIN_POWER * (CHAIN_LOADS - 1))] + ['load,%d,%d,0' % (k, CHAIN_POWER) for k in range(1, CHAIN_LOADS)]
CHAIN_RUN = ['1,1,1,1,0'] + ['%d,1,1,1,1' % k for k in range(2, CHAIN_LOADS + 1)]

# A root, readers of kind 1 and cameras in turn, as many as there may be. Rule 1 is a camera's and rule 2 a reader's, and every load is on.
IN_TURN = ['load,0,0,1'] + ['load,1,0,%d,%d' % (k, k % 2) for k in range(1, MAX_LOADS)]
IN_TURN_RUN = ['1,1,1,1,0'] + ['%d,1,1,%d,1' % (k + 1, k % 2 + 1) for k in range(1, MAX_LOADS)]
IN_TURN_WORTH = 1 + sum(range(1, MAX_LOADS))



def marked(loads, count=MAX_LOADS):
    """The bits of a set of so many loads that has these."""
    return ''.join('1' if k in loads else '0' for k in range(1, count + 1))


def free_run(loads, count=MAX_LOADS):
    """The lines of a run of ON_FIRST in which these loads are on."""
    return ' '.join('%d,%d,1,%d,%d' % (k, k in loads, 1 if k in loads else 2, min(1, k - 1)) for k in range(1, count + 1))


def filled_to(length, text, filling='0'):
    """A line of so many bytes."""
    return text.ljust(length, filling)


# The last load whose mark is in the first word of a set, the next one, and the last one.
LOW, HIGH, LAST = WORD_LOADS, WORD_LOADS + 1, MAX_LOADS
ODD = range(1, MAX_LOADS + 1, 2)
# Loads of worth 0 that draw a watt each, as many as there may be: a plan has none of them on.
IDLE = ['load,0,1,0'] + ['load,1,1,0'] * (MAX_LOADS - 1)
SEVEN_ZEROS = '0000000'

TEN_EDGES = {
    # A parent that is there is 6, one that is not is 5.
    'the last load, and one more': session(f'''
load,0,1,1 {'load,1,0,0 ' * (MAX_LOADS - 2)}-> ok
load,{LAST},0,0 load,{LAST + 1},0,0 load,0,0,0 -> no,5
load,{LAST - 1},500,1000 -> ok
load,1,0,0 load,{LOW},0,0 load,{HIGH},0,0 load,{LAST - 1},0,0 load,{LAST},500,1000 load,000001,000000,000000,000003 -> no,6
load,{LAST + 1},0,0 load,0,0,0 load,999999,0,0 load,{LAST},501,0 load,1,0,1001 load,1,0,0,4 load,256,0,0 load,257,0,0 -> no,5
power,{LAST},7 worth,{LAST},8 power,{LOW},9 worth,{HIGH},9 -> ok
power,{LAST + 1},0 worth,{LAST + 1},0 power,0,0 worth,256,0 power,{LAST},501 worth,{LAST},1001 drop,{LAST + 1} drop,0 drop,257 -> no,5
drop,{LAST - 1} -> no,11
drop,{LAST} -> ok
drop,{LAST} power,{LAST},0 worth,{LAST},0 load,{LAST},0,0 -> no,5
load,{HIGH},5,5,3 -> ok
load,1,0,0 -> no,6
drop,{HIGH} -> no,11
drop,{LAST} drop,{HIGH} -> ok
save -> clear load,0,1,1 {'load,1,0,0 ' * (LOW - 2)}load,1,9,0 {'load,1,0,0 ' * (MAX_LOADS - LOW - 2)}budget,0
'''),
    # A line of as many bytes as it may have, in form or not, and one byte more.
    'the longest line, and one byte more': session(f'''
{filled_to(LINE_BYTES, 'check,')} {filled_to(LINE_BYTES, 'check,', '1')} {filled_to(LINE_BYTES - 1, 'check,')} {filled_to(81, 'check,')} -> no,4
{filled_to(LINE_BYTES + 1, 'check,')} {filled_to(LINE_BYTES + 1, 'check,', '1')} {filled_to(LINE_BYTES + 2, 'check,')} -> no,2
{filled_to(LINE_BYTES, 'x', 'x')} {filled_to(LINE_BYTES, 'plan,', 'a')} {filled_to(LINE_BYTES, 'budget,')} {filled_to(81, 'clear', ',')} -> no,3
{filled_to(LINE_BYTES, 'save', 'e')} {filled_to(LINE_BYTES, 'check,', '2')} {filled_to(LINE_BYTES - 1, 'check,')}2 -> no,3
{filled_to(LINE_BYTES, ',', ',')} {filled_to(LINE_BYTES, 'need,')} -> no,3
{filled_to(LINE_BYTES + 1, 'x', 'x')} {filled_to(LINE_BYTES + 1, 'plan,', 'a')} {filled_to(LINE_BYTES + 1, 'budget,')} -> no,2
{filled_to(LINE_BYTES + 1, 'save', 'e')} {filled_to(LINE_BYTES, 'check,')}2 {filled_to(1000, 'clear', ',')} {filled_to(4097, 'check,')} -> no,2
load,0,1,1 -> ok
{filled_to(LINE_BYTES, 'check,')} {filled_to(LINE_BYTES, 'check,', '1')} -> no,5
{filled_to(LINE_BYTES + 1, 'check,')} -> no,2
save -> clear load,0,1,1 budget,0
'''),
    'six digits, and seven': session(f'''
book,000002,000002 start,000001 start,000002 end,000001 end,000002 rule,000001,000000,000002 rule,000001,000001,000001,000000 -> ok
rule,000002,000000,000002 row,000001,000001,000001 row,000002,000002,000002 load,000000,000010,000000 load,000001,000015,000040,000000 -> ok
load,000001,000005,000030 load,000002,000007,000050 budget,000000 budget,000030 -> ok
plan -> {PLAN_30}
need,000070 -> need,30
power,000004,000500 power,000004,000007 worth,000004,001000 worth,000004,000050 drop,000004 load,000002,000007,000050 -> ok
budget,100000 budget,999999 budget,000501 budget,65566 budget,131102 book,100001,1 book,1,999999 start,100001 end,131073 -> no,5
rule,100001,0,1 rule,1,100000,1 rule,1,0,100001 rule,1,1,2,100000 row,100001,1,1 row,1,100001,1 row,1,1,131073 -> no,5
load,100001,1,1 load,131073,1,1 load,1,100000,1 load,1,1,100000 load,1,1,1,100000 power,1,100000 power,100001,1 worth,1,100000 drop,131076 -> no,5
need,100000 need,{MAX_NEED} -> no,15
need,{MAX_NEED + 1} need,999999 -> no,5
budget,1000000 budget,0000030 budget,{SEVEN_ZEROS} book,0000002,2 start,0000001 end,0000001 rule,1,{SEVEN_ZEROS},2 rule,1,1,2,{SEVEN_ZEROS} -> no,3
row,1,1,0000001 load,1,1,0000001 load,0000001,1,1 load,1,1,1,{SEVEN_ZEROS} power,1,0000010 worth,0000001,0 drop,0000004 need,0000070 -> no,3
save -> clear {BELOW} {CABINET} budget,30
'''),
    # A save of more than 64 loads, fed back.
    'a save of the most loads': session(f'''
{ON_BY_ROW} {' '.join(STAR)} budget,{MAX_BUDGET} -> ok
save -> clear {ON_BY_ROW} {' '.join(STAR)} budget,{MAX_BUDGET}
clear {' '.join(with_kinds(f'{ON_BY_ROW} {" ".join(STAR)}'.split()))} budget,{MAX_BUDGET} -> ok
save -> clear {ON_BY_ROW} {' '.join(STAR)} budget,{MAX_BUDGET}
save1 -> clear {ON_BY_ROW} {' '.join(STAR)} budget,{MAX_BUDGET}
drop,{HIGH} -> ok
save1 -> clear {ON_BY_ROW} {' '.join(STAR[:HIGH - 1] + STAR[HIGH:])} budget,{MAX_BUDGET}
'''),
}

# Of 128 loads too, but of trees that leave so many loads the choice that only fronts.py can answer.
WIDE_EDGES = {
    # The sixty-fifth load is no more than another one.
    'around the first word': session(f'''
{ON_FIRST} load,0,1,0 {'load,1,1,0 ' * (LOW - 2)}budget,1 -> ok
plan last -> plan,0,0,0 {free_run((), LOW - 1)}
load,1,1,3 -> ok
plan last -> plan,3,1,1 {free_run((LOW,), LOW)}
check,{marked((LOW,), LOW)} -> yes {free_run((LOW,), LOW)}
load,{LOW},1,4 -> ok
plan last -> plan,4,1,1 {free_run((HIGH,), HIGH)}
check,{marked((HIGH,), HIGH)} -> yes {free_run((HIGH,), HIGH)}
check,{marked((1,), HIGH)} -> yes {free_run((1,), HIGH)}
check,{marked((LOW,), LOW)} check,{marked((HIGH,), HIGH + 1)} -> no,5
load,{HIGH},1,5 -> ok
plan last -> plan,5,1,1 {free_run((HIGH + 1,), HIGH + 1)}
drop,{LOW} drop,{HIGH} -> no,11
drop,{HIGH + 1} -> ok
last -> no,12
plan last -> plan,4,1,1 {free_run((HIGH,), HIGH)}
drop,{HIGH} -> ok
plan last -> plan,3,1,1 {free_run((LOW,), LOW)}
'''),
    # A check of the most loads has 134 bytes. Low and high bits are not the same.
    'checks of the most loads': session(f'''
{ON_FIRST} {' '.join(IDLE)} -> ok
check,{marked(())} -> yes {free_run(())}
check,{marked(range(LAST + 1))} -> yes {free_run(range(LAST + 1))}
check,{marked((HIGH,))} -> yes {free_run((HIGH,))}
check,{marked((LAST,))} -> yes {free_run((LAST,))}
check,{marked((LOW,))} -> yes {free_run((LOW,))}
check,{marked((1,))} -> yes {free_run((1,))}
check,{marked(range(1, HIGH))} -> yes {free_run(range(1, HIGH))}
check,{marked(range(HIGH, LAST + 1))} -> yes {free_run(range(HIGH, LAST + 1))}
check,{marked(ODD)} -> yes {free_run(ODD)}
check,{marked((), LAST - 1)} check,{marked((), LAST + 1)} check,{marked((), LOW)} check,{marked((HIGH,), HIGH)} check,1 -> no,5
check,{marked((), LAST - 1)}2 check,{marked((), LAST)},1 -> no,3
last -> no,12
'''),
    # The root has to be on if another load is: with the words in each other's place it is off.
    "checks with the words in each other's place": session(f'''
{BELOW} {' '.join(IDLE)} -> ok
check,{marked((1, LAST))} -> yes 1,1,1,2,0 {' '.join('%d,0,1,1,1' % k for k in range(2, LAST))} {LAST},1,1,2,1
check,{marked((HIGH, LOW))} check,{marked((HIGH,))} check,{marked((LAST,))} check,{marked(range(HIGH, LAST + 1))} -> no,10
check,{marked((1,))} -> yes 1,1,1,2,0 {' '.join('%d,0,1,1,1' % k for k in range(2, LAST + 1))}
'''),
    # The marks of a plan, of `last` and of a check are those of loads of both words, or of the second one alone.
    'plans with marks in the second word': session(f'''
{ON_FIRST} {' '.join(IDLE)} worth,{HIGH},5 worth,{LAST},6 budget,2 -> ok
plan last -> plan,11,2,2 {free_run((HIGH, LAST))}
need,11 need,7 -> need,2
need,6 need,1 -> need,1
need,12 -> no,15
worth,1,7 worth,{LOW},8 budget,4 -> ok
plan last -> plan,26,4,4 {free_run((1, LOW, HIGH, LAST))}
budget,3 -> ok
plan last -> plan,21,3,3 {free_run((1, LOW, LAST))}
budget,1 -> ok
plan last -> plan,8,1,1 {free_run((LOW,))}
drop,2 budget,2 -> ok
plan last -> plan,15,2,2 {free_run((1, LOW - 1), LAST - 1)}
budget,3 -> ok
plan last -> plan,21,3,3 {free_run((1, LOW - 1, LAST - 1), LAST - 1)}
'''),
}

# The longest plan: every load is on in the last state, by the last load rule and the last row rule.
LAST_RULES = [
    *('rule,%d,%d,%d' % (n % 7 + 1, n // 7 % 2, n // 14 + 1) for n in range(MAX_RULES - 1)), f'rule,{MAX_STATES},1,{MAX_STAGES}',
    *('row,%d,%d,1' % (n % 7 + 1, n // 7 + 1) for n in range(MAX_RULES - 1)), f'row,{MAX_STAGES},{MAX_STATES},{MAX_STAGES}',
]
LONGEST_RUN = [f'1,1,{MAX_STATES},{MAX_RULES},0'] + [f'{k},1,{MAX_STATES},{MAX_RULES},{MAX_RULES}' for k in range(2, MAX_LOADS + 1)]

# Of equal plans, of kinds, of needs and of 128 loads too, but of trees so large that enumeration takes its time.
LARGEST_EDGES = {
    'a plan of loads that came and went': session(f'''
{ALL_ON} {' '.join(STAR)} drop,30 load,1,0,{MAX_LOADS + 1} drop,{MAX_LOADS - 1} load,{MAX_LOADS - 1},0,{MAX_LOADS + 2} -> ok
plan last -> plan,{sum(range(1, MAX_LOADS)) - 30 + MAX_LOADS + 1 + MAX_LOADS + 2},0,{MAX_LOADS} {' '.join(STAR_RUN)}
load,1,0,0 load,{MAX_LOADS},500,1000 -> no,6
last -> plan,{sum(range(1, MAX_LOADS)) - 30 + MAX_LOADS + 1 + MAX_LOADS + 2},0,{MAX_LOADS} {' '.join(STAR_RUN)}
drop,{MAX_LOADS} -> ok
last -> no,12
'''),
    'the longest plan': session(f'''
book,{MAX_STATES},{MAX_STAGES} start,{MAX_STATES} end,{MAX_STAGES} {' '.join(LAST_RULES)} {' '.join(RICHEST)} -> ok
plan last -> plan,{WORTH_OF_ALL},0,{MAX_LOADS} {' '.join(LONGEST_RUN)}
check,{marked(range(LAST + 1))} -> yes {' '.join(LONGEST_RUN)}
check,{marked(range(LAST))} -> no,10
'''),
    'the whole budget over a long chain': session(f'''
{ALL_ON} {' '.join(CHAIN)} budget,{MAX_BUDGET} -> ok
plan -> plan,0,{MAX_BUDGET},{CHAIN_LOADS} {' '.join(CHAIN_RUN)}
worth,{CHAIN_LOADS},1 -> ok
plan -> plan,1,{MAX_BUDGET},{CHAIN_LOADS} {' '.join(CHAIN_RUN)}
budget,{MAX_BUDGET - 1} -> ok
plan -> no,9
'''),
    'the greatest worth': session(f'''
{ALL_ON} {' '.join(RICHEST)} -> ok
plan last -> plan,{WORTH_OF_ALL},0,{MAX_LOADS} 1,1,1,1,0 {listing(2, 1, 1)}
power,2,{WIDE_BUDGET} budget,{WIDE_BUDGET} -> ok
plan -> plan,{WORTH_OF_ALL},{WIDE_BUDGET},{MAX_LOADS} 1,1,1,1,0 {listing(2, 1, 1)}
budget,{WIDE_BUDGET - 1} -> ok
plan -> no,9
'''),
    'the greatest worth, with one load that may be off': session(f'''
{FIRST_FREE} {' '.join(RICHEST)} power,2,9 budget,9 -> ok
plan -> plan,{WORTH_OF_ALL},9,{MAX_LOADS} 1,1,3,1,0 2,1,2,3,1 {listing(3, 4, 2)}
worth,2,0 -> ok
plan -> plan,{WORTH_OF_ALL - MAX_WORTH},0,{MAX_LOADS - 1} 1,1,3,1,0 2,0,2,2,1 {listing(3, 4, 2)}
worth,2,{MAX_WORTH} budget,8 -> ok
plan -> plan,{WORTH_OF_ALL - MAX_WORTH},0,{MAX_LOADS - 1} 1,1,3,1,0 2,0,2,2,1 {listing(3, 4, 2)}
'''),
    'the greatest worth, with one of two loads off': session(f'''
{ONE_OF_TWO} {' '.join(RICHEST)} power,2,6 power,3,9 budget,9 -> ok
plan -> plan,{WORTH_OF_ALL - MAX_WORTH},6,{MAX_LOADS - 1} 1,1,3,1,0 2,1,1,2,2 3,0,2,3,3 {listing(4, 2, 4)}
power,3,6 -> ok
plan -> plan,{WORTH_OF_ALL - MAX_WORTH},6,{MAX_LOADS - 1} 1,1,3,1,0 2,0,2,3,1 {listing(3, 2, 4)}
worth,2,{MAX_WORTH - 1} power,2,5 -> ok
plan -> plan,{WORTH_OF_ALL - MAX_WORTH},6,{MAX_LOADS - 1} 1,1,3,1,0 2,0,2,3,1 {listing(3, 2, 4)}
'''),
    'the most loads, of two kinds in turn': session(f'''
book,1,1 start,1 end,1 rule,1,1,1 rule,1,1,1,1 row,1,1,1 {' '.join(IN_TURN)} -> ok
plan last -> plan,{IN_TURN_WORTH},0,{MAX_LOADS} {' '.join(IN_TURN_RUN)}
drop,{MAX_LOADS} load,1,0,0,2 -> ok
plan last -> no,9
save1 -> no,14
'''),
    # At the greatest budget for which the cells are enough, and a watt more.
    'a need of the greatest worth': session(f'''
{ALL_ON} {' '.join(RICHEST)} -> ok
need,0 need,{MAX_NEED} -> need,0
need,{MAX_NEED + 1} -> no,5
power,2,{WIDE_BUDGET} -> ok
need,0 need,{MAX_NEED} -> no,9
budget,{WIDE_BUDGET} -> ok
need,0 need,{MAX_NEED} -> need,{WIDE_BUDGET}
budget,{WIDE_BUDGET + 1} -> ok
need,0 need,{MAX_NEED} -> no,8
need,{MAX_NEED + 1} -> no,5
budget,{WIDE_BUDGET} worth,2,{MAX_WORTH - 1} -> ok
need,{MAX_NEED} -> no,15
need,{MAX_NEED - 1} -> need,{WIDE_BUDGET}
'''),
    'a need of the greatest worth, with one load that may be off': session(f'''
{FIRST_FREE} {' '.join(RICHEST)} power,2,9 budget,9 -> ok
need,0 need,1 need,{MAX_NEED - MAX_WORTH} -> need,0
need,{MAX_NEED - MAX_WORTH + 1} need,{MAX_NEED} -> need,9
budget,8 -> ok
need,{MAX_NEED - MAX_WORTH} -> need,0
need,{MAX_NEED - MAX_WORTH + 1} need,{MAX_NEED} -> no,15
'''),
}
SORTS = DROP_EDGES, COOLER_EDGES, LAST_EDGES, KIND_EDGES, NEED_EDGES, TEN_EDGES, LARGEST_EDGES, WIDE_EDGES
EDGES = {name: case for edges in SORTS for name, case in edges.items()}
assert len(EDGES) == sum(map(len, SORTS)), 'two sessions have one name'
