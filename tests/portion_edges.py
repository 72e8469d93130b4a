"""Portions by name, as request Eleven of paper 02 has them, written by hand.

Each is a session of a fresh planner, with a work for its portions, full of rubbish, of 20 cells more than the plan needs. A line of its text is one
of these:

    LINE LINE .. -> ANSWER   lines for the planner, each with a work of its own, and the answer of each, whose lines are parted by blanks. An answer
                             may be left out; of refusal 1, which writes nothing, it is `no,1`
    with the work: LINE ..   lines that get the work of the portions
    filled N                 the planner is handed in with N cells filled
    portion N: fills M       a portion of at most N cells fills M, and so it does in `portion N in B bytes`, `at P` and `with C cells`, with another
                             length of the output, another place in it or another length of the work
    portion N: no,E          it is refused with E
    portion N: answer        it gives the answer, whose lines follow after `|`, parted by blanks
    cells A: V V ..          the cells from A on hold this, A being counted from 0
    rubbish A to B           those from A to B hold what they held before the first portion
    count N                  the planner has N cells filled
"""
import re
from collections import namedtuple

from edges import BELOW, ON_FIRST, PLAN_30, PLAN_32, WORKED
from limits import LINE_BYTES, MAX_PORTION, RUN_BYTES, SAVE_BYTES

# A step of a session: what it is, and what it is with.
Step = namedtuple('Step', 'sort given')
# A portion: n, the bytes of the output, the place, and the cells, each None where the text does not say; and what comes of it: the number, the count
# of cells filled, and the lines of the answer.
Portion = namedtuple('Portion', 'most size place cells number filled lines')
HEAD = re.compile(r'portion (\d+)(?: in (\d+) bytes)?(?: at (\d+))?(?: with (\d+) cells)?: (?:fills (\d+)|no,(\d+)|(answer))')


def figure(text):
    return None if text is None else int(text)


def portion(line):
    most, size, place, cells, filled, number, _ = HEAD.fullmatch(line).groups()
    return Portion(int(most), figure(size), figure(place), figure(cells), int(number or 0), int(filled or 0), [])


def step(line):
    word, *rest = line.split()
    if word == 'portion':
        return Step(word, portion(line))
    if word in ('filled', 'count'):
        return Step(word, int(rest[0]))
    if word == 'cells':
        return Step(word, (int(rest[0][:-1]), [int(value) for value in rest[1:]]))
    if word == 'rubbish':
        return Step(word, (int(rest[0]), int(rest[2])))
    if line.startswith('with the work: '):
        return Step('same', line.split(': ')[1].encode().split())
    lines, _, answer = line.partition(' -> ')
    return Step('lines', (lines.encode().split(), answer.split()))


def steps(text):
    made = []
    for line in text.strip().splitlines():
        if line.startswith('|'):
            made[-1].given.lines.extend(line[1:].split())
        else:
            made.append(step(line))
    return made


LONG = 'x' * (LINE_BYTES + 1)
NINE = '|no,9'
PLANNED, PLANNED_32 = '|' + PLAN_30, '|' + PLAN_32
# One load of 2 W and worth 3, and its 12 cells: none is on with less than 2 W, in state 2 it is off, and it is a row of itself.
ONE = f'{BELOW} load,0,2,3 budget,2'
ONE_CELLS = 'cells 0: 512 512 2046 512 512 512 512 512 2046 512 512 512'
ONE_PLAN = '|plan,3,2,1 1,1,1,2,0'
# Loads 2 and 3 below load 1, each on or off: 3 W and worth 7, 1 W and worth 4, 2 W and worth 5. One state, one stage, 4 allowances: 24 cells.
THREE = f'{ON_FIRST} load,0,3,7 load,1,1,4 load,1,2,5 budget,3'

EDGES = {name: steps(text) for name, text in {
    'the worked cabinet, at once': f'''
{WORKED} budget,30
portion 496: fills 496
count 496
rubbish 496 to 516
portion 1: answer
{PLANNED}
count 0
cells 0: 0 0 0
cells 494: 0 0
rubbish 496 to 516
''',
    'the worked cabinet, cell by cell': f'''
{WORKED} budget,30
portion 1: fills 1
cells 0: 512
rubbish 1 to 516
portion 7: fills 7
cells 0: 512 512 512 512 512 512 512 26105
rubbish 8 to 516
portion 256: fills 256
portion 231: fills 231
rubbish 495 to 516
portion {MAX_PORTION}: fills 1
portion {MAX_PORTION}: answer
{PLANNED}
''',
    'every cell of one load': f'''
{ONE}
portion {MAX_PORTION}: fills 12
{ONE_CELLS}
portion 12: answer
{ONE_PLAN}
''',
    # Load 3 first: 2 W and worth 5. Then load 2, and the row from it: 4 with 1 W, 5 with 2 W, 9 with 3 W. Load 1 has the best of both branches below
    # it, or itself, worth 7 and 3 W; its row is of itself.
    'rows, from the last load to the first': f'''
{THREE}
portion 8: fills 8
cells 0: 512 512 3070 3070 512 512 3070 3070
portion 8: fills 8
cells 8: 512 2559 2559 2559 512 2559 3070 5117
portion 8: fills 8
cells 16: 512 2559 3070 5117 512 2559 3070 5117
portion 1: answer
|plan,9,3,2 1,0,1,2,0 2,1,1,1,1 3,1,1,1,1
''',
    # State 2 has no rule, and no row rule leads from stage 2: none is 0. Stage 2 is an end stage, but a row of a load is not empty.
    'none': '''
book,2,2 start,1 end,1 end,2 rule,1,1,1 row,1,1,1 load,0,1,1 budget,1
portion 8: fills 8
cells 0: 0 1023 0 0 0 1023 0 0
portion 1: answer
|plan,1,1,1 1,1,1,1,0
''',
    # The branch has a best, and the row has none: stage 1 is no end stage, but the load's own stage is.
    'a row of load 1 that ends nowhere': '''
book,1,2 start,1 end,2 rule,1,1,2 row,1,1,1 load,0,1,1 budget,1
portion 6: fills 6
cells 0: 0 1023 0 0 0 0
portion 1: answer
|plan,1,1,1 1,1,1,1,0
''',
    'the greatest figures': '''
book,1,1 start,1 end,1 rule,1,1,1 row,1,1,1 load,0,500,1000 budget,500
portion 1002: fills 1002
cells 499: 0 512012 0
cells 999: 0 0 512012
portion 1: answer
|plan,1000,500,1 1,1,1,1,0
''',
    'of equals the cooler': '''
book,1,1 start,1 end,1 rule,1,1,1 rule,1,0,1 row,1,1,1 load,0,0,0 load,1,6,20 load,1,9,20 budget,10
portion 66: fills 66
cells 43: 10746
cells 54: 10746
portion 1: answer
|plan,20,6,2 1,1,1,1,0 2,1,1,1,1 3,0,1,2,1
''',
    # A rule of kind 1 does not serve a load of kind 0.
    'kinds': '''
book,1,1 start,1 end,1 rule,1,0,1 rule,1,1,1,1 row,1,1,1 load,0,0,5 load,1,0,7,1 budget,0
portion 4: fills 4
cells 0: 4096 4096 4096 4096
portion 1: answer
|plan,7,0,1 1,0,1,1,0 2,1,1,2,1
clear
book,1,1 start,1 end,1 rule,1,0,1 rule,1,1,1,1 row,1,1,1 load,0,0,5 load,1,0,7,2 budget,0
portion 4: fills 4
cells 0: 0 0 0 0
portion 4: answer
|no,9
''',
    # "no loads with n = 0 is 4"; 1 comes before it.
    'no loads': f'''
portion 0: no,4
portion 1: no,4
portion {MAX_PORTION + 1}: no,4
portion 1 in {RUN_BYTES - 1} bytes: no,1
portion 0 in {RUN_BYTES - 1} bytes: no,1
book,8,8 budget,500
portion 1: no,4
portion 0 with 0 cells: no,4
count 0
''',
    # No cells, so none is open: "the first portion gives the answer at once, 9".
    'loads and no book': f'''
load,0,1,1 load,1,2,2 budget,500
portion 0: no,5
portion {MAX_PORTION + 1}: no,5
portion 1 in {RUN_BYTES - 1} bytes: no,1
portion 1 with 0 cells: answer
{NINE}
count 0
portion {MAX_PORTION}: answer
{NINE}
last -> no,12
plan
portion 1: answer
{NINE}
last -> no,9
''',
    # n is tested on the call that gives the answer too, and so are the cells and the free bytes; none of them starts the filling over.
    'tested again at the answer': f'''
{WORKED} budget,30
portion 400: fills 400
portion 0: no,5
portion {MAX_PORTION + 1}: no,5
portion 18446744073709551615: no,5
portion 4294967297: no,5
portion 1 with 495 cells: no,8
portion 0 with 495 cells: no,5
portion 1 with 0 cells: no,8
count 400
portion 1 with 496 cells: fills 1
portion 95: fills 95
count 496
portion 0: no,5
portion {MAX_PORTION + 1}: no,5
portion 1 with 495 cells: no,8
portion 0 with 495 cells: no,5
portion 1 in {RUN_BYTES - 1} bytes: no,1
count 496
portion 1 with 496 cells: answer
{PLANNED}
portion 1 with 495 cells: no,8
portion 1: fills 1
count 1
''',
    'free bytes': f'''
{WORKED} budget,30
portion 1 in {RUN_BYTES - 1} bytes: no,1
portion 1 in {RUN_BYTES} bytes: fills 1
portion 1 in 1024 bytes: no,1
portion 1 in 0 bytes: no,1
portion 1 in {RUN_BYTES + 9} bytes at 9: fills 1
portion 1 in {RUN_BYTES + 9} bytes at 10: no,1
portion 1 in {SAVE_BYTES} bytes at {SAVE_BYTES}: no,1
portion 1 in {SAVE_BYTES} bytes at {SAVE_BYTES + 1}: no,1
portion 1 in {SAVE_BYTES} bytes at 18446744073709551615: no,1
portion 0 in {SAVE_BYTES} bytes at {SAVE_BYTES + 1}: no,1
portion 1 in {RUN_BYTES - 1} bytes with 0 cells: no,1
count 2
portion 494 in {RUN_BYTES} bytes: fills 494
portion 1 in {RUN_BYTES - 1} bytes: no,1
portion 1 in {SAVE_BYTES} bytes at {SAVE_BYTES + 1}: no,1
count 496
portion 1 in {RUN_BYTES + 40} bytes at 40: answer
{PLANNED}
''',
    'counts in a planner handed in': f'''
{WORKED} budget,30
filled 496
portion 0: no,5
filled 497
portion 1: no,1
plan -> no,1
last -> no,1
clear -> no,1
filled 4294967295
portion 1: no,1
portion 0: no,1
save -> no,1
filled 495
portion 1: fills 1
count 496
filled 0
portion 2: fills 2
''',
    # "Any line that printed `ok` counts as a change, and no other, even if every table stayed equal."
    'changes that leave every table equal': f'''
{WORKED} budget,30
portion 9: fills 9
budget,30 -> ok
count 0
portion 9: fills 9
start,1 -> ok
count 0
portion 496: fills 496
power,4,7 -> ok
count 0
portion 9: fills 9
worth,4,50 -> ok
count 0
portion 496: fills 496
portion 9: answer
{PLANNED}
''',
    'refused lines and commands that change nothing': f'''
{WORKED} budget,30
portion 9: fills 9
budget,501 -> no,5
start,3 -> no,5
rule,1,0,2 -> no,7
drop,2 -> no,11
{LONG} -> no,2
plans -> no,3
last -> no,12
save
save1
check,1110
check,0100 -> no,10
count 9
with the work: last save check,1110 budget,501 drop,2 plans
portion 487: fills 487
with the work: last save check,1110 budget,501 drop,2 plans
count 496
portion 1: answer
{PLANNED}
''',
    # Another work was lent to these, and so the filling goes on.
    'plans and needs in between, with another work': f'''
{WORKED} budget,30
portion 100: fills 100
plan
need,70 -> need,30
need,71 -> no,15
count 100
portion 396: fills 396
plan
count 496
portion 1: answer
{PLANNED}
count 0
''',
    # The answer of portions is not shown by `last`, and does not wipe what is.
    'the last plan': f'''
{WORKED} budget,30
portion 496: fills 496
portion 1: answer
{PLANNED}
last -> no,12
plan
portion 496: fills 496
portion 1: answer
{PLANNED}
last -> {PLAN_30}
power,1,500 -> ok
plan
portion 496: fills 496
last -> plan,0,0,0 1,0,1,1,0 2,0,2,3,2 3,0,2,3,2 4,0,2,3,2
''',
    'that no allowed set fits': f'''
book,1,1 start,1 end,1 rule,1,1,1 row,1,1,1 load,0,5,5 budget,4
portion 10: fills 10
cells 0: 0 0 0 0 0 0 0 0 0 0
portion 10: answer
{NINE}
last -> no,12
count 0
budget,5 -> ok
plan -> plan,5,5,1 1,1,1,1,0
portion 12: fills 12
portion 12: answer
|plan,5,5,1 1,1,1,1,0
budget,4 -> ok
portion 10: fills 10
plan -> no,9
portion 10: answer
{NINE}
last -> no,9
''',
    # "the budget raised from 31 to 32, with the plan still that of 31": no cell of the filling before is used.
    'a change half way': f'''
{WORKED} budget,31
portion 512: fills 512
budget,32 -> ok
portion 527: fills 527
portion 527: fills 1
portion 527: answer
{PLANNED_32}
''',
    'a load that leaves, and one that comes': f'''
{WORKED} budget,30
portion 496: fills 496
drop,3 -> ok
count 0
portion 400: fills 372
load,1,5,30 -> ok
count 0
portion 400: fills 400
portion 400: fills 96
portion 400: answer
|plan,70,30,3 1,1,1,2,0 2,1,1,2,1 3,0,1,1,1 4,1,1,2,1
''',
    'after the answer the next filling': f'''
{ONE}
portion 12: fills 12
portion 12: answer
{ONE_PLAN}
portion 12: fills 12
{ONE_CELLS}
portion 12: answer
{ONE_PLAN}
portion 1: fills 1
clear -> ok
count 0
portion 1: no,4
''',
}.items()}
