"""Pages by name, as request Six of paper 02 has them, written by hand.

Each is a session of a fresh planner with a dark glass. A line of its text is one of these:

    LINE LINE ..           lines for the planner
    page K: no,N           a page from load K on is refused with N, and so is `page K of B: no,N`, on B bytes
    page K: rows A to B    it is drawn, and rows A to B of it go to the glass; `page K: no rows` where none does
    |..|                   a row of the glass, after a page that was drawn; the blank ones below the last are left out
"""
import re
from collections import namedtuple

from edges import ALL_ON, BELOW, FIRST_FREE, ON_FIRST, RICHEST, TOGETHER, WORKED
from limits import MAX_LOADS, MAX_POWER, PAGE_BYTES, ROW_BYTES

# A page of a session: the lines before it, the load, the length to draw on, the number, the first and the last row that go to the glass (0 for
# none), and the page that the glass shows then.
Edge = namedtuple('Edge', 'lines load size number rows page')
HEAD = re.compile(r'page (\d+)(?: of (\d+))?: (?:no,(\d+)|rows (\d) to (\d)|no rows)')


def edge(lines, head, rows):
    load, size, number, first, last = [int(figure or 0) for figure in HEAD.fullmatch(head).groups()]
    if any(len(row) != ROW_BYTES + 2 for row in rows):
        raise ValueError('not the rows of a page: %r' % rows)
    page = ''.join(row[1:-1] for row in rows).encode().ljust(PAGE_BYTES)
    return Edge(lines, load, size if ' of ' in head else PAGE_BYTES, number, (first, last), page)


def edges(text):
    """The pages of a session's text."""
    made, lines = [], []
    for line in text.strip().splitlines():
        if line.startswith('page '):
            made.append((lines, line, []))
            lines = []
        elif line.startswith('|'):
            made[-1][2].append(line)
        else:
            lines += line.encode().split()
    return [edge(*one) for one in made]


# The children of the root are on and off by turns, the first one on. What is on draws nothing here.
TURNS = 'book,2,2 start,1 end,1 end,2 rule,1,1,1 rule,2,0,1 row,1,1,2 row,2,2,1 load,0,0,100'
SEVEN = f'{TURNS} load,1,0,10 load,1,12,20 load,1,0,30 load,1,14,40 load,1,0,50 load,1,16,60'
OFF = 'book,1,1 start,1 end,1 rule,1,0,1 row,1,1,1'

EDGES = {name: edges(text) for name, text in {
    'the worked cabinet': f'''
{WORKED} budget,30 plan
page 1: rows 1 to 8
|worth 000070 030W   |
|001 on  010W        |
|002 on  015W        |
|003 on  005W        |
|004 off 007W        |
page 1: no rows
|worth 000070 030W   |
|001 on  010W        |
|002 on  015W        |
|003 on  005W        |
|004 off 007W        |
page 3: rows 2 to 5
|worth 000070 030W   |
|003 on  005W        |
|004 off 007W        |
page 4: rows 2 to 3
|worth 000070 030W   |
|004 off 007W        |
page 5: no,5
page 0: no,5
page 18446744073709551615: no,5
''',
    # "13, a page to draw on not of 160 bytes, tested first": before the load, and before the plan.
    'a page of another length': f'''
page 1 of 159: no,13
page 0 of 161: no,13
{WORKED} budget,30
page 1 of 159: no,13
page 1 of 0: no,13
plan
page 1 of 159: no,13
page 1 of 161: no,13
page 1 of 0: no,13
page 1 of 20: no,13
page 1 of 320: no,13
page 5 of 161: no,13
page 0 of 0: no,13
page 1: rows 1 to 8
|worth 000070 030W   |
|001 on  010W        |
|002 on  015W        |
|003 on  005W        |
|004 off 007W        |
''',
    # No load exists: 5, and neither 4 nor 12.
    'no loads': f'''
page 1: no,5
page 0: no,5
page 64: no,5
page 128: no,5
{BELOW} budget,30
page 1: no,5
plan last
page 1: no,5
load,0,10,5 plan
page 1: rows 1 to 8
|worth 000005 010W   |
|001 on  010W        |
page 2: no,5
drop,1
page 1: no,5
''',
    # "The load k asked for must exist (5), and the plan must be current (12)."
    'no current plan': f'''
{WORKED} budget,30
page 1: no,12
page 4: no,12
page 5: no,5
page 0: no,5
check,1110 save last budget,501 need,70 need,71
page 1: no,12
''',
    'a change makes it old, and what was refused does not': f'''
{WORKED} budget,30 plan
page 1: rows 1 to 8
|worth 000070 030W   |
|001 on  010W        |
|002 on  015W        |
|003 on  005W        |
|004 off 007W        |
budget,501 load,5,1,1 rule,1,0,2 drop,2 check,0100 check,1111 plan, save last need,30 need,71 need,128001
page 1: no rows
|worth 000070 030W   |
|001 on  010W        |
|002 on  015W        |
|003 on  005W        |
|004 off 007W        |
budget,30
page 1: no,12
page 5: no,5
page 1 of 161: no,13
start,1
page 1: no,12
plan
page 1: no rows
|worth 000070 030W   |
|001 on  010W        |
|002 on  015W        |
|003 on  005W        |
|004 off 007W        |
''',
    # "or `no plan` after refusal 9"; "all loads after refusal 9, are blank rows".
    'refusal 9': f'''
{TOGETHER} load,0,10,0 load,1,15,40 load,1,5,30 load,2,7,50 budget,4
page 1: no,12
plan
page 1: rows 1 to 8
|no plan             |
page 4: no rows
|no plan             |
page 5: no,5
page 0: no,5
page 1 of 159: no,13
budget,5 plan
page 1: rows 1 to 5
|worth 000030 005W   |
|001 off 010W        |
|002 off 015W        |
|003 on  005W        |
|004 off 007W        |
budget,4
page 1: no,12
plan last
page 2: rows 1 to 5
|no plan             |
''',
    'loads and no book': f'''
load,0,10,5 load,1,1,1 budget,30
page 1: no,12
plan
page 2: rows 1 to 8
|no plan             |
''',
    # The empty set is a plan, and is drawn as one.
    'every load off': f'''
{WORKED} budget,9 plan
page 1: rows 1 to 8
|worth 000000 000W   |
|001 off 010W        |
|002 off 015W        |
|003 off 005W        |
|004 off 007W        |
''',
    'from the first differing row to the last': f'''
{WORKED} budget,30 plan
page 1: rows 1 to 8
|worth 000070 030W   |
|001 on  010W        |
|002 on  015W        |
|003 on  005W        |
|004 off 007W        |
budget,32 plan
page 1: rows 1 to 5
|worth 000090 032W   |
|001 on  010W        |
|002 on  015W        |
|003 off 005W        |
|004 on  007W        |
worth,2,41 plan
page 1: rows 1 to 1
|worth 000091 032W   |
|001 on  010W        |
|002 on  015W        |
|003 off 005W        |
|004 on  007W        |
power,3,6 plan
page 1: rows 4 to 4
|worth 000091 032W   |
|001 on  010W        |
|002 on  015W        |
|003 off 006W        |
|004 on  007W        |
worth,1,1 power,3,500 plan
page 1: rows 1 to 4
|worth 000092 032W   |
|001 on  010W        |
|002 on  015W        |
|003 off 500W        |
|004 on  007W        |
''',
    # Load 4 is load 3 then, and load 4 exists no more.
    'a load leaves': f'''
{WORKED} budget,30 plan
page 4: rows 1 to 8
|worth 000070 030W   |
|004 off 007W        |
drop,3
page 3: no,12
page 4: no,5
plan
page 4: no,5
page 3: rows 1 to 2
|worth 000040 025W   |
|003 off 007W        |
''',
    'seven loads, and eight': f'''
{SEVEN} plan
page 1: rows 1 to 8
|worth 000190 000W   |
|001 on  000W        |
|002 on  000W        |
|003 off 012W        |
|004 on  000W        |
|005 off 014W        |
|006 on  000W        |
|007 off 016W        |
page 2: rows 2 to 8
|worth 000190 000W   |
|002 on  000W        |
|003 off 012W        |
|004 on  000W        |
|005 off 014W        |
|006 on  000W        |
|007 off 016W        |
page 8: no,5
power,7,17 plan
page 1: rows 2 to 8
|worth 000190 000W   |
|001 on  000W        |
|002 on  000W        |
|003 off 012W        |
|004 on  000W        |
|005 off 014W        |
|006 on  000W        |
|007 off 017W        |
power,7,18 plan
page 1: rows 8 to 8
|worth 000190 000W   |
|001 on  000W        |
|002 on  000W        |
|003 off 012W        |
|004 on  000W        |
|005 off 014W        |
|006 on  000W        |
|007 off 018W        |
load,1,0,70 plan
page 2: rows 1 to 8
|worth 000260 000W   |
|002 on  000W        |
|003 off 012W        |
|004 on  000W        |
|005 off 014W        |
|006 on  000W        |
|007 off 018W        |
|008 on  000W        |
page 8: rows 2 to 8
|worth 000260 000W   |
|008 on  000W        |
page 9: no,5
''',
    'the greatest power': f'''
{ALL_ON} load,0,{MAX_POWER},0 budget,{MAX_POWER} plan
page 1: rows 1 to 8
|worth 000000 500W   |
|001 on  500W        |
power,1,499 worth,1,1 plan
page 1: rows 1 to 2
|worth 000001 499W   |
|001 on  499W        |
''',
    'the most loads, of the greatest worth, with one that may be off': f'''
{FIRST_FREE} {' '.join(RICHEST)} power,2,9 budget,9 plan
page 1: rows 1 to 8
|worth 128000 009W   |
|001 on  000W        |
|002 on  009W        |
|003 on  000W        |
|004 on  000W        |
|005 on  000W        |
|006 on  000W        |
|007 on  000W        |
budget,8 plan
page 1: rows 1 to 3
|worth 127000 000W   |
|001 on  000W        |
|002 off 009W        |
|003 on  000W        |
|004 on  000W        |
|005 on  000W        |
|006 on  000W        |
|007 on  000W        |
page 58: rows 2 to 8
|worth 127000 000W   |
|058 on  000W        |
|059 on  000W        |
|060 on  000W        |
|061 on  000W        |
|062 on  000W        |
|063 on  000W        |
|064 on  000W        |
page 62: rows 2 to 8
|worth 127000 000W   |
|062 on  000W        |
|063 on  000W        |
|064 on  000W        |
|065 on  000W        |
|066 on  000W        |
|067 on  000W        |
|068 on  000W        |
page 122: rows 2 to 8
|worth 127000 000W   |
|122 on  000W        |
|123 on  000W        |
|124 on  000W        |
|125 on  000W        |
|126 on  000W        |
|127 on  000W        |
|128 on  000W        |
page 123: rows 2 to 8
|worth 127000 000W   |
|123 on  000W        |
|124 on  000W        |
|125 on  000W        |
|126 on  000W        |
|127 on  000W        |
|128 on  000W        |
page 128: rows 2 to 7
|worth 127000 000W   |
|128 on  000W        |
page 129: no,5
page 256: no,5
page 4294967297: no,5
''',
    'the most loads, of the greatest power, all off': f'''
{OFF} load,0,500,1000 {'load,1,500,1000 ' * (MAX_LOADS - 1)} plan
page 122: rows 1 to 8
|worth 000000 000W   |
|122 off 500W        |
|123 off 500W        |
|124 off 500W        |
|125 off 500W        |
|126 off 500W        |
|127 off 500W        |
|128 off 500W        |
''',
    # Of the first word loads 1 and 64 are on, of the second one loads 65 and 128.
    'marks around the ends of both words': f'''
{ON_FIRST} load,0,1,9 {'load,1,1,0 ' * (MAX_LOADS - 1)} worth,64,8 worth,65,7 worth,128,6 budget,4 plan
page 61: rows 1 to 8
|worth 000030 004W   |
|061 off 001W        |
|062 off 001W        |
|063 off 001W        |
|064 on  001W        |
|065 on  001W        |
|066 off 001W        |
|067 off 001W        |
page 124: rows 2 to 8
|worth 000030 004W   |
|124 off 001W        |
|125 off 001W        |
|126 off 001W        |
|127 off 001W        |
|128 on  001W        |
budget,2 plan
page 124: rows 1 to 6
|worth 000017 002W   |
|124 off 001W        |
|125 off 001W        |
|126 off 001W        |
|127 off 001W        |
|128 off 001W        |
page 59: rows 2 to 8
|worth 000017 002W   |
|059 off 001W        |
|060 off 001W        |
|061 off 001W        |
|062 off 001W        |
|063 off 001W        |
|064 on  001W        |
|065 off 001W        |
''',
    # Worths around those that five digits and 16 binary digits hold.
    'the last digit of the worth': f'''
{ALL_ON} {' '.join(RICHEST)} {' '.join('drop,%d' % k for k in range(MAX_LOADS, 100, -1))} worth,1,999 plan
page 100: rows 1 to 8
|worth 099999 000W   |
|100 on  000W        |
worth,1,1000 plan
page 100: rows 1 to 1
|worth 100000 000W   |
|100 on  000W        |
{' '.join('drop,%d' % k for k in range(100, 66, -1))} worth,1,535 plan
page 66: rows 1 to 2
|worth 065535 000W   |
|066 on  000W        |
worth,1,536 plan
page 66: rows 1 to 1
|worth 065536 000W   |
|066 on  000W        |
''',
}.items()}
