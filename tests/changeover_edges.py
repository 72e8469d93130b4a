"""Changeovers by name, as request Twelve of paper 02 has them, written by hand.

Each is a session of a fresh planner. A line of its text is one of these:

    LINE LINE ..               lines for the planner
    with CHANGE and CHANGE ..  the changeovers that follow, up to the next lines, are of the planner with changes from outside (script.py)
    OLD to NEW: -A .. +B ..    from one set to another load A goes off, and load B goes on, in this order
    OLD to NEW: stays          there are no steps
    OLD to NEW: no,N           it is refused with N
    OLD to NEW in P: ..        the same with a list of P places; without it there are just as many as steps, or, for a refusal, as there may be loads

In a set `%` and two digits of base 16 stand for a byte, and `''` is a set of no bytes.
"""
import re
from collections import namedtuple
from urllib.parse import unquote_to_bytes

from edges import ALL_ON, TOGETHER, WORKED, marked
from limits import MAX_BUDGET, MAX_LOADS, MAX_POWER, WORD_LOADS

# A changeover of a session: the lines and the changes before it, the sets, the places of the list, the number and the steps.
Edge = namedtuple('Edge', 'lines changes old new places number steps')
HEAD = re.compile(r'(\S+) to (\S+?)(?: in (\d+))?: (?:no,(\d+)|stays|((?:[-+]\d+ ?)+))')


def set_of(word):
    return b'' if word == "''" else unquote_to_bytes(word)


def edge(lines, changes, line):
    old, new, places, number, words = HEAD.fullmatch(line).groups()
    steps = [(int(word[1:]), int(word[0] == '+')) for word in (words or '').split()]
    fitting = MAX_LOADS if number else len(steps)
    return Edge(lines, changes, set_of(old), set_of(new), int(places) if places else fitting, int(number or 0), steps)


def edges(text):
    """The changeovers of a session's text."""
    made, lines, changes = [], [], []
    for line in text.strip().splitlines():
        if line.startswith('with '):
            changes = line[len('with '):].split(' and ')
        elif ' to ' in line:
            made.append(edge(lines, changes, line))
            lines = []
        else:
            lines, changes = lines + line.encode().split(), []
    return made


def off(*loads):
    """The steps of loads that go off, as a text."""
    return ' '.join('-%d' % k for k in loads)


def on(*loads):
    return ' '.join('+%d' % k for k in loads)


# No load, every load, and numbers around the ends of both words.
DARK, BRIGHT = marked(()), marked(range(1, MAX_LOADS + 1))
W, X, L = WORD_LOADS, WORD_LOADS + 1, MAX_LOADS
ALL = range(1, MAX_LOADS + 1)
# Loads of 1 W that all hang on load 1, and such that each hangs on the one before it.
STAR = 'load,0,1,1 ' + 'load,1,1,1 ' * (MAX_LOADS - 1)
CHAIN = ' '.join('load,%d,1,1' % k for k in range(MAX_LOADS))
HALF = marked(range(1, W + 1))
# The worked cabinet draws 10, 15, 5 and 7 W. Loads 2 and 3 hang on load 1, and load 4 on load 2.

EDGES = {name: edges(text) for name, text in {
    'the worked cabinet, from its plan at 30 W to that at 32 W': f'''
{WORKED} budget,32
1110 to 1101: -3 +4
1101 to 1110: -4 +3
1110 to 1101 in 3: -3 +4
1110 to 1101 in {MAX_LOADS}: -3 +4
1110 to 1101 in 1: no,17
1110 to 1101 in 0: no,17
1010 to 1101: -3 +2 +4
1101 to 1010: -4 -2 +3
''',
    # After each step of the other order 37 W would be drawn.
    'one that would trip the supply the other way round': f'''
{WORKED} budget,31
1110 to 1101: no,16
budget,32
1110 to 1101: -3 +4
power,3,7
1110 to 1101: -3 +4
power,3,8
1110 to 1101: no,16
''',
    'everything off to everything on, and back': f'''
{WORKED} budget,37
0000 to 1111: +1 +2 +3 +4
1111 to 0000: -4 -3 -2 -1
0000 to 1111 in 3: no,17
1111 to 0000 in 3: no,17
1111 to 0000 in 5: -4 -3 -2 -1
budget,36
0000 to 1111: no,16
1111 to 0000: no,16
''',
    # "16 looks at both sets, also if they are equal"; else a list of no places will do.
    'equal sets': f'''
{WORKED} budget,30
1110 to 1110: stays
1110 to 1110 in 4: stays
1000 to 1000 in 0: stays
0000 to 0000 in 0: stays
0000 to 0000 in {MAX_LOADS}: stays
1101 to 1101: no,16
1111 to 1111 in 0: no,16
0100 to 0100: no,16
0001 to 0001 in 0: no,16
1121 to 1121: no,5
111 to 111: no,5
''',
    'each set over the budget': f'''
{WORKED} budget,30
1111 to 1110: no,16
1110 to 1111: no,16
1111 to 0000: no,16
0000 to 1111: no,16
1111 to 1101: no,16
1101 to 1100: no,16
1100 to 1101: no,16
1110 to 1100: -3
budget,29
1110 to 1100: no,16
1100 to 1110: no,16
1100 to 1010: -2 +3
''',
    'the budget met to the watt': f'''
{WORKED} budget,25
1100 to 1000: -2
1000 to 1100: +2
1100 to 1010: -2 +3
budget,24
1100 to 1000: no,16
1000 to 1100: no,16
budget,15
1010 to 0000: -3 -1
0000 to 1010: +1 +3
budget,10
1000 to 0000: -1
budget,9
1000 to 0000: no,16
0000 to 1000: no,16
0000 to 0000: stays
''',
    'a load on below one that is off': f'''
{WORKED} budget,500
0100 to 0000: no,16
0000 to 0100: no,16
1001 to 1000: no,16
1000 to 1001: no,16
1011 to 1111: no,16
1111 to 1011: no,16
0111 to 1111: no,16
1111 to 0111: no,16
0010 to 0000: no,16
1101 to 1111: +3
1111 to 1101: -3
''',
    # Load 1 has parent 0, and nothing has to be on for it.
    'load 1 alone': f'''
{WORKED} budget,10
0000 to 1000: +1
1000 to 0000: -1
1000 to 1000: stays
clear load,0,3,3 budget,3
0 to 1: +1
1 to 0: -1
1 to 0 in 0: no,17
0 to 0: stays
1 to 1: stays
budget,2
0 to 1: no,16
1 to 0: no,16
1 to 1: no,16
0 to 0: stays
''',
    # Power and parent each refuse by themselves.
    'loads of no power': f'''
load,0,0,0 load,1,0,0 load,2,0,0
000 to 111: +1 +2 +3
111 to 000: -3 -2 -1
011 to 000: no,16
000 to 001: no,16
101 to 111: no,16
111 to 101: no,16
110 to 100: -2
power,3,1
110 to 111: no,16
111 to 111: no,16
110 to 000: -2 -1
''',
    'a load stays on while its siblings go and come': f'''
load,0,1,1 load,1,2,1 load,1,3,1 load,1,4,1 load,3,5,1 load,2,1,1 budget,11
101010 to 110100: -5 -3 +2 +4
110100 to 101010: -4 -2 +3 +5
110001 to 101000: -6 -2 +3
101000 to 110001: -3 +2 +6
110101 to 111000: -6 -4 +3
111000 to 110101: -3 +4 +6
110001 to 100100: -6 -2 +4
111000 to 111001: +6
111001 to 111011: no,16
''',
    # The lowest number that applies.
    'a planner that breaks a limit': f'''
with filled 1
'' to '': no,1
1 to 0 in 0: no,1
{WORKED} budget,30
with budget 501
1110 to 1100: no,1
1110 to 1100 in 0: no,1
111 to 1100: no,1
1110 to 112: no,1
1110 to 0100: no,1
1111 to 1110: no,1
'' to '' in 0: no,1
1110 to 1110 in 0: no,1
with filled 496
1110 to 1100: -3
with filled 497
1110 to 1100: no,1
with status 3
1110 to 1100: no,1
with set 1
1110 to 1100: no,1
with run at place 127: 0 0 1
1110 to 1100: no,1
with load at place 3: 4 7 50
1110 to 1100: no,1
with load at place 4: 0 0 0 1
1110 to 1100: no,1
with counts 3 2 129
1110 to 1100: no,1
{BRIGHT}1 to {DARK}0: no,1
with counts 3 2 3
1110 to 1100: no,1
110 to 100: no,1
with rubbish
1110 to 1100: no,1
'' to '' in 0: no,1
with rule of sort 1 at place 0: 3 0 2
1110 to 1100: no,1
with rule of sort 2 at place 31: 0 0 0 1
1110 to 1100: no,1
with budget 500
1110 to 1111: +4
''',
    # "with no loads any sets are 4".
    'no loads': f'''
'' to '': no,4
'' to '' in 0: no,4
1 to 0: no,4
0 to 0 in 0: no,4
1 to 0 in 0: no,4
01 to 2: no,4
%ff to '': no,4
{BRIGHT} to {DARK} in 0: no,4
budget,500 book,8,8
01 to 00: no,4
load,0,1,1
0 to 1: +1
drop,1
0 to 1: no,4
'' to '': no,4
''',
    'sets of another length': f'''
{WORKED} budget,30
'' to 1110: no,5
1110 to '': no,5
'' to '': no,5
'' to '' in 0: no,5
111 to 1110: no,5
1110 to 111: no,5
11100 to 1110: no,5
1110 to 11100: no,5
1110 to 11101: no,5
0 to 0: no,5
{'0' * 260} to 0000: no,5
0000 to {'0' * 260}: no,5
{DARK} to {DARK}: no,5
drop,4
1110 to 110: no,5
110 to 1110: no,5
111 to 110: -3
load,1,0,0
111 to 110: no,5
1110 to 1101: -3 +4
''',
    'bytes that no set has': f'''
{WORKED} budget,30
1112 to 1110: no,5
1110 to 1112: no,5
2110 to 1110: no,5
1110 to 2110: no,5
111%2f to 1110: no,5
1110 to 111%3a: no,5
%01%01%01%00 to 1110: no,5
1110 to %01%01%00%00: no,5
111%00 to 1110: no,5
1110 to 1%010%00: no,5
%b1%b1%b1%b0 to 1110: no,5
1110 to %b1%b1%b1%b0: no,5
111%20 to 1110: no,5
%20110 to 1110: no,5
1110 to 111%ff: no,5
1110 to 11%1a0: no,5
1110 to 11l0: no,5
111O to 1110: no,5
1110 to 110%0a: no,5
''',
    # "both after 4 and 5, 16 first".
    'the order of the refusals': f'''
{WORKED} budget,30
111 to 0100: no,5
0100 to 111: no,5
1111 to 1112: no,5
2000 to 1111: no,5
111 to 0000 in 0: no,5
0000 to 111x in 0: no,5
1111 to '' in 0: no,5
0100 to 0000 in 0: no,16
0000 to 0100 in 0: no,16
1111 to 0000 in 0: no,16
0000 to 1111 in 0: no,16
1110 to 1101 in 0: no,16
1110 to 0000 in 0: no,17
0000 to 1110 in 0: no,17
1110 to 0000 in 2: no,17
0000 to 1110 in 2: no,17
1110 to 0000 in 3: -3 -2 -1
0000 to 1110 in 3: +1 +2 +3
''',
    # A list needs as many places as there are steps, and not as there are loads.
    'the length of the list': f'''
{WORKED} budget,37
1110 to 1111 in 0: no,17
1110 to 1111 in 1: +4
1111 to 1110 in 1: -4
1110 to 1101 in 1: no,17
1110 to 1101 in 2: -3 +4
1111 to 1000 in 2: no,17
1111 to 1000 in 3: -4 -3 -2
1111 to 1000 in 1000: -4 -3 -2
''',
    # "Book and rules play no part": none, one by which every load is on, and one by which the loads that are on hang together; a plan, and refusal 9.
    'books and plans': f'''
load,0,1,1 load,1,1,1 budget,2
11 to 00: -2 -1
10 to 11: +2
{ALL_ON}
11 to 00: -2 -1
00 to 10: +1
plan
00 to 10: +1
11 to 10: -2
budget,1 plan
10 to 00: -1
11 to 10: no,16
clear {TOGETHER} load,0,1,1 load,1,1,1 load,1,1,1 budget,1
000 to 100: +1
010 to 100: no,16
plan
000 to 100: +1
010 to 100: no,16
''',
    # An outcome that was stored, or is handed in, is not looked at but for its range.
    'the latest plan': f'''
{WORKED} budget,30 plan
1110 to 1100: -3
0000 to 1110: +1 +2 +3
with set 15
1110 to 1100: -3
1111 to 1110: no,16
with set 0
1110 to 1100: -3
with set 16
1110 to 1100: no,1
budget,32
1110 to 1101: -3 +4
plan
1101 to 1110: -4 +3
1110 to 1110: stays
''',
    'kinds': f'''
load,0,1,1,3 load,1,1,1,2 load,2,1,1 load,1,1,1,1 budget,3
1110 to 1101: -3 +4
1101 to 1110: -4 +3
1011 to 1001: no,16
''',
    # Load 4 is load 3 then.
    'a load leaves': f'''
{WORKED} budget,32
1110 to 1101: -3 +4
drop,3
1110 to 1101: no,5
100 to 111: +2 +3
111 to 110: -3
101 to 100: no,16
''',
    'the greatest powers': f'''
load,0,{MAX_POWER},0 load,1,{MAX_POWER},0 load,1,0,0 load,1,12,0 budget,{MAX_BUDGET}
0000 to 1000: +1
1000 to 1010: +3
1000 to 1100: no,16
1000 to 1001: no,16
1100 to 1000: no,16
1010 to 0000: -3 -1
power,1,{MAX_POWER - 1} power,2,1
1000 to 1100: +2
1100 to 1001: no,16
power,1,256 power,2,256 power,4,0
1000 to 1100: no,16
1100 to 1001: no,16
budget,256
1000 to 1001: +4
clear load,0,{MAX_POWER},0 {('load,1,%d,0 ' % MAX_POWER) * (MAX_LOADS - 1)} budget,{MAX_BUDGET}
{BRIGHT} to {DARK}: no,16
{DARK} to {BRIGHT}: no,16
{DARK} to {marked((1,))}: +1
{marked((1, L))} to {DARK}: no,16
''',
    'loads around the ends of both words': f'''
{STAR} budget,500
{DARK} to {marked((1, W, X, L))}: {on(1, W, X, L)}
{marked((1, W, X, L))} to {DARK}: {off(L, X, W, 1)}
{marked((1, W))} to {marked((1, X))}: {off(W)} {on(X)}
{marked((1, X))} to {marked((1, W))}: {off(X)} {on(W)}
{marked((1, L))} to {marked((1, 2))}: {off(L)} {on(2)}
{marked((1, 2))} to {marked((1, L))}: {off(2)} {on(L)}
{marked((1, W, L))} to {marked((1, W - 1, X))}: {off(L, W)} {on(W - 1, X)}
{marked((1, L))} to {marked((1,))} in 0: no,17
{marked((1,))} to {marked((1, L))} in 0: no,17
{marked((1,))} to {marked((1, L))} in 1: {on(L)}
{marked((L,))} to {marked((1, L))}: no,16
{marked((1, L))} to {marked((L,))}: no,16
{marked((X,))} to {DARK}: no,16
{DARK} to {marked((W,))}: no,16
{BRIGHT[:-1]} to {DARK}: no,5
{BRIGHT} to {DARK[:-1]}: no,5
{BRIGHT}1 to {DARK}: no,5
{DARK} to {DARK}0: no,5
{DARK[:-1]}2 to {DARK}: no,5
{DARK} to {DARK[:-1]}%01: no,5
{DARK[:W]}2{DARK[X:]} to {DARK}: no,5
''',
    # A load that hangs on one of the other word.
    'parents in both words': f'''
{STAR} {' '.join('drop,%d' % k for k in range(L, W, -1))} load,{W},1,0 load,{X},1,0 load,2,1,0 load,1,1,0 budget,8
{marked((1, W, X), X + 3)} to {marked((1, W), X + 3)}: {off(X)}
{marked((1, W), X + 3)} to {marked((1, W, X, X + 1), X + 3)}: {on(X, X + 1)}
{marked((1, W, X, X + 1), X + 3)} to {marked((1, 2, X + 2), X + 3)}: {off(X + 1, X, W)} {on(2, X + 2)}
{marked((1, X), X + 3)} to {marked((1,), X + 3)}: no,16
{marked((1,), X + 3)} to {marked((1, W, X + 1), X + 3)}: no,16
{marked((1, W, X + 2), X + 3)} to {marked((1,), X + 3)}: no,16
{marked((1, 2), X + 3)} to {marked((1, X + 3), X + 3)}: {off(2)} {on(X + 3)}
''',
    'the most loads, each on the one before it': f'''
{CHAIN} budget,{MAX_LOADS}
{DARK} to {BRIGHT}: {on(*ALL)}
{BRIGHT} to {DARK}: {off(*reversed(ALL))}
{BRIGHT} to {DARK} in {L - 1}: no,17
{DARK} to {BRIGHT} in {L - 1}: no,17
{DARK} to {BRIGHT} in {L + 1}: {on(*ALL)}
{HALF} to {BRIGHT}: {on(*ALL[W:])}
{BRIGHT} to {HALF}: {off(*reversed(ALL[W:]))}
{BRIGHT} to {HALF} in {W - 1}: no,17
{BRIGHT} to {BRIGHT[:-1]}0: {off(L)}
{BRIGHT[:-1]}0 to {BRIGHT}: {on(L)}
{BRIGHT} to 0{BRIGHT[1:]}: no,16
{BRIGHT[:W]}0{BRIGHT[X:]} to {BRIGHT}: no,16
budget,{L - 1}
{BRIGHT} to {DARK}: no,16
{BRIGHT[:-1]}0 to {DARK}: {off(*reversed(ALL[:-1]))}
''',
    'the most loads, one half for the other': f'''
{STAR} budget,{W + 1}
{HALF} to 1{HALF[::-1][1:]}: {off(*range(W, 1, -1))} {on(*range(X, L + 1))}
1{HALF[::-1][1:]} to {HALF}: {off(*range(L, W, -1))} {on(*range(2, X))}
1{HALF[::-1][1:]} to {HALF} in {L - 2}: no,17
budget,{W}
1{HALF[::-1][1:]} to {HALF}: no,16
{HALF} to 1{HALF[::-1][1:]}: no,16
''',
}.items()}
