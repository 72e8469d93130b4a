#!/usr/bin/env python3
"""Lines a second through the line program, by pipe in and pipe out, for the cabinet of paper 01 with 4 loads, and for one of 64 loads and one of
the most loads that each take all of the line program's cells.

  lines.py PROGRAM

Every line's answer is held to the paper's before a time is printed. The best of several rounds counts.
"""
import resource
import subprocess
import sys
import threading
import time
from collections import namedtuple

ROUNDS = 7

BOOK = ('book,2,2', 'start,1', 'start,2', 'end,1', 'end,2', 'rule,1,0,2', 'rule,1,1,1', 'rule,2,0,2', 'row,1,1,1', 'row,2,2,2')
CABINET = (*BOOK, 'load,0,10,0', 'load,1,15,40', 'load,1,5,30', 'load,2,7,50', 'budget,30')
RUN = ('1,1,1,2,0', '2,1,1,2,1', '3,1,1,2,1', '4,0,1,1,1')
PLAN = ('plan,70,30,3', *RUN)
YES = ('yes', *RUN)

# A cabinet: its name, the lines that enter it, its plan, how many lines of a kind are timed, and for each kind the lines that are repeated,
# each with its answer. Before them a plan is asked for once.
Cabinet = namedtuple('Cabinet', 'name lines plan count kinds')


def large(loads, budget):
    """A feed and cameras of worth 1, as many of them of 1 W as the budget has watts, and the others of none: all are on."""
    cameras = loads - 1
    lines = *BOOK, 'load,0,0,0', *budget * ('load,1,1,1',), *(cameras - budget) * ('load,1,0,1',), 'budget,%d' % budget
    rows = '1,1,1,2,0', *('%d,1,1,2,1' % k for k in range(2, loads + 1))
    plan = 'plan,%d,%d,%d' % (cameras, budget, loads), *rows
    return Cabinet('%d loads, budget %d' % (loads, budget), lines, plan, 6000, {
        'changes': (
            ('budget,%d' % (budget - 1), 'ok'), ('power,2,2', 'ok'), ('worth,3,2', 'ok'),
            ('budget,%d' % budget, 'ok'), ('power,2,1', 'ok'), ('worth,3,1', 'ok'),
        ),
        'check': (('check,' + '1' * loads, 'yes', *rows), ('check,0' + '1' * cameras, 'no,10')),
        'plan': (('plan', *plan),),
        'last': (('last', *plan),),
        'need': (('need,%d' % cameras, 'need,%d' % budget),),
    })


CABINETS = (
    Cabinet('4 loads, budget 30', CABINET, PLAN, 120000, {
        'changes': (
            ('budget,31', 'ok'), ('power,2,14', 'ok'), ('worth,3,29', 'ok'), ('budget,30', 'ok'), ('power,2,15', 'ok'), ('worth,3,30', 'ok'),
        ),
        'check': (('check,1110', *YES), ('check,0100', 'no,10')),
        'plan': (('plan', *PLAN),),
        'last': (('last', *PLAN),),
        'need': (('need,70', 'need,30'),),
    }),
    large(64, 63),
    large(128, 31),
)


def text(lines):
    return ''.join(line + '\n' for line in lines).encode()


def given_and_answer(cabinet, kind):
    """The input of a kind and the output that the paper gives for it."""
    turns = cabinet.count // len(kind)
    given = text((*cabinet.lines, 'plan')) + text(line for line, *_ in kind) * turns
    answer = text('ok' for _ in cabinet.lines) + text(cabinet.plan) + text(line for _, *answer in kind for line in answer) * turns
    return given, answer


def feed(stream, given):
    with stream:
        stream.write(given)


def run(program, given):
    """The output, and the seconds by the clock and of processor time."""
    used = resource.getrusage(resource.RUSAGE_CHILDREN)
    began = time.monotonic()
    with subprocess.Popen([program], stdin=subprocess.PIPE, stdout=subprocess.PIPE) as process:
        writer = threading.Thread(target=feed, args=(process.stdin, given))
        writer.start()
        out = process.stdout.read()
        writer.join()
    clock = time.monotonic() - began
    now = resource.getrusage(resource.RUSAGE_CHILDREN)
    return out, clock, now.ru_utime + now.ru_stime - used.ru_utime - used.ru_stime


def best_times(program, cabinet):
    """The best time of each kind, by the clock and of processor time, or None where an answer is not the paper's."""
    inputs = {name: given_and_answer(cabinet, kind) for name, kind in cabinet.kinds.items()}
    best = {name: (float('inf'), float('inf')) for name in inputs}
    for name in list(inputs) * ROUNDS:
        given, answer = inputs[name]
        out, clock, processor = run(program, given)
        if out != answer:
            return None
        best[name] = min(best[name][0], clock), min(best[name][1], processor)
    return best


def main():
    for cabinet in CABINETS:
        print('\nLines a second through the line program, %s, %d lines, best of %d rounds' % (cabinet.name, cabinet.count, ROUNDS))
        best = best_times(sys.argv[1], cabinet)
        if best is None:
            print('answers differ')
            return 1
        for name, (clock, processor) in best.items():
            figures = name, cabinet.count / clock, 1e6 * processor / cabinet.count
            print('%-8s %8.0f by the clock; %.2f microseconds of processor time a line' % figures)
    return 0


if __name__ == '__main__':
    sys.exit(main())
