"""The last plan, asked for anew: it "equals what `plan` with enough cells would print" (request Five of paper 02).

Another process is fed the tables in force, as the model has them, and asked for a plan. It has as many cells as the plan that was stored had.
"""
from itertools import islice

from model import Model
from texts import grouped  # of tests/, which model.py put on the path

MOST = 10  # last plans of a session that are asked for anew, at most


def lasts_in(session, parts):
    """Each last plan that a session shows, refusal 9 too, with the lines that enter its tables."""
    model = Model()
    for line, part in zip(session, parts):
        number, word, _ = model.take(line)
        if word == b'last' and number == 0:
            yield model.saved(), [line.decode() for line in part]


def fault(shown, answers):
    """What is wrong with the answers to the lines that enter the tables, to `last`, to `plan` and to `last`, where this was shown; or None."""
    if len(answers) < 3:
        return 'an answer to each line'
    *taken, before, plan, after = answers
    if any(answer != ['ok'] for answer in taken):
        return 'a save that is taken'
    if before != ['no,12']:
        return 'no current plan before one is asked for'
    if plan != shown:
        return 'the same plan, asked for anew'
    return None if after == plan else 'the plan that was asked for anew, again'


# A last plan with the answers that are right of it, and answers that are wrong on purpose, each in one place.
CAMERA = ['plan,20,6,2', '1,1,1,2,0', '2,0,1,1,1', '3,1,1,2,1']
WARMER = ['plan,20,9,2', '1,1,1,2,0', '2,1,1,2,1', '3,0,1,1,1']
RIGHT = [['ok'], ['no,12'], CAMERA, CAMERA]
WRONG = {
    'no answers': [],
    'a line of the tables refused': [['no,5'], *RIGHT[1:]],
    'a plan that is current too early': [['ok'], CAMERA, CAMERA, CAMERA],
    'refusal 9 in the place of none': [['ok'], ['no,9'], CAMERA, CAMERA],
    'another plan': [['ok'], ['no,12'], WARMER, WARMER],
    'no plan where one was shown': [['ok'], ['no,12'], ['no,9'], ['no,9']],
    'another set under the same figures': [['ok'], ['no,12'], *2 * [[CAMERA[0], *WARMER[1:]]]],
    'no last plan after it': [*RIGHT[:3], ['no,12']],
    'another last plan after it': [*RIGHT[:3], WARMER],
}


def untold():
    """The answers that are taken for what they are not: those that are right for wrong, and those that are wrong for right."""
    found = [name for name, answers in WRONG.items() if not fault(CAMERA, answers)]
    return ['right last plans', *found] if fault(CAMERA, RIGHT) else found


def compared(ask, session, parts):
    """How many last plans of a session were asked for anew, of another process, and the first fault, or None."""
    lasts = list(lasts_in(session, parts))
    lasts = lasts[::max(1, len(lasts) // MOST)][:MOST]
    asked = [[*entering, b'last', b'plan', b'last'] for entering, _ in lasts]
    answers = iter(grouped(line.decode() for line in ask([line for lines in asked for line in lines])))
    for (_, shown), lines in zip(lasts, asked):
        wrong = fault(shown, list(islice(answers, len(lines))))
        if wrong:
            return len(lasts), '%s: expected %s' % (shown[0], wrong)
    return len(lasts), None
