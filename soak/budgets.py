"""Plans asked for again with other budgets, as far as that needs no planning.

A plan is of greatest worth and, of that worth, of least power (request Four of paper 02). So with a budget of just its power it is the plan
again, line for line, and with a watt less there is no plan of that worth.
"""
from itertools import islice

from model import Model
from texts import grouped  # of tests/, which model.py put on the path

MOST = 20  # plans of a session that are asked for again, at most


def figures(plan):
    """The worth and the power of a plan that is shown."""
    return [int(field) for field in plan[0].split(',')[1:3]]


def plans_in(session, parts):
    """Each plan that a session shows, with the lines that enter its tables, all but the budget."""
    model = Model()
    for line, part in zip(session, parts):
        model.take(line)
        if part[0].startswith(b'plan,'):
            yield model.saved()[:-1], [line.decode() for line in part]


def asking(entering, power):
    """The lines that ask for the plan with this budget, and with a watt less if it is not 0."""
    return entering + [b'budget,%d' % power, b'plan', b'budget,%d' % max(0, power - 1), b'plan']


def fault(plan, answers):
    """What is wrong with the answers to such lines, where this plan was shown, or None."""
    if len(answers) < 3:
        return 'an answer to each line'
    worth, power = figures(plan)
    *taken, again, lowered, less = answers
    if any(answer != ['ok'] for answer in [*taken, lowered]):
        return 'a save that is taken'
    if again != plan:
        return 'the same plan with a budget of %d' % power
    is_less = less == ['no,9'] or less[0].startswith('plan,') and figures(less)[0] < worth
    return None if is_less or power == 0 else 'a plan worth less than %d with a budget of %d' % (worth, power - 1)


# A plan with the answers to such lines that are right of it, and answers that are wrong on purpose, each in one place.
CAMERA = ['plan,20,6,2', '1,1,1,2,0', '2,1,1,2,1', '3,0,1,1,1']
RIGHT = [['ok'], CAMERA, ['ok'], ['plan,0,0,0', '1,0,1,1,0', '2,0,2,3,2', '3,0,2,3,2']]
WRONG = {
    'no answers to plans': [],
    'a line of a save refused': [['no,5'], *RIGHT[1:]],
    'no plan with a budget of its power': [RIGHT[0], ['no,9'], *RIGHT[2:]],
    'another set of that worth and power': [RIGHT[0], ['plan,20,6,2', '1,1,1,2,0', '2,0,1,1,1', '3,1,1,2,1'], *RIGHT[2:]],
    'a watt less refused': [*RIGHT[:2], ['no,5'], RIGHT[3]],
    'that worth with a watt less': [*RIGHT[:3], ['plan,20,5,2', *CAMERA[1:]]],
    'more worth with a watt less': [*RIGHT[:3], ['plan,21,5,2', *CAMERA[1:]]],
}


def untold():
    """The answers that are taken for what they are not: those that are right for wrong, and those that are wrong for right."""
    found = [name for name, answers in WRONG.items() if not fault(CAMERA, answers)]
    return ['right answers', *found] if fault(CAMERA, RIGHT) else found


def compared(ask, session, parts):
    """How many plans of a session were asked for again, of another process, and the first fault, or None."""
    plans = list(plans_in(session, parts))[:MOST]
    asked = [asking(entering, figures(plan)[1]) for entering, plan in plans]
    answers = iter(grouped(line.decode() for line in ask([line for lines in asked for line in lines])))
    for (_, plan), lines in zip(plans, asked):
        wrong = fault(plan, list(islice(answers, len(lines))))
        if wrong:
            return len(plans), '%s: expected %s' % (plan[0], wrong)
    return len(plans), None
