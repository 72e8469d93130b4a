"""Needs, planned for: "the least budget, at most the one in force, whose plan has worth v or more" (request Nine of paper 02).

Another process makes the changes of the session, and is asked for plans where that was asked for a need: at the budget in force, at the one that
was shown and at a watt less. In the place of one need of a session it is asked for the plan at every budget.
"""
from collections import namedtuple
from itertools import islice

from model import EFFECTS, Model
from texts import grouped  # of tests/, which model.py put on the path

EVERY = 60  # a need is planned for at every budget if the one in force is not greater

Need = namedtuple('Need', 'worth budget answer')  # what was asked for, the budget in force, and the line printed


def steps_in(session, parts):
    """Each accepted change of a session, as its line, and each need that the tables do not refuse."""
    model = Model()
    for line, part in zip(session, parts):
        number, word, values = model.take(line)
        if number == 0 and word in EFFECTS:
            yield line
        elif number == 0 and word == b'need':
            yield Need(values[0], model.budget, part[0].decode())


def shown(need):
    """The budget that is shown for a need, or None."""
    return int(need.answer[len('need,'):]) if need.answer.startswith('need,') else None


def budgets_of(need, every):
    """The budgets at which a need is planned for."""
    least = need.budget if shown(need) is None else shown(need)
    return list(range(need.budget + 1)) if every else sorted({max(0, least - 1), least, need.budget})


def asking(need, budgets):
    """The lines that ask for the plans at budgets, and leave the one in force."""
    return [line for budget in budgets for line in (b'budget,%d' % budget, b'plan')] + [b'budget,%d' % need.budget]


def worth_in(answer):
    """The worth of a plan that is shown, or None where no allowed set fits."""
    return None if answer == ['no,9'] else int(answer[0].split(',')[1])


def fault(need, worths):
    """What should have been answered to a need, or None if it was, given the worths of the plans at some budgets, the one in force among them."""
    in_force, least = worths[need.budget], shown(need)
    if in_force is None or in_force < need.worth:
        wanted = 'no,9' if in_force is None else 'no,15'
        return None if need.answer == wanted else wanted
    if least is None or least > need.budget:
        return 'a budget up to %d' % need.budget
    does = {budget for budget, worth in worths.items() if worth is not None and worth >= need.worth}
    return None if least in does and min(does) == least else 'the least budget, by plans of %s' % worths


# Needs with the worths of plans by which they are answered rightly, and such by which they are not, each in one place.
PLANS = {0: 0, 14: 0, 15: 30, 29: 40, 30: 70, 37: 120}
LATE = {4: None, 5: 30, 7: 50}
RIGHT = {
    'the least budget': (Need(70, 37, 'need,30'), PLANS),
    'the budget in force': (Need(120, 37, 'need,37'), PLANS),
    'no worth': (Need(0, 37, 'need,0'), PLANS),
    'no worth, and no plan below': (Need(0, 7, 'need,5'), LATE),
    'more than the plan is worth': (Need(121, 37, 'no,15'), PLANS),
    'no allowed set': (Need(9, 4, 'no,9'), {4: None}),
}
WRONG = {
    'the greatest budget': (Need(70, 37, 'need,37'), PLANS),
    'a watt more than the least': (Need(70, 37, 'need,31'), {**PLANS, 31: 70}),
    'a watt less than the least': (Need(70, 37, 'need,29'), PLANS),
    'the first budget with a plan': (Need(70, 37, 'need,0'), PLANS),
    'a budget with no plan': (Need(0, 7, 'need,4'), LATE),
    'more than the worth': (Need(30, 37, 'need,29'), PLANS),
    'a budget above the one in force': (Need(70, 30, 'need,37'), PLANS),
    'refused though the plan has just the worth': (Need(120, 37, 'no,15'), PLANS),
    'no set though some fit': (Need(70, 37, 'no,9'), PLANS),
    'a budget though the plan is worth less': (Need(121, 37, 'need,37'), PLANS),
    'no set though the plan is worth less': (Need(121, 37, 'no,9'), PLANS),
    'a plan worth less though there is none': (Need(9, 4, 'no,15'), {4: None}),
    'a budget though there is no plan': (Need(0, 4, 'need,4'), {4: None}),
}


def untold():
    """The answers that are taken for what they are not: those that are right for wrong, and those that are wrong for right."""
    return [name for name, case in RIGHT.items() if fault(*case)] + [name for name, case in WRONG.items() if not fault(*case)]


def compared(ask, session, parts):
    """How many needs of a session were planned for, in another process, how many of them at every budget, and the first fault, or None."""
    steps = list(steps_in(session, parts))
    fully = next((step for step in steps if isinstance(step, Need) and step.budget <= EVERY), None)
    budgets = [budgets_of(step, step is fully) if isinstance(step, Need) else None for step in steps]
    asked = [asking(step, found) if found else [step] for step, found in zip(steps, budgets)]
    answers = iter(grouped(line.decode() for line in ask([line for lines in asked for line in lines])))
    for step, found, lines in zip(steps, budgets, asked):
        got = list(islice(answers, len(lines)))
        wrong = fault(step, dict(zip(found, map(worth_in, got[1::2])))) if found else None if got == [['ok']] else 'ok'
        if wrong:
            return {}, '%s: expected %s' % (step, wrong)
    return {'needs': sum(map(bool, budgets)), 'every budget': fully is not None}, None
