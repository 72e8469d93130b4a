#!/usr/bin/env python3
"""The line program against a plain model of its tables, on random lines, valid and damaged. There is no planning in it, and no page: a page is
drawn by no line (tests/pagecheck.py).

  soak.py PROGRAM [--lines N] [--seed S] [--wrong NAME]

Every answer to a change, every refusal from 2 to 8, every 11, 12 and 14 and every save is compared. Of a plan or a check that the tables do not
refuse, the answer must be 9 or 10, or a run of the set it shows, line for line (shown.py). The last plan must be what was printed for the
latest one, where the model has one stored. Every number that a word can be answered with must come up.
After a drop both saves, a plan with `last` before and after it, a check and a need are asked for. Another process, fed the tree without that
load, must answer the same.
Plans are asked for again, of another process, with a budget of just their power and with a watt less (budgets.py); and where the last plan was
shown, the tables in force are fed to another process, whose plan must be the same (latest.py). The budget that a need shows must be the least by
another process's plans: at it, at a watt less and at the budget in force, and now and then at every budget (needs.py).
Then the same lines are given to models that are wrong on purpose (wrong.py), and each must be told apart from the program.
With --wrong NAME the wrong model takes the right one's place, and the run is to fail.
Answers to plans asked for again and anew, and to needs, that are wrong on purpose must be told apart too.
The last line is 'N passed, M failed': sessions, kinds of answers, wrong models and answers.
"""
import argparse
import random
import subprocess
import sys
import time
from collections import Counter

import budgets
import latest
import lines
import needs
import shown
from model import EFFECTS, Model
from texts import entered_without  # of tests/, which model.py put on the path
from wrong import WRONG

SESSION = 1000  # lines given to one process
FED = 50  # drops of a session, at most, whose trees another process is fed
KEPT = 20  # sessions that the wrong models are given

# The numbers that each word can be answered with, 0 for accepted. A line with no word that counts is answered with 2 or 3.
KINDS = {
    b'clear': (0,), b'book': (0, 5), b'start': (0, 5), b'end': (0, 5), b'rule': (0, 5, 6, 7), b'row': (0, 5, 6, 7), b'load': (0, 5, 6),
    b'power': (0, 5), b'worth': (0, 5), b'budget': (0, 5), b'plan': (0, 4, 8, 9), b'check': (0, 4, 5, 10), b'save': (0,),
    b'save1': (0, 14), b'drop': (0, 5, 11), b'last': (0, 9, 12), b'need': (0, 4, 5, 8, 9, 15), None: (2, 3),
}


def printed_by(program, session, ended):
    """The lines that the program prints for the lines of a session, with or without a last line feed."""
    given = b'\n'.join(session) + (b'\n' if ended else b'')
    out = subprocess.run([program], input=given, stdout=subprocess.PIPE, check=True).stdout
    return out.split(b'\n')


def number_in(answer):
    """The number of a refusal that is printed, 0 for another answer."""
    return int(answer[3:]) if answer.startswith(b'no,') else 0


def expected(model, line, planned):
    """What the model says of a line: its number, its word, its values, and the lines printed, None where that needs planning. What was printed
    for the latest plan is `planned`."""
    number, word, values = model.take(line)
    if number:
        return number, word, values, [b'no,%d' % number]
    if word == b'last':
        return number_in(planned[0]), word, values, planned
    if word in (b'save', b'save1'):
        return number, word, values, model.saved() if word == b'save' else model.saved_before()
    return number, word, values, [b'ok'] if word in EFFECTS else None


def compare(model, session, printed, seen):
    """Counts the answers by word and number; the lines printed for each line, and the first difference, or None."""
    at, parts, planned = 0, [], [b'no plan']
    for line in session:
        number, word, values, answer = expected(model, line, planned)
        if answer is None:
            fault, kind, count = shown.read(model, word, values, printed, at)
            number = number_in(kind)
        else:
            count = len(answer)
            fault = None if printed[at:at + count] == answer else repr(answer)
        parts.append(printed[at:at + count])
        if fault:
            return parts, '%r: expected %s, printed %r' % (line, fault, parts[-1])
        if word == b'plan' and answer is None:
            planned = parts[-1]
        seen[word, number] += 1
        at += count
    return parts, None if printed[at:] == [b''] else 'past the last answer: %r' % printed[at:]


# ---- "A plan after a drop is the plan of a tree entered without that load"

def without(saved, load):
    """The lines of a save for the tree without a load."""
    return [line.encode() for line in entered_without([line.decode() for line in saved], load)]


def drops_in(session):
    """The place of each drop that is accepted and asked about, with the lines that enter the tree without that load."""
    model = Model()
    for at, line in enumerate(session):
        saved = model.saved() if line.startswith(b'drop,') else None
        load = lines.dropped(model.take(line))
        if load and at + len(lines.ASKED) < len(session):
            yield at, without(saved, load)


def fed(ask, session, parts):
    """Feeds the trees without the loads that left to another process: how many, and whether it prints what was printed after the drops."""
    found, given, wanted = list(drops_in(session))[:FED], [], []
    for at, entering in found:
        asked = slice(at + 1, at + 1 + len(lines.ASKED))
        given += entering + session[asked]
        wanted += [b'ok'] * len(entering) + [line for part in parts[asked] for line in part]
    return len(found), ask(given) == wanted


def asked_anew(program, session, parts):
    """How many trees without a load, how many plans, last plans and needs another process was asked about, and what differs, or None."""
    def ask(given):
        return printed_by(program, given, ended=bool(given))[:-1]
    trees, same = fed(ask, session, parts)
    plans, fault = budgets.compared(ask, session, parts)
    lasts, other = latest.compared(ask, session, parts)
    needed, missed = needs.compared(ask, session, parts)
    counts = {'drops': trees, 'plans': plans, 'lasts': lasts, **needed}
    return counts, fault or other or missed if same else 'a tree that was entered without a load that left'


def sessions(args, rng):
    """The lines of each session: a short one of lines that are seldom, and random ones."""
    yield lines.seldom()
    for done in range(0, args.lines, SESSION):
        yield lines.session(rng, Model(), min(SESSION, args.lines - done))


def run_sessions(args, kind):
    """Runs the sessions: how many agree and differ, the answers counted, what was asked anew, and the first sessions with what was printed."""
    rng = random.Random(args.seed)
    agree, differ, seen, asked, kept = 0, 0, Counter(), Counter(), []
    for place, session in enumerate(sessions(args, rng)):
        printed = printed_by(args.program, session, ended=rng.random() < 0.5 or session[-1] == b'')
        parts, difference = compare(kind(), session, printed, seen)
        if difference is None:
            counts, difference = asked_anew(args.program, session, parts)
            asked.update(counts)
        agree += difference is None
        differ += difference is not None
        if difference and differ <= 5:
            print('session %d differs at %s' % (place, difference))
        if len(kept) < KEPT:
            kept.append((session, printed))
    return agree, differ, seen, asked, kept


def answers(seen):
    """Prints the answers by word and number, and tells how many of the kinds came up and how many did not."""
    for word, numbers in KINDS.items():
        name = word.decode() if word else 'no command'
        print('  %-10s  %s' % (name, ', '.join('%s %d' % ('no,%d' % n if n else 'accepted', seen[word, n]) for n in numbers)))
    kinds = {(word, number) for word, numbers in KINDS.items() for number in numbers}
    return len(kinds & set(seen)), len(kinds ^ set(seen))


def told_apart(kept):
    """How many wrong models differ from the program in a kept session, with the wrong answers of budgets.py, latest.py and needs.py; how many do
    not."""
    untold = [name for name, kind in WRONG.items() if not any(compare(kind(), session, printed, Counter())[1] for session, printed in kept)]
    untold += budgets.untold() + latest.untold() + needs.untold()
    for name in untold:
        print('%s: not told apart' % name)
    return len(WRONG) + len(budgets.WRONG) + len(latest.WRONG) + len(needs.WRONG) - len(untold), len(untold)


def main():
    options = argparse.ArgumentParser()
    options.add_argument('program')
    options.add_argument('--lines', type=int, default=20000)
    options.add_argument('--seed', type=int, default=1)
    options.add_argument('--wrong', choices=WRONG)
    args = options.parse_args()
    began = time.monotonic()
    agree, differ, seen, asked, kept = run_sessions(args, WRONG[args.wrong] if args.wrong else Model)
    seconds = time.monotonic() - began
    print('%d lines in %d sessions, seed %d, %d drops compared, %d plans asked for again, %d last plans asked for anew'
          % (args.lines, agree + differ, args.seed, asked['drops'], asked['plans'], asked['lasts']))
    print('%d needs planned for, %d of them at every budget' % (asked['needs'], asked['every budget']))
    print('%d sessions differ; %.1f s' % (differ, seconds))
    present, missing = answers(seen)
    told, untold = told_apart(kept)
    print('%d kinds of answers seen, %d missing; %d wrong models and answers told apart, %d not' % (present, missing, told, untold))
    passed, failed = agree + present + told, differ + missing + untold
    print('%d passed, %d failed' % (passed, failed))
    return 1 if failed else 0


if __name__ == '__main__':
    sys.exit(main())
