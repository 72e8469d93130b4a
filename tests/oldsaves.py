#!/usr/bin/env python3
"""Older saves, and newer ones on an older planner: "An old save, taken in and written with `save1`, comes back byte for byte" (request Eight of
paper 02), "Older saves read as before. A save of more than 64 loads meets refusal 6 at its sixty-fifth load line on a planner as it stood after
request Eight or Nine." (request Ten)

  oldsaves.py PROGRAM [SAVE..]

The saves in tests/saves were written by the line program as it was before kinds, and stay as they are: of a fresh planner, of the cabinet of
paper 01, of a book without loads, of loads without a book, of a cabinet after drops, of one with many cameras, and of the fullest. Those in
tests/saves/kinds were written by it as it was after request Nine, with kinds and with up to 64 loads.
Each is fed to the program twice, first to a planner that has kinds and the most loads. Every line must be taken. Of a save before kinds `save1`
must write the same bytes, and `save` the same lines but for the kind 0 of each load rule and each load; of one with kinds `save` must write the
same bytes, and `save1` them without kinds, or be refused. What `save` writes is fed too, with the same outcome.
Saves of 64 loads and of more that the program writes are given to the oracle with the limits of before request Ten, in the place of the planner as
it stood then.
Oracles that are wrong on purpose are given the same lines, and each must be told apart. The last line is 'N passed, M failed'.
"""
import argparse
import sys
from pathlib import Path

import wrong_oracles as wrong
from crosscheck import NAMED, answered_by, printed
from limits import MAX_KIND, MAX_LOADS, WORD_LOADS
from oracle import Oracle

SAVES = Path(__file__).resolve().parent / 'saves'
WITH_KIND = 'rule,', 'load,'
WRONG = [
    wrong.KindWanted, wrong.SaveWithoutKinds, wrong.SaveWithoutKindNone, wrong.SaveKindsOfRules, wrong.SaveKindsOfLoads, wrong.SaveKindsIfAny,
    wrong.SaveRowKinds, wrong.Save1WithKinds, wrong.Save1Unknown, wrong.Save1OfNoLoads, wrong.EndsFirst, wrong.RowsFirst, wrong.MarksDescend,
    wrong.BookOfNone, wrong.NoBudgetOfNone, wrong.PaddedSave, wrong.KindBarred, wrong.KindNotStored, wrong.KindsDropped, wrong.KindsOfLoadsAlone,
    wrong.KindsOfRulesAlone, wrong.KindsBarSave,
]
SIZES = WORD_LOADS, WORD_LOADS + 1, 100, MAX_LOADS  # the loads of newer saves


# ---- older saves


def has_kinds(saved):
    """Is a save one with kinds? One with neither load rules nor loads is of both forms."""
    return any(line.startswith(WITH_KIND) and line.count(',') == 4 for line in saved)


def with_kinds(saved):
    """The lines of a save before kinds with the kind 0 of each load rule and each load."""
    return [line + ',0' if line.startswith(WITH_KIND) else line for line in saved]


def without_kinds(saved):
    """The lines of a save with kinds as `save1` writes them, or its refusal."""
    kinds = {line.rpartition(',')[2] for line in saved if line.startswith(WITH_KIND)}
    return [line.rpartition(',')[0] if line.startswith(WITH_KIND) else line for line in saved] if kinds <= {'0'} else ['no,14']


def session(saved):
    """The lines that are given for an older save, with those that are to be printed."""
    new = saved if has_kinds(saved) else with_kinds(saved)
    old = without_kinds(saved) if has_kinds(saved) else saved
    asked, shown = ['save1', 'save', 'save1'], [*old, *new, *old]
    return [*saved, *asked, *new, *asked], 2 * (['ok'] * len(saved) + shown)


def differs(ask, saved):
    """Is something else printed for an older save than is to be, by a planner that has kinds and by what is left of it then?"""
    before, answers = NAMED['the fullest cabinet']
    fed, shown = session(saved)
    return ask([*before, *(line.encode() for line in 2 * fed)]) != [line for answer in answers for line in answer] + 2 * shown


def of_oracle(oracle):
    """What a fresh oracle prints for lines."""
    def ask(lines):
        return [line for answer in answered_by(oracle(), lines) for line in answer]
    return ask


# ---- newer saves, on the planner as it stood after request Nine


class AsBefore(wrong.LoadsAsBefore, wrong.LineAsBefore, wrong.DigitsAsBefore, wrong.NeedAsBefore):
    """The oracle with every limit of before request Ten."""


def entered(loads, parent):
    """The lines of a cabinet of so many loads of every kind. Each has the parent that is given for its number."""
    lines = ['book,2,2', 'start,1', 'end,2', 'rule,1,1,2,3', 'row,2,1,2']
    lines += ['load,%d,%d,%d,%d' % (parent(k) if k > 1 else 0, k % 9, k, k % (MAX_KIND + 1)) for k in range(1, loads + 1)]
    return [*lines, 'budget,30']


NEWER = {
    '%d loads in a %s' % (loads, shape): entered(loads, parent)
    for loads in SIZES for shape, parent in (('chain', lambda k: k - 1), ('star', lambda k: 1), ('tree', lambda k: k // 2))}


def expected_before(saved):
    """What the planner as it stood is to answer to each line of a newer save: 6 at the sixty-fifth load line and at each later one whose parent
    is there, 5 where that is not."""
    answers, loads = [], 0
    for line in saved:
        loads += line.startswith('load,')
        if line.startswith('load,') and loads > WORD_LOADS:
            answers.append(['no,6'] if int(line.split(',')[1]) <= WORD_LOADS else ['no,5'])
        else:
            answers.append(['ok'])
    return answers


def newer_differs(ask, lines, before=AsBefore):
    """Is the save of a cabinet, as a program writes it, answered otherwise than it is to be by the planner as it stood, or does that hold other
    loads then than those before the first refusal?"""
    saved = ask([line.encode() for line in ['clear', *lines, 'save']])[len(lines) + 1:]
    old = before()
    answers = answered_by(old, [line.encode() for line in saved])
    loads = [line for line in saved if line.startswith('load,')]
    kept = [line for line in saved if line not in loads[WORD_LOADS:]]
    return saved[1:] != lines or answers != expected_before(saved) or old.save() != kept


def main():
    options = argparse.ArgumentParser()
    options.add_argument('program')
    options.add_argument('saves', nargs='*', type=Path, default=sorted(SAVES.rglob('*.txt')))
    args = options.parse_args()
    saves = {str(path): path.read_text().split('\n')[:-1] for path in args.saves}

    def ask(lines):
        return printed(args.program, lines)
    failed = [name for name, saved in saves.items() if differs(ask, saved)]
    failed += [name + ' by the oracle' for name, saved in saves.items() if differs(of_oracle(Oracle), saved)]
    failed += [oracle.__name__ for oracle in WRONG if not any(differs(of_oracle(oracle), saved) for saved in saves.values())]
    failed += ['a save of ' + name for name, lines in NEWER.items() if newer_differs(ask, lines)]
    failed += [] if any(newer_differs(ask, lines, Oracle) for lines in NEWER.values()) else ['the oracle as it is']
    for name in failed:
        print('DIFFERS, or is not told apart: ' + name)
    print('%d older saves with %d lines, %d newer ones, and %d wrong oracles' % (len(saves), sum(map(len, saves.values())), len(NEWER), len(WRONG)))
    print('%d passed, %d failed' % (2 * len(saves) + len(WRONG) + len(NEWER) + 1 - len(failed), len(failed)))
    return 1 if failed or not saves else 0


if __name__ == '__main__':
    sys.exit(main())
