#!/usr/bin/env python3
"""Scripts of tests (script.py) through the library as firmware links it.

  scriptcheck.py LIBRARY.so SCRIPT..

Compared are the number, the count, every byte of the output, every cell of the work and every field of the planner after each call and each
portion, the judge's answer on each run, number, page, stretch and glass of each drawing, and number, count and list of each changeover. Which
planners were turned away, in calls, by the judge, in drawings, in portions and in changeovers, must tell the limits of kinds, of the most loads, of a
stored outcome and of filled cells from such as are wrong on purpose (wrong_limits.py).
The last line is 'N passed, M failed'.
"""
import argparse
import sys
from pathlib import Path
from urllib.parse import unquote_to_bytes

from library import Library, Planner, content_with, held
from limits import NOT_A_RUN, NUMBERS, PAGE_BYTES
from pages import put
from portions import Done
from script import RUBBISH_BYTE, RUBBISH_CELL, Script, stored
from wrong_limits import WRONG, keeps

VERDICTS = {'yes': 0, 'no': NOT_A_RUN}
TURNED_AWAY = NUMBERS['TURNED_AWAY']


def note(handed_in, p, away):
    """Adds a planner that was handed in, with whether it was turned away, if it is not the latest one with the same."""
    if not handed_in or handed_in[-1][0] is not p or handed_in[-1][1] != away:
        handed_in.append((p, away))


class Compared(Script):
    """The library's answers beside those that the script works out."""

    def __init__(self, library):
        super().__init__()
        self.library = library
        self.passed = self.failed = 0
        # planners, each with whether it was turned away by itself
        self.called_with, self.judged_with, self.drawn_with, self.portioned_with, self.switched_with = [], [], [], [], []

    def line_of(self, word):
        return unquote_to_bytes(word)

    def compare(self, what, got, want):
        self.passed += got == want
        self.failed += got != want
        if got != want and self.failed <= 5:
            print('DIFFERS: %s: %r, not %r' % (what, got, want))

    def called(self, p, lent, line, reply, every):
        planner = Planner(self.library, content_with(p))
        text = ''.join(line + '\n' for line in reply.lines).encode()
        output, work = RUBBISH_BYTE * lent.size, RUBBISH_CELL * lent.cells
        want_output = output[:lent.place] + text + output[lent.place + len(text):]
        want_work = bytes(4 * reply.zero_cells) + work[4 * reply.zero_cells:]
        got = planner.call(line, output, lent.place, work)
        if lent.has_room(line):
            note(self.called_with, p, got[0] == TURNED_AWAY)
        self.compare(line, got, (reply.number, len(text), want_output, want_work))
        self.compare('the planner after %r' % line, vars(held(planner.state.content())), vars(reply.planner))

    def judged(self, p, run, verdict):
        got = Planner(self.library, content_with(p)).judge(run)
        note(self.judged_with, p, got == TURNED_AWAY)
        self.compare('judge %r' % run, got, VERDICTS[verdict] if verdict in VERDICTS else int(verdict))

    def paged(self, asked, drawn, stretch, glass):
        number, page = Planner(self.library, content_with(asked.p)).draw(asked.load, asked.page)
        start, count, row = self.library.stretch(self.glass, page)
        shown = self.glass if number else put(self.glass, row, page[start:start + count])
        if len(page) == PAGE_BYTES:
            note(self.drawn_with, asked.p, number == TURNED_AWAY)
        what = 'page %d %d' % (asked.load, len(asked.page))
        self.compare(what, ((number, page), (start, count, row), shown), (drawn, stretch, glass))

    def portioned(self, p, asked):
        planner = Planner(self.library, content_with(p))
        got = Done(*planner.portion(*asked[1:]), held(planner.state.content()))
        want = self.portions.done(asked, got)
        if self.portions.has_room(asked):
            note(self.portioned_with, p, got.number == TURNED_AWAY)
        self.compare('most %d' % asked.most, got[:-1], want[:-1])
        self.compare('the planner after most %d' % asked.most, vars(got.tables), vars(stored(want.tables) if want.tables else p))
        return want

    def switched(self, asked, done):
        got = Planner(self.library, content_with(asked.p)).changeover(asked.old, asked.new, asked.list)
        note(self.switched_with, asked.p, got[0] == TURNED_AWAY)
        self.compare('steps %r %r' % (asked.old, asked.new), got, done)


def told_apart(limits, handed_in):
    """Was some planner turned away though it keeps these limits, or the other way round?"""
    return any(keeps(p, limits) == away for p, away in handed_in)


def untold(scripts):
    """The wrong limits that the calls, the judge, the drawings, the portions or the changeovers do not tell apart."""
    names = 'called_with', 'judged_with', 'drawn_with', 'portioned_with', 'switched_with'
    sorts = [[one for s in scripts for one in getattr(s, name)] for name in names]
    return [limits.__name__ for limits in WRONG if not all(told_apart(limits, handed_in) for handed_in in sorts)]


def main():
    options = argparse.ArgumentParser()
    options.add_argument('library')
    options.add_argument('scripts', nargs='+', type=Path)
    args = options.parse_args()
    library, scripts = Library(args.library), []
    for path in args.scripts:
        scripts.append(Compared(library))
        scripts[-1].follow(path.read_text())
    missed = untold(scripts)
    for name in missed:
        print('%s: not told apart' % name)
    passed, failed = sum(script.passed for script in scripts), sum(script.failed for script in scripts)
    print('%d comparisons, and %d wrong limits, of which %d are told apart' % (passed + failed, len(WRONG), len(WRONG) - len(missed)))
    print('%d passed, %d failed' % (passed + len(WRONG) - len(missed), failed + len(missed)))
    return 1 if failed or missed or not passed else 0


if __name__ == '__main__':
    sys.exit(main())
