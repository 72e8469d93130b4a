#!/usr/bin/env python3
"""The report that planner_tests has to write on its script (script.py), worked out without the product.

  expected.py < crates/planner_tests/stdin > REPORT

The report has every step but `call`, `judge`, `page`, `most` and `steps` as it stands. A call is one line of it, and the rest of the answer's lines:

    LINE | NUMBER COUNT | B bytes kept, Z cells 0, C kept | ANSWER

Before each call output and work are full of rubbish, in bytes and cells that no answer and no plan leaves: so if B is what the answer leaves
of the output, every other byte holds what it held, and likewise of the cells but for Z. A run is one line, `judge N N ..: VERDICT`. A page is
one line too, and, where it was drawn, the rows of the glass with the stretch on it:

    page LOAD BYTES | NUMBER | B bytes kept | row ROW, COUNT bytes

A portion is one line as a call is, with the counts of cells filled and of bytes written, and the cells that it filled. Of its work, which the next
portion goes on with, Z and C count the cells that hold 0 and rubbish:

    most N | NUMBER FILLED COUNT | CELL CELL .. | B bytes kept, Z cells 0, C kept | ANSWER

A changeover is one line, with the places that hold no step, of as many as there may be loads:

    steps OLD NEW PLACES | NUMBER COUNT | LOAD,MARK LOAD,MARK .. | P places unused
"""
import sys
from array import array

from changeovers import steps_in
from limits import MAX_LOADS, PAGE_BYTES, PAGE_ROWS, STEP_BYTES
from pages import cut
from portions import CELL_BYTES, holds
from script import RUBBISH_CELL, Script

# The whole output, work and bytes to draw on, of which a part is lent.
ALL_BYTES = 4200
ALL_CELLS = 620
ALL_DRAWN_ON = 200


class Report(Script):
    """The report on the steps so far."""

    def __init__(self):
        super().__init__()
        self.text = []

    def told(self, line):
        self.text.append(line + '\n')

    def called(self, p, lent, line, reply, every):
        if every or reply.number != 0:
            answer = ''.join(line + '\n' for line in reply.lines)
            kept = ALL_BYTES - len(answer), reply.zero_cells, ALL_CELLS - reply.zero_cells
            head = line.decode(), reply.number, len(answer), *kept
            self.text.append('%s | %d %d | %d bytes kept, %d cells 0, %d kept | ' % head + (answer or '\n'))

    def judged(self, p, run, verdict):
        self.text.append(' '.join(['judge', *map(str, run)]) + ': ' + verdict + '\n')

    def paged(self, asked, drawn, stretch, glass):
        number, (_, count, row) = drawn[0], stretch
        kept = ALL_DRAWN_ON - (0 if number else PAGE_BYTES)
        self.text.append('page %d %d | %d | %d bytes kept | row %d, %d bytes\n' % (asked.load, len(asked.page), number, kept, row, count))
        if number == 0:
            self.text += [cut(glass, row).decode() + '\n' for row in range(PAGE_ROWS)]

    def portioned(self, p, asked):
        if asked.tables and not holds(asked):
            sys.exit('a portion whose cells would be left free: most %d' % asked.most)
        done = super().portioned(p, asked)
        cells = array('I', (done.work + self.work[len(done.work):]).ljust(CELL_BYTES * ALL_CELLS, RUBBISH_CELL[:1]))
        filled = ''.join(' %d' % cell for cell in cells[p.filled:p.filled + done.filled])
        answer = done.output[asked.place:asked.place + done.count].decode()
        kept = ALL_BYTES - len(answer), cells.count(0), cells.count(int.from_bytes(RUBBISH_CELL, 'little'))
        self.text.append('most %d | %d %d %d |%s | %d bytes kept, %d cells 0, %d kept | ' % (asked.most, *done[:3], filled, *kept) + (answer or '\n'))
        return done

    def switched(self, asked, done):
        sets, places = (asked.old.decode(), asked.new.decode()), len(asked.list) // STEP_BYTES
        steps = ''.join(' %d,%d' % step for step in steps_in(done.list, done.count))
        self.text.append('steps %s %s %d | %d %d |%s | %d places unused\n' % (*sets, places, *done[:2], steps, MAX_LOADS - done.count))


def main():
    report = Report()
    report.follow(sys.stdin.read())
    sys.stdout.write(''.join(report.text))


if __name__ == '__main__':
    main()
