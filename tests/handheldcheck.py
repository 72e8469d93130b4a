#!/usr/bin/env python3
"""The example of a handheld (examples/handheld.c): what it prints and what its glass shows, against a model over pages.py.

  handheldcheck.py LINE_PROGRAM HANDHELD [--sessions N] [--seed S] [--interrupted LIBRARY]

On the stored session, tests/handheld, whose last cabinet has the most loads, it must print the stored bytes, which the model has too, with answers
by plain enumeration; also where every other read and write is interrupted. The inputs of examples.py, with `page,K` lines among them, must be
answered as the line program answers them, with the rows sent to the glass between the answers. On a terminal the frame must show the same pages,
one row after the other, with its lamp, and the answers must stay below it. Models that are wrong on purpose must be told apart on the stored
session.
The last line is 'N passed, M failed'.
"""
import argparse
import os
import random
import re
import subprocess
import sys
from pathlib import Path

from examples import answers_at_once, endures, inputs, printed
from limits import MAX_DIGITS, MAX_LOADS, NUMBERS, PAGE_BYTES, PAGE_ROWS, ROW_BYTES
from oracle import Oracle
from pages import Asked, Pages, cut, put
from script import Followed, stored
from texts import grouped

STORED = Path('tests/handheld')
SCROLL = re.compile(rb'page,([0-9]{1,%d})' % MAX_DIGITS)
BLANK = b' ' * PAGE_BYTES
EDGE = b'+' + b'-' * ROW_BYTES + b'+'
OUT_OF_RANGE = NUMBERS['OUT_OF_RANGE']


class Handheld:
    """What is printed for lines whose answers are known, and what is sent to the glass and to the lamp: rows, each with its number, and at number
    0 whether the lamp is on."""
    pages = Pages()

    def __init__(self):
        self.followed = Followed()
        self.glass = BLANK
        self.top = 1
        self.lit = False

    def drawn(self, load):
        """The number of the page from a load on, and the page."""
        return self.pages.drawn(Asked(stored(self.followed), True, load, BLANK))

    def scroll(self, load):
        """What is printed for `page,K`."""
        number, _ = self.drawn(load)
        if number == 0:
            self.top = load
        return ['no,%d' % number] if number else []

    def found(self):
        """The number of the page that is to be shown, and the page. It begins with load 1 where the load before has left."""
        if self.drawn(self.top)[0] == OUT_OF_RANGE:
            self.top = 1
        return self.drawn(self.top)

    def send(self, page):
        """The rows of a page that are sent to the glass."""
        start, count, row = self.pages.stretch(self.glass, page)
        self.glass = page
        return [(row + at // ROW_BYTES, page[start + at:start + at + ROW_BYTES]) for at in range(0, count, ROW_BYTES)]

    def is_old(self, number):
        """Is what the glass shows old?"""
        return number != 0 and self.glass != BLANK

    def show(self):
        number, page = self.found()
        sent, lit = [] if number else self.send(page), self.is_old(number)
        turned, self.lit = lit != self.lit, lit
        return sent + [(0, lit)] if turned else sent

    def line(self, line, answer):
        """The lines printed for a line, and what is sent after them."""
        scroll = SCROLL.fullmatch(line)
        if scroll:
            answer = self.scroll(int(scroll.group(1)))
        else:
            self.followed.follow(line, answer)
        return answer, self.show()


# ---- handhelds that are wrong on purpose


class LampNeverLit(Handheld):
    """The lamp is never lit."""

    def is_old(self, number):
        return False


class LampStays(Handheld):
    """The lamp stays lit once it is."""

    def is_old(self, number):
        return self.lit or super().is_old(number)


class LampAtStart(Handheld):
    """The lamp is lit on a blank glass too."""

    def is_old(self, number):
        return number != 0


class LampAtNine(Handheld):
    """The lamp is lit where a plan was refused."""

    def is_old(self, number):
        return super().is_old(number) or self.glass.startswith(b'no plan')


class LampWithoutLoadsOff(Handheld):
    """With no loads nothing is old."""

    def is_old(self, number):
        return super().is_old(number) and number != OUT_OF_RANGE


class OldPageGone(Handheld):
    """An old plan is taken off the glass."""

    def show(self):
        gone = self.send(BLANK) if self.found()[0] else []
        return gone + super().show()


class NineNotShown(Handheld):
    """A plan that was refused leaves the plan before on the glass."""

    def send(self, page):
        return [] if page.startswith(b'no plan') else super().send(page)


class NothingWhereItLeft(Handheld):
    """Where the first load shown has left, nothing more is shown until it is there again."""

    def found(self):
        return self.drawn(self.top)


class LastLoadWhereItLeft(Handheld):
    """Where the first load shown has left, the last one is shown in its place."""

    def found(self):
        self.top = max(1, min(self.top, len(self.followed.loads)))
        return super().found()


class TopAfterChange(Handheld):
    """A change goes back to load 1."""

    def found(self):
        number, page = super().found()
        self.top = 1 if number else self.top
        return number, page


class ScrollsToNone(Handheld):
    """A page that cannot be drawn is scrolled to all the same, once it can."""

    def scroll(self, load):
        answer = super().scroll(load)
        self.top = load
        return answer


class ScrollSaysNothing(Handheld):
    """A page that cannot be drawn is told by nothing."""

    def scroll(self, load):
        return super().scroll(load)[:0]


class ScrollSaysOk(Handheld):
    """A page that can be drawn is told by `ok`."""

    def scroll(self, load):
        return super().scroll(load) or ['ok']


class ScrollByOne(Handheld):
    """`page,K` shows the loads behind load K."""

    def scroll(self, load):
        return super().scroll(load + 1)


class WholePageSent(Handheld):
    """Every row is sent each time."""

    def send(self, page):
        self.glass = page
        return [(row + 1, cut(page, row)) for row in range(PAGE_ROWS)]


class EqualRowsNotSent(Handheld):
    """Rows between that are equal are not sent."""

    def send(self, page):
        glass = self.glass
        return [(row, text) for row, text in super().send(page) if text != cut(glass, row - 1)]


class ScrollNotShown(Handheld):
    """A page that is scrolled to is shown with the next line."""

    def show(self):
        late, self.late = getattr(self, 'late', []), super().show()
        return late


WRONG = Handheld.__subclasses__()


# ---- what is printed, and what is on the terminal


def in_lines(data):
    """The lines of an input, the last one also without its line feed."""
    lines = data.split(b'\n')
    return lines if lines[-1] else lines[:-1]


def by_oracle(lines):
    """What a fresh planner answers to each line; nothing to those that are the handheld's own."""
    oracle = Oracle()
    return [[] if SCROLL.fullmatch(line) else oracle.answer(line) for line in lines]


def by_program(program, lines):
    """What the line program answers to each line; nothing to those that are the handheld's own."""
    told = b''.join(line + b'\n' for line in lines if not SCROLL.fullmatch(line))
    answers = iter(grouped(printed(program, told).decode().split('\n')[:-1]))
    return [[] if SCROLL.fullmatch(line) else next(answers) for line in lines]


def text_of(model, lines, answers):
    """What a model prints, where there is no terminal."""
    text = b''
    for said, sent in (model.line(line, answer) for line, answer in zip(lines, answers)):
        text += b''.join(line.encode() + b'\n' for line in said)
        text += b''.join(b'|%s| %d\n' % (what, number) if number else b'lamp on\n' if what else b'lamp off\n' for number, what in sent)
    return text


def with_scrolls(rng, data):
    """An input with lines of the handheld's own among the others."""
    lines = in_lines(data)
    for _ in range(len(lines) // 8):
        load = rng.choice((0, 1, 1, 2, 3, 4, 5, 9, MAX_LOADS - 6, MAX_LOADS, MAX_LOADS + 1, rng.randint(1, MAX_LOADS), 10**MAX_DIGITS - 1))
        lines.insert(rng.randrange(len(lines) + 1), b'page,' + str(load).zfill(rng.choice((1, 1, 3, MAX_DIGITS, MAX_DIGITS + 1))).encode())
    return b'\n'.join(lines) + rng.choice((b'', b'\n'))


class Terminal:
    """As much of a terminal as the example needs: text, where the cursor goes, and which rows scroll. `frames` are the frames that it has shown,
    one for each time that the cursor came back."""
    ROWS, COLUMNS = 24, 80
    CODE = re.compile(rb'\x1b(?:([78])|\[([0-9;]*)([A-Za-z]))|([^\x1b])', re.S)

    def __init__(self, data):
        self.rows = [bytearray(b' ' * self.COLUMNS) for _ in range(self.ROWS)]
        self.at, self.kept, self.first, self.frames = (0, 0), None, 0, []
        for code in self.CODE.finditer(data):
            self.obey(*code.groups())

    def frame(self):
        return [bytes(row).rstrip() for row in self.rows[:PAGE_ROWS + 3]]

    def obey(self, keep, numbers, command, byte):
        if keep == b'7':
            self.kept = self.at
        elif keep == b'8':
            self.at = self.kept
            self.frames.append(self.frame())
        elif command == b'H':
            row, column = ([int(number or 1) for number in numbers.split(b';')] + [1])[:2]
            self.at = min(row, self.ROWS) - 1, column - 1
        elif command == b'r':
            self.first, self.at = int(numbers or 1) - 1, (0, 0)
        elif byte == b'\r':
            self.at = self.at[0], 0
        elif byte == b'\n':
            self.feed()
        elif byte:
            row, column = self.at
            self.rows[row][column] = byte[0]
            self.at = row, column + 1

    def feed(self):
        row, column = self.at
        if row == self.ROWS - 1:
            del self.rows[self.first]
            self.rows.append(bytearray(b' ' * self.COLUMNS))
        self.at = min(row + 1, self.ROWS - 1), column


def on_terminal(program, data):
    """What a program writes to a terminal, given no more than a pipe holds."""
    master, slave = os.openpty()
    with subprocess.Popen([program], stdin=subprocess.PIPE, stdout=slave) as running:
        os.close(slave)
        running.stdin.write(data)
        running.stdin.close()
        written = b''
        try:
            while True:
                written += os.read(master, 4096)
        except OSError:  # the program has ended
            os.close(master)
    return written


def framed(glass, lit):
    """The rows of the frame around a glass, and the one below it."""
    return [b'+-- old -------------+' if lit else EDGE, *(b'|%s|' % cut(glass, row) for row in range(PAGE_ROWS)), EDGE, b'']


def right_on_terminal(program, lines, answers):
    """Does the frame show what is sent, row after row and turn after turn, and do the answers stay below it?"""
    model, glass, frames = Handheld(), BLANK, [framed(BLANK, False)]
    said = [model.line(line, answer) for line, answer in zip(lines, answers)]
    for number, what in [one for _, sent in said for one in sent]:
        glass, lit = (put(glass, number, what), frames[-1][0] != EDGE) if number else (glass, what)
        frames.append(framed(glass, lit))
    terminal = Terminal(on_terminal(program, b'\n'.join(lines)))
    printed_last = [line.encode() for answer, _ in said for line in answer][-8:]
    below = [bytes(row).rstrip() for row in terminal.rows if row.strip()][-8:]
    return terminal.frames[PAGE_ROWS + 1:] == frames + frames[-1:] and below == printed_last


# ---- all of it


def of_stored_session(handheld, interrupted):
    """What holds of the stored session, point by point."""
    data, text = (STORED / 'stdin').read_bytes(), (STORED / 'stdout').read_bytes()
    lines = in_lines(data)
    answers = by_oracle(lines)
    return {
        'the stored session': printed(handheld, data) == text,
        'the stored session by the model': text_of(Handheld(), lines, answers) == text,
        'the stored session on a terminal': right_on_terminal(handheld, lines, answers),
        'the stored session where it is interrupted': not interrupted or endures(handheld, interrupted, data, text),
        **{wrong.__name__ + ' is told apart': text_of(wrong(), lines, answers) != text for wrong in WRONG},
    }


def of_inputs(line_program, handheld, rng, sessions):
    """Whether each input is answered as by the line program, with what is sent to the glass between the answers."""
    for name, data in inputs(rng, sessions):
        data = with_scrolls(rng, data)
        answers = by_program(line_program, in_lines(data))
        yield name, printed(handheld, data) == text_of(Handheld(), in_lines(data), answers)


def main():
    options = argparse.ArgumentParser()
    options.add_argument('line_program')
    options.add_argument('handheld')
    options.add_argument('--sessions', type=int, default=1000)
    options.add_argument('--seed', type=int, default=1)
    options.add_argument('--interrupted')
    args = options.parse_args()
    held = {'it answers at once': answers_at_once(args.handheld), **of_stored_session(args.handheld, args.interrupted)}
    held.update(of_inputs(args.line_program, args.handheld, random.Random(args.seed), args.sessions))
    for name in [name for name, holds in held.items() if not holds]:
        print('not so: ' + name)
    print('%d passed, %d failed' % (sum(held.values()), len(held) - sum(held.values())))
    return 0 if all(held.values()) else 1


if __name__ == '__main__':
    sys.exit(main())
