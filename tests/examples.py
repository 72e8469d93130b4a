#!/usr/bin/env python3
"""Programs that link the library, in C and in Rust, against the line program: the same bytes in, the same bytes out.

  examples.py LINE_PROGRAM PROGRAM.. [--sessions N] [--seed S] [--interrupted LIBRARY] [--ports PROGRAM] [--reader PROGRAM]
              [--changeover PROGRAM]

The input holds sessions of valid and damaged lines, lines of every length around the most that a line may have, lines far longer than any
buffer, bytes of every value, large cabinets of one kind and of two, and a last line with and without its line feed. Each program must also
answer a line as soon as it is complete, while its input stays open, and print the same where every other read and write is interrupted (a library
that is loaded before it: interrupted.c). A program that switches ports must have switched them as its plans and its drops say, and its display
must have shown the latest plan, and none after a change. Its energy manager must have been told how little supply would do for the worth of each
plan, which is the plan's power, and for half of it, as the line program answers where it is asked in between; no other answer changes by that.
After each accepted `budget` it must have made one plan of its own, by portions, whenever it came to that, and switched and shown it as one that a line
asks for there.
A program that prints its own lines, as that of a safety reader does, must print the answers that the oracle has, with a plan and with refusals 10
and 14 among them. So must a program that switches over from plan to plan, and after each plan print the steps to it in their order, with what is on
and draws power after each; with a lower budget first the number that the planner with that budget gives to the steps.
The last line is 'N passed, M failed'.
"""
import argparse
import os
import random
import re
import select
import subprocess
import sys
from pathlib import Path

from crosscheck import session
from limits import CELLS, LINE_BYTES, MAX_BUDGET, MAX_DIGITS, MAX_LOADS, MAX_NEED, MAX_WORTH
from oracle import Oracle
from texts import grouped

WORKED = Path('crates/load_planner/stdin')
ANSWERS = Path('crates/load_planner/stdout')


def joined(lines):
    return b''.join(line + b'\n' for line in lines)


def long_lines(rng):
    """Lines around the most digits and the most bytes, and far beyond them."""
    digits = range(MAX_DIGITS - 1, MAX_DIGITS + 2)
    lengths = [0, 1, *digits, *range(LINE_BYTES - 7, LINE_BYTES + 3), 2 * LINE_BYTES, 255, 256, 257, 4095, 4096, 4097, 20000]
    lines = [word + b'1' * length for length in lengths for word in (b'check,', b'save', b'save1', b'drop,', b'last', b'need,')]
    lines += [bytes(rng.choice(b'01,plan\r\x00\xff') for _ in range(length)) for length in lengths]
    return joined(lines + [b'plan'])


def every_byte():
    """Each byte alone, before and after a command, but for the line feed that ends a line."""
    bytes_but_feed = [bytes([b]) for b in range(256) if b != 10]
    commands = (b'plan', b'save', b'save1', b'budget,1', b'drop,1', b'drop', b'last', b'load,0,1,1,', b'load,0,1,1,1', b'need,1', b'need,')
    return joined([line for b in bytes_but_feed for line in (b, b + b'plan', *(command + b for command in commands))])


def any_load(rng, count, kinds):
    """The line of a load that comes after so many others."""
    line = b'load,%d,%d,%d' % (rng.randint(1, count) if count else 0, rng.randint(0, 9), rng.randint(0, MAX_WORTH))
    kind = rng.randrange(kinds)
    return line + b',%d' % kind if kind or rng.random() < 0.3 else line


def any_need(rng):
    """A need of a worth that a few of the loads may have, or of one that none has."""
    return b'need,%d' % rng.choice((0, 1, rng.randint(0, 4 * MAX_WORTH), rng.randint(0, MAX_NEED), MAX_NEED, MAX_NEED + 1))


def come_and_go(rng, kinds):
    """On the fullest cabinet: drops of any loads, of which those without children leave, more loads, and plans between them."""
    lines = []
    for _ in range(3):
        lines += [b'drop,%d' % rng.randint(0, MAX_LOADS + 1) for _ in range(20)] + [b'last', any_need(rng), b'plan', b'last', any_need(rng), b'last']
        lines += [any_load(rng, MAX_LOADS - 20, kinds) for _ in range(20)]
        lines += [b'last', b'plan', b'drop,%d' % (MAX_LOADS - 20), b'last', b'save', b'save1', b'last']
    return lines


def large_cabinet(rng, kinds):
    """The most loads, of so many kinds, under a book with two states and two stages, plans with as many cells as the line program lends, drops,
    and saves."""
    lines = [b'clear', b'book,2,2', b'start,1', b'start,2', b'end,1', b'end,2']
    lines += [b'%s,%d' % (rule, kind) for kind in range(kinds) for rule in (b'rule,1,1,1', b'rule,1,0,2', b'rule,2,0,2')]
    lines += [b'row,1,1,1', b'row,2,2,2', b'row,1,2,1']
    lines += [any_load(rng, count, kinds) for count in range(MAX_LOADS + 1)]
    last = CELLS // (4 * MAX_LOADS) - 1
    for budget in (0, 1, 20, last - 1, last, last + 1, MAX_BUDGET):
        lines += [b'budget,%d' % budget, b'last', b'plan', b'check,' + bytes(rng.choice(b'01') for _ in range(MAX_LOADS)), b'last']
        lines += [any_need(rng), any_need(rng), b'last']
    lines += [b'check,' + bit * count for bit in (b'0', b'1') for count in range(MAX_LOADS - 1, MAX_LOADS + 2)]
    lines += [b'save', b'save1', b'budget,%d' % last]
    return joined(lines + come_and_go(rng, kinds))


def inputs(rng, sessions):
    """Each input with its name."""
    yield 'worked session', WORKED.read_bytes()
    yield 'nothing', b''
    yield 'an empty line', b'\n'
    yield 'no line feed at the end', b'book,1,1\nplan'
    yield 'long lines', long_lines(rng)
    yield 'every byte', every_byte()
    for number in range(6):
        yield 'large cabinet %d' % (number + 1), large_cabinet(rng, 1 + number % 2)
    made = [s for s in (session(rng) for _ in range(sessions)) if s]
    for number in range(0, len(made), 100):
        lines = [line for lines, _ in made[number:number + 100] for line in lines]
        yield 'sessions from %d' % (number + 1), joined(lines)


def printed(program, data):
    return subprocess.run([program], input=data, stdout=subprocess.PIPE, check=True).stdout


def answers_at_once(program):
    """Is a line answered while the input stays open?"""
    with subprocess.Popen([program], stdin=subprocess.PIPE, stdout=subprocess.PIPE, bufsize=0) as running:
        running.stdin.write(b'budget,1\n')
        ready, _, _ = select.select([running.stdout], [], [], 10)
        answer = running.stdout.read(3) if ready else b''
        running.stdin.close()
        return answer == b'ok\n'


def endures(program, library, data, expected):
    """Does the program print what is expected where its reads and writes are interrupted?"""
    environment = {**os.environ, 'LD_PRELOAD': str(Path(library).resolve(strict=True))}
    ended = subprocess.run([program], input=data, stdout=subprocess.PIPE, env=environment)
    return ended.returncode == 0 and ended.stdout == expected


def answers_in(output):
    """The answers that a program printed, each with its lines."""
    return grouped(output.decode().split('\n')[:-1])


def is_shown(line, answer):
    """Is this a plan that was shown?"""
    return line == b'plan' and answer[0].startswith('plan,')


def figures(answer):
    """The worth, the power and the number of loads on of a plan that was shown."""
    return [int(figure) for figure in answer[0].split(',')[1:]]


def with_needs(data, answers):
    """The lines of an input, each with None, and after each plan that was shown a need of half its worth, with the plan's power."""
    for line, answer in zip(data.split(b'\n'), answers):
        yield line, None
        if is_shown(line, answer):
            yield b'need,%d' % ((figures(answer)[0] + 1) // 2), figures(answer)[1]


def supplies(line_program, data, answers):
    """The supply for each plan of an input and for half its worth, by the line program. It must answer all other lines as without the needs."""
    said = list(with_needs(data, answers))
    found = answers_in(printed(line_program, joined(line for line, _ in said)))
    if [answer for (_, power), answer in zip(said, found) if power is None] != answers:
        return []
    return ['supply: %d W for this worth, %s W for half of it' % (power, answer[0].removeprefix('need,'))
            for (_, power), answer in zip(said, found) if power is not None]


def ports_after(line, answer, on):
    """The ports that are on after a plan or a drop, those before being these; None after any other line, `last` among them."""
    if is_shown(line, answer):
        return [number for number, row in enumerate(answer[1:], 1) if row.split(',')[1] == '1']
    if line.startswith(b'drop,') and answer == ['ok']:
        load = int(line[len(b'drop,'):])
        return [port - 1 if port > load else port for port in on if port != load]
    return None


def display_after(line, answer, shown):
    """What the display shows after a line, if it showed this: what `plan` found, until a change is accepted."""
    if answer == ['ok']:
        return 'no current plan'
    if line == b'plan' and answer == ['no,9']:
        return 'no set fits'
    return 'worth %d, %d W, %d on' % (*figures(answer),) if is_shown(line, answer) else shown


def own_plans(line_program, data, log):
    """The own plans that are logged: after which line each came, with the answer that the line program gives to `plan` there."""
    after = {int(number) for number in re.findall(r'^own plan after line (\d+):', '\n'.join(log), re.M)}
    lines = data.removesuffix(b'\n').split(b'\n') if data else []
    said = [one for number, line in enumerate(lines, 1) for one in ((None, line), (number, b'plan'))[:1 + (number in after)]]
    found = answers_in(printed(line_program, joined(line for _, line in said)))
    return {number: answer for (number, _), answer in zip(said, found) if number is not None}


def number_of(answer):
    """The number that an answer to `plan` has."""
    return int(answer[0].removeprefix('no,')) if answer[0].startswith('no,') else 0


class Log:
    """What is to be logged: the ports that are on after each plan and each drop, what is new on the display, and what the energy manager is told
    after each plan that a line asked for. A plan of the switch's own is due from an accepted budget on."""

    def __init__(self, told):
        self.on, self.shown, self.due, self.entries, self.told = [], 'no current plan', False, [], iter(told)

    def switch_and_show(self, line, answer):
        ports, display = ports_after(line, answer, self.on), display_after(line, answer, self.shown)
        if ports is not None:
            self.on = ports
            self.entries.append(' '.join(['ports on:', *map(str, ports)]))
        if display != self.shown:
            self.shown = display
            self.entries.append('display: ' + display)

    def line(self, line, answer):
        self.switch_and_show(line, answer)
        self.due = self.due or line.startswith(b'budget,') and answer == ['ok']
        if is_shown(line, answer):
            self.entries.append(next(self.told, 'supply: another answer changed'))

    def own_plan(self, number, answer):
        self.entries.append('own plan after line %d: number %d' % (number, number_of(answer)) if self.due else 'an own plan is not due')
        self.switch_and_show(b'plan', answer)
        self.due = False


def logged_for(data, answers, told, own):
    """What is to be logged for an input with these answers, and with these own plans, each after the line of its number."""
    log = Log(told)
    for number, (line, answer) in enumerate(zip(data.split(b'\n'), answers), 1):
        log.line(line, answer)
        if number in own:
            log.own_plan(number, own[number])
    return log.entries + ['an own plan is due'] * log.due


def switches_ports(program, line_program, data):
    """Does a program log the ports of its plans and drops, the latest plan on its display, and how little supply would do?"""
    ended = subprocess.run([program], input=data, capture_output=True, env={**os.environ, 'SWITCH_LOG': '1'})
    answers, log = answers_in(ended.stdout), ended.stderr.decode().splitlines()
    expected = logged_for(data, answers, supplies(line_program, data, answers), own_plans(line_program, data, log))
    return ended.returncode == 0 and log == expected


def shows_kinds(program):
    """Are the lines that a program prints, each after `> `, answered as the oracle answers them, a plan and refusals 10 and 14 among them?"""
    text, oracle = subprocess.run([program], stdout=subprocess.PIPE, check=True).stdout.decode(), Oracle()
    said = [part.splitlines() for part in text.split('> ')[1:]]
    firsts = {answer[0].split(',')[0] if answer[0].startswith('plan') else answer[0] for _, *answer in said}
    return all(oracle.answer(line.encode()) == answer for line, *answer in said) and {'plan', 'no,10', 'no,14', 'clear'} <= firsts


def steps_printed(loads, old, new):
    """The lines of the steps from an old set to a new one: the loads that go off, highest number first, and then those that go on, lowest first."""
    numbers, on = range(1, len(loads) + 1), list(old)
    off_first = [k for k in reversed(numbers) if old[k - 1] > new[k - 1]] + [k for k in numbers if old[k - 1] < new[k - 1]]
    for k in off_first:
        on[k - 1] = new[k - 1]
        watts = sum(power for (_, power, _, _), mark in zip(loads, on) if mark == '1')
        yield 'load %d %s: %d W, %s' % (k, 'on' if new[k - 1] == '1' else 'off', watts, ''.join(on))


def changeovers_printed(lines):
    """What is to be printed for these lines: the oracle's answers, and after each plan the changeover to it. Its book keeps loads on only below loads
    that are on, so a set is refused, with 16, only where it draws too much."""
    oracle, on, carried = Oracle(), '', 0
    for line in lines:
        answer = oracle.answer(line.encode())
        if line == 'plan' and answer[0].startswith('plan,'):
            old, new = on.ljust(len(oracle.loads), '0'), ''.join(row.split(',')[1] for row in answer[1:])
            drawn = sum(power for (_, power, _, _), mark in zip(oracle.loads, old) if mark == '1')
            if oracle.budget < carried:
                answer = answer + ['with %d W in force: number %d' % (oracle.budget, 16 if drawn > oracle.budget else 0)]
            answer = answer + list(steps_printed(oracle.loads, old, new))
            on, carried = new, oracle.budget
        yield [line, *answer]


def switches_over(program):
    """Does a program print its lines, each after `> `, with the answers and the changeovers that they have? Among these must be one that is refused
    with the lower budget, one that begins with a load that goes off and ends with one that goes on, and one without a step."""
    text = subprocess.run([program], stdout=subprocess.PIPE, check=True).stdout.decode()
    said = [part.splitlines() for part in text.split('> ')[1:]]
    steps = [[row.split(':')[0].split(' ')[2] for row in part if row.startswith('load ')] for part in said if part[0] == 'plan']
    seen = any(row.endswith(' 16') for part in said for row in part), any({'on', 'off'} <= {*one} for one in steps), [] in steps
    return said == list(changeovers_printed(part[0] for part in said)) and all(seen)


def compared(programs, expected, data, name):
    """How many programs print what is expected for an input."""
    same = [program for program in programs if printed(program, data) == expected]
    for program in programs:
        if program not in same:
            print('%s differs from the line program on: %s' % (program, name))
    return len(same)


def main():
    options = argparse.ArgumentParser()
    options.add_argument('line_program')
    options.add_argument('programs', nargs='+')
    options.add_argument('--sessions', type=int, default=1000)
    options.add_argument('--seed', type=int, default=1)
    options.add_argument('--interrupted')
    options.add_argument('--ports')
    options.add_argument('--reader')
    options.add_argument('--changeover')
    args = options.parse_args()
    passed = 0
    made = list(inputs(random.Random(args.seed), args.sessions))
    for name, data in made:
        passed += compared(args.programs, printed(args.line_program, data), data, name)
    tests = [('answers at once', program, answers_at_once(program)) for program in [args.line_program] + args.programs]
    if args.interrupted:
        worked = WORKED.read_bytes(), ANSWERS.read_bytes()
        tests += [
            ('goes on when interrupted', program, endures(program, args.interrupted, *worked)) for program in [args.line_program] + args.programs
        ]
    if args.ports:
        tests += [('switches ports and shows plans, ' + name, args.ports, switches_ports(args.ports, args.line_program, data)) for name, data in made]
    if args.reader:
        tests.append(('shows kinds', args.reader, shows_kinds(args.reader)))
    if args.changeover:
        tests.append(('switches over', args.changeover, switches_over(args.changeover)))
    for what, program, held in tests:
        if not held:
            print('%s: not so of %s' % (what, program))
    passed += sum(held for _, _, held in tests)
    failed = len(made) * len(args.programs) + len(tests) - passed
    print('%d lines to each program' % sum(data.count(b'\n') for _, data in made))
    print('%d passed, %d failed' % (passed, failed))
    return 1 if failed else 0


if __name__ == '__main__':
    sys.exit(main())
