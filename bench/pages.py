#!/usr/bin/env python3
"""Stack that the line program has touched once it has planned and checked the cabinet of paper 01, in whole pages, as Linux counts them.

  pages.py PROGRAM

The program's own work and buffers stand on that stack too.
"""
import subprocess
import sys

from lines import CABINET, PLAN, YES, text

GIVEN = text(CABINET) + text(('plan', 'check,1110'))
ANSWER = text('ok' for _ in CABINET) + text(PLAN) + text(YES)


def touched(process):
    """The kilobytes of the process's stack that are in memory."""
    in_stack = False
    with open('/proc/%d/smaps' % process.pid) as maps:
        for line in maps:
            if '-' in line.split()[0]:
                in_stack = '[stack]' in line
            if in_stack and line.startswith('Rss:'):
                return int(line.split()[1])
    return 0


def main():
    with subprocess.Popen([sys.argv[1]], stdin=subprocess.PIPE, stdout=subprocess.PIPE, env={}) as process:
        process.stdin.write(GIVEN)
        process.stdin.flush()
        answer = process.stdout.read(len(ANSWER))
        kilobytes = touched(process)
        process.stdin.close()
    if answer != ANSWER:
        print('answers differ')
        return 1
    print('Stack of the line program, with its 64 KB of work and its buffers: %d KB' % kilobytes)
    return 0


if __name__ == '__main__':
    sys.exit(main())
