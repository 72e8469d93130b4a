#!/usr/bin/env python3
"""A read or a write that fails: the line program says so on standard error, after its name, and ends.

  failures.py PROGRAM

The last line is 'N passed, M failed'. (That an interrupted read or write is made again is tested by examples.py.)
"""
import os
import subprocess
import sys


def said(program, **streams):
    """What the program says on standard error until it ends."""
    return subprocess.run([program], stderr=subprocess.PIPE, timeout=10, **streams).stderr


def main():
    program = sys.argv[1]
    folder = os.open('/', os.O_RDONLY)  # a folder cannot be read
    full = os.open('/dev/full', os.O_WRONLY)
    told = [
        said(program, stdin=folder, stdout=subprocess.DEVNULL).startswith(b'load_planner: standard input: '),
        said(program, input=b'clear\n', stdout=full).startswith(b'load_planner: standard output: '),
        said(program, input=b'clear\n', stdout=subprocess.DEVNULL) == b'',
    ]
    print('%d passed, %d failed' % (sum(told), len(told) - sum(told)))
    return 0 if all(told) else 1


if __name__ == '__main__':
    sys.exit(main())
