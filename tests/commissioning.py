#!/usr/bin/env python3
"""The commands of docs/COMMISSIONING.md, run as they stand there: over a port, and with the line program on a laptop.

  commissioning.py PROGRAM [PAGE]

The port is a terminal of this machine's, with the line program behind it in the switch's place, once with the worked cabinet and once with one of
the most loads. What the commands print and keep is compared with the oracle. The last line is 'N passed, M failed'.
"""
import os
import re
import subprocess
import sys
import tempfile
import tty
from pathlib import Path

from limits import MAX_LOADS
from oracle import Oracle

WORKED = Path('crates/load_planner/stdin').read_bytes().split(b'\n')[:15]
MOST_LOADS = [*WORKED, *(b'load,%d,%d,%d,%d' % (k, k, 7 * k, k % 4) for k in range(4, MAX_LOADS))]
FURTHER = [b'worth,2,45', b'drop,3']
SECONDS = 10


def answered(*lines):
    """What a fresh planner prints for lines, by the oracle."""
    oracle = Oracle()
    return ''.join(printed + '\n' for line in lines for printed in oracle.answer(line)).encode()


def save_after(*lines):
    """What `save` prints after lines."""
    return answered(*lines, b'save')[len(answered(*lines)):]


def blocks(page):
    """The commands of a page: each block of indented lines."""
    found = re.findall(r'(?:^    .*\n|^\n(?=    ))+', page, re.M)
    return [re.sub(r'^    ', '', block, flags=re.M) for block in found if block.strip()]


def typed(commands, folder, **variables):
    """What commands print, typed in a folder."""
    ended = subprocess.run(['bash', '-ec', commands], cwd=folder, env=dict(os.environ, **variables), stdout=subprocess.PIPE, timeout=SECONDS)
    return ended.stdout


def line_from(port):
    """The next line that comes out of the port."""
    text = b''
    while not text.endswith(b'\n'):
        text += os.read(port, 1)
    return text


def over_a_port(program, cabinet, commands, folder):
    """What they print where a line program that was given these lines is behind the port."""
    switch, port = os.openpty()
    tty.setraw(port)
    running = subprocess.Popen([program], stdin=switch, stdout=switch)
    try:
        for line in cabinet:
            os.write(port, line + b'\n')
            line_from(port)
        return typed(commands, folder, port=os.ttyname(port))
    finally:
        running.kill()
        running.wait()
        os.close(switch)
        os.close(port)


def held_of_port(program, cabinet, commands, folder):
    """What holds of the commands over a port, with a cabinet behind it, point by point. They leave its save in the folder."""
    same, save = over_a_port(program, cabinet, commands, folder), save_after(*cabinet)
    kept = [Path(folder, name).read_bytes() for name in ('cabinet.save', 'again.save')]
    return [same == b'the same\n', kept == [save, save]]


def held(program, page):
    """What holds of the commands of the page, point by point."""
    port, laptop = blocks(page)
    with tempfile.TemporaryDirectory() as folder:
        points = held_of_port(program, MOST_LOADS, port, folder) + held_of_port(program, WORKED, port, folder)
        Path(folder, 'other.lines').write_bytes(b''.join(line + b'\n' for line in FURTHER))
        shown = typed(laptop, folder, PATH='%s:%s' % (os.path.dirname(program), os.environ['PATH']))
        changed = Path(folder, 'changed.save').read_bytes()
    lines = save_after(*WORKED).split(b'\n')[:-1]
    return points + [
        shown == answered(*lines, b'plan') + answered(*lines, b'budget,22', b'plan'),
        changed == save_after(*WORKED, *FURTHER),
    ]


def main():
    page = Path(sys.argv[2] if len(sys.argv) > 2 else 'docs/COMMISSIONING.md').read_text()
    try:
        points = held(os.path.abspath(sys.argv[1]), page)
    except (subprocess.TimeoutExpired, FileNotFoundError) as error:
        print(error)
        points = [False]
    print('%d passed, %d failed' % (sum(points), len(points) - sum(points)))
    return 0 if all(points) else 1


if __name__ == '__main__':
    sys.exit(main())
