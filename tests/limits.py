#!/usr/bin/env python3
"""The limits of paper 01, the numbers returned and the layout of a planner, read off include/hulmeide.h: one that changes is changed there.

  limits.py

Run as a program it holds the structs as Python lays them out to the sizes and offsets that the header asserts, and the constants and the
refusals of the Rust wrapper, examples/hulmeide.rs, to the header's. The last line is 'N passed, M failed'.
"""
import ctypes
import re
import sys
from pathlib import Path

ROOT = Path(__file__).resolve().parent.parent
HEADER = (ROOT / 'include' / 'hulmeide.h').read_text()
WRAPPER = (ROOT / 'examples' / 'hulmeide.rs').read_text()


def named(pattern, text=HEADER):
    """Each name of the header that a pattern finds, with its value."""
    return {name: int(value) for name, value in re.findall(pattern, text, re.M)}


def enumerated(name):
    """The names of an enum of the header, each with its value."""
    return named(r'^ +HULMEIDE_(\w+) = (\d+),?$', re.search(r'^enum hulmeide_%s \{\n(.*?)^\};$' % name, HEADER, re.M | re.S).group(1))


SIZES = named(r'^#define HULMEIDE_(\w+) (\d+)$')
NUMBERS = enumerated('number')
STATUSES = enumerated('outcome_status')

LINE_BYTES = SIZES['LINE_BYTES']
FREE_BYTES = SIZES['FREE_BYTES']
RUN_BYTES = SIZES['RUN_BYTES']
SAVE_BYTES = SIZES['SAVE_BYTES']
CELLS = SIZES['LINE_PROGRAM_CELLS']
MAX_DIGITS = SIZES['MAX_DIGITS']
MAX_LOADS = SIZES['MAX_LOADS']
MAX_RULES = SIZES['MAX_RULES']
MAX_STATES = SIZES['MAX_STATES']
MAX_STAGES = SIZES['MAX_STAGES']
MAX_POWER = SIZES['MAX_POWER']
MAX_WORTH = SIZES['MAX_WORTH']
MAX_BUDGET = SIZES['MAX_BUDGET']
MAX_KIND = SIZES['MAX_KIND']
MAX_PORTION = SIZES['MAX_PORTION']
WORD_LOADS = SIZES['WORD_LOADS']
MAX_NEED = MAX_LOADS * MAX_WORTH
PAGE_ROWS = SIZES['PAGE_ROWS']
ROW_BYTES = SIZES['ROW_BYTES']
PAGE_BYTES = PAGE_ROWS * ROW_BYTES
NOT_A_RUN = NUMBERS['NOT_A_RUN']
NOTHING, NO_SET, PLANNED = (STATUSES['OUTCOME_' + name] for name in ('NOTHING', 'NO_SET', 'PLANNED'))
VERSION = SIZES['VERSION']


# ---- The structs

PLAIN = {
    'uint8_t': ctypes.c_uint8, 'uint16_t': ctypes.c_uint16, 'uint32_t': ctypes.c_uint32, 'uint64_t': ctypes.c_uint64,
    'size_t': ctypes.c_size_t, 'const uint8_t *': ctypes.c_void_p,
}
FIELD = re.compile(r'(?:struct hulmeide_(\w+) |(const \w+ \*|\w+) ?)(\w+)(?:\[HULMEIDE_(\w+)\])?;')
STRUCTS = {}


def fields_of(body):
    """The fields of a struct, each with its type. Those whose type is a struct come after it in the header."""
    for line in body.splitlines():
        struct, plain, name, length = FIELD.fullmatch(line.strip()).groups()
        held = STRUCTS[struct] if struct else PLAIN[plain]
        yield name, held * SIZES[length] if length else held


for found, body in re.findall(r'^struct hulmeide_(\w+) \{\n(.*?)^\};$', HEADER, re.M | re.S):
    STRUCTS[found] = type(found, (ctypes.Structure,), {'_fields_': list(fields_of(body))})

StoredPlanner = STRUCTS['planner']  # the planner as C has it
Reply = STRUCTS['reply']
PortionReply = STRUCTS['portion_reply']
Part = STRUCTS['part']
StepsReply = STRUCTS['steps']
STEP_BYTES = ctypes.sizeof(STRUCTS['step'])
PLANNER_BYTES = ctypes.sizeof(StoredPlanner)


# ---- What the header and the wrapper say besides


def asserted():
    """Each size and each offset that the header asserts: what it is of, as Python has it, and as the header has it."""
    for struct, value in named(r'^HULMEIDE_ASSERT\(sizeof\(struct hulmeide_(\w+)\) == (\d+), ').items():
        yield 'sizeof ' + struct, ctypes.sizeof(STRUCTS[struct]), value
    for field, value in named(r'^HULMEIDE_ASSERT\(offsetof\(struct hulmeide_(\w+, \w+)\) == (\d+), ').items():
        struct, name = field.split(', ')
        yield 'offsetof ' + field, getattr(STRUCTS[struct], name).offset, value


def wrapped():
    """Each constant that the wrapper is to have: its name, its value there, if any, and that of the header."""
    constants = dict(re.findall(r'^(?:pub )?const (\w+): \w+ = (\d+);$', WRAPPER, re.M))
    wanted = {**SIZES, 'PLANNER_BYTES': PLANNER_BYTES, 'NOT_A_RUN': NOT_A_RUN}
    for name in sorted({*constants, *wanted}):
        yield name + ' of the wrapper', int(constants.get(name, -1)), wanted.get(name)


def refused():
    """Each refusal that the wrapper is to have: its name, its number there, if any, and that of the header."""
    refusals = dict(re.findall(r'^    (\w+) = (\d+),$', WRAPPER, re.M))
    wanted = {name.title().replace('_', ''): number for name, number in NUMBERS.items() if name not in ('ACCEPTED', 'NOT_A_RUN')}
    for name in sorted({*refusals, *wanted}):
        yield name + ' of the wrapper', int(refusals.get(name, -1)), wanted.get(name)


def main():
    compared = [*asserted(), *wrapped(), *refused()]
    wrong = [one for one in compared if one[1] != one[2]]
    for what, value, expected in wrong:
        print('%s is %s, not %s' % (what, value, expected))
    print('%d passed, %d failed' % (len(compared) - len(wrong), len(wrong)))
    return 1 if wrong else 0


if __name__ == '__main__':
    sys.exit(main())
