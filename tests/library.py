"""The planner's library as firmware links it, called through its C functions.

The shared object is made of the static library by examples/build. Every buffer that is lent stands between guard bytes, which no call may
touch.
"""
import ctypes

import script
from limits import CELLS, PLANNER_BYTES, SAVE_BYTES, STEP_BYTES, VERSION, WORD_LOADS, Part, PortionReply, Reply, StepsReply, StoredPlanner

GUARD = bytes(range(160, 224))


class Library:
    """The functions of the library, which has to be of the header's version."""

    def __init__(self, path):
        shared = ctypes.CDLL(path)
        if shared.hulmeide_version() != VERSION:
            raise RuntimeError('%s has version %d, and the header %d' % (path, shared.hulmeide_version(), VERSION))
        pointer, size = ctypes.c_void_p, ctypes.c_size_t
        self.fresh = shared.hulmeide_fresh
        self.fresh.argtypes, self.fresh.restype = [pointer], None
        self.call = shared.hulmeide_call
        self.call.argtypes, self.call.restype = [pointer, pointer, size, pointer, size, size, pointer, size], Reply
        self.portion = shared.hulmeide_portion
        self.portion.argtypes, self.portion.restype = [pointer, size, pointer, size, size, pointer, size], PortionReply
        self.judge = shared.hulmeide_judge
        self.judge.argtypes, self.judge.restype = [pointer, pointer, size], ctypes.c_uint32
        self.draw = shared.hulmeide_draw
        self.draw.argtypes, self.draw.restype = [pointer, size, pointer, size], ctypes.c_uint32
        self.part = shared.hulmeide_stretch
        self.part.argtypes, self.part.restype = [pointer, size, pointer, size], Part
        self.row = shared.hulmeide_stretch_row
        self.row.argtypes, self.row.restype = [pointer, size, pointer, size], size
        self.changeover = shared.hulmeide_changeover
        self.changeover.argtypes, self.changeover.restype = [pointer, pointer, size, pointer, size, pointer, size], StepsReply

    def stretch(self, glass, drawn):
        """Where in the drawn page the stretch begins, how many bytes it has, and its row. Both pages must stay as they are. One that is given as
        both is the same memory."""
        shown = Lent(glass)
        page = shown if drawn is glass else Lent(drawn)
        given = shown.memory, shown.length, page.memory, page.length
        part, row = self.part(*given), self.row(*given)
        if (shown.content(), page.content()) != (glass, drawn):
            raise AssertionError('the library changed a page that it only reads')
        return part.start, part.count, row


class Lent:
    """Bytes that are lent to the library, with a guard before and after them."""

    def __init__(self, content):
        self.length = len(content)
        self.whole = ctypes.create_string_buffer(GUARD + content + GUARD, self.length + 2 * len(GUARD))
        self.memory = (ctypes.c_char * self.length).from_buffer(self.whole, len(GUARD))

    def content(self):
        """The bytes as they are now. The guards must be as they were."""
        whole, end = self.whole.raw, len(GUARD) + self.length
        if whole[:len(GUARD)] != GUARD or whole[end:] != GUARD:
            raise AssertionError('the library wrote past an end of what it was lent')
        return whole[len(GUARD):end]


class Planner:
    """A planner in memory of its own."""

    def __init__(self, library, content=bytes(PLANNER_BYTES)):
        self.library = library
        self.state = Lent(content)

    def fresh(self):
        self.library.fresh(self.state.memory)
        return self

    def call(self, line, output, place, work):
        """The number, the count of bytes written, and output and work after a call. Both are given and returned as bytes."""
        out, cells = Lent(output), Lent(work)
        reply = self.library.call(self.state.memory, line, len(line), out.memory, len(output), place, cells.memory, len(work) // 4)
        return reply.number, reply.count, out.content(), cells.content()

    def portion(self, most, output, place, work):
        """The number, the counts of cells filled and of bytes written, and output and work after a portion of at most so many cells."""
        out, cells = Lent(output), Lent(work)
        reply = self.library.portion(self.state.memory, most, out.memory, len(output), place, cells.memory, len(work) // 4)
        return reply.number, reply.filled, reply.count, out.content(), cells.content()

    def answer(self, line):
        """The lines printed for a line, with what the line program lends."""
        _, count, output, _ = self.call(line, bytes(SAVE_BYTES), 0, bytes(4 * CELLS))
        return output[:count].decode('latin-1').split('\n')[:-1]

    def judge(self, numbers):
        """0 for a run, NOT_A_RUN for none, or the number of the refusal."""
        run = (ctypes.c_uint32 * len(numbers))(*numbers)
        return self.library.judge(self.state.memory, run, len(numbers))

    def draw(self, load, page):
        """The number of a drawing, and the page after it. The planner must stay as it is, to the last byte."""
        before, drawn_on = self.state.content(), Lent(page)
        number = self.library.draw(self.state.memory, load, drawn_on.memory, len(page))
        if self.state.content() != before:
            raise AssertionError('a drawing changed the planner')
        return number, drawn_on.content()

    def changeover(self, old, new, places):
        """The number of a changeover, the count of its steps, and the list after it, which is given and returned as bytes. The planner and the sets
        must stay as they are, to the last byte. A set that is given as both is the same memory."""
        before, first, steps = self.state.content(), Lent(old), Lent(places)
        second = first if new is old else Lent(new)
        reply = self.library.changeover(
            self.state.memory, first.memory, first.length, second.memory, second.length, steps.memory, steps.length // STEP_BYTES)
        if (self.state.content(), first.content(), second.content()) != (before, old, new):
            raise AssertionError('a changeover changed what it only reads')
        return reply.number, reply.count, steps.content()


# ---- A planner's bytes, and the planner of a script (script.py) that they hold


def content_with(p):
    """The bytes of a planner that holds this."""
    planner = StoredPlanner()
    book, loads, run = planner.book, planner.loads, planner.outcome.run
    book.states, book.stages, book.starts, book.ends = p.states, p.stages, p.starts, p.ends
    book.load_rules.items[:], book.load_rules.count = p.load_rules, p.load_rule_count
    book.row_rules.items[:], book.row_rules.count = p.row_rules, p.row_rule_count
    loads.items[:], loads.count = [(parent, kind, power, worth) for parent, power, worth, kind in p.loads], p.load_count
    planner.budget = p.budget
    planner.outcome.status = p.status
    run.set.low, run.set.high = p.set % 2**WORD_LOADS, p.set >> WORD_LOADS
    run.states[:], run.load_rules[:], run.row_rules[:] = zip(*p.run)
    planner.filled = p.filled
    return bytes(planner)


def held(content):
    """What the bytes of a planner hold."""
    planner, p = StoredPlanner.from_buffer_copy(content), script.Planner()
    book, loads, run = planner.book, planner.loads, planner.outcome.run
    p.states, p.stages, p.starts, p.ends = book.states, book.stages, book.starts, book.ends
    p.load_rules, p.load_rule_count = rules_in(book.load_rules), book.load_rules.count
    p.row_rules, p.row_rule_count = rules_in(book.row_rules), book.row_rules.count
    p.loads, p.load_count = [(load.parent, load.power, load.worth, load.kind) for load in loads.items], loads.count
    p.budget = planner.budget
    p.status, p.set = planner.outcome.status, run.set.low + (run.set.high << WORD_LOADS)
    p.run = list(zip(run.states, run.load_rules, run.row_rules))
    p.filled = planner.filled
    return p


def rules_in(rules):
    """The figures of each place of a list of rules."""
    return [tuple(getattr(rule, name) for name, _ in rule._fields_) for rule in rules.items]
