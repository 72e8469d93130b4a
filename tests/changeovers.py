"""The order of switching over, request Twelve of paper 02, sentence by sentence: what refuses a changeover, its steps, and a replay of them that
says whether the supply bears each. It shares no code with the product, and with the header of the product only the limits.
"""
from collections import namedtuple

from limits import MAX_LOADS, STEP_BYTES

# What a changeover is asked for: a planner (of script.py), whether it keeps its limits, the old and the new set, and the list as it is before, all
# three as bytes.
Asked = namedtuple('Asked', 'p kept old new list')
# What it returns and leaves: its number, the count of the steps, and the list.
Done = namedtuple('Done', 'number count list')
OFF, ON = 0, 1  # marks


def step_bytes(steps):
    """The bytes of the places that steps are written to: "each step a load number and a new mark"."""
    return b''.join(bytes(step) for step in steps)


def steps_in(places, count):
    """So many steps, from the first place on."""
    return [tuple(places[at:at + STEP_BYTES]) for at in range(0, STEP_BYTES * count, STEP_BYTES)]


class Changeovers:
    """What a changeover does. wrong_changeovers.py gets each of these wrong on purpose."""

    # ---- "Given an old and a new set, each written as for `check` (else 5)"

    def is_written(self, p, text):
        return len(text) == p.load_count and all(byte in b'01' for byte in text)

    def on(self, text):
        """The numbers of the loads that a set has on. No load has a greater one than there may be loads."""
        return {k for k, byte in enumerate(text[:MAX_LOADS], 1) if byte == ord('1')}

    # ---- "16, a set that is over budget or has a load on below one that is off"

    def power(self, p, on):
        return sum(p.loads[k - 1][1] for k in on)

    def fits(self, p, on):
        return self.power(p, on) <= p.budget

    def parent(self, p, k):
        return p.loads[k - 1][0]

    def is_fed(self, p, on):
        """Has each load on but the root its parent on?"""
        return all(k == 1 or self.parent(p, k) in on for k in on)

    def are_carried(self, p, old, new):
        return all(self.fits(p, on) and self.is_fed(p, on) for on in (old, new))

    # ---- "Loads that go off come first, highest number first, and then loads that go on, lowest first. Every differing load has one step"

    def off_steps(self, old, new):
        return [(k, OFF) for k in sorted(old - new, reverse=True)]

    def on_steps(self, old, new):
        return [(k, ON) for k in sorted(new - old)]

    def steps(self, old, new):
        return self.off_steps(old, new) + self.on_steps(old, new)

    # ---- "New numbers: 16 ..; 17, a list too short; both after 4 and 5, 16 first. Each refusal here returns its number and 0 steps, with nothing
    # written." A planner that breaks a limit is 1.

    def is_short(self, places, steps):
        return places < len(steps)

    def causes(self, asked):
        """What refuses a changeover, each with its number, in the order of the tests."""
        p, old, new = asked.p, self.on(asked.old), self.on(asked.new)
        return (
            (1, not asked.kept), (4, p.load_count == 0), (5, not (self.is_written(p, asked.old) and self.is_written(p, asked.new))),
            (16, not self.are_carried(p, old, new)), (17, self.is_short(len(asked.list) // STEP_BYTES, self.steps(old, new))))

    def number(self, asked):
        return next((number for number, applies in self.causes(asked) if applies), 0)

    def refused(self, asked, number):
        return Done(number, 0, asked.list)

    # ---- "the steps are written to a lent list, .. the number of steps is returned, and list places beyond the steps keep their values"

    def listed(self, asked, steps):
        made = step_bytes(steps)
        return Done(0, len(steps), made + asked.list[len(made):])

    def done(self, asked):
        number = self.number(asked)
        return self.refused(asked, number) if number else self.listed(asked, self.steps(self.on(asked.old), self.on(asked.new)))


# ---- a replay: "After every step the power is within the budget and each load on but the root has its parent on."


def loads_on(text):
    return {k for k, byte in enumerate(text.decode(), 1) if byte == '1'}


def sets_after(old, steps):
    """The set that is on after each step."""
    on = set(old)
    for load, mark in steps:
        on = on | {load} if mark else on - {load}
        yield on


def is_borne(p, on):
    """Does the supply carry the loads that are on, each of them with its parent on?"""
    parents = {p.loads[k - 1][0] for k in on if k > 1}
    return parents <= on and sum(load[1] for k, load in enumerate(p.loads, 1) if k in on) <= p.budget


def is_ordered(steps):
    """Do loads go off first, from the highest down, and then go on, from the lowest up?"""
    keys = [(mark, load if mark else -load) for load, mark in steps]
    return keys == sorted(keys) and all(mark in (OFF, ON) for _, mark in steps)


def replay_fault(p, old, new, steps):
    """None, or what is wrong with steps from one set to another, both given as bytes."""
    before, after = loads_on(old), loads_on(new)
    passed = list(sets_after(before, steps))
    if not all(is_borne(p, on) for on in (before, *passed)):
        return 'a step that the supply does not bear'
    if (passed[-1] if passed else before) != after:
        return 'another set after the last step'
    if sorted(load for load, _ in steps) != sorted(before ^ after):
        return 'not one step for each load that differs'
    return None if is_ordered(steps) else 'another order'
