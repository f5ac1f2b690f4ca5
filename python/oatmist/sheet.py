"""The bytes of a sheet, from a system and an execution and back. docs/SHEET.md has the layout.

A plain codec without verdicts: it writes what it is given, and reads bytes of which the desk has said that none of the refusals 1 to 8
applies. Whether that is so is for `calls.check` to say.

    data = encode(system, execution)
    form = Form(system)                  # for many executions of one system
    data = form.sheet(execution)
    system, execution = decode(data)     # with the names c0, s0 and a0
"""
from .model import Component, Execution, System, bits, number

MARK = b"\x46\x53"
RECORD, TRANSITION, STEP, TRAILER = 16, 4, 8, 10  # bytes of each


def records(system):
    """The component records."""
    return b"".join(
        bytes([len(component.states), 0, 0, 0]) + number(component.initial).to_bytes(4, "little")
        + number(component.alphabet).to_bytes(8, "little") for component in system.components)


def transitions(system):
    """The transitions of all components, rising as bytes."""
    return b"".join(sorted(bytes([j, *transition]) for j, component in enumerate(system.components) for transition in component.transitions))


def steps(execution):
    """The step section."""
    return b"".join([number(step).to_bytes(STEP, "little") for step in execution.steps])


class Form:
    """A system's sheet with the steps left open."""

    def __init__(self, system):
        table = records(system)
        self.front = table + transitions(system)
        offsets = b"".join(offset.to_bytes(2, "little") for offset in (0, len(table), len(self.front)))
        self.trailer = offsets + bytes([len(system.components), len(system.actions)]) + MARK

    def sheet(self, execution):
        """The sheet with these steps."""
        return self.front + steps(execution) + self.trailer


def encode(system, execution=None):
    """The sheet of a system and an execution; without steps where there is none."""
    return Form(system).sheet(execution or Execution())


def whole(sheet, place, size):
    """The number of so many bytes at a place."""
    return int.from_bytes(sheet[place:place + size], "little")


def trailer(sheet):
    """C, T, S, n and m, as the trailer tells them."""
    end = len(sheet) - TRAILER
    return (*(whole(sheet, end + place, 2) for place in (0, 2, 4)), *sheet[end + 6:end + 8])


def tables(sheet):
    """What two sheets over the same components and transitions have alike: the bytes before S, and the trailer."""
    return sheet[:trailer(sheet)[2]], sheet[-TRAILER:]


def step_section(sheet):
    """The bytes of the steps."""
    return sheet[trailer(sheet)[2]:-TRAILER]


def read_record(sheet, j):
    """Component j, without its transitions."""
    place = RECORD * j
    return Component(f"c{j}", [f"s{i}" for i in range(sheet[place])], set(bits(whole(sheet, place + 4, 4))),
                     set(bits(whole(sheet, place + 8, 8))))


def number_names(m):
    """The names of actions that have none."""
    return [f"a{a}" for a in range(m)]


def read_system(sheet):
    """The tables of a sheet, with names made of numbers."""
    _, start, end, n, m = trailer(sheet)
    system = System(number_names(m), [read_record(sheet, j) for j in range(n)])
    for place in range(start, end, TRANSITION):
        j, *transition = sheet[place:place + TRANSITION]
        system.components[j].transitions.add(tuple(transition))
    return system


def read_execution(sheet):
    """The steps of a sheet."""
    section = step_section(sheet)
    return Execution([list(bits(whole(section, place, STEP))) for place in range(0, len(section), STEP)])


def decode(sheet):
    """The system and the execution of a sheet."""
    return read_system(sheet), read_execution(sheet)
