"""A product of transition systems in memory, given by its global transitions, the rows; and the bytes that the desk takes for it.

Components, states, transitions and rows are numbered from 0 and have names beside it. Nothing here is a verdict: a `Product` may be one
that the desk refuses.

    product = Product(
        components=[
            Machine("A", ["s1", "s2"], initial=0, transitions=[Transition("t1", 0, 1)]),
            Machine("B", ["r1"], initial=0, transitions=[Transition("u1", 0, 0)]),
        ],
        rows=[Row("a", [0, None]), Row("b", [0, 0])],
    )
    data = encode(product)
"""
from dataclasses import dataclass, field
from typing import NamedTuple

from .model import DESK

IDLE = 255  # in a row: the component takes no transition
MOST = DESK._replace(components=255, actions=255, states=255, transitions=255)  # what a byte can count; the desk takes fewer


class Transition(NamedTuple):
    """A transition of one component: its name, and two of the states."""

    name: str
    source: int
    target: int


@dataclass
class Machine:
    """A component: a transition system with names. `line` is where it begins in its text."""

    name: str
    states: list = field(default_factory=list)  # their names
    initial: int = None
    transitions: list = field(default_factory=list)
    line: int = 0


class Row(NamedTuple):
    """A global transition: for each component the number of the transition that it takes, None where it idles."""

    name: str
    takes: list
    line: int = 0


@dataclass
class Product:
    """Components, and the rows in which they move together. `line` is where the rows begin in its text."""

    components: list = field(default_factory=list)
    rows: list = field(default_factory=list)
    line: int = 0

    @property
    def actions(self):
        """The names of the rows, which are the actions of the system that the product becomes."""
        return [row.name for row in self.rows]

    @property
    def alphabets(self):
        """Of each component the rows in which it takes part."""
        return [{number for number, row in enumerate(self.rows) if row.takes[index] is not None} for index in range(len(self.components))]


def encode(product):
    """The bytes of a product: the two counts, each component with its transitions, then the rows."""
    counts = bytes([len(product.components), len(product.rows)])
    rows = b"".join(bytes(IDLE if number is None else number for number in row.takes) for row in product.rows)
    return counts + b"".join(map(machine_bytes, product.components)) + rows


def machine_bytes(machine):
    """A component: its number of states, its initial state, its number of transitions, and source and target of each."""
    ends = (bytes([transition.source, transition.target]) for transition in machine.transitions)
    return bytes([len(machine.states), machine.initial, len(machine.transitions)]) + b"".join(ends)
