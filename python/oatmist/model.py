"""A system and an execution in memory: what every other module works on.

Components, states and actions are numbered from 0, as in a sheet, and have names beside it. Nothing here is a verdict: a `System` may be
one that the desk refuses.

    system = System(
        actions=["produce", "start", "deliver"],
        components=[
            Component("Producer", ["idle", "full"], initial={0}, alphabet={0, 2}, transitions={(0, 0, 1), (1, 2, 0)}),
            Component("Consumer", ["rest", "warming", "open"], {0}, {1, 2}, {(0, 1, 1), (1, INTERNAL, 2), (2, 2, 0)}),
        ],
    )
    execution = Execution([[0], [1], [2], [0]])
"""
from dataclasses import dataclass, field
from typing import NamedTuple

INTERNAL = 255  # the label of an internal transition


class Limits(NamedTuple):
    """How much a sheet holds at most."""

    components: int
    actions: int
    states: int  # of a component
    transitions: int
    steps: int
    events: int  # actions over all steps


DESK = Limits(components=16, actions=64, states=32, transitions=2048, steps=1024, events=1024)


@dataclass
class Component:
    """A labelled transition system with names."""

    name: str
    states: list = field(default_factory=list)  # their names
    initial: set = field(default_factory=set)  # numbers of states
    alphabet: set = field(default_factory=set)  # numbers of actions
    transitions: set = field(default_factory=set)  # (source, label, target); the label is an action or INTERNAL

    def moves(self, states):
        """The actions for which some of these states has a transition, rising."""
        return sorted({label for source, label, _ in self.transitions if source in states and label != INTERNAL})


@dataclass
class System:
    """Components that move together on the actions that they share."""

    actions: list = field(default_factory=list)  # their names
    components: list = field(default_factory=list)
    dropped: list = field(default=None, compare=False)  # of a product: its components with transitions that no row names; else None

    @property
    def alphabets(self):
        """Of each component its alphabet."""
        return [component.alphabet for component in self.components]

    def takers(self, action):
        """The components that have the action in their alphabet."""
        return [component for component in self.components if action in component.alphabet]

    def action(self, number):
        """The name of an action; of a number that the system does not have, the number."""
        return self.actions[number] if number < len(self.actions) else str(number)

    def step(self, actions):
        """A step as it is written in a text: {produce, start}."""
        return "{" + ", ".join(self.action(number) for number in actions) + "}"


@dataclass
class Execution:
    """Steps, each the numbers of its actions in the order of the text. One that the desk refuses may be empty, or have numbers up to 63."""

    steps: list = field(default_factory=list)
    of_columns: bool = field(default=False, compare=False)  # whether the desk made them of columns

    def front(self, count):
        """The execution of the first steps."""
        return Execution(self.steps[:count])


@dataclass
class Columns:
    """An execution as columns: of each component the numbers of its own actions in order. `lines` is where they stand in their text."""

    lists: list = field(default_factory=list)
    lines: list = field(default_factory=list, compare=False)


def bits(number):
    """The elements of a set that is stored as a number, bit i for element i: the lowest, then those of the set without it."""
    while number:
        yield (number & -number).bit_length() - 1
        number &= number - 1


def number(elements):
    """The number that stores a set."""
    return sum(1 << element for element in set(elements))
