"""The bytes of a product, from its lines (B5): README.md has the notation."""
import re

IDLE = 255


class Component:
    """A component: its state count, its initial state, and source and target of each transition."""

    def __init__(self, states, initial):
        self.states, self.initial, self.transitions = int(states), int(initial), []

    def bytes(self):
        ends = [state for transition in self.transitions for state in transition]
        return bytes([self.states, self.initial, len(self.transitions), *ends])


def add_line(components, rows, text):
    """Adds what a line says: a component, a transition of the last component, or a row."""
    if found := re.fullmatch(r"component ([0-9]+) states?, initial ([0-9]+)", text):
        components.append(Component(*found.groups()))
    elif components and (found := re.fullmatch(r"([0-9]+) -> ([0-9]+)", text)):
        components[-1].transitions.append(tuple(map(int, found.groups())))
    elif re.fullmatch(r"row( ([0-9]+|-))*", text):
        rows.append([IDLE if word == "-" else int(word) for word in text.split()[1:]])
    else:
        raise ValueError(f"not understood: '{text}'")


def encode(texts):
    """The bytes of a product; ValueError where a line is not understood, or a number is larger than a byte."""
    components, rows = [], []
    for text in texts:
        add_line(components, rows, text)
    if any(len(row) != len(components) for row in rows):
        raise ValueError("a row has a number, or -, for each component")
    parts = [component.bytes() for component in components] + [bytes(row) for row in rows]
    return bytes([len(components), len(rows)]) + b"".join(parts)
