"""Components from .aut files and to them: the Aldebaran format, as CADP, mCRL2 and CAAL write it.

A file has a first line `des (0, 5, 4)` with the initial state, the number of transitions and the number of states; then a line
`(0, "label", 1)` for each transition. The labels `i` and `tau` are internal. States are called by their numbers.
"""
import os
import re

from . import files
from .faults import Fault, cut, quoted
from .indices import Line
from .letters import allowed
from .model import INTERNAL

FIRST = re.compile(r"des\s*\(\s*([0-9]{1,9})\s*,\s*([0-9]{1,9})\s*,\s*([0-9]{1,9})\s*\)")
ARROW = re.compile(r"\(\s*([0-9]{1,9})\s*,(.*),\s*([0-9]{1,9})\s*\)")
SILENT = ("i", "tau")
MOST = 1024  # states that are read before the text's own limit is looked at


def lines(name, folder=""):
    """The lines of a text that say the same as a file: states, initial state, transitions. Faults name the file."""
    path = os.path.join(folder, name)
    text = files.load_text(path)
    rows = [Line(number, row.strip(), path=path) for number, row in enumerate(text.split("\n"), 1) if row.strip()]
    names = {}
    for k, row in enumerate(rows or [Line(1, "", path=path)]):
        try:
            said = list(head(row.text, len(rows) - 1)) if k == 0 else [arrow(row.text, names)]
        except Fault as fault:
            raise Fault(fault.message, row.number, path)
        yield from (row._replace(text=line) for line in said)


def head(row, count):
    """The first line, as lines of a text."""
    found = FIRST.fullmatch(row)
    if not found:
        raise Fault(f"no first line of an .aut file: {quoted(row)}; it is 'des (0, transitions, states)'")
    initial, transitions, states = map(int, found.groups())
    if transitions != count:
        raise Fault(f"the first line tells {transitions} transitions, but {count} follow: correct the number")
    yield "states " + " ".join(map(str, range(min(states, MOST))))
    yield f"initial {initial}"


def arrow(row, names):
    """A transition, as a line of a text."""
    found = ARROW.fullmatch(row)
    if not found:
        raise Fault(f"no transition of an .aut file: {quoted(row)}; write (0, \"label\", 1)")
    source, label, target = found[1], found[2].strip().strip('"'), found[3]
    if label in SILENT:
        return f"{int(source)} -> {int(target)}"
    name = action_name(label)
    if names.setdefault(name, label) != label:
        raise Fault(f"the labels {quoted(names[name])} and {quoted(label)} both become {quoted(name)}: rename one")
    return f"{int(source)} -{name}-> {int(target)}"


def action_name(label):
    """A label as a name of the text: what no name has becomes _, once for each run: send(1,true) is send_1_true."""
    name = re.sub("\0+", "_", "".join(letter if allowed(letter) else "\0" for letter in label).rstrip("\0"))
    if not name:
        raise Fault(f"the label {quoted(label)} has nothing that a name can have: give it a letter")
    return name


def written(system, component):
    """A component as an .aut file."""
    if len(component.initial) > 1:
        raise Fault(f"component {quoted(component.name)} has {len(component.initial)} initial states, an .aut file has one: "
                    "add a state with internal transitions to them")
    initial, = component.initial
    rows = [f"des ({initial}, {len(component.transitions)}, {len(component.states)})"]
    for source, label, target in sorted(component.transitions):
        rows.append(f"({source}, {label_of(system, label)}, {target})")
    return "\n".join(rows) + "\n"


def label_of(system, label):
    """A label as it is written: i for the internal one, a name between quotes."""
    if label == INTERNAL:
        return "i"
    name = system.actions[label]
    if name in SILENT:
        raise Fault(f"the action {quoted(name)} would be internal in an .aut file: rename it")
    return f'"{cut(name, 1000)}"'


def left_out(system, component):
    """The actions of a component that its .aut file does not have: those without a transition."""
    named = {label for _, label, _ in component.transitions}
    return [system.actions[action] for action in sorted(component.alphabet - named)]
