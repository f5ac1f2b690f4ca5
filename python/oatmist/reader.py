"""Takes the lines of a text one by one, and builds the system and the execution that they describe. docs/TEXT.md has the grammar.

`Reader` has what texts of systems and of products have alike, `SystemReader` what is particular to systems; `product_reader` has the rest.
"""
import re

from . import aldebaran
from .column_reader import ALONE, BELOW, ColumnLines, is_column
from .faults import Fault, cut, quoted
from .indices import begins_columns, expanded, has_word, meant, of_tables
from .letters import name_fault, odd_letter
from .model import DESK, INTERNAL, Component, System
from .steps import Steps

WORDS = ("actions", "component", "states", "initial", "also", "steps", "raw", "for", "from")
ARROW = re.compile(r"([^\s<>-]+)\s*-(?:\s*([^\s<>-]+)\s*-)?>\s*([^\s<>-]+)")
EXAMPLES = "write 'idle -produce-> full', or 'full -> idle' for an internal one"
NO_STATE, NO_INITIAL = "state: write 'states' and their names", "initial state: write 'initial' and a state"
NO_SYSTEM = "but no system: the file of the system comes first, then that of the execution"
SYSTEM_BELOW = "but its system stands below it: put the system first"
LINES = ("a line begins with actions, component, states, initial, also, rows, steps or columns, "
         "or is a transition such as 'idle -produce-> full'")


def no_columns(text, components):
    """Tells of a line that may be meant to begin columns, or to be one, where the word 'columns' has not stood."""
    word, *rest = text.split()
    if is_column(text, components):
        raise Fault(BELOW)
    if meant(word) == "columns":
        raise Fault(ALONE if rest else f"not understood: {quoted(text)}; write 'columns'")


class Reader:
    """Takes a text and fills its tables, a system or a product. `folder` is where the .aut files that it names are, None where it may name
    none; `made` makes a component, `words` are no names, and `lines` and `arrows` tell what to write."""

    made, words, lines, arrows = None, WORDS, "", ""

    def __init__(self, tables, folder, limits):
        self.tables, self.folder, self.limits = tables, folder, limits
        self.component = None
        self.places = {}  # components and transitions: their lines
        self.states = {}  # the states of the component: their numbers
        self.steps = None  # what takes the execution, once it has begun
        self.no_system = NO_SYSTEM  # what is told of an execution where no system stands above it
        self.line = None

    def read(self, lines):
        """The tables, and the execution where the text has one."""
        lines = list(lines)
        if has_word(lines, "component"):
            self.no_system = SYSTEM_BELOW
        try:
            for self.line in expanded(lines):
                self.take(self.line.text)
            if self.steps is None:
                self.end_tables()
        except Fault as fault:
            if fault.line or fault.path:
                raise
            raise Fault(fault.message + self.line.note, self.line.number, self.line.path) if self.line else fault
        return self.tables, None if self.steps is None else self.steps.execution()

    def fail(self, message, line=None):
        line = line or self.line
        raise Fault(message + (line.note if line else ""), line.number if line else 1, line.path if line else "")

    def take(self, text):
        word, *rest = text.split()
        if self.steps is not None:
            self.take_steps(word, text)
        elif word == "steps" or begins_columns(text):
            self.begin_execution(word, text)
        elif word == "component":
            self.take_component(rest)
        elif word == "actions":
            self.take_actions(rest)
        elif word in ("states", "initial", "also"):
            self.need_component(f"'{word}'")
            if not rest:
                self.fail(f"'{word}' names nothing: write a name behind it")
            getattr(self, "take_" + word)(rest)
        elif "->" in text:
            self.need_component(f"the transition {quoted(text)}")
            self.take_arrow(text)
        else:
            self.not_understood(word, text)

    def begin_execution(self, word, text):
        if self.component is None:
            self.fail(f"'{word}', {self.no_system}")
        self.end_tables()
        if word == "columns":
            self.steps = ColumnLines(self.tables, self.line.number)
            return
        self.steps = Steps(self.tables.actions)
        self.steps.take(text[len("steps"):])

    def not_understood(self, word, text):
        if text.startswith("{") or word == "raw":
            self.fail("a step, but there is no line 'steps' above it: write one" if self.component else f"a step, {self.no_system}")
        no_columns(text, self.tables.components)
        hint = f"write '{meant(word)}'" if meant(word) else odd_letter(text) or self.lines
        self.fail(f"not understood: {quoted(text)}; {hint}")

    def take_steps(self, word, text):
        if isinstance(self.steps, ColumnLines):
            self.steps.take(text, self.line.number)
            return
        if word == "steps":
            self.fail("'steps' stands twice: delete the second")
        if of_tables(text):
            self.fail("after 'steps' only steps may follow: {a, b} or raw 0x..")
        self.steps.take(text)

    def name(self, word):
        fault = name_fault(word)
        if fault:
            self.fail(fault)
        if word in self.words:
            self.fail(f"'{word}' is a word of the format and cannot be a name: write {word}1 or the like")
        return word

    def need_component(self, what):
        if self.component is None:
            self.fail(f"{what} stands before the first component: write 'component' and a name above it")

    def take_component(self, rest):
        if len(rest) != 1 and rest[1:2] != ["from"]:
            self.fail("'component' is followed by one name: write 'component Producer'")
        name = self.name(rest[0])
        if name in self.places:
            self.fail(f"component {quoted(name)} is already there, in line {self.places[name]}: write another name")
        if len(self.tables.components) == self.limits.components:
            self.fail(f"more than {self.limits.components} components: {quoted(name)} would be one too many")
        self.end_component()
        self.component, self.states = self.made(name), {}
        self.tables.components.append(self.component)
        self.places[name] = self.line.number
        self.begun = self.line
        if len(rest) > 1:
            self.take_file(self.line.text.partition(" from ")[2].strip().strip('"'))

    def take_file(self, name):
        """The lines of an .aut file, as if they stood here."""
        if self.folder is None:
            self.fail("a component from a file: hand in the execution alone")
        if not name:
            self.fail("'from' names no file: write 'from sender.aut'")
        here = self.line
        for self.line in aldebaran.lines(name, self.folder):
            self.take(self.line.text)
        self.line = here

    def state(self, word):
        if word not in self.states:
            known = cut(" ".join(self.component.states), 300) or "no states yet"
            self.fail(f"unknown state {quoted(self.name(word))}: component {quoted(self.component.name)} has {known}")
        return self.states[word]

    def take_states(self, rest):
        component = self.component
        for word in rest:
            if self.name(word) in self.states:
                self.fail(f"state {quoted(word)} is named twice in component {quoted(component.name)}: delete one")
            if len(component.states) == self.limits.states:
                self.fail(f"more than {self.limits.states} states in component {quoted(component.name)}: "
                          f"{quoted(word)} would be one too many")
            self.states[word] = len(component.states)
            component.states.append(word)

    def arrow(self, text):
        """A transition: the number of its source, its label or None, the number of its target."""
        found = ARROW.fullmatch(text)
        if not found:
            self.fail(f"no transition: {quoted(text)}; {odd_letter(text) or self.arrows}")
        source, label, target = found.groups()
        return self.state(source), label, self.state(target)

    def end_component(self):
        """Sees that the component has all that it needs: `needs` gives what it has, and what to write where it has none."""
        for given, what in self.needs() if self.component else ():
            if not given:
                self.fail(f"component {quoted(self.component.name)} has no {what}", self.begun)

    def end_components(self):
        """Sees that there is a component, and that the last one is whole."""
        self.end_component()
        if self.component is None:
            self.fail("there is no component: write 'component' and a name")


class SystemReader(Reader):
    """Takes the text of a system."""

    made, lines, arrows = Component, LINES, EXAMPLES

    def __init__(self, folder="", limits=DESK):
        super().__init__(System(), folder, limits)
        self.declared = {}  # actions that an 'actions' line names: that line
        self.numbers = {}  # every action: its number

    def add_action(self, name):
        if len(self.tables.actions) == self.limits.actions:
            self.fail(f"more than {self.limits.actions} actions: {quoted(name)} would be one too many")
        self.numbers[name] = len(self.tables.actions)
        self.tables.actions.append(name)

    def take_actions(self, rest):
        if self.component is not None:
            self.fail("'actions' must stand before the first component")
        if not rest:
            self.fail("'actions' names nothing: write a name behind it")
        for word in rest:
            if self.name(word) in self.declared:
                self.fail(f"action {quoted(word)} is named twice: delete one")
            self.add_action(word)
            self.declared[word] = self.line

    def action(self, word):
        """The number of an action, which the component now has in its alphabet."""
        if word not in self.numbers:
            self.name(word)
            if self.declared:
                self.fail(f"action {quoted(word)} is not in the 'actions' line: add it there, or correct it here")
            self.add_action(word)
        self.component.alphabet.add(self.numbers[word])
        return self.numbers[word]

    def take_initial(self, rest):
        self.component.initial.update(map(self.state, rest))

    def take_also(self, rest):
        for word in rest:
            self.action(word)

    def take_arrow(self, text):
        source, label, target = self.arrow(text)
        transition = source, INTERNAL if label is None else self.action(label), target
        place = self.component.name, transition
        if place in self.places:
            self.fail(f"this transition is already there, in line {self.places[place]}: delete one")
        if sum(len(component.transitions) for component in self.tables.components) == self.limits.transitions:
            self.fail(f"more than {self.limits.transitions:,} transitions")
        self.component.transitions.add(transition)
        self.places[place] = self.line.number

    def needs(self):
        yield self.component.states, NO_STATE
        yield self.component.initial, NO_INITIAL
        yield self.component.alphabet, "action: give a transition a label, or write 'also' and an action"

    def end_tables(self):
        self.end_components()
        used = set().union(*(component.alphabet for component in self.tables.components))
        for name, number in self.numbers.items():
            if number not in used:
                self.fail(f"action {quoted(name)} is in no alphabet: delete it, or give a component a transition with it",
                          self.declared[name])
