"""The readable text of systems, products and executions, read and written. docs/TEXT.md has the grammar.

    system, execution = read(text)                    # the execution is None where the text has none
    product, execution = read_product(text)           # of a text with 'rows'
    execution = read_execution(text, system)          # a text of steps or columns alone
    text = write(system, execution)

An execution is an `Execution`, or `Columns` where it is written so; `columns.execution_of` makes the one of the other.

What is wrong is told by `faults.Fault`, with its line and what to write instead. No verdict is given here: whether an execution can be
carried out, is too long or has an empty step is for the desk to say.
"""
import itertools

from .column_reader import ColumnLines
from .faults import Fault, quoted
from .indices import begins_columns, begins_rows, expanded, has_word, lines_of, meant
from .model import DESK, INTERNAL, Columns
from .product_reader import ProductReader
from .reader import SystemReader, no_columns
from .steps import Steps

WIDTH = 80


def read(text, folder="", limits=DESK):
    """The system of a text, and its execution. Files that the text names are looked for in the folder."""
    return SystemReader(folder, limits).read(lines_of(text))


def read_product(text, folder=""):
    """The product of a text, and its execution: steps of its rows."""
    return ProductReader(folder).read(lines_of(text))


def has_rows(text):
    """Whether a text describes a product: it has the word 'rows' before its rows."""
    return any(begins_rows(line.text) for line in lines_of(text))


def has_system(text):
    """Whether a text describes a system or a product, and not an execution alone."""
    lines = list(lines_of(text))
    return has_word(lines, "component", "actions") and not begins_columns(lines[0].text)


def read_execution(text, system):
    """The execution of a text that has it alone: columns below the word 'columns', or steps with or without the word 'steps' before them."""
    lines = list(lines_of(text))
    if not lines:
        raise Fault("nothing is written here: write steps or columns; an execution without steps is the word 'steps' alone")
    if begins_columns(lines[0].text):
        columns = ColumnLines(system, lines[0].number)
        return taken(itertools.islice(expanded(lines), 1, None), lambda line: columns.take(line.text, line.number), columns)
    steps = StepLines(system)
    for line in lines:
        if line.text[0] in "[(":
            raise Fault("a step stands between braces: write {a, b}", line.number)
    return taken(expanded(lines), lambda line: steps.take_line(line.text), steps)


def taken(lines, take, execution):
    """The execution, once its lines are taken one by one."""
    line = None
    try:
        for line in lines:
            take(line)
    except Fault as fault:
        raise fault if fault.line else Fault(fault.message + line.note, line.number)
    return execution.execution()


class StepLines(Steps):
    """Takes the lines of a text of steps alone."""

    begun = False

    def __init__(self, system):
        super().__init__(system.actions)
        self.components = system.components

    def take_line(self, text):
        """One line."""
        if not self.begun and not self.steps:
            self.check_first(text)
        if text.split(None, 1)[0] != "steps":
            self.take(text)
            return
        if self.begun or self.steps:
            raise Fault("'steps' stands a second time, or after steps: delete it")
        self.begun = True
        self.take(text[len("steps"):])

    def check_first(self, text):
        """The first line may show that columns are meant, or begin with a word that is not quite 'steps'."""
        no_columns(text, self.components)
        word = text.partition("{")[0].strip()
        if word != "steps" and meant(word) == "steps":
            raise Fault(f"not understood: {quoted(text)}; write 'steps'")


def named_lines(word, names, indent):
    """A line of names, or several where they are many."""
    line = indent + word
    for name in names:
        if len(line) + 1 + len(name) > WIDTH and line != indent + word:
            yield line
            line = indent + word
        line += " " + name
    yield line


def component_lines(system, component):
    """The lines of a component."""
    yield f"component {component.name}"
    yield from named_lines("states", component.states, "  ")
    yield from named_lines("initial", [component.states[state] for state in sorted(component.initial)], "  ")
    bare = set(component.alphabet)
    for source, label, target in sorted(component.transitions):
        arrow = "->" if label == INTERNAL else f"-{system.actions[label]}->"
        bare.discard(label)
        yield f"  {component.states[source]} {arrow} {component.states[target]}"
    if bare:
        yield from named_lines("also", [system.actions[action] for action in sorted(bare)], "  ")


def step_text(system, step):
    """A step; a bare number where the desk would refuse it by 10."""
    if not step or max(step) >= len(system.actions):
        return f"raw 0x{sum(1 << action for action in step):x}"
    return system.step(step)


def step_lines(system, execution):
    """The lines of an execution."""
    yield "steps"
    yield from (f"  {step_text(system, step)}" for step in execution.steps)


def column_lines(system, columns):
    """The lines of columns."""
    yield "columns"
    for component, actions in zip(system.components, columns.lists):
        yield " ".join([f"  {component.name}:", *(system.actions[action] for action in actions)])


def write_system(system):
    """The text of a system."""
    lines = list(named_lines("actions", system.actions, ""))
    for component in system.components:
        lines += component_lines(system, component)
    return "\n".join(lines) + "\n"


def write_execution(system, execution):
    """The text of an execution, as steps or as columns."""
    lines = column_lines if isinstance(execution, Columns) else step_lines
    return "\n".join(lines(system, execution)) + "\n"


def write(system, execution=None):
    """The text of both, or of the system alone."""
    return write_system(system) + (write_execution(system, execution) if execution else "")
