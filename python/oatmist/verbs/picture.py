"""Draws an execution as SVG, as it is given and, below, as it is restated: a
lane for each component, a column for each step, a box for each action over the
lanes of its components. Where these are not neighbours, the box is narrow on
the lanes between them, and their lines pass through it. Columns have no steps:
an execution that is written so is drawn as it is restated alone.

Of an execution that the desk refuses by 9 to 12 the picture has the steps as
given, with a dashed frame around the step that is wrong; the refusal is told on
standard error, and the exit status is 1. Any other refusal gives no picture.

Many programs show no picture that is higher than 32,767 units: of a long
execution draw some steps, by --from and --to.
"""
import argparse
import os

from .. import calls, files, inputs, manners, words
from ..faults import Fault, shown
from ..pictures import Part, draw
from ..sheet import encode, read_execution

SUMMARY = "an execution drawn, as given and restated"


def arguments(parser):
    inputs.add_both(parser)
    parser.add_argument("--from", metavar="STEP", dest="first", type=step_number, default=1, help="the first step to draw, counted from 1")
    parser.add_argument("--to", metavar="STEP", dest="last", type=step_number, help="the last step to draw")
    parser.add_argument("-o", metavar="FILE.svg", dest="output", help="where the picture goes; else to standard output")


def step_number(word):
    """A step, counted from 1."""
    if not word.isdecimal() or int(word) < 1:
        raise argparse.ArgumentTypeError("steps are counted from 1")
    return int(word)


def events(system, step):
    """The actions of a step with the lanes of their components; a number that is no action has no lanes and is left out."""
    return [(system.actions[action], lanes(system, action)) for action in step if action < len(system.actions)]


def lanes(system, action):
    """The components that take part in an action, by their numbers."""
    return [j for j, component in enumerate(system.components) if action in component.alphabet]


def part(system, title, execution, chosen, fault="", faulty=None):
    """The chosen steps of an execution, a slice, as a part of the picture."""
    many, steps = len(execution.steps), execution.steps[chosen]
    told = f"{title}: {many:,} step{'' if many == 1 else 's'}{fault}"
    if len(steps) < many:
        told += f", {chosen.start + 1:,} to {chosen.start + len(steps):,} drawn" if steps else ", none drawn"
    return Part(told, [events(system, step) for step in steps], faulty, chosen.start)


def parts(system, execution, chosen):
    """What is drawn of the chosen steps, and the refusal, if there is one."""
    try:
        restated = read_execution(calls.restate(encode(system, execution)))
    except calls.Refusal as refusal:
        if refusal.number < calls.ACTIONS:
            raise words.fault(system, execution, refusal)
        fault, faulty = f", refused by {refusal.number}", None
        if refusal.number in calls.OF_STEPS:
            fault, faulty = f"{fault} at step {refusal.step + 1}", refusal.step
        return [part(system, "as given", execution, chosen, fault, faulty)], refusal
    given = [] if execution.of_columns else [part(system, "as given", execution, chosen)]
    return [*given, part(system, "restated", restated, chosen)], None


def run(given):
    if given.last is not None and given.last < given.first:
        raise Fault(f"there is no step from {given.first} to {given.last}")
    if given.output and not given.output.endswith(".svg") and not files.special(given.output):
        raise Fault("name a file that ends in .svg", path=given.output)
    system, execution = inputs.read_both(given.system, given.execution)
    if given.first > max(1, len(execution.steps)):
        raise Fault(f"there is no step {given.first:,}: the execution has {len(execution.steps):,}")
    drawn, refusal = parts(system, execution, slice(given.first - 1, given.last))
    title = ", ".join(shown(os.path.basename(path)) for path in (given.system, given.execution) if path)
    picture = draw(title, [component.name for component in system.components], drawn)
    manners.deliver(given.output, picture.encode())
    if refusal:
        manners.complain(words.verdict(system, execution, refusal).rstrip())
    return manners.REFUSED if refusal else manners.DONE
