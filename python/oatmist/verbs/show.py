"""Shows a sheet or a text as a text, with every component by itself. A product
given by rows is shown as the system that it becomes.

With --columns the execution is shown as columns: for each component its own
actions in order. Accepted executions do the same work exactly when their columns
are the same. Where the columns are too many to be handed in, a note on standard
error says so. With --steps it is shown as steps, also where it is written as
columns.

A sheet has no names. Components are called c0, c1 .., states s0 .., actions
a0 .., unless --names gives a file over the same components and transitions;
the names of another system are refused.
"""
import os

from .. import aldebaran, calls, columns, files, inputs, manners, text, words
from ..faults import Fault, Unfit, listed
from ..model import Columns, Execution
from ..sheet import encode

SUMMARY = "a sheet as a text"


def arguments(parser):
    parser.add_argument("file", metavar="FILE", help="a sheet, or a text")
    parser.add_argument("--names", metavar="SYSTEM", help="take the names from this file")
    alone = parser.add_mutually_exclusive_group()
    alone.add_argument("--steps", action="store_true", help="show the execution alone")
    alone.add_argument("--columns", action="store_true", help="show the execution alone, as columns")
    parser.add_argument("--aut", metavar="FOLDER", help="write each component to an .aut file in this folder instead")
    parser.add_argument("-o", metavar="FILE", dest="output", help="where the text goes; else to standard output")


def named(path, system):
    """The same system with the names of a file."""
    names, _ = inputs.read_system(path)
    if not inputs.same_tables(system, names):
        raise Fault("these are the names of another system: its components or transitions differ, or are numbered in another order",
                    path=path, status=manners.REFUSED)
    return names


def write_components(system, folder):
    """An .aut file for each component, once all of them can be written."""
    written = {os.path.join(folder, f"{component.name}.aut"): aldebaran.written(system, component).encode() for component in system.components}
    for component in system.components:
        lost = aldebaran.left_out(system, component)
        if lost:
            manners.complain(f"{component.name}.aut cannot say that {component.name} has {listed(lost)} without a transition")
    files.make_folder(folder)
    files.store_all(written)


def as_columns(path, system, execution):
    """The columns of an execution that the desk accepts."""
    if isinstance(execution, Columns):
        inputs.as_steps(path, system, execution)
        return execution
    try:
        calls.check(encode(system, execution))
    except calls.Refusal as refusal:
        with files.naming(path):
            raise words.fault(system, execution, refusal)
    made = columns.of_execution(system, execution)
    warn(system, made)
    return made


def warn(system, made):
    """Says where columns of an accepted execution cannot be handed in: they have too many actions together."""
    try:
        columns.execution_of(system, made)
    except Unfit as fault:
        manners.complain(f"the execution is accepted, but handed in as columns it is refused by {fault.number}: {fault.sentence}")


def alone(given, system, execution):
    """The execution without its system, in the form that was asked for."""
    written = as_columns if given.columns else inputs.as_steps
    return text.write_execution(system, written(given.file, system, execution))


def run(given):
    if given.aut is not None and (given.steps or given.columns or given.output is not None):
        raise Fault("--aut writes components to files of their own: leave out -o, --steps and --columns")
    system, execution = inputs.read_system(given.file)
    if given.names is not None:
        system = named(given.names, system)
    if given.aut is not None:
        write_components(system, given.aut)
        return manners.DONE
    shown = alone(given, system, execution or Execution()) if given.steps or given.columns else text.write(system, execution)
    manners.deliver(given.output, shown.encode())
    return manners.DONE
