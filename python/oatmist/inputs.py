"""Systems and executions from the files that a person names: texts of systems, of products and of executions, sheets and .aut files."""
import os

from . import aldebaran, calls, columns, files, rows, text
from .faults import Fault, Unfit, quoted
from .indices import Line
from .letters import decoded
from .mending import mending
from .model import Execution
from .reader import SystemReader
from .sheet import MARK, decode, encode, number_names

OTHER_SYSTEM = "this is over another system: its components or transitions differ, or are numbered in another order (14)"


def add_both(parser):
    """The arguments of a verb about one execution."""
    parser.add_argument("system", metavar="SYSTEM", help="a text of a system or a product, with or without an execution behind it; or a sheet")
    parser.add_argument("execution", metavar="EXECUTION", nargs="?", help="a text of steps or of columns, or a sheet over the same system")


def is_sheet(path, data):
    """Whether a file is a sheet: by its name, or since it has the closing mark and a zero byte, which no text has."""
    return path.endswith(".sheet") or data.endswith(MARK) and b"\0" in data


def open_sheet(data):
    """The system and the execution of a sheet. One that the desk refuses by 1 to 8 is told what to mend."""
    try:
        calls.check(data)
    except calls.Refusal as refusal:
        if refusal.number < calls.ACTIONS:
            raise Unfit("sheet", refusal.number, mending(data, refusal.number))
    return decode(data)


def read_text(written, folder=""):
    """The system and the execution of a text; a product becomes a system, and columns stay columns. Files that the text names are looked
    for in the folder; where that is None it may name none."""
    if not text.has_rows(written):
        return text.read(written, folder)
    product, execution = text.read_product(written, folder)
    return rows.system_of(product), execution


def parse(path, data):
    """The system and the execution of a file with these bytes; the execution is None where it has none."""
    if is_sheet(path, data):
        return open_sheet(data)
    folder, name = os.path.split("" if path == "-" else path)
    if name.endswith(".aut"):
        return SystemReader(folder).read([Line(1, f"component {aldebaran.action_name(name[:-4])} from {name}")])
    return read_text(decoded(data), folder)


def read_system(path):
    """The system of a file, and its execution: None where it has none, and columns where it is written so."""
    data = files.load(path)
    with files.naming(path):
        return parse(path, data)


def same_tables(system, other):
    """Whether two systems have the same components and transitions: the desk compares their sheets without steps."""
    try:
        calls.same_work(encode(system), encode(other))
    except calls.Refusal:
        return False
    return True


def check_names(system, other):
    """The actions of a text must be called as in the system, unless that is a sheet, which has no names."""
    for number, (due, name) in enumerate(zip(system.actions, other.actions)):
        if name != due and system.actions != number_names(len(system.actions)):
            raise Fault(f"action {number} is called {quoted(name)} here and {quoted(due)} in the system: "
                        "hand in the execution alone, in its names")


def need_steps(execution):
    """The execution of a text that must have one."""
    if execution is None:
        raise Fault("this is a system without an execution: write 'steps' and the steps, or 'columns' and the columns")
    return execution


def as_steps(path, system, execution):
    """The execution of a file as steps: columns become those that the desk makes of them."""
    with files.naming(path):
        return columns.execution_of(system, execution)


def read_execution(path, system):
    """The execution of a file, as steps: a text of steps or of columns, a text with its system and one of them, or a sheet; the system must
    be this one."""
    return as_steps(path, system, read_over(path, system))


def read_over(path, system):
    """The same, as it is written."""
    data = files.load(path)
    with files.naming(path):
        if not is_sheet(path, data) and not text.has_system(decoded(data)):
            return text.read_execution(decoded(data), system)
        other, execution = parse(path, data)
        if not same_tables(system, other):
            raise Fault(OTHER_SYSTEM, status=1)
        if not is_sheet(path, data):
            check_names(system, other)
        return need_steps(execution)


def read_both(system_path, execution_path=None):
    """The system and the execution of one file or of two."""
    if system_path == execution_path == "-":
        raise Fault("standard input has one file: name the other")
    system, execution = read_system(system_path)
    if execution_path is not None:
        return system, read_execution(execution_path, system)
    return system, as_steps(system_path, system, execution or Execution())
