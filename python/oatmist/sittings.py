"""A sitting: the files of a folder, each marked by the proved calls, and the accepted ones in classes of the same work.

    marker, classes = Marker(system), Classes()
    for name in names("handed-in"):
        line = marked(marker, classes, "handed-in", name)

A file is an execution as text, in steps or in columns, a text of a whole system with its execution, or a sheet. Of each file a sitting keeps
its `Line`.
"""
import codecs
import os
import stat
from typing import NamedTuple

from . import calls, columns, inputs, sheet, text
from .faults import Fault
from .files import LONGEST, explain, inside
from .inputs import is_sheet
from .letters import decoded
from .model import Columns, Execution

ACCEPTED, REFUSED, OTHER_SYSTEM, UNREADABLE = "accepted", "refused", "other-system", "unreadable"
VERDICTS = (ACCEPTED, REFUSED, OTHER_SYSTEM, UNREADABLE)
UTF16 = codecs.BOM_UTF16_LE, codecs.BOM_UTF16_BE  # texts with zeros, which `decoded` knows


class Line(NamedTuple):
    """What a sitting tells about a file. `step` counts from 0, `group` is the index of the class, `figures` is K, C, F and D."""

    file: str
    verdict: str
    number: int = None
    step: int = None
    group: int = None
    figures: tuple = ()
    reason: str = ""


# ---- the files


def names(folder):
    """The files in a folder and in the folders below it, by their paths from it, in the order of their bytes."""
    if not os.path.isdir(folder):
        raise Fault("there is no such folder" if not os.path.exists(folder) else "this is no folder", path=folder)
    found = sorted(below(folder), key=os.fsencode)
    if not found:
        raise Fault("there is no file in this folder", path=folder)
    return found


def below(folder):
    """These paths, in any order. A folder that cannot be looked into and a link to a folder are files that cannot be read."""
    waiting = [""]
    while waiting:
        front = waiting.pop()
        here = os.path.join(folder, front) if front else folder
        try:
            with os.scandir(here) as entries:
                for entry in entries:
                    path = os.path.join(front, entry.name)
                    if entry.is_dir(follow_symlinks=False):
                        waiting.append(path)
                    else:
                        yield path
        except OSError as error:
            if not front:
                raise Fault(explain(error), path=folder) from None
            yield front


def without_waiting(path, flags):
    """Opens a file; a pipe that nobody writes to does not hold us up."""
    return os.open(path, flags | os.O_NONBLOCK)


def contents(folder, name):
    """The bytes of a file that somebody handed in."""
    path = os.path.join(folder, name)
    if os.path.islink(path) and not inside(path, folder):
        raise Fault("this is a link out of the folder: put the file itself here")
    try:
        with open(path, "rb", buffering=0, opener=without_waiting) as file:
            told = os.fstat(file.fileno())
            if not stat.S_ISREG(told.st_mode):
                raise Fault("this is no file, but a device or a pipe")
            if told.st_size > LONGEST:
                raise Fault(f"more than {LONGEST:,} bytes: this is no execution and no sheet")
            data = file.read(told.st_size + 1)
    except OSError as error:
        raise Fault(explain(error)) from None
    if len(data) != told.st_size:
        raise Fault("this file changed while it was read")
    return data


# ---- verdicts


def is_text(data):
    """Whether these bytes are a text."""
    try:
        decoded(data)
    except Fault:
        return False
    return True


class Marker:
    """Marks files over one system."""

    def __init__(self, system):
        self.system, self.form = system, sheet.Form(system)
        self.bare = self.form.sheet(Execution())
        for name in calls.ARGUMENTS:  # built first where that is needed, and whole, before anybody waits for the first file
            calls.function(name)

    def sheet_of(self, name, data):
        """The sheet of a file, and whether it came with tables of its own."""
        if data and is_sheet(name, data):
            if is_text(data):
                raise Fault("this is named as a sheet, but it is a text: name it .txt")
            return data, True
        if b"\0" in data and not data.startswith(UTF16):
            raise Fault("this is no text, and no sheet: a sheet ends in hexadecimal 46 53")
        written = decoded(data)
        if not text.has_system(written):
            return columns.sheet_of(self.form, text.read_execution(written, self.system)), False
        return own_sheet(written, self.system), True

    def same_tables(self, given):
        """Raises a refusal of the sheet, or 14 where it is over other tables; 14 comes before what is wrong with its steps."""
        try:
            calls.same_work(self.bare, given)
        except calls.Refusal as refusal:
            if refusal.number in range(calls.ACTIONS, calls.OUTPUT):
                calls.same_work(self.bare, b"".join(sheet.tables(given)))
            raise

    def restated(self, name, data):
        """The sheet of a file, and the same restated; or `Fault` or `calls.Refusal`."""
        given, own_tables = self.sheet_of(name, data)
        if own_tables:
            self.same_tables(given)
        return given, calls.restate(given)


def own_sheet(written, system):
    """The sheet of a text with a system or a product of its own, which names no other files, and calls the actions as this one does where
    it has the same tables. Over other tables columns are not looked at: the sheet then has no steps, and is refused by 14."""
    own, execution = inputs.read_text(written, folder=None)
    inputs.need_steps(execution)
    if inputs.same_tables(system, own):
        inputs.check_names(system, own)
    elif isinstance(execution, Columns):
        return sheet.encode(own)
    return columns.sheet_of(sheet.Form(own), execution)


def figures(given):
    """K, C, F and D of an accepted sheet, from the first line of its report."""
    return tuple(map(int, calls.report(given).partition("\n")[0].split()[1:]))


def marked(marker, classes, folder, name):
    """The line of a file; an accepted one is put into its class (`classes.Classes`)."""
    try:
        given, restated = marker.restated(name, contents(folder, name))
    except Fault as fault:
        return Line(name, UNREADABLE, reason=str(fault))
    except calls.Refusal as refusal:
        verdict = OTHER_SYSTEM if refusal.number == calls.TABLES else REFUSED
        return Line(name, verdict, refusal.number, refusal.step)
    return Line(name, ACCEPTED, group=classes.put(restated, name), figures=figures(given))


def counts(lines):
    """How many files have each verdict."""
    told = dict.fromkeys(VERDICTS, 0)
    for line in lines:
        told[line.verdict] += 1
    return told
