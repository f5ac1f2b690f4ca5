"""The lines of a sitting, written for people, as CSV or as JSON.

For machines a class has its whole name and steps count from 0. For people it has the first digits of its name and steps count from 1.
"""
import csv
import io
import json
from unicodedata import category

from . import calls
from .faults import printable, shown
from .model import bits
from .sittings import ACCEPTED, REFUSED, UNREADABLE
from .widths import columns_of

FIGURES = ("K", "C", "F", "D")
HEAD = ("file", "verdict", "number", "step", "class", *FIGURES, "model", "differs", "reason")
FORMULA = tuple("=+-@'")  # with what a cell begins that is not taken as it is
WIDEST = 40  # columns of the table for a file's name; a longer one pushes the rest of its line aside


def fields(line, classes):
    """What applies to a line, by the words of HEAD."""
    told = {"file": line.file, "verdict": line.verdict}
    if line.number is not None:
        told.update(number=line.number, step=line.step)
    if line.verdict == ACCEPTED:
        group = classes.list[line.group]
        told.update({"class": group.name}, **dict(zip(FIGURES, line.figures)))
        if classes.model is not None:
            told["model"] = group.differs is None
            if group.differs is not None:
                told["differs"] = group.differs
    if line.reason:
        told["reason"] = line.reason
    return told


# ---- for machines


def as_json(lines, classes):
    """A list of objects, one in a line."""
    return "[" + ",".join("\n" + json.dumps(fields(line, classes)) for line in lines) + "\n]\n"


def cell(value):
    """A value in a table of text. One that a spreadsheet would take as a formula has ' before it, and so has one that begins with '."""
    if isinstance(value, bool):
        return "yes" if value else "no"
    if not isinstance(value, str):
        return value
    return ("'" if value[:1] in FORMULA else "") + "".join(letter if category(letter) == "Zs" else printable(letter) for letter in value)


def row(values):
    """A line of CSV."""
    line = io.StringIO()
    csv.writer(line, lineterminator="\n").writerow(map(cell, values))
    return line.getvalue()


def as_csv(lines, classes):
    """A line of column names, then the files' lines in the order of their bytes: parts of a sitting join by sorting."""
    rows = (row(map(fields(line, classes).get, HEAD)) for line in lines)
    return row(HEAD) + "".join(sorted(rows, key=str.encode))


# ---- for people


def padded(text, width):
    return text + " " * (width - columns_of(text))


def verdict(line):
    """The verdict in words."""
    if line.verdict == REFUSED:
        return f"refused {line.number}" + (f" at step {line.step + 1}" if line.number in calls.OF_STEPS else "")
    return {ACCEPTED: "accepted"}.get(line.verdict, "other system (14)")


def as_table(lines, classes, system):
    """A line for each file that was marked, the others apart, then the classes."""
    marked = [line for line in lines if line.verdict != UNREADABLE]
    others = [line for line in lines if line.verdict == UNREADABLE]
    yield from marked_lines(marked, classes)
    if others:
        yield "\nnot read, not marked:\n"
        yield from (f"  {shown(line.file, 200)}: {line.reason}\n" for line in others)
    if classes.list:
        yield "\nclasses:\n"
        yield from class_lines(classes, system)


def marked_lines(lines, classes):
    """The table of the marked files."""
    files = [shown(line.file, 200) for line in lines]
    width = max([4, *(min(columns_of(file), WIDEST) for file in files)])
    short = classes.short()
    digits = max([5, *map(len, short)])
    yield f"{padded('file', width)}  {'verdict':21}  {'class':{digits}}     K     C    F  D\n"
    for file, line in zip(files, lines):
        front = f"{padded(file, width)}  {verdict(line):21}"
        if line.verdict == ACCEPTED:
            k, c, f, d = line.figures
            front += f"  {short[line.group]:{digits}}  {k:4}  {c:4}  {f:3}  {d}"
        yield front.rstrip() + "\n"


def class_lines(classes, system):
    """A line for each class: the largest first, then by name."""
    short = classes.short()
    digits = max(map(len, short))
    for index in sorted(range(len(short)), key=lambda index: (-classes.list[index].count, classes.list[index].name)):
        told = f"{how_many(classes.list[index])}{compared(classes, index, system)}"
        yield f"  {short[index]:{digits}}  {told}\n"


def how_many(group):
    """How many sheets a class has, and one of them."""
    if group.count == 0:
        return "no sheet"
    return f"1 sheet, {shown(group.first)}" if group.count == 1 else f"{group.count:,} sheets, such as {shown(group.first)}"


def compared(classes, index, system):
    """How a class differs from the model solution's."""
    if classes.model is None:
        return ""
    if classes.list[index].differs is None:
        return ": the model solution's class"
    number = classes.list[index].differs + 1
    here, there = (None if step is None else shown(system.step(bits(step)), 200) for step in classes.difference(index))
    if here is None:
        return f": ends before restated step {number}, {there} in the model solution"
    if there is None:
        return f": goes on with restated step {number}, {here}, where the model solution ends"
    return f": restated step {number} is {here}, in the model solution {there}"


def receipt_lines(receipt):
    """The receipt, a line for each word."""
    yield from (f"  {word:12}  {value:,}\n" if isinstance(value, int) else f"  {word:12}  {value}\n" for word, value in receipt)
