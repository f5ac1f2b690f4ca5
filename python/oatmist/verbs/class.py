"""Marks every file in a folder, and puts those that do the same work into
classes.

A file is an execution as text, in steps or in columns, or a whole sheet;
folders in the folder count, too. Each file gets a line: accepted with its class
and K, C, F and D, refused with the number and the step, or other system. A file
that cannot be read or understood is listed apart and never marked, and so is a
link out of the folder. Of columns the restated sheet is marked, so that K is C.
Two sheets are in one class exactly when they are restated as the same
bytes; the SHA-256 of these is the name of the class, whole in CSV and JSON, its
first digits in the table. Steps count from 1 in the table, from 0 in CSV and
JSON. A receipt ends the output; with --csv or --json it goes to standard error.
"""
import argparse
import sys

from .. import calls, files, inputs, listings, manners, sittings, words
from ..classes import Classes
from ..faults import Fault, Unfit
from ..progress import watched
from ..receipts import receipt
from ..sheet import encode

SUMMARY = "a sitting: the classes of a folder of executions"
STATUS = """
here: 0 every file was marked, whatever its mark; 1 some file could not be read
or understood, or the model solution is refused; 2 could not be done"""


def part(word):
    """Which part of the files, as 3/8: the third of eight."""
    which, _, many = word.partition("/")
    if not (which.isdecimal() and many.isdecimal() and 1 <= int(which) <= int(many)):
        raise argparse.ArgumentTypeError("write I/N, such as 3/8 for the third part of eight")
    return int(which) - 1, int(many)


def arguments(parser):
    parser.add_argument("system", metavar="SYSTEM", help="the system: a text or a sheet")
    parser.add_argument("folder", metavar="FOLDER", help="what was handed in")
    parser.add_argument("--model", metavar="EXECUTION", help="the model solution: tells which class has it, and where others differ")
    form = parser.add_mutually_exclusive_group()
    form.add_argument("--csv", action="store_true", help="comma-separated values, the lines in the order of their bytes")
    form.add_argument("--json", action="store_true", help="a list of objects")
    parser.add_argument("--part", metavar="I/N", type=part, default=(0, 1), help="only each Nth file, from the Ith on: for many machines")
    parser.add_argument("--receipt", metavar="FILE", help="write the receipt there")
    parser.add_argument("-o", metavar="FILE", dest="output", help="write the lines there")
    parser.epilog += STATUS


def model_of(path, system):
    """The restated sheet of the model solution, which must be accepted; None where there is no path."""
    if path is None:
        return None
    try:
        execution = inputs.read_execution(path, system)
    except Unfit as fault:
        raise no_model(fault.number, fault.sentence, fault.line, fault.path)
    try:
        return calls.restate(encode(system, execution))
    except calls.Refusal as refusal:
        raise no_model(refusal.number, words.refused(system, execution, refusal), path=files.named(path))


def no_model(number, told, line=0, path=""):
    """Tells that the model solution is refused, and why."""
    return Fault(f"the model solution is refused by {number}. {told}", line, path, manners.REFUSED)


def listing(given, lines, classes, system):
    """The lines in the form that was asked for."""
    if given.csv:
        return listings.as_csv(lines, classes)
    if given.json:
        return listings.as_json(lines, classes)
    return "".join(listings.as_table(lines, classes, system))


def check_outputs(given):
    """Neither what was read nor what was handed in is written over."""
    for path in (given.output, given.receipt):
        if path is not None:
            files.spare(path)
            if files.inside(path, given.folder):
                raise Fault("this is in the folder of what was handed in: write somewhere else", path=path)
    if given.output and given.receipt and files.same(given.output, given.receipt):
        raise Fault("the lines and the receipt need a file each", path=given.receipt)


def give(given, told, ticket):
    """Writes the lines and the receipt, each where it belongs; the files all or none, and only once the lines are printed."""
    aside = given.csv or given.json
    if not aside and given.receipt is None:
        told += f"\nreceipt:\n{ticket}"
    if given.output is None:
        manners.say_now(told)
    outputs = ((given.output, told), (given.receipt, ticket))
    files.store_all({path: content.encode() for path, content in outputs if path is not None})
    if aside and given.receipt is None:
        manners.complain(f"receipt:\n{ticket}".rstrip())


def run(given):
    if given.system == given.model == "-":
        raise Fault("standard input has one file: name the other")
    system, _ = inputs.read_system(given.system)
    model = model_of(given.model, system)
    check_outputs(given)
    first, step = given.part
    names = sittings.names(given.folder)[first::step]
    marker, classes = sittings.Marker(system), Classes(model)
    lines = [sittings.marked(marker, classes, given.folder, name) for name in watched(names, sys.stderr)]
    counts = sittings.counts(lines)
    ticket = receipt(marker.bare, model and classes.list[0].name, counts, classes.filled())
    give(given, listing(given, lines, classes, system), "".join(listings.receipt_lines(ticket)))
    return manners.REFUSED if counts[sittings.UNREADABLE] else manners.DONE
