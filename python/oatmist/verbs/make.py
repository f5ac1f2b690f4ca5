"""Makes the sheet of a system and an execution. They stand in one
file or in two:

  oatmist make pair.txt -o pair.sheet
  oatmist make SYSTEM EXECUTION -o SHEET

The system may be a product that is given by its rows, which are its actions.
Whether the steps can be carried out is not asked: that is for 'mark' to say.
Of columns the sheet is the restated one that has them; where there is none,
nothing is written.
"""
import sys

from .. import inputs, manners
from ..faults import Fault
from ..sheet import encode

SUMMARY = "a sheet from a system and an execution"


def arguments(parser):
    inputs.add_both(parser)
    parser.add_argument("-o", metavar="FILE", dest="output", help="where the sheet goes; else to standard output")


def run(given):
    if given.output is None and sys.stdout is not None and sys.stdout.isatty():
        raise Fault("a sheet is no text for a terminal: give -o FILE")
    data = encode(*inputs.read_both(given.system, given.execution))
    manners.deliver(given.output, data)
    return manners.DONE
