"""The proved calls: every call of include/oatmist.h as a function that gives its value, or raises `Refusal`.

A sheet, a product or columns are any bytes: a bytes, a bytearray or a memoryview. The functions keep nothing between calls and may be
called from several threads; ctypes lets other threads run meanwhile. The library is looked for at the first call (`library.find`). One of
another version than this package is a `Fault`, whatever the call: it may answer by other rules.

    sizes = check(sheet)                 # Sizes(components=2, actions=3, transitions_at=32, steps_at=52)
    sets = end_sets(sheet)               # [[1], [0]]: the states of each component
    data = restate(sheet)                # the restated sheet
"""
import ctypes
import functools
from typing import NamedTuple

from . import library
from .faults import Fault
from .model import bits
from .version import dotted, version as own_version

SHORTEST_SHEET, LONGEST_SHEET = 26, 16650
COMPONENTS = 16
REPORT_ROOM, ROWS_ROOM = 16384, 4362
STACK = 131072

LENGTH, MARK, COUNTS, OFFSETS, RECORD, UNUSED_ACTION, TRANSITION, ORDER = range(1, 9)
ACTIONS, STEP, CLASH, NOT_ENABLED, OUTPUT, TABLES = range(9, 15)
OF_STEPS = range(STEP, OUTPUT)  # these alone are about a step
PRODUCT, ROW, IDLE_COMPONENT = range(15, 18)
COLUMNS, NO_EXECUTION = range(18, 20)


class Refusal(Exception):
    """The desk refused: the number, the index of the step from 0, and which of two sheets."""

    def __init__(self, number, step, sheet):
        super().__init__(number, step, sheet)
        self.number, self.step, self.sheet = number, step, sheet


class Sizes(NamedTuple):
    """What the check answers for an accepted sheet."""

    components: int
    actions: int
    transitions_at: int
    steps_at: int


class Part(ctypes.Structure):
    """Some bytes of the caller: struct oatmist_part."""

    _fields_ = [("bytes", ctypes.c_void_p), ("length", ctypes.c_size_t)]


IN, OUT, SIZE = ctypes.c_char_p, ctypes.c_void_p, ctypes.c_size_t
ONE_SHEET = [IN, SIZE, OUT, SIZE]
WITH_OUTPUT = [IN, SIZE, OUT, SIZE, OUT, SIZE]
TWO_SHEETS = [IN, SIZE, IN, SIZE, OUT, SIZE]
ARGUMENTS = {
    "check": ONE_SHEET, "end_sets": ONE_SHEET, "process": ONE_SHEET, "figure": ONE_SHEET, "stuck": ONE_SHEET,
    "restate": WITH_OUTPUT, "report": WITH_OUTPUT, "rows": WITH_OUTPUT, "same_work": TWO_SHEETS, "winner": TWO_SHEETS,
    "columns": [IN, SIZE, *WITH_OUTPUT], "leaner": [IN, SIZE, IN, SIZE, ctypes.POINTER(Part)], "version": [],
}


def typed(desk, name):
    """A call of an opened library, with its types."""
    try:
        call = getattr(desk, "oatmist_" + name)
    except AttributeError:
        raise Fault(f"the library has no call oatmist_{name}: it belongs to another version of the desk", path=desk._name)
    call.argtypes = ARGUMENTS[name]
    call.restype = None if name == "leaner" else ctypes.c_uint64
    return call


@functools.lru_cache(maxsize=None)
def opened():
    """The library, opened once; its version is our own."""
    desk, own = library.opened(), own_version()
    told = dotted(typed(desk, "version")())
    if told != own:
        raise Fault(f"the library has version {told}, not {own}: it belongs to another version of the desk", path=desk._name)
    return desk


@functools.lru_cache(maxsize=None)
def function(name):
    """A call of the library."""
    return typed(opened(), name)


def plain(sheet):
    """The bytes of a sheet, which may also be a bytearray or a memoryview."""
    return memoryview(sheet).tobytes()


def ask(name, count, *sheets, lent=()):
    """Makes a call with these sheets and lent arrays; gives its `count` values, or raises its refusal."""
    values = (ctypes.c_uint64 * count)()
    given = [part for array in (*map(plain, sheets), *lent) for part in (array, len(array))]
    told = function(name)(*given, values, count)
    if told:
        raise Refusal(told & 255, told >> 16, told >> 8 & 255)
    return list(values)


def written(name, room, *given):
    """What a call writes into lent bytes."""
    out = ctypes.create_string_buffer(max(room, 1))
    length, = ask(name, 1, *given, lent=[out])
    return out.raw[:length]


def version():
    """The version of the library, as a number: 20000 for 2.0.0."""
    return function("version")()


def check(sheet):
    """Whether the sheet is accepted: its sizes."""
    return Sizes(*ask("check", 4, sheet))


def end_sets(sheet):
    """Where each component may be after the last step: for each the rising numbers of its states."""
    return [list(bits(states)) for states in ask("end_sets", COMPONENTS, sheet) if states]


def process(sheet):
    """None for a process execution, else the index of the first step that offends."""
    told, = ask("process", 1, sheet)
    return told - 1 if told else None


def restate(sheet):
    """The restated sheet. It is never longer than the sheet."""
    return written("restate", memoryview(sheet).nbytes, sheet)


def figure(sheet):
    """The concurrency figure F."""
    return ask("figure", 1, sheet)[0]


def stuck(sheet):
    """Whether no action is enabled at the end."""
    return ask("stuck", 1, sheet)[0] == 1


def report(sheet):
    """The text that the program `mark` prints; a refused sheet has one, too."""
    return written("report", REPORT_ROOM, sheet).decode("ascii")


def rows(product):
    """The sheet without steps that a product given by rows becomes; the product is any bytes."""
    return written("rows", ROWS_ROOM, product)


def columns(sheet, given):
    """The restated sheet over the tables of this one that has these columns, which are any bytes; the steps of this one play no part."""
    return written("columns", LONGEST_SHEET, sheet, given)


def same_work(first, second):
    """Whether two sheets differ in the order of independent actions alone."""
    return ask("same_work", 1, first, second)[0] == 1


def winner(first, second):
    """Which of two sheets has fewer restated steps: 0 for the first, also where they tie, 1 for the second."""
    return ask("winner", 1, first, second)[0]


def leaner(first, second):
    """The step section of that sheet; nothing for a refused pair."""
    part, first, second = Part(), plain(first), plain(second)
    function("leaner")(first, len(first), second, len(second), ctypes.byref(part))
    return ctypes.string_at(part.bytes, part.length) if part.length else b""
