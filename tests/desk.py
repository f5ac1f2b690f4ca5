"""The proved library from Python: the calls that include/oatmist.h declares, each answer in words (S6, O4, O7, A2).

`build` alone knows the library's name; `ask` alone knows by which numbers a call answers. The leaner answer is no number.
"""
import ctypes
import os
import subprocess

KEPT = 0xEEEEEEEEEEEEEEEE  # what stands in the lent array before a call


def build():
    """The path of the shared library, which tools/build makes."""
    subprocess.run(["tools/build", "shared"], check=True)
    return "target/staticlib/liboatmist.so"


class Part(ctypes.Structure):
    """Some bytes of the caller: struct oatmist_part."""

    _fields_ = [("bytes", ctypes.POINTER(ctypes.c_ubyte)), ("length", ctypes.c_size_t)]


def lent(data):
    """A copy of the bytes that a call can be given."""
    return (ctypes.c_ubyte * len(data)).from_buffer_copy(data)


def place(part, sheets):
    """Where a part lies: the index of the sheet and the place in it; None where it lies in no sheet."""
    start = ctypes.addressof(part.bytes.contents)
    for index, sheet in enumerate(sheets):
        at = start - ctypes.addressof(sheet)
        if 0 <= at and at + part.length <= len(sheet):
            return index, at
    return None


class Desk:
    """The calls, by the shared library that `build` makes."""

    def __init__(self):
        self.library = ctypes.CDLL(os.path.abspath(build()))

    def ask(self, call, *slices):
        """Makes a call with these arrays and lengths, and gives its answer in words."""
        values = (ctypes.c_uint64 * 2)(KEPT, KEPT)
        arguments = []
        for array, length in (*slices, (values, len(values))):
            arguments += [array, ctypes.c_size_t(length)]
        function = self.library["oatmist_" + call]
        function.restype = ctypes.c_uint64
        told = function(*arguments)
        value, behind = values
        if behind != KEPT or told and value != KEPT:
            return f"{told:#x}, and the lent array became {value} {behind}"
        if told:
            number, sheet, step = told & 255, told >> 8 & 255, told >> 16
            return f"refused {number} {step}" + (f" of sheet {sheet}" if call in ("same_work", "winner") or sheet else "")
        if call in ("restate", "rows", "columns"):
            return f"{value} bytes"
        if call == "process":
            return f"offends at {value - 1}" if value else "yes"
        words = {"same_work": ("no", "yes"), "winner": ("first", "second")}[call]
        return words[value] if value < len(words) else f"no answer: {value}"

    def process(self, sheet):
        """'yes', 'offends at P' or 'refused R P'."""
        return self.ask("process", (lent(sheet), len(sheet)))

    def written(self, call, given, output, room):
        """'N bytes' or 'refused R P' for what is given, and the output, of which the first `room` bytes are lent, as it is then."""
        out = lent(output)
        answer = self.ask(call, *((lent(data), len(data)) for data in given), (out, room))
        return answer, bytes(out)

    def restate(self, sheet, output, room):
        """What `written` says, of a sheet restated."""
        return self.written("restate", [sheet], output, room)

    def rows(self, product, output, room):
        """What `written` says, of the sheet that a product becomes (B6)."""
        return self.written("rows", [product], output, room)

    def columns(self, sheet, columns, output, room):
        """What `written` says, of the restated sheet over the tables of this one that has the columns (V3)."""
        return self.written("columns", [sheet, columns], output, room)

    def same_work(self, first, second):
        """'yes', 'no' or 'refused R P of sheet Q'."""
        return self.ask("same_work", (lent(first), len(first)), (lent(second), len(second)))

    def winner(self, first, second):
        """'first', 'second' or 'refused R P of sheet Q'."""
        return self.ask("winner", (lent(first), len(first)), (lent(second), len(second)))

    def leaner(self, first, second):
        """The bytes that are handed back, and where they lie, as `place` has it."""
        sheets = lent(first), lent(second)
        before = lent(b"before")
        part = Part(ctypes.cast(before, ctypes.POINTER(ctypes.c_ubyte)), len(before))
        slices = [given for sheet in sheets for given in (sheet, ctypes.c_size_t(len(sheet)))]
        function = self.library["oatmist_leaner"]
        function.restype = None
        function(*slices, ctypes.byref(part))
        return bytes(part.bytes[: part.length]), place(part, sheets)
