#!/usr/bin/env python3
"""Marks a sheet from Python, and tells whether a second one does the same work.

    tools/build shared
    python3 examples/mark.py target/staticlib/liboatmist.so sheets/pair.sheet sheets/pair.sheet

The exit status is 2 where the library or a file cannot be read, and then nothing is marked, or where the answer cannot be written.
"""
import ctypes
import sys


class Refused(Exception):
    """A refusal: its number, the step that it is about, and which of two sheets."""

    def __init__(self, told):
        self.number, self.sheet, self.step = told & 255, told >> 8 & 255, told >> 16


class Desk:
    """The calls as include/oatmist.h declares them: a slice is a pointer and a length."""

    RULES = 2  # the first part of the version: by which rules the library answers

    def __init__(self, path):
        self.library = ctypes.CDLL(path)
        if not hasattr(self.library, "oatmist_version") or self.library.oatmist_version() // 10000 != self.RULES:
            raise OSError(f"{path}: this library answers by the rules of another version")

    def ask(self, call, *slices):
        """Makes a call with these bytes; gives back its one value."""
        value = (ctypes.c_uint64 * 1)()
        arguments = []
        for array in (*slices, value):
            arguments += [array, ctypes.c_size_t(len(array))]
        function = self.library[call]
        function.restype = ctypes.c_uint64
        told = function(*arguments)
        if told:
            raise Refused(told)
        return value[0]

    def report(self, sheet):
        """What the program prints for a sheet."""
        text = ctypes.create_string_buffer(16384)  # always long enough for a report
        length = self.ask("oatmist_report", sheet, text)
        return text.raw[:length].decode()

    def same_work(self, first, second):
        """Whether two sheets do the same work."""
        return self.ask("oatmist_same_work", first, second) == 1


def stop(wrong):
    """Ends the program with what is wrong."""
    print(f"mark.py: {wrong}", file=sys.stderr)
    sys.exit(2)


def load(path):
    try:
        with open(path, "rb") as file:
            return file.read()
    except OSError as error:
        stop(error)


def answer(desk, first, second):
    """The report of the first sheet, and a line on what the two are to each other."""
    text = desk.report(first)
    try:
        return text + ("same work\n" if desk.same_work(first, second) else "other work\n")
    except Refused as refused:
        return text + f"pair refused {refused.number} {refused.step} of sheet {refused.sheet}\n"


def main():
    if len(sys.argv) != 4:
        stop(f"usage: {sys.argv[0]} LIBRARY SHEET SHEET")
    try:
        desk = Desk(sys.argv[1])
    except OSError as error:
        stop(error)
    text = answer(desk, load(sys.argv[2]), load(sys.argv[3])).encode()
    try:
        with open(1, "wb") as output:
            output.write(text)
    except OSError as error:
        stop(f"standard output: {error}")


if __name__ == "__main__":
    main()
