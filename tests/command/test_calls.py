"""The calls: against the header, against the example sheets, and each refusal (C1, D1)."""
import array
import concurrent.futures
import glob
import inspect
import os
import re

import common
from oatmist import calls, library, sheet
from oatmist.faults import Fault
from oatmist.model import DESK


def load(name):
    with open(os.path.join(common.SHEETS, name), "rb") as file:
        return file.read()


class Header(common.Case):
    """O4, O7, L1, L7, R1 to R19: calls.py says what include/oatmist.h says."""

    def setUp(self):
        super().setUp()
        with open(os.path.join(common.TOP, "include/oatmist.h"), encoding="utf-8") as file:
            self.header = file.read()

    def test_every_call_is_there(self):
        declared = set(re.findall(r"^(?:uint64_t|void) oatmist_(\w+)\(", self.header, re.M))
        self.assertTrue(declared)
        self.assertEqual(declared, set(calls.ARGUMENTS))
        for name in declared:
            self.assertTrue(inspect.isfunction(getattr(calls, name)), name)

    def test_arguments(self):
        for name, given in re.findall(r"^(?:uint64_t|void) oatmist_(\w+)\(([^)]*)\)", self.header, re.M):
            kinds = {"const uint8_t *": calls.IN, "uint8_t *": calls.OUT, "uint64_t *": calls.OUT, "size_t ": calls.SIZE}
            declared = [re.sub(r"\w+$", "", " ".join(part.split())) for part in given.split(",") if part != "void"]
            for kind, due in zip(declared, calls.ARGUMENTS[name]):
                self.assertEqual(kinds.get(kind, calls.ARGUMENTS["leaner"][-1]), due, name)
            self.assertEqual(len(declared), len(calls.ARGUMENTS[name]), name)

    def test_constants(self):
        for name in ("SHORTEST_SHEET", "LONGEST_SHEET", "COMPONENTS", "REPORT_ROOM", "ROWS_ROOM", "STACK"):
            found = re.search(rf"#define OATMIST_{name} (\d+)", self.header)
            self.assertEqual(int(found[1]), getattr(calls, name), name)
        self.assertEqual(calls.COMPONENTS, DESK.components)

    def test_refusals(self):
        declared = re.findall(r"OATMIST_REFUSAL_(\w+) = (\d+)", self.header)
        self.assertEqual(len(declared), 19)
        for name, number in declared:
            self.assertEqual(getattr(calls, name), int(number), name)


class Answers(common.Case):
    """S6, E5, N7 to N9, A1 to A5, P1 to P5, O4 to O7: each call on worked sheets."""

    def test_pair(self):
        data = load("pair.sheet")
        self.assertEqual(calls.check(data), calls.Sizes(2, 3, 32, 52))
        self.assertEqual(calls.end_sets(data), [[1], [0]])
        self.assertEqual(calls.process(data), 1)
        self.assertEqual(calls.figure(data), 13)
        self.assertIs(calls.stuck(data), False)
        self.assertEqual(len(calls.restate(data)), 86)
        self.assertIsNone(calls.process(calls.restate(data)))
        self.assertEqual(sheet.read_execution(calls.restate(data)).steps, [[0, 1], [2], [0]])

    def test_two_sheets(self):
        first, second, other = load("pair-0-1.sheet"), load("pair-1-0.sheet"), load("pair-1.sheet")
        self.assertIs(calls.same_work(first, second), True)
        self.assertIs(calls.same_work(first, other), False)
        self.assertEqual(calls.winner(load("pair.sheet"), other), 1)
        self.assertEqual(calls.winner(first, second), 0)
        self.assertEqual(calls.leaner(load("pair.sheet"), other), sheet.step_section(other))
        self.assertEqual(calls.leaner(load("pair.sheet"), load("bit.sheet")), b"")

    def test_reports(self):
        for path in sorted(glob.glob(os.path.join(common.SHEETS, "*.sheet"))):
            with open(path[:-6] + ".expected", encoding="ascii") as file:
                expected = file.read()
            data = load(path)
            self.assertEqual(calls.report(data), expected, path)
            if expected.startswith("accepted"):
                ends = [list(map(int, line.split()[2:])) for line in expected.splitlines() if line.startswith("end")]
                self.assertEqual(calls.end_sets(data), ends, path)
                self.assertEqual(str(int(calls.stuck(data))), expected.split()[4], path)
            else:
                with self.assertRaises(calls.Refusal) as told:
                    calls.check(data)
                self.assertEqual(f"refused {told.exception.number} {told.exception.step}\n", expected, path)

    def test_every_call_refuses(self):
        bad = load("pair-0-0.sheet")
        for name in ("check", "end_sets", "process", "restate", "figure", "stuck"):
            with self.assertRaises(calls.Refusal) as told:
                getattr(calls, name)(bad)
            self.assertEqual((told.exception.number, told.exception.step, told.exception.sheet), (12, 1, 0), name)

    def test_which_sheet(self):
        good, bad = load("pair.sheet"), load("pair-0-0.sheet")
        for name in ("same_work", "winner"):
            for pair, due in (((bad, bad), (12, 1, 0)), ((good, bad), (12, 1, 1)), ((good, load("bit.sheet")), (14, 0, 0))):
                with self.assertRaises(calls.Refusal) as told:
                    getattr(calls, name)(*pair)
                self.assertEqual((told.exception.number, told.exception.step, told.exception.sheet), due, name)

    def test_no_bytes(self):
        with self.assertRaises(calls.Refusal) as told:
            calls.check(b"")
        self.assertEqual(told.exception.number, calls.LENGTH)
        self.assertEqual(calls.report(b""), "refused 1 0\n")
        self.assertEqual(calls.leaner(b"", b""), b"")

    def test_any_bytes(self):
        """A sheet may be a bytearray, or a part of something larger; a number is none."""
        data = load("pair.sheet")
        whole = b"xx" + data + b"xx"
        for given in (bytearray(data), memoryview(whole)[2:-2], array.array("H", data)):
            self.assertEqual(calls.check(given), calls.check(data))
            self.assertEqual(calls.restate(given), calls.restate(data))
            self.assertEqual(calls.report(given), calls.report(data))
            self.assertIs(calls.same_work(given, data), True)
            self.assertEqual(calls.leaner(given, load("pair-1.sheet")), calls.leaner(data, load("pair-1.sheet")))
        self.assertRaises(TypeError, calls.check, 94)

    def test_side_by_side(self):
        sheets = [load(path) for path in sorted(glob.glob(os.path.join(common.SHEETS, "*.sheet")))] * 20
        with concurrent.futures.ThreadPoolExecutor(8) as threads:
            self.assertEqual(list(threads.map(calls.report, sheets)), list(map(calls.report, sheets)))


class Library(common.Case):
    """G1: how the library is found."""

    def named(self, path):
        before = os.environ.get("OATMIST_LIBRARY")
        os.environ["OATMIST_LIBRARY"] = path
        self.addCleanup(os.environ.__setitem__ if before else os.environ.pop, "OATMIST_LIBRARY", *([before] if before else []))

    def test_built_in_the_checkout(self):
        self.assertEqual(library.find(), os.environ.get("OATMIST_LIBRARY", library.BUILT))
        self.assertEqual(os.path.realpath(library.BUILT), os.path.join(common.TOP, "target/staticlib/liboatmist.so"))

    def test_named_by_the_environment(self):
        self.named(library.build())
        self.assertEqual(library.find(), library.BUILT)

    def test_no_library(self):
        for path in (self.write("junk.so", b"junk"), "/nowhere/liboatmist.so", self.folder):
            self.named(path)
            with self.assertRaisesRegex(Fault, "no library of the desk"):
                library.opened()
