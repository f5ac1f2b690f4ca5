"""The version: a library of another one than the command's answers nothing (O10, D1)."""
import os
import subprocess
from unittest import mock

import common
from common import PAIR
from oatmist import calls, version
from oatmist.faults import Fault

OWN = version.version()
COLUMNS = "columns\n  Producer: produce\n  Consumer: start\n"


class Number(common.Case):
    """O10: the number and the text of a version."""

    def test_of_the_library(self):
        first, second, third = map(int, OWN.split("."))
        self.assertEqual(calls.version(), 10000 * first + 100 * second + third)

    def test_as_a_text(self):
        for number, due in ((10200, "1.2.0"), (20000, "2.0.0"), (20117, "2.1.17"), (123456, "12.34.56")):
            self.assertEqual(version.dotted(number), due)


class Another(common.Case):
    """O10, D1: no verb that asks the desk answers by a library of another version, although that has every other call."""

    def setUp(self):
        super().setUp()
        os.mkdir("in")
        self.write("in/a.txt", "{produce}")
        self.write("columns.txt", COLUMNS)
        self.asked = (
            ("mark", PAIR), ("next", PAIR), ("class", PAIR, "in"), ("picture", PAIR, "-o", "made.svg"), ("make", PAIR, "columns.txt", "-o", "made"),
            ("show", PAIR, "--names", PAIR),
        )

    def nothing_answered(self, said):
        for words in self.asked:
            self.assertEqual(self.call(*words), (2, "", f"other.so: the library has {said}\n"), words)
        for name in calls.ARGUMENTS:
            self.assertRaises(Fault, calls.function, name)
        self.assertRaises(Fault, calls.version)
        self.assertEqual(sorted(os.listdir()), ["columns.txt", "in"])

    def test_the_same_version(self):
        """The verbs do ask: with the number of this version they answer."""
        self.finds(common.Desk(calls.version()))
        self.write("other.so", b"")  # the receipt has its hash
        for words in self.asked:
            self.assertEqual(self.call(*words)[::2], (0, ""), words)

    def test_another_number(self):
        own = calls.version()
        for number in (10200, own - 1, own + 1, own + 100, own + 10000, 0, 2**64 - 1):
            self.finds(common.Desk(number))
            self.nothing_answered(f"version {version.dotted(number)}, not {OWN}: it belongs to another version of the desk")

    def test_no_number(self):
        self.finds(common.Desk(without="version"))
        self.nothing_answered("no call oatmist_version: it belongs to another version of the desk")

    def test_a_real_library(self):
        self.write("old.c", "#include <stdint.h>\nuint64_t oatmist_version(void) { return 10200; }\n")
        subprocess.run(["cc", "-shared", "-fPIC", "old.c", "-o", "old.so"], check=True)
        path = os.path.join(self.folder, "old.so")
        answer = self.shell("OATMIST_LIBRARY=$path $oatmist mark $PAIR", path=path)
        self.assertEqual(answer, (2, "", f"{path}: the library has version 1.2.0, not {OWN}: it belongs to another version of the desk\n"))

    def test_no_version_of_its_own(self):
        """A file VERSION that is damaged is no version."""
        for text in ("", "2\n", "2.0\n", "2.0.0.0", "two", "2.0.x", "2.100.0", "2.0.100"):
            with mock.patch("oatmist.version.load_text", return_value=text):
                for words in (("--version",), ("mark", PAIR)):
                    calls.opened.cache_clear()
                    calls.function.cache_clear()
                    status, out, said = self.call(*words)
                    self.assertEqual((status, out, said.endswith("VERSION: this is no version\n")), (2, "", True), (text, said))
        calls.opened.cache_clear()
        calls.function.cache_clear()

    def test_the_command_tells_its_own(self):
        """--version asks no library."""
        self.assertEqual(self.shell("OATMIST_LIBRARY=/nowhere $oatmist --version"), (0, f"oatmist {OWN}\n", ""))
