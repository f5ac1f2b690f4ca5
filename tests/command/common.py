"""What the tests of the command share: the command called in this process or as a process, a folder to write in, random
systems (Q1). The command is an addition: its answers are those of the calls (G1)."""
import contextlib
import io
import os
import random
import shutil
import signal
import subprocess
import sys
import tempfile
import unittest
from typing import NamedTuple
from unittest import mock

TOP = os.path.dirname(os.path.dirname(os.path.dirname(os.path.abspath(__file__))))
COMMAND = os.path.join(TOP, "oatmist")
SHEETS = os.path.join(TOP, "sheets")
sys.path.insert(0, os.path.join(TOP, "python"))

from oatmist import calls, cli, library
from oatmist.faults import Fault, Unfit
from oatmist.model import INTERNAL, Component, Execution, System

PAIR = os.path.join(SHEETS, "pair.txt")
ONE = "component P\n states s t\n initial s\n s -a-> t"
PLAIN = "component P\n states s\n initial s\n s -a-> s\nsteps"


class Answer(NamedTuple):
    """What the command did: exit status, output, and what it told on standard error."""

    status: int
    out: str
    told: str


class Stream(io.TextIOWrapper):
    """A standard stream that keeps what is written."""

    def __init__(self):
        super().__init__(io.BytesIO(), encoding="utf-8", newline="")

    def kept(self):
        self.flush()
        return self.buffer.getvalue().decode("utf-8", "surrogateescape")


class Desk:
    """The library, but with this number as its version, or without one of its calls (O10)."""

    def __init__(self, number=None, without=""):
        self._name, self.real, self.without = "other.so", library.opened(), "oatmist_" + without
        if number is not None:
            self.oatmist_version = lambda: number

    def __getattr__(self, name):
        if name == self.without:
            raise AttributeError(name)
        return getattr(self.real, name)


class Case(unittest.TestCase):
    """A test with a folder of its own, in which the command runs."""

    maxDiff = None

    def setUp(self):
        self.folder = tempfile.mkdtemp(dir=os.environ.get("OATMIST_TESTS"))
        self.addCleanup(shutil.rmtree, self.folder)
        self.addCleanup(os.chdir, os.getcwd())
        os.chdir(self.folder)

    def write(self, name, content):
        """A file in the folder; its path."""
        path = os.path.join(self.folder, name)
        with open(path, "wb") as file:
            file.write(content if isinstance(content, bytes) else content.encode())
        return path

    def read(self, name):
        with open(os.path.join(self.folder, name), "rb") as file:
            return file.read()

    def faults(self, rows, read):
        """Each of these texts is told as a fault when it is read: rows of the line that is told, what is said, and the text."""
        for line, message, bad in rows:
            with self.subTest(message), self.assertRaises(Fault) as found:
                read(bad)
            self.assertNotIsInstance(found.exception, Unfit)
            self.assertIn(message, found.exception.message)
            self.assertEqual(found.exception.line, line, message)
            self.assertLess(len(str(found.exception)), 1300)

    def finds(self, desk):
        """From now on the command finds this library, until the test ends."""
        found = mock.patch("oatmist.library.opened", return_value=desk)
        found.start()
        self.addCleanup(found.stop)
        for kept in (calls.opened, calls.function):
            kept.cache_clear()
            self.addCleanup(kept.cache_clear)

    def call(self, *words):
        """The command in this process."""
        out, told = Stream(), Stream()
        with contextlib.redirect_stdout(out), contextlib.redirect_stderr(told):
            status = cli.main(list(words))
        return Answer(status, out.kept(), told.kept())

    def shell(self, line, **values):
        """A line of shell in which $oatmist is the command, $PAIR a text, and others as given."""
        process = subprocess.Popen(["bash", "-c", line], stdin=subprocess.DEVNULL, stdout=subprocess.PIPE, stderr=subprocess.PIPE,
                                   env={**os.environ, "oatmist": COMMAND, "PAIR": PAIR, **values}, start_new_session=True)
        try:
            out, told = process.communicate(timeout=60)
        except subprocess.TimeoutExpired:
            os.killpg(process.pid, signal.SIGKILL)
            self.fail(f"no end: {line}")
        return Answer(process.returncode, out.decode(), told.decode())


def random_system(dice, components=3, actions=5, states=4, transitions=8):
    """A system that the desk accepts, with names made of numbers."""
    count = dice.randint(1, actions)
    system = System([f"a{a}" for a in range(count)])
    for j in range(dice.randint(1, components)):
        size = dice.randint(1, states)
        alphabet = set(dice.sample(range(count), dice.randint(1, count))) if j else set(range(count))
        component = Component(f"c{j}", [f"s{i}" for i in range(size)], set(dice.sample(range(size), dice.randint(1, size))), alphabet)
        for _ in range(dice.randint(0, transitions)):
            component.transitions.add((dice.randrange(size), dice.choice([*alphabet, INTERNAL]), dice.randrange(size)))
        system.components.append(component)
    return system


def random_execution(dice, system, steps=6):
    """Some steps, good and bad ones."""
    count = len(system.actions)
    return Execution([sorted(dice.sample(range(count), dice.randint(1, min(count, 3)))) for _ in range(dice.randint(0, steps))])


def unfit(made):
    """What the desk refuses while something is made: the number, the line and the words; None where it refuses nothing."""
    try:
        made()
    except Unfit as fault:
        return fault.number, fault.line, fault.sentence
    return None


def damaged(dice, whole, signs):
    """A text without its end, with some letters changed, or without one of its lines."""
    place = dice.randrange(len(whole))
    lines = whole.split("\n")
    del lines[dice.randrange(len(lines))]
    changed = whole[:place] + dice.choice(signs) + whole[place + dice.randint(0, 1):]
    return dice.choice((whole[:place], changed, "\n".join(lines)))


def dice(seed):
    """The same random numbers each time."""
    return random.Random(seed)
