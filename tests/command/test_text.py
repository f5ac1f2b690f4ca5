"""The text: every fault with its line and what to write, the notation for many, names of any alphabet, round trips (L1 to L7, S2 to S7)."""
import glob
import os
import unicodedata

import common
from common import ONE, PLAIN
from oatmist import calls, sheet, text
from oatmist.faults import Fault
from oatmist.letters import decoded
from oatmist.model import DESK, INTERNAL, Component, Execution, System


def many(prefix, count):
    return " ".join(f"{prefix}{i}" for i in range(1, count + 1))


def lines(line, count):
    return "\n".join([line] * count)


def crowd(count):
    return "\n".join(f"component P{i}\nstates s\ninitial s\nalso a" for i in range(1, count + 1))


ARROWS = "component P\nstates " + many("s", 32) + "\ninitial s1\n" + "\n".join(
    f"s{i} -{a}-> s{k}" for a in "ab" for i in range(1, 33) for k in range(1, 33)) + "\ns1 -> s1"

BAD = [  # the line that is told, what is said, the text
    (5, "unknown state 'u': component 'P' has s t", ONE + "\n t -a-> u"),
    (3, "unknown state 'x'", "component P\n states s\n initial x"),
    (3, "no states yet", "component P\n\n initial s # too early"),
    (5, "component 'P' is already there, in line 1", ONE + "\ncomponent P"),
    (2, "more than 32 states in component 'P': 's33'", "component P\n states " + many("s", 33)),
    (5, "more than 64 actions: 'a64'", ONE + "\n also " + many("a", 64)),
    (1, "more than 64 actions: 'a65'", "actions " + many("a", 65)),
    (65, "more than 16 components: 'P17'", crowd(17)),
    (1, "action 'b' is in no alphabet: delete it", "actions a b\n" + ONE),
    (6, "action 'b' is in no alphabet: the system has a", ONE + "\nsteps\n {a} {b}"),
    (5, "action 'b' is not in the 'actions' line", "actions a\n" + ONE.replace("-a->", "-b->")),
    (1, "action 'a' is named twice", "actions a a"),
    (5, "'actions' must stand before", ONE + "\nactions a"),
    (1, "'actions' names nothing", "actions"),
    (2, "state 's' is named twice", "component P\n states s s"),
    (5, "already there, in line 4", ONE + "\n s -a-> t"),
    (6, "no transition: 's --> t'", ONE + "\n s -> t\n s --> t"),
    (5, "write 'idle -produce-> full'", ONE + "\n s -a-> t u"),
    (5, "'a-b' is no name: it has -", ONE + "\n also a-b"),
    (1, "'raw' is a word of the format", "component raw"),
    (2, "no range: 'x'", "component P\n states for x"),
    (1, "followed by one name", "component P Q"),
    (1, "component 'P' has no state", "component P\n\ncomponent Q"),
    (1, "component 'P' has no initial state", "component P\n states s\n also a"),
    (1, "component 'P' has no action", "component P\n states s\n initial s\n s -> s"),
    (1, "before the first component", "states s"),
    (1, "before the first component", "s -> s"),
    (1, "there is no component", "# nothing"),
    (1, "'steps', but no system: the file of the system comes first", "steps"),
    (1, "there is no component", ""),
    (5, "'also' names nothing", ONE + "\n also"),
    (5, "not understood: 'begin s'", ONE + "\n begin s"),
    (1, "not understood: 'Component P'; write 'component'", "Component P"),
    (2, "write 'states'", "component P\n state s"),
    (3, "write 'initial'", "component P\n states s\n initial: s"),
    (1, "write 'actions'", "action a"),
    (2, "'s,' is no name: write no , between names", "component P\n states s, t"),
    (1, "is too long for a name: at most 100 characters", "component " + "P" * 101),
    (5, "no line 'steps' above", ONE + "\n {a}"),
    (6, "'steps' stands twice", PLAIN + "\nsteps"),
    (6, "only steps may follow", PLAIN + "\ncomponent Q"),
    (6, "action 'b' is twice in one step", PLAIN.replace("\nsteps", "\n also b\nsteps") + " {a, b, b}"),
    (6, "a name is missing", PLAIN + "\n{a,}"),
    (6, "action 'a' is twice in one step", PLAIN + "\n{a, a}"),
    (6, "no step: '{a'; close the step with } in the same line", PLAIN + "\n{a"),
    (1, "a step, but no system: the file of the system comes first", "{a}"),
    (6, "no step: 'a'; write {a}", PLAIN + "\na"),
    (6, "no comma in 'a b': write {a, b}", PLAIN.replace("\nsteps", "\n also b\nsteps") + " {a b}"),
    (6, "hexadecimal digits", PLAIN + "\nraw 12"),
    (6, "hexadecimal digits", PLAIN + "\nraw"),
    (6, "hexadecimal digits", PLAIN + "\nraw 0x10000000000000000"),
    (134, "more than 131,072 steps", PLAIN + "\n" + lines("{} for i in 0..1023", 128) + "\n{}"),
    (2052, "more than 2,048 transitions", ARROWS),
    # what a word processor does
    (4, "instead of – write -", ONE.replace("-a->", "–a–>")),
    (4, "instead of → write ->", ONE.replace("-a->", "-a→")),
    (5, "instead of ’ write '", ONE + "\n also don’t"),
    (6, "action '“a”' is in no alphabet: write a", PLAIN + "\n{“a”}"),
    (5, "'b–c' is no name: it has –, but a name has letters", ONE + "\n also b–c"),
    (2, "'s，' is no name: write no ， between names", "component P\n states s， t"),
    (5, "instead of … write ...", ONE + "\n also b…"),
    (1, "the number '999999999' is too large: it has at most 6 digits", "actions a[i] for i in 0..999999999"),
    (5, "write it without “", ONE + "\n also “a”"),
    (5, "is no name: write it without \"", ONE + "\n \"s\" -> t"),
    (5, "delete the character <U+200B>", ONE + "\n also b\u200bc"),
    (5, "it has €", ONE + "\n also 5€"),
    # indices
    (1, "no range: 'i in 5'", "component P[i] for i in 5"),
    (1, "the range 4..0 is empty: write the smaller number first", "component P[i] for i in 4..0"),
    (1, "the range 0..1024 is too long", "actions a[i] for i in 0..1024"),
    (1, "more than 64 actions", "actions a[i] for i in 0..1023"),
    (1, "more than 64 actions", "actions a[i]_[j] for i in 0..31, j in 0..31"),
    (1, "more than 1,024 lines", "actions a[i]_[j] for i in 0..24, j in 0..40"),
    (1, "more than 1,024 lines", "actions a[i]_[j] for i in 0..99, j in 0..99"),
    (1, "'j' has no value here", "component P[j] for i in 0..4"),
    (1, "'i' has no value here", "component P[i]"),
    (1, "'i+' is no arithmetic", "component P[i+] for i in 0..4"),
    (1, "'' is no arithmetic", "component P[] for i in 0..4"),
    (1, "'1 2' is no arithmetic", "component P[1 2]"),
    (1, "'*1' is no arithmetic", "component P[*1]"),
    (1, "'(1 2' is no arithmetic", "component P[(1 2]"),
    (1, "'from' names no file: write 'from sender.aut'", "component P from"),
    (1, "'(i' is no arithmetic", "component P[(i] for i in 0..4"),
    (1, "'i^2' is no arithmetic", "component P[i^2] for i in 0..4"),
    (1, "what follows % is at least 1", "component P[i%0] for i in 0..4"),
    (1, "[i-1] is -1 here, below 0; in a ring of five write (i-1)%5", "component P[i-1] for i in 0..4"),
    (1, "'a1[2]' and 'a[12]' are both 'a12'", "actions a1[2] a[12]"),
    (1, "the index 'i' already has a range", "actions a[i] for i in 0..1, i in 0..1"),
    (4, "unknown state 't': component 'P0' has s (for i = 0)", "component P[i] for i in 0..1\n states s\n initial s\n s -a-> t"),
    (4, "'i' has no value here", "component P\n states s\n initial s\n s -a[i]-> s"),
    (1, "more than 16 components: 'P16' would be one too many (for i = 16)", "component P[i] for i in 0..16\n states s\n initial s\n also a"),
]

PHILOSOPHERS = """component Phil[i] for i in 0..4
  states thinking one both
  initial thinking
  thinking -left[i]-> one
  one -right[i]-> both
  both -put[i]-> thinking
component Fork[i] for i in 0..4
  states free taken
  initial free
  free -left[i]-> taken
  free -right[(i+4)%5]-> taken
  taken -put[i]-> free
  taken -put[(i+4)%5]-> free
"""


class Faults(common.Case):
    """L1 to L7, R5 to R8: each bad text is told with its line."""

    def test_bad_texts(self):
        self.faults(BAD, text.read)

    def test_as_many_as_there_may_be(self):
        system, execution = text.read(crowd(16) + "\nsteps\n" + lines("{a}", 1024))
        self.assertEqual((len(system.components), len(execution.steps)), (16, 1024))
        self.assertEqual(len(text.read(ARROWS[:-len("\ns1 -> s1")])[0].components[0].transitions), 2048)
        self.assertEqual(len(text.read(ONE + "\n also " + many("b", 63))[0].actions), 64)
        self.assertEqual(len(text.read("component P\nalso a\nstates " + many("s", 32) + "\ninitial s1")[0].components[0].states), 32)

    def test_lifted_limits(self):
        self.assertEqual(len(text.read(crowd(17), limits=DESK._replace(components=99))[0].components), 17)

    def test_bytes(self):
        for line, message, data in (
                (2, "no UTF-8", b"# fine\n# \xff"), (0, "UTF-16", "component P".encode("utf-16")),
                (2, "control character <U+0007>", b"# fine\ncomp\x07onent"), (1, "control character <U+0000>", b"a\0b")):
            with self.assertRaises(Fault) as told:
                decoded(data)
            self.assertIn(message, told.exception.message)
            self.assertEqual(told.exception.line, line)

    def test_line_ends(self):
        plain = text.read(PLAIN + " {a}\n")
        for end in ("\r\n", "\r"):
            self.assertEqual(text.read(decoded((PLAIN + " {a}\n").replace("\n", end).encode())), plain)
        self.assertEqual(text.read(decoded(b"\xef\xbb\xbf" + PLAIN.encode() + b" {a}")), plain)


class Executions(common.Case):
    """S5: an execution in a file of its own."""

    def setUp(self):
        super().setUp()
        self.system, _ = text.read(ONE + "\n also b c'")

    def test_with_and_without_the_word(self):
        for said in ("{a} {b}\n{a, b}", "steps\n{a}\n{b} {a,b}", "steps {a} {b} {b, a} # so", "\n\n  {a}{b}\n{ a , b }\n"):
            self.assertEqual([sorted(step) for step in text.read_execution(said, self.system).steps], [[0], [1], [0, 1]], said)
        self.assertEqual(text.read_execution("{b, a}", self.system).steps, [[1, 0]])
        self.assertEqual(text.read_execution("steps # none", self.system).steps, [])
        self.assertEqual(text.read_execution("{} { }", self.system).steps, [[], []])
        self.assertEqual(text.read_execution("{a} for i in 1..3", self.system).steps, [[0]] * 3)
        self.assertEqual(text.read_execution("raw 0x8000000000000001", self.system).steps, [[0, 63]])

    def test_bad_ones(self):
        for line, message, said in (
                (2, "action 'c' is in no alphabet: the system has a b c'", "{a}\n{c}"), (1, "write {a}", "a b"), (1, "no step: ', {b}'; write no , between steps", "{a}, {b}"),
                (1, "no comma in 'a; b': write {a, b}", "{a; b}"), (1, "a step stands between braces: write {a, b}", "[a, b]"),
                (1, "no step: 'Step 1: {a}'; write the steps alone, each as {a, b}", "Step 1: {a}"), (2, "write {a, b}", "{a}\n(a) (b)"),
                (2, "no step: '-> {b}'", "{a}\n-> {b}"), (1, "close the step with }", "{a,\n b}"),
                (2, "delete it", "{a}\nsteps"), (3, "delete it", "steps\n{a}\nsteps"), (1, "instead of ｛ write {", "｛a｝"),
                (1, "no comma in 'a–b': write {a, b}", "{a–b}"), (1, "no comma in 'a，b': write {a, b}", "{a，b}"),
                (1, "no step: '– {b}'; delete –", "{a} – {b}"), (1, "no step: '…{b}'; delete …", "{a}…{b}"), (1, "; delete “", "“{a}”"), (1, "; delete \"", "\"{a}\""),
                (1, "no step: 'x {c´}'; write the steps alone, each as {a, b}", "{a} x {c´}"), (1, "instead of ｝ write }", "{a｝"),
                (1, "; delete →", "{a} → {b}"), (1, "; delete ，", "{a}，{b}"),
                (1, "action '‘a’' is in no alphabet: write a", "{‘a’}"), (1, "action '‘d’' is in no alphabet: the system has", "{‘d’}"), (1, "action 'c´' is in no alphabet: write c'", "{c´}"),
                (0, "nothing is written here", ""),
                (0, "nothing is written here", "# a comment")):
            with self.subTest(message), self.assertRaises(Fault) as told:
                text.read_execution(said, self.system)
            self.assertIn(message, told.exception.message)
            self.assertEqual(told.exception.line, line)

    def test_has_system(self):
        self.assertTrue(text.has_system("# x\nactions a\n"))
        self.assertTrue(text.has_system(ONE))
        self.assertFalse(text.has_system("# component\nsteps {a}"))


class Indices(common.Case):
    """Q1, S5: what is written once and stands for many components, states, actions, transitions or steps."""

    def test_five_philosophers(self):
        self.assertLessEqual(PHILOSOPHERS.count("\n"), 13)
        system, execution = text.read(PHILOSOPHERS + "steps\n {left[i]} for i in 0..4\n")
        self.assertEqual([component.name for component in system.components], [f"{kind}{i}" for kind in ("Phil", "Fork") for i in range(5)])
        self.assertEqual(len(system.actions), 15)
        fork = system.components[5]
        self.assertEqual({system.actions[action] for action in fork.alphabet}, {"left0", "put0", "right4", "put4"})
        self.assertEqual(text.write_execution(system, execution), "steps\n" + "".join(f"  {{left{i}}}\n" for i in range(5)))
        self.assertIs(calls.stuck(sheet.encode(system, execution)), True)

    def test_arithmetic(self):
        for written, due in (("1+2*3", 7), ("(1+2)*3", 9), ("7%5", 2), ("-1+6", 5), ("(0-1)%5", 4), (" 1 + 1 ", 2), ("2-1-1", 0), ("007", 7)):
            self.assertEqual(text.read(f"component P[{written}]\nstates s\ninitial s\nalso a")[0].components[0].name, f"P{due}", written)

    def test_lines(self):
        system, _ = text.read("actions put get\ncomponent Buffer\n states n[i] for i in 0..3\n initial n0\n"
                              " n[i] -put-> n[i+1] for i in 0..2\n n[i+1] -get-> n[i] for i in 0..2")
        self.assertEqual(system.components[0].states, ["n0", "n1", "n2", "n3"])
        self.assertEqual(len(system.components[0].transitions), 6)
        system, _ = text.read("actions p[i].up p[i].down for i in 0..1\ncomponent P[i]_[j] for i in 0..1, j in i..1\n"
                              " states s\n initial s\n also p[i].up p[i].down")
        self.assertEqual(system.actions, ["p0.up", "p0.down", "p1.up", "p1.down"])

    def test_ranges_that_depend(self):
        system, _ = text.read("component P[i] for i in 1..2\n states s[k] for k in 0..i\n initial s0\n also a")
        self.assertEqual([len(component.states) for component in system.components], [2, 3])


class Names(common.Case):
    """Names in letters of any alphabet: each stands for a number of the sheet (S4, S5)."""

    def test_alphabets(self):
        for name in ("öffnen", "открыть", "άνοιγμα", "打开", "فتح", "क्रिया", "p₁", "x'", "a.b!c?", "0.left"):
            system, execution = text.read(f"component {name}\n states {name}\n initial {name}\n {name} -{name}-> {name}\nsteps {{{name}}}")
            self.assertEqual((system.actions, execution.steps), ([name], [[0]]))
            self.assertEqual(text.read(text.write(system, execution)), (system, execution))

    def test_composed(self):
        said = unicodedata.normalize("NFD", PLAIN.replace("-a->", "-é->")) + " {é}"
        self.assertEqual(text.read(decoded(said.encode()))[0].actions, ["é"])


class RoundTrips(common.Case):
    """S1 to S7: text, sheet and memory say the same."""

    def test_random_systems(self):
        dice = common.dice(4653)
        for _ in range(600):
            system = common.random_system(dice, dice.choice((2, 16)), dice.choice((3, 64)), dice.choice((2, 32)), dice.choice((0, 10, 60)))
            execution = Execution([dice.choice(([], [0], sorted(dice.sample(range(64), 3)))) for _ in range(dice.choice((0, 1, 8)))])
            self.assertEqual(text.read(text.write(system, execution)), (system, execution))
            self.assertEqual(sheet.decode(sheet.encode(system, execution)), (system, execution))
            self.assertEqual(text.read_execution(text.write_execution(system, execution), system), execution)
            self.assertEqual(text.read(text.write(system)), (system, None))

    def test_largest(self):
        states = [f"s{i}" for i in range(32)]
        rows = {(i, label, k) for i in range(32) for k in range(4) for label in (63,)}
        system = System([f"a{a}" for a in range(64)], [Component(f"c{j}", states, set(range(32)), set(range(64)), set(rows)) for j in range(16)])
        system.components[0].transitions = {(31, INTERNAL, 31), (31, 63, 31)}
        execution = Execution([[63]] * 1024)
        self.assertEqual(sheet.decode(sheet.encode(system, execution)), (system, execution))
        self.assertEqual(text.read(text.write(system, execution)), (system, execution))

    def test_examples(self):
        paths = sorted(glob.glob(os.path.join(common.SHEETS, "*.txt")))
        self.assertGreater(len(paths), 20)
        for path in paths:
            with open(path[:-4] + ".sheet", "rb") as file:
                data = file.read()
            with self.subTest(path):
                self.assertEqual(self.call("make", path, "-o", "made").status, 0)
                self.assertEqual(self.read("made"), data)
                for names in ([], ["--names", path]):
                    self.assertEqual(self.call("show", path[:-4] + ".sheet", *names, "-o", "shown").status, 0)
                    self.assertEqual(self.call("make", "shown", "-o", "back").status, 0)
                    self.assertEqual(self.read("back"), data)
                with open(path, encoding="utf-8") as file:
                    self.assertTrue(file.readline().startswith("# "))
        self.assertEqual({path[:-4] for path in paths}, {path[:-6] for path in glob.glob(os.path.join(common.SHEETS, "*.sheet"))})
