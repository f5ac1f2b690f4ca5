"""The verbs make, show, mark, next and lint, as a person uses them; and components from .aut files and to them (O4, E5,
N8)."""
import os
import subprocess
from unittest import mock

import common
from common import PAIR
from oatmist import aldebaran, calls, cli, inputs
from oatmist.model import INTERNAL
from test_text import PHILOSOPHERS

SYSTEM = """actions produce start deliver
component Producer
  states idle full
  initial idle
  idle -produce-> full
  full -deliver-> idle
component Consumer
  states rest warming open
  initial rest
  rest -start-> warming
  warming -> open
  open -deliver-> rest
"""
STEPS = """steps
  {produce}
  {start}
  {deliver}
  {produce}
"""


class Make(common.Case):
    """S2 to S7: make: one file or two."""

    def setUp(self):
        super().setUp()
        self.write("system.txt", SYSTEM)
        self.write("steps.txt", STEPS)
        with open(os.path.join(common.SHEETS, "pair.sheet"), "rb") as file:
            self.sheet = file.read()
        self.write("pair.sheet", self.sheet)

    def test_one_file_and_two(self):
        for words in ((PAIR,), ("system.txt", "steps.txt"), ("system.txt", "pair.sheet"), ("pair.sheet",), ("system.txt", PAIR), (PAIR, "steps.txt")):
            self.assertEqual(self.call("make", *words, "-o", "made"), (0, "", ""))
            self.assertEqual(self.read("made"), self.sheet, words)
            os.remove("made")

    def test_standard_input_and_output(self):
        answer = subprocess.run([common.COMMAND, "make", "-"], input=(SYSTEM + STEPS).encode(), stdout=subprocess.PIPE)
        self.assertEqual((answer.returncode, answer.stdout), (0, self.sheet))
        answer = subprocess.run([common.COMMAND, "make", "system.txt", "-"], input=STEPS.encode(), stdout=subprocess.PIPE)
        self.assertEqual((answer.returncode, answer.stdout), (0, self.sheet))
        self.assertEqual(self.call("make", "-", "-"), (2, "", "oatmist: standard input has one file: name the other\n"))

    def test_bad_steps_are_made(self):
        self.write("bad.txt", "{deliver}\nraw 0x0")
        self.assertEqual(self.call("make", "system.txt", "bad.txt", "-o", "made").status, 0)
        self.assertEqual(len(self.read("made")), 94 - 16)

    def test_faults_name_the_file(self):
        self.write("bad.txt", "{produce}\n{devliver}\n")
        self.assertEqual(self.call("make", "system.txt", "bad.txt", "-o", "made"),
                         (2, "", "bad.txt:2: action 'devliver' is in no alphabet: the system has produce start deliver\n"))
        self.assertFalse(os.path.exists("made"))

    def test_another_system(self):
        other = os.path.join(common.SHEETS, "bit.sheet")
        for verb in ("make", "mark", "next"):
            answer = self.call(verb, "system.txt", other)
            self.assertEqual(answer, (1, "", f"{other}: this is over another system: its components or transitions differ, "
                                              "or are numbered in another order (14)\n"))

    def test_other_names(self):
        """Actions that are called otherwise in the execution's own system are told: the answer would be about others than it says."""
        said = "component P\n states s\n initial s\n s -{}-> s\ncomponent Q\n states s\n initial s\n s -{}-> s\n"
        self.write("xy.txt", said.format("x", "y"))
        self.write("yx.txt", said.format("y", "x") + "steps {x}")
        told = "yx.txt: action 0 is called 'y' here and 'x' in the system: hand in the execution alone, in its names\n"
        for verb in ("mark", "next", "make", "picture"):
            self.assertEqual(self.call(verb, "xy.txt", "yx.txt"), (2, "", told))
        os.mkdir("in")
        os.rename("yx.txt", "in/yx.txt")
        self.assertIn("yx.txt,unreadable,", self.call("class", "xy.txt", "in", "--csv").out)
        self.assertIn("yx.txt,accepted,", self.call("class", "in/yx.txt", "in", "--csv").out)
        os.rename("in/yx.txt", "yx.txt")
        self.write("states.txt", said.replace("s\n", "t\n").replace("s -", "t -").format("x", "y") + "steps {x}")
        self.assertIn("{x}", self.call("mark", "xy.txt", "states.txt").out)
        self.assertEqual(self.call("make", "yx.txt", "-o", "yx.sheet").status, 0)
        self.assertIn("{a1}", self.call("mark", "yx.sheet", "yx.txt").out)
        self.assertIn("{y}", self.call("mark", "xy.txt", "yx.sheet").out)


class Show(common.Case):
    """S2 to S7: show: with names and without."""

    def test_names(self):
        sheet = os.path.join(common.SHEETS, "pair.sheet")
        self.assertEqual(self.call("show", sheet, "--names", PAIR), (0, SYSTEM + STEPS, ""))
        self.assertEqual(self.call("show", sheet, "--names", PAIR, "--steps"), (0, STEPS, ""))
        self.assertIn("component c1\n  states s0 s1 s2\n  initial s0\n  s0 -a1-> s1\n  s1 -> s2\n", self.call("show", sheet).out)

    def test_names_of_another_system(self):
        """The same sizes are not enough."""
        other = self.write("other.txt", SYSTEM.replace("open -deliver-> rest", "open -deliver-> open"))
        sheet = os.path.join(common.SHEETS, "pair.sheet")
        self.assertEqual(self.call("show", sheet, "--names", other, "-o", "shown"),
                         (1, "", f"{other}: these are the names of another system: its components or transitions differ, "
                                "or are numbered in another order\n"))
        self.assertEqual(os.listdir(self.folder), ["other.txt"])

    def test_a_text(self):
        path = self.write("system.txt", SYSTEM)
        self.assertEqual(self.call("show", path), (0, SYSTEM, ""))
        self.assertEqual(self.call("show", path, "--steps"), (0, "steps\n", ""))

    def test_indices_worked_out(self):
        shown = self.call("show", self.write("five.txt", PHILOSOPHERS)).out
        self.assertIn("component Fork0\n  states free taken\n  initial free\n  free -left0-> taken\n  free -right4-> taken\n", shown)
        self.assertEqual(self.call("show", self.write("shown.txt", shown)).out, shown)


class Mark(common.Case):
    """O4, E3, E5, N8, A5: mark and next: answers in names."""

    def test_accepted(self):
        self.assertEqual(self.call("mark", PAIR), (0, """accepted: 4 steps, restated in 3
    1  {produce, start}
    2  {deliver}
    3  {produce}
concurrency figure 13
at the end
  Producer  full
  Consumer  rest
further actions are possible
""", ""))

    def test_no_steps(self):
        self.assertEqual(self.call("mark", self.write("system.txt", SYSTEM)), (0, """accepted: 0 steps, restated in 0
concurrency figure 0
at the end
  Producer  idle
  Consumer  rest
further actions are possible
""", ""))

    def test_stuck_and_open(self):
        stuck = os.path.join(common.SHEETS, "philosophers-stuck.txt")
        self.assertTrue(self.call("mark", stuck).out.endswith("\nno action is possible any more\n"))
        self.write("system.txt", SYSTEM)
        self.write("steps.txt", "{start}")
        self.assertEqual(self.call("next", "system.txt", "steps.txt"), (0, """after 1 step
  Producer  idle
  Consumer  warming or open
possible now: produce
""", ""))
        self.assertEqual(self.call("next", "system.txt").out, "at the start\n  Producer  idle\n  Consumer  rest\npossible now: produce start\n")
        self.assertTrue(self.call("next", stuck).out.endswith("\nno action is possible now\n"))

    def test_refused(self):
        self.write("system.txt", PHILOSOPHERS)
        self.write("steps.txt", "{left[0]} {left1} {right0}")
        due = """refused (12)
Step 3, {right0}: right0 is not possible. Fork1 is in taken, where it can do
put0 or put1.
"""
        self.assertEqual(self.call("mark", "system.txt", "steps.txt"), (1, due, ""))
        self.assertEqual(self.call("next", "system.txt", "steps.txt"), (1, due, ""))
        self.assertEqual(self.call("mark", os.path.join(common.SHEETS, "pair-02.sheet")), (1, """refused (11)
Step 1, {a0, a2}: a0 and a2 share c0, which does one action in a step: put them
into different steps.
""", ""))

    def test_one_execution_one_verdict(self):
        """A text and a sheet of the same execution have the same answer, also where it is too long or has an empty step."""
        self.write("system.txt", SYSTEM)
        for number, said in ((4, "{produce} " * 1025), (9, "{produce, start} " * 513), (10, "{produce} {}"), (1, "{produce} " * 3000)):
            self.write("steps.txt", said)
            answer = self.call("mark", "system.txt", "steps.txt")
            self.assertEqual((answer.status, answer.out.split("\n")[0], answer.told), (1, f"refused ({number})", ""))
            self.assertEqual(self.call("make", "system.txt", "steps.txt", "-o", "made.sheet").status, 0)
            self.assertEqual(self.call("mark", "made.sheet").out.split("\n")[0], f"refused ({number})")
            self.assertEqual(self.call("picture", "system.txt", "steps.txt", "-o", "made.svg").status, 1)
            self.assertEqual(os.path.exists("made.svg"), number >= 9)
            if number >= 9:
                os.remove("made.svg")

    def test_the_desk_compares(self):
        """Whether two systems are the same is the desk's answer."""
        self.write("system.txt", SYSTEM)
        with mock.patch("oatmist.calls.same_work", side_effect=calls.Refusal(calls.TABLES, 0, 1)):
            self.assertIn("over another system", self.call("mark", "system.txt", PAIR).told)
            self.assertIn("of another system", self.call("show", PAIR, "--names", PAIR).told)

    def test_width(self):
        """Every line of the examples fits on a terminal."""
        for name in sorted(os.listdir(common.SHEETS)):
            if name.endswith(".txt"):
                for verb in ("mark", "next", "lint"):
                    for line in self.call(verb, os.path.join(common.SHEETS, name)).out.splitlines():
                        self.assertLess(len(line), 80, (verb, name))


LINT = [  # what is told, and a line of the system that is replaced
    ("component Consumer has reset and no transition for it: it blocks the action for\n  good\n", "  warming -> open\n", "  warming -> open\n  also reset\n"),
    ("component Producer shares no action with another one: is a name misspelt?\n"
     "component Consumer shares no action with another one: is a name misspelt?\n"
     "only Producer has deliver, and Consumer has delivr: is it the same?\n"
     "only Consumer has delivr, and Producer has deliver: is it the same?\n", "open -deliver->", "open -delivr->"),
    ("component Consumer never comes to cold: no transition leads there from where it\n  can be\n", "warming open", "warming open cold"),
    ("component Consumer never comes to warming and open: no transition leads there\n  from where it can be\n", "rest -start-> warming", "rest -start-> rest"),
    ("state of Consumer 2 has the number 1: a sheet and ./mark call it 1\n", "warming", "2"),
    ("action 7 has the number 2: a sheet and ./mark call it 2\n", "start", "7"),
    ("only Third has delivers, and Producer and Consumer have deliver: is it the\n  same?\n", "open -deliver-> rest\n",
     "open -deliver-> rest\ncomponent Third\n  states s\n  initial s\n  s -delivers-> s\n  s -start-> s\n"),
    ("tau is an action like any other: an internal transition is written without a\n  label, ->\n", "start", "tau"),
    ("component 7 has the number 0: a sheet and ./mark call it 0\n", "component Producer", "component 7"),
    ("nothing found\n", "component Consumer", "component 1"),
    ("nothing found\n", "warming", "1"),
    ("nothing found\n", "start", "produce2"),
]


class Lint(common.Case):
    """Q1: lint: what is probably wrong, and nothing else."""

    def test_found(self):
        for due, old, new in LINT:
            said = SYSTEM.partition("\n")[2].replace(old, new)
            answer = self.call("lint", self.write("system.txt", said))
            self.assertEqual(answer, (int("nothing" not in due), due, ""), new)

    def test_capitals_and_accents(self):
        for new in ("Deliver", "delíver", "dеliver"):  # the last has a Cyrillic letter
            said = SYSTEM.partition("\n")[2].replace("open -deliver->", f"open -{new}->")
            self.assertIn(f"only Consumer has {new}, and Producer has deliver", self.call("lint", self.write("system.txt", said)).out)

    def test_short_names(self):
        """Of short names only a capital is a doubt."""
        said = "component {}\n states s\n initial s\n s -{}-> s\n s -both-> s\n"
        for first, second, due in (("x", "y", False), ("on", "in", False), ("put", "pat", True), ("x", "X", True)):
            answer = self.call("lint", self.write("system.txt", said.format("A", first) + said.format("B", second)))
            self.assertEqual("is it the same?" in answer.out, due, first)

    def test_examples(self):
        for name in ("pair", "philosophers", "peterson", "buffer", "bit"):
            self.assertEqual(self.call("lint", os.path.join(common.SHEETS, name + ".txt")), (0, "nothing found\n", ""))


AUT = """des (0, 4, 3)
  (0, "start(1,true)", 1)

(1, i, 2)
(1,tau,0)
(2, deliver, 0)
"""


class Aldebaran(common.Case):
    """Q1: .aut files, in and out."""

    def test_in(self):
        self.write("consumer.aut", AUT)
        path = self.write("system.txt", SYSTEM.partition("component Consumer")[0].partition("\n")[2] + "component Consumer from consumer.aut\n  also reset\n")
        self.assertEqual(self.call("show", path).out, SYSTEM.partition("component Consumer")[0].replace("start deliver", "deliver start_1_true reset") + """component Consumer
  states 0 1 2
  initial 0
  0 -start_1_true-> 1
  1 -> 0
  1 -> 2
  2 -deliver-> 0
  also reset
""")

    def test_beside_the_text(self):
        """The file is looked for where the text is, not where the command runs."""
        os.mkdir("exercise")
        self.write("exercise/consumer.aut", AUT)
        self.write("exercise/system.txt", "component Consumer from consumer.aut\n")
        self.assertEqual(self.call("lint", "exercise/system.txt"), (0, "nothing found\n", ""))

    def test_alone(self):
        self.write("Con sumer.aut", AUT)
        self.assertTrue(self.call("show", "Con sumer.aut").out.startswith("actions start_1_true deliver\ncomponent Con_sumer\n  states 0 1 2\n"))

    def test_out_and_in(self):
        self.assertEqual(self.call("show", PAIR, "--aut", "out"), (0, "", ""))
        self.assertEqual(self.call("show", PAIR, "--aut", "nowhere/out").status, 2)
        self.assertEqual(self.read("out/Consumer.aut"), b'des (0, 3, 3)\n(0, "start", 1)\n(1, i, 2)\n(2, "deliver", 0)\n')
        system = self.write("system.txt", "actions produce start deliver\ncomponent Producer from out/Producer.aut\ncomponent Consumer from out/Consumer.aut\n")
        self.assertEqual(self.call("make", system, "-o", "made").status, 0)
        self.assertEqual(self.call("show", "made", "--names", PAIR).status, 0)

    def test_random_components(self):
        """What is written is read as the same transitions."""
        dice = common.dice(3)
        for _ in range(300):
            system = common.random_system(dice, components=1, states=32, transitions=40)
            component, = system.components
            component.initial = {dice.randrange(len(component.states))}
            component.alphabet = {label for _, label, _ in component.transitions} - {INTERNAL}
            if component.alphabet:
                self.write("c0.aut", aldebaran.written(system, component))
                again, _ = inputs.read_system("c0.aut")
                back, = again.components
                names = [*again.actions, *[None] * (INTERNAL - len(again.actions)), None]
                self.assertEqual({(source, names[label] and int(names[label][1:]), target) for source, label, target in back.transitions},
                                 {(source, None if label == INTERNAL else label, target) for source, label, target in component.transitions})
                self.assertEqual((len(back.states), back.initial), (len(component.states), component.initial))

    def test_bad_ones(self):
        system = self.write("system.txt", "component Consumer from consumer.aut\n")
        for line, due, said in (
                (1, "no first line of an .aut file: 'x'; it is 'des (0, transitions, states)'", "x\n"),
                (1, "no first line of an .aut file", ""),
                (1, "the first line tells 2 transitions, but 1 follow: correct the number", "des (0,2,1)\n(0,a,0)"),
                (2, "no transition of an .aut file: '(0,a)'; write (0, \"label\", 1)", "des (0,1,1)\n(0,a)"),
                (2, "unknown state '7': component 'Consumer' has 0", "des (0,1,1)\n(0,a,7)"),
                (1, "unknown state '3'", "des (3,1,1)\n(0,a,0)"),
                (1, "more than 32 states", "des (0,0,33)\n"),
                (1, "more than 32 states", "des (0,0,999999999)\n"),
                (3, "the labels 'a(b)' and 'a,b' both become 'a_b': rename one", "des (0,2,1)\n(0,a(b),0)\n(0,\"a,b\",0)"),
                (2, "the label '()' has nothing that a name can have", "des (0,1,1)\n(0,(),0)")):
            self.write("consumer.aut", said)
            answer = self.call("lint", system)
            self.assertEqual((answer.status, answer.out), (2, ""))
            where = os.path.join(self.folder, "consumer.aut")
            self.assertTrue(answer.told.startswith(f"{where}:{line}: "), answer.told)
            self.assertIn(due, answer.told)
        os.remove("consumer.aut")
        self.assertIn("consumer.aut: there is no such file", self.call("lint", system).told)

    def test_what_no_file_can_say(self):
        two = self.write("two.txt", SYSTEM.replace("initial rest", "initial rest open"))
        self.assertEqual(self.call("show", two, "--aut", "out").status, 2)
        tau = self.write("tau.txt", SYSTEM.replace("start", "tau"))
        self.assertIn("the action 'tau' would be internal in an .aut file: rename it", self.call("show", tau, "--aut", "out").told)
        self.assertFalse(os.path.exists("out"))
        also = self.write("also.txt", SYSTEM.partition("\n")[2].replace("initial rest", "initial rest\n also reset"))
        self.assertEqual(self.call("show", also, "--aut", "out"), (0, "", "Consumer.aut cannot say that Consumer has reset without a transition\n"))


class Command(common.Case):
    """The verbs are what the desk covers (G1): their table, help and version. Wrong words get no answer (D1)."""

    def test_help(self):
        shown = self.call("--help")
        self.assertEqual((shown.status, shown.told), (0, ""))
        self.assertTrue({"make", "show", "mark", "next", "lint"} <= set(cli.names()))
        for verb in cli.names():
            self.assertIn(f"\n    {verb} ", shown.out)
            answer = self.call(verb, "--help")
            self.assertEqual((answer.status, answer.told), (0, ""))
            self.assertIn("exit status: 0 accepted or done, 1 refused or different, 2 could not be done", answer.out)
        self.assertLess(max(map(len, shown.out.splitlines())), 80)

    def test_version(self):
        with open(os.path.join(common.TOP, "VERSION"), encoding="ascii") as file:
            due = f"oatmist {file.read().strip()}\n"
        for words in (["--version"], *([verb, "--version"] for verb in cli.names())):
            self.assertEqual(self.call(*words), (0, due, ""))

    def test_wrong_words(self):
        for words in ([], ["marc"], ["mark"], ["mark", "a", "b", "c"], ["mark", "--fast", "a"], ["make", "a", "-o"]):
            answer = self.call(*words)
            self.assertEqual((answer.status, answer.out), (2, ""), words)
            self.assertIn("usage: oatmist", answer.told)

    def test_output_to_standard_output(self):
        self.assertEqual(self.call("show", PAIR, "-o", "-"), self.call("show", PAIR))
        self.assertEqual(self.call("make", PAIR, "-o", "-"), self.call("make", PAIR))
        self.assertEqual(self.call("graph", PAIR, "-o", "-"), self.call("graph", PAIR))
        self.assertEqual(os.listdir(self.folder), [])

    def test_words_that_do_not_go_together(self):
        for more in (["-o", "made"], ["--steps"], ["--columns"], ["-o", "made", "--steps"]):
            self.assertEqual(self.call("show", PAIR, "--aut", "out", *more),
                             (2, "", "oatmist: --aut writes components to files of their own: leave out -o, --steps and --columns\n"))
        self.assertEqual(os.listdir(self.folder), [])

    def test_wrong_words_are_cut_and_cleaned(self):
        for words in (["mark", "a", "b", "\x1b[31m"], ["\x1b[31m"], ["mark", "a", "b", "c" * 3000]):
            answer = self.call(*words)
            self.assertEqual(answer.status, 2)
            self.assertNotIn("\x1b", answer.told)
            self.assertLess(len(answer.told), 600)
