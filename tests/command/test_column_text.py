"""Columns as a person writes them: the text, 18 and 19 in words, every verb, files that fail (V1 to V5, R18, R19, O9)."""
import json
import os
import time
from unittest import mock

import common
from common import ONE, PAIR
from oatmist import calls, column_reader, columns, inputs, sheet, sittings, text
from oatmist.faults import Fault, Unfit
from oatmist.indices import begins_columns, lines_of
from oatmist.model import Columns, Execution
from test_manners import Quiet
from test_products import TWO

with open(PAIR, encoding="utf-8") as source:
    SYSTEM = source.read().partition("\nsteps")[0] + "\n"
GOOD = "columns\n Producer: produce deliver produce\n Consumer: start deliver\n"
LISTS = [[0, 2, 0], [1, 2]]
TABLES = text.read(SYSTEM)[0]

BAD = [  # the line that is told, what is said, the text of columns
    (3, "no column: 'Consumer start'; write Consumer: and its actions in order, in one line", "columns\nProducer: produce\nConsumer start"),
    (2, "no column: 'produce'; write Producer: and its actions in order, in one line", "columns\nproduce"),
    (2, "no column: 'Producer： produce'; instead of ： write :", "columns\nProducer： produce"),
    (4, "no column: 'deliver'; a column stands in one line: put the actions into that of Consumer, in line 3", "columns\nProducer: produce\nConsumer: start\n  deliver"),
    (3, "a column stands in one line: put the actions into that of Consumer, in line 2", "columns\nConsumer:\n  start deliver\nProducer:"),
    (3, "a column stands in one line: put the actions into that of Consumer, in line 2", "columns\nConsumer: start\n -> deliver\nProducer:"),
    (4, "no column: 'Producer deliver'; a column stands in one line: put the actions into that of Producer, in line 2",
     "columns\nProducer: produce\nConsumer:\nProducer deliver"),
    (3, "a column stands in one line: put the actions into that of Producer, in line 2, or begin with a component and a colon",
     "columns\nProducer:\nConsumr start"),
    (3, "no column: 'Consumer; start'; write Consumer: and its actions in order, in one line", "columns\nProducer:\nConsumer; start"),
    (3, "no column: 'component X'; the system stands above the columns: put its lines there, or delete them", "columns\nProducer:\ncomponent X"),
    (3, "no column: 'idle -produce-> full'; the system stands above the columns", "columns\nProducer:\nidle -produce-> full"),
    (2, "no column: 'states idle full'; the system stands above the columns", "columns\nstates idle full"),
    (2, "the system stands above the columns", "columns\n" + TWO),
    (3, "an execution is written as steps or as columns: delete one of the two", "columns\nProducer: produce\n{start}"),
    (3, "an execution is written as steps or as columns: delete one of the two", "columns\nProducer:\nsteps {start}"),
    (3, "an execution is written as steps or as columns: delete one of the two", "columns\nProducer:\nraw 0x1"),
    (2, "no step: 'columns'; an execution is written as steps or as columns", "{produce}\ncolumns\nProducer:"),
    (2, "'columns' stands twice: delete the second", "columns\ncolumns\n"),
    # the word
    (1, "'columns' stands alone in its line: write each column in a line of its own below it", "columns Producer: produce"),
    (1, "not understood: 'Columns'; write 'columns'", "Columns\nProducer: produce"),
    (2, "not understood: 'columns:'; write 'columns'", "\ncolumns:\nProducer: produce"),
    (1, "not understood: 'column'; write 'columns'", "column\nProducer: produce"),
    (1, "not understood: 'columns;'; write 'columns'", "columns;\nProducer: produce"),
    (1, "'columns' stands alone in its line", "Columns Producer: produce"),
    (1, "columns stand below the word 'columns': write it in a line above them", "Producer: produce\nConsumer:"),
    (1, "no step: 'Prodcer: produce'; write the steps alone, each as {a, b}; or, where these are columns, the word 'columns' in a line above them",
     "Prodcer: produce\nConsumer:"),
    (2, "no step: 'Producer : produce'; write the steps alone, each as {a, b}; or, where these are columns, 'columns' in place of 'steps'",
     "steps\nProducer : produce"),
    (2, "no step: 'Columns'; an execution is written as steps or as columns", "{produce}\nColumns\nProducer:"),
    (2, "no step: 'columns:'; an execution is written as steps or as columns", "steps\ncolumns:\nProducer:"),
    (2, "an execution is written as steps or as columns", "{produce}\ncolumns Producer: produce"),
    (1, "not understood: 'steps: {produce}'; write 'steps'", "steps: {produce}"),
    (1, "not understood: 'Steps: {produce}'; write 'steps'", "Steps: {produce}"),
    (2, "not understood: 'Steps'; write 'steps'", "\nSteps\n{produce}"),
    (1, "not understood: 'step:{produce}'; write 'steps'", "step:{produce}"),
    # components
    (2, "there is no component 'producer': the system has Producer Consumer", "columns\nproducer: produce\nConsumer:"),
    (2, "there is no component '': the system has Producer Consumer", "columns\n: produce\nConsumer:"),
    (2, "there is no component '„Producer“': write Producer", "columns\n„Producer“: produce\nConsumer:"),
    (2, "there is no component 'component Producer': the system has", "columns\ncomponent Producer: produce"),
    (4, "the column of 'Producer' is already there, in line 2: delete one of the two", "columns\nProducer: produce\nConsumer:\nProducer: produce"),
    (3, "the column of 'Consumer' is already there, in line 2", "columns\nConsumer:\nConsumer:"),
    (2, "component Consumer has no column: write 'Consumer:' and its actions, or nothing behind the colon where it does nothing",
     "# late\ncolumns\nProducer: produce\n"),
    (1, "components Producer and Consumer have no column: write 'Producer:' and its actions", "columns"),
    # actions
    (2, "action 'start' is not in the alphabet of 'Producer', but in that of Consumer: Producer has produce deliver", "columns\nProducer: start"),
    (2, "action 'eat' is in no alphabet: the system has produce start deliver", "columns\nProducer: eat"),
    (2, "action 'produce“' is in no alphabet: write produce", "columns\nProducer: produce“"),
    (2, "'produce,' is no action: write no , between actions, but spaces alone", "columns\nProducer: produce, deliver"),
    (2, "'produce;deliver' is no action: write no ; between actions, but spaces alone", "columns\nProducer: produce;deliver"),
    (2, "'→' is no action: write no → between actions, but spaces alone", "columns\nProducer: produce → deliver"),
    (2, "'produce→deliver' is no action: write no → between actions", "columns\nProducer: produce→deliver"),
    (2, "'->' is no action: write no -> between actions", "columns\nProducer: produce -> deliver"),
    (2, "'produce->deliver' is no action: write no -> between actions", "columns\nProducer: produce->deliver"),
    (2, "'produce，' is no action: write no ， between actions", "columns\nProducer: produce， deliver"),
    (3, "'-' is no action: where Consumer does nothing, write nothing behind the colon", "columns\nProducer:\nConsumer: -"),
    (3, "'–' is no action: where Consumer does nothing", "columns\nProducer:\nConsumer: –"),
    (3, "'−' is no action: where Consumer does nothing", "columns\nProducer:\nConsumer: −"),
    (3, "'-' is no action: where Consumer does nothing", "columns\nProducer:\nConsumer: - -"),
    (2, "'-' is no action: write no - between actions, but spaces alone", "columns\nProducer: produce - deliver"),
    (2, "'–' is no action: write no – between actions, but spaces alone", "columns\nProducer: produce – deliver"),
    (2, "'--' is no action: write no -- between actions, but spaces alone", "columns\nProducer: produce -- deliver"),
    (2, "'…' is no action: write the actions that it stands for, or delete it", "columns\nProducer: produce … deliver"),
    (2, "'“' is no action: delete it", "columns\nProducer: “ produce"),
    (2, "'“…”' is no action: write the actions that it stands for, or delete it", "columns\nProducer: “…”"),
    (3, "'/' is no action: where Consumer does nothing, write nothing behind the colon", "columns\nProducer:\nConsumer: /"),
    (3, "'->' is no action: where Consumer does nothing, write nothing behind the colon", "columns\nProducer:\nConsumer: ->"),
    (3, "'，' is no action: where Consumer does nothing", "columns\nProducer:\nConsumer: ， ，"),
    (2, "'/' is no action: write no / between actions, but spaces alone", "columns\nProducer: produce / deliver"),
    (1, "'”' is no action: delete it", "{produce, ”}"),
    (2, "each column stands in a line of its own: begin a new one with the next component", "columns\nProducer: produce Consumer: start"),
    (2, "a column has no braces: write its actions one after another", "columns\nProducer: {produce} {deliver}"),
    (2, "more than 65,535 actions in the column of 'Producer': shorten it", "columns\nProducer:" + " produce" * 65536),
    # indices
    (2, "'i' has no value here", "columns\nProducer: produce[i]\nConsumer:"),
    (2, "'for' repeats the line, not its actions: write each action of Producer as often as it comes (for i = 1)",
     "columns\nProducer: produce for i in 0..1\nConsumer:"),
    (3, "the column of 'Producer' is already there, in line 2: delete one of the two (for i = 0)", "columns\nProducer:\nProducer: produce for i in 0..1"),
    (2, "a column has no brackets around its actions: write them one after another", "columns\nProducer: [produce deliver]\nConsumer:"),
    (3, "a column has no brackets around its actions: write them one after another", "columns\nProducer:\nConsumer:[start]"),
]


def refused(said, system=TABLES):
    """The refusal that columns get: its number, its line and its words."""
    return common.unfit(lambda: columns.execution_of(system, text.read_execution(said, system)))


class Text(common.Case):
    """V2: the text of columns, and what is wrong with it."""

    def test_bad_texts(self):
        """Each is told with its line; the call is not even made."""
        with mock.patch("oatmist.calls.columns", side_effect=AssertionError):
            self.faults(BAD, lambda bad: text.read_execution(bad, TABLES))

    def test_bad_texts_behind_a_system(self):
        """The same faults where the columns stand behind their system."""
        before = SYSTEM.count("\n")
        self.faults([(before + line, message.partition(", in line")[0], SYSTEM + bad) for line, message, bad in BAD
                     if begins_columns(next(lines_of(bad)).text)], text.read)

    def test_the_word_behind_a_system(self):
        before = SYSTEM.count("\n")
        self.faults([(before + line, message, SYSTEM + bad) for line, message, bad in (
            (1, "'columns' stands alone in its line", "columns Producer: produce"), (1, "write 'columns'", "Columns\n"),
            (1, "'columns' stands alone in its line", "Columns Producer: produce"), (1, "write 'columns'", "columns;\n"),
            (1, "columns stand below the word 'columns': write it in a line above them", "Producer: produce\nConsumer:"),
            (2, "an execution is written as steps or as columns", "steps\ncolumns\n"),
            (2, "an execution is written as steps or as columns", "steps {produce}\nColumns\n"),
            (2, "or, where these are columns, 'columns' in place of 'steps'", "steps\nProducer: produce"),
            (2, "an execution is written as steps or as columns", "columns\nsteps\n"))], text.read)

    def test_steps_alone(self):
        """Of columns nothing is said where there are braces, nor behind steps."""
        for said in ("1: {produce}", "steps\n1: {produce}", "{produce}\n2: start", "steps {produce}\nConsumer: start"):
            with self.assertRaisesRegex(Fault, "; write the steps alone, each as {a, b}$"):
                text.read_execution(said, TABLES)
        for name in ("column", "Columns"):
            with self.assertRaisesRegex(Fault, f"no step: '{name}'; write {{{name}}}$"):
                text.read_execution("{a}\n" + name, text.read(ONE + f"\n also {name}")[0])

    def test_no_system(self):
        """An execution that is given as the system."""
        due = "but no system: the file of the system comes first, then that of the execution"
        below = "but its system stands below it: put the system first"
        self.faults([(1, f"'columns', {due}", "columns"), (2, f"'columns', {due}", "# mine\n" + GOOD),
                     (1, f"'steps', {due}", "steps {produce}"), (1, f"a step, {due}", "{produce}"),
                     (1, f"'columns', {below}", "columns\n" + SYSTEM), (1, f"'columns', {below}", GOOD + SYSTEM),
                     (2, f"'columns', {due}", "actions a\n" + GOOD), (1, f"'steps', {below}", "steps {produce}\n" + SYSTEM), (1, f"a step, {below}", "{produce}\n" + SYSTEM),
                     (1, f"'columns', {below}", "columns\n" + TWO)], lambda bad: inputs.read_text(bad))
        path = self.write("columns.txt", GOOD)
        for words in (("mark", path, PAIR), ("show", path, "--columns"), ("show", path), ("class", path, ".")):
            self.assertEqual(self.call(*words), (2, "", f"{path}:1: 'columns', {due}\n"))

    def test_good_texts(self):
        for said in (GOOD, GOOD.replace(": ", " :  "), GOOD.replace(": ", ":"), "\n# mine\n\ncolumns # two\n\n" + GOOD.partition("\n")[2],
                     "columns\nConsumer: start deliver # first\nProducer: produce deliver produce"):
            self.assertEqual(text.read_execution(said, TABLES), Columns(LISTS), said)
            self.assertEqual(text.read(SYSTEM + said), (TABLES, Columns(LISTS)))
        self.assertEqual(text.read_execution("columns\nProducer:\nConsumer:", TABLES).lists, [[], []])
        self.assertEqual(text.read_execution(GOOD, TABLES).lines, [2, 3])

    def test_indices(self):
        system, given = text.read("component P[i] for i in 0..2\n states s\n initial s\n s -a[i]-> s\n s -b[(i+1)%3]-> s\n"
                                  "columns\n P[2-i]: a[2-i] a[2-i] for i in 0..1\n P0: b[0+1]")
        self.assertEqual([[system.actions[action] for action in actions] for actions in given.lists], [["b1"], ["a1", "a1"], ["a2", "a2"]])
        with self.assertRaisesRegex(Fault, "columns stand below the word 'columns': write it in a line above them .for i = 0."):
            text.read_execution("P[i]: a[i] for i in 0..2", system)
        for names, more in (("P0 P1", ", or write the index in the name before the colon"), ("P0 Q1", ""), ("P0 P", "")):
            system = text.read("".join(f"component {name}\n states s\n initial s\n s -a-> s\n" for name in names.split()))[0]
            with self.assertRaisesRegex(Fault, f"write each action of P0 as often as it comes{more} .for i = 1.$"):
                text.read_execution("columns\nP0: a for i in 0..1", system)
        with self.assertRaisesRegex(Fault, "'P1.2.' and 'P.12.' are both 'P12'"):
            text.read("component P1[2]\n states s\n initial s\n s -a-> s\ncolumns\nP[12]: a")

    def test_names_that_are_words(self):
        """What was a system before is one still, also where something in it is called columns."""
        said = "component columns\n states columns t\n initial columns\n columns -columns-> t\n t -> columns\n"
        self.assertEqual(text.read(said + "steps {columns}")[1].steps, [[0]])
        self.assertEqual(text.read(said + "columns\ncolumns: columns columns")[1].lists, [[0, 0]])
        self.assertEqual(text.read_execution("columns\ncolumns: columns", text.read(said)[0]).lists, [[0]])
        for column in ("rows: a", "rows : a"):
            said = f"component rows\n states s\n initial s\n s -a-> s\ncolumns\n{column} a"
            self.assertEqual(inputs.read_text(said)[1].lists, [[0, 0]])
        product = TWO.replace(" a x -", " columns x -")
        self.assertEqual(inputs.read_text(product + "steps {columns}")[0].actions[0], "columns")
        self.assertEqual(inputs.read_text(product + "columns\nA: columns\nB:")[1].lists, [[0], []])

    def test_products(self):
        """V1: the alphabet of a component is the rows in which it takes part."""
        system, given = inputs.read_text(TWO + "columns\n A: a b\n B: c b\n")
        self.assertEqual(given.lists, [[0, 1], [2, 1]])
        self.assertEqual(columns.execution_of(system, given).steps, [[0, 2], [1]])
        self.assertEqual(text.read_product(TWO)[0].alphabets, system.alphabets)
        with self.assertRaisesRegex(Fault, "action 'c' is not in the alphabet of 'A', but in that of B: A has a b"):
            inputs.read_text(TWO + "columns\n A: c\n")
        for said in ("A: a\nB:", "A : a\nB:"):
            with self.assertRaisesRegex(Fault, "columns stand below the word 'columns'"):
                inputs.read_text(TWO + said)
        with self.assertRaisesRegex(Fault, "'columns' stands before 'rows': write the rows first"):
            inputs.read_text(TWO.replace("rows\n", "columns\nrows\n"))
        with self.assertRaisesRegex(Unfit, "no product, refused by 16"):
            inputs.read_text(TWO.replace("c - u", "c x -") + "columns\nA: a\nB:")

    def test_round_trip(self):
        """V1: what is written is read again."""
        dice = common.dice(4)
        for _ in range(300):
            system = common.random_system(dice)
            given = Columns([[dice.choice(sorted(alphabet)) for _ in range(dice.randint(0, 5))] for alphabet in system.alphabets])
            self.assertEqual(text.read_execution(text.write_execution(system, given), system), given)
            self.assertEqual(text.read(text.write(system, given))[1], given)

    def test_as_many_as_are_read(self):
        """R18: what two bytes can count is handed to the desk."""
        self.assertEqual(column_reader.LONGEST, 65535)
        system = text.read(ONE)[0]
        given = text.read_execution("columns\nP:" + " a" * 65535, system)
        self.assertEqual(columns.encode(given)[:2], b"\xff\xff")
        self.assertEqual(refused("columns\nP:" + " a" * 65535, system)[0], 18)


class Refused(Quiet):
    """R18, R19: the number is the desk's, the words name components, actions and places."""

    LONG = "columns\nProducer:" + " produce deliver" * 257 + "\nConsumer:" + " start deliver" * 256

    def test_18(self):
        """R18: 1,024 actions together are taken; the line is that of the first one too many."""
        self.assertEqual(refused(self.LONG), (18, 3, "The columns have 1,026 actions together: shorten them to 1,024; "
                                                     "a shared action counts in each column that has it."))
        self.assertEqual(refused("columns\nProducer:" + " produce" * 1025 + "\nConsumer:")[:2], (18, 2))
        for first, second, line in ((1024, 1, 3), (1025, 0, 2), (0, 1025, 3), (1, 1024, 3), (500, 600, 3)):
            self.assertEqual(refused("columns\nConsumer:" + " start" * first + "\nProducer:" + " produce" * second)[:2], (18, line))
        made = Columns([[0] * 1000, [1] * 1000])
        self.assertEqual(common.unfit(lambda: columns.execution_of(TABLES, made))[:2], (18, 0))
        self.assertIn("have 2,000 actions together", common.unfit(lambda: columns.execution_of(TABLES, made))[2])
        said = self.LONG.replace(" produce deliver", "", 1)
        self.assertIsNone(refused(said))
        self.assertEqual(refused(said + " start")[0], 18)
        self.assertEqual(refused(said.replace(" start", " deliver", 1))[0], 19)

    def test_the_desk_decides(self):
        """V3: the answer is what the call says, whatever stands in the text."""
        with mock.patch("oatmist.calls.columns", side_effect=calls.Refusal(19, 0, 0)):
            self.assertEqual(refused(GOOD), (19, 2, "With these columns nobody can go on after 4 actions."))
        with mock.patch("oatmist.calls.columns", side_effect=calls.Refusal(18, 0, 0)):
            self.assertEqual(refused(GOOD)[0], 18)
        due = sheet.encode(*text.read(SYSTEM + "steps {start}"))
        with mock.patch("oatmist.calls.columns", return_value=due):
            self.assertIsNone(refused("columns\nProducer: deliver\nConsumer:"))

    def test_verbs(self):
        """Verbs that answer print the refusal with who waits for whom; the others tell it in a line, and write nothing."""
        path = self.write("system.txt", SYSTEM)
        self.write("columns.txt", "columns\nProducer: produce\nConsumer: start deliver\n")
        sentence = ("With these columns nobody can go on after 2 actions. Consumer waits for Producer to do deliver, "
                    "which stands once in the column of Consumer and not in that of Producer.")
        table = "as far as one gets\n  Producer  1 of 1 done\n  Consumer  1 of 2 done, waits for Producer to do deliver\n"
        for verb in ("mark", "next"):
            answer = self.call(verb, path, "columns.txt")
            self.assertEqual((answer.status, answer.told), (1, ""))
            head, _, rest = answer.out.partition("as far")
            self.assertEqual((head.replace("\n", " "), "as far" + rest), (f"refused (19) columns.txt:3: {sentence} ", table))
        for words in (("make", "-o", "made"), ("picture", "-o", "made.svg")):
            self.assertEqual(self.call(words[0], path, "columns.txt", *words[1:]), (1, "", f"columns.txt:3: no execution, refused by 19: {sentence}\n"))
        os.mkdir("in")
        self.write("in/a.txt", "{start}")
        self.assertEqual(self.call("class", path, "in", "--model", "columns.txt"), (1, "", f"columns.txt:3: the model solution is refused by 19. {sentence}\n"))
        whole = self.write("whole.txt", SYSTEM + "columns\nProducer: deliver\nConsumer: deliver\n")
        line = SYSTEM.count("\n") + 2
        self.told(self.call("show", whole, "--steps"), 1, f"{whole}:{line}: no execution, refused by 19: With these columns nobody can begin. Place 1")
        for verb in ("lint", "graph", "show"):
            self.assertEqual(self.call(verb, whole).status, 0, verb)
        self.left("columns.txt", "system.txt", "in", "whole.txt")

    def test_verbs_18(self):
        """R18: columns that are too many may have an execution, and no verb says that there is none."""
        path, whole = self.write("system.txt", SYSTEM), self.write("whole.txt", SYSTEM + self.LONG)
        self.write("columns.txt", self.LONG)
        os.mkdir("in")
        self.write("in/a.txt", "{start}")
        sentence = refused(self.LONG)[2]
        for verb in ("mark", "next"):
            answer = self.call(verb, path, "columns.txt")
            self.assertEqual((answer.status, answer.out.replace("\n", " ")), (1, f"refused (18) columns.txt:3: {sentence} "))
        for words in (("make", "-o", "made"), ("picture", "-o", "made.svg")):
            self.assertEqual(self.call(words[0], path, "columns.txt", *words[1:]), (1, "", f"columns.txt:3: refused by 18: {sentence}\n"))
        self.assertEqual(self.call("class", path, "in", "--model", "columns.txt"), (1, "", f"columns.txt:3: the model solution is refused by 18. {sentence}\n"))
        self.assertEqual(self.call("show", whole, "--steps"), (1, "", f"{whole}:{SYSTEM.count(chr(10)) + 3}: refused by 18: {sentence}\n"))
        self.left("columns.txt", "system.txt", "in", "whole.txt")

    def test_a_library_without_the_call(self):
        """The desk is asked for the call before it answers anything, in a sitting too."""
        path = self.write("whole.txt", SYSTEM + GOOD)
        os.mkdir("in")
        self.write("in/a.txt", GOOD)
        self.finds(common.Desk(without="columns"))
        for words in (("mark", path), ("class", path, "in")):
            self.told(self.call(*words), 2, "other.so: the library has no call oatmist_columns: it belongs to another version of the desk")


class Verbs(Quiet):
    """V3 to V5: what reads an execution reads columns."""

    def setUp(self):
        super().setUp()
        self.system = self.write("system.txt", SYSTEM)
        self.columns = self.write("columns.txt", GOOD)
        self.whole = self.write("whole.txt", SYSTEM + GOOD)

    def test_mark_and_next(self):
        due = self.call("mark", PAIR).out
        for words in ((self.system, self.columns), (self.whole,), (self.system, self.whole), (PAIR, self.columns), (self.whole, self.columns)):
            answer = self.call("mark", *words)
            self.assertEqual(answer, (0, due.replace("accepted: 4 steps, restated in 3", "accepted: columns, restated in 3"), ""))
            self.assertEqual(self.call("next", *words), (0, self.call("next", PAIR).out.replace("after 4 steps", "after the columns"), ""))
        self.assertIn("at the start\n", self.call("next", self.system, self.write("nothing.txt", "columns\nProducer:\nConsumer:")).out)
        self.assertIn("accepted: 1 step,", self.call("mark", self.whole, self.write("steps.txt", "{start}")).out)

    def test_standard_input(self):
        answer = self.shell("$oatmist mark $PAIR - <$columns", columns=self.columns)
        self.assertEqual(answer.out.partition("\n")[0], "accepted: columns, restated in 3")

    def test_make(self):
        """V3, V4: the sheet is the restated one, also where the system is a sheet with steps of its own."""
        with open(PAIR[:-4] + ".sheet", "rb") as file:
            due = calls.restate(file.read())
        for words in ((self.system, self.columns), (self.whole,), (PAIR, self.columns)):
            self.assertEqual(self.call("make", *words, "-o", "made"), (0, "", ""))
            self.assertEqual(self.read("made"), due)
        bad = self.write("bad.sheet", sheet.encode(*text.read(SYSTEM + "steps {deliver}")))
        self.write("numbers.txt", "columns\nc0: a0 a2 a0\nc1: a1 a2")
        self.assertEqual(self.call("make", bad, "numbers.txt", "-o", "made"), (0, "", ""))
        self.assertEqual(self.read("made"), due)

    def test_show(self):
        """V1: an execution as columns and as steps; a text with columns keeps them."""
        shown = "columns\n  Producer: produce deliver produce\n  Consumer: start deliver\n"
        self.assertTrue(self.call("show", self.whole).out.endswith(shown))
        for path in (self.whole, PAIR):
            self.assertEqual(self.call("show", path, "--columns"), (0, shown, ""))
        self.assertEqual(self.call("show", self.whole, "--steps"), (0, "steps\n  {produce, start}\n  {deliver}\n  {produce}\n", ""))
        self.assertEqual(self.call("show", self.system, "--columns").out, "columns\n  Producer:\n  Consumer:\n")
        self.told(self.call("show", self.write("bad.txt", SYSTEM + "steps {deliver}"), "--columns"), 1, "bad.txt: refused by 12: Step 1, {deliver}")
        self.assertEqual(self.call("show", PAIR, "--columns", "--steps").status, 2)

    def test_show_refused(self):
        """R18, R19: columns that are refused are told, and not shown, in either form."""
        line = SYSTEM.count("\n") + 2
        for said, told, place in (("columns\nProducer: deliver\nConsumer: deliver\n", "no execution, refused by 19", line),
                                  (Refused.LONG, "refused by 18", line + 1)):
            path = self.write("bad.txt", SYSTEM + said)
            answers = [self.call("show", path, form) for form in ("--columns", "--steps")]
            self.assertEqual(answers[0], answers[1])
            self.assertEqual(answers[0].out, "")
            self.told(answers[0], 1, f"bad.txt:{place}: {told}: ")

    def test_show_refused_steps(self):
        """R12: steps that are refused are shown as steps, as they are."""
        path = self.write("bad.txt", SYSTEM + "steps\n  {deliver}\n")
        self.assertEqual(self.call("show", path, "--steps"), (0, "steps\n  {deliver}\n", ""))

    def test_show_too_many(self):
        """R18: the columns of an accepted execution are shown also where they are too many to be handed in, with a note."""
        for count, note in ((256, ""), (257, "the execution is accepted, but handed in as columns it is refused by 18: The columns have 1,028 actions "
                                             "together: shorten them to 1,024; a shared action counts in each column that has it.\n")):
            path = self.write("long.txt", SYSTEM + "steps" + " {produce, start} {deliver}" * count)
            shown = "columns\n  Producer:" + " produce deliver" * count + "\n  Consumer:" + " start deliver" * count + "\n"
            self.assertEqual(self.call("show", path, "--columns"), (0, shown, note))
            self.assertEqual(self.call("mark", path).status, 0)
            self.assertEqual(self.call("mark", self.system, self.write("shown.txt", shown)).status, bool(note))

    def test_picture(self):
        """What is drawn is the restated form alone: columns have no steps."""
        self.assertEqual(self.call("picture", self.system, self.columns, "-o", "made.svg"), (0, "", ""))
        self.assertEqual(self.call("make", self.system, self.columns, "-o", "made.sheet").status, 0)
        drawn = self.read("made.svg").decode()
        self.assertEqual((drawn.count('class="part"'), drawn.count('class="event"')), (1, 4))
        self.assertIn("restated: 3 steps", drawn)
        self.assertNotIn("as given", drawn)
        self.told(self.call("picture", self.system, self.columns, "--from", "4"), 2, "there is no step 4: the execution has 3")

    def test_another_system(self):
        """R14: it comes before what is wrong with the columns."""
        other = SYSTEM.replace("idle -produce-> full", "full -produce-> full")
        self.write("other.txt", other + "columns\nProducer: deliver\nConsumer: deliver")
        self.told(self.call("mark", self.system, "other.txt"), 1, "this is over another system", "(14)")

    def test_class(self):
        """V5: columns and steps are in one class exactly when they are the same work; 18 and 19 are marks, and have no step."""
        os.mkdir("in")
        other = SYSTEM.replace("idle -produce-> full", "full -produce-> full")
        for name, said in (("columns", GOOD), ("steps", "{start} {produce} {deliver} {produce}"), ("wide", "{produce, start} {deliver} {produce}"),
                           ("whole", SYSTEM + GOOD), ("less", "columns\nProducer: produce\nConsumer:"), ("nothing", "columns\nProducer:\nConsumer:"),
                           ("circle", "columns\nProducer: deliver\nConsumer: start deliver"), ("long", Refused.LONG),
                           ("own", SYSTEM + "columns\nProducer: deliver\nConsumer:"), ("other", other + "columns\nProducer: deliver\nConsumer:"),
                           ("missing", "columns\nProducer: produce"), ("headless", GOOD.partition("\n")[2])):
            self.write(f"in/{name}.txt", said)
        answer = self.call("class", self.system, "in", "--model", self.columns, "--json")
        lines = {line.pop("file")[:-4]: line for line in json.loads(answer.out)}
        self.assertEqual({name for name, line in lines.items() if line.get("model")}, {"columns", "steps", "wide", "whole"})
        self.assertEqual({lines[name]["class"] for name in ("columns", "steps", "wide", "whole")}, {lines["columns"]["class"]})
        self.assertEqual([lines[name]["K"] for name in ("columns", "steps", "whole", "nothing")], [3, 4, 3, 0])
        self.assertEqual([lines[name] for name in ("circle", "own", "long", "other")],
                         [{"verdict": "refused", "number": number, "step": 0} for number in (19, 19, 18)] + [{"verdict": "other-system", "number": 14, "step": 0}])
        self.assertEqual({name for name, line in lines.items() if line["verdict"] == "unreadable"}, {"missing", "headless"})
        self.assertRegex(self.call("class", self.system, "in").out, r"circle.txt +refused 19\n")
        self.assertRegex(self.call("class", self.system, "in", "--csv").out, r"(?m)^circle.txt,refused,19,0,")

    def test_related(self):
        """V5: at random, a list of actions as columns and as steps has one class, and another list the same exactly when it is related."""
        dice, marker = common.dice(35), sittings.Marker(TABLES)
        kept = {}
        for _ in range(400):
            steps = [[dice.randrange(3)] for _ in range(dice.randint(0, 7))]
            execution = Execution(steps)
            written = text.write_execution(TABLES, columns.of_execution(TABLES, execution)).encode()
            try:
                _, due = marker.restated("steps.txt", text.write_execution(TABLES, execution).encode())
            except calls.Refusal:
                continue
            self.assertEqual(marker.restated("columns.txt", written)[1], due)
            self.assertEqual(kept.setdefault(written, due), due)
        self.assertEqual(len(set(kept.values())), len(kept))
        self.assertGreater(len(kept), 5)


class Manners(Quiet):
    """O4: files that fail, and texts that are damaged: told in a line, and nothing is written."""

    def test_files(self):
        path = self.write("columns.txt", GOOD)
        self.told(self.call("make", PAIR, path, "-o", path), 2, "this file is read: give another one to write")
        self.told(self.shell("$oatmist make $PAIR $path -o /dev/full", path=path), 2, "/dev/full: No space left on device")
        self.write("bad.txt", GOOD.replace(" start", ""))
        for verb in ("mark", "next"):
            for name in (path, "bad.txt"):
                self.told(self.shell(f"$oatmist {verb} $PAIR $path >/dev/full", path=name), 2, "standard output: No space left on device")
        self.told(self.call("mark", PAIR, self.write("bad.txt", GOOD.encode("utf-16"))), 2, "this is UTF-16")
        self.told(self.call("mark", PAIR, self.write("bad.txt", GOOD.encode() + b"\xff")), 2, "bad.txt:4: this is no UTF-8 text")
        self.left("bad.txt", "columns.txt")

    def test_damaged(self):
        """A text with some letters or lines changed is read, refused in words, or told in a line."""
        dice, seen = common.dice(18), set()
        for _ in range(1500):
            said = dice.choice((common.damaged(dice, GOOD, "-x \n#{}[0:>–"), GOOD.replace(dice.choice(("produce", "start", "deliver")), "", 1)))
            seen.add(self.answered(self.call("mark", PAIR, self.write("damaged.txt", said)), said))
        self.assertEqual(seen, {0, 1, 2})

    def test_long_lines(self):
        """The time grows with the length of a line and no faster."""
        begun = time.process_time()
        for front, part in (("columns\n", "a"), ("columns\n", "a "), ("columns\n", ":"), ("columns\nProducer:", " produce"), ("columns\nProducer:", "["),
                            ("columns\nProducer:", "x[1]"), ("columns\n", "Producer:\n"), ("", "columns\n"), ("columns", " "), ("Producer", ":")):
            for end in ("", "\nz"):
                answer = self.call("mark", PAIR, self.write("long.txt", front + part * (300000 // len(part)) + end))
                self.assertIn(answer.status, (1, 2))
                self.assertNotIn("Traceback", answer.told)
        self.assertLess(time.process_time() - begun, 10)
