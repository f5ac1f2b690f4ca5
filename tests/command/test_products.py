"""Products given by rows, as a person writes them: the text, the refusals in words, every verb, files that fail (B5, R15 to R17, O8)."""
import json
import os
import time
from unittest import mock

import common
from common import PAIR
from oatmist import calls, inputs, places, product, rows, sheet, text
from oatmist.faults import Fault
from test_manners import Quiet
from test_text import many

EXAMPLES = "examples/products"
TWO = """component A
 states s t
 initial s
 s -x-> t
 t -y-> s
component B
 states r
 initial r
 r -u-> r
rows
 a x -
 b y u
 c - u
"""
HEAD = TWO[:TWO.index("rows")]
FULL = "component {}\nstates s\ninitial s\ns -t-> s\n"


def example(name):
    with open(os.path.join(common.TOP, EXAMPLES, name), encoding="utf-8") as file:
        return file.read()


def crowd(count):
    """A product of so many components, which move together."""
    return "".join(FULL.format(f"P{i}") for i in range(1, count + 1)) + "rows\nall" + " t" * count


def of_states(count):
    return f"component P\nstates {many('s', count)}\ninitial s{count}\ns{count} -t-> s1\nrows\na t"


def of_rows(count, transitions=None):
    """A product of so many rows, each with a transition of its own, and of further transitions."""
    arrows = "".join(f"s -t{i}-> s\n" for i in range(1, (transitions or count) + 1))
    return f"component P\nstates s\ninitial s\n{arrows}rows\n" + "".join(f"r{i} t{i}\n" for i in range(1, count + 1))


BAD = [  # the line that is told, what is said, the text
    (10, "'rows' stands alone in its line", HEAD + "rows a x -"),
    (14, "'rows' stands twice: delete the second", TWO + "rows"),
    (14, "after 'rows' only rows, 'steps' and 'columns' may follow", TWO + "component C"),
    (14, "after 'rows' only rows, 'steps' and 'columns' may follow", TWO + "s -z-> t"),
    (14, "after 'rows' only rows, 'steps' and 'columns' may follow", TWO + "states v"),
    (14, "no line 'steps' above it", TWO + "{a}"),
    (14, "no line 'steps' above it", TWO + "raw 0x1"),
    (14, "no step: ' a'; write {a}", TWO + "steps a"),
    (10, "'steps' stands before 'rows': write the rows first", HEAD + "steps\nrows\na x -"),
    (15, "after 'steps' only steps may follow", TWO + "steps\nrows"),
    (14, "action 'x' is in no alphabet: the system has a b c", TWO + "steps {x}"),
    (1, "there is no component", "rows\na x"),
    # names
    (14, "row 'a' is already there, in line 11: write another name", TWO + "a y -"),
    (5, "transition 'x' is already there, in line 4: write another name", TWO.replace("-y->", "-x->")),
    (6, "component 'A' is already there, in line 1", TWO.replace("component B", "component A")),
    (2, "state 's' is named twice", TWO.replace("s t", "s s")),
    (14, "'from' is a word of the format and cannot be a name", TWO + "from x -"),
    (7, "'rows' is a word of the format and cannot be a name", TWO.replace("states r\n", "states rows\n")),
    (14, "'steps' is a word of the format and cannot be a name: write steps1", TWO + "steps y -"),
    (14, "'raw' is a word of the format and cannot be a name: write raw1", TWO + "raw y -"),
    (14, "'rows' is a word of the format and cannot be a name: write rows1", TWO + "rows y -"),
    (14, "'also' is a word of the format and cannot be a name: write also1", TWO + "also y -"),
    (14, "a row begins with its name", TWO + "- u"),
    (14, "a row begins with its name", TWO + "- - u"),
    (14, "'d:' is no name: it has :", TWO + "d: x -"),
    # columns
    (14, "not understood: 'Columns'; write 'columns'", TWO + "Columns\nA: a\nB:"),
    (14, "not understood: 'columns:'; write 'columns'", TWO + "columns:\nA: a\nB:"),
    (14, "'columns' stands alone in its line", TWO + "columns A: a"),
    (14, "'columns' stands alone in its line", TWO + "Columns A: -"),
    (14, "columns stand below the word 'columns'", TWO + "A: a"),
    (14, "row 'columns' has 1 of 2 entries", TWO + "columns x"),
    (15, "or, where these are columns, 'columns' in place of 'steps'", TWO + "steps\nA: a"),
    (15, "an execution is written as steps or as columns", TWO + "steps {a}\nColumns"),
    (15, "'d1[2]' and 'd[12]' are both 'd12'", TWO + "d1[2] x -\nd[12] y -"),
    # entries
    (14, "row 'd' has 0 of 2 entries: behind its name write", TWO + "d"),
    (14, "row 'd' has 1 of 2 entries", TWO + "d x"),
    (14, "row 'd' has 3 of 2 entries", TWO + "d x - -"),
    (14, "unknown transition 'u': component 'A' has x y; write - where it idles", TWO + "d u -"),
    (14, "unknown transition 'ε': component 'B' has u; write - where it idles", TWO + "d x ε"),
    (14, "unknown transition '–': component 'B' has u; instead of – write -", TWO + "d x –"),
    (14, "'x,' is no name: write no , between names", TWO + "d x, -"),
    (14, "a row is a name and one word for each component, without brackets and commas: write 'a t1 -'", TWO + "d <y, ->"),
    (14, "a row is a name and one word for each component", TWO + "d = <y,->"),
    (14, "a row is a name and one word for each component", TWO + "<y, u>"),
    (14, "a row is a name and one word for each component", TWO + "d ⟨y, ε⟩"),
    (14, "a row is a name and one word for each component", TWO + "d (y, -)"),
    (14, "a row is a name and one word for each component", TWO + "d y, ->"),
    (14, "a row is a name and one word for each component", TWO + "d y ->"),
    (6, "component 'P' has no transitions", "component P\nstates s\ninitial s\n\nrows\na t"),
    (14, "unknown transition 'x0': component 'A' has x y; write - where it idles (for i = 0)", TWO + "d[i] x[i] - for i in 0..1"),
    # components
    (3, "component 'A' of a product begins in one state", TWO.replace("initial s", "initial s t")),
    (4, "component 'A' of a product begins in one state", TWO.replace("initial s", "initial s\n initial s")),
    (1, "component 'A' has no initial state", TWO.replace(" initial s\n", "")),
    (1, "component 'A' has no state", "component A\nrows"),
    (5, "a transition of a product has a name: write 's1 -t1-> s2'", TWO.replace("-y->", "->")),
    (5, "no transition: 't --> s'; a transition of a product has a name", TWO.replace("-y->", "-->")),
    (4, "a product has no 'also'", TWO.replace(" s -x-> t", " also x")),
    (1, "a product has no 'actions': its rows are its actions", "actions a b\n" + TWO),
    (5, "unknown state 'v': component 'A' has s t", TWO.replace("t -y-> s", "t -y-> v")),
    (4, "not understood: 'x: s t'; a line begins with component, states, initial, rows, steps or columns", TWO.replace("s -x-> t", "x: s t")),
    # more than a byte counts
    (1021, "more than 255 components: 'P256' would be one too many", crowd(256)),
    (2, "more than 255 states in component 'P': 's256'", of_states(256)),
    (259, "more than 255 transitions in component 'P': 't256' would be one too many", of_rows(1, 256)),
    (515, "more than 255 rows: 'r256' would be one too many", of_rows(255) + "r256 t1"),
]

REFUSED = [  # the number, the line, what is said, the text
    (15, 65, "There are 17 components: a product has at most 16, and P17 is the first too many.", crowd(17)),
    (15, 1, "Component P has 33 states: there are at most 32, and s33 is the first too many.", of_states(33)),
    (15, 1, "Component P has 255 states: there are at most 32, and s33 is the first too many.", of_states(255)),
    (15, 134, "There are 65 rows: a product has at most 64, and r65 is the first too many.", of_rows(65)),
    (15, 10, "There is no row: write one at least, below 'rows'.", HEAD + "rows"),
    (16, 12, "Row b repeats row a of line 11: change one of the two, or delete it.", HEAD + "rows\na x u\nb x u"),
    (16, 13, "Row c repeats row a of line 11: change one of the two, or delete it.", HEAD + "rows\na x u\nb y u\nc x u"),
    (16, 13, "Row c repeats row a of line 11: change one of the two, or delete it.", HEAD + "rows\na x u\nb x -\nc x u"),
    (16, 11, "Row a is idle in every component: write a transition in it, or delete it.", HEAD + "rows\na - -\nb x u"),
    (16, 12, "Row b is idle in every component: write a transition in it, or delete it.", HEAD + "rows\na x u\nb - -\nc - -\nd x u"),
    (17, 6, "Component B idles in every row: write a transition into a row, or delete the component.", HEAD + "rows\na x -\nb y -"),
    (17, 1, "Components P and R idle in every row: write a transition into a row, or delete the component.",
     "".join(map(FULL.format, "PQR")) + "rows\na - t -"),
    # O8: the first number that applies
    (16, 6, "Row a is idle in every component: write a transition in it, or delete it.", "component P\nstates s\ninitial s\n\nrows\na -"),
    (16, 12, "Row b repeats row a of line 11: change one of the two, or delete it.", HEAD + "rows\na x -\nb x -"),
    (15, 1, "Component P has 33 states: there are at most 32, and s33 is the first too many.", of_states(33).replace("a t", "a -\nb -")),
]


def told(said):
    """The refusal that the product of a text gets: its number, its line and its words; None where it gets none."""
    return common.unfit(lambda: inputs.read_text(said))


class Faults(common.Case):
    """B5, R15: each bad text is told with its line; the call is not even made."""

    def test_bad_texts(self):
        with mock.patch("oatmist.calls.rows", side_effect=AssertionError):
            self.faults(BAD, inputs.read_text)

    def test_a_component_from_a_file(self):
        self.write("b.aut", 'des (0, 1, 1)\n(0, "u", 0)\n')
        path = self.write("product.txt", HEAD[:HEAD.index("component B")] + "component B from b.aut\nrows\na x -\nb y u\n")
        self.assertTrue(self.call("show", path).out.endswith("component B\n  states 0\n  initial 0\n  0 -b-> 0\n"))
        self.write("b.aut", 'des (0, 2, 1)\n(0, "u", 0)\n(0, "u", 0)\n')
        self.assertTrue(self.call("show", path).told.endswith("b.aut:3: transition 'u' is already there, in line 2: write another name\n"))
        for label in ("tau", "i"):
            self.write("b.aut", f'des (0, 2, 1)\n(0, "u", 0)\n(0, {label}, 0)\n')
            self.assertTrue(self.call("show", path).told.endswith(
                "b.aut:3: a product has no internal transition, and the labels i and tau are internal: "
                "give each transition of the file a name of its own\n"))


class Kinds(common.Case):
    """B5: a text is a product by the word 'rows', and by nothing else."""

    def test_products(self):
        for said in (TWO, TWO.replace("rows", "  rows  # of A and B"), TWO.replace("\n", "\n\n")):
            self.assertTrue(text.has_rows(said))
            self.assertEqual(self.call("mark", self.write("text", said)).out.partition("\n")[0], "accepted: 0 steps, restated in 0")

    def test_systems_with_the_word_as_a_name(self):
        """What was a system before is one still."""
        said = "component rows\n states rows t\n initial rows\n rows -rows-> t\n t -> rows\nsteps {rows}"
        self.assertFalse(text.has_rows(said))
        self.assertEqual(inputs.read_text(said)[0].actions, ["rows"])
        indexed = "component P[i] for i in 0..1\n states rows t\n initial rows\n rows -a[i]-> t\n t -b[i]-> rows"
        self.assertEqual(inputs.read_text(indexed)[0].actions, ["a0", "b0", "a1", "b1"])

    def test_words_that_are_not_quite_it(self):
        for word in ("Rows", "rows:", "row"):
            with self.assertRaisesRegex(Fault, "write 'rows'"):
                inputs.read_text(TWO.replace("rows", word))

    def test_steps_alone(self):
        self.assertFalse(text.has_rows("steps # rows\n{a}"))
        self.write("product.txt", TWO)
        self.write("steps.txt", "{a} {b}")
        self.assertIn("restated in 2\n", self.call("mark", "product.txt", "steps.txt").out)


class Sizes(common.Case):
    """R15: each limit on both sides; what is beyond is in REFUSED and BAD."""

    def test_as_many_as_there_may_be(self):
        for said, *sizes in ((crowd(16), 16, 1, 1), (of_states(32), 1, 1, 32), (of_rows(64), 1, 64, 1), (of_rows(64, 255), 1, 64, 1)):
            system, _ = inputs.read_text(said)
            self.assertEqual([len(system.components), len(system.actions), len(system.components[0].states)], sizes)
            calls.check(sheet.encode(system))

    def test_the_last_of_everything(self):
        """The last component, row, state and transition have bits and places of their own."""
        arrows = [f"s{i} -t{i}_{k}-> s{k}" for i in range(25, 33) for k in range(1, 33)][1:]
        self.assertEqual(len(arrows), 255)
        last = ["component P16", "states " + many("s", 32), "initial s32", *arrows]
        table = [f"r{i}{' -' * 15} t{25 + i // 32}_{i % 32 + 1}" for i in range(1, 64)] + ["r64" + " t" * 15 + " t32_32"]
        first = "".join(FULL.format(f"P{i}") for i in range(1, 16))
        system, execution = inputs.read_text(first + "\n".join([*last, "rows", *table, "steps {r64}"]))
        self.assertIn((31, 63, 31), system.components[15].transitions)
        self.assertEqual([component.alphabet for component in system.components[:15]], [{63}] * 15)
        self.assertEqual(system.components[15].alphabet, set(range(64)))
        self.assertEqual(places.ends(system, execution), [[0]] * 15 + [[31]])

    def test_the_longest_sheet(self):
        """Every component takes part in every row."""
        arrows = "".join(f"s -t{i}-> s\n" for i in range(64))
        said = "".join(f"component P{j}\nstates s\ninitial s\n{arrows}" for j in range(16))
        system, _ = inputs.read_text(said + "rows\n" + "\n".join(f"r{i}" + f" t{i}" * 16 for i in range(64)))
        self.assertEqual(len(sheet.encode(system)), 4362)

    def test_idle_with_255_transitions(self):
        """255 is idle, and the number of the last transition is 254."""
        said = of_rows(1, 255) + "last t255\n" + "idle -\n"
        self.assertEqual(told(said)[0], calls.ROW)
        system, _ = inputs.read_text(said.replace("idle -\n", ""))
        self.assertEqual(system.dropped, [("P", [f"t{i}" for i in range(2, 255)])])


class Refused(Quiet):
    """R15 to R17, O8: the number is the desk's, the words name the row or the component."""

    def test_words(self):
        self.assertEqual({number for number, *_ in REFUSED}, set(rows.REASONS))
        for number, line, sentence, said in REFUSED:
            self.assertEqual(told(said), (number, line, sentence))

    def test_shown(self):
        for number, line, sentence, said in REFUSED:
            path = self.write("product.txt", said)
            for verb in ("mark", "next"):
                answer = self.call(verb, path)
                self.assertEqual((answer.status, answer.told), (1, ""))
                self.assertEqual(answer.out.replace("\n", " "), f"refused ({number}) {path}:{line}: {sentence} ")
            for words in (("show",), ("lint",), ("make", "-o", "made"), ("graph", "-o", "made.dot"), ("picture", "-o", "made.svg")):
                answer = self.call(words[0], path, *words[1:])
                self.assertEqual(answer, (1, "", f"{path}:{line}: no product, refused by {number}: {sentence}\n"), words)
            self.told(self.call("class", path, self.folder), 1, f"refused by {number}")
            self.told(self.call("show", PAIR, "--names", path), 1, f"refused by {number}")
        self.left("product.txt")

    def test_the_desk_decides(self):
        """The number is what the call says, whatever stands in the text."""
        for number, _, _, said in REFUSED:
            with mock.patch("oatmist.calls.rows", side_effect=calls.Refusal(number, 0, 0)):
                self.assertEqual(told(said)[0], number)
        with mock.patch("oatmist.calls.rows", return_value=calls.rows(product.encode(text.read_product(TWO)[0]))):
            self.assertIsNone(told(TWO.replace("c - u", "c x -")))

    def test_one_file_on_standard_input(self):
        path = self.write("product.txt", REFUSED[5][3])
        answer = self.shell("$oatmist mark - <$path", path=path)
        self.assertEqual((answer.status, answer.out, answer.told), (
            1, "refused (16)\nstandard input:12: Row b repeats row a of line 11: change one of the two, or\ndelete it.\n", ""))

    def test_a_library_without_the_call(self):
        path = self.write("product.txt", TWO)
        self.finds(common.Desk(without="rows"))
        self.told(self.call("mark", path), 2, "other.so: the library has no call oatmist_rows: it belongs to another version of the desk")


class Verbs(Quiet):
    """O4, N8, A1: what takes a system takes a product."""

    STEPS = "steps {a} {b}\n"

    def setUp(self):
        super().setUp()
        self.product = self.write("product.txt", TWO)

    def test_show_and_make(self):
        shown = self.call("show", self.product).out
        self.assertEqual(shown, "actions a b c\ncomponent A\n  states s t\n  initial s\n  s -a-> t\n  t -b-> s\n"
                                "component B\n  states r\n  initial r\n  r -b-> r\n  r -c-> r\n")
        self.write("shown.txt", shown)
        for name in ("product.txt", "shown.txt"):
            self.assertEqual(self.call("make", name, self.write("steps.txt", self.STEPS), "-o", name[:-4] + ".sheet").status, 0)
        self.assertEqual(self.read("product.sheet"), self.read("shown.sheet"))
        self.assertEqual(self.call("show", "product.sheet", "--names", self.product, "--steps").out, "steps\n  {a}\n  {b}\n")
        self.assertEqual(self.call("show", self.product, "--aut", "out").status, 0)
        self.assertEqual(self.read("out/A.aut"), b'des (0, 2, 2)\n(0, "a", 1)\n(1, "b", 0)\n')

    def test_mark_and_next(self):
        self.write("whole.txt", TWO + self.STEPS)
        self.write("steps.txt", self.STEPS)
        for words in ((self.product, "steps.txt"), ("whole.txt",), (self.product, "whole.txt"), ("whole.txt", "steps.txt")):
            self.assertEqual(self.call("mark", *words).out.partition("\n")[0], "accepted: 2 steps, restated in 2")
            self.assertEqual(self.call("next", *words).out, "after 2 steps\n  A  s\n  B  r\npossible now: a c\n")
        self.write("bad.txt", "{b}")
        self.assertEqual(self.call("mark", self.product, "bad.txt").out,
                         "refused (12)\nStep 1, {b}: b is not possible. A is in s, where it can do a.\n")
        self.write("bad.txt", "{a} {b, c}")
        self.assertIn("b and c share B, which does one action in a step", self.call("mark", self.product, "bad.txt").out)

    def test_another_product(self):
        self.write("other.txt", TWO.replace("a x -", "a x u") + self.STEPS)
        self.told(self.call("mark", self.product, "other.txt"), 1, "this is over another system", "(14)")
        self.write("names.txt", TWO.replace(" a x", " z x") + "steps {z}")
        self.told(self.call("mark", self.product, "names.txt"), 2, "action 0 is called 'z' here and 'a' in the system")

    def test_lint(self):
        self.write("dropped.txt", TWO.replace(" r -u-> r", " r -u-> r\n r -v-> r\n r -w-> r"))
        self.assertEqual(self.call("lint", "dropped.txt"), (1, "no row names v and w of component B: they can never happen\n", ""))
        self.write("dropped.txt", TWO.replace(" r -u-> r", " r -u-> r\n r -v-> r"))
        self.assertEqual(self.call("lint", "dropped.txt"), (1, "no row names v of component B: it can never happen\n", ""))
        self.assertEqual(self.call("lint", self.product), (0, "nothing found\n", ""))

    def test_lint_of_names(self):
        """In a product no name joins components: each of these is told of the system that it becomes, and not of the product."""
        apart = TWO.replace("b y u", "b y -")
        for said, sentence in ((TWO.replace(" a x", " tau x"), "tau is an action like any other"),
                               (apart, "component A shares no action with another one"),
                               (TWO.replace(" a x", " send x").replace(" c -", " sent -"), "only A has send, and B has sent")):
            path = self.write("named.txt", said)
            self.assertEqual(self.call("lint", path), (0, "nothing found\n", ""))
            answer = self.call("lint", self.write("system.txt", self.call("show", path).out))
            self.assertEqual(answer.status, 1)
            self.assertIn(sentence, answer.out)

    def test_drawings(self):
        self.assertEqual(self.call("picture", self.product, self.write("steps.txt", self.STEPS), "-o", "made.svg").status, 0)
        self.assertIn(b'data-action="b" data-lanes="0 1"', self.read("made.svg"))
        self.assertIn('label=" b, c "', self.call("graph", self.product).out)

    def test_class(self):
        os.mkdir("in")
        for name, said in (("steps", "{a} {c} {b}"), ("swapped", "{c, a} {b}"), ("whole", TWO + "steps {c} {a} {b}"), ("less", "{a}"),
                           ("other", TWO.replace("a x -", "a x u") + self.STEPS), ("refused", TWO.replace("c - u", "c x -") + self.STEPS),
                           ("files", HEAD + "component C from c.aut\nrows\n"), ("wrong", "{b}"), ("unknown", "{x}")):
            self.write(f"in/{name}.txt", said)
        self.write("model.txt", "{a} {c} {b}")
        answer = self.call("class", self.product, "in", "--model", "model.txt", "--json")
        lines = {line["file"][:-4]: line for line in json.loads(answer.out)}
        self.assertEqual({name for name, line in lines.items() if line.get("model")}, {"steps", "swapped", "whole"})
        self.assertEqual([lines[name]["verdict"] for name in ("less", "other", "wrong")], ["accepted", "other-system", "refused"])
        self.assertEqual({name for name, line in lines.items() if line["verdict"] == "unreadable"}, {"refused", "files", "unknown"})
        self.assertTrue(lines["refused"]["reason"].startswith("line 13: no product, refused by 16: Row c repeats row a of line 11: change"))
        self.assertIn("a component from a file: hand in the execution alone", lines["files"]["reason"])
        self.assertEqual(answer.status, 1)


class Manners(Quiet):
    """O4: files that cannot be read or written, and texts that are damaged: told in a line, and nothing is written."""

    def test_files(self):
        path = self.write("product.txt", TWO)
        self.told(self.call("mark", path, "nothing"), 2, "nothing: there is no such file")
        self.told(self.call("make", path, "-o", "not/there"), 2, "not/there: its folder is not there")
        self.told(self.call("make", path, "-o", path), 2, "this file is read: give another one to write")
        self.told(self.shell("$oatmist make $path -o /dev/full", path=path), 2, "/dev/full: No space left on device")
        for verb in ("mark", "next", "lint", "show", "make"):
            self.told(self.shell(f"$oatmist {verb} $path >/dev/full", path=path), 2, "standard output: No space left on device")
            self.told(self.shell(f"$oatmist {verb} $path >&-", path=path), 2, "standard output is closed")
        self.told(self.call("mark", self.write("bad.txt", TWO.encode("utf-16"))), 2, "this is UTF-16")
        self.told(self.call("mark", self.write("bad.txt", TWO.encode() + b"\xff")), 2, "bad.txt:14: this is no UTF-8 text")
        self.told(self.call("mark", self.write("bad.txt", TWO + "\0")), 2, "bad.txt:14: the control character <U+0000>")
        self.left("bad.txt", "product.txt")

    def test_damaged(self):
        """A text with some letters or lines changed is read, refused in words, or told in a line."""
        dice, seen = common.dice(17), set()
        whole = example("peterson.txt")
        for _ in range(1500):
            said = common.damaged(dice, whole, "-x \n#{}[0>ε–")
            seen.add(self.answered(self.call("mark", self.write("damaged.txt", said)), said))
        self.assertEqual(seen, {0, 1, 2})

    def test_long_lines(self):
        """The time grows with the length of a line and no faster."""
        begun = time.process_time()
        for front, part in (("rows\n", "a"), ("rows\n", "a "), ("rows\na ", "- "), ("rows\na ", "x"), ("rows\na ", "["),
                            ("rows\na ", "x[1]"), ("rows", " "), ("rows\n", "a x -\n"), ("", "rows\n")):
            for end in ("", "\nz"):
                answer = self.call("mark", self.write("long.txt", HEAD + front + part * (300000 // len(part)) + end))
                self.assertIn(answer.status, (1, 2))
                self.assertNotIn("Traceback", answer.told)
        self.assertLess(time.process_time() - begun, 10)
