"""What the README and docs/TEXT.md show is so (G1, L1 to L7, B5, V1 to V5, R15 to R19)."""
import os
import re

import common
from oatmist import cli, files, text
from oatmist.column_reader import LONGEST
from oatmist.indices import expanded, lines_of
from oatmist.model import DESK
from oatmist.product import MOST
from oatmist.reader import WORDS


def page(name):
    with open(os.path.join(common.TOP, name), encoding="utf-8") as file:
        return file.read()


class TextPage(common.Case):
    """docs/TEXT.md: its examples are read as it says (G1), and it tells the limits (L1 to L7)."""

    def test_blocks(self):
        first, columns, second, third = re.findall(r"```\n(.*?)```", page("docs/TEXT.md"), re.S)
        system, execution = text.read(first)
        self.assertEqual((system.actions, execution.steps), (["produce", "start", "deliver", "reset"], [[0, 1], [2]]))
        self.assertEqual(len(text.read(second)[0].components), 10)
        self.assertLessEqual(second.count("\n"), 13)
        product, execution = text.read_product(third)
        self.assertEqual(([row.takes for row in product.rows], execution.steps), ([[0, 0], [1, None], [None, 1]], [[0], [1, 2]]))
        self.assertIn("restated in 2", self.call("mark", self.write("product.txt", third)).out)
        self.same_work(columns, *re.findall(r"`(\{\w.*?\})`", page("docs/TEXT.md").partition("## Columns")[2].partition("```")[0]))

    def same_work(self, *executions):
        """V5: these executions of the pair, columns or steps, are one class."""
        os.mkdir("in")
        for number, said in enumerate(executions):
            self.write(f"in/{number}.txt", said)
        told = self.call("class", common.PAIR, "in").out
        self.assertEqual(told.count("accepted  "), len(executions) + 1)
        self.assertIn(f"  {len(executions)} sheets, such as 0.txt\n", told)

    def test_table(self):
        rows = re.findall(r"^\| `([^`]* for [^`]*)` \| (?:`([^`]*)`|(.*)) \|$", page("docs/TEXT.md"), re.M)
        self.assertEqual(len(rows), 6)
        for written, due, told in rows:
            stands = [line.text for line in expanded(lines_of(written))]
            if due:
                word = due.split()[0]
                self.assertEqual(" ".join([word, *(name for line in stands for name in line.split()[1:])]), due)
            else:
                self.assertEqual(len(stands), {"three transitions": 3, "ten steps": 10, "five columns": 5}.get(told, 10), written)

    def test_words(self):
        found = re.search(r"none of the words `([^`]*)`", page("docs/TEXT.md"))
        self.assertEqual(found[1].split(), list(WORDS))

    def test_limits(self):
        said = page("docs/TEXT.md")
        for count in (*DESK, MOST.transitions, files.LONGEST, LONGEST):
            self.assertRegex(said, rf"\b{count:,}\b")


class Readme(common.Case):
    """The first use: what the README shows is what the desk answers (G1)."""

    def test_commands(self):
        os.chdir(common.TOP)
        commands = re.findall(r"^    \./oatmist (\w+) (.*)$", page("README.md"), re.M)
        self.assertEqual([verb for verb, _ in commands], ["mark", "mark", "class", "mark", "mark"])
        answers = [self.call(verb, *rest.split()) for verb, rest in commands]
        self.assertEqual(answers[0].status, 0)
        for answer in (answers[1], answers[4]):
            self.assertIn("".join(f"    {line}\n" for line in answer.out.splitlines()), page("README.md"))
        self.assertIn("model", answers[2].out)
        self.assertEqual(answers[3].status, 0)

    def test_what_the_command_needs(self):
        needs = page("README.md").partition("## What you need")[2].partition("\n##")[0]
        line, = re.findall(r"^- For the command `./oatmist`.*$", needs, re.M)
        for name in ("Python 3.8", "`python3`", "`cc`", "Graphviz"):
            self.assertIn(name, line)

    def test_verbs(self):
        self.assertEqual(sorted(re.findall(r"^\| `(\w+) [A-Z][^`]*` \|", page("README.md"), re.M)), cli.names())
