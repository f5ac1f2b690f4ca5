"""The pages for lecturers and authors: every command that they show runs and prints what stands below it (G1)."""
import os
import re
import subprocess
import sys

import common
from oatmist import calls, listings


def blocks(page, language=""):
    """The blocks of a page in this language."""
    with open(os.path.join(common.TOP, page), encoding="utf-8") as file:
        return re.findall(rf"^```{language}\n(.*?)^```$", file.read(), re.M | re.S)


def sessions(page):
    """The commands of a page, each with what it prints; '...' stands for anything."""
    for block in blocks(page):
        for command, printed in re.findall(r"^\$ (.*)\n((?:(?!\$ ).*\n)*)", block, re.M):
            yield command, "".join(".*" if part == "..." else re.escape(part) for part in re.split(r"(\.\.\.)", printed))


class Guides(common.Case):
    """G1: what the pages show is what the desk answers, and what they name is there."""

    def test_columns(self):
        """The table of columns has all of them, in their order."""
        with open(os.path.join(common.TOP, "docs/LECTURERS.md"), encoding="utf-8") as file:
            rows = re.findall(r"^\| (`.*?`) \|", file.read(), re.M)
        self.assertEqual(tuple(re.findall(r"`(\w+)`", " ".join(rows))), listings.HEAD)

    def test_paths(self):
        """Every path that the pages name is there."""
        for name in ("docs/LECTURERS.md", "docs/AUTHORS.md"):
            with open(os.path.join(common.TOP, name), encoding="utf-8") as file:
                paths = re.findall(r"(?:docs|examples|sheets|include|bench|python|tools)/[\w./-]*\w", file.read())
            self.assertGreater(len(paths), 3)
            for path in paths:
                self.assertTrue(os.path.exists(os.path.join(common.TOP, path)), path)

    def test_lecturers(self):
        found = list(sessions("docs/LECTURERS.md"))
        self.assertEqual(len(found), 21)
        os.makedirs(os.path.join(common.TOP, "target"), exist_ok=True)
        for command, printed in found:
            done = subprocess.run(["bash", "-c", command], cwd=common.TOP, stdout=subprocess.PIPE, stderr=subprocess.STDOUT, check=False)
            self.assertRegex(done.stdout.decode(), re.compile(rf"\A{printed}\Z", re.S), command)

    def test_the_recipe_for_many_machines(self):
        join, = (block for block in blocks("docs/LECTURERS.md") if "sort" in block)
        job, = (block for block in blocks("docs/LECTURERS.md") if block.startswith("parallel"))
        example = os.path.join(common.TOP, "examples/philosophers")
        for name in ("system.txt", "model.txt", "handed-in"):
            os.symlink(os.path.join(example, name), name)
        os.symlink(common.COMMAND, "oatmist")
        one = re.search(r"'(.*)'", job)[1]
        for index in range(1, 9):
            self.shell(one.replace("{}", str(index)))
        self.assertEqual(self.shell(join).status, 0)
        whole = self.call("class", "system.txt", "handed-in", "--model", "model.txt", "--csv").out
        self.assertEqual(self.read("all.csv").decode(), whole)
        self.assertEqual(whole.count("\n"), 8)

    def test_authors_python(self):
        program, = blocks("docs/AUTHORS.md", "python")
        printed, = blocks("docs/AUTHORS.md", "text")
        done = subprocess.run([sys.executable, "-c", program], cwd=common.TOP, stdout=subprocess.PIPE, check=True,
                              env={**os.environ, "PYTHONPATH": os.path.join(common.TOP, "python")})
        self.assertEqual(done.stdout.decode(), printed)

    def test_authors_c(self):
        program, = blocks("docs/AUTHORS.md", "c")
        pair, other = (os.path.join(common.SHEETS, name) for name in ("pair.sheet", "pair-1.sheet"))
        self.write("alike.c", program + """
#include <stdio.h>
static size_t load(const char *path, uint8_t *into)
{
    FILE *file = fopen(path, "rb");
    size_t length = fread(into, 1, OATMIST_LONGEST_SHEET, file);
    fclose(file);
    return length;
}
int main(int count, char **words)
{
    uint8_t first[OATMIST_LONGEST_SHEET], second[OATMIST_LONGEST_SHEET];
    size_t length = load(words[1], first), other_length = load(words[2], second);
    printf("%d\\n", alike(first, length, second, other_length));
    return count != 3;
}
""")
        archive = os.path.join(common.TOP, "target/staticlib/liboatmist.a")
        subprocess.run(["cc", "-Wall", "-Werror", "-I", os.path.join(common.TOP, "include"), "alike.c", archive, "-o", "alike"], check=True)
        for words, answer in (((pair, pair), "1"), ((pair, other), "0"), ((pair, common.PAIR), "-1")):
            self.assertEqual(subprocess.run(["./alike", *words], stdout=subprocess.PIPE, check=True).stdout.decode().strip(), answer)

    def test_authors_calls(self):
        """The table has every call of the header and of the module."""
        with open(os.path.join(common.TOP, "include/oatmist.h"), encoding="utf-8") as file:
            declared = set(re.findall(r"^(?:uint64_t|void) (oatmist_\w+)\(", file.read(), re.M))
        with open(os.path.join(common.TOP, "docs/AUTHORS.md"), encoding="utf-8") as file:
            rows = re.findall(r"^\| `(oatmist_\w+)` \| `(\w+)\(", file.read(), re.M)
        self.assertEqual({c for c, _ in rows}, declared)
        for c, python in rows:
            self.assertEqual(c, "oatmist_" + python)
            self.assertTrue(callable(getattr(calls, python)))
