"""Lines that are written once and stand for many: `for i in 0..4`, and arithmetic between square brackets.

    component Fork[i] for i in 0..4           five components, Fork0 to Fork4, with the lines below
      free -right[(i+4)%5]-> taken            in Fork0: free -right4-> taken
    actions take[i] put[i] for i in 0..4      one line, five times

Between brackets and in ranges stand numbers, the line's indices, + - * % and parentheses; % gives the remainder, from 0 on.
"""
import itertools
import re
from typing import NamedTuple

from .faults import Fault, quoted

TOKEN = re.compile(r"\s*(?:([0-9]+)|([^\W\d]\w*)|([-+*%()]))")
FOR = re.compile(r"\sfor\s+(.*)$")
RANGE = re.compile(r"\s*([^\W\d]\w*)\s+in\s+(.+)\.\.(.+)")
INDEXED = re.compile(r"(?<![^\s{},:<>\-])(?:[^\s{},:<>\-\[\]]|\[[^\[\]]*\])*\[[^\[\]]*\](?:[^\s{},:<>\-\[\]]|\[[^\[\]]*\])*")
BRACKET = re.compile(r"\[([^\[\]]*)\]")
AROUND = re.compile(r"[\s:]\[")  # brackets around actions
NO_BRACKETS = "a column has no brackets around its actions: write them one after another, with spaces between them"
LONGEST = 100  # characters of one piece of arithmetic, or of one range
DIGITS = 6  # of a number
MOST = 1024  # values that the indices of one line have together
TABLES = ("actions", "component", "states", "initial", "also", "rows")  # with what lines of a system or of a product begin


class Line(NamedTuple):
    """A line without its comment: its number, its text, the values of its indices, and its file ('' for the text itself)."""

    number: int
    text: str
    note: str = ""
    path: str = ""


def lines_of(text):
    """The lines that have something in them beside a comment."""
    for number, line in enumerate(text.split("\n"), 1):
        line = line.partition("#")[0].strip()
        if line:
            yield Line(number, line)


class Arithmetic:
    """One piece of arithmetic, read from left to right."""

    def __init__(self, text, values):
        self.text, self.values, self.tokens = text, values, []
        place = 0
        while place < len(text.rstrip()):
            found = TOKEN.match(text, place)
            if not found or len(text) > LONGEST:
                self.fail()
            self.tokens.append(found.groups())
            place = found.end()

    def fail(self):
        raise Fault(f"{quoted(self.text)} is no arithmetic: write (i+1)%5 or the like, with + - * % and parentheses")

    def next(self, wanted="-+*%("):
        """Whether the next token is one of these signs."""
        return bool(self.tokens) and self.tokens[0][2] is not None and self.tokens[0][2] in wanted

    def take(self):
        """The next token."""
        if not self.tokens:
            self.fail()
        return self.tokens.pop(0)

    def value(self):
        """What it all comes to."""
        result = self.sum()
        if self.tokens:
            self.fail()
        return result

    def sum(self):
        result = self.product()
        while self.next("+-"):
            sign = self.take()[2]
            result += self.product() if sign == "+" else -self.product()
        return result

    def product(self):
        result = self.factor()
        while self.next("*%"):
            sign, right = self.take()[2], self.factor()
            if sign == "%" and right < 1:
                raise Fault(f"{quoted(self.text)}: what follows % is at least 1")
            result = result * right if sign == "*" else result % right
        return result

    def factor(self):
        digits, name, sign = self.take()
        if len(digits or "") > DIGITS:
            raise Fault(f"the number {quoted(digits)} is too large: it has at most {DIGITS} digits")
        if digits:
            return int(digits)
        if name:
            return self.index(name)
        if sign == "-":
            return -self.factor()
        if sign != "(":
            self.fail()
        result = self.sum()
        if self.take()[2] != ")":
            self.fail()
        return result

    def index(self, name):
        if name not in self.values:
            raise Fault(f"{quoted(name)} has no value here: end the line with 'for {name} in 0..4', or, inside a component, "
                        "the line that begins it")
        return self.values[name]


def bounds(text, values):
    """The index of one range, and its numbers."""
    found = RANGE.fullmatch(text) if len(text) <= LONGEST else None
    if not found:
        raise Fault(f"no range: {quoted(text.strip())}; write 'for i in 0..4', or 'for i in 0..4, j in 0..1'")
    name, first, last = found[1], *(Arithmetic(found[k], values).value() for k in (2, 3))
    if name in values:
        raise Fault(f"the index '{name}' already has a range: take another letter")
    if not first <= last < first + MOST:
        raise Fault(f"the range {first}..{last} is empty: write the smaller number first" if last < first
                    else f"the range {first}..{last} is too long: at most {MOST:,} numbers")
    return name, range(first, last + 1)


def choices(text, values):
    """The line without its 'for', and the values of all indices, one choice after another."""
    found = FOR.search(text)
    if not found:
        return text, [values]
    many = [values]
    for part in found[1].split(","):
        many = [{**chosen, name: index} for chosen in many for name, numbers in [bounds(part, chosen)] for index in numbers]
        if len(many) > MOST:
            raise Fault(f"the ranges give more than {MOST:,} lines")
    return text[:found.start()], many


class Indices:
    """Works out the brackets, and sees that no two ways of writing give the same name."""

    def __init__(self):
        self.parts = {}  # a name: its parts, as they were written

    def name(self, word, values):
        """A name with its brackets worked out."""
        parts = BRACKET.split(word)
        for k in range(1, len(parts), 2):
            index = Arithmetic(parts[k], values).value()
            if index < 0:
                raise Fault(f"[{parts[k]}] is {index} here, below 0; in a ring of five write ({parts[k]})%5")
            parts[k] = str(index)
        name = "".join(parts)
        known = self.parts.setdefault(name, parts)
        if known != parts:
            raise Fault(f"{written(known)} and {written(parts)} are both {quoted(name)}: put _ before a bracket")
        return name

    def worked_out(self, text, values):
        """A line with all its brackets worked out."""
        return INDEXED.sub(lambda found: self.name(found[0], values), text) if "[" in text else text


def written(parts):
    """Parts as they were written: a[1]."""
    return quoted("".join(f"[{part}]" if k % 2 else part for k, part in enumerate(parts)))


def begins_rows(text):
    """Whether a line begins the rows of a product. A transition from a state that is called rows does not, nor does the column of a component
    of this name."""
    return text.split(None, 1)[0] == "rows" and "->" not in text and not text[len("rows"):].lstrip().startswith(":")


def begins_columns(text):
    """Whether a line begins an execution as columns. A transition, a row and a column are longer, whatever they name."""
    return text == "columns"


def of_tables(text):
    """Whether a line belongs to a system or a product: by its first word, or since it is a transition."""
    return text.split(None, 1)[0] in TABLES or text.find("->") > 0


def meant(word):
    """The word of the format that a word is not quite, or is; '' for others."""
    bare = word.rstrip(":=;,.").casefold()
    return next((right for right in (*TABLES, "steps", "columns") if bare in (right, right.rstrip("s"), right + "s")), "")


def has_word(lines, *words):
    """Whether some line begins with one of these words."""
    return any(line.text.split(None, 1)[0] in words for line in lines)


def blocks(lines):
    """The lines of each component, and those before and after all components."""
    block = []
    for line in lines:
        if (line.text.split(None, 1)[0] in ("component", "steps") or begins_rows(line.text) or begins_columns(line.text)) and block:
            yield block
            block = []
        block.append(line)
    yield block


def note(values):
    """The values of the indices, for a message."""
    return f" (for {', '.join(f'{name} = {value}' for name, value in values.items())})" if values else ""


def expanded_block(block, indices):
    """The lines that a block stands for."""
    line = block[0]
    try:
        head, outer = choices(line.text, {}) if line.text.startswith("component") else (line.text, [{}])
        first = line._replace(text=head)
        for values in outer:
            for line in [first, *block[1:]]:
                text, many = choices(line.text, values)
                for chosen in many:
                    yield line._replace(text=indices.worked_out(text, chosen), note=note(chosen))
    except Fault as fault:
        around = begins_columns(block[0].text) and AROUND.search(line.text)
        raise Fault(NO_BRACKETS if around else fault.message, fault.line or line.number, fault.path or line.path)


def expanded(lines):
    """The lines that lines stand for, one after another."""
    lines = list(lines)
    if not any("[" in line.text or "for" in line.text for line in lines):
        return iter(lines)
    indices = Indices()
    return itertools.chain.from_iterable(expanded_block(block, indices) for block in blocks(lines))
