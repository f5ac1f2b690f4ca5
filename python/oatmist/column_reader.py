"""Takes the columns of a text: Producer: produce deliver. docs/TEXT.md has the grammar."""
import re

from .faults import Fault, cut, listed, quoted
from .indices import begins_columns, of_tables
from .letters import INSTEAD, as_typed
from .model import Columns
from .steps import BOTH, unknown_action

LONGEST = 65535  # actions of a column that can be handed to the desk; it refuses far fewer
DASHES = "-" + "".join(letter for letter, written in INSTEAD.items() if written == "-")
SIGNS = ",;|/+&，、→⟶⇒"
BETWEEN = re.compile(rf"[-=]?[>＞]|[{SIGNS}]|^[{DASHES}]+$")  # what stands between actions where a space should, and in no name
NO_ACTION = DASHES + SIGNS + "=>＞"  # what may stand alone in a column where nothing should
NUMBER = re.compile(r"[0-9]+$")  # what an index makes at the end of a name
FRONT = re.compile(r"[^\s,;=]*")  # the first word of a line, without signs behind it
WIDE = "："  # a colon, as some keyboards write it
ALONE = "'columns' stands alone in its line: write each column in a line of its own below it"
BELOW = "columns stand below the word 'columns': write it in a line above them"


def is_column(text, components):
    """Whether a line begins as the column of one of these components."""
    name, colon, _ = text.partition(":")
    return bool(colon) and name.strip() in (component.name for component in components)


class ColumnLines:
    """Takes the columns of a system or a product; `line` is where they begin. What they come to is for the desk to say."""

    def __init__(self, tables, line):
        self.line, self.alphabets = line, tables.alphabets
        self.numbers = {name: number for number, name in enumerate(tables.actions)}
        self.names = [component.name for component in tables.components]
        self.columns = Columns([None] * len(self.names), [0] * len(self.names))
        self.last = None  # the component whose column was taken last

    def take(self, text, line):
        """A column: a component, a colon, its actions in order."""
        name, colon, actions = text.partition(":")
        if not colon:
            self.no_column(text)
        name, actions = name.strip(), actions.split()
        index = self.component(name)
        if self.columns.lists[index] is not None:
            self.twice(name, self.columns.lines[index], line)
        if len(actions) > LONGEST:
            raise Fault(f"more than {LONGEST:,} actions in the column of {quoted(name)}: shorten it")
        if actions and not "".join(actions).strip(NO_ACTION):
            raise Fault(f"{quoted(actions[0])} is no action: where {cut(name)} does nothing, write nothing behind the colon")
        self.columns.lists[index] = [self.action(index, word) for word in actions]
        self.columns.lines[index] = line
        self.last = index

    def twice(self, name, first, line):
        """Tells of a second column of a component, by the lines of the two."""
        if first == line:
            raise Fault(f"'for' repeats the line, not its actions: write each action of {cut(name)} as often as it comes"
                        + (", or write the index in the name before the colon" if self.indexed(name) else ""))
        raise Fault(f"the column of {quoted(name)} is already there, in line {first}: delete one of the two")

    def indexed(self, name):
        """Whether a name may come of an index: that of another component differs from it only in the number at the end."""
        return [NUMBER.sub("#", other) for other in self.names].count(NUMBER.sub("#", name)) > 1

    def no_column(self, text):
        """Tells of a line without a colon, which is no column."""
        if begins_columns(text):
            raise Fault("'columns' stands twice: delete the second")
        if text.split()[0] in ("steps", "raw") or text.startswith("{"):
            raise Fault(BOTH)
        hint = f"instead of {WIDE} write :" if WIDE in text else self.hint(FRONT.match(text)[0], text)
        raise Fault(f"no column: {quoted(text)}; {hint}")

    def hint(self, word, text):
        """How to write what stands where a column should; `word` is its first word."""
        known = word in self.names or word in self.numbers
        if not known and of_tables(text):
            return "the system stands above the columns: put its lines there, or delete them"
        free = [name for name, actions in zip(self.names, self.columns.lists) if actions is None]
        if word in free or self.last is None:
            return f"write {cut(word if word in free else free[0])}: and its actions in order, in one line"
        index = self.names.index(word) if word in self.names else self.last
        return (f"a column stands in one line: put the actions into that of {cut(self.names[index])}, in line {self.columns.lines[index]}"
                + ("" if known else ", or begin with a component and a colon"))

    def component(self, name):
        if name not in self.names:
            bare = next((bare for bare in as_typed(name) if bare in self.names), None)
            known = f"write {bare}" if bare else f"the system has {cut(' '.join(self.names), 300)}"
            raise Fault(f"there is no component {quoted(name)}: {known}")
        return self.names.index(name)

    def action(self, index, word):
        """The number of an action, which the component must have."""
        number = self.numbers.get(word)
        if number not in self.alphabets[index]:
            self.no_action(index, word)
        return number

    def no_action(self, index, word):
        """Tells why a word in a column is no action of its component."""
        name = self.names[index]
        if word in self.numbers:
            others = [other for other, alphabet in zip(self.names, self.alphabets) if self.numbers[word] in alphabet]
            own = [action for action, number in self.numbers.items() if number in self.alphabets[index]]
            raise Fault(f"action {quoted(word)} is not in the alphabet of {quoted(name)}, but in that of {cut(listed(others), 200)}: "
                        f"{cut(name)} has {cut(' '.join(own), 300)}")
        if ":" in word:
            raise Fault("each column stands in a line of its own: begin a new one with the next component")
        sign = BETWEEN.search(word)
        if sign:
            raise Fault(f"{quoted(word)} is no action: write no {sign[0]} between actions, but spaces alone")
        if "{" in word or "}" in word:
            raise Fault("a column has no braces: write its actions one after another, with spaces between them")
        unknown_action(word, self.numbers)

    def execution(self):
        """The columns, once all are there."""
        missing = [name for name, actions in zip(self.names, self.columns.lists) if actions is None]
        if missing:
            told = f"component {cut(missing[0])} has" if len(missing) == 1 else f"components {cut(listed(missing), 200)} have"
            raise Fault(f"{told} no column: write '{cut(missing[0])}:' and its actions, or nothing behind the colon where it does nothing",
                        self.line)
        return self.columns
