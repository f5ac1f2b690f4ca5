"""Takes the lines of a product's text: components whose transitions have names, then its rows. docs/TEXT.md has the grammar.

Numbers that are out of range are read as far as a byte can count them: to refuse them is for the desk.
"""
from .faults import cut, quoted
from .indices import begins_columns, begins_rows, of_tables
from .letters import name_fault, odd_letter
from .product import MOST, Machine, Product, Row, Transition
from .reader import NO_INITIAL, NO_STATE, WORDS, Reader, no_columns

EXAMPLE = "a transition of a product has a name: write 's1 -t1-> s2'"
LINES = "a line begins with component, states, initial, rows, steps or columns, or is a transition such as 's1 -t1-> s2'"
INTERNAL = ("a product has no internal transition, and the labels i and tau are internal: "
            "give each transition of the file a name of its own")
ROW = "a row is a name and one word for each component, without brackets and commas: write 'a t1 -'"
BRACKETS = "<>()⟨⟩〈〉"
IDLE = "-"


class ProductReader(Reader):
    """Takes the text of a product."""

    made, words, lines, arrows = Machine, (*WORDS, "rows"), LINES, EXAMPLE

    def __init__(self, folder=""):
        super().__init__(Product(), folder, MOST)
        self.numbers = []  # of each component its transitions: their numbers
        self.rows = {}  # every row: its line

    def take(self, text):
        word, *entries = text.split()
        if self.steps is not None or begins_columns(text) or word == "steps" and not self.fits(entries):
            super().take(text)
        elif self.tables.line:
            self.take_row(text)
        elif begins_rows(text):
            self.begin_rows(text)
        else:
            super().take(text)

    def take_component(self, rest):
        self.numbers.append({})
        super().take_component(rest)
        self.component.line = self.begun.number

    def take_actions(self, rest):
        self.fail("a product has no 'actions': its rows are its actions, in their order")

    def take_also(self, rest):
        self.fail("a product has no 'also': a component takes part in the rows that name a transition of it")

    def take_initial(self, rest):
        if len(rest) > 1 or self.component.initial is not None:
            self.fail(f"component {quoted(self.component.name)} of a product begins in one state: write 'initial' and that state")
        self.component.initial = self.state(rest[0])

    def take_arrow(self, text):
        source, name, target = self.arrow(text)
        component, numbers = self.component, self.numbers[-1]
        if name is None:
            self.fail(INTERNAL if self.line.path else EXAMPLE)
        place = component.name, self.name(name)
        if place in self.places:
            self.fail(f"transition {quoted(name)} is already there, in line {self.places[place]}: write another name")
        if len(numbers) == self.limits.transitions:
            self.fail(f"more than {self.limits.transitions} transitions in component {quoted(component.name)}: "
                      f"{quoted(name)} would be one too many")
        numbers[name] = len(numbers)
        component.transitions.append(Transition(name, source, target))
        self.places[place] = self.line.number

    def needs(self):
        yield self.component.states, NO_STATE
        yield self.component.initial is not None, NO_INITIAL

    def begin_rows(self, text):
        if text != "rows":
            self.fail("'rows' stands alone in its line: write each row in a line of its own below it")
        self.end_components()
        self.tables.line = self.line.number

    def take_row(self, text):
        """A row: its name, then for each component a transition, or - where it idles."""
        word, *entries = text.split()
        if word not in self.words or not self.fits(entries):  # else the name is told
            self.need_row(word, text)
        self.new_row(self.name(word))
        components = self.tables.components
        if len(entries) != len(components):
            self.fail(f"row {quoted(word)} has {len(entries)} of {len(components)} entries: "
                      "behind its name write for each component a transition, or - where it idles")
        self.tables.rows.append(Row(word, list(map(self.entry, range(len(entries)), entries)), self.line.number))

    def fits(self, entries):
        """Whether words can be the entries of a row: as many as there are components, and one at least is known."""
        return bool(self.tables.line) and len(entries) == len(self.numbers) and any(
            word == IDLE or word in numbers for word, numbers in zip(entries, self.numbers))

    def need_row(self, word, text):
        """Tells of a line that cannot be a row."""
        if word == "rows":
            self.fail("'rows' stands twice: delete the second")
        if text == word or ":" in text:  # else it may be a row that is called columns
            no_columns(text, self.tables.components)
        if any(sign in text.replace("->", "") for sign in BRACKETS) or text.endswith("->"):
            self.fail(ROW)
        if of_tables(text):
            self.fail("after 'rows' only rows, 'steps' and 'columns' may follow")
        if word.startswith("{") or word == "raw":
            self.not_understood(word, text)
        if word == IDLE:
            self.fail("a row begins with its name: write one before its entries")

    def new_row(self, name):
        if name in self.rows:
            self.fail(f"row {quoted(name)} is already there, in line {self.rows[name]}: write another name")
        if len(self.rows) == self.limits.actions:
            self.fail(f"more than {self.limits.actions} rows: {quoted(name)} would be one too many")
        self.rows[name] = self.line.number

    def entry(self, index, word):
        """What a row says for a component: the number of a transition, None for idle."""
        if word == IDLE:
            return None
        if word not in self.numbers[index]:
            self.no_transition(self.tables.components[index], word)
        return self.numbers[index][word]

    def no_transition(self, component, word):
        odd, fault = odd_letter(word), name_fault(word)
        if fault and not odd:
            self.fail(fault)
        known = cut(" ".join(transition.name for transition in component.transitions), 300) or "no transitions"
        self.fail(f"unknown transition {quoted(word)}: component {quoted(component.name)} has {known}; {odd or 'write - where it idles'}")

    def end_tables(self):
        if not self.tables.line:
            self.fail(f"'{self.line.text.split()[0]}' stands before 'rows': write the rows first")
