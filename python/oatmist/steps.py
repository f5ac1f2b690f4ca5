"""The steps of a text: {produce, start} {deliver}."""
import re

from .faults import Fault, cut, quoted
from .indices import meant
from .letters import as_typed, name_fault, odd_letter
from .model import Execution, bits

STEP = re.compile(r"\s*(?:\{([^{}]*)\}|raw(?:\s+([^\s{}]+))?)\s*")
SIGNS = re.compile(r"[\s,;:+|&/，、–—-]+")  # what stands between actions where a comma should
COLUMN = re.compile(r"[^\s{}:]+\s*:")  # with what a column begins
BRACES = ("{", "}")
MOST = 131072  # steps that are read; the desk refuses far fewer
RAW = re.compile(r"0[xX]([0-9a-fA-F]{1,16})")
BOTH = "an execution is written as steps or as columns: delete one of the two"
EACH = "write the steps alone, each as {a, b}"
ELLIPSIS = "…"


class Steps:
    """Takes steps. Whether they are too many, or empty, is for the desk to say."""

    begun = True  # whether 'steps' has stood

    def __init__(self, actions):
        self.numbers = {name: number for number, name in enumerate(actions)}
        self.steps = []

    def take(self, text):
        """All steps of a line."""
        place = 0
        while place < len(text):
            found = STEP.match(text, place)
            if not found:
                stray = text[place] + text[place + 1:].partition("{")[0]
                raise Fault(f"no step: {quoted(text[place:])}; {odd_letter(stray, BRACES) or self.hint(text[place:])}")
            inner, raw = found.groups()
            self.add(self.take_raw(raw) if inner is None else self.take_set(inner))
            place = found.end()

    def hint(self, text):
        """How to write what stands where a step should."""
        if text.startswith("{") and "}" not in text:
            return "close the step with } in the same line"
        if text.startswith((",", ";")):
            return f"write no {text[0]} between steps"
        first = SIGNS.split(text.strip())[0]
        if text == "columns" or meant(first) == "columns" and first not in self.numbers:
            return BOTH
        if COLUMN.match(text) and "{" not in text:
            return EACH + self.or_columns()
        return f"write {{{cut(first)}}}" if first in self.numbers else EACH

    def or_columns(self):
        """What else to write where columns may be meant; behind steps they are not."""
        if self.steps:
            return ""
        return "; or, where these are columns, " + ("'columns' in place of 'steps'" if self.begun else "the word 'columns' in a line above them")

    def add(self, step):
        if len(self.steps) == MOST:
            raise Fault(f"more than {MOST:,} steps: shorten the execution")
        self.steps.append(step)

    def take_raw(self, word):
        found = RAW.fullmatch(word or "")
        if not found:
            raise Fault(f"raw {quoted(word or '')}: write 0x and 1 to 16 hexadecimal digits")
        return list(bits(int(found[1], 16)))

    def take_set(self, inner):
        if not inner.strip():
            return []  # for the desk to refuse
        step = [self.numbers.get(word.strip(), word) for word in inner.split(",")]
        for word in step:
            if not isinstance(word, int):
                self.no_action(word.strip())
        if len(set(step)) < len(step):
            twice = next(word for word in step if step.count(word) > 1)
            raise Fault(f"action {quoted(list(self.numbers)[twice])} is twice in one step: write it once, or a step for each")
        return step

    def no_action(self, word):
        """Tells why a word in a step is no action."""
        parts = SIGNS.split(word)
        if len(parts) > 1 and all(part in self.numbers for part in parts):
            raise Fault(f"no comma in {quoted(word)}: write {{{', '.join(parts)}}}")
        unknown_action(word, self.numbers)

    def execution(self):
        """The steps, once all are there."""
        return Execution(self.steps)


def unknown_action(word, numbers):
    """Tells that a word is none of the actions, and what to write."""
    plain, bare = as_typed(word)
    for typed in (plain, bare):
        if typed in numbers:
            raise Fault(f"action {quoted(word)} is in no alphabet: write {typed}")
    if word and not bare:
        raise Fault(f"{quoted(word)} is no action: {'write the actions that it stands for, or ' if ELLIPSIS in word else ''}delete it")
    raise Fault(name_fault(bare) or f"action {quoted(word)} is in no alphabet: the system has {cut(' '.join(numbers), 300)}")
