"""What can go wrong in somebody's text, file or call, told in words.

`Fault` is the one exception for it: what is wrong and what to write instead, with the file and the line where they are known. `Unfit` is
one that the desk itself tells, by the number of a refusal.
"""
import unicodedata

SHOWN = 60  # characters of somebody's text that a message repeats
WHOLE = 1200  # characters of a message: it fits on a screen


class Fault(Exception):
    """What is wrong, in which file ('' for none) and in which line (0 for none); with the exit status that it leads to."""

    def __init__(self, message, line=0, path="", status=2):
        super().__init__(message)
        self.message, self.line, self.path, self.status = message, line, path, status

    def where(self):
        """The file and the line, as far as they are known."""
        told = shown(self.path, 200)
        return f"{told}{':' if told else 'line '}{self.line}" if self.line else told

    def __str__(self):
        where = self.where()
        return cut(f"{where}: {self.message}" if where else self.message, WHOLE)


class Unfit(Fault):
    """A sheet or a product that the desk refuses whatever its steps are, or columns: what there is not ('' for columns that are too many), the
    number, what to mend, and lines that tell more where there is room for them."""

    def __init__(self, what, number, sentence, line=0, more=()):
        front = f"no {what}, " if what else ""
        super().__init__(f"{front}refused by {number}: {sentence}", line, status=1)
        self.number, self.sentence, self.more = number, sentence, "".join(more)


def cut(text, most=SHOWN):
    """The text, or its front where it is too long."""
    return text if len(text) <= most else text[:most - 2] + ".."


def printable(letter):
    """A character as it is, or as its number where it would change the terminal or cannot be seen."""
    if letter == " " or unicodedata.category(letter)[0] not in "CZ":
        return letter
    return f"<U+{ord(letter):04X}>"


def shown(text, most=SHOWN):
    """Somebody's text for a message: cut, and without control characters."""
    return "".join(map(printable, cut(text, most)))


def quoted(text):
    """The same between quotes."""
    return f"'{shown(text)}'"


def listed(names, last="and"):
    """Names for a sentence: a, b and c."""
    names = list(names)
    return f" {last} ".join(filter(None, [", ".join(names[:-1]), *names[-1:]]))


def fitting(parts, most):
    """As many of these parts as fit into so many characters, for a sentence, and how many more there are; one at least."""
    parts = list(parts)
    kept = max((count for count in range(1, len(parts) + 1) if len(listed(parts[:count])) <= most), default=1)
    return listed(parts[:kept] + [f"{len(parts) - kept} more"] * (kept < len(parts)))
