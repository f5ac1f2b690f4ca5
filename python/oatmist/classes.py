"""Classes of the same work: sheets over one system that are restated as the same bytes.

    classes = Classes(model)                      # the model solution's restated sheet, or None
    index = classes.put(restated, "anna.txt")     # the class of a restated sheet
    classes.list[index].name                      # its name, the SHA-256 of the restated sheet

The bytes are compared, never their hash, which only names the class. Over one system all bytes but the steps are the same, so of each
class one copy of the restated steps is kept, in a temporary file where they are many.
"""
import hashlib
import os
import tempfile

from . import sheet

IN_MEMORY = 1 << 26  # bytes of restated steps that are kept before they go to a temporary file


class Class:
    """Sheets that are restated as the same bytes: their name, how many they are, and the first of them. `differs` is the index of the
    first restated step in which they differ from the model solution; None for the model solution's class, or without a model."""

    def __init__(self, name, place, differs):
        self.name, self.place, self.differs = name, place, differs
        self.count, self.first = 0, None


def sha256(data):
    return hashlib.sha256(data).hexdigest()


class Classes:
    """The classes of a sitting, over one system. `model` is the restated model solution, which has the first class, though it is no sheet
    of the sitting; `named` gives a class its name."""

    def __init__(self, model=None, named=sha256):
        self.model, self.named = None if model is None else sheet.step_section(model), named
        self.list, self.by_name = [], {}
        self.kept = tempfile.SpooledTemporaryFile(IN_MEMORY)
        self.end = 0
        if model is not None:
            self.find(model)

    def put(self, restated, file):
        """Puts a file's restated sheet into its class; the index of this."""
        index = self.find(restated)
        group = self.list[index]
        group.count += 1
        group.first = group.first or file
        return index

    def find(self, restated):
        """The index of the class with these bytes; a new one where there is none."""
        name, steps = self.named(restated), sheet.step_section(restated)
        for index in self.by_name.setdefault(name, []):
            if self.steps(index) == steps:
                return index
        return self.add(name, steps)

    def add(self, name, steps):
        """A new class. One whose name another has already, by a hash that says the same of two sheets, gets a number behind it."""
        others = self.by_name[name]
        told = f"{name}-{len(others) + 1}" if others else name
        others.append(len(self.list))
        self.kept.seek(self.end)
        self.kept.write(steps)
        self.list.append(Class(told, (self.end, len(steps)), first_difference(steps, self.model)))
        self.end += len(steps)
        return others[-1]

    def filled(self):
        """How many classes have a sheet of the sitting."""
        return sum(group.count > 0 for group in self.list)

    def steps(self, index):
        """The restated steps of a class."""
        place, length = self.list[index].place
        self.kept.seek(place)
        return self.kept.read(length)

    def difference(self, index):
        """The first restated step that a class and the model solution have not alike: of both, as sets of bits; None behind the end."""
        number = self.list[index].differs
        return step_at(self.steps(index), number), step_at(self.model, number)

    def short(self, least=12):
        """A name for people, for each class: as many digits as it takes to tell them apart."""
        told = [group.name for group in self.list]
        return [name[:length] if "-" not in name else name for name, length in zip(told, digits(told, least))]


def digits(told, least):
    """For each name how many of its digits no other begins with; at least so many."""
    order = sorted(range(len(told)), key=told.__getitem__)
    needed = [least] * len(told)
    for one, next_one in zip(order, order[1:]):
        shared = len(os.path.commonprefix([told[one], told[next_one]])) + 1
        needed[one], needed[next_one] = max(needed[one], shared), max(needed[next_one], shared)
    return needed


def step_at(steps, number):
    """A step of a step section, as a set of bits; None behind its end."""
    place = number * sheet.STEP
    return sheet.whole(steps, place, sheet.STEP) if place < len(steps) else None


def first_difference(steps, model):
    """The index of the first restated step in which they differ; None where they do not, or there is no model."""
    if model is None or steps == model:
        return None
    number = 0
    while step_at(steps, number) == step_at(model, number):
        number += 1
    return number
