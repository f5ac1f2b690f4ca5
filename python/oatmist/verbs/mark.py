"""Marks an execution: whether the desk accepts it, how it is restated, and
where every component may be at the end. Steps are counted from 1. A refusal
is told in words, with what to mend; of columns that no execution has, how far
one gets, and who waits for whom. The program ./mark prints the answer for a
sheet in numbers.
"""
from .. import calls, inputs, words
from ..answers import answer
from ..sheet import encode, read_execution

SUMMARY = "accepted, or why not, in names"


def arguments(parser):
    inputs.add_both(parser)


def accepted(system, execution):
    """The lines of an accepted answer."""
    sheet = encode(system, execution)
    restated = read_execution(calls.restate(sheet))
    given = "columns" if execution.of_columns else words.plural(len(execution.steps), "step")
    yield f"accepted: {given}, restated in {len(restated.steps):,}\n"
    for index, step in enumerate(restated.steps, 1):
        yield words.wrapped(system.step(step), f"{index:5}  ", " " * 8) + "\n"
    yield f"concurrency figure {calls.figure(sheet)}\n"
    yield "at the end\n"
    yield from words.where(system, calls.end_sets(sheet))
    yield "no action is possible any more\n" if calls.stuck(sheet) else "further actions are possible\n"


def run(given):
    return answer(given, accepted)
