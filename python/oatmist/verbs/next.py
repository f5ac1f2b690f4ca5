"""Shows where every component may be after the execution, and which actions
are possible now. Without an execution that is the start. An execution that
the desk refuses is told as by 'mark'.
"""
from .. import inputs, places, words
from ..answers import answer

SUMMARY = "where every component may be, and what is possible now"


def arguments(parser):
    inputs.add_both(parser)


def lines(system, execution):
    """The answer."""
    sets = places.ends(system, execution)
    done = "the columns" if execution.of_columns else words.plural(len(execution.steps), "step")
    yield f"after {done}\n" if execution.steps else "at the start\n"
    yield from words.where(system, sets)
    names = [system.actions[action] for action in places.possible(system, sets)]
    yield words.wrapped(" ".join(names), "possible now: ", " " * 14) + "\n" if names else "no action is possible now\n"


def run(given):
    return answer(given, lines)
