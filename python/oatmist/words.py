"""Answers and refusals in words with names. What is told comes from proved calls on the steps before; steps are counted from 1."""
import itertools
import textwrap

from . import calls, places
from .faults import Fault, cut, listed
from .mending import mending
from .sheet import encode
from .widths import columns_of

WIDTH = 79  # columns of a terminal
MOST = 4  # actions, pairs or components that one message tells about


def plural(count, word):
    """3 steps"""
    return f"{count:,} {word}{'' if count == 1 else 's'}"


def left_out(told, what):
    """A sentence about those that are too many to be told."""
    if len(told) > MOST:
        yield f"{what}: {len(told) - MOST}."


def title(system, execution, index):
    """Step 3, {right0}"""
    return f"Step {index + 1}, {cut(system.step(execution.steps[index]))}"


def stands(component, states):
    """Fork1 is in taken"""
    names = listed((component.states[state] for state in states), "or")
    return f"{component.name} {'is' if len(states) == 1 else 'may be'} in {cut(names, 200)}"


def can_do(system, component, states):
    """What a component can do in these states, as far as it is concerned."""
    names = [system.actions[action] for action in component.moves(states)]
    return f"can do {cut(listed(names, 'or'), 200)}" if names else "can do nothing"


def hindrance(system, component, states, action):
    """Why a component cannot do an action of its alphabet in these states; None where it can."""
    if action in component.moves(states):
        return None
    if action not in component.moves(range(len(component.states))):
        return f"{component.name} has it in its alphabet and no transition for it."
    return f"{stands(component, states)}, where it {can_do(system, component, states)}."


def blocked(system, sets, action):
    """Why an action is not possible: a sentence for each component that has no transition for it there."""
    told = (hindrance(system, component, states, action) for component, states in zip(system.components, sets) if action in component.alphabet)
    return filter(None, told)


def not_enabled(system, execution, index):
    """Refusal 12: each action that is not possible, and which components stand in its way."""
    step = execution.steps[index]
    sets = places.ends(system, execution.front(index))
    possible = places.possible(system, sets, step)
    wrong = [action for action in step if action not in possible]
    for action in wrong[:MOST]:
        yield f"{system.actions[action]} is not possible."
        reasons = list(blocked(system, sets, action))
        yield from reasons[:MOST]
        yield from left_out(reasons, "Other components in its way")
    yield from left_out(wrong, "Other actions that are not possible")


def clash(system, execution, index):
    """Refusal 11: the pairs of actions that share a component, and the component."""
    before = places.restarted(system, places.ends(system, execution.front(index)))
    pairs = [pair for pair in itertools.combinations(execution.steps[index], 2)
             if places.refusal_of(before, [list(pair)]) == calls.CLASH]
    for first, second in pairs[:MOST]:
        both = [component.name for component in system.takers(first) if second in component.alphabet]
        yield (f"{system.actions[first]} and {system.actions[second]} share {cut(listed(both), 200)}, "
               f"{'which' if len(both) == 1 else 'each of which'} does one action in a step: put them into different steps.")
    yield from left_out(pairs, "Other pairs that share a component")


def bad_step(system, execution, index):
    """Refusal 10: an empty step, or an action that is not there."""
    step = execution.steps[index]
    last = len(system.actions) - 1
    if not step:
        yield "it has no action: delete it."
    for action in step:
        if action > last:
            yield f"there is no action {action}: they are numbered from 0, {system.actions[0]}, to {last}, {system.actions[-1]}."
            return


STEPS = {calls.STEP: bad_step, calls.CLASH: clash, calls.NOT_ENABLED: not_enabled}


def refused(system, execution, refusal):
    """Why the desk refuses the execution, and what to mend."""
    if refusal.number in STEPS:
        return f"{title(system, execution, refusal.step)}: " + " ".join(STEPS[refusal.number](system, execution, refusal.step))
    return mending(encode(system, execution), refusal.number)


def fault(system, execution, refusal):
    """The same for a verb that then does nothing."""
    return Fault(f"refused by {refusal.number}: {refused(system, execution, refusal)}", status=1)


def verdict(system, execution, refusal):
    """The lines that tell a refusal."""
    return told(refusal.number, refused(system, execution, refusal))


def told(number, sentence):
    """The same lines, from the words."""
    return f"refused ({number})\n{wrapped(sentence)}\n"


def wrapped(paragraph, first="", others=""):
    """A paragraph in lines of a terminal; names stay whole."""
    return textwrap.fill(paragraph, WIDTH, initial_indent=first, subsequent_indent=others, break_long_words=False, break_on_hyphens=False)


def where(system, sets):
    """For each component where it may be."""
    told = (listed((component.states[state] for state in states), "or") for component, states in zip(system.components, sets))
    return by_component(system, told)


def by_component(system, told):
    """For each component a line or more: its name, and what is told of it."""
    width = min(max(columns_of(component.name) for component in system.components), 30)
    for component, text in zip(system.components, told):
        room = " " * (width - columns_of(component.name))
        yield wrapped(text, f"  {component.name}{room}  ", " " * (width + 4)) + "\n"
