"""Where components may be and which actions are possible, each from a proved call."""
from . import calls
from .model import Execution, System
from .sheet import encode


def ends(system, execution):
    """The states in which each component may be after the last step."""
    return calls.end_sets(encode(system, execution))


def restarted(system, sets):
    """The system begun where each component may be. End sets are closed under internal moves, so it begins just there."""
    components = [type(component)(component.name, component.states, set(states), component.alphabet, component.transitions)
                  for component, states in zip(system.components, sets)]
    return System(system.actions, components)


def refusal_of(system, steps):
    """The number of the refusal that these steps get; 0 where they are accepted."""
    try:
        calls.check(encode(system, Execution(steps)))
        return 0
    except calls.Refusal as refusal:
        return refusal.number


def possible(system, sets, actions=None):
    """Which of these actions, or of all, can happen next: the desk accepts each as the next step."""
    here = restarted(system, sets)
    return [action for action in (range(len(system.actions)) if actions is None else actions) if not refusal_of(here, [[action]])]
