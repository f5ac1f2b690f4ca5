"""From a product to the system that it becomes, by the proved call; and its refusals, 15 to 17, in words. The number is the desk's; what it
is about is looked up in the product for it.

    system = system_of(product)          # row g is action g; or `faults.Unfit`
"""
from . import calls, sheet
from .faults import Unfit, cut, listed
from .mending import closed
from .model import DESK
from .product import encode


def system_of(product):
    """The system that a product becomes: the sheet that the desk writes for it, with the names of the product."""
    try:
        system = sheet.read_system(calls.rows(encode(product)))
    except calls.Refusal as refusal:
        line, sentence = next(REASONS[refusal.number](product))
        raise Unfit("product", refusal.number, closed(sentence), line)
    system.actions = product.actions
    for component, machine in zip(system.components, product.components):
        component.name, component.states = machine.name, machine.states
    system.dropped = list(dropped(product))
    return system


def dropped(product):
    """The components with transitions that no row names, and these."""
    for index, machine in enumerate(product.components):
        named = {row.takes[index] for row in product.rows}
        names = [transition.name for number, transition in enumerate(machine.transitions) if number not in named]
        if names:
            yield machine.name, names


# ---- why a product is refused: the line, and a sentence


def out_of_range(product):
    """15: more than there may be of something, or no row."""
    if not product.rows:
        yield product.line, "there is no row: write one at least, below 'rows'"
    counted = [(product.components, DESK.components, "there are {} components: a product has"),
               (product.rows, DESK.actions, "there are {} rows: a product has")]
    for parts, most, told in counted:
        if len(parts) > most:
            yield parts[most].line, too_many(told, [part.name for part in parts], most)
    for machine in product.components:
        if len(machine.states) > DESK.states:
            yield machine.line, too_many(f"component {machine.name} has {{}} states: there are", machine.states, DESK.states)


def too_many(told, names, most):
    """there are 17 components: a product has at most 16, and P17 is the first too many"""
    return f"{told.format(len(names))} at most {most}, and {names[most]} is the first too many"


def bad_rows(product):
    """16: rows that are idle throughout, or repeat an earlier one."""
    seen = {}
    for row in product.rows:
        if all(number is None for number in row.takes):
            yield row.line, f"row {row.name} is idle in every component: write a transition in it, or delete it"
        first = seen.setdefault(tuple(row.takes), row)
        if first is not row:
            yield row.line, f"row {row.name} repeats row {first.name} of line {first.line}: change one of the two, or delete it"


def idle_components(product):
    """17: components that idle in every row."""
    idle = [machine for index, machine in enumerate(product.components) if all(row.takes[index] is None for row in product.rows)]
    names = cut(listed(machine.name for machine in idle), 200)
    told = f"component {names} idles" if len(idle) == 1 else f"components {names} idle"
    yield idle[0].line, f"{told} in every row: write a transition into a row, or delete the component"


REASONS = {calls.PRODUCT: out_of_range, calls.ROW: bad_rows, calls.IDLE_COMPONENT: idle_components}
