"""What to mend in a sheet that the desk refuses by 1 to 9. The number is the desk's; the place in the bytes is looked up for it."""
from . import calls
from .model import DESK, INTERNAL, bits
from .sheet import MARK, RECORD, STEP, TRAILER, TRANSITION, step_section, trailer, whole


def length(sheet):
    """1: too short or too long."""
    reason = "is the file cut off" if len(sheet) < calls.SHORTEST_SHEET else "are there too many steps"
    yield f"the sheet has {len(sheet):,} bytes, but a sheet has {calls.SHORTEST_SHEET} to {calls.LONGEST_SHEET:,}: {reason}, or is it no sheet?"


def mark(sheet):
    """2: the mark."""
    yield f"the sheet ends in {sheet[-2:].hex(' ')} instead of {MARK.hex(' ')}: write these two bytes last, and nothing behind them"


def counts(sheet):
    """3: the numbers of components and of actions."""
    *_, n, m = trailer(sheet)
    for count, most, what, advice in ((n, DESK.components, "components", "split the exercise"), (m, DESK.actions, "actions", "merge actions")):
        if not 1 <= count <= most:
            yield f"the sheet tells {count} {what}, but there are 1 to {most}: {advice if count else 'write their number into the trailer'}"


def offsets(sheet):
    """4: where the sections begin, and how long they are."""
    c, t, s, n, _ = trailer(sheet)
    end = len(sheet) - TRAILER
    if c:
        yield f"the records are said to start at {c}: write 0"
    if t != RECORD * n:
        yield f"the transitions are said to start at {t}: write {RECORD * n}, where {n} records end"
    if not t <= s <= end:
        yield f"the steps are said to start at {s}, outside {t} to {end}: write where the transitions end"
    for size, what, bytes_of, most in ((s - t, "transitions", TRANSITION, DESK.transitions), (end - s, "steps", STEP, DESK.steps)):
        if size % bytes_of:
            yield f"there are {size} bytes of {what}, {bytes_of} for each: is a byte missing, or one too many?"
        if size > bytes_of * most:
            yield f"there are {size // bytes_of:,} {what}: keep to {most:,}"


def records(sheet):
    """5: what is wrong in the records."""
    for j in range(trailer(sheet)[3]):
        yield from (f"component {j} {fault}" for fault in record_faults(sheet, j))


def record_faults(sheet, j):
    """What is wrong in the record of component j."""
    place, m = RECORD * j, trailer(sheet)[4]
    states, initial, alphabet = sheet[place], whole(sheet, place + 4, 4), whole(sheet, place + 8, 8)
    if not 1 <= states <= DESK.states:
        yield f"has {states} states: give it 1 to {DESK.states}"
    if any(sheet[place + 1:place + 4]):
        yield "has filler that is not zero: write three zero bytes behind its number of states"
    for given, limit, what in ((initial, states, "initial state"), (alphabet, m, "action")):
        if not given:
            yield f"has no {what}: give it one"
        if given >> limit:
            yield f"has the {what} {given.bit_length() - 1}: there are only {limit}, counted from 0"


def unused(sheet):
    """6: actions that no component has."""
    *_, n, m = trailer(sheet)
    used = {action for j in range(n) for action in bits(whole(sheet, RECORD * j + 8, 8))}
    yield from (f"action {action} is in no component's alphabet: number the actions without gaps" for action in range(m) if action not in used)


def transitions(sheet):
    """7: transitions that name what is not there."""
    for k, row in enumerate(rows(sheet)):
        yield from (f"transition {k}, counted from 0, {fault}" for fault in transition_faults(sheet, *row))


def rows(sheet):
    """The transitions, four bytes each."""
    _, t, s, _, _ = trailer(sheet)
    return [sheet[place:place + TRANSITION] for place in range(t, s, TRANSITION)]


def transition_faults(sheet, j, source, label, target):
    """What is wrong in a transition of component j."""
    n = trailer(sheet)[3]
    if j >= n:
        yield f"names component {j}: there are only {n}, counted from 0"
        return
    place = RECORD * j
    for state in (source, target):
        if state >= sheet[place]:
            yield f"names state {state} of component {j}: it has only {sheet[place]}, counted from 0"
    if label != INTERNAL and label not in bits(whole(sheet, place + 8, 8)):
        yield f"has the label {label}, which is not in the alphabet of component {j}: correct it, or write 255 for an internal move"


def order(sheet):
    """8: transitions that are not sorted, or stand twice."""
    section = rows(sheet)
    for k in range(1, len(section)):
        if section[k - 1] == section[k]:
            yield f"transitions {k - 1} and {k}, counted from 0, are the same: delete one"
        elif section[k - 1] > section[k]:
            yield f"transition {k}, counted from 0, belongs before the one before it: sort them by their four bytes"


def events(sheet):
    """9: too many actions."""
    count = sum(bin(byte).count("1") for byte in step_section(sheet))
    yield f"the execution has {count:,} actions over all steps: shorten it to {DESK.events:,}"


PLACES = {
    calls.LENGTH: length, calls.MARK: mark, calls.COUNTS: counts, calls.OFFSETS: offsets, calls.RECORD: records,
    calls.UNUSED_ACTION: unused, calls.TRANSITION: transitions, calls.ORDER: order, calls.ACTIONS: events,
}


def mending(sheet, number):
    """What to mend where the desk refuses a sheet by this number, 1 to 9."""
    return closed(next(PLACES[number](sheet)))


def closed(sentence):
    """A sentence as it stands by itself: a capital in front, and a full stop behind it."""
    return sentence[0].upper() + sentence[1:] + ("" if sentence.endswith("?") else ".")
