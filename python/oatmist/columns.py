"""From columns to an execution, by the proved call. The bytes of the columns are docs/SHEET.md's.

    data = sheet_of(form, given)              # the sheet of steps or of columns; or `calls.Refusal`
    execution = execution_of(system, given)   # the same as steps; or `faults.Unfit`, which has the reason in words
"""
from . import calls, sheet, waiting
from .faults import Unfit
from .mending import closed
from .model import DESK, Columns, Execution


def encode(columns):
    """The bytes of columns: for each component how many actions it has, then these."""
    return b"".join(len(actions).to_bytes(2, "little") + bytes(actions) for actions in columns.lists)


def of_execution(system, execution):
    """The columns of an execution: its actions one after another, cut down to each alphabet."""
    flat = [action for step in execution.steps for action in sorted(step)]
    return Columns([[action for action in flat if action in alphabet] for alphabet in system.alphabets])


def sheet_of(form, given):
    """The sheet of an execution over a `sheet.Form`. Of columns it is the restated one that the desk writes."""
    if isinstance(given, Columns):
        return calls.columns(form.sheet(Execution()), encode(given))
    return form.sheet(given)


def execution_of(system, given):
    """An execution as steps. Columns become those of the restated sheet, or `Unfit` tells why they do not."""
    if not isinstance(given, Columns):
        return given
    try:
        return Execution(sheet.read_execution(sheet_of(sheet.Form(system), given)).steps, of_columns=True)
    except calls.Refusal as refusal:
        raise REASONS[refusal.number](system, given)


# ---- why columns are refused


def too_many(_, columns):
    """18: of a text there is one reason. Its line is that of the first action too many, as the lines stand in the text; 0 where it has none."""
    total, line = 0, 0
    for place, actions in sorted(zip(columns.lines or [0] * len(columns.lists), columns.lists), key=lambda column: column[0]):
        line = place if total <= DESK.events else line
        total += len(actions)
    sentence = (f"the columns have {total:,} actions together: shorten them to {DESK.events:,}; "
                "a shared action counts in each column that has it")
    return Unfit("", calls.COLUMNS, closed(sentence), line)


def no_execution(system, columns):
    """19: how far one gets, and who waits for whom."""
    found = waiting.Found(system, columns)
    return Unfit("execution", calls.NO_EXECUTION, found.sentence(), found.line(), found.table())


REASONS = {calls.COLUMNS: too_many, calls.NO_EXECUTION: no_execution}
