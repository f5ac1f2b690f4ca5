"""The answer of a verb about one execution: its lines, or a refusal in words: of a sheet by 1 to 12, of a product by 15 to 17, of columns by
18 and 19."""
from . import calls, inputs, manners, words
from .faults import Unfit


def answer(given, lines):
    """Prints `lines(system, execution)`, or the refusal that the desk gives instead; the exit status."""
    try:
        system, execution = inputs.read_both(given.system, given.execution)
        try:
            told, status = "".join(lines(system, execution)), manners.DONE
        except calls.Refusal as refusal:
            told, status = words.verdict(system, execution, refusal), manners.REFUSED
    except Unfit as fault:
        told, status = words.told(fault.number, f"{fault.where()}: {fault.sentence}") + fault.more, manners.REFUSED
    manners.say(told)
    return status
