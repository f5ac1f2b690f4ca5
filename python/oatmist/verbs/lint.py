"""Looks for what is allowed in a system and probably wrong: an action without
a transition in a component that has it, a component that shares nothing,
states that it never comes to, a name that is a number other than its own,
an action that only one component has and that differs by a letter from
another's, an action called tau, a transition of a product that no row names.
In a product no name joins components, so what they share and how rows are
called is not looked at. The exit status is 1 where something is found.
"""
from .. import inputs, lint, manners, words

SUMMARY = "what is allowed in a system and probably wrong"


def arguments(parser):
    parser.add_argument("system", metavar="SYSTEM", help="a text of a system or a product, or a sheet")


def run(given):
    system, _ = inputs.read_system(given.system)
    found = lint.found(system)
    manners.say("".join(words.wrapped(sentence, others="  ") + "\n" for sentence in found) or "nothing found\n")
    return manners.REFUSED if found else manners.DONE
