"""The marking desk for people: systems and executions as texts, marked by
proved calls.

A system is a text of components, or of a product that is given by its rows;
docs/TEXT.md explains both. An execution is a text of steps, {produce} {start},
or of columns, a line for each component with its own actions in order. It
stands in a file of its own or behind the system. Both may also be a sheet, the
file that the desk marks. '-' is standard input, and '-o -' standard output.
"""
import argparse
import importlib
import pkgutil
import sys

from . import manners, verbs
from .faults import shown
from .version import version

LONGEST = 300  # characters of a message about wrong words
EPILOG = "'oatmist VERB --help' explains a verb.\n" + manners.STATUS


class Parser(argparse.ArgumentParser):
    """A parser that tells when its help cannot be printed, and repeats nobody's control characters."""

    def error(self, message):
        super().error(shown(message, LONGEST))

    def _print_message(self, message, file=None):
        if file is not None and file is sys.stderr:
            manners.complain(message.rstrip("\n"))
        else:
            manners.say(message)


def names():
    """The verbs: one module each."""
    return sorted(module.name for module in pkgutil.iter_modules(verbs.__path__))


class Version(argparse.Action):
    """Prints the version."""

    def __call__(self, parser, *_):
        manners.say(f"oatmist {version()}\n")
        parser.exit()


def add_version(parser):
    parser.add_argument("--version", action=Version, nargs=0, help="show the version and exit")


def add_verb(commands, name):
    """Adds a verb: its module has SUMMARY, `arguments` for the parser, and `run`."""
    module = importlib.import_module(f"{verbs.__name__}.{name}")
    parser = commands.add_parser(name, help=module.SUMMARY, description=module.__doc__, epilog=manners.STATUS, allow_abbrev=False,
                                 formatter_class=argparse.RawDescriptionHelpFormatter)
    add_version(parser)
    module.arguments(parser)
    parser.set_defaults(run=module.run)


def parser_of(chosen):
    """The parser of the command, with these verbs."""
    parser = Parser(prog="oatmist", description=__doc__, epilog=EPILOG, allow_abbrev=False,
                    formatter_class=argparse.RawDescriptionHelpFormatter)
    add_version(parser)
    commands = parser.add_subparsers(metavar="VERB", required=True)
    for name in chosen:
        add_verb(commands, name)
    return parser


def work(words):
    """Does what the words ask; the exit status."""
    known = names()
    given = parser_of(words[:1] if words[:1] and words[0] in known else known).parse_args(words)
    if getattr(given, "output", None) == "-":
        given.output = None
    manners.tidy_interrupts()
    return given.run(given)


def main(words=None):
    """The command."""
    return manners.guarded(lambda: work(sys.argv[1:] if words is None else words))
