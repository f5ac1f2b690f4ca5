"""The receipt of a sitting: by what the sheets were marked, over which tables, and how many there were.

Two sittings with the same receipt lines were marked by the same library over the same system.
"""
import hashlib
import os
import re
import subprocess

from . import calls, library
from .faults import Fault, shown
from .version import version

UNKNOWN = "not known"
ORIGIN = "ORIGIN"
IDENTITY = re.compile(r"^identity='(.+)'$", re.M)


def sha256_of(path):
    """The hash of a file."""
    with open(path, "rb") as file:
        return hashlib.sha256(file.read()).hexdigest()


def git(*words):
    """What git says about the checkout, and not about a repository that the environment names; or `Fault`."""
    around = {word: value for word, value in os.environ.items() if not word.startswith("GIT_")}
    try:
        told = subprocess.run(["git", "-C", library.TOP, *words], capture_output=True, text=True, check=False, env=around)
    except OSError:
        raise Fault("git could not be started") from None
    if told.returncode:
        raise Fault(shown(told.stderr.partition("\n")[0], 200))
    return told.stdout.strip()


def commit():
    """The commit of the checkout that this package is in, and whether files differ from it; or why it is not known."""
    try:
        top = git("rev-parse", "--show-toplevel")
        if os.path.realpath(top) != os.path.realpath(library.TOP):
            raise Fault("these files are in a checkout of something else")
        return git("rev-parse", "HEAD") + (", with changes" if git("status", "--porcelain", "--untracked-files=no") else "")
    except Fault as fault:
        return f"{UNKNOWN}: {fault}"


def kit(path):
    """The version of the kit that proved and built the library: its builder leaves it in a note beside it."""
    try:
        with open(os.path.splitext(path)[0] + ".a.note", encoding="utf-8") as file:
            found = IDENTITY.search(file.read())
    except (OSError, UnicodeDecodeError):
        return UNKNOWN
    return found[1] if found else UNKNOWN


def origin(path):
    """The commit and the kit; where the package is installed, those that it was built of, which it has in a file."""
    if library.IN_CHECKOUT:
        return commit(), kit(path)
    try:
        with open(os.path.join(library.HERE, ORIGIN), encoding="utf-8") as file:
            return tuple(file.read().splitlines())
    except OSError:
        return UNKNOWN, UNKNOWN


def receipt(bare, model, counts, classes):
    """The lines, as pairs of a word and what it is. `bare` is the system's sheet without steps, `model` the model solution's class."""
    path = calls.opened()._name
    yield "version", version()
    yield from zip(("commit", "kit"), origin(path))
    yield "library", sha256_of(path)
    yield "tables", hashlib.sha256(bare).hexdigest()
    if model:
        yield "model", model
    yield "files", sum(counts.values())
    yield from counts.items()
    yield "classes", classes
