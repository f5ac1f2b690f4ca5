"""Files of a person: read with a bound, told by name where they cannot be read; written beside and then renamed."""
import contextlib
import errno
import os
import stat
import sys
import time

from .faults import Fault
from .letters import decoded

LONGEST = 1 << 20  # bytes of a file that are read; no text of a system and no sheet is longer
loaded = set()  # the files that were read, by device and number; `store_all` does not write them


def explain(error):
    """What an error of the system means for a person."""
    if isinstance(error, IsADirectoryError):
        return "this is a folder: name a file in it"
    if isinstance(error, FileNotFoundError):
        return "there is no such file"
    return error.strerror or str(error)


def load(path):
    """The bytes of a file; '-' is standard input."""
    with telling(path):
        if path == "-":
            if sys.stdin is None:
                raise Fault("standard input is closed")
            data = front(sys.stdin.buffer)
        else:
            with open(path, "rb") as file:
                data = front(file)
    if len(data) > LONGEST:
        raise Fault(f"more than {LONGEST:,} bytes: this is no text of a system, no execution and no sheet", path=named(path))
    return data


def front(file):
    """The first bytes of an open file, which is not to be written any more."""
    loaded.add(identity(os.fstat(file.fileno())))
    return file.read(LONGEST + 1)


def identity(told):
    """What tells a file from all others, whatever path it has."""
    return told.st_dev, told.st_ino


def spare(path):
    """No file that was read is written."""
    with contextlib.suppress(OSError, ValueError):
        if identity(os.stat(path)) in loaded and not special(path):
            raise Fault("this file is read: give another one to write", path=path)


def named(path):
    """A path for a message."""
    return "standard input" if path == "-" else path


@contextlib.contextmanager
def naming(path):
    """Faults within are about this file, where they name no other."""
    try:
        yield
    except Fault as fault:
        fault.path = fault.path or named(path)
        raise


def load_text(path):
    """The text of a file."""
    data = load(path)
    with naming(path):
        return decoded(data)


def special(path):
    """Whether a path is a device or a pipe, which no file may be put in place of."""
    try:
        return not stat.S_ISREG(os.stat(path).st_mode)
    except OSError:
        return False


def store(path, data):
    """Writes a file whole or not at all."""
    store_all({path: data})


def store_all(contents):
    """Writes files whole, or none of them: each beside its place, then all renamed. A device or a pipe is written to."""
    for path in contents:
        spare(path)
    beside = {}
    try:
        for path, data in contents.items():
            with telling(path):
                if special(path):
                    write(path, "wb", data)
                else:
                    beside[path] = write_beside(os.path.realpath(path), data)
        for path in beside:
            with telling(path):
                os.replace(beside[path], os.path.realpath(path))
    except BaseException:
        for path in beside.values():
            with contextlib.suppress(OSError):
                os.unlink(path)
        raise


@contextlib.contextmanager
def telling(path):
    """Errors of the system within are faults about this path."""
    try:
        yield
    except (OSError, ValueError) as error:
        raise Fault(explain(error) if isinstance(error, OSError) else "this is no name of a file", path=named(path))


def write(path, mode, data):
    with open(path, mode) as file:
        file.write(data)


def write_beside(path, data):
    """A file with these bytes beside a path, with the permissions of the one that is there; its own path."""
    if not os.path.isdir(os.path.dirname(path)):
        raise NotADirectoryError(errno.ENOTDIR, "its folder is not there")
    there = os.path.exists(path)
    if there and not os.access(path, os.W_OK):
        raise PermissionError(errno.EACCES, os.strerror(errno.EACCES))
    beside = os.path.join(os.path.dirname(path), f".oatmist-{os.getpid()}-{time.monotonic_ns()}")
    try:
        write(beside, "xb", data)
        if there:
            os.chmod(beside, stat.S_IMODE(os.stat(path).st_mode))
    except BaseException as error:
        if not isinstance(error, FileExistsError):
            with contextlib.suppress(OSError):
                os.unlink(beside)
        raise
    return beside


def same(path, other):
    """Whether two paths lead to one file, which need not be there."""
    with telling(path):
        return os.path.realpath(path) == os.path.realpath(other)


def inside(path, folder):
    """Whether a path leads into a folder, through links, too."""
    with telling(path):
        return os.path.commonpath([os.path.realpath(path), os.path.realpath(folder)]) == os.path.realpath(folder)


def make_folder(path):
    """A folder, which may be there; the folder that it stands in must be."""
    try:
        if not os.path.isdir(path):
            os.mkdir(path)
    except OSError as error:
        raise Fault("this is no folder" if isinstance(error, FileExistsError) else explain(error), path=path)
