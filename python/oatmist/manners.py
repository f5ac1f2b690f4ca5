"""How the command behaves towards people and shells.

Exit status: 0 accepted or done, 1 refused or different, 2 could not be done. Whoever interrupts the command ends it by that signal. What
goes wrong is told in a line on standard error, never by a traceback.
"""
import io
import os
import signal
import sys

from . import files
from .faults import Fault

DONE, REFUSED, FAILED = 0, 1, 2
STATUS = "exit status: 0 accepted or done, 1 refused or different, 2 could not be done"


def say(text):
    """Prints a text."""
    if sys.stdout is None:
        raise Fault("standard output is closed")
    sys.stdout.write(text)


def say_now(text):
    """Prints a text, and returns once it is written."""
    say(text)
    sys.stdout.flush()


def say_bytes(data):
    """Prints bytes."""
    say_now("")
    sys.stdout.buffer.write(data)


def deliver(path, data):
    """Writes a file, or to standard output where no path is given."""
    if path is None:
        return say_bytes(data)
    files.store(path, data)


def complain(text):
    """Tells something on standard error, if that is open."""
    try:
        sys.stderr.write(f"{text}\n")
        sys.stderr.flush()
    except (AttributeError, OSError, ValueError):
        pass


def give_up_output():
    """Lets nothing more go to a standard output that has failed."""
    if sys.stdout is not None:
        os.dup2(os.open(os.devnull, os.O_WRONLY), sys.stdout.fileno())


def prepare():
    """Standard output and error take every character, whatever the terminal; no file has been read yet."""
    files.loaded.clear()
    if sys.stdout is not None and isinstance(sys.stdout.buffer, io.RawIOBase):  # PYTHONUNBUFFERED: what does not fit at once would be lost
        sys.stdout = open(sys.stdout.fileno(), "w", encoding=sys.stdout.encoding, closefd=False)
    for stream in (sys.stdout, sys.stderr):
        if stream is not None:
            stream.reconfigure(errors="backslashreplace")


def on_interrupt(action):
    """What an interrupt does from now on. Where the caller has them ignored, it does nothing."""
    if signal.getsignal(signal.SIGINT) != signal.SIG_IGN:
        signal.signal(signal.SIGINT, action)


def tidy_interrupts():
    """From now on an interrupt is an exception, so that no file is left half written."""
    on_interrupt(signal.default_int_handler)


def finished(work):
    """The exit status of the work, with all its output written."""
    try:
        status = work()
    except SystemExit as ended:  # the parser: help, version or wrong words
        status = ended.code
    if sys.stdout is not None:
        sys.stdout.flush()
    on_interrupt(signal.SIG_DFL)  # there is nothing to tidy up any more
    return status


def guarded(work):
    """The exit status of the work, whatever happens in it."""
    on_interrupt(signal.SIG_DFL)  # until there is something to tidy up: an import must not be interrupted in its middle
    prepare()
    try:
        return finished(work)
    except Fault as fault:
        complain(fault if fault.path else f"oatmist: {fault}")
        return fault.status
    except BrokenPipeError:
        give_up_output()
        return FAILED
    except OSError as error:
        give_up_output()
        complain(Fault(files.explain(error), path=str(error.filename or "standard output")))
        return FAILED
    except MemoryError:
        complain("oatmist: there is not enough memory")
        return FAILED
    except KeyboardInterrupt:
        signal.signal(signal.SIGINT, signal.SIG_DFL)
        os.kill(os.getpid(), signal.SIGINT)
        return FAILED
