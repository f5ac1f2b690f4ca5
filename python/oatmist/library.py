"""Where the shared library is, and how it comes to be.

In this order:

1. the file that the environment variable OATMIST_LIBRARY names;
2. `liboatmist.so` beside this module, where `pip install` puts it;
3. in a checkout, `target/staticlib/liboatmist.so`, which `tools/build shared` makes with its proofs where it is missing, replaced or of
   other sources. That takes some minutes, once; to find out that nothing is to be built takes a few milliseconds.
"""
import ctypes
import os
import subprocess

from .faults import Fault

NAME = "liboatmist.so"
HERE = os.path.dirname(os.path.realpath(__file__))
TOP = os.path.dirname(os.path.dirname(HERE))
BUILDER = os.path.join(TOP, "tools", "build")
IN_CHECKOUT = HERE == os.path.join(TOP, "python", "oatmist") and os.path.exists(BUILDER)
BUILT = os.path.join(TOP, "target", "staticlib", NAME)


def find():
    """The path of the library, built first where that is needed."""
    named = os.environ.get("OATMIST_LIBRARY")
    if named:
        return os.path.abspath(named)
    beside = os.path.join(HERE, NAME)
    if os.path.exists(beside):
        return beside
    return build()


def build():
    """Has tools/build make the library in the checkout; its path."""
    if not IN_CHECKOUT:
        raise Fault(f"there is no {NAME} beside the package and no checkout to build it in: set OATMIST_LIBRARY to its path")
    try:
        status = subprocess.run([BUILDER, "shared"], stdin=subprocess.DEVNULL, stdout=subprocess.DEVNULL).returncode
    except OSError as error:
        raise Fault(f"the library could not be built: {error.strerror}", path=BUILDER)
    if status or not os.path.exists(BUILT):
        raise Fault("the library could not be built", path=BUILDER)
    return BUILT


def opened():
    """The library, opened."""
    path = find()
    try:
        return ctypes.CDLL(path)
    except OSError as error:
        raise Fault(f"this is no library of the desk: {error}", path=path)
