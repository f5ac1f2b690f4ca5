"""The version: the file VERSION at the top of a checkout, which stands beside the modules of an installed package."""
import os
import re

from .faults import Fault
from .files import load_text
from .library import HERE, IN_CHECKOUT, TOP


def version():
    """The version as a text."""
    path = os.path.join(TOP if IN_CHECKOUT else HERE, "VERSION")
    text = load_text(path).strip()
    if not re.fullmatch(r"\d+\.\d{1,2}\.\d{1,2}", text, re.ASCII):
        raise Fault("this is no version", path=path)
    return text


def dotted(number):
    """The version of a number as a text (O10): 10000 times its first part, 100 times the second, the third."""
    return f"{number // 10000}.{number // 100 % 100}.{number % 100}"
