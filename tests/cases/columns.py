"""The bytes of columns, from their lines (V2): README.md has the notation."""
import re

LABEL = r"(?:([0-9]+) times )?([0-9]+)"


def column(text):
    """The bytes of one column: the number of its labels, then these."""
    if not re.fullmatch(rf"column(?: {LABEL})*", text):
        raise ValueError(f"not understood: '{text}'")
    labels = b"".join(bytes([int(label)]) * int(times or 1) for times, label in re.findall(LABEL, text))
    return len(labels).to_bytes(2, "little") + labels


def encode(texts):
    """The bytes of columns; ValueError where a line is not understood, or a label is larger than a byte."""
    return b"".join(map(column, texts))
