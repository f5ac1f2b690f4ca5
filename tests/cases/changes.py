"""Changes in the bytes of a sheet (S3 to S6), of a product (B5) or of columns (V2): README.md has their words."""
import re

TRAILER = {"C": (0, 2), "T": (2, 2), "S": (4, 2), "n": (6, 1), "m": (7, 1)}
RECORD = {"states": (0, 1), "filler 1": (1, 1), "filler 2": (2, 1), "filler 3": (3, 1), "initial": (4, 4), "alphabet": (8, 8)}
TRANSITION = {"component": 0, "source": 1, "label": 2, "target": 3}


class Unfit(Exception):
    """A change that cannot be made, or that changes nothing."""


def in_set(text):
    """The number with a bit for each member of {0, 2..5}."""
    members = 0
    for word in filter(None, re.split(r"[,\s]+", text.strip("{}"))):
        first, _, last = word.partition("..")
        for i in range(int(first), int(last or first) + 1):
            members |= 1 << i
    return members


def value(text, size):
    """The bytes of a number or of a set."""
    return (in_set(text) if text.startswith("{") else int(text)).to_bytes(size, "little")


def number(sheet, name):
    """A number of the trailer."""
    start, size = TRAILER[name]
    start += len(sheet) - 10
    return int.from_bytes(sheet[start:start + size], "little")


def put(sheet, start, data):
    """The sheet with these bytes written over it."""
    if start < 0 or start + len(data) > len(sheet):
        raise Unfit("behind the end of the sheet")
    return sheet[:start] + data + sheet[start + len(data):]


def set_trailer(sheet, name, text):
    start, size = TRAILER[name]
    return put(sheet, len(sheet) - 10 + start, value(text, size))


def set_mark(sheet, text):
    return put(sheet, len(sheet) - 2, bytes.fromhex(text))


def set_record(sheet, j, name, text):
    start, size = RECORD[name]
    if 16 * int(j) >= number(sheet, "T"):
        raise Unfit(f"there is no record {j}")
    return put(sheet, 16 * int(j) + start, value(text, size))


def transition(sheet, k):
    """Where a transition stands."""
    start = number(sheet, "T") + 4 * int(k)
    if start + 4 > number(sheet, "S"):
        raise Unfit(f"there is no transition {k}")
    return start


def set_transition(sheet, k, name, text):
    return put(sheet, transition(sheet, k) + TRANSITION[name], value(text, 1))


def swap(sheet, j, k):
    a, b = transition(sheet, j), transition(sheet, k)
    return put(put(sheet, a, sheet[b:b + 4]), b, sheet[a:a + 4])


def set_byte(given, place, text):
    return put(given, int(place), value(text, 1))


def cut(sheet, count):
    return sheet[:int(count)]


def remove(sheet, count, start):
    return sheet[:int(start)] + sheet[int(start) + int(count):]


def insert(sheet, count, byte, start):
    return sheet[:int(start)] + bytes.fromhex(byte) * int(count) + sheet[int(start):]


def append(sheet, count, byte):
    return insert(sheet, count, byte, len(sheet))


WORDS = (
    (r"set (C|T|S|n|m) = (.+)", set_trailer),
    (r"set mark = ([0-9a-f]{2} [0-9a-f]{2})", set_mark),
    (r"record ([0-9]+) (states|filler [123]|initial|alphabet) = (.+)", set_record),
    (r"transition ([0-9]+) (component|source|label|target) = (.+)", set_transition),
    (r"swap transitions ([0-9]+) and ([0-9]+)", swap),
    (r"byte ([0-9]+) = ([0-9]+)", set_byte),
    (r"cut to ([0-9]+) bytes?", cut),
    (r"remove ([0-9]+) bytes? at ([0-9]+)", remove),
    (r"insert ([0-9]+) bytes? ([0-9a-f]{2}) at ([0-9]+)", insert),
    (r"append ([0-9]+) bytes? ([0-9a-f]{2})", append),
)


def changed(sheet, text):
    """The sheet after a change."""
    for pattern, change in WORDS:
        found = re.fullmatch(pattern, text)
        if found:
            try:
                after = change(sheet, *found.groups())
            except (ValueError, OverflowError) as error:
                raise Unfit(str(error))
            if after == sheet:
                raise Unfit("it changes nothing")
            return after
    raise Unfit("not understood")
