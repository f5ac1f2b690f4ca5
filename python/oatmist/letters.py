"""The characters of a text: what a name may have, and what to write instead of those that a word processor puts in."""
import re
import unicodedata

from .faults import Fault, printable, quoted

OTHERS = "_.!?'"  # what a name may have beside letters, marks and digits
LONGEST_NAME = 100
PLAIN = re.compile(r"[A-Za-z0-9_.!?']+")
INSTEAD = {letter: written for letters, written in (
    ("‐‑‒–—―−﹣－", "-"), ("→⟶⇒", "->"), ("‘’‚‛′`´", "'"), ("…", "..."), ("｛", "{"), ("｝", "}"), ("，、", ","), ("＞", ">"),
) for letter in letters}
QUOTES = "“”„«»\""
CONTROL = re.compile("[\x00-\x08\x0b\x0c\x0e-\x1f\x7f-\x9f]")
ENDINGS = re.compile("\r\n?")


def decoded(data):
    """The text of a file: UTF-8, composed letters, line feeds as line ends, no control characters."""
    if data[:2] in (b"\xff\xfe", b"\xfe\xff"):
        raise Fault("this is UTF-16: save it as UTF-8 text")
    try:
        text = ENDINGS.sub("\n", data.decode("utf-8-sig"))
    except UnicodeDecodeError as error:
        raise Fault("this is no UTF-8 text: save it as UTF-8, without a word processor's format", data.count(b"\n", 0, error.start) + 1)
    text = unicodedata.normalize("NFC", text)
    found = CONTROL.search(text)
    if found:
        raise Fault(f"the control character {printable(found[0])}: delete it", text.count("\n", 0, found.start()) + 1)
    return text


def allowed(letter):
    """Whether a name may have this character."""
    return letter in OTHERS or unicodedata.category(letter)[0] in "LMN"


def name_fault(word):
    """Why this is no name, and what to write; None where it is one."""
    if len(word) > LONGEST_NAME:
        return f"{quoted(word)} is too long for a name: at most {LONGEST_NAME} characters"
    if PLAIN.fullmatch(word):
        return None
    if not word:
        return "a name is missing"
    for letter in word:
        if not allowed(letter):
            return f"{quoted(word)} is no name: {advice(letter)}"
    return None


def as_typed(word):
    """What a word may have been before a word processor changed it: with plain characters in place of its own, and without these."""
    yield "".join(INSTEAD.get(letter, letter) for letter in word)
    yield "".join(letter for letter in word if letter not in INSTEAD and letter not in QUOTES)


def advice(letter):
    """What to do about a character that no name has."""
    if letter in INSTEAD and all(map(allowed, INSTEAD[letter])):
        return f"instead of {letter} write {INSTEAD[letter]}"
    if letter in QUOTES:
        return f"write it without {letter}"
    if letter in ",;，、":
        return f"write no {letter} between names"
    if unicodedata.category(letter)[0] == "C":
        return f"delete the character {printable(letter)}, which cannot be seen"
    return f"it has {printable(letter)}, but a name has letters, digits and _ . ! ? ' only"


def odd_letter(line, written=tuple(INSTEAD.values())):
    """What to do about the first character of a line that a word processor may have put in; '' where there is none.

    It is replaced where the line may have what is written for it, and deleted elsewhere.
    """
    found = next((letter for letter in line if letter in INSTEAD or letter in QUOTES), None)
    if found is None:
        return ""
    return f"instead of {found} write {INSTEAD[found]}" if INSTEAD.get(found) in written else f"delete {found}"
