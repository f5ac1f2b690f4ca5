"""Case files, read: README.md has the notation. Each case shows a rule; all of them are what C4 asks for."""
import itertools
import re

RANGE = r"([A-Za-z_]*)([0-9]+)\.\.\1([0-9]+)"
STEP = r"\{[^{}]*\}|raw 0x[0-9a-fA-F]+"


class Malformed(Exception):
    """What is wrong with a case file, and in which line."""

    def __init__(self, line, message):
        super().__init__(message)
        self.line, self.message = line, message


class Line:
    """A line without its comment: its number, how far it is indented, and its text."""

    def __init__(self, number, indent, text):
        self.number, self.indent, self.text = number, indent, text


class Given:
    """A sheet, a product or columns of a case: the lines of its text, with no repetition left, and the changes in the bytes made of them."""

    def __init__(self, text):
        self.text, self.changes = text, []


class Question:
    """A question of a case: its word, what stands behind the word, and the lines below."""

    def __init__(self, line, word, rest, below):
        self.line, self.word, self.rest, self.below = line, word, rest, below


class Case:
    """A case: its label, what it shows, its product, its sheets and columns, what was given last, and its questions with what is due."""

    def __init__(self, line, label):
        self.line, self.label = line, label
        self.shows, self.product, self.columns, self.sheets, self.questions = None, None, None, [], []
        self.last = None


# ---- repetition ----------------------------------------------------------------------------------


def members(word):
    """The names that s0..s31 stands for; any other word stands for itself."""
    found = re.fullmatch(RANGE, word)
    if not found:
        return [word]
    prefix, first, last = found[1], int(found[2]), int(found[3])
    return [f"{prefix}{i}" for i in range(first, last + 1)] or [word]


def arrows(text):
    """The arrows that one arrow between ranges stands for: all that can be chosen from them."""
    found = re.fullmatch(r"(\S+) -(?:(\S+)-)?> (\S+)", text)
    if not found:
        return [text]
    source, label, target = found.groups()
    shafts = [f"-{name}->" for name in members(label)] if label else ["->"]
    return [" ".join(chosen) for chosen in itertools.product(members(source), shafts, members(target))]


def expanded_line(text):
    """The lines that a line stands for."""
    found = re.fullmatch(r"([0-9]+) times (step .*)", text)
    if found:
        return expanded_line(found[2]) * int(found[1])
    if "->" in text:
        return arrows(text)
    text = re.sub(rf"([0-9]+) times ({STEP})", lambda found: " ".join([found[2]] * int(found[1])), text)
    text = re.sub(r"\{[^{}]*\}", lambda found: replaced(found[0], ", "), text)
    return [replaced(text, " ")]


def replaced(text, between):
    """The text with the members of each range in its place."""
    return re.sub(rf"(?<![\w.]){RANGE}(?![\w.])", lambda found: between.join(members(found[0])), text)


def expanded(lines):
    """The texts that lines stand for, with 'repeat', ranges and 'times' carried out."""
    texts, i = [], 0
    while i < len(lines):
        line = lines[i]
        i += 1
        found = re.fullmatch(r"repeat ([a-z]) = ([0-9]+)\.\.([0-9]+)", line.text)
        if not found:
            texts += expanded_line(line.text)
            if ".." in texts[-1]:
                raise Malformed(line.number, f"no range: '{line.text}'")
            continue
        inner = []
        while i < len(lines) and lines[i].indent > line.indent:
            inner.append(lines[i])
            i += 1
        first, last = int(found[2]), int(found[3])
        for value in range(first, last + 1) if first <= last else range(first, last - 1, -1):
            here = [Line(at.number, at.indent, at.text.replace("$" + found[1], str(value))) for at in inner]
            texts += expanded(here)
    return texts


# ---- files ---------------------------------------------------------------------------------------


def lines_of(text):
    """The lines of a file that are not empty, without comments."""
    for number, raw in enumerate(text.split("\n"), 1):
        bare = raw.split("#")[0].rstrip()
        if bare:
            yield Line(number, len(bare) - len(bare.lstrip()), bare.strip())


def below(lines, indent):
    """Each line that is indented so far, with the deeper ones below it."""
    found = []
    for line in lines:
        if line.indent == indent:
            found.append((line, []))
        elif line.indent < indent or not found:
            raise Malformed(line.number, f"indented by {line.indent}")
        else:
            found[-1][1].append(line)
    return found


def read_sheet(systems, line, rest, lines):
    """A sheet by the name of a system, by lines, or by both."""
    if not rest and not lines:
        raise Malformed(line.number, "a sheet of nothing")
    if rest and rest not in systems:
        raise Malformed(line.number, f"there is no system '{rest}'")
    return Given(expanded(systems.get(rest, [])) + expanded(lines))


def read_lines(line, rest, lines, in_place):
    """A product, or columns: the lines below the word."""
    if rest or not lines:
        raise Malformed(line.number, f"the lines stand below the word '{line.text}'")
    if not in_place:
        raise Malformed(line.number, f"'{line.text}' out of place")
    return Given(expanded(lines))


def read_item(case, systems, line, lines):
    """One line of a case, with the lines below it."""
    word, _, rest = line.text.partition(" ")
    rest = rest.strip()
    if word == "shows":
        if case.shows is not None or not rest:
            raise Malformed(line.number, "a case shows one thing, in one line")
        case.shows = rest
    elif word in ("sheet", "second"):
        if len(case.sheets) != ("sheet", "second").index(word):
            raise Malformed(line.number, f"'{word}' out of place")
        case.last = read_sheet(systems, line, rest, lines)
        case.sheets.append(case.last)
    elif word == "product":  # before the sheet that it becomes
        case.last = case.product = read_lines(line, rest, lines, case.last is None)
    elif word == "columns":  # behind the one sheet that they are given with
        case.last = case.columns = read_lines(line, rest, lines, [case.last] == case.sheets and not case.product)
    elif word == "change":
        if not case.last or not rest:
            raise Malformed(line.number, "'change' out of place")
        case.last.changes.append(Line(line.number, 0, rest))
    else:
        case.questions.append(Question(line.number, word, rest, lines))
    if lines and word in ("shows", "change"):
        raise Malformed(lines[0].number, f"'{word}' is one line")


def read_case(systems, head, lines):
    """A case, whole."""
    label = head.text.partition(" ")[2].strip()
    case = Case(head.number, label)
    for line, deeper in below(lines, 2):
        read_item(case, systems, line, deeper)
    for given, what in ((label, "label"), (case.shows, "'shows'"), (case.sheets or case.product, "'sheet' and no 'product'"),
                        (case.questions, "answer that is due")):
        if not given:
            raise Malformed(head.number, f"the case has no {what}")
    return case


def read_file(text, systems):
    """The cases of a file; its systems are added to those that are known. What is malformed stands among the cases."""
    cases = []
    try:
        blocks = below(lines_of(text), 0)
    except Malformed as fault:
        return [fault]
    for head, lines in blocks:
        try:
            word, _, name = head.text.partition(" ")
            if word == "case":
                cases.append(read_case(systems, head, lines))
            elif word == "system" and name and lines and name not in systems:
                systems[name] = lines
            else:
                raise Malformed(head.number, f"not understood, empty or twice: '{head.text}'")
        except Malformed as fault:
            cases.append(fault)
    return cases
