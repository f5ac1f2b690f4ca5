#!/usr/bin/env python3
"""Brings this repository's own definitions, lemmas and fields to snake case, in crates/*/{src,specs,proofs}.

usage: tools/respell.py [--map]      at the top, after the kit's port.py; --map prints the names, and changes nothing

A name goes over where it is declared in an .antt file of this repository: hyphens become underscores, a hump becomes an underscore and a small
letter. Types, which begin with a capital letter, keep their names, and so do strings, functions of src/ and what the kit declares. Where a
definition and a lemma would fall together, the lemma (it had the hyphens) gets the ending _fact.
"""

import collections
import os
import re
import sys

TOP = os.path.dirname(os.path.dirname(os.path.realpath(__file__)))
SIGNATURE = re.compile(
    r"^\s*(?:(?:abbrev|unfoldable|opaque|private|pub|ghost)\s+)*"
    r"((?:[^\s:(){}\[\].,;=|λ]+\s+)*?[^\s:(){}\[\].,;=|λ]+)\s*:(?=\s|$)(.*)$"
)
IMPORT = re.compile(r"^\s*(?:ghost )?use ([\w.]+?)\.\{([^}]*)\}", re.M)
TOKEN = re.compile(r"[^\s(){}\[\].,;`\"]+")
WORDS = {"use", "module", "data", "record", "where", "let", "in", "elim", "mod", "else", "if", "then"}
LEMMAS_THAT_MEET_A_DEFINITION = """
accepted-word action-count actions-of columns-at component-count component-wrong counts-out end-sets few-labels first-fault members-from
number-told process-told records-at records-part same-work seven-or-eight sheet-transitions sizes-told steps-at steps-part tables-verdict
trailer-verdict transition-at transition-bytes transitions-at same-numbers
""".split()
# The same, of lemmas whose hyphens the kit's script has turned already, since a function of src/ has that name.
TURNED = re.compile(r"(?<![.\w'-])(same_outcome|takes_part|same_taken|same_row|step_count)(?![.\w'-])")


def files():
    for folder, folders, names in os.walk(os.path.join(TOP, "crates")):
        folders[:] = sorted(f for f in folders if f != "out")
        for name in sorted(names):
            if name.endswith((".antt", ".rt")):
                yield os.path.join(folder, name)


def snake(name):
    """The name in snake case; a type, with a capital letter in front, loses hyphens alone."""
    fact = "_fact" if name in LEMMAS_THAT_MEET_A_DEFINITION else ""
    if name[0].isupper():
        return name.replace("-", "_")
    return re.sub(r"(?<=[a-z0-9'])([A-Z])", r"_\1", name.replace("-", "_")).lower() + fact


def declared(text):
    """The names that an .antt file declares, but for answers to goals."""
    for line in text.split("\n"):
        if line.strip().startswith("--"):
            continue
        found = SIGNATURE.match(line)
        if found and found[1].split()[0] not in WORDS and not found[2].strip().startswith("tie."):
            yield from found[1].split()


def imported(text, crates):
    """The names that a file takes from the kit."""
    for module, names in IMPORT.findall(text):
        if not (module.startswith("Rattle.") and module.split(".")[1] in crates):
            yield from (n.strip() for n in names.split(","))


def respell(text, names, code):
    """The text with the names respelled, in code outside of strings."""
    def one(found):
        return names.get(found[0], found[0])
    if not code:
        return TOKEN.sub(one, text)
    parts = re.split(r'(b?"(?:\\.|[^"\\])*")', text)
    return "".join(p if k % 2 else TOKEN.sub(one, p) for k, p in enumerate(parts))


def main():
    crates = set(os.listdir(os.path.join(TOP, "crates")))
    texts = {p: open(p, encoding="utf-8").read() for p in files()}
    names = {}
    for path, text in texts.items():
        if path.endswith(".antt"):
            names |= {n: snake(n) for n in declared(text) if snake(n) != n and re.match(r"^[^\W\d_][\w'-]*$", n)}
    met = collections.defaultdict(set)
    for path, text in texts.items():
        for name in declared(text) if path.endswith(".antt") else ():
            if re.match(r"^[^\W\d_][\w'-]*$", name):
                met[snake(TURNED.sub(r"\1_fact", name))].add(name)
    for new, olds in met.items():
        if len(olds) > 1:
            print("fall together:", new, *sorted(olds), file=sys.stderr)
    if "--map" in sys.argv:
        print(*(f"{o} {n}" for o, n in sorted(names.items())), sep="\n")
        return
    for path, text in texts.items():
        kit = set(imported(text, crates))
        new = text if path.endswith(".rt") else TURNED.sub(r"\1_fact", text)
        new = respell(new, {o: n for o, n in names.items() if o not in kit}, path.endswith(".rt"))
        if new != text:
            with open(path, "w", encoding="utf-8") as f:
                f.write(new)


main()
