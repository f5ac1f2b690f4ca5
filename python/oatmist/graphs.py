"""Components as graphs, in the language of Graphviz, and drawn by it.

    dot(system)      one text with a cluster for each component
    svg(system)      the components drawn one by one, below each other, as bytes

Initial states have an arrow from a dot, internal transitions are dashed, and transitions between the same two states are one arrow with
all their labels. What a component has in its alphabet and can never do stands below its name. A component with so many arrows that
nobody could follow them is a list instead: for each state its transitions.
"""
import re
import shutil
import subprocess
import textwrap

from .faults import Fault, cut
from .model import INTERNAL

SECONDS = 60  # that Graphviz may take for a component
LABELS = 32  # characters in a line of labels
MANY = 70  # arrows that can still be followed
LISTED = 110  # characters in a line of a list
HARD = "\u00a0"  # a space that no line is broken at

HEAD = """digraph system {
  rankdir=LR
  node [shape=ellipse fontname="DejaVu Sans" fontsize=11 margin="0.05,0.03" height=0.3]
  edge [fontname="DejaVu Sans" fontsize=10 arrowsize=0.7]
  graph [fontname="DejaVu Sans" fontsize=12 labeljust=l]
"""
SIZE = re.compile(rb'<svg width="(\d+)pt" height="(\d+)pt"')
DRAWING = re.compile(SIZE.pattern + rb".*</svg>", re.S)
IDENTITY = re.compile(rb' id="[^"]*"')  # the same in each drawing


def inner(text):
    """A text within a string of the language."""
    return text.replace("\\", "\\\\").replace('"', '\\"')


def in_lines(words):
    """Words with commas between them, in lines of a certain length, within a string of the language."""
    lines = [""]
    for index, word in enumerate(words):
        word += "," if index + 1 < len(words) else ""
        if lines[-1] and len(lines[-1]) + len(word) >= LABELS:
            lines.append("")
        lines[-1] += (" " if lines[-1] else "") + word
    return "\\n".join(map(inner, lines))


def arrows(component):
    """For each pair of states with transitions between them: their labels, rising, the internal one last."""
    found = {}
    for source, label, target in sorted(component.transitions):
        found.setdefault((source, target), []).append(label)
    return found


def title(system, component):
    """The component's name, and the actions that no transition of it bears."""
    used = {label for _, label, _ in component.transitions}
    never = [system.actions[action] for action in sorted(component.alphabet - used)]
    return inner(component.name) + (f"\\nnever: {in_lines(never)}" if never else "")


def cluster(system, index):
    """The lines of one component."""
    component = system.components[index]
    yield f'  subgraph cluster_{index} {{ label="{title(system, component)}"'
    yield from (graph if len(arrows(component)) <= MANY else moves)(system, index)
    yield "  }"


def moves(system, index):
    """The component as a list: its initial states, and for each state where each action leads."""
    component = system.components[index]
    lines = wrapped("initial", [component.states[state] for state in sorted(component.initial)])
    for state, name in enumerate(component.states):
        leads = {}
        for _, label, target in sorted(move for move in component.transitions if move[0] == state):
            leads.setdefault(label, []).append(component.states[target])
        told = [f"{'internal' if label == INTERNAL else system.actions[label]} → {' '.join(to)};" for label, to in leads.items()]
        lines += wrapped(name, told)
    whole = "\\l".join([*map(inner, lines), ""])
    yield f'    l{index} [shape=plain label="{whole}"]'


def wrapped(name, words):
    """A list behind a name, in lines that keep each of the words whole, and an empty line."""
    told = " ".join([f"{name}:", *(word.replace(" ", HARD) for word in words)])
    return [*textwrap.wrap(told, LISTED, break_long_words=False, break_on_hyphens=False), ""]


def graph(system, index):
    """The component as states and arrows."""
    component = system.components[index]
    for state, name in enumerate(component.states):
        yield f'    s{index}_{state} [label="{inner(name)}"]'
    for state in sorted(component.initial):
        yield f'    i{index}_{state} [shape=point width=0.08 label=""]'
        yield f"    i{index}_{state} -> s{index}_{state}"
    for (source, target), labels in arrows(component).items():
        arrow = f"    s{index}_{source} -> s{index}_{target}"
        names = [system.actions[label] for label in labels if label != INTERNAL]
        if names:
            yield f'{arrow} [label=" {in_lines(names)} "]'
        if labels[-1] == INTERNAL:
            yield f"{arrow} [style=dashed]"


def dot(system, indices=None):
    """These components, or all, as a text for Graphviz, which draws the last of them on top."""
    chosen = range(len(system.components)) if indices is None else indices
    lines = [line for index in reversed(chosen) for line in cluster(system, index)]
    return HEAD + "\n".join(lines) + "\n}\n"


def drawn(program, system, index):
    """The drawing of one component: its width, its height and the SVG element."""
    try:
        made = subprocess.run([program, "-Tsvg"], input=dot(system, [index]).encode(), capture_output=True, timeout=SECONDS, check=False)
    except subprocess.TimeoutExpired:
        name = system.components[index].name
        raise Fault(f"Graphviz took more than {SECONDS} seconds for {cut(name)}: write a file that ends in .dot instead") from None
    found = DRAWING.search(made.stdout)
    if made.returncode or not found:
        raise Fault("Graphviz made no drawing: " + cut(made.stderr.decode(errors="replace").strip(), 200))
    return int(found[1]), int(found[2]), found[0]


def svg(system):
    """The components as drawn by Graphviz, the first on top."""
    program = shutil.which("dot")
    if program is None:
        raise Fault("Graphviz, which draws graphs, is not installed: write a file that ends in .dot, or install it")
    drawings = [drawn(program, system, index) for index in range(len(system.components))]
    width, height = max(drawing[0] for drawing in drawings), sum(drawing[1] for drawing in drawings)
    head = f'<svg xmlns="http://www.w3.org/2000/svg" width="{width}pt" height="{height}pt" viewBox="0 0 {width} {height}">\n'
    return head.encode() + b"\n".join(stacked(drawings)) + b"\n</svg>\n"


def stacked(drawings):
    """The drawings, each in its place below the one before."""
    top = 0
    for width, height, element in drawings:
        placed = b'<svg y="%d" width="%d" height="%d"' % (top, width, height)
        yield IDENTITY.sub(b"", SIZE.sub(placed, element, 1))
        top += height
