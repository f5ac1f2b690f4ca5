"""A picture of executions, as SVG: a lane for each component, a column for each step, a box for each action.

An action that several components share is one box over their lanes. Where these are not neighbours the box is wide on the lanes that
take part and a narrow bridge on the others, whose lines pass through it. Long executions go on in the next band, as music does. Only
black, white and grey are used.

    Part(title, steps, faulty, first)     steps: for each step its events, pairs of a name and the lanes that take part
    draw(title, lanes, parts)             the SVG, as text
"""
from typing import NamedTuple

from .widths import columns_of

WIDTH = 1200  # a band ends before this
CHARACTER = 7.3  # a character of the font, 12 units high
LANE, BOX, BRIDGE = 28, 20, 3  # heights of a lane and of a box on it; half the width of a bridge
PAD, GAP, MARGIN = 6, 8, 12
HEAD, TITLE = 22, 34  # the step numbers above a band; the title above a part
LONGEST = 24  # columns of a name that are drawn, if that tells it from the others

STYLE = """
  text { font: 12px "DejaVu Sans Mono", Menlo, monospace; fill: #000 }
  .title { font-weight: bold }
  .number, .name { text-anchor: middle }
  .lane { text-anchor: end }
  .line { stroke: #777; stroke-width: 1 }
  .border { stroke: #888; stroke-width: 1; stroke-dasharray: 2 3 }
  .box { fill: #fff; stroke: #000; stroke-width: 1.3 }
  .faulty { fill: none; stroke: #000; stroke-width: 2.5; stroke-dasharray: 7 3 }
"""


class Part(NamedTuple):
    """An execution to be drawn. `faulty` is the index of the step to be marked, None for no step; `first` is that of the first step."""

    title: str
    steps: list
    faulty: object = None
    first: int = 0


class Box(NamedTuple):
    """An event in its place: `left` is counted from the left border of its step."""

    name: str
    label: str
    lanes: tuple
    left: float
    width: float


class Lane(NamedTuple):
    """A component: its name, and what is drawn of it."""

    name: str
    label: str


class Column(NamedTuple):
    """A step in its place in a band."""

    step: int
    left: float
    width: float
    boxes: list


def short(name, most=LONGEST):
    """A name in at most so many columns: cut in the middle where it is longer."""
    if columns_of(name) <= most:
        return name
    half = most // 2
    while columns_of(name[:half] + name[-half:]) >= most:
        half -= 1
    return name[:half] + "…" + name[-half:]


def labels_of(names):
    """The names as they are drawn: as short as they may be while no two look the same."""
    names, most = set(names), LONGEST
    while len({short(name, most) for name in names}) < len(names):
        most += 1
    return {name: short(name, most) for name in names}


def drawn_width(label):
    return columns_of(label) * CHARACTER


# ---- layout


def side_by_side(events):
    """The events in as few stacks as there must be: in a stack none reaches over a lane of another."""
    stacks = []
    for event in sorted(events, key=lambda event: min(event[1])):
        for stack in stacks:
            if max(stack[-1][1]) < min(event[1]):
                stack.append(event)
                break
        else:
            stacks.append([event])
    return stacks


def boxes_of(events, labels):
    """The boxes of a step, and the step's width."""
    boxes, left = [], GAP
    for stack in side_by_side(events):
        width = max(drawn_width(labels[name]) for name, _ in stack) + 2 * PAD
        boxes += [Box(name, labels[name], tuple(sorted(lanes)), left, width) for name, lanes in stack]
        left += width + GAP
    return boxes, max(left, 3 * GAP)


def bands_of(part, start, labels):
    """The steps in bands, each a list of columns from `start` on."""
    bands, left = [[]], start
    for index, events in enumerate(part.steps, part.first):
        boxes, width = boxes_of(events, labels)
        if bands[-1] and left + width > WIDTH:
            bands.append([])
            left = start
        bands[-1].append(Column(index, left, width, boxes))
        left += width
    return bands


def runs_of(lanes):
    """Rising lanes as runs of neighbours, each a pair of the first and the last."""
    runs = []
    for lane in lanes:
        if runs and runs[-1][1] == lane - 1:
            runs[-1] = (runs[-1][0], lane)
        else:
            runs.append((lane, lane))
    return runs


# ---- SVG


def escape(text):
    """A text as XML has it, within quotes or outside."""
    for letter, written in (("&", "&amp;"), ("<", "&lt;"), (">", "&gt;"), ('"', "&quot;")):
        text = text.replace(letter, written)
    return text


def tag(kind, **attributes):
    """An element without content. A trailing _ of a name is dropped."""
    told = (f' {name.rstrip("_")}="{escape(number(value))}"' for name, value in attributes.items())
    return f"<{kind}{''.join(told)}/>"


def number(value):
    """A coordinate without needless digits; other values as they are."""
    return f"{value:.1f}".rstrip("0").rstrip(".") if isinstance(value, float) else str(value)


def words(text, x, y, kind):
    return f'<text class="{kind}" x="{number(x)}" y="{number(y)}">{escape(text)}</text>'


def line(x1, y1, x2, y2, kind):
    return tag("line", class_=kind, x1=x1, y1=y1, x2=x2, y2=y2)


def outline(runs, left, right, top):
    """The path around a box: down its right side and up its left one, narrow between the runs."""
    middle = (left + right) / 2
    edges = [(top + first * LANE + (LANE - BOX) / 2, top + last * LANE + (LANE + BOX) / 2) for first, last in runs]
    down = [f"H {number(right)} V {number(end)} H {number(middle + BRIDGE)} V {number(after)}"
            for (_, end), (after, _) in zip(edges, edges[1:])]
    up = [f"V {number(after)} H {number(middle - BRIDGE)} V {number(end)} H {number(left)}"
          for (_, end), (after, _) in reversed(list(zip(edges, edges[1:])))]
    corners = [f"M {number(left)} {number(edges[0][0])}", *down, f"H {number(right)} V {number(edges[-1][1])}",
               f"H {number(left)}", *up, "Z"]
    return " ".join(corners)


def draw_box(box, column, top, lanes):
    """One event: its outline, the lines that pass through it, and its name on each run of lanes."""
    left, runs = column.left + box.left, runs_of(box.lanes)
    who = ", ".join(lanes[lane].name for lane in box.lanes)
    places = " ".join(map(str, box.lanes))
    yield (f'<g class="event" data-step="{column.step}" data-action="{escape(box.name)}" data-lanes="{places}">'
           f"<title>{escape(box.name)}: {escape(who)}</title>")
    yield tag("path", class_="box", d=outline(runs, left, left + box.width, top))
    for lane in set(range(box.lanes[0], box.lanes[-1])) - set(box.lanes):
        middle, height = left + box.width / 2, top + (lane + 0.5) * LANE
        yield line(middle - BRIDGE, height, middle + BRIDGE, height, "line")
    for first, last in runs:
        yield words(box.label, left + box.width / 2, top + (first + last + 1) * LANE / 2 + 4, "name")
    yield "</g>"


def draw_band(band, top, start, lanes, faulty):
    """The steps of a band, below their numbers; `top` is above these."""
    end = band[-1].left + band[-1].width if band else start + 4 * GAP
    top += HEAD
    for index, lane in enumerate(lanes):
        middle = top + (index + 0.5) * LANE
        yield words(lane.label, start - GAP, middle + 4, "lane")
        yield line(start, middle, end, middle, "line")
    for column in band:
        yield words(str(column.step + 1), column.left + column.width / 2, top - 6, "number")
        yield line(column.left + column.width, top, column.left + column.width, top + len(lanes) * LANE, "border")
        for box in column.boxes:
            yield from draw_box(box, column, top, lanes)
        if column.step == faulty:
            yield tag("rect", class_="faulty", x=column.left + 2, y=top - HEAD + 2, width=column.width - 4,
                      height=len(lanes) * LANE + HEAD - 2)


def draw_part(part, bands, top, start, lanes):
    """A title and its bands, one below another."""
    yield '<g class="part">'
    yield words(part.title, MARGIN, top + TITLE - 12, "title")
    for index, band in enumerate(bands):
        yield from draw_band(band, top + TITLE + index * band_height(lanes), start, lanes, part.faulty)
    yield "</g>"


def band_height(lanes):
    return HEAD + len(lanes) * LANE + MARGIN


def draw(title, lanes, parts):
    """The picture, as text; the lanes are names."""
    labels = labels_of([*lanes, *(name for part in parts for events in part.steps for name, _ in events)])
    lanes = [Lane(name, labels[name]) for name in lanes]
    start = MARGIN + max(drawn_width(lane.label) for lane in lanes) + 2 * GAP
    content, top = [], 0
    right = max(columns_of(told) for told in (title, *(part.title for part in parts))) * CHARACTER + 2 * MARGIN
    for part in parts:
        bands = bands_of(part, start, labels)
        content += draw_part(part, bands, top, start, lanes)
        top += TITLE + len(bands) * band_height(lanes)
        right = max([right] + [column.left + column.width + MARGIN for band in bands for column in band])
    size = {"width": right, "height": float(top + MARGIN)}
    box = f"0 0 {number(size['width'])} {number(size['height'])}"
    head = tag("svg", xmlns="http://www.w3.org/2000/svg", viewBox=box, **size).replace("/>", ">")
    back = tag("rect", width="100%", height="100%", fill="#fff")
    return "\n".join([head, f"<title>{escape(title)}</title>", f"<style>{STYLE}</style>", back, *content, "</svg>", ""])
