"""picture and graph: well-formed, and every event, state and transition in its place (N8, Q1)."""
import os
import re
import shutil
import xml.etree.ElementTree as xml
from collections import Counter
from unittest import mock

import common
from common import PAIR, SHEETS
from oatmist import calls, graphs, pictures, sheet, text
from oatmist.model import INTERNAL, Component, System
from oatmist.verbs import picture
from oatmist.widths import columns_of

SVG = "{http://www.w3.org/2000/svg}"


class Event:
    """An event as it is drawn."""

    def __init__(self, element):
        self.step, self.action = int(element.get("data-step")), element.get("data-action")
        self.lanes = [int(lane) for lane in element.get("data-lanes").split()]
        self.corners = corners(element.find(SVG + "path").get("d"))
        self.names = [(name.text, float(name.get("x")), float(name.get("y"))) for name in element.findall(SVG + "text")]
        self.left, self.right = min(x for x, _ in self.corners), max(x for x, _ in self.corners)

    def widths(self, height):
        """How wide the outline is at this height."""
        sides = [x for (x, y), (_, other) in zip(self.corners, self.corners[1:] + self.corners[:1]) if min(y, other) < height < max(y, other)]
        return max(sides) - min(sides) if sides else 0


def corners(path):
    """The corners of a path of straight lines."""
    found, (x, y) = [], (0.0, 0.0)
    for kind, numbers in re.findall(r"([MHVZ])([ \d.]*)", path):
        values = [float(number) for number in numbers.split()]
        x, y = {"M": lambda: values, "H": lambda: [values[0], y], "V": lambda: [x, values[0]], "Z": lambda: found[0]}[kind]()
        found.append((x, y))
    return found[:-1]


class Band:
    """A band of a part: the heights of its lanes."""

    def __init__(self, heights):
        self.heights = heights

    def holds(self, event):
        return min(self.heights) - pictures.LANE < min(y for _, y in event.corners) < max(self.heights)


def parts(drawing):
    """For each part its bands and its events."""
    for part in drawing.findall(f"{SVG}g[@class='part']"):
        heights = [float(lane.get("y")) - 4 for lane in part.findall(f"{SVG}text[@class='lane']")]
        names = [lane.text for lane in part.findall(f"{SVG}text[@class='lane']")]
        count = len(set(names))
        yield [Band(heights[place:place + count]) for place in range(0, len(heights), count)], [
            Event(element) for element in part.findall(f"{SVG}g[@class='event']")]


class Pictures(common.Case):
    """N2, N8: the picture verb, and what it draws."""

    def drawn(self, system, *steps, faulty=None):
        """Some executions drawn, read back."""
        told = [pictures.Part("part", [picture.events(system, step) for step in part], faulty) for part in steps]
        return xml.fromstring(pictures.draw("title", [component.name for component in system.components], told))

    def check(self, system, drawing, *executions):
        """Every event of the executions has its box, on its lanes alone, in its step's column."""
        found = list(parts(drawing))
        self.assertEqual(len(found), len(executions))
        for (bands, events), steps in zip(found, executions):
            expected = Counter((index, system.actions[action], tuple(picture.lanes(system, action)))
                               for index, step in enumerate(steps) for action in step)
            self.assertEqual(Counter((event.step, event.action, tuple(event.lanes)) for event in events), expected)
            for event in events:
                self.check_lanes(event, bands)
            self.check_columns(events, bands, float(drawing.get("width")))

    def check_lanes(self, event, bands):
        """The box is wide on the lanes that take part, a bridge between them, and not there elsewhere."""
        band, = (band for band in bands if band.holds(event))
        for lane, height in enumerate(band.heights):
            inside = min(event.lanes) < lane < max(event.lanes)
            width = event.right - event.left if lane in event.lanes else 2 * pictures.BRIDGE if inside else 0
            self.assertAlmostEqual(event.widths(height), width, 0, (event.action, lane))
        for name, x, y in event.names:
            self.assertEqual(name, pictures.short(event.action))
            self.assertTrue(event.left < x < event.right)
            self.assertLessEqual(pictures.drawn_width(name), event.right - event.left)
        self.assertEqual(len(event.names), sum(lane - 1 not in event.lanes for lane in event.lanes))

    def check_columns(self, events, bands, width):
        """Later steps stand to the right or in a later band; no box lies on another; none leaves the picture."""
        places = []
        for event in events:
            self.assertTrue(0 < event.left < event.right < width)
            band = next(index for index, band in enumerate(bands) if band.holds(event))
            places.append((event.step, band, event.left, event.right, min(event.lanes), max(event.lanes)))
        for one, other in zip(sorted(places), sorted(places)[1:]):
            if one[0] < other[0]:
                self.assertTrue(one[1] < other[1] or one[1] == other[1] and one[3] < other[2], (one, other))
        by_step = {}
        for place in places:
            for other in by_step.setdefault(place[0], []):
                apart = place[3] < other[2] or other[3] < place[2] or place[5] < other[4] or other[5] < place[4]
                self.assertTrue(apart, (place, other))
            by_step[place[0]].append(place)

    def test_random_systems(self):
        dice = common.dice(3)
        for _ in range(150):
            system = common.random_system(dice, components=8, actions=9)
            execution, other = common.random_execution(dice, system, 30), common.random_execution(dice, system)
            self.check(system, self.drawn(system, execution.steps, other.steps), execution.steps, other.steps)

    def test_the_largest(self):
        system = System([f"action{number}" for number in range(64)], [Component(f"c{j}", ["s"], {0}, {j}, {(0, j, 0)}) for j in range(16)])
        for action in range(16, 64):
            for component in system.components[action % 5::action % 4 + 1]:
                component.alphabet.add(action)
        single, full = [[step % 64] for step in range(1024)], [list(range(16))] * 64
        drawing = self.drawn(system, single, full)
        self.check(system, drawing, single, full)
        self.assertLess(float(drawing.get("width")), 2 * pictures.WIDTH)

    def test_the_verb(self):
        for name in ("philosophers", "peterson", "bit", "buffer", "pair-none", "most-actions"):
            path = os.path.join(SHEETS, name + ".txt")
            self.assertEqual(self.call("picture", path, "-o", "drawn.svg"), (0, "", ""))
            with open(path, encoding="utf-8") as file:
                system, execution = text.read(file.read())
            restated = sheet.read_execution(calls.restate(sheet.encode(system, execution)))
            drawing = xml.fromstring(self.read("drawn.svg"))
            self.check(system, drawing, execution.steps, restated.steps)
            titles = [title.text for title in drawing.iter(SVG + "text") if title.get("class") == "title"]
            self.assertEqual([title.split(":")[0] for title in titles], ["as given", "restated"])
            self.assertEqual(self.call("picture", path).out.encode(), self.read("drawn.svg"))

    def test_refused(self):
        path = os.path.join(SHEETS, "philosophers-mistake.txt")
        answer = self.call("picture", path, "-o", "drawn.svg")
        self.assertEqual((answer.status, answer.out), (1, ""))
        self.assertTrue(answer.told.startswith("refused (12)\nStep 8, {1.right}: 1.right is not possible."))
        drawing = xml.fromstring(self.read("drawn.svg"))
        frame, = (rect for rect in drawing.iter(SVG + "rect") if rect.get("class") == "faulty")
        left, right = float(frame.get("x")), float(frame.get("x")) + float(frame.get("width"))
        (_, events), = parts(drawing)
        self.assertEqual([event.step for event in events if left < event.left < right], [7])
        self.assertIn("as given: 9 steps, refused by 12 at step 8", self.read("drawn.svg").decode())

    def test_bad_steps(self):
        for steps, number in (("raw 0x0", 10), ("raw 0x10", 10), ("{produce, deliver}", 11)):
            self.write("steps.txt", steps)
            answer = self.call("picture", PAIR, "steps.txt", "-o", "drawn.svg")
            self.assertEqual((answer.status, answer.told[:12]), (1, f"refused ({number})"))
            xml.fromstring(self.read("drawn.svg"))

    def test_names(self):
        long = "a" * 50 + "'é漢"
        self.write("system.txt", f"component {long}\n states s\n initial s\n s -{long}-> s\n s -d'x-> s")
        self.write("steps.txt", f"{{{long}}} {{d'x}}")
        self.assertEqual(self.call("picture", "system.txt", "steps.txt", "-o", "drawn.svg").status, 0)
        drawing = xml.fromstring(self.read("drawn.svg"))
        (_, events), _ = parts(drawing)
        self.assertEqual([event.action for event in events], [long, "d'x"])
        self.assertEqual(events[0].names[0][0], pictures.short(long))
        self.assertLessEqual(columns_of(pictures.short(long)), pictures.LONGEST)

    def test_names_that_differ_in_the_middle(self):
        """No two names look the same, however long they are."""
        names = ["abcdefghijklmno" + middle + "defghijklmnopqr" for middle in ("x", "y", "xx", "漢")] + ["P" * 30, "P" * 31, "short"]
        for count in range(1, len(names) + 1):
            self.assertEqual(len(set(pictures.labels_of(names[:count]).values())), count)
        part = pictures.Part("part", [[(name, [lane])] for lane, name in enumerate(names)])
        drawing = xml.fromstring(pictures.draw("title", names, [part]))
        for kind in ("name", "lane"):
            drawn = {name.text for name in drawing.iter(SVG + "text") if name.get("class") == kind}
            self.assertEqual(len(drawn), len(names), kind)
        self.assertIn("short", drawn)

    def test_some_steps(self):
        self.write("steps.txt", "{start} {produce} {deliver} {produce} {start}")
        for chosen, given, restated, told in (
                (("--from", "2", "--to", "4"), {1, 2, 3}, {1, 2}, ["as given: 5 steps, 2 to 4 drawn", "restated: 3 steps, 2 to 3 drawn"]),
                (("--from", "4"), {3, 4}, set(), ["as given: 5 steps, 4 to 5 drawn", "restated: 3 steps, none drawn"]),
                (("--to", "3"), {0, 1, 2}, {0, 1, 2}, ["as given: 5 steps, 1 to 3 drawn", "restated: 3 steps"])):
            self.assertEqual(self.call("picture", PAIR, "steps.txt", "-o", "drawn.svg", *chosen), (0, "", ""))
            drawing = xml.fromstring(self.read("drawn.svg"))
            self.assertEqual([{event.step for event in events} for _, events in parts(drawing)], [given, restated])
            self.assertEqual([title.text for title in drawing.iter(SVG + "text") if title.get("class") == "title"], told)
            self.assertEqual({int(number.text) - 1 for number in drawing.iter(SVG + "text") if number.get("class") == "number"}, given | restated)
        for chosen in (("--from", "3", "--to", "2"), ("--from", "0"), ("--to", "x"), ("--from", "6")):
            self.assertEqual(self.call("picture", PAIR, "steps.txt", *chosen).status, 2)
        self.write("none.txt", "steps")
        self.assertEqual(self.call("picture", PAIR, "none.txt", "--from", "1", "-o", "drawn.svg").status, 0)
        self.assertIn("32,767", self.call("picture", "--help").out)

    def test_markup_in_names_and_files(self):
        part = pictures.Part("<&>", [[("<a&\"b'>", [0])]])
        drawing = xml.fromstring(pictures.draw("<&>", ["<lane>"], [part]))
        (_, event), = ((bands, events[0]) for bands, events in parts(drawing))
        self.assertEqual((event.action, event.names[0][0]), ("<a&\"b'>", "<a&\"b'>"))

    def test_names_of_files(self):
        name = "\x1b\n<&\udcff.txt"
        with open(PAIR, "rb") as file:
            self.write(name, file.read())
        self.assertEqual(self.call("picture", name, "-o", name + ".svg"), (0, "", ""))
        self.assertEqual(xml.fromstring(self.read(name + ".svg")).find(SVG + "title").text, "<U+001B><U+000A><&<U+DCFF>.txt")

    def test_what_cannot_be_done(self):
        before = self.write("system.txt", "component P")
        with open(PAIR, "rb") as file:
            self.write("pair.svg", file.read())
        for words, told in (((PAIR, "nowhere"), "nowhere: there is no such file\n"), ((before,), "has no state"), ((), "SYSTEM"),
                            ((PAIR, "-o", "nowhere/x.svg"), "nowhere/x.svg"), (("pair.svg", "-o", "pair.svg"), "this file is read"),
                            ((PAIR, "-o", "drawn.png"), "name a file that ends in .svg")):
            answer = self.call("picture", *words)
            self.assertEqual((answer.status, answer.out), (2, ""), words)
            self.assertIn(told, answer.told)


class Graphs(common.Case):
    """Q1, S3, S4: the graph verb."""

    def read_back(self, told, system):
        """The states, initial states and transitions of a text for Graphviz, by its own names."""
        states = {(int(j), int(state)): name for j, state, name in re.findall(r'^ +s(\d+)_(\d+) \[label="(.*)"\]$', told, re.M)}
        initial = {(int(j), int(state)) for j, state in re.findall(r"^ +i\d+_\d+ -> s(\d+)_(\d+)$", told, re.M)}
        moves = set()
        for j, source, target, what in re.findall(r"^ +s(\d+)_(\d+) -> s\d+_(\d+) \[(.*)\]$", told, re.M):
            labels = [INTERNAL] if what == "style=dashed" else [
                system.actions.index(name) for name in re.split(r",(?:\\n|\s)", what.partition('"')[2].rstrip('"').strip())]
            moves |= {(int(j), int(source), label, int(target)) for label in labels}
        return states, initial, moves

    def test_random_systems(self):
        dice = common.dice(9)
        for _ in range(100):
            system = common.random_system(dice, transitions=20)
            states, initial, moves = self.read_back(graphs.dot(system), system)
            parts = list(enumerate(system.components))
            self.assertEqual(states, {(j, state): name for j, part in parts for state, name in enumerate(part.states)})
            self.assertEqual(initial, {(j, state) for j, part in parts for state in part.initial})
            self.assertEqual(moves, {(j, *move) for j, part in parts for move in part.transitions})

    def test_names_are_quoted(self):
        system = System(['a"\\'], [Component('P"\\', ['s"\\'], {0}, {0}, set())])
        self.assertIn('label="P\\"\\\\\\nnever: a\\"\\\\"', graphs.dot(system))
        self.assertIn('[label="s\\"\\\\"]', graphs.dot(system))

    def test_too_many_arrows_are_a_list(self):
        every = {(source, 0, target) for source in range(32) for target in range(32)}
        system = System(["a"], [Component("P", [f"s{state}" for state in range(32)], {0}, {0}, every | {(0, INTERNAL, 1)})])
        told = graphs.dot(system)
        self.assertNotIn("->", told)
        self.assertEqual(told.count("→"), 33)
        self.assertIn("internal", told)
        for count, lists in ((70, 0), (71, 1)):
            system.components[0].transitions = set(sorted(every)[:count])
            self.assertEqual(graphs.dot(system).count("shape=plain"), lists)

    def test_the_verb(self):
        with open(PAIR, encoding="utf-8") as file:
            system, _ = text.read(file.read())
        self.assertEqual(self.call("graph", PAIR), (0, graphs.dot(system), ""))
        self.assertEqual(self.call("graph", PAIR, "-o", "pair.dot"), (0, "", ""))
        self.assertEqual(self.read("pair.dot").decode(), graphs.dot(system))

    def test_what_cannot_be_done(self):
        for words, told in ((("nowhere",), "nowhere: there is no such file\n"), ((PAIR, "-o", "x.pdf"), "x.pdf: name a file that ends in .svg or .dot\n"),
                            ((PAIR, "-o", "nowhere/x.dot"), "nowhere/x.dot: "), ((), "SYSTEM")):
            answer = self.call("graph", *words)
            self.assertEqual((answer.status, answer.out), (2, ""), words)
            self.assertIn(told, answer.told)

    def with_dot(self, script):
        """What the command tells where Graphviz is this script; None for no Graphviz."""
        os.makedirs("programs", exist_ok=True)
        if script:
            path = self.write("programs/dot", f"#!/bin/sh\n{script}\n")
            os.chmod(path, 0o755)
        with mock.patch.dict(os.environ, PATH=os.path.join(self.folder, "programs") + (":/usr/bin:/bin" if script else "")):
            return self.call("graph", PAIR, "-o", "pair.svg")

    def test_graphviz_missing_or_failing(self):
        self.assertIn("is not installed", self.with_dot(None).told)
        self.assertIn("made no drawing: oh", self.with_dot("echo oh >&2; exit 1").told)
        self.assertIn("made no drawing", self.with_dot("cat").told)
        with mock.patch.object(graphs, "SECONDS", 0.2):
            self.assertIn("took more than", self.with_dot("exec sleep 5").told)
        self.assertFalse(os.path.exists("pair.svg"))

    def test_drawings_are_put_below_each_other(self):
        drawing = '<svg width="30pt" height="20pt" viewBox="0 0 30 20" xmlns="http://www.w3.org/2000/svg"><g id="g"/></svg>'
        self.assertEqual(self.with_dot(f"cat >/dev/null; echo '{drawing}'"), (0, "", ""))
        whole = xml.fromstring(self.read("pair.svg"))
        self.assertEqual((whole.get("width"), whole.get("height")), ("30pt", "40pt"))
        self.assertEqual([part.get("y") for part in whole], ["0", "20"])

    def test_graphviz(self):
        answer = self.call("graph", PAIR, "-o", "pair.svg")
        if shutil.which("dot") is None:
            self.assertIn("is not installed", answer.told)
            return
        self.assertEqual(answer, (0, "", ""))
        names = {name.text.strip() for name in xml.fromstring(self.read("pair.svg")).iter(SVG + "text")}
        self.assertEqual(names, {"Producer", "idle", "full", "produce", "deliver", "Consumer", "rest", "warming", "open", "start"})
