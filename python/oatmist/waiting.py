"""Why no execution has some columns, in words: how far one gets, and who waits for whom. That the columns are refused is the desk's word;
here the reason for it is looked up.

As far as one gets, an action is done once it comes next in the column of each component that has it, and is possible there: whether it is,
and where the components are then, the desk says. Whoever is left stands before an action that it cannot do itself, or waits for another.

    found = Found(system, columns)
    found.sentence()     # With these columns nobody can begin. A waits for B to do a and B waits for A to do b: ..
    found.table()        # a line for each component
"""
from . import calls, words
from .faults import fitting
from .model import Execution
from .sheet import Form


def times(count):
    """How often, in words."""
    return {0: "not", 1: "once", 2: "twice"}.get(count, f"{count:,} times")


def shortest_circle(successors, start):
    """A shortest way through a graph from a node back to it, without the end; none where there is none."""
    ways, seen = [[start]], set()
    for way in ways:
        for node in successors.get(way[-1], ()):
            if node == start:
                return way
            if node not in seen:
                seen.add(node)
                ways.append([*way, node])
    return []


class Found:
    """How far one gets with some columns. Components are called by their numbers here."""

    def __init__(self, system, columns):
        self.system, self.columns, self.form = system, columns, Form(system)
        self.ends = [len(actions) for actions in columns.lists]  # how far each column can be followed, as far as is known
        while True:
            self.done, self.places = self.followed()
            try:
                self.sets = calls.end_sets(self.sheet())
                break
            except calls.Refusal as refusal:
                self.stop(refusal.step)
        self.waiting = [j for j, place in enumerate(self.places) if place < len(columns.lists[j])]

    def sheet(self):
        """The sheet of what is done, an action in each step."""
        return self.form.sheet(Execution([[action] for action in self.done]))

    def takers(self, action):
        """The components that have an action."""
        return [j for j, alphabet in enumerate(self.system.alphabets) if action in alphabet]

    def followed(self):
        """The actions that come next in all their columns, one after another, and the places in the columns behind them."""
        done, places, ready = [], [0] * len(self.ends), list(range(len(self.ends)))
        while ready:
            j = ready.pop()
            action = self.columns.lists[j][places[j]] if places[j] < self.ends[j] else None
            takers = [] if action is None else self.takers(action)
            if takers and all(places[k] < self.ends[k] and self.columns.lists[k][places[k]] == action for k in takers):
                done.append(action)
                ready += takers
                for k in takers:
                    places[k] += 1
        return done, places

    def stop(self, index):
        """No component comes behind this action of those that are done: the desk says that it is not possible."""
        for j in self.takers(self.done[index]):
            self.ends[j] = sum(action in self.system.components[j].alphabet for action in self.done[:index])

    # ---- who waits for whom

    def next(self, j):
        """The action that comes next in a column; None behind its end."""
        return self.columns.lists[j][self.places[j]] if j in self.waiting else None

    def hindrance(self, j):
        """Why a component cannot do what comes next in its column; None where it can."""
        return words.hindrance(self.system, self.system.components[j], self.sets[j], self.next(j))

    def awaited(self, j):
        """The others that do not do what comes next in the column of a component: they are elsewhere, or cannot do it."""
        action = self.next(j)
        return [k for k in self.takers(action) if k != j and (self.next(k) != action or self.hindrance(k))]

    def lacking(self, j):
        """Those of them whose columns do not have the action any more."""
        return [k for k in self.awaited(j) if self.next(j) not in self.columns.lists[k][self.places[k]:]]

    def blockers(self, j):
        """Those of them that have yet to come to it. A component that cannot do what comes next waits for nobody."""
        lacking = self.lacking(j)
        return [] if self.hindrance(j) else [k for k in self.awaited(j) if k not in lacking]

    def circles(self):
        """For each component that waits for itself by way of others a shortest circle, each once and the shortest first: every one waits for
        the next, and the last for the first."""
        blockers, found = {j: self.blockers(j) for j in self.waiting}, {}
        for j in self.waiting:
            circle = shortest_circle(blockers, j)
            found.setdefault(frozenset(circle), circle)
        return sorted(filter(None, found.values()), key=len)

    # ---- in words

    def name(self, j):
        return self.system.components[j].name

    def names(self, many):
        return fitting(map(self.name, many), 200)

    def count(self, j, action):
        """How often an action stands in a column, in words."""
        return times(self.columns.lists[j].count(action))

    def waits(self, j, many):
        """A waits for B to do a"""
        return f"{self.name(j)} waits for {self.names(many)} to do {self.system.actions[self.next(j)]}"

    def reasons(self):
        """The reasons, each with the component that it is about: an action that is not possible, one that stands more often in one column
        than in another, a circle."""
        for j in self.waiting:
            if self.hindrance(j):
                yield j, (f"Place {self.places[j] + 1:,} of the column of {self.name(j)}, {self.system.actions[self.next(j)]}: "
                          f"{self.hindrance(j)}")
        for j in self.first_of_each_action(filter(self.lacking, self.waiting)):
            yield j, self.more_often(j, self.lacking(j))
        for circle in self.circles():
            told = [self.waits(j, [k]) for j, k in zip(circle, circle[1:] + circle[:1])]
            yield circle[0], f"{fitting(told, 800)}: they wait for each other in a circle."

    def more_often(self, j, many):
        """The action that comes next in a column stands there more often than in those of others. Who cannot do it does not wait for them."""
        action = self.next(j)
        told = self.system.actions[action] if self.hindrance(j) else f"{self.waits(j, many)}, which"
        return (f"{told} stands {self.count(j, action)} in the column of {self.name(j)} and {self.count(many[0], action)} in "
                f"{'that' if len(many) == 1 else 'those'} of {self.names(many)}.")

    def first_of_each_action(self, many):
        """Of components that have the same action next the first."""
        chosen = {}
        for j in many:
            chosen.setdefault(self.next(j), j)
        return chosen.values()

    def sentence(self):
        """How far one gets, and the reasons."""
        count = len(self.done)
        told = [sentence for _, sentence in self.reasons()]
        far = f"go on after {words.plural(count, 'action')}" if count else "begin"
        return " ".join([f"With these columns nobody can {far}.", *told[:words.MOST], *words.left_out(told, "Other reasons")])

    def line(self):
        """The line of the first column that a reason is about; 0 where it is not known."""
        first, _ = next(self.reasons(), (0, ""))
        return self.columns.lines[first] if self.columns.lines else 0

    def state(self, j):
        """How far a component is in its column, and what holds it up."""
        told = f"{self.places[j]:,} of {len(self.columns.lists[j]):,} done"
        if j not in self.waiting:
            return told
        if self.hindrance(j):
            return f"{told}, cannot do {self.system.actions[self.next(j)]}"
        return f"{told}, {self.waits(j, self.awaited(j)).partition(' ')[2]}"

    def table(self):
        """A line for each component: how far it is in its column, and for whom it waits."""
        yield "as far as one gets\n"
        yield from words.by_component(self.system, map(self.state, range(len(self.ends))))
