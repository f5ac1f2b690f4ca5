"""The concurrency figure of the proved calls against exact fractions (A4, P3): `round` of a fraction takes the nearest whole number, and
the even one of two that are equally near."""
from fractions import Fraction

import common
from oatmist import calls
from oatmist.model import DESK, Component, System
from oatmist.sheet import STEP, Form

WIDEST = DESK.components  # actions of a step at most, since no two of them share a component
STEPS = [((1 << count) - 1).to_bytes(STEP, "little") for count in range(WIDEST + 2)]  # the step of so many actions, from 0 on


def loops():
    """As many components as there may be, of one state; component j has the one action j, a loop."""
    components = [Component(f"c{j}", ["here"], {0}, {j}, {(0, j, 0)}) for j in range(WIDEST)]
    return Form(System([f"a{j}" for j in range(WIDEST)], components))


FORM = loops()


def sheet(actions, steps):
    """So many actions in so many steps, the fuller ones last. Action 0 is in every step, so that there are as many restated steps."""
    each, more = divmod(actions, steps)
    return FORM.front + STEPS[each] * (steps - more) + STEPS[each + 1] * more + FORM.trailer


def restated(actions, steps):
    """The same with the fuller steps first: no action can be moved to an earlier step."""
    each, more = divmod(actions, steps)
    return FORM.front + STEPS[each + 1] * more + STEPS[each] * (steps - more) + FORM.trailer


def every_sheet():
    """All numbers of actions and of restated steps that a sheet can have. The library cannot be asked about more than sixteen actions for
    each step, since no sheet has them; tests/second/selfcheck.rs asks the second implementation about these too."""
    for steps in range(1, DESK.steps + 1):
        for actions in range(steps, min(WIDEST * steps, DESK.events) + 1):
            yield actions, steps


def due(actions, steps):
    """The figure, by fractions."""
    return round(Fraction(10 * actions, steps))


def is_half(actions, steps):
    """Whether the quotient is a whole number and a half."""
    return 20 * actions % steps == 0 and 20 * actions // steps % 2 == 1


class Figures(common.Case):
    """A4: every number of actions and of restated steps."""

    def test_every_figure(self):
        for given in every_sheet():
            self.assertEqual(calls.figure(sheet(*given)), due(*given), given)

    def test_the_sheets(self):
        """What is asked has as many restated steps as is said: it is restated with the fuller steps first."""
        for given in every_sheet():
            self.assertEqual(calls.restate(sheet(*given)), restated(*given), given)

    def test_printed_halves(self):
        """P3, P4: where the quotient is an exact half: K, C, F and D, and as many actions in the lines of steps."""
        down = up = 0
        for actions, steps in every_sheet():
            if not is_half(actions, steps):
                continue
            first, *lines = calls.report(sheet(actions, steps)).splitlines()
            figure = due(actions, steps)
            self.assertEqual(first, f"accepted {steps} {steps} {figure} 0", actions)
            self.assertEqual(sum(line.count(" ") for line in lines[:steps]), actions, steps)
            down, up = down + (figure * steps < 10 * actions), up + (figure * steps > 10 * actions)
        self.assertGreater(min(down, up), 1000)
