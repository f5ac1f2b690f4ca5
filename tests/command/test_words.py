"""Refusals in words: each number against a worked case; and random bytes, where the words must never be missing
(R1 to R12, O4)."""
import os

import common
from oatmist import calls, places, sheet, text, words
from oatmist.mending import PLACES, mending
from oatmist.model import Execution
from test_text import PHILOSOPHERS

with open(os.path.join(common.SHEETS, "pair.sheet"), "rb") as file:
    PAIR_SHEET = file.read()


def over(place, hexadecimal):
    """The pair sheet with these bytes written over it."""
    data = bytes.fromhex(hexadecimal)
    return PAIR_SHEET[:place] + data + PAIR_SHEET[place + len(data):]


def told(system, steps):
    """The words for the refusal that some steps get, with its number and step."""
    execution = Execution(steps)
    try:
        calls.check(sheet.encode(system, execution))
    except calls.Refusal as refusal:
        return refusal.number, refusal.step, words.refused(system, execution, refusal)
    return None


MEND = [  # the number, the words, the bytes
    (1, "The sheet has 25 bytes, but a sheet has 26 to 16,650: is the file cut off, or is it no sheet?", bytes(25)),
    (1, "The sheet has 16,651 bytes, but a sheet has 26 to 16,650: are there too many steps, or is it no sheet?", bytes(16651)),
    (1, "The sheet has 0 bytes, but a sheet has 26 to 16,650: is the file cut off, or is it no sheet?", b""),
    (2, "The sheet ends in 46 54 instead of 46 53: write these two bytes last, and nothing behind them.", over(93, "54")),
    (3, "The sheet tells 0 components, but there are 1 to 16: write their number into the trailer.", over(90, "00")),
    (3, "The sheet tells 0 actions, but there are 1 to 64: write their number into the trailer.", over(91, "00")),
    (3, "The sheet tells 17 components, but there are 1 to 16: split the exercise.", over(90, "11")),
    (3, "The sheet tells 65 actions, but there are 1 to 64: merge actions.", over(91, "41")),
    (3, "The sheet tells 65 actions, but there are 1 to 64: merge actions.", over(90, "0141")),
    (4, "The records are said to start at 1: write 0.", over(84, "01")),
    (4, "The transitions are said to start at 33: write 32, where 2 records end.", over(86, "21")),
    (4, "The steps are said to start at 16, outside 32 to 84: write where the transitions end.", over(88, "10")),
    (4, "There are 19 bytes of transitions, 4 for each: is a byte missing, or one too many?", over(88, "33")),
    (4, "There are 28 bytes of steps, 8 for each: is a byte missing, or one too many?", over(88, "38")),
    (4, "There are 2,049 transitions: keep to 2,048.",
     PAIR_SHEET[:32] + bytes(8196) + (0).to_bytes(2, "little") + (32).to_bytes(2, "little") + (8228).to_bytes(2, "little") + PAIR_SHEET[-4:]),
    (4, "There are 1,025 steps: keep to 1,024.", PAIR_SHEET[:52] + bytes(8200) + PAIR_SHEET[-10:]),
    (5, "Component 0 has 33 states: give it 1 to 32.", over(0, "21")),
    (5, "Component 0 has filler that is not zero: write three zero bytes behind its number of states.", over(1, "01")),
    (5, "Component 0 has no initial state: give it one.", over(4, "00")),
    (5, "Component 0 has the initial state 2: there are only 2, counted from 0.", over(4, "04")),
    (5, "Component 1 has no action: give it one.", over(24, "00")),
    (5, "Component 0 has the action 3: there are only 3, counted from 0.", over(8, "0d")),
    (6, "Action 3 is in no component's alphabet: number the actions without gaps.", over(91, "04")),
    (7, "Transition 0, counted from 0, names component 2: there are only 2, counted from 0.", over(32, "02")),
    (7, "Transition 0, counted from 0, names state 2 of component 0: it has only 2, counted from 0.", over(33, "02")),
    (7, "Transition 0, counted from 0, has the label 1, which is not in the alphabet of component 0: "
        "correct it, or write 255 for an internal move.", over(34, "01")),
    (8, "Transition 1, counted from 0, belongs before the one before it: sort them by their four bytes.", over(32, "0102020000000001")),
    (8, "Transitions 0 and 1, counted from 0, are the same: delete one.", over(32, "0000000100000001")),
    (9, "The execution has 1,025 actions over all steps: shorten it to 1,024.",
     PAIR_SHEET[:52] + b"\xff" * 128 + b"\x01" + bytes(7) + PAIR_SHEET[-10:]),
]


class Sheets(common.Case):
    """R1 to R9: what to mend in the bytes."""

    def test_worked(self):
        self.assertEqual({number for number, *_ in MEND}, set(PLACES))
        for number, due, data in MEND:
            with self.assertRaises(calls.Refusal) as refused:
                calls.check(data)
            self.assertEqual((refused.exception.number, mending(data, number)), (number, due))

    def test_shown(self):
        for number, due, data in MEND[:-1]:
            path = self.write("bad.sheet", data)
            for verb in ("mark", "next"):
                answer = self.call(verb, path)
                self.assertEqual((answer.status, answer.out.replace("\n", " "), answer.told), (1, f"refused ({number}) {path}: {due} ", ""), verb)
            for verb in ("show", "lint", "make"):
                answer = self.call(verb, path, *(["-o", "made"] if verb == "make" else []))
                self.assertEqual(answer, (1, "", f"{path}: no sheet, refused by {number}: {due}\n"), verb)
        self.assertEqual(os.listdir(self.folder), ["bad.sheet"])

    def test_random(self):
        """Whatever was spoilt, there is a sentence for it, and `show` takes what is not refused by 1 to 9."""
        dice, seen = common.dice(53), set()
        for _ in range(4000):
            system = common.random_system(dice)
            data = bytearray(sheet.encode(system, common.random_execution(dice, system)))
            for _ in range(dice.randint(1, 2)):
                place = dice.choice((dice.randrange(len(data)), len(data) - 1 - dice.randrange(10)))
                data[place:place + dice.choice((0, 1, 1, 1, 4))] = bytes(dice.choice((0, 1, dice.randrange(256))) for _ in range(dice.choice((0, 1, 1, 1))))
            data = bytes(data)
            try:
                calls.check(data)
                number = 0
            except calls.Refusal as refusal:
                number = refusal.number
            seen.add(number)
            if 1 <= number <= 9:
                self.assertRegex(mending(data, number), r"^[A-Z].*[.?]$")
            else:
                again = text.read(text.write(*sheet.decode(data)))
                self.assertEqual(sheet.encode(*again), data)
        self.assertEqual(seen, {*range(13)} - {9})


class Steps(common.Case):
    """R9 to R12: the step, in names."""

    def setUp(self):
        super().setUp()
        self.pair, _ = text.read(self.pair_text())
        self.philosophers, _ = text.read(PHILOSOPHERS)

    def pair_text(self):
        with open(common.PAIR, encoding="utf-8") as file:
            return file.read()

    def philosophers_told(self, said):
        return told(self.philosophers, text.read_execution(said, self.philosophers).steps)

    def test_10(self):
        self.assertEqual(told(self.pair, [[0], []]), (10, 1, "Step 2, {}: it has no action: delete it."))
        self.assertEqual(told(self.pair, [[0, 17]]),
                         (10, 0, "Step 1, {produce, 17}: there is no action 17: they are numbered from 0, produce, to 2, deliver."))

    def test_11(self):
        self.assertEqual(told(self.pair, [[0], [0, 2]]), (
            11, 1, "Step 2, {produce, deliver}: produce and deliver share Producer, which does one action in a step: "
                   "put them into different steps."))
        self.assertEqual(self.philosophers_told("{left2, left0, put0}"), (
            11, 0, "Step 1, {left2, left0, put0}: left0 and put0 share Phil0 and Fork0, each of which does one action "
                   "in a step: put them into different steps."))

    def test_12(self):
        self.assertEqual(self.philosophers_told("{left0} {left1} {right0}"),
                         (12, 2, "Step 3, {right0}: right0 is not possible. Fork1 is in taken, where it can do put0 or put1."))
        self.assertEqual(told(self.pair, [[2]]), (
            12, 0, "Step 1, {deliver}: deliver is not possible. Producer is in idle, where it can do produce. "
                   "Consumer is in rest, where it can do start."))
        self.assertEqual(told(self.pair, [[1], [1]]), (
            12, 1, "Step 2, {start}: start is not possible. Consumer may be in warming or open, where it can do deliver."))
        self.assertEqual(told(self.pair, [[0, 1], [0], [2]]), (
            12, 1, "Step 2, {produce}: produce is not possible. Producer is in full, where it can do deliver."))

    def test_12_of_several_actions(self):
        self.assertEqual(self.philosophers_told("{left0} {right0, left2, right3}"), (
            12, 1, "Step 2, {right0, left2, right3}: right3 is not possible. Phil3 is in thinking, where it can do left3."))

    def test_12_without_transition(self):
        system, _ = text.read("component P\n states s\n initial s\n s -b-> s\n also a\ncomponent Q\n states t u\n initial t\n t -a-> u\n u -> t")
        self.assertEqual(told(system, [[1]]), (12, 0, "Step 1, {a}: a is not possible. P has it in its alphabet and no transition for it."))
        system, _ = text.read("component P\n states s t\n initial s\n s -a-> t")
        self.assertEqual(told(system, [[0], [0]]), (12, 1, "Step 2, {a}: a is not possible. P is in t, where it can do nothing."))

    def test_too_many_to_be_told(self):
        """What is left out is counted."""
        system, _ = text.read("component P[i] for i in 0..6\n states s t\n initial s\n s -b[i]-> t\n t -a-> s\n t -c[i]-> s\n also d0")
        for said, due in (("{a}", "P3 is in s, where it can do b3. Other components in its way: 3."),
                          ("{c6, c5, c4, c3, c2, c1}", "P3 is in s, where it can do b3. Other actions that are not possible: 2."),
                          ("{b0, c0, a, d0}", " different steps. Other pairs that share a component: 2.")):
            message = told(system, text.read_execution(said, system).steps)[2]
            self.assertTrue(message.startswith(f"Step 1, {said}: ") and message.endswith(due), message)

    def test_9_of_a_text(self):
        self.assertEqual(told(self.pair, [[0, 1]] * 513), (9, 0, "The execution has 1,026 actions over all steps: shorten it to 1,024."))

    def test_random(self):
        """The words name the actions that are not possible, and no others; a component stands in the way of each."""
        dice, refused = common.dice(12), 0
        for _ in range(1500):
            system = common.random_system(dice)
            execution = common.random_execution(dice, system)
            found = told(system, execution.steps)
            if not found or found[0] < 11:
                continue
            number, index, said = found
            refused += 1
            self.assertTrue(said.startswith(f"Step {index + 1}, {system.step(execution.steps[index])}: "))
            if number == 12:
                sets = places.ends(system, execution.front(index))
                for action in execution.steps[index]:
                    stays = any(action not in component.moves(states) for component, states in zip(system.components, sets)
                                if action in component.alphabet)
                    self.assertEqual(f" {system.actions[action]} is not possible." in said, stays, said)
        self.assertGreater(refused, 500)


class Places(common.Case):
    """E3, E5, A5: where components may be and what is possible come from the desk."""

    def test_possible_is_the_next_step(self):
        dice = common.dice(7)
        for _ in range(300):
            system = common.random_system(dice)
            steps = []
            for _ in range(4):
                sets = places.ends(system, Execution(steps))
                self.assertEqual(places.ends(places.restarted(system, sets), Execution()), sets)
                here = places.possible(system, sets)
                self.assertEqual(here, [action for action in range(len(system.actions)) if not places.refusal_of(system, [*steps, [action]])])
                self.assertEqual(not here, calls.stuck(sheet.encode(system, Execution(steps))))
                if not here:
                    break
                steps.append([dice.choice(here)])

    def test_after_the_last_step_that_a_sheet_holds(self):
        """L5, E3: a sheet has no room for one step more, and yet what is possible is told."""
        system, _ = text.read("component P\n states s\n initial s\n s -a-> s")
        self.assertEqual(places.possible(system, places.ends(system, Execution([[0]] * 1024))), [0])
