"""Each refusal is provoked and leaves what it was lent as it was; bad numbers are told before."""
import array
import unittest
from dataclasses import replace

from support import ALONG_X, ALONG_Y, MACHINE, tape_of
from fullerecru import Host, Planner, Refusal, Refused, Report
from fullerecru import _lent, _library, sizes
import fullerecru

HERE = (0.0, 0.0, 0.0)


class Refusals(unittest.TestCase):
    def refused(self, refusal, call, *arguments, place=0):
        with self.assertRaises(Refused) as caught:
            call(*arguments)
        self.assertIs(caught.exception.refusal, refusal)
        self.assertEqual(caught.exception.place, place)
        at = f" at {place}" if place else ""
        said = f"refused by {refusal.value} ({refusal.word}){at}: {refusal.meaning}"
        self.assertEqual(str(caught.exception), said)

    def test_limits(self):
        for field in vars(MACHINE):
            self.refused(Refusal.LIMITS, Planner.fresh, replace(MACHINE, **{field: 0}))
            self.refused(Refusal.LIMITS, fullerecru.write_limits, replace(MACHINE, **{field: 0}))
        self.refused(Refusal.LIMITS, fullerecru.read_limits, b"\xff" * 24)

    def test_blocks(self):
        faults = [
            (Refusal.STILL, replace(ALONG_X, x=0)),
            (Refusal.LONG, replace(ALONG_X, y=-1_000_001)),
            (Refusal.LONG, replace(ALONG_X, z=-(2**63))),
            (Refusal.FEED, replace(ALONG_X, feed=0)),
            (Refusal.RADIUS, replace(ALONG_X, radius=2**64 - 1)),
            (Refusal.MARK, replace(ALONG_X, mark=2_097_152)),
        ]
        planner = Planner(MACHINE)
        planner.add(ALONG_X)
        before = bytes(planner._memory)
        for refusal, block in faults:
            self.refused(refusal, planner.add, block)
            self.refused(refusal, fullerecru.write_record, block)
        self.assertEqual(bytes(planner._memory), before)

    def test_full_and_empty(self):
        planner = Planner(MACHINE)
        before = bytes(planner._memory)
        self.refused(Refusal.EMPTY, planner.take)
        self.assertEqual(bytes(planner._memory), before)
        for _ in range(sizes.PLACES):
            planner.add(ALONG_X)
        before = bytes(planner._memory)
        self.refused(Refusal.FULL, planner.add, ALONG_X)
        self.assertEqual(bytes(planner._memory), before)
        self.assertEqual((planner.told(), len(planner.shown())), (64, 65))

    def test_ragged(self):
        tape = tape_of(ALONG_X)
        self.refused(Refusal.RAGGED, fullerecru.read_limits, tape[:23])
        self.refused(Refusal.RAGGED, fullerecru.read_record, tape[25:])
        self.refused(Refusal.RAGGED, fullerecru.replay, tape[:25])
        for call in (fullerecru.plan_tape, fullerecru.list_tape, fullerecru.held_by, Report().add):
            self.refused(Refusal.RAGGED, call, tape[:-1])
            self.refused(Refusal.RAGGED, call, b"")

    def test_many(self):
        longest = tape_of(*[ALONG_X] * sizes.MOST_BLOCKS)
        self.assertEqual(len(longest), sizes.MOST_TAPE)
        self.assertEqual(len(fullerecru.list_tape(longest)), sizes.MOST_BLOCKS)
        for call in (fullerecru.plan_tape, fullerecru.list_tape, fullerecru.held_by, Report().add):
            self.refused(Refusal.MANY, call, longest + bytes(16))
        self.refused(Refusal.MANY, fullerecru.write_tape, MACHINE, [ALONG_X] * 2_049)
        lines = "F60\n" + "X1\nX0\n" * 1_025
        self.refused(Refusal.MANY, fullerecru.text, lines, place=2_050)
        report, pair = Report(), tape_of(ALONG_X, ALONG_Y)
        for _ in range(sizes.MOST_TAPES):
            report.add(pair)
        before = bytes(report._numbers)
        self.refused(Refusal.MANY, report.add, pair)
        self.assertEqual((bytes(report._numbers), report.tapes()), (before, 100))

    def test_list(self):
        # the module lends lists of the right size: only the library itself can be lent another
        tape, place = tape_of(ALONG_X, ALONG_Y), _lent.numbers(1)
        for name, right in (("plan_tape", 3), ("list_tape", 26), ("held_by", 1)):
            for count in (right - 1, right + 1):
                lent = _lent.numbers_of([77] * max(1, count))
                answer = _library.function(name)(tape, len(tape), b"", 0, lent, count, place)
                self.assertEqual(answer, Refusal.LIST)
                self.assertEqual(set(lent), {77})
        with self.assertRaises(Refused):
            _lent.accept(answer)

    def test_texts(self):
        self.refused(Refusal.WORD, fullerecru.text, "F60\nM3\n", place=2)
        self.refused(Refusal.NUMBER, fullerecru.text, "X 1", place=1)
        self.refused(Refusal.FEED, fullerecru.text, "X1", place=1)
        self.refused(Refusal.WORD, fullerecru.text, "µ", place=1)

    def test_steps(self):
        rising, few = [50] * 7 + [51], bytes([100] * 7)
        for steps in (rising, few, [0] * 8, [101] * 8):
            self.refused(Refusal.STEPS, Planner.fresh, MACHINE, steps)
            self.refused(Refusal.STEPS, fullerecru.list_tape, tape_of(ALONG_X), steps)

    def test_records_of_a_tape(self):
        spoiled = tape_of(ALONG_X, ALONG_Y) + bytes(16)
        report = Report()
        before = bytes(report._numbers)
        for call in (fullerecru.plan_tape, fullerecru.list_tape, fullerecru.held_by, report.add):
            self.refused(Refusal.STILL, call, spoiled, place=3)
        self.assertEqual(bytes(report._numbers), before)
        blocks = [ALONG_X, replace(ALONG_Y, feed=1_000_001)]
        self.refused(Refusal.FEED, fullerecru.write_tape, MACHINE, blocks, place=2)

    def test_orders(self):
        planner, host = Planner(MACHINE), Host()
        host.feed(planner, (1.0, 0, 0), HERE, 20)
        before = bytes(planner._memory), bytes(host._numbers)
        self.refused(Refusal.NOT_FINITE, host.rapid, planner, (float("nan"), 0, 0), HERE)
        self.refused(Refusal.BEYOND, host.rapid, planner, (0, 2e6, 0), HERE)
        self.refused(Refusal.BEYOND, host.feed, planner, (2.0, 0, 0), HERE, -0.0005)
        self.refused(Refusal.STILL, host.feed, planner, (1.0, 0, 0), HERE, 20)
        self.refused(Refusal.RADIUS, host.curve_chord, planner, (2, 0, 0), HERE, 20, 10_000.001)
        self.assertEqual((bytes(planner._memory), bytes(host._numbers)), before)
        self.assertEqual(host.position(), (1000.0, 0.0, 0.0))


class Numbers(unittest.TestCase):
    """A number that C would cut is told before the call."""

    def test_whole_numbers(self):
        planner = Planner(MACHINE)
        before = bytes(planner._memory)
        for field in ("feed", "radius", "mark"):
            for value in (-1, 2**64):
                with self.assertRaisesRegex(OverflowError, field):
                    planner.add(replace(ALONG_X, **{field: value}))
        for field in ("x", "y", "z"):
            for value in (-(2**63) - 1, 2**63):
                with self.assertRaisesRegex(OverflowError, field):
                    planner.add(replace(ALONG_X, **{field: value}))
            for value in (1.0, "1", None):
                with self.assertRaisesRegex(TypeError, field):
                    planner.add(replace(ALONG_X, **{field: value}))
        self.assertEqual(bytes(planner._memory), before)

    def test_limits(self):
        for field in vars(MACHINE):
            with self.assertRaisesRegex(OverflowError, field):
                fullerecru.write_limits(replace(MACHINE, **{field: -1}))
            with self.assertRaisesRegex(TypeError, field):
                Planner(replace(MACHINE, **{field: 1.5}))

    def test_steps(self):
        with self.assertRaisesRegex(OverflowError, "torque step 7"):
            Planner(MACHINE, [100] * 7 + [256])
        with self.assertRaisesRegex(TypeError, "torque step 0"):
            Planner(MACHINE, [0.5] * 8)
        self.assertEqual(Planner(MACHINE, range(50, 42, -1)).told(), 0)
        for steps in ("eight", 8, None):
            with self.assertRaisesRegex(TypeError, "steps"):
                Planner(MACHINE, steps)

    def test_bytes(self):
        for wrong in ("text", 24, None, [1, 2], array.array("I", [1, 2])):
            with self.assertRaises(TypeError):
                fullerecru.plan_tape(wrong)
        with self.assertRaises(TypeError):
            fullerecru.text(7)

    def test_doubles(self):
        planner, host = Planner(MACHINE), Host()
        with self.assertRaisesRegex(ValueError, "offset"):
            host.rapid(planner, HERE, (0.0, 0.0))
        with self.assertRaisesRegex(TypeError, "target Y"):
            host.rapid(planner, (0.0, "1", 0.0), HERE)
        for value in (2**53 + 1, 10**400):
            with self.assertRaises(OverflowError):
                host.feed(planner, HERE, HERE, value)
        self.assertEqual(planner.told(), 0)


if __name__ == "__main__":
    unittest.main()
