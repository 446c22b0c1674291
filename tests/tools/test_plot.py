"""`plot`: how long a tape takes, and its picture."""
import math
import os
import re
import resource
import unittest
from xml.etree import ElementTree

from support import MACHINE, POCKET, ROOT, TAPES, InFolder, command
import fullerecru
from fullerecru import Block, HeldBy
from fullerecru_command import picture, ramps

RIGHT_ANGLE = ROOT / "examples" / "tapes" / "right-angle.tape"
WHAT_HELD = ROOT / "examples" / "tapes" / "what-held.tape"
STEPS = ROOT / "examples" / "steps" / "soft-motors.steps"
LIMITS = fullerecru.Limits(*[200_000] * 3, *[1_000_000] * 3, 2_000, 1, 2_000)


def tape_of(*blocks):
    return fullerecru.write_tape(LIMITS, blocks)


class Ramps(unittest.TestCase):
    """The kinematics, with no picture drawn."""

    def test_pair_by_hand(self):
        # docs/RULES.md, section 8, example 3: each block between rest and sqrt(2,000,000) with the
        # peak sqrt(201,000,000) and 200,000 µm/s², up 502.5 µm and down 497.5 µm, no cruise
        run = ramps.run_of(RIGHT_ANGLE.read_bytes())
        peak, corner = math.sqrt(201e6), math.sqrt(2e6)
        self.assertAlmostEqual(run.time, 2 * (peak + peak - corner) / 200_000, places=12)
        self.assertEqual(run.length, 2_000)
        first, second, *_ = run.phases
        self.assertAlmostEqual(first.end, 502.5)
        self.assertAlmostEqual(second.end, 1_000)
        self.assertEqual((first.accel, second.accel), (200_000, -200_000))

    def test_cruise_by_hand(self):
        # 10,000 µm from rest to rest at 20,000 µm/s and 200,000 µm/s²: 0.1 s and 1,000 µm for each
        # ramp, and 8,000 µm at 20,000 µm/s
        run = ramps.run_of(tape_of(Block(10_000, 0, 0, 20_000)))
        self.assertAlmostEqual(run.time, 0.1 + 0.4 + 0.1, places=12)
        self.assertEqual([phase.cause for phase in run.phases], [None, HeldBy.FEED, None])

    def test_phases_join(self):
        for path in TAPES:
            for steps in (b"", STEPS.read_bytes()):
                run = ramps.run_of(path.read_bytes(), steps)
                self.assertAlmostEqual(run.phases[-1].end, run.length, places=3)
                for one, after in zip(run.phases, run.phases[1:]):
                    self.assertEqual((one.end_time, one.end), (after.begin_time, after.begin))
                    self.assertEqual(one.end_speed, after.begin_speed)
                for one in run.phases:
                    gone = (one.begin_speed + one.end_speed) / 2 * (one.end_time - one.begin_time)
                    self.assertAlmostEqual(one.end - one.begin, gone, places=3)

    def test_axes_keep_their_limits(self):
        for path in TAPES:
            limits = fullerecru.read_limits(path.read_bytes())
            run = ramps.run_of(path.read_bytes())
            for phase in run.phases:
                given = run.rows[phase.block].given
                for axis in "xyz":
                    part = abs(getattr(given.block, axis)) / given.length
                    fastest = max(phase.begin_speed, phase.end_speed) * part
                    self.assertLessEqual(fastest, getattr(limits, f"speed_{axis}") * (1 + 1e-9))
                    most = abs(phase.accel) * part
                    self.assertLessEqual(most, getattr(limits, f"accel_{axis}") * (1 + 1e-9))

    def test_causes(self):
        # docs/RULES.md, section 8, example 8: feed, corner, three times chord, reach
        run = ramps.run_of(WHAT_HELD.read_bytes())
        held = [phase.cause for phase in run.phases]
        runs = [cause for k, cause in enumerate(held) if k == 0 or held[k - 1] is not cause]
        expected = [None, HeldBy.FEED, HeldBy.CORNER, HeldBy.CHORD, HeldBy.REACH, None]
        self.assertEqual(runs, expected)

    def test_chord_or_feed_at_the_peak(self):
        # radius 1 caps at 1,000 µm/s; radius 1,000 allows more than the feed (RULES, example 4)
        for radius, cause in ((1, HeldBy.CHORD), (1_000, HeldBy.FEED), (0, HeldBy.FEED)):
            run = ramps.run_of(tape_of(Block(10_000, 0, 0, 20_000, radius)))
            self.assertEqual(run.phases[1].cause, cause)


class Summaries(unittest.TestCase):
    def test_shares(self):
        for path in TAPES:
            figures = fullerecru.Report().add(path.read_bytes())
            said = picture.summary(ramps.run_of(path.read_bytes()))
            junctions = figures.blocks - 1
            for cause in HeldBy:
                share = 100 * getattr(figures, cause.word) / junctions
                self.assertIn(f"{cause.word} {share:.1f} %", said)
            self.assertIn(f"{figures.blocks} blocks, {figures.length / 1000:.3f} mm in ", said)

    def test_one_block(self):
        said = picture.summary(ramps.run_of(tape_of(Block(10_000, 0, 0, 20_000))))
        self.assertEqual(said, "1 block, 10.000 mm in 0.600 s; no inner junction")


class Drawn(InFolder):
    """Pictures, where some Python 3 has matplotlib."""

    def drawn(self, tape, out, *words):
        out = self.folder / out
        status, shown, said = command("plot", tape, "-o", out, *words)
        if status == 1 and "python3-matplotlib" in said:
            self.skipTest("no Python 3 here has matplotlib (package python3-matplotlib)")
        self.assertEqual((status, shown, said), (0, b"", ""))
        self.assertEqual(os.listdir(self.folder).count(out.name), 1)
        return out.read_bytes()

    def test_svg(self):
        svg = self.drawn(WHAT_HELD, "plan.svg").decode()
        self.assertIn(">what-held.tape<", svg)
        # planreport's figures of the tape: 1 feed, 1 corner, 3 chord, 1 reach of 6 inner junctions
        shares = "feed 16.7 %, corner 16.7 %, chord 50.0 %, reach 16.7 %"
        begin = r">7 blocks, 3\.210 mm in 0\.\d+ s; of 6 inner junctions held by "
        self.assertRegex(svg, begin + shares + "<")
        self.assertTrue(ElementTree.fromstring(svg).tag.endswith("svg"))
        for words in ("way along the path, mm", "time, s", "speed, mm/s", "X, m/s²", "torque steps"):
            self.assertIn(words, svg)
        for cause in picture.CAUSE_NAMES.values():
            self.assertIn(f">{cause}<", svg)

    def test_same_each_time(self):
        first = self.drawn(RIGHT_ANGLE, "a.svg", "--title", "a & b $x$")
        self.assertEqual(self.drawn(RIGHT_ANGLE, "b.svg", "--title", "a & b $x$"), first)
        self.assertIn(b">a &amp; b $x$<", first)

    def test_stored_picture(self):
        stored = (ROOT / "docs" / "plan.svg").read_text(encoding="utf-8")
        said = picture.summary(ramps.run_of((ROOT / "examples/tapes/mould-row.tape").read_bytes()))
        self.assertIn(said, stored)
        self.assertLess(len(stored), 400_000)

    def test_forms_and_steps(self):
        self.assertTrue(self.drawn(POCKET, "p.png").startswith(b"\x89PNG"))
        self.assertTrue(self.drawn(POCKET, "p.PDF").startswith(b"%PDF"))
        with_steps = self.drawn(POCKET, "s.svg", "--steps", STEPS).decode()
        took = re.search(r"20 blocks, 104.000 mm in (\S+) s", with_steps).group(1)
        run = ramps.run_of(POCKET.read_bytes(), STEPS.read_bytes())
        self.assertEqual(took, f"{run.time:.3f}")
        self.assertGreater(run.time, ramps.run_of(POCKET.read_bytes()).time)

    def test_longest_tape(self):
        blocks = [Block(20 + k % 7, k % 5, k % 3 - 1, 50_000, 1_000 * (k % 2)) for k in range(2_048)]
        tape = self.file("long.tape", tape_of(*blocks))
        before = resource.getrusage(resource.RUSAGE_CHILDREN)
        self.drawn(tape, "long.svg")
        after = resource.getrusage(resource.RUSAGE_CHILDREN)
        took = after.ru_utime + after.ru_stime - before.ru_utime - before.ru_stime
        self.assertLess(took, 5)  # s of the processor


class PlotFaults(InFolder):
    def test_tapes(self):
        none = self.fault_of(self.folder / "none")
        self.assertIn("none: No such file", none)
        empty = self.file("empty.tape", tape_of())
        self.assertIn("empty.tape: a tape without blocks", self.fault_of(empty))
        spoiled = self.file("s.tape", tape_of(Block(1, 0, 0, 1)) + bytes(16))
        said = self.fault_of(spoiled)
        self.assertIn("s.tape: record 2: refused by 2 (still): all three moves 0", said)
        said = self.fault_of(POCKET, "--steps", self.file("few", b"1234"))
        self.assertIn("few: refused by 14 (steps)", said)

    def fault_of(self, tape, *words):
        out = self.file("kept.svg", "kept")
        status, said = self.called("plot", tape, *words, "-o", out)
        self.assertEqual((status, out.read_text()), (1, "kept"))
        return said

    def test_no_matplotlib(self):
        # a package of that name that cannot be imported hides every other
        hiding = self.folder / "hiding"
        hiding.mkdir()
        (hiding / "matplotlib.py").write_text("raise ImportError('hidden')\n")
        out = self.file("kept.svg", "kept")
        status, shown, said = command("plot", POCKET, "-o", out, PYTHONPATH=str(hiding))
        self.assertEqual((status, shown), (1, b""))
        self.assertIn("install the package python3-matplotlib", said)
        self.assertEqual(out.read_text(), "kept")
        self.assertEqual(command("limits", MACHINE, PYTHONPATH=str(hiding))[0], 0)

    def test_no_window(self):
        status, shown, said = command("plot", POCKET, DISPLAY="", WAYLAND_DISPLAY="", MPLBACKEND="agg")
        self.assertEqual((status, shown), (1, b""))
        self.assertRegex(said, "no window can be opened here|python3-matplotlib")


if __name__ == "__main__":
    unittest.main()
