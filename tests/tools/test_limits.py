"""`limits`: a text of nine values to 24 bytes, and back."""
import unittest

from support import MACHINE, TAPES, InFolder
import fullerecru
from fullerecru_command import limits

GOOD = """\
# a machine
acceleration-x = 5 m/s²
acceleration-y = 5000 mm/s2
acceleration-z = 3000000 um/s2   # weaker
speed-x = 0.5 m/s
speed-y=500mm/s
speed-z = 15000 mm/min

corner-jump = 10000 µm/s
chord-tolerance = 0.002 mm
tick = 4 ms
"""


class Limits(InFolder):
    def test_units(self):
        made = self.made("limits", self.file("good", GOOD))
        accels, speeds = (5_000_000, 5_000_000, 3_000_000), (500_000, 500_000, 250_000)
        machine = fullerecru.Limits(*accels, *speeds, 10_000, 2, 4_000)
        self.assertEqual(made, fullerecru.write_limits(machine))
        greek = GOOD.replace("\u00b5", "\u03bc")
        self.assertEqual(self.made("limits", self.file("greek", greek)), made)

    def test_names(self):
        told = [field for field, _ in limits.NAMES.values()]
        self.assertEqual(told, list(fullerecru.Limits.__dataclass_fields__))

    def test_machine_m(self):
        # docs/BENCH.md, "The paths"
        machine = fullerecru.Limits(*[200_000] * 3, *[1_000_000] * 3, 2_000, 1, 2_000)
        self.assertEqual(fullerecru.read_limits(self.made("limits", MACHINE)), machine)

    def test_round(self):
        for path in TAPES:
            text = self.made("limits", "--back", path)
            self.assertEqual(text.count(b"\n"), 9)
            self.assertEqual(self.made("limits", self.file("text", text)), path.read_bytes()[:24])
        odd = fullerecru.Limits(1, 20_000_000, 1_234_567, 1, 999_999, 123_450, 7, 1_000, 101)
        data = fullerecru.write_limits(odd)
        text = self.made("limits", "--back", self.file("odd", data))
        self.assertIn("acceleration-x = 0.001 mm/s²\n", text.decode())
        self.assertIn("speed-z = 123.45 mm/s\n", text.decode())
        self.assertEqual(self.made("limits", self.file("text", text)), data)


class Faults(InFolder):
    def said(self, old, new):
        """What is said of the good text with one change."""
        self.assertIn(old, GOOD)
        return self.fault("limits", self.file("bad.limits", GOOD.replace(old, new)))

    def test_lines(self):
        faults = [
            ("tick = 4 ms", "tack = 4 ms", 11, "unknown name 'tack'"),
            ("speed-y=500mm/s", "speed-x = 1 mm/s", 6, "speed-x stands on line 5 already"),
            ("tick = 4 ms", "tick = 4 mm", 11, "mm, but it needs one of µs, ms"),
            ("tick = 4 ms", "tick = 4", 11, "no unit"),
            ("tick = 4 ms", "tick = ms", 11, "is no number"),
            ("tick = 4 ms", "tick = four ms", 11, "is no number"),
            ("tick = 4 ms", "tick = 4e3 us", 11, "is no number"),
            ("tick = 4 ms", "tick 4 ms", 11, "not of the form"),
            ("15000 mm/min", "1 mm/min", 7, "not a whole number of µm/s"),
            ("0.002 mm", "0.0025 mm", 10, "not a whole number of µm"),
        ]
        for old, new, line, why in faults:
            said = self.said(old, new)
            self.assertIn(f"bad.limits:{line}: ", said)
            self.assertIn(why, said)

    def test_refused_by_the_library(self):
        faults = [
            ("acceleration-x = 5 m", "acceleration-x = 500 m", 2),
            ("speed-x = 0.5", "speed-x = 0", 5),
            ("tick = 4 ms", "tick = 4 us", 11),
            ("0.002 mm", "2 mm", 10),
        ]
        for old, new, line in faults:
            said = self.said(old, new)
            self.assertIn(f"bad.limits:{line}: ", said)
            self.assertIn("refused by 1 (limits)", said)

    def test_no_number_of_the_library(self):
        why = "refused by 1 (limits): tick is from 100 to 10,000 µs"
        for tick in ("-4 ms", "20 ms", f"{2**64} us"):
            self.assertIn(f"bad.limits:11: tick = {tick}: {why}", self.said("4 ms", tick))

    def test_ranges_are_the_library_s(self):
        ranges = {"accel_x": (1, 20_000_000), "speed_z": (1, 1_000_000), "corner_jump": (1, 1_000_000),
                  "chord_tolerance": (1, 1_000), "tick": (100, 10_000)}
        for field, known in ranges.items():
            found = tuple(limits.last_accepted(field, refused) for refused in (0, limits.BEYOND))
            self.assertEqual(found, known)

    def test_missing(self):
        said = self.said("tick = 4 ms\n", "")
        self.assertIn("bad.limits:10: the text ends without tick", said)
        said = self.fault("limits", self.file("empty", ""))
        self.assertIn("empty:1: the text ends without acceleration-x, ", said)

    def test_files(self):
        self.assertIn("No such file", self.fault("limits", self.folder / "none"))
        self.assertIn("bin:1: not a text", self.fault("limits", self.file("bin", b"\xff" * 24)))
        cut = self.file("cut", TAPES[0].read_bytes()[:23])
        self.assertIn("refused by 9 (ragged)", self.fault("limits", "--back", cut))
        bits = self.file("bits", b"\xff" * 24)
        self.assertIn("refused by 1 (limits)", self.fault("limits", "--back", bits))


if __name__ == "__main__":
    unittest.main()
