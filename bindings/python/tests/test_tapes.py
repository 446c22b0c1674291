"""Tapes, reports, traces, texts and orders against what the stored examples and the programs say."""
import struct
import subprocess
import unittest

import support
from support import PROGRAMS, ROOT, TAPES, listing_line
from fullerecru import HeldBy, Host, Planner, Refused, Report
import fullerecru

CRATES = ROOT / "crates"
HEADING = "mark length accel entry peak exit up cruise down"
CAUSES = ("feed", "corner", "chord", "reach")


def program(name, data, *arguments):
    """What a program of the repository writes for these bytes; None where it is not built."""
    path = PROGRAMS / name
    if not path.is_file():
        return None
    return subprocess.run([path, *arguments], input=data, stdout=subprocess.PIPE, check=True).stdout


def listing(tape, steps=b""):
    """planlist's listing, from list_tape."""
    try:
        rows = fullerecru.list_tape(tape, steps)
    except Refused as refused:
        return [f"refused {refused.refusal.value} at {refused.place}"]
    return [HEADING] + [listing_line(row.given) for row in rows]


class Lists(unittest.TestCase):
    def test_stored_listing(self):
        stored = (CRATES / "planlist" / "stdout").read_text().splitlines()
        self.assertEqual(listing((CRATES / "planlist" / "stdin").read_bytes()), stored)

    def test_listings_of_the_program(self):
        if not (PROGRAMS / "planlist").is_file():
            self.skipTest("target/bin/planlist is not built (make programs)")
        steps = ROOT / "examples" / "steps" / "soft-motors.steps"
        for path in TAPES:
            with self.subTest(tape=path.name):
                tape = path.read_bytes()
                self.assertEqual(listing(tape), program("planlist", tape).decode().splitlines())
                lines = program("planlist", tape, "--steps", steps).decode().splitlines()
                self.assertEqual(listing(tape, steps.read_bytes()), lines)
                self.assertEqual(listing(tape, list(steps.read_bytes())), lines)

    def test_rows_fit_the_plan_and_the_caps(self):
        for path in TAPES:
            with self.subTest(tape=path.name):
                tape = path.read_bytes()
                rows, plan = fullerecru.list_tape(tape), fullerecru.plan_tape(tape)
                self.assertEqual([row.given.entry for row in rows] + [0], plan)
                self.assertEqual([0] + [row.given.exit for row in rows], plan)
                for k, (row, cause) in enumerate(zip(rows[1:], fullerecru.held_by(tape)), 1):
                    caps = (rows[k - 1].cap, row.cap)
                    self.assertLessEqual(row.junction_cap, min(caps))
                    self.assertEqual(row.given.entry == row.junction_cap, cause != HeldBy.REACH)
                self.assertEqual(rows[0].junction_cap, 0)
                for row in rows:
                    given = row.given
                    self.assertLessEqual(given.peak, row.cap)
                    self.assertEqual(given.up + given.cruise + given.down, given.length)

    def test_caps_known_by_hand(self):
        # docs/RULES.md, section 8, examples 4 and 8
        rows = fullerecru.list_tape((ROOT / "examples/tapes/what-held.tape").read_bytes())
        feed, chord = 400_000_000, 1_000_000
        self.assertEqual([row.cap for row in rows], [feed, feed, feed, chord, chord, feed, feed])
        told = [row.junction_cap for row in rows]
        self.assertEqual(told, [0, feed, 2_000_000, chord, chord, chord, feed])

    def test_no_blocks(self):
        limits = fullerecru.write_limits(support.MACHINE)
        self.assertEqual(fullerecru.plan_tape(limits), [0])
        self.assertEqual(fullerecru.list_tape(limits), [])
        self.assertEqual(fullerecru.held_by(limits), [])

    def test_records_round(self):
        for path in TAPES:
            tape = path.read_bytes()
            limits = fullerecru.write_limits(fullerecru.read_limits(tape))
            records = (fullerecru.read_record(tape[k:]) for k in range(24, len(tape), 16))
            self.assertEqual(limits + b"".join(map(fullerecru.write_record, records)), tape)

    def test_bytes_of_every_sort(self):
        tape = TAPES[0].read_bytes()
        for sort in (bytearray, memoryview):
            self.assertEqual(fullerecru.plan_tape(sort(tape)), fullerecru.plan_tape(tape))


class Reports(unittest.TestCase):
    def report_lines(self, folder, names):
        report = Report.fresh()
        lines = ["blocks length peak feed corner chord reach tape"]
        for name in names:
            tape = (folder / name).read_bytes()
            try:
                figures = report.add(tape)
            except Refused as refused:
                lines.append(f"refused {refused.refusal.value} at {refused.place} {name}")
                continue
            lines.append(" ".join(map(str, vars(figures).values())) + f" {name}")
            causes = fullerecru.held_by(tape)
            for cause in HeldBy:
                self.assertEqual(getattr(figures, cause.word), causes.count(cause))
        return lines + [" ".join(map(str, vars(report.all()).values())) + " all"]

    def test_stored_report(self):
        own = CRATES / "planreport"
        lines = self.report_lines(own / "data", (own / "args").read_text().split())
        self.assertEqual(lines, (own / "stdout").read_text().splitlines())

    def test_report_of_the_readme(self):
        names = [f"examples/tapes/{path.name}" for path in TAPES]
        lines = self.report_lines(ROOT, names)
        readme = (ROOT / "README.md").read_text(encoding="utf-8")
        self.assertIn("\n".join("    " + line for line in lines), readme)

    def test_causes_of_the_readme(self):
        causes = fullerecru.held_by((ROOT / "examples/tapes/what-held.tape").read_bytes())
        self.assertEqual([int(cause) for cause in causes], [0, 1, 2, 2, 2, 3])
        self.assertEqual([cause.word for cause in HeldBy], list(CAUSES))


def held_lines(told, plan):
    """The closing lines of planreplay and planorders."""
    return [f"held {told}", " ".join(["plan", *map(str, plan)])]


class Traces(unittest.TestCase):
    def lines(self, trace):
        """planreplay's lines of a trace; what is left of a cut call is its refusal 9."""
        calls, rest = divmod(len(trace) - 24, 28)
        replayed = fullerecru.replay(trace[: len(trace) - rest])
        lines = []
        for answer in replayed.answers:
            if answer.refusal:
                lines.append(f"refused {answer.refusal.value}")
            else:
                lines.append(listing_line(answer.given) if answer.given else "added")
        if rest:
            lines.append(f"refused 9 at {calls + 1}")
        return lines + held_lines(replayed.told, replayed.plan)

    def test_stored_trace(self):
        stored = (CRATES / "planreplay" / "stdout").read_text().splitlines()
        self.assertEqual(self.lines((CRATES / "planreplay" / "stdin").read_bytes()), stored)

    def test_example(self):
        trace = (ROOT / "examples/traces/shop-traffic.trace").read_bytes()
        lines = program("planreplay", trace)
        if lines is None:
            self.skipTest("target/bin/planreplay is not built (make programs)")
        self.assertEqual(self.lines(trace), lines.decode().splitlines())

    def test_moves_with_signs(self):
        trace = (CRATES / "planreplay" / "stdin").read_bytes()
        trace = trace[: len(trace) - (len(trace) - 24) % 28]
        moves = []
        for first in range(24, len(trace), 28):
            kind, x, y, z, *_ = struct.unpack(">I3i3I", trace[first : first + 28])
            if kind:
                moves.append((x, y, z))
        given = [answer.given for answer in fullerecru.replay(trace).answers if answer.given]
        self.assertTrue(any(min(one.block.x, one.block.y, one.block.z) < 0 for one in given))
        for one in given:
            self.assertIn((one.block.x, one.block.y, one.block.z), moves)


class Texts(unittest.TestCase):
    def test_example(self):
        limits = (ROOT / "examples/tapes/square-pocket.tape").read_bytes()[:24]
        for path in sorted((ROOT / "examples" / "text").glob("*.ngc")):
            text = path.read_bytes()
            tape = limits + fullerecru.text(text)
            self.assertEqual(fullerecru.text(text.decode()), tape[24:])
            made = program("ngctape", text, ROOT / "examples/tapes/square-pocket.tape")
            if made is None:
                self.skipTest("target/bin/ngctape is not built (make programs)")
            self.assertEqual(tape, made)

    def test_worked_texts(self):
        # docs/RULES.md, section 8, example 6
        block = fullerecru.read_record(fullerecru.text("G20 F1 X1"))
        self.assertEqual((block.x, block.feed, block.mark), (25_400, 423, 1))
        records = fullerecru.text("F60\nX0.0005\nX-0.0005\n")
        moves = [fullerecru.read_record(records[k:]).x for k in (0, 16)]
        self.assertEqual(moves, [1, -2])
        self.assertEqual(fullerecru.text(""), b"")


class Orders(unittest.TestCase):
    def event(self, planner, host, event):
        """The line of an event: kind, then eight doubles, target, offset, speed, radius."""
        kind, *doubles = struct.unpack(">I8d", event)
        target, offset, (speed, radius) = doubles[:3], doubles[3:6], doubles[6:]
        try:
            if kind == 0:
                return listing_line(planner.take())
            if kind == 1:
                host.rapid(planner, target, offset)
            elif kind == 2:
                host.feed(planner, target, offset, speed)
            else:
                host.curve_chord(planner, target, offset, speed, radius)
        except Refused as refused:
            return f"refused {refused.refusal.value}"
        return "added"

    def lines(self, orders):
        """planorders' lines of orders; what is left of a cut event is its refusal 9."""
        planner, host = Planner(fullerecru.read_limits(orders)), Host.fresh()
        events, rest = divmod(len(orders) - 24, 68)
        lines = [self.event(planner, host, orders[24 + 68 * k :][:68]) for k in range(events)]
        if rest:
            lines.append(f"refused 9 at {events + 1}")
        lines += held_lines(planner.told(), planner.shown())
        patterns = (struct.unpack("<Q", struct.pack("<d", one))[0] for one in host.position())
        return lines + [" ".join(["point", *map(str, patterns)])]

    def test_stored_orders(self):
        stored = (CRATES / "planorders" / "stdout").read_text().splitlines()
        self.assertEqual(self.lines((CRATES / "planorders" / "stdin").read_bytes()), stored)

    def test_example(self):
        orders = (ROOT / "examples/orders/cam-host.orders").read_bytes()
        lines = program("planorders", orders)
        if lines is None:
            self.skipTest("target/bin/planorders is not built (make programs)")
        self.assertEqual(self.lines(orders), lines.decode().splitlines())


if __name__ == "__main__":
    unittest.main()
