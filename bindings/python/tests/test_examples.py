"""The example in C once more: what its program writes, this module says too."""
import unittest

from support import ALONG_X, ALONG_Y, MACHINE, ROOT, tape_of
from fullerecru import Block, Host, Planner, Refused, Report
import fullerecru

# The row over a mould of examples/c/feed.c: moves X, Y, Z and radius, µm.
ROW = [
    (2000, 0, 0, 0), (500, 0, 230, 3000), (500, 0, 140, 3000), (500, 0, 45, 3000),
    (500, 0, -45, 3000), (500, 0, -140, 3000), (500, 0, -230, 3000), (2000, 0, 0, 0),
    (0, 200, 0, 0),
]
ROW_BLOCKS = [Block(x, y, z, 20_000, radius, k + 1) for k, (x, y, z, radius) in enumerate(ROW)]
AHEAD = 5
MOTORS = [50, 50, 45, 40, 35, 30, 25, 20]
OFFSET = (0.3, 0.1, 0.3)


def joined(name, numbers):
    return " ".join([name, *map(str, numbers)])


def taken(planner):
    """The line of a take."""
    try:
        given = planner.take()
    except Refused as refused:
        return f"take refused by {refused.refusal.value}"
    block = given.block
    return (
        f"mark {block.mark} move {block.x} {block.y} {block.z} length {given.length} "
        f"accel {given.accel} entry {given.entry} peak {given.peak} exit {given.exit} "
        f"up {given.up} cruise {given.cruise} down {given.down}"
    )


def planned(planner):
    return f"held {planner.told()}, " + joined("plan", planner.shown())


def refused_by(call, *arguments):
    """Number and place of a refusal; None where the call is accepted."""
    try:
        call(*arguments)
    except Refused as refused:
        return refused.refusal.value, refused.place
    return None


def row_lines():
    planner = Planner.fresh(MACHINE)
    for block in ROW_BLOCKS:
        if planner.told() == AHEAD:
            yield taken(planner)
        planner.add(block)
    yield planned(planner)
    number, _ = refused_by(planner.add, Block(0, 0, 0, 20_000))
    yield f"a block that does not move: refused by {number}"
    yield planned(planner)
    while planner.told():
        yield taken(planner)
    yield taken(planner)


def tape_lines(tape):
    limits = fullerecru.read_limits(tape)
    yield joined("limits", vars(limits).values())
    for first in range(24, len(tape), 16):
        block = fullerecru.read_record(tape[first:])
        yield (
            f"record move {block.x} {block.y} {block.z} feed {block.feed} radius {block.radius} "
            f"mark {block.mark}"
        )
    yield f"tape of {(len(tape) - 24) // 16} blocks, " + joined("plan", fullerecru.plan_tape(tape))


def report_lines(spoiled):
    report, row = Report(), tape_of(*ROW_BLOCKS)
    yield joined("figures", vars(report.add(row)).values())
    yield joined("held by", (int(cause) for cause in fullerecru.held_by(row)))
    yield joined("figures", vars(report.add(tape_of(ALONG_X, ALONG_Y))).values())
    yield "tape refused by {} at {}".format(*refused_by(report.add, spoiled))
    yield f"{report.tapes()} tapes, " + joined("figures", vars(report.all()).values())


def answer_line(answer):
    """A row of an answer in the order of the header."""
    row = [answer.refusal or 0] + [0] * 14
    if answer.given:
        block = vars(answer.given.block).values()
        row = [0, *block, *list(vars(answer.given).values())[1:]]
    return joined("answer", map(int, row))


def trace_lines():
    words = [0] * 7 + [1, 1000, 0, 0, 20_000, 0, 7] + [1, 0, 1000, 0, 20_000, 0, 8] + [0] * 7
    trace = fullerecru.write_limits(MACHINE) + b"".join(word.to_bytes(4, "big") for word in words)
    replayed = fullerecru.replay(trace, MOTORS)
    yield from map(answer_line, replayed.answers)
    yield f"held {replayed.told}, " + joined("plan", replayed.plan)
    number, _ = refused_by(fullerecru.replay, trace, MOTORS[:-1])
    yield f"a torque step too few: refused by {number}"


def text_lines():
    records = fullerecru.text("N1 F1200 X1\nN2 Y1\nN3 G0 G20 Z0.25\n")
    yield from tape_lines(fullerecru.write_limits(MACHINE) + records)
    yield "text refused by {} at {}".format(*refused_by(fullerecru.text, b"F60\nX1\nY 2\n"))


def order_lines():
    planner, host = Planner(MACHINE), Host()
    orders = [
        (host.rapid, (0.1, 0.2, 0.3), ()),
        (host.feed, (1.1, 0.2, 0.3), (20.0,)),
        (host.curve_chord, (2.1, 0.6, 0.3), (20.0, 1.5)),
        (host.feed, (2.1, 2e6, 0.3), (20.0,)),
    ]
    for order, target, more in orders:
        answer = refused_by(order, planner, target, OFFSET, *more)
        name = order.__name__.replace("_", " ")
        yield f"{name} {answer[0] if answer else 0}, host at " + " ".join(map(str, host.position()))
    yield planned(planner)
    while planner.told():
        yield taken(planner)


class ExampleInC(unittest.TestCase):
    """Each part's lines stand in examples/c/expected.txt, in their order."""

    def check(self, lines):
        stored = iter((ROOT / "examples" / "c" / "expected.txt").read_text().splitlines())
        count = 0
        for line in lines:
            self.assertTrue(any(line == other for other in stored), line)
            count += 1
        self.assertGreater(count, 3)

    def test_row(self):
        self.check(row_lines())

    def test_tape(self):
        pair = tape_of(ALONG_X, ALONG_Y)
        spoiled = pair[:-16] + bytes(16)
        refusal = "tape refused by {} at {}".format(*refused_by(fullerecru.plan_tape, spoiled))
        self.check([*tape_lines(pair), refusal])

    def test_report(self):
        self.check(report_lines(tape_of(ALONG_X, ALONG_Y)[:-16] + bytes(16)))

    def test_trace(self):
        self.check(trace_lines())

    def test_text(self):
        self.check(text_lines())

    def test_orders(self):
        self.check(order_lines())


if __name__ == "__main__":
    unittest.main()
