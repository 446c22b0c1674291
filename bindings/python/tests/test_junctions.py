"""What README and the header say of the velocity's step at a junction, exactly in fractions."""
import random
import unittest
from fractions import Fraction

import support  # noqa: F401  (the module's folder is on the path)
import fullerecru
from fullerecru import Block, Limits, Listed

FAST = 1_000_000  # µm/s


def limits(jump: int) -> Limits:
    """Axes that hold nothing back, and a corner jump, µm/s."""
    return Limits(*[20 * FAST] * 3, *[FAST] * 3, jump, 1_000, 100)


def path(draw: random.Random, size: int):
    """Moves of up to so many µm, each turned a little from the one before, or much."""
    way = [draw.gauss(0, 1) for _ in range(3)]
    while True:
        spread = draw.choice([0.001, 0.02, 0.3, 2])
        way = [part + draw.gauss(0, spread) for part in way]
        length = sum(part * part for part in way) ** 0.5
        moves = [round(part / length * size * draw.random()) for part in way]
        if any(moves):
            yield Block(*moves, feed=draw.choice([1_000, 300_000, FAST]))


def squared_step(before: Listed, after: Listed) -> Fraction:
    """The square of the velocity's step at the cap of a junction, (µm/s)²."""

    def way(row: Listed):
        block = row.given.block
        return [Fraction(move, row.given.length) for move in (block.x, block.y, block.z)]

    return after.junction_cap * sum((a - b) ** 2 for a, b in zip(way(before), way(after)))


class Junctions(unittest.TestCase):
    def test_step_is_bounded(self):
        draw = random.Random(20030619)
        passed_jump = 0
        for jump, size in [(1, 3), (100, 20), (2_000, 100), (10_000, 1_000), (5_000, 1_000_000)]:
            blocks = [block for block, _ in zip(path(draw, size), range(300))]
            rows = fullerecru.list_tape(fullerecru.write_tape(limits(jump), blocks))
            for before, after in zip(rows, rows[1:]):
                shares = Fraction(1, before.given.length) + Fraction(1, after.given.length)
                step = squared_step(before, after)
                self.assertLessEqual(step, jump**2 + 2 * after.junction_cap * shares)
                passed_jump += step > jump**2
        self.assertGreater(passed_jump, 300)

    def test_turn_without_cap(self):
        blocks = [Block(816, 578, 0, feed=300_000), Block(779, 627, 0, feed=300_000)]
        rows = fullerecru.list_tape(fullerecru.write_tape(limits(1), blocks))
        self.assertEqual(rows[1].junction_cap, 300_000**2)


if __name__ == "__main__":
    unittest.main()
