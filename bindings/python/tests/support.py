"""What the tests share: where things lie, the machine of the examples, and lines of the programs."""
import sys
from pathlib import Path

ROOT = Path(__file__).resolve().parents[3]
MODULE = ROOT / "bindings" / "python"
sys.path.insert(0, str(MODULE))

import fullerecru  # noqa: E402  (found by the path above)
from fullerecru import Block, Given, Limits  # noqa: E402

TAPES = sorted((ROOT / "examples" / "tapes").glob("*.tape"))
PROGRAMS = ROOT / "target" / "bin"

# Machine M of docs/RULES.md, section 8.
MACHINE = Limits(200_000, 200_000, 200_000, 1_000_000, 1_000_000, 1_000_000, 2_000, 1, 2_000)
ALONG_X = Block(1_000, 0, 0, 20_000, 0, 7)
ALONG_Y = Block(0, 1_000, 0, 20_000, 0, 8)


def tape_of(*blocks: Block, limits: Limits = MACHINE) -> bytes:
    """A tape of these blocks."""
    return fullerecru.write_tape(limits, blocks)


def listing_line(given: Given) -> str:
    """A block given out, as planlist and planreplay write it."""
    numbers = (given.block.mark, given.length, given.accel, given.entry, given.peak, given.exit)
    return " ".join(map(str, numbers + (given.up, given.cruise, given.down)))
