"""A tape's plan as phases of steady acceleration: where, when and how fast each begins and ends.

Lengths are in µm, speeds in µm/s, times in s. Along a block the squared speed is the least of entry +
2 * a * s, peak, and exit + 2 * a * (length - s), and each axis has move / length of the path's speed
(include/fullerecru.h, "Between ticks"). Caps, squared speeds and causes come from the library.
"""
import math
from dataclasses import dataclass, replace
from typing import List, NamedTuple, Optional

from fullerecru import HeldBy, Listed, held_by, list_tape, sizes, write_record


class Phase(NamedTuple):
    """A part of a block that is run with steady acceleration."""

    block: int  # place of the block, from 0
    cause: Optional[HeldBy]  # what held the speed here; None: begin or end at rest
    begin_time: float
    end_time: float
    begin: float  # way along the path
    end: float
    begin_speed: float
    end_speed: float
    accel: float  # along the path, with sign


@dataclass(frozen=True)
class Run:
    """A tape as it is run."""

    rows: List[Listed]
    causes: List[HeldBy]  # of the inner junctions
    phases: List[Phase]

    @property
    def time(self):
        """How long it takes, s."""
        return self.phases[-1].end_time if self.phases else 0.0

    @property
    def length(self):
        """The length of its path, µm."""
        return sum(row.given.length for row in self.rows)


def parts(given):
    """Ways and times of speeding up, running at the peak and braking in a block."""
    entry, peak, leaving = map(math.sqrt, (given.entry, given.peak, given.exit))
    up = (given.peak - given.entry) / (2 * given.accel)
    down = (given.peak - given.exit) / (2 * given.accel)
    cruise = max(0.0, given.length - up - down)
    times = ((peak - entry) / given.accel, cruise / peak, (peak - leaving) / given.accel)
    return (up, cruise, down), times


def cap_causes(tape, rows, steps):
    """What the cap of each block comes from: the chord rule where it is higher without the radius."""
    limits = tape[: sizes.LIMITS_BYTES]
    records = (write_record(replace(row.given.block, radius=0)) for row in rows)
    straight = list_tape(limits + b"".join(records), steps)
    return [
        HeldBy.FEED if row.cap == free.cap else HeldBy.CHORD for row, free in zip(rows, straight)
    ]


def phase_causes(rows, causes, caps):
    """What held each block while it speeds up, runs at its peak and brakes.

    Speeding up begins at the speed of the junction behind, braking ends at that of the junction ahead:
    what held these holds the phase. At the peak it is the block's own cap; a peak below it lies between
    the two ramps, and what is run there is a rest below 1 µm.
    """
    around = [None, *causes, None]
    for k, row in enumerate(rows):
        at_cap = row.given.peak == row.cap
        yield around[k], caps[k] if at_cap else around[k], around[k + 1]


def phases_of(rows, causes, caps):
    """The phases of a tape, without those that take no time."""
    phases, time, way = [], 0.0, 0.0
    for k, held in enumerate(phase_causes(rows, causes, caps)):
        given = rows[k].given
        entry, peak, leaving = map(math.sqrt, (given.entry, given.peak, given.exit))
        ways, times = parts(given)
        speeds = ((entry, peak), (peak, peak), (peak, leaving))
        for cause, gone, took, (first, last), sign in zip(held, ways, times, speeds, (1, 0, -1)):
            if took > 0:
                ends = (time, time + took, way, way + gone, first, last)
                phases.append(Phase(k, cause, *ends, sign * given.accel))
                time, way = time + took, way + gone
    return phases


def run_of(tape, steps=b""):
    """A tape as it is run; raises Refused where the library refuses it."""
    rows, causes = list_tape(tape, steps), held_by(tape, steps)
    return Run(rows, causes, phases_of(rows, causes, cap_causes(tape, rows, steps)))
