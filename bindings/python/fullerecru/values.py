"""Limits, blocks and what is told of them. Every quantity is a whole number.

The fields of each class but its block stand in the order in which the library has them.
"""
from __future__ import annotations

from dataclasses import dataclass


@dataclass(frozen=True)
class Limits:
    """A machine's limits."""

    accel_x: int  # µm/s²
    accel_y: int
    accel_z: int
    speed_x: int  # µm/s
    speed_y: int
    speed_z: int
    corner_jump: int  # µm/s: the most by which the velocity may step where two blocks meet
    chord_tolerance: int  # µm: how far the way of one tick may lie from the curve
    tick: int  # µs


@dataclass(frozen=True)
class Block:
    """A straight move."""

    x: int  # µm, signed
    y: int
    z: int
    feed: int  # µm/s
    radius: int = 0  # µm, of the curve that the block is a chord of; 0 for no curve
    mark: int = 0  # a label of the caller's


@dataclass(frozen=True)
class Given:
    """A block with its numbers, its squared speeds and its ramp."""

    block: Block
    length: int  # µm, rounded down
    accel: int  # µm/s²
    entry: int  # (µm/s)²
    exit: int
    peak: int
    up: int  # µm run speeding up
    cruise: int  # µm run at the peak
    down: int  # µm run braking


@dataclass(frozen=True)
class Listed:
    """A row of a tape's list."""

    given: Given
    cap: int  # greatest squared speed in the block, (µm/s)²
    junction_cap: int  # of the junction where the block begins, (µm/s)²; 0 at the first


@dataclass(frozen=True)
class Figures:
    """Figures of a tape, or of all tapes of a report."""

    blocks: int
    length: int  # µm
    peak: int  # greatest squared speed, (µm/s)²
    feed: int  # inner junctions held by the feed or an axis
    corner: int  # by the corner
    chord: int  # by the chord rule
    reach: int  # by the reach
