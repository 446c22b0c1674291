"""Tapes, what held them back, traces and texts."""
from __future__ import annotations

from dataclasses import dataclass
from typing import Any, List, Optional, Sequence, Tuple, Union

from . import _lent
from ._library import function
from .planner import given_of
from .refusals import HeldBy, Refusal, Refused
from .sizes import (
    CALL_BYTES,
    FIGURES,
    GIVEN,
    LIMITS,
    LIMITS_BYTES,
    LISTED,
    MOST_BLOCKS,
    MOVES,
    PLAN,
    RECORD,
    RECORD_BYTES,
    REPORT,
    ROW,
)
from .values import Block, Figures, Given, Limits, Listed


def read_limits(data: _lent.Bytes) -> Limits:
    """Limits of the first 24 bytes; later bytes play no part. Refuses by 9, then 1."""
    lent, limits = _lent.data("limits", data), _lent.numbers(LIMITS)
    _lent.accept(function("read_limits")(lent, len(lent), limits))
    return Limits(*limits)


def write_limits(limits: Limits) -> bytes:
    """The 24 bytes of limits. Refuses by 1."""
    room = _lent.room(LIMITS_BYTES)
    _lent.accept(function("write_limits")(_lent.limits_numbers(limits), room, LIMITS_BYTES))
    return bytes(room.raw)


def read_record(data: _lent.Bytes) -> Block:
    """The block of the first 16 bytes; later bytes play no part. Refuses by 9, 2, 3, 4, 5."""
    lent = _lent.data("record", data)
    moves, numbers = _lent.moves(MOVES), _lent.numbers(RECORD)
    _lent.accept(function("read_record")(lent, len(lent), moves, numbers))
    return Block(*moves, *numbers)


def write_record(block: Block) -> bytes:
    """The 16 bytes of a block. Refuses by 2, 3, 4, 5, 6 in that order."""
    room = _lent.room(RECORD_BYTES)
    _lent.accept(function("write_record")(*_lent.block_numbers(block), room, RECORD_BYTES))
    return bytes(room.raw)


def write_tape(limits: Limits, blocks: Sequence[Block]) -> bytes:
    """A tape of up to 2,048 blocks. Refuses by 10, 1, then by the first block at fault (2 to 6)."""
    if len(blocks) > MOST_BLOCKS:
        raise Refused(Refusal.MANY)
    tape = [write_limits(limits)]
    for place, block in enumerate(blocks, 1):
        try:
            tape.append(write_record(block))
        except Refused as refused:
            raise Refused(refused.refusal, place) from None
    return b"".join(tape)


def _blocks(tape: bytes) -> int:
    """How many whole records a tape has; no more than are ever accepted, so that lists stay small."""
    return min(MOST_BLOCKS, max(0, len(tape) - LIMITS_BYTES) // RECORD_BYTES)


def _of_tape(name: str, tape: bytes, steps: _lent.Steps, count: int) -> Any:
    """What a function tells of a tape in a list of count numbers."""
    loaded, told, place = _lent.steps_data(steps), _lent.numbers(count), _lent.numbers(1)
    answer = function(name)(tape, len(tape), loaded, len(loaded), told, count, place)
    _lent.accept(answer, place[0])
    return told[:count]


def plan_tape(tape: _lent.Bytes, steps: _lent.Steps = b"") -> List[int]:
    """The plan of a tape from rest to rest: the squared speed, (µm/s)², at each junction.

    Refuses by 10, 9, 1, 14, then by the first record at fault (2, 3, 4, 5), whose place it tells.
    """
    lent = _lent.data("tape", tape)
    return list(_of_tape("plan_tape", lent, steps, _blocks(lent) + 1))


def list_tape(tape: _lent.Bytes, steps: _lent.Steps = b"") -> List[Listed]:
    """Each block of a tape with its plan, its ramp and its caps. Refuses as plan_tape does."""
    lent = _lent.data("tape", tape)
    count = _blocks(lent)
    numbers = _of_tape("list_tape", lent, steps, LISTED * count)
    rows = []
    for k in range(count):
        row = numbers[LISTED * k : LISTED * (k + 1)]
        block = read_record(lent[LIMITS_BYTES + RECORD_BYTES * k :][:RECORD_BYTES])
        rows.append(Listed(given_of((block.x, block.y, block.z), row), *row[GIVEN:]))
    return rows


def held_by(tape: _lent.Bytes, steps: _lent.Steps = b"") -> List[HeldBy]:
    """What held each inner junction of a tape, in order. Refuses as plan_tape does."""
    lent = _lent.data("tape", tape)
    return [HeldBy(cause) for cause in _of_tape("held_by", lent, steps, max(0, _blocks(lent) - 1))]


class Report:
    """What held tapes back, over up to 100 accepted tapes."""

    def __init__(self) -> None:
        self._numbers = _lent.numbers(REPORT)
        function("report_fresh")(self._numbers)

    @classmethod
    def fresh(cls) -> Report:
        """A fresh report: no tape was accepted."""
        return cls()

    def add(self, tape: _lent.Bytes, steps: _lent.Steps = b"") -> Figures:
        """Adds a tape and tells its own figures.

        Refuses by 10 after 100 accepted tapes, then as plan_tape does; a refused tape adds nothing.
        """
        lent, loaded = _lent.data("tape", tape), _lent.steps_data(steps)
        figures, place = _lent.numbers(FIGURES), _lent.numbers(1)
        answer = function("report_add")(
            self._numbers, lent, len(lent), loaded, len(loaded), figures, place
        )
        _lent.accept(answer, place[0])
        return Figures(*figures)

    def tapes(self) -> int:
        """How many tapes were accepted."""
        return int(self._numbers[0])

    def all(self) -> Figures:
        """The figures of all accepted tapes."""
        return Figures(*self._numbers[1:])


@dataclass(frozen=True)
class Answer:
    """What a call of a trace was answered."""

    refusal: Optional[Refusal]  # None: accepted
    given: Optional[Given]  # of a take that was accepted


@dataclass(frozen=True)
class Replayed:
    """What a trace was answered, and the plan of the blocks still held, (µm/s)²."""

    answers: Tuple[Answer, ...]
    told: int
    plan: Tuple[int, ...]


def _answer(row: List[int]) -> Answer:
    """A row of ROW numbers as an answer. A block given out has a length; else there are zeros."""
    number, moves, numbers = row[0], row[1 : 1 + MOVES], row[1 + MOVES :]
    if number:
        return Answer(Refusal(number), None)
    signed = [move - (move >> 31 << 32) for move in moves]  # two's complement of 32 bits
    return Answer(None, given_of(signed, numbers) if numbers[RECORD] else None)


def replay(trace: _lent.Bytes, steps: _lent.Steps = b"") -> Replayed:
    """Runs a trace, a list of calls in bytes, on a planner of its own. Refuses by 9, 1, 14."""
    lent, loaded = _lent.data("trace", trace), _lent.steps_data(steps)
    count = ROW * (max(0, len(lent) - LIMITS_BYTES) // CALL_BYTES)
    answers, plan, told = _lent.numbers(count), _lent.numbers(PLAN), _lent.numbers(1)
    _lent.accept(
        function("replay")(
            lent, len(lent), loaded, len(loaded), answers, count, plan, PLAN, told
        )
    )
    rows = (answers[first : first + ROW] for first in range(0, count, ROW))
    return Replayed(tuple(map(_answer, rows)), told[0], tuple(plan[: told[0] + 1]))


def text(program: Union[str, _lent.Bytes]) -> bytes:
    """The tape records of a program in RS-274 text: behind 24 bytes of limits they are a tape.

    Refuses line by line by 12 or 13, by 3, 4 or 6 of its block, then by 10, with the line's number.
    """
    lent = program.encode() if isinstance(program, str) else _lent.data("program", program)
    size = MOST_BLOCKS * RECORD_BYTES
    records, blocks, place = _lent.room(size), _lent.numbers(1), _lent.numbers(1)
    answer = function("text")(lent, len(lent), records, size, blocks, place)
    _lent.accept(answer, place[0])
    return bytes(records.raw[: RECORD_BYTES * blocks[0]])
