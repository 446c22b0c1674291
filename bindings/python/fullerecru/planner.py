"""The planner, which holds up to 64 blocks, and a host that gives it orders in doubles."""
from __future__ import annotations

from typing import List, Sequence, Tuple

from . import _lent
from ._library import DOUBLE, function
from .sizes import GIVEN, HOST, MOVES, NUMBERS, POINT, RECORD
from .values import Block, Given, Limits


def given_of(moves: Sequence[int], numbers: Sequence[int]) -> Given:
    """A block given out, of its moves and its eleven numbers."""
    return Given(Block(*moves, *numbers[:RECORD]), *numbers[RECORD:GIVEN])


class Planner:
    """A planner: up to 64 blocks held, each given out with a speed from which the rest can brake.

    steps: the torque steps, eight percents of 1 to 100, none above the one before it; none loads none,
    and the built-in ones serve.
    """

    def __init__(self, limits: Limits, steps: _lent.Steps = b"") -> None:
        self._memory = _lent.numbers(NUMBERS)
        loaded = _lent.steps_data(steps)
        asked = _lent.limits_numbers(limits)
        _lent.accept(function("fresh")(self._memory, asked, loaded, len(loaded)))

    @classmethod
    def fresh(cls, limits: Limits, steps: _lent.Steps = b"") -> Planner:
        """A fresh planner: no block held, committed speed 0. Refuses by 1, then 14."""
        return cls(limits, steps)

    def add(self, block: Block) -> None:
        """Adds a block behind those held. Refuses by 2, 3, 4, 5, 6, 7 in that order."""
        _lent.accept(function("add")(self._memory, *_lent.block_numbers(block)))

    def take(self) -> Given:
        """Takes the first block out; its exit becomes the committed speed. Refuses by 8."""
        moves, numbers = _lent.moves(MOVES), _lent.numbers(GIVEN)
        _lent.accept(function("take")(self._memory, moves, numbers))
        return given_of(moves[:], numbers[:])

    def told(self) -> int:
        """How many blocks are held."""
        held: int = function("told")(self._memory)
        return held

    def shown(self) -> List[int]:
        """The plan: the squared speed, (µm/s)², at each junction of the blocks held."""
        junctions = self.told() + 1
        plan = _lent.numbers(junctions)
        _lent.accept(function("shown")(self._memory, plan, junctions))
        return list(plan)


class Host:
    """A host that gives orders in doubles, each of which becomes a block added to a planner.

    target and offset, the work offset, are points X, Y, Z in mm. An order refuses field by field, X,
    Y, Z, speed, radius, in each by 15, then 16; then as Planner.add does. Only an order that is
    accepted moves the host.
    """

    def __init__(self) -> None:
        self._numbers = _lent.numbers(HOST)
        function("host_fresh")(self._numbers)

    @classmethod
    def fresh(cls) -> Host:
        """A fresh host: its point is zero, and no order was accepted."""
        return cls()

    def rapid(self, planner: Planner, target: Sequence[float], offset: Sequence[float]) -> None:
        """To the target at 1,000,000 µm/s."""
        self._order("rapid", planner, target, offset)

    def feed(
        self, planner: Planner, target: Sequence[float], offset: Sequence[float], speed: float
    ) -> None:
        """To the target with a speed in mm/s."""
        self._order("feed", planner, target, offset, _lent.double("speed", speed))

    def curve_chord(
        self,
        planner: Planner,
        target: Sequence[float],
        offset: Sequence[float],
        speed: float,
        radius: float,
    ) -> None:
        """To the target with a speed in mm/s, as a chord of a curve with a radius in mm."""
        more = (_lent.double("speed", speed), _lent.double("radius", radius))
        self._order("curve_chord", planner, target, offset, *more)

    def position(self) -> Tuple[float, float, float]:
        """The last accepted order's rounded point, µm, at first zero."""
        point = (DOUBLE * POINT)()
        function("position")(self._numbers, point)
        return (point[0], point[1], point[2])

    def _order(
        self,
        sort: str,
        planner: Planner,
        target: Sequence[float],
        offset: Sequence[float],
        *more: float,
    ) -> None:
        there, shift = _lent.point_doubles("target", target), _lent.point_doubles("offset", offset)
        _lent.accept(function(sort)(planner._memory, self._numbers, there, shift, *more))
