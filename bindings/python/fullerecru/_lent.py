"""What is lent to the library: each number is checked before the call, since C would cut it."""
from __future__ import annotations

import ctypes
import operator
from collections.abc import Sequence
from typing import Any, Iterable, List, Union

from . import _library
from .refusals import Refusal, Refused
from .sizes import POINT
from .values import Block, Limits

Bytes = Union[bytes, bytearray, memoryview]
Steps = Union[Bytes, Sequence[int]]

LIMIT_FIELDS = tuple(Limits.__dataclass_fields__)
MOVE_FIELDS = ("x", "y", "z")
RECORD_FIELDS = ("feed", "radius", "mark")

_UNSIGNED_BITS, _SIGNED_BITS, _BYTE_BITS = 64, 63, 8


def _whole(name: str, value: Any, least: int, bound: int) -> int:
    """A whole number from least to below bound."""
    try:
        number = operator.index(value)
    except TypeError:
        raise TypeError(f"{name} must be a whole number, not {value!r}") from None
    if not least <= number < bound:
        raise OverflowError(f"{name} must be from {least} to {bound - 1}, not {number}")
    return number


def unsigned(name: str, value: Any) -> int:
    """A number that a uint64_t holds."""
    return _whole(name, value, 0, 1 << _UNSIGNED_BITS)


def signed(name: str, value: Any) -> int:
    """A number that an int64_t holds."""
    return _whole(name, value, -(1 << _SIGNED_BITS), 1 << _SIGNED_BITS)


def double(name: str, value: Any) -> float:
    """A float, or a whole number that a double holds exactly."""
    if isinstance(value, float):
        return float(value)
    try:
        number = operator.index(value)
    except TypeError:
        raise TypeError(f"{name} must be a float or a whole number, not {value!r}") from None
    nearest = float(number)  # an OverflowError where it is beyond all doubles
    if int(nearest) != number:
        raise OverflowError(f"{name} must be a number that a double holds, not {number}")
    return nearest


def data(name: str, value: Any) -> bytes:
    """The bytes of a bytes-like object."""
    try:
        view = memoryview(value)
    except TypeError:
        raise TypeError(f"{name} must be bytes, not {type(value).__name__}") from None
    if view.itemsize != 1:
        raise TypeError(f"{name} must have items of one byte, not of {view.itemsize}")
    return view.tobytes()


def steps_data(value: Any) -> bytes:
    """The bytes of torque steps: a bytes-like object, or a list of percents."""
    if isinstance(value, Sequence) and not isinstance(value, (str, bytes, bytearray, memoryview)):
        bound = 1 << _BYTE_BITS
        return bytes(_whole(f"torque step {k}", step, 0, bound) for k, step in enumerate(value))
    return data("steps", value)


def limits_numbers(limits: Limits) -> Any:
    """The list of a machine's limits."""
    return numbers_of(unsigned(field, getattr(limits, field)) for field in LIMIT_FIELDS)


def block_numbers(block: Block) -> List[int]:
    """Moves, feed, radius and mark of a block."""
    moves = [signed(field, getattr(block, field)) for field in MOVE_FIELDS]
    return moves + [unsigned(field, getattr(block, field)) for field in RECORD_FIELDS]


def point_doubles(name: str, point: Sequence[float]) -> Any:
    """The list of a point X, Y, Z."""
    if len(point) != POINT:
        raise ValueError(f"{name} must have {POINT} coordinates, not {len(point)}")
    return (_library.DOUBLE * POINT)(
        *(double(f"{name} {axis}", value) for axis, value in zip("XYZ", point))
    )


def numbers(count: int) -> Any:
    """A list of so many zeros, with room for one at least, so that its address is never null."""
    return (_library.NUMBER * max(1, count))()


def numbers_of(values: Iterable[int]) -> Any:
    """A list of these numbers."""
    listed = list(values)
    return (_library.NUMBER * len(listed))(*listed)


def moves(count: int) -> Any:
    """A list of so many signed zeros."""
    return (_library.SIGNED * count)()


def room(count: int) -> Any:
    """So many zero bytes that the library may write."""
    return ctypes.create_string_buffer(count)


def accept(number: int, place: int = 0) -> None:
    """Raises the refusal that a call answered, if it did."""
    if number:
        raise Refused(Refusal(number), place)
