"""Fullerecru: a proved look-ahead speed planner for three-axis milling tables.

Lengths are in µm, speeds in µm/s, squared speeds in (µm/s)², accelerations in µm/s², the tick in µs,
all whole numbers; a host's orders are floats in mm and mm/s. A call that the library refuses raises
Refused and changes nothing. A number that the library's types cannot hold raises TypeError or
OverflowError before the call. What is worked out: docs/RULES.md of the repository.

A planner, a host and a report are used by one thread at a time. A thread that plans or reports tapes
needs 200 kB of stack.
"""
from . import sizes
from ._lent import Bytes, Steps
from ._library import function as _function
from .planner import Host, Planner
from .refusals import HeldBy, Refusal, Refused
from .sizes import (
    CALL_BYTES,
    LIMITS_BYTES,
    MOST_BLOCKS,
    MOST_TAPE,
    MOST_TAPES,
    PLACES,
    RECORD_BYTES,
    STEPS,
    VERSION,
    VERSION_TEXT,
)
from .tapes import (
    Answer,
    Replayed,
    Report,
    held_by,
    list_tape,
    plan_tape,
    read_limits,
    read_record,
    replay,
    text,
    write_limits,
    write_record,
    write_tape,
)
from .values import Block, Figures, Given, Limits, Listed

__version__ = VERSION_TEXT
__all__ = [
    "Answer",
    "Block",
    "Bytes",
    "CALL_BYTES",
    "Figures",
    "Given",
    "HeldBy",
    "Host",
    "LIMITS_BYTES",
    "Limits",
    "Listed",
    "MOST_BLOCKS",
    "MOST_TAPE",
    "MOST_TAPES",
    "PLACES",
    "Planner",
    "RECORD_BYTES",
    "Refusal",
    "Refused",
    "Replayed",
    "Report",
    "STEPS",
    "Steps",
    "VERSION",
    "VERSION_TEXT",
    "held_by",
    "list_tape",
    "plan_tape",
    "read_limits",
    "read_record",
    "replay",
    "sizes",
    "text",
    "version",
    "write_limits",
    "write_record",
    "write_tape",
]


def version() -> int:
    """The version of the library, as VERSION."""
    told: int = _function("version")()
    return told
