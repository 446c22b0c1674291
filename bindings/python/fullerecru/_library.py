"""The shared library: where it is found, and what its functions take and answer."""
from __future__ import annotations

import ctypes
import os
from pathlib import Path
from typing import Any, Dict, List, Optional, Tuple

from .sizes import MOVES, RECORD, VERSION, VERSION_TEXT

VARIABLE = "FULLERECRU_LIBRARY"
FILE = "libfullerecru.so"
LOADED_NAME = f"{FILE}.{VERSION_TEXT.rsplit('.', 1)[0]}"  # its soname: while major is 0, with minor

NUMBER, SIGNED, DOUBLE, SIZE = ctypes.c_uint64, ctypes.c_int64, ctypes.c_double, ctypes.c_size_t
BYTES = ctypes.c_char_p  # lent to be read: a bytes object; to be written: a string buffer
_NUMBERS, _MOVES = ctypes.POINTER(NUMBER), ctypes.POINTER(SIGNED)
_DOUBLES = ctypes.POINTER(DOUBLE)
_BLOCK = [SIGNED] * MOVES + [NUMBER] * RECORD
_TAPE = [BYTES, SIZE, BYTES, SIZE, _NUMBERS, SIZE, _NUMBERS]
_ORDER = [_NUMBERS, _NUMBERS, _DOUBLES, _DOUBLES]

# Answer and arguments of each function, by its name without fullerecru_.
SIGNATURES: Dict[str, Tuple[Any, List[Any]]] = {
    "version": (NUMBER, []),
    "fresh": (NUMBER, [_NUMBERS, _NUMBERS, BYTES, SIZE]),
    "add": (NUMBER, [_NUMBERS] + _BLOCK),
    "take": (NUMBER, [_NUMBERS, _MOVES, _NUMBERS]),
    "told": (NUMBER, [_NUMBERS]),
    "shown": (NUMBER, [_NUMBERS, _NUMBERS, SIZE]),
    "read_limits": (NUMBER, [BYTES, SIZE, _NUMBERS]),
    "write_limits": (NUMBER, [_NUMBERS, BYTES, SIZE]),
    "read_record": (NUMBER, [BYTES, SIZE, _MOVES, _NUMBERS]),
    "write_record": (NUMBER, _BLOCK + [BYTES, SIZE]),
    "plan_tape": (NUMBER, _TAPE),
    "list_tape": (NUMBER, _TAPE),
    "held_by": (NUMBER, _TAPE),
    "report_fresh": (None, [_NUMBERS]),
    "report_add": (NUMBER, [_NUMBERS, BYTES, SIZE, BYTES, SIZE, _NUMBERS, _NUMBERS]),
    "replay": (NUMBER, [BYTES, SIZE, BYTES, SIZE, _NUMBERS, SIZE, _NUMBERS, SIZE, _NUMBERS]),
    "text": (NUMBER, [BYTES, SIZE, BYTES, SIZE, _NUMBERS, _NUMBERS]),
    "host_fresh": (None, [_NUMBERS]),
    "rapid": (NUMBER, _ORDER),
    "feed": (NUMBER, _ORDER + [DOUBLE]),
    "curve_chord": (NUMBER, _ORDER + [DOUBLE, DOUBLE]),
    "position": (None, [_NUMBERS, _DOUBLES]),
}


def _in_repository() -> Optional[Path]:
    """The repository's library, be it there or not; None where this module lies outside one."""
    parents = Path(__file__).resolve().parents
    if len(parents) > 3 and (parents[3] / "include" / "fullerecru.h").is_file():
        return parents[3] / "target" / "lib" / FILE
    return None


def path() -> str:
    """What the loader is asked for: a file's path, or the system's name of the library."""
    named = os.environ.get(VARIABLE)
    if named:
        return os.path.abspath(named)
    own = _in_repository()
    return str(own) if own is not None and own.is_file() else LOADED_NAME


def _where() -> str:
    """The places where the library is looked for, with what is there."""
    named = os.environ.get(VARIABLE)
    own = _in_repository()
    if own is None:
        there = "this module lies outside the repository"
    else:
        there = str(own) if own.is_file() else f"{own} is not there: `make lib` makes it"
    return (
        "It is looked for in this order:\n"
        f"  1. the file that the environment variable {VARIABLE} names ({named or 'not set'})\n"
        f"  2. target/lib/{FILE} of the repository ({there})\n"
        f"  3. {LOADED_NAME} of the system, found by its loader (`make install` installs it)"
    )


def version_text(number: int) -> str:
    """major.minor.patch of a version as one number."""
    return f"{number // 1_000_000}.{number // 1_000 % 1_000}.{number % 1_000}"


def _load() -> ctypes.PyDLL:
    """The library with its functions' types, if it is the one that this module is written for.

    Called with the interpreter's lock held: calls are short, and so two threads cannot be in one
    planner's memory.
    """
    name = path()
    try:
        loaded = ctypes.PyDLL(name)
    except OSError as error:
        raise ImportError(f"no library of Fullerecru: {error}.\n{_where()}") from None
    for function, (answer, arguments) in SIGNATURES.items():
        try:
            entry = getattr(loaded, "fullerecru_" + function)
        except AttributeError:
            raise ImportError(
                f"{name} has no fullerecru_{function}: it is not the library of version {VERSION_TEXT}"
            ) from None
        entry.restype, entry.argtypes = answer, arguments
    told: int = loaded.fullerecru_version()
    if told != VERSION:
        raise ImportError(
            f"{name} has version {version_text(told)}, and this module is for {VERSION_TEXT}"
        )
    return loaded


_LOADED = _load()


def function(name: str) -> Any:
    """A function of the library, by its name without fullerecru_."""
    return getattr(_LOADED, "fullerecru_" + name)
