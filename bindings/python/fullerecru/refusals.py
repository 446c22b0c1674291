"""The numbers on the display, and what held a junction."""
from __future__ import annotations

from enum import IntEnum


class Refusal(IntEnum):
    """Number on the display of a call that was refused."""

    LIMITS = 1
    STILL = 2
    LONG = 3
    FEED = 4
    RADIUS = 5
    MARK = 6
    FULL = 7
    EMPTY = 8
    RAGGED = 9
    MANY = 10
    LIST = 11
    WORD = 12
    NUMBER = 13
    STEPS = 14
    NOT_FINITE = 15
    BEYOND = 16

    @property
    def word(self) -> str:
        """The word of the number, as "ragged" of 9."""
        return self.name.lower().replace("_", " ")

    @property
    def meaning(self) -> str:
        """When the number is given, in words."""
        return _MEANINGS[self]


_MEANINGS = {
    Refusal.LIMITS: "a machine limit outside its range, or a zero bit of the tape's limits set",
    Refusal.STILL: "all three moves 0",
    Refusal.LONG: "a move beyond ±1,000,000 µm",
    Refusal.FEED: "feed 0, or above 1,000,000 µm/s",
    Refusal.RADIUS: "radius above 10,000,000 µm",
    Refusal.MARK: "mark above 2,097,151",
    Refusal.FULL: "64 blocks held",
    Refusal.EMPTY: "take with none held",
    Refusal.RAGGED: (
        "tape under 24 bytes, or its rest no multiple of 16; a trace likewise, by 28; for the limits "
        "or one record read or written alone, and for the records of a text, fewer bytes lent than it "
        "needs"
    ),
    Refusal.MANY: (
        "tape longer than 32,792 bytes; a tape reported after 100 accepted; a text's block past 2,048"
    ),
    Refusal.LIST: (
        "lent list of speeds not exactly one longer than the blocks; a replay's list, a tape's, or "
        "that of what held a tape's junctions, not of its size"
    ),
    Refusal.WORD: (
        "in a text, any character but a space outside a word, or a word that is not listed or stands "
        "on its line already"
    ),
    Refusal.NUMBER: "in a text, a word's number that is badly formed",
    Refusal.STEPS: "loaded torque steps not of eight bytes, out of range or rising",
    Refusal.NOT_FINITE: (
        "in an order, a double that is not finite, or a coordinate less its offset that is not"
    ),
    Refusal.BEYOND: (
        "in an order, a rounded value beyond 1,000,000,000 either way, or below 0 for speed or radius"
    ),
}


class Refused(Exception):
    """A call was refused, and nothing that it was given is changed.

    refusal: the number on the display. place: of the record of a tape or the line of a text that is
    at fault, counted from 1; 0 where none is.
    """

    def __init__(self, refusal: Refusal, place: int = 0) -> None:
        super().__init__(refusal, place)
        self.refusal = refusal
        self.place = place

    def __str__(self) -> str:
        at = f" at {self.place}" if self.place else ""
        return f"refused by {self.refusal.value} ({self.refusal.word}){at}: {self.refusal.meaning}"


class HeldBy(IntEnum):
    """What held an inner junction of a tape."""

    FEED = 0  # the feed, or the speed limit of an axis
    CORNER = 1
    CHORD = 2
    REACH = 3  # the blocks around are too short to come to the junction's cap or to brake from it

    @property
    def word(self) -> str:
        """The word of the number, as "corner" of 1."""
        return self.name.lower()
