"""Sizes of the header include/fullerecru.h, by its names without FULLERECRU_."""

# Version of the header that this module is written for: 1,000,000 * major + 1,000 * minor + patch.
VERSION = 12_000
VERSION_TEXT = "0.12.0"

# Numbers of 64 bits in the lists that are lent to the library.
NUMBERS = 848  # a planner's memory
LIMITS = 9
MOVES = 3
GIVEN = 11  # a block given out, beside its moves
RECORD = 3  # a record read, beside its moves
LISTED = 13  # a row of a tape's list
HOST = 4
REPORT = 8
FIGURES = 7
ROW = 15  # the row that answers a call of a trace
PLAN = 65  # a replay's plan

# Doubles of a point.
POINT = 3

# Bytes.
STEPS = 8  # loaded torque steps
LIMITS_BYTES = 24
RECORD_BYTES = 16
CALL_BYTES = 28  # a call of a trace
MOST_TAPE = 32_792

# Most blocks that a planner holds, most blocks of a tape, most tapes that a report accepts.
PLACES = 64
MOST_BLOCKS = 2_048
MOST_TAPES = 100
