"""A tape's blocks as a table: moves and radius in mm, feed in mm/s, mark."""
import csv
import io

from fullerecru import Block, Refusal, Refused, plan_tape, read_record, sizes, write_record

from . import files, limits, numerals

MOVES = ("x", "y", "z")
NEEDED = MOVES + ("feed",)
OPTIONAL = ("radius", "mark")
COLUMNS = NEEDED + OPTIONAL
BASE = {"feed": "µm/s", "mark": None}  # what a column counts; the others count µm


def columns(name, header):
    """The columns of a table, of its first line."""
    found = [column.strip() for column in header]
    for column in found:
        if column not in COLUMNS:
            raise files.Fault(f"{files.at(name, 1)}: unknown column {column!r}; {expected()}")
        if found.count(column) > 1:
            raise files.Fault(f"{files.at(name, 1)}: column {column} stands twice")
    missing = [column for column in NEEDED if column not in found]
    if missing:
        raise files.Fault(f"{files.at(name, 1)}: no column {', '.join(missing)}; {expected()}")
    return found


def expected():
    """What the first line must be."""
    return f"the first line is {','.join(NEEDED)}, perhaps with {' and '.join(OPTIONAL)}"


def block_of(where, names, values, place):
    """The block of a line; a radius that is left out is 0, a mark the place of the record."""
    if len(values) != len(names):
        raise files.Fault(f"{where}: {len(values)} values for {len(names)} columns")
    numbers = {"radius": 0, "mark": place}
    for column, value in zip(names, map(str.strip, values)):
        if not value and column in OPTIONAL:
            continue
        size = 1 if column == "mark" else numerals.THOUSAND
        try:
            numbers[column] = numerals.whole(value, size, BASE.get(column, "µm"))
        except numerals.Unfit as unfit:
            raise files.Fault(f"{where}: {column}: {unfit}") from None
        if numbers[column] < 0 and column not in MOVES:
            raise files.Fault(f"{where}: {column}: {value} is below 0")
    return Block(**numbers)


def record_of(where, block):
    """The bytes of a block, if the library accepts it."""
    try:
        return write_record(block)
    except Refused as error:
        raise files.refused(where, error.refusal) from None
    except OverflowError:
        raise files.Fault(f"{where}: a number that is far too large") from None


def records(name, text):
    """The records of a table."""
    reader = csv.reader(io.StringIO(text, newline=""), strict=True)
    made, names = [], None
    try:
        for row in reader:
            if names is None:
                names = columns(name, row)
            elif len(row) > 1 or "".join(row).strip():
                where = files.at(name, reader.line_num)
                if len(made) == sizes.MOST_BLOCKS:
                    raise files.refused(where, Refusal.MANY, f"more than {sizes.MOST_BLOCKS:,} blocks")
                made.append(record_of(where, block_of(where, names, row, len(made) + 1)))
    except csv.Error as error:
        raise files.Fault(f"{files.at(name, reader.line_num)}: {error}") from None
    if names is None:
        raise files.Fault(f"{files.at(name, 1)}: empty; {expected()}")
    return b"".join(made)


def checked(name, tape):
    """A tape, if the library accepts it."""
    try:
        plan_tape(tape)
    except Refused as error:
        raise files.refused_tape(name, error) from None
    return tape


def blocks(tape):
    """The blocks of an accepted tape."""
    for first in range(sizes.LIMITS_BYTES, len(tape), sizes.RECORD_BYTES):
        yield read_record(tape[first : first + sizes.RECORD_BYTES])


def table(tape):
    """An accepted tape's blocks as a table."""
    lines = [",".join(COLUMNS)]
    for block in blocks(tape):
        lengths = (block.x, block.y, block.z, block.feed, block.radius)
        lines.append(",".join([*map(numerals.thousandths, lengths), str(block.mark)]))
    return "\n".join(lines) + "\n"


def run(arguments):
    """`tape`: limits and a table to a tape, or with --back a tape to a table."""
    if arguments.back:
        name = arguments.files[0]
        files.write(arguments.out, table(checked(name, files.read(name))).encode())
        return
    machine, name = arguments.files
    beginning = limits.of_file(machine)
    made = records(name, files.as_text(name, files.read(name)))
    files.write(arguments.out, checked(name, beginning + made))
    if not made:
        files.tell_empty(name)
