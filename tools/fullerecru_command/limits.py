"""A machine's limits as a text of nine named values with units, and as the 24 bytes of a tape."""
import io
import re
from dataclasses import replace
from fractions import Fraction

from fullerecru import Limits, Refusal, Refused, read_limits, sizes, write_limits

from . import files, numerals

# Units of each kind, by their plain names, as so many of the first one, which is the library's.
ACCELERATIONS = {"um/s2": 1, "mm/s2": 1_000, "m/s2": 1_000_000}
SPEEDS = {"um/s": 1, "mm/s": 1_000, "m/s": 1_000_000, "mm/min": Fraction(1_000, 60)}
LENGTHS = {"um": 1, "mm": 1_000}
TIMES = {"us": 1, "ms": 1_000}

# Name in the text, field of the library's limits, units.
NAMES = {
    **{f"acceleration-{axis}": (f"accel_{axis}", ACCELERATIONS) for axis in "xyz"},
    **{f"speed-{axis}": (f"speed_{axis}", SPEEDS) for axis in "xyz"},
    "corner-jump": ("corner_jump", SPEEDS),
    "chord-tolerance": ("chord_tolerance", LENGTHS),
    "tick": ("tick", TIMES),
}

# Limits that the library accepts: a single value is judged among them.
ACCEPTED = Limits(200_000, 200_000, 200_000, 1_000_000, 1_000_000, 1_000_000, 2_000, 1, 2_000)

BEYOND = 1 << 40  # above every limit that is accepted

LINE = re.compile(rf"(?P<name>[\w-]+)\s*=\s*(?P<value>\S*?)\s*(?P<unit>[^\W\d]\S*)?$")


def plain(unit):
    """A unit without the letters that keyboards lack: um/s2 of µm/s²."""
    return unit.replace("\u00b5", "u").replace("\u03bc", "u").replace("\u00b2", "2")


def shown(unit):
    """A plain unit as it is written: µm/s² of um/s2."""
    return unit.replace("um", "µm").replace("us", "µs").replace("s2", "s²")


def value_of(where, line):
    """Name and value of a line, in the library's unit."""
    match = LINE.match(line)
    if not match:
        raise files.Fault(f"{where}: not of the form: name = value unit")
    name, value, unit = match.group("name", "value", "unit")
    if name not in NAMES:
        raise files.Fault(f"{where}: unknown name {name!r}; the names are {', '.join(NAMES)}")
    units = NAMES[name][1]
    if not value or not re.fullmatch(numerals.DECIMAL, value, re.ASCII):
        raise files.Fault(f"{where}: {name}: {value or unit or ''!r} is no number such as 12 or 3.25")
    if unit is None or plain(unit) not in units:
        known = ", ".join(map(shown, units))
        raise files.Fault(f"{where}: {name}: {unit or 'no unit'}, but it needs one of {known}")
    try:
        return name, numerals.whole(value, units[plain(unit)], shown(next(iter(units))))
    except numerals.Unfit as unfit:
        raise files.Fault(f"{where}: {name}: {value} {unit}: {unfit}") from None


def accepts(field, value):
    """Whether the library takes a value among limits that it accepts otherwise."""
    try:
        write_limits(replace(ACCEPTED, **{field: value}))
    except (Refused, OverflowError):
        return False
    return True


def last_accepted(field, refused):
    """The last value that the library accepts on the way to one that it refuses."""
    accepted = getattr(ACCEPTED, field)
    while abs(refused - accepted) > 1:
        middle = (accepted + refused) // 2
        if accepts(field, middle):
            accepted = middle
        else:
            refused = middle
    return accepted


def judge(where, name, value, line):
    """Raises a fault with the range where the library refuses a value."""
    field, units = NAMES[name]
    if accepts(field, value):
        return
    least, most = (last_accepted(field, refused) for refused in (0, BEYOND))
    unit = shown(next(iter(units)))
    raise files.refused(
        f"{where}: {line}", Refusal.LIMITS, f"{name} is from {least:,} to {most:,} {unit}"
    )


def parse(name, text):
    """The limits of a text."""
    found, lines = {}, io.StringIO(text, newline=None).readlines()
    for number, whole_line in enumerate(lines, 1):
        line = whole_line.split("#")[0].strip()
        if not line:
            continue
        where = files.at(name, number)
        key, value = value_of(where, line)
        if key in found:
            raise files.Fault(f"{where}: {key} stands on line {found[key][0]} already")
        judge(where, key, value, line)
        found[key] = (number, value)
    missing = [key for key in NAMES if key not in found]
    if missing:
        where = files.at(name, max(1, len(lines)))
        raise files.Fault(f"{where}: the text ends without {', '.join(missing)}")
    return Limits(**{NAMES[key][0]: value for key, (_, value) in found.items()})


def is_binary(data):
    """Whether a file has limits in bytes: their last byte is 0, which no text has."""
    if b"\0" in data[: sizes.LIMITS_BYTES]:
        return True
    try:
        data.decode("utf-8")
    except UnicodeDecodeError:
        return True
    return False


def of_file(name):
    """The 24 bytes of the limits in a file: a text, or bytes of which the first 24 are limits."""
    data = files.read(name)
    if not is_binary(data):
        return write_limits(parse(name, files.as_text(name, data)))
    checked(name, data)
    return data[: sizes.LIMITS_BYTES]


def checked(name, data):
    """The limits of a file's first 24 bytes."""
    try:
        return read_limits(data)
    except Refused as error:
        raise files.refused(name, error.refusal) from None


def as_text(limits):
    """Limits as a text, in mm/s² and mm/s."""
    lines = []
    for name, (field, units) in NAMES.items():
        value = getattr(limits, field)
        if units in (LENGTHS, TIMES):
            lines.append(f"{name} = {value} {shown(next(iter(units)))}")
        else:
            unit = "mm/s2" if units is ACCELERATIONS else "mm/s"
            lines.append(f"{name} = {numerals.thousandths(value)} {shown(unit)}")
    return "\n".join(lines) + "\n"


def run(arguments):
    """`limits`: a text to 24 bytes, or with --back the other way."""
    data = files.read(arguments.file)
    if arguments.back:
        files.write(arguments.out, as_text(checked(arguments.file, data)).encode())
        return
    limits = parse(arguments.file, files.as_text(arguments.file, data))
    files.write(arguments.out, write_limits(limits))
