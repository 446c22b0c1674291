"""A program in RS-274 text to a tape."""
import codecs

from fullerecru import Refused, text

from . import files, limits


def visible(line):
    """A line of a text with its control characters made visible."""
    said = line.decode("utf-8", "backslashreplace")
    return "".join(one if one.isprintable() else repr(one)[1:-1] for one in said)


def with_line_feeds(program):
    """A text without a byte order mark, and with line feeds alone, as the library reads it."""
    return program.removeprefix(codecs.BOM_UTF8).replace(b"\r\n", b"\n")


def run(arguments):
    """`text`: limits and a program to a tape."""
    beginning = limits.of_file(arguments.limits)
    program = with_line_feeds(files.read(arguments.program))
    try:
        records = text(program)
    except Refused as error:
        where = files.at(arguments.program, error.place) if error.place else arguments.program
        fault = files.refused(where, error.refusal)
        if not error.place:
            raise fault from None
        line = program.split(b"\n")[error.place - 1]
        raise files.Fault(f"{fault}\n    {visible(line)}") from None
    files.write(arguments.out, beginning + records)
    if not records:
        files.tell_empty(arguments.program)
