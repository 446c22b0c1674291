"""The command line of tools/fullerecru."""
import argparse
import sys

from . import files, limits, moves, picture, texts

LIMITS_HELP = """\
A text of limits has a line `name = value unit` for each of the nine, and comments behind #:

    acceleration-x = 200 mm/s2    (and -y, -z)   µm/s² um/s2 mm/s2 m/s2
    speed-x = 1 m/s               (and -y, -z)   µm/s um/s mm/s m/s mm/min
    corner-jump = 2 mm/s                         the same
    chord-tolerance = 1 um                       µm um mm
    tick = 2 ms                                  µs us ms

Values are exact and come to a whole number of µm/s², µm/s, µm, µs.

example: tools/fullerecru limits examples/limits/machine-m.limits -o machine.bin
         tools/fullerecru limits --back examples/tapes/right-angle.tape
"""
TAPE_HELP = """\
MOVES.csv has the first line x,y,z,feed, perhaps with radius and mark, then a line for each block: moves
and radius in mm, feed in mm/s. A radius left out is 0, a mark the block's place from 1. LIMITS is a text
of limits, or a file whose first 24 bytes are limits, as a tape's.

example: tools/fullerecru tape examples/limits/machine-m.limits examples/moves/frame.csv -o frame.tape
         tools/fullerecru tape --back examples/tapes/right-angle.tape
"""
TEXT_HELP = """\
PROGRAM.ngc has straight moves alone: the words N, G0, G1, G20, G21, G90, G91, X, Y, Z and F of RS-274,
in capitals, with digits on both sides of a point; no comments, no %, no arcs, no M, S or T. Lines may
end in CR LF. LIMITS is a text of limits, or a file whose first 24 bytes are limits, as a tape's.

example: tools/fullerecru text examples/limits/machine-m.limits examples/text/pocket-with-boss.ngc \\
             -o pocket.tape
"""
PLOT_HELP = """\
Draws a tape's plan: speed over the path and over time under its caps, coloured by what held it, and the
speed and acceleration of each axis. Without -o in a window. Needs matplotlib, also of another Python 3.

example: tools/fullerecru plot examples/tapes/mould-row.tape -o plan.svg
"""


def sub_parser(commands, name, summary, epilog):
    """The parser of a command, with -o."""
    parser = commands.add_parser(
        name, help=summary, description=summary, epilog=epilog,
        formatter_class=argparse.RawDescriptionHelpFormatter,
    )
    parser.add_argument("-o", dest="out", metavar="OUT", help="write to this file")
    return parser


def parser():
    """The parser of the command line."""
    top = argparse.ArgumentParser(
        prog="fullerecru", description="Limits, tapes and texts in files, and the picture of a plan.",
        epilog="example: tools/fullerecru plot examples/tapes/mould-row.tape -o plan.svg\n\n"
        "Exit status: 0 done, 1 bad input or a refusal, 2 wrong use.",
        formatter_class=argparse.RawDescriptionHelpFormatter,
    )
    commands = top.add_subparsers(dest="command", required=True, metavar="COMMAND")
    one = sub_parser(commands, "limits", "a text of limits to 24 bytes, and back", LIMITS_HELP)
    one.add_argument("file", metavar="FILE")
    one.add_argument("--back", action="store_true", help="FILE has 24 bytes of limits: to a text")
    one = sub_parser(commands, "tape", "a table of moves to a tape, and back", TAPE_HELP)
    one.usage = "\n       ".join(
        ("%(prog)s [-h] [-o OUT] LIMITS MOVES.csv", "%(prog)s [-h] [-o OUT] --back TAPE")
    )
    one.add_argument("files", nargs="+", metavar="FILE", help="LIMITS and MOVES.csv, or TAPE")
    one.add_argument("--back", action="store_true", help="a tape to a table")
    one = sub_parser(commands, "text", "a program in RS-274 text to a tape", TEXT_HELP)
    one.add_argument("limits", metavar="LIMITS")
    one.add_argument("program", metavar="PROGRAM.ngc")
    one = sub_parser(commands, "plot", "the picture of a tape's plan", PLOT_HELP)
    one.add_argument("tape", metavar="TAPE")
    one.add_argument("--steps", metavar="FILE", help="torque steps, eight bytes")
    one.add_argument("--title", metavar="T", help="first line of the title; else the tape's name")
    return top


def asked(top, words):
    """The arguments of the words; wrong use ends with status 2."""
    arguments = top.parse_args(words)
    arguments.words = words
    if arguments.command == "tape" and len(arguments.files) != (1 if arguments.back else 2):
        top.error("tape needs LIMITS and MOVES.csv, or --back and one TAPE")
    if arguments.command == "plot" and picture.form(arguments.out) is None:
        top.error(f"plot writes {', '.join(picture.FORMS)}: {arguments.out}")
    return arguments


RUNS = {"limits": limits.run, "tape": moves.run, "text": texts.run, "plot": picture.run}


def main(words):
    """Does what the words ask for and returns the exit status."""
    arguments = asked(parser(), words)
    files.begin()
    try:
        return RUNS[arguments.command](arguments) or 0
    except files.Fault as fault:
        print(f"fullerecru: {fault}", file=sys.stderr)
        return 1
    except BrokenPipeError:
        return 1
