"""`plot`: the tape and the title of a picture, and who draws it."""
import os

from fullerecru import HeldBy, Refusal, Refused, read_limits

from . import files, interpreters, ramps

FORMS = (".svg", ".png", ".pdf")
CAUSE_NAMES = {
    HeldBy.FEED: "feed or axis",
    HeldBy.CORNER: "corner",
    HeldBy.CHORD: "chord rule",
    HeldBy.REACH: "reach",
}


def form(out):
    """The form of a picture by its file's ending: "" for a window, None for no known one."""
    if out is None:
        return ""
    ending = os.path.splitext(out)[1].lower()
    return ending[1:] if ending in FORMS else None


def summary(run):
    """Blocks, length and time of a tape, and the share of each cause of its inner junctions."""
    blocks = len(run.rows)
    said = f"{blocks} block{'s' * (blocks != 1)}, {run.length / 1000:.3f} mm in {run.time:.3f} s"
    junctions = len(run.causes)
    if not junctions:
        return f"{said}; no inner junction"
    shares = ", ".join(
        f"{cause.word} {100 * run.causes.count(cause) / junctions:.1f} %" for cause in HeldBy
    )
    return f"{said}; of {junctions} inner junction{'s' * (junctions != 1)} held by {shares}"


def made(arguments):
    """The tape as it is run, and its limits."""
    name = arguments.tape
    tape = files.read(name)
    steps = files.read(arguments.steps) if arguments.steps else b""
    try:
        run = ramps.run_of(tape, steps)
    except Refused as error:
        faulty = arguments.steps if error.refusal is Refusal.STEPS else name
        raise files.refused_tape(faulty, error) from None
    if not run.rows:
        raise files.Fault(f"{name}: a tape without blocks has no plan to draw")
    return run, read_limits(tape)


def elsewhere(arguments):
    """Has another interpreter draw; returns its exit status."""
    if interpreters.is_passed_on():
        return interpreters.UNFIT
    status = interpreters.pass_on(arguments.words)
    if status is None:
        raise files.Fault(
            "plot needs matplotlib, and no Python 3 here has it: install the package "
            f"{interpreters.PACKAGE} (Debian, Ubuntu), or matplotlib by pip"
        )
    return status


def run(arguments):
    """Draws the tape's plan to a file, or in a window; returns the exit status."""
    tape, limits = made(arguments)
    if not interpreters.has_own():
        return elsewhere(arguments)
    from . import drawing  # needs matplotlib

    named = arguments.title or os.path.basename(arguments.tape)
    title = "".join(one if one.isprintable() else "?" for one in named)
    if arguments.out is None:
        drawing.show(tape, limits, title)
    else:
        drawing.save(tape, limits, title, arguments.out, form(arguments.out))
    return 0
