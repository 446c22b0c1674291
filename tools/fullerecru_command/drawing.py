"""The picture of a tape as it is run, drawn by matplotlib.

A line that reaches its limit would hide it: so limits are the edge of a shaded ground, and the cap of
a junction is the tip of a mark below it, where a speed that comes down to the cap leaves room.
"""
import math

import matplotlib
from matplotlib.collections import LineCollection
from matplotlib.figure import Figure
from matplotlib.lines import Line2D
from matplotlib.markers import CARETUP
from matplotlib.patches import Patch

from fullerecru import HeldBy

from . import files
from .picture import CAUSE_NAMES, summary

# Colours that stay apart for the colour-blind (Okabe and Ito); None is from rest and to rest.
COLOURS = {
    HeldBy.FEED: "#0072B2",
    HeldBy.CORNER: "#D55E00",
    HeldBy.CHORD: "#009E73",
    HeldBy.REACH: "#CC79A7",
    None: "#555555",
}
NAMES = {**CAUSE_NAMES, None: "from or to rest"}
AXIS_COLOUR, GROUND, INK = "#0072B2", "#dfe2e6", "#1c2430"

SIZE = (9.0, 11.0)  # of the picture, inches
PIXELS = 100  # an inch, of a PNG
STYLE = {
    "svg.hashsalt": "fullerecru",  # the same names inside each time
    "svg.fonttype": "none",  # text stays text
    "pdf.fonttype": 42,
    "font.size": 9,
    "axes.edgecolor": INK,
    "axes.labelcolor": INK,
    "text.color": INK,
    "axes.linewidth": 0.7,
    "lines.solid_capstyle": "round",
    "axes.spines.top": False,
    "axes.spines.right": False,
}
UNDATED = {"svg": {"Date": None, "Creator": None}, "pdf": {"CreationDate": None}, "png": {}}

MILLI = 1e-3  # mm of µm
PIECES = 24  # of a ramp over the path from rest to the greatest speed
ROOM = 1.12  # of the field above what it must hold
SEEN = 2.5  # a cap or limit of at most so many times the greatest value is in the field
MOST_MARKS = 100  # up to so many inner junctions each has a mark


def speed(squared):
    """mm/s of (µm/s)²."""
    return math.sqrt(squared) * MILLI


def over_time(phase, _):
    """Points (s, mm/s) of a phase: speed changes evenly with time."""
    return [
        (phase.begin_time, phase.begin_speed * MILLI),
        (phase.end_time, phase.end_speed * MILLI),
    ]


def over_path(phase, greatest):
    """Points (mm, mm/s) of a phase, at even steps of speed: squared speed changes evenly with way."""
    first, last = phase.begin_speed, phase.end_speed
    pieces = max(1, math.ceil(PIECES * abs(last - first) * MILLI / greatest))
    points = [(phase.begin * MILLI, first * MILLI)]
    for k in range(1, pieces):
        here = first + (last - first) * k / pieces
        way = phase.begin + (here * here - first * first) / (2 * phase.accel)
        points.append((way * MILLI, here * MILLI))
    return points + [(phase.end * MILLI, last * MILLI)]


def coloured(run, points_of):
    """The speed as one line for each stretch of one cause: points and colour of each."""
    greatest = max(speed(row.given.peak) for row in run.rows)
    lines, colours, last = [], [], "none yet"
    for phase in run.phases:
        points = points_of(phase, greatest)
        if phase.cause is last:
            lines[-1] += points[1:]
        else:
            lines.append(points)
            colours.append(COLOURS[phase.cause])
            last = phase.cause
    return lines, colours


def block_ends(run, over):
    """Where each block begins and where the last one ends, s or mm."""
    begins = {}
    for phase in run.phases:
        begins.setdefault(phase.block, phase.begin_time if over == "time" else phase.begin * MILLI)
    last = run.phases[-1]
    end = last.end_time if over == "time" else last.end * MILLI
    return [begins[k] for k in range(len(run.rows))] + [end]


def top_of(run):
    """The height of the field of speeds: all speeds, and caps that are not far above, mm/s."""
    greatest = max(speed(row.given.peak) for row in run.rows)
    caps = [speed(row.cap) for row in run.rows]
    return ROOM * max([greatest] + [cap for cap in caps if cap <= SEEN * greatest])


def marks_all(run):
    """Whether each inner junction has a mark: of many only those do that are below the block caps."""
    return len(run.causes) <= MOST_MARKS


def junction_marks(run, ends):
    """Where the caps of junctions are marked, s or mm, and the caps, mm/s."""
    marks = []
    for k in range(1, len(run.rows)):
        cap, around = run.rows[k].junction_cap, (run.rows[k - 1].cap, run.rows[k].cap)
        if marks_all(run) or cap < min(around):
            marks.append((ends[k], speed(cap)))
    return marks


def draw_speed(axes, run, over, label):
    """Speed over time or path, under the caps of blocks and junctions."""
    ends, top = block_ends(run, over), top_of(run)
    caps = [min(speed(row.cap), top) for row in run.rows]
    axes.fill_between(ends, caps + caps[-1:], top, step="post", color=GROUND, linewidth=0)
    lines, colours = coloured(run, over_time if over == "time" else over_path)
    axes.add_collection(LineCollection(lines, colors=colours, linewidths=1.6, capstyle="round"))
    marks = [mark for mark in junction_marks(run, ends) if mark[1] <= top]
    axes.plot(
        [at for at, _ in marks], [cap for _, cap in marks], linestyle="none", marker=CARETUP,
        markersize=5, color=INK, markeredgewidth=0, clip_on=False, zorder=1.5,
    )
    axes.set(xlim=(ends[0], ends[-1]), ylim=(0, top), xlabel=label, ylabel="speed, mm/s")


def axis_points(run, axis, quantity):
    """Times, s, and values of an axis' speed, mm/s, or acceleration, m/s²; at a junction both jump."""
    times, values = [], []
    for phase in run.phases:
        given = run.rows[phase.block].given
        part = getattr(given.block, axis) / given.length
        if quantity == "speed":
            pair = (phase.begin_speed * part * MILLI, phase.end_speed * part * MILLI)
        else:
            pair = (phase.accel * part * MILLI * MILLI,) * 2
        for at, value in zip((phase.begin_time, phase.end_time), pair):
            if values[-2:] == [value, value]:
                times[-1] = at  # a level stretch goes on
            else:
                times.append(at)
                values.append(value)
    return times, values


def draw_axis(axes, points, limit, unit):
    """An axis' speed or acceleration as an area, and the ground beyond its limit."""
    times, values = points
    greatest = max(map(abs, values))
    inside = not greatest or limit <= SEEN * greatest
    top = ROOM * (limit if inside else greatest)
    if inside:
        for low, high in ((limit, top), (-top, -limit)):
            axes.axhspan(low, high, color=GROUND, linewidth=0)
    axes.fill_between(times, values, color=AXIS_COLOUR, alpha=0.25, linewidth=0)
    axes.plot(times, values, color=AXIS_COLOUR, linewidth=0.9)
    axes.axhline(0, color=INK, linewidth=0.5)
    axes.set(ylim=(-top, top))
    where = "" if inside else ", beyond the field"
    axes.set_title(f"limit ±{limit:g} {unit}{where}", loc="right", fontsize=8, pad=2)


def draw_axes(figure, grid, run, limits):
    """Speed and acceleration of X, Y and Z over time."""
    first = None
    for row, axis in enumerate("xyz"):
        pairs = (
            ("speed", getattr(limits, f"speed_{axis}") * MILLI, "mm/s"),
            ("acceleration", getattr(limits, f"accel_{axis}") * MILLI * MILLI, "m/s²"),
        )
        for column, (quantity, limit, unit) in enumerate(pairs):
            axes = figure.add_subplot(grid[row, column], sharex=first)
            first = first or axes
            draw_axis(axes, axis_points(run, axis, quantity), limit, unit)
            axes.set_ylabel(f"{axis.upper()}, {unit}")
            axes.yaxis.set_label_coords(-0.14, 0.5)
            axes.set_title(f"{quantity} of {axis.upper()}", loc="left", fontsize=9, pad=3)
            if row == 2:
                axes.set_xlabel("time, s")
            else:
                axes.tick_params(labelbottom=False)
    first.set_xlim(0, run.time)


def speed_legend(figure, run):
    """What the colours and marks of the speed say; causes that hold nothing here are left out."""
    held = {phase.cause for phase in run.phases}
    entries = [
        Line2D([], [], color=colour, linewidth=2.4, label=NAMES[cause])
        for cause, colour in COLOURS.items() if cause in held
    ]
    entries.append(Patch(color=GROUND, label="above block cap"))
    which = "" if marks_all(run) else " if lower"
    entries.append(Line2D([], [], linestyle="none", marker=CARETUP, color=INK, markersize=6,
                          label=f"junction cap{which} (tip)"))
    figure.legend(handles=entries, loc="upper left", bbox_to_anchor=(0.03, 0.952), ncol=len(entries),
                  fontsize=8.5, frameon=False, handlelength=1.4, columnspacing=1.2,
                  title="speed along the path, coloured by what held it:", alignment="left",
                  title_fontsize=8.5, borderpad=0, borderaxespad=0)


def axis_legend(figure):
    """What the ground of the axes' fields says."""
    words = ("beyond the limit that the tape has for the axis (at high speed the motors may give less "
             "than this acceleration: torque steps)")
    figure.legend(handles=[Patch(color=GROUND, label=words)], loc="lower left", frameon=False,
                  bbox_to_anchor=(0.03, 0.004), fontsize=8.5, handlelength=1.4, borderpad=0,
                  borderaxespad=0)


def draw(figure, run, limits, title):
    """The whole picture."""
    plain = title.replace("$", r"\$")  # a dollar would begin a formula
    figure.text(0.03, 0.988, plain, fontsize=11, fontweight="bold", va="top")
    figure.text(0.03, 0.970, summary(run), fontsize=9, va="top")
    speed_legend(figure, run)
    upper = figure.add_gridspec(2, 1, left=0.085, right=0.985, top=0.91, bottom=0.51, hspace=0.28)
    draw_speed(figure.add_subplot(upper[0]), run, "path", "way along the path, mm")
    draw_speed(figure.add_subplot(upper[1]), run, "time", "time, s")
    lower = figure.add_gridspec(3, 2, left=0.085, right=0.985, top=0.44, bottom=0.067, hspace=0.25,
                                wspace=0.21)
    draw_axes(figure, lower, run, limits)
    axis_legend(figure)


def styled():
    """Sets the style, whatever the user's own is, but for how windows are opened."""
    matplotlib.rcdefaults()
    matplotlib.rcParams.update(STYLE)


def save(run, limits, title, out, form):
    """Draws to a file."""
    styled()
    figure = Figure(figsize=SIZE)
    draw(figure, run, limits, title)
    metadata = {"Title": f"{title}: {summary(run)}", **UNDATED[form]}
    files.write_whole(
        out, lambda file: figure.savefig(file, format=form, dpi=PIXELS, metadata=metadata)
    )


def show(run, limits, title):
    """Draws in a window and waits until it is closed."""
    from matplotlib import pyplot

    styled()
    try:
        figure = pyplot.figure(figsize=SIZE)
    except Exception as error:  # each toolkit for windows has its own
        raise files.Fault(f"no window can be opened here: name a file by -o ({error})") from None
    if figure.canvas.required_interactive_framework is None:
        raise files.Fault("no window can be opened here: name a file by -o")
    draw(figure, run, limits, title)
    pyplot.show()
