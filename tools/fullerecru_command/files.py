"""Files in and out, and what is said where one is at fault."""
import os
import stat
import sys

from fullerecru import Refused


_READ = []  # names of the files that this run of the command has read


def begin():
    """Begins a run of the command: no file is read yet."""
    _READ.clear()


class Fault(Exception):
    """Bad input or a refusal: its text goes to standard error, and the exit status is 1."""


def at(name, line):
    """A place in a file, as file:line."""
    return f"{name}:{line}"


def refused(where, refusal, why=None):
    """The fault of a refusal: where, number, word, and why, else its meaning."""
    return Fault(f"{where}: refused by {refusal.value} ({refusal.word}): {why or refusal.meaning}")


def refused_tape(name, error: Refused):
    """The fault of a tape that is refused, with the record at fault."""
    where = f"{name}: record {error.place}" if error.place else name
    return refused(where, error.refusal)


def read(name):
    """The bytes of a file."""
    _READ.append(name)
    try:
        with open(name, "rb") as file:
            return file.read()
    except OSError as error:
        raise Fault(f"{name}: {error.strerror or error}") from None


def as_text(name, data):
    """The text of a file's bytes, UTF-8, perhaps behind a byte order mark."""
    try:
        return data.decode("utf-8-sig")
    except UnicodeDecodeError as error:
        line = data.count(b"\n", 0, error.start) + 1
        raise Fault(f"{at(name, line)}: not a text in UTF-8") from None


def tell_empty(name):
    """Says that a tape without blocks was made of a file."""
    print(f"fullerecru: {name}: no block, so the tape has limits alone", file=sys.stderr)


def write(out, data):
    """Writes bytes to the file out, or to standard output where it is None."""
    if out is None:
        if sys.stdout.isatty() and not is_text(data):
            raise Fault("these bytes are not for a terminal: name a file by -o")
        write_standard(data)
        return
    write_whole(out, lambda file: file.write(data))


def write_standard(data):
    """Writes bytes to standard output; a reader who has gone is no fault of the input."""
    try:
        sys.stdout.buffer.write(data)
        sys.stdout.buffer.flush()
    except OSError as error:
        # what could not be written is not tried again when the process ends
        os.dup2(os.open(os.devnull, os.O_WRONLY), sys.stdout.fileno())
        if isinstance(error, BrokenPipeError):
            raise
        raise Fault(f"standard output: {error.strerror or error}") from None


def is_text(data):
    """Whether bytes may be shown: no limits on tape are, since their last byte is 0."""
    return b"\0" not in data


def write_whole(out, fill):
    """Has a file beside out filled, which takes its place and its mode when it is whole.

    What is no regular file, as /dev/null, is written as it is. A file that was read is not
    overwritten, nor one that is write-protected.
    """
    out = os.path.realpath(out)
    try:
        mode = os.stat(out).st_mode if os.path.exists(out) else None
        if mode is not None and not stat.S_ISREG(mode):
            with open(out, "wb") as file:
                fill(file)
            return
        if mode is not None:
            check_old(out, mode)
        beside = f"{out}.{os.getpid()}.part"
        try:
            with open(beside, "xb") as file:
                fill(file)
            if mode is not None:
                os.chmod(beside, stat.S_IMODE(mode))
            os.replace(beside, out)
        except BaseException:
            remove(beside)
            raise
    except OSError as error:
        raise Fault(f"{out}: {error.strerror or error}") from None


def check_old(out, mode):
    """Raises a fault where the file that is there must stay."""
    if any(os.path.exists(name) and os.path.samefile(name, out) for name in _READ):
        raise Fault(f"{out}: it is read here, and would be overwritten")
    if not mode & (stat.S_IWUSR | stat.S_IWGRP | stat.S_IWOTH) or not os.access(out, os.W_OK):
        raise Fault(f"{out}: it is write-protected")


def remove(name):
    """Removes a file that may not be there."""
    try:
        os.remove(name)
    except OSError:
        pass
