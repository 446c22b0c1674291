"""Another interpreter of Python 3 that has matplotlib, where this one has not."""
import os
import re
import subprocess
import sys

PACKAGE = "python3-matplotlib"
DISTRIBUTION = "/usr/bin/python3"
SCRIPT = os.path.join(os.path.dirname(os.path.dirname(os.path.abspath(__file__))), "fullerecru")
PASSED_ON = "FULLERECRU_PASSED_ON"  # set where the command runs in another interpreter
UNFIT = 69  # exit status of an interpreter that lacks matplotlib, or is too old
NOT_STARTED = (126, 127)  # exit statuses of a name that starts no interpreter


def has_own():
    """Whether this interpreter has matplotlib."""
    try:
        import matplotlib.figure  # noqa: F401  (only whether it is there)
    except ImportError:
        return False
    return True


def is_passed_on():
    """Whether another interpreter has passed the command on to this one."""
    return bool(os.environ.get(PASSED_ON))


def candidates():
    """The distribution's interpreter, then those on PATH; each name once."""
    named = [DISTRIBUTION]
    for folder in os.get_exec_path():
        try:
            names = sorted(os.listdir(folder))
        except OSError:
            continue
        fit = (name for name in names if re.fullmatch(r"python3(\.\d+)?", name))
        named += [os.path.join(folder, name) for name in fit]
    for path in dict.fromkeys(named):
        if path != sys.executable and os.access(path, os.X_OK):
            yield path


def pass_on(words):
    """The exit status of the command in the first interpreter that is fit; None where none is."""
    environment = dict(os.environ)
    environment[PASSED_ON] = "1"
    for path in candidates():
        try:
            done = subprocess.run([path, SCRIPT] + words, env=environment, stderr=subprocess.PIPE)
        except OSError:
            continue
        if done.returncode != UNFIT and done.returncode not in NOT_STARTED:
            sys.stderr.write(done.stderr.decode(errors="backslashreplace"))
            return done.returncode
    return None
