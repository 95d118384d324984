"""Where the program is."""

import functools
import os
import pathlib
import shutil
import subprocess

from .errors import Ended

TOP = pathlib.Path(__file__).resolve().parents[2]  # of a repository or a release
LAUNCHER = TOP / "nvimd"
BUILT = TOP / "crates" / "nvimd" / "out" / "nvimd"


@functools.cache
def program():
    """The path of `nvimd`: by the variable NVIMD, beside the package, or on PATH.

    Beside it stands the program of a release, or the launcher of a repository, which builds it.
    """
    named = os.environ.get("NVIMD")
    if named:
        return os.path.abspath(named)
    if LAUNCHER.is_file():
        return launched()
    found = shutil.which("nvimd")
    if found is None:
        raise Ended("no program nvimd: put it on PATH, or name it by NVIMD")
    return found


def launched():
    """What the launcher runs, once it has been built."""
    with open(LAUNCHER, "rb") as file:
        if file.read(2) != b"#!":
            return str(LAUNCHER)
    done = subprocess.run([LAUNCHER, "embed"], stdin=subprocess.DEVNULL, stdout=subprocess.DEVNULL)
    if done.returncode != 0:
        raise Ended(f"{LAUNCHER} can't be built or run: status {done.returncode}")
    return str(BUILT)
