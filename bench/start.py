#!/usr/bin/python3
"""Measures a start: milliseconds from the start of a process to its end, of one whose input is
empty. Of the program, of the launcher at the top of the repository, which looks for changed sources
first, of a link to the launcher, as on PATH, and of Neovim (`nvim` on the path), as it is installed
(`--clean`) and bare, without the plugins that come with it (`-u NONE`).

Prints the median, the least and the processor time of 200 starts of each, in turn.
"""

import os
import resource
import statistics
import subprocess
import tempfile
import time

import nvimd
from nvimd.command import Words, run
from nvimd.program import BUILT, LAUNCHER
from session import tell_load

STARTS = 200
CLEAN = ["nvim", "--clean", "--headless", "-n", "--embed"]
BARE = ["nvim", "--headless", "-u", "NONE", "-i", "NONE", "-n", "--embed"]


def started(words):
    """The milliseconds of one start, by the clock and of a processor."""
    before, began = resource.getrusage(resource.RUSAGE_CHILDREN), time.perf_counter()
    quiet = {"stdin": subprocess.DEVNULL, "stdout": subprocess.DEVNULL}
    try:
        subprocess.run(words, check=True, **quiet)
    except (OSError, subprocess.CalledProcessError) as error:
        raise nvimd.Error(f"{words[0]} can't be started: {error}") from None
    taken, now = time.perf_counter() - began, resource.getrusage(resource.RUSAGE_CHILDREN)
    processor = now.ru_utime + now.ru_stime - before.ru_utime - before.ru_stime
    return taken * 1e3, processor * 1e3


def main():
    words = Words(__doc__)
    words.add_argument("starts", metavar="STARTS", type=int, nargs="?", default=STARTS)
    count = words.parse_args().starts
    with tempfile.TemporaryDirectory() as folder:
        link = os.path.join(folder, "nvimd")
        os.symlink(LAUNCHER, link)
        kinds = {
            "the program": [BUILT, "embed"],
            "the launcher": [LAUNCHER, "embed"],
            "a link to it": [link, "embed"],
            "Neovim": CLEAN,
            "Neovim, bare": BARE,
        }
        found = {name: [started(command)] for name, command in kinds.items()}  # the first of each
        for name in found:
            found[name].clear()
        for _ in range(count):
            for name, command in kinds.items():
                found[name].append(started(command))
    tell_load()
    print(f"    {'ms a start':14} {'median':>8} {'least':>8} {'processor':>10}")
    for name, times in found.items():
        clock, processor = ([each[at] for each in times] for at in (0, 1))
        middle = statistics.median
        print(f"    {name:14} {middle(clock):8.2f} {min(clock):8.2f} {middle(processor):10.2f}")
    return 0


if __name__ == "__main__":
    run(main)
