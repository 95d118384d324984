#!/usr/bin/python3
"""Measures drawing (crates/bench), and prints microseconds of processor time a screen.
"""

import os
import subprocess

from nvimd import Error
from nvimd.command import Words, run
from session import processor_time


HERE = os.path.dirname(os.path.abspath(__file__))
CRATE = os.path.join(os.path.dirname(HERE), "crates", "bench")
PROGRAM = os.path.join(CRATE, "out", "bench")
TIMES = 2000


def spent(what, times):
    """The processor time of so many screens, in seconds."""
    with processor_time() as taken:
        subprocess.run([PROGRAM, "draw", what, str(times)], stdout=subprocess.DEVNULL, check=True)
    return taken()


def main():
    words = Words(__doc__)
    told = "how often each measurement is taken; the best counts"
    words.add_argument("rounds", metavar="ROUNDS", nargs="?", type=int, default=7, help=told)
    rounds = words.parse_args().rounds
    if not os.path.exists(PROGRAM):
        raise Error("build it first: (cd crates/bench && rt run)")
    for what, told in (
        ("screen", "120 by 40 in two windows"),
        ("long", "a line of 1 MB in 38 rows"),
    ):
        best = min(spent(what, TIMES) - spent(what, 1) for _ in range(rounds))
        print(f"{told:<28} {best / TIMES * 1e6:8.1f} us")
    return 0


if __name__ == "__main__":
    run(main)
