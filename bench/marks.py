#!/usr/bin/python3
"""Measures the marks of a buffer (crates/bench), and Neovim's beside them where `nvim` is on
the path.

Both run pinned to one processor, and do the same in the same order: with 1,000, 10,000 and 100,000
marks, without and with ends, each mark is set at a place that looks random, each is set again
elsewhere, a line is put in front of all of them and taken out again 500 times, all are listed, and
as many are found by ids that look random. They must come to the same sums. Neovim is asked from
Lua, where a call that does nearly nothing costs what the last line says.
"""

import os
import re
import shutil
import subprocess

from nvimd import Error
from nvimd.command import Words, run


HERE = os.path.dirname(os.path.abspath(__file__))
PROGRAM = os.path.join(os.path.dirname(HERE), "crates", "bench", "out", "bench")
SCRIPT = os.path.join(HERE, "marks.lua")
NVIM = ["nvim", "--headless", "-u", "NONE", "-i", "NONE", "-n"]
NVIM += ["-c", f"luafile {SCRIPT}", "-c", "qa!"]
LINE = re.compile(r"(.*): (\d+), (\d+) ns")
COUNTS = (1_000, 10_000, 100_000)
EDITS = 1_000


def measured(words, marks, kind):
    """The sums of one run by work, and the nanoseconds."""
    env = dict(os.environ, MARKS=str(marks), ENDS=kind)
    words = ["taskset", "-c", str(max(os.sched_getaffinity(0))), *words]
    given = {"env": env, "stdout": subprocess.PIPE, "stderr": subprocess.STDOUT, "text": True}
    found = LINE.findall(subprocess.run(words, check=True, **given).stdout)
    sums = {work: int(sum) for work, sum, _ in found}
    return sums, {work: int(taken) for work, _, taken in found}


def best(words, marks, kind, rounds):
    """The sums, which are the same in each run, and the least nanoseconds of each work."""
    runs = [measured(words, marks, kind) for _ in range(rounds)]
    sums = runs[0][0]
    if any(run[0] != sums for run in runs):
        raise Error(f"{words[0]}: two runs came to different sums")
    return sums, {work: min(run[1][work] for run in runs) for work in sums}


def figures(times, marks):
    """The figures of the works, each by its name and unit."""
    return {
        "set, us": times["set"] / marks / 1e3,
        "set again, us": times["set again"] / marks / 1e3,
        "an edit in front, us": times["edit"] / EDITS / 1e3,
        "list all, us": times["list"] / 1e3,
        "find by id, us": times["find"] / marks / 1e3,
    }


def row(name, theirs, ours):
    beside = f"{theirs:9.2f} {ours:9.2f} {ours / theirs:6.2f}" if theirs else f"{ours:19.2f}"
    return f"    {name:36} {beside}"


def main():
    words = Words(__doc__)
    told = "how often each program is run; the best of each figure counts"
    words.add_argument("rounds", metavar="ROUNDS", nargs="?", type=int, default=5, help=told)
    rounds = words.parse_args().rounds
    if not os.path.exists(PROGRAM):
        raise Error("build it first: (cd crates/bench && rt run)")
    nvim = shutil.which("nvim")
    print(f"load {os.getloadavg()[0]:.1f}, best of {rounds}")
    heads = f"{'Neovim':>9} {'Buffer':>9} {'ratio':>6}" if nvim else f"{'Buffer':>19}"
    print(f"    {'':36} {heads}")
    calls = []
    for kind in ("points", "ends"):
        for marks in COUNTS:
            sums, times = best([PROGRAM, "marks", str(marks), kind, "time"], marks, kind, rounds)
            ours, theirs = figures(times, marks), {}
            if nvim:
                other, times = best(NVIM, marks, kind, rounds)
                calls.append(times["call"] / other.pop("call") / 1e3)
                if other != sums:
                    raise Error(f"{marks} {kind}: {sums} here, and {other} in Neovim")
                theirs = figures(times, marks)
            for name in ours:
                print(row(f"{marks} {kind}: {name}", theirs.get(name), ours[name]))
    if calls:
        print(f"    a call of Neovim that does nearly nothing, us: {min(calls):.2f}")
    return 0


if __name__ == "__main__":
    run(main)
