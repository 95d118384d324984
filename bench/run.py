#!/usr/bin/python3
"""Measures the codec (crates/bench) beside msgpack-c, on the same bytes, and prints a table
in MB/s of processor time.
"""

import os
import subprocess

from nvimd import Error
from nvimd.command import Words, run
from session import processor_time
from spell import integer, items, text


HERE = os.path.dirname(os.path.abspath(__file__))
TOP = os.path.dirname(HERE)
OUT = os.path.join(HERE, "out")
CRATE = os.path.join(TOP, "crates", "bench")
PROGRAM = os.path.join(CRATE, "out", "bench")
OURS = [PROGRAM, "codec"]
MSGPACK_C = os.path.join(OUT, "msgpack_c")
THEIRS = [MSGPACK_C]


def inputs():
    """The name of each input, and its bytes."""
    small = []
    for msgid in range(100_000):
        lines = items([text(b"one line of a buffer"), text(b"")])
        params = items([integer(0), integer(msgid % 500), integer(msgid % 500 + 1), b"\xc2", lines])
        small.append(items([integer(0), integer(msgid), text(b"nvim_buf_set_lines"), params]))
    yield "100,000 small requests", b"".join(small)

    line = text(b"x" * 79)
    params = items([integer(0), integer(0), integer(-1), b"\xc2", items([line] * 200_000)])
    request = items([integer(0), integer(1), text(b"nvim_buf_set_lines"), params])
    yield "one request of 200,000 lines of 79 bytes", request

    yield "one string of 16 MiB", text(b"y" * (16 << 20))

    numbers = []
    for k in range(64):
        for n in ((1 << k) - 1, 1 << k if k < 63 else 1, -(1 << k)):
            numbers.append(integer(n))
    yield "lists of integers of all sizes", b"".join(items(numbers) for _ in range(5_000))


def run_of(program, mode, times, path):
    """The processor's seconds that a run takes, and what it prints."""
    words = [*program, mode, str(times)]
    with open(path, "rb") as data, processor_time() as taken:
        done = subprocess.run(words, stdin=data, capture_output=True, check=True)
    return taken(), done.stdout


def speed(program, mode, path, size, seconds):
    """Megabytes a second, the best of three, and what was printed."""
    once = min(run_of(program, mode, 1, path)[0] for _ in range(2))
    probe = max(run_of(program, mode, 4, path)[0] - once, 1e-4) / 3
    times = max(4, min(5000, int(seconds / probe)))
    best = 0.0
    for _ in range(3):
        base, _said = run_of(program, mode, 1, path)
        taken, said = run_of(program, mode, times, path)
        best = max(best, size * (times - 1) / max(taken - base, 1e-6) / 1e6)
    return best, said


def main():
    words = Words(__doc__)
    told = "about how long one measurement takes"
    words.add_argument("seconds", metavar="SECONDS", nargs="?", type=float, default=1.0, help=told)
    seconds = words.parse_args().seconds
    os.makedirs(OUT, exist_ok=True)
    files = []
    for k, (name, data) in enumerate(inputs()):
        path = os.path.join(OUT, f"input{k}.mpack")
        with open(path, "wb") as file:
            file.write(data)
        files.append((name, path, len(data)))
    if not os.path.exists(PROGRAM):
        subprocess.run(["rt", "run"], cwd=CRATE, stdin=subprocess.DEVNULL, check=True)
    compiler = ["cc", "-O2", "-o", MSGPACK_C, os.path.join(HERE, "msgpack_c.c"), "-lmsgpackc"]
    there = subprocess.run(compiler).returncode == 0
    if not there:
        print("msgpack-c is missing (Debian: libmsgpack-dev): only the codec is measured")
    ways = " | ".join(f"{way:>8} {'msgpack-c':>10}" for way in ("decode", "encode"))
    print(f"{'input':42} {'MB':>6} | {ways}")
    for name, path, size in files:
        row = []
        for mode in ("decode", "encode"):
            mine, said = speed(OURS, mode, path, size, seconds)
            row.append(f"{mine:8.0f}")
            if there:
                theirs, other = speed(THEIRS, mode, path, size, seconds)
                row.append(f"{theirs:10.0f}" if theirs < 100_000 else f"{'lends':>10}")
                if said != other:
                    raise Error(f"they differ on {name}: {said!r} and {other!r}")
            else:
                row.append(f"{'-':>10}")
        told = f"{row[0]} {row[1]} | {row[2]} {row[3]}"
        print(f"{name:42} {size / 1e6:6.1f} | {told}", flush=True)
    return 0


if __name__ == "__main__":
    run(main)
