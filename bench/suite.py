#!/usr/bin/python3
"""Measures a suite of 200 tests, each with an editor of its own, a text, a mark and a screen: at
nvimd by the fixtures of the plugin, and at Neovim (`nvim` on the path), which each test starts as a
child by `nvim --embed` and kills at its end, as it is installed (`--clean`) and bare, without the
plugins that come with it (`-u NONE`); and at a Neovim of which the next one starts while a test
runs, as the plugin does it with nvimd.

Prints milliseconds a test, as pytest tells them, and those of a processor, of pytest and the
editors together: the best of some rounds, in each of which every suite is run.

Wants Debian's python3-msgpack, python3-pytest and neovim.
"""

import os
import re
import subprocess
import sys
import tempfile

import nvimd
from nvimd.command import Words, run
from nvimd.program import TOP
from session import processor_time, tell_load

TESTS = 200
ROUNDS = 5
CLEAN = ["nvim", "--clean", "--headless", "-n", "--embed"]
BARE = ["nvim", "--headless", "-u", "NONE", "-i", "NONE", "-n", "--embed"]
FRESH = """
@pytest.fixture
def nvimd():
    session = package.start(COMMAND)
    yield session
    session.kill()
"""
AHEAD = """
started = [package.start(COMMAND)]

@pytest.fixture
def nvimd():
    session = started.pop()
    started.append(package.start(COMMAND))
    yield session
    session.process.kill()
"""
SERVERS = {
    "nvimd": "",
    "Neovim": FRESH.replace("COMMAND", repr(CLEAN)),
    "bare": FRESH.replace("COMMAND", repr(BARE)),
    "ahead": AHEAD.replace("COMMAND", repr(CLEAN)),
}
SUITE = f"""
import pytest

import nvimd as package
FIXTURE
@pytest.mark.parametrize("number", range({TESTS}))
def test_a_mark_on_a_screen(nvimd, number):
    screen = nvimd.screen(60, 12)
    space = nvimd.api.create_namespace("suite")
    nvimd.api.buf_set_lines(0, 0, -1, True, ["one", f"line {{number}}", "three"])
    nvimd.api.buf_set_extmark(0, space, 1, 0, {{"end_col": 4, "hl_group": "NonText"}})
    screen.wait(lambda it: it.rows[1].startswith(f"line {{number}}"))
    assert nvimd.api.buf_get_extmarks(0, space, 0, -1, {{}}) == [[1, 1, 0]]
"""
TOLD = re.compile(rf"{TESTS} passed in ([\d.]+)s")


def seconds(folder, fixture):
    """The seconds of one round, as pytest tells them, and those of a processor."""
    path = os.path.join(folder, "test_suite.py")
    with open(path, "w", encoding="utf-8") as file:
        file.write(SUITE.replace("FIXTURE", fixture))
    places = [os.path.join(TOP, "python"), os.environ.get("PYTHONPATH", "")]
    environment = {**os.environ, "NVIMD": nvimd.program(), "PYTHONPATH": os.pathsep.join(places)}
    words = [sys.executable, "-m", "pytest", "-q", "-p", "nvimd.plugin", path]
    given = {"cwd": folder, "env": environment, "capture_output": True, "text": True}
    with processor_time() as taken:
        done = subprocess.run(words, **given)
    found = TOLD.search(done.stdout)
    if not found:
        raise nvimd.Error(f"the suite failed: {done.stdout[-2000:]}{done.stderr[-500:]}")
    return float(found[1]), taken()


def main():
    words = Words(__doc__)
    told = "how often each suite is run; the best counts"
    words.add_argument("rounds", metavar="ROUNDS", nargs="?", type=int, default=ROUNDS, help=told)
    rounds = words.parse_args().rounds
    tell_load()
    with tempfile.TemporaryDirectory() as folder:
        each = [[seconds(folder, it) for it in SERVERS.values()] for _ in range(rounds)]
    found = dict(zip(SERVERS, (list(map(min, zip(*taken))) for taken in zip(*each))))
    print(f"    {'ms a test':16}", *[f"{name:>8}  ratio" for name in found])
    for number, what in enumerate(("in all", "of a processor")):
        ours = found["nvimd"][number]
        row = [(taken[number] / TESTS * 1e3, ours / taken[number]) for taken in found.values()]
        print(f"    {what:16}", *[f"{taken:8.1f} {ratio:6.2f}" for taken, ratio in row])
    return 0


if __name__ == "__main__":
    run(main, 1_200)
