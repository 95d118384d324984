"""Each call for memory of `nvimd` is refused in turn, one a run, and how the run ends is judged.

With `embed` a run ends with status 0 and all that it writes otherwise, or with status 1, the line
that tells it and a front of that. With `serve` a session is sent all of it or a front, and the
server goes on and serves the next session whole, or ends with status 1; where all calls behind one
are refused too, it ends with status 1, or ends each session. Nothing hangs, and nothing ends by a
signal.

It takes half a minute at most, and skips calls evenly where there are too many; `--each-call` skips
none, and refuses each with all that come behind it too. It wants gcc, whose work is
refused_memory.c.
"""

import os
import pathlib
import shutil
import socket
import subprocess
import sys
import tempfile
import time
from concurrent.futures import ThreadPoolExecutor

import pytest

import nvimd
from nvimd.server import running
from nvimd.values import packed, unpacker

LINE = b"nvimd: out of memory\n"
PATIENCE = 30  # seconds that one run may take
SECONDS = 26  # that all runs may take without --all
AT_ONCE = os.cpu_count() or 1

COUNT = ("nvim_buf_line_count", [0])
UI = {"ext_linegrid": True, "rgb": True}
VIRTUAL = {"end_col": 2, "hl_group": "Word", "virt_text": [["note", "Word"]]}
ATTACH = ["nvim_buf_attach", [0, False, {}]]
STREAMS = {
    "a count of lines": [COUNT],
    "a text that is followed, changed and marked": [
        ("nvim_buf_attach", [0, True, {}]),
        ("nvim_buf_set_lines", [0, 0, -1, True, ["one", "two", "three \u00e4\u20ac"]]),
        ("nvim_create_namespace", ["words"]),
        ("nvim_buf_set_extmark", [0, 1, 1, 1, {"end_row": 1, "end_col": 3, "hl_group": "Search"}]),
        ("nvim_buf_set_text", [0, 0, 1, 1, 1, ["x", "y"]]),
        ("nvim_command", ["undo"]),
        ("nvim_command", ["redo"]),
        ("nvim_buf_get_extmarks", [0, 1, 0, -1, {"details": True}]),
        ("nvim_buf_get_lines", [0, 0, -1, True]),
        ("nvim_buf_del_extmark", [0, 1, 1]),
        ("nvim_buf_get_lines", ["no buffer"]),
        ("nvim_buf_detach", [0]),
    ],
    "a screen": [
        ("nvim_ui_attach", [30, 8, UI]),
        ("nvim_buf_set_lines", [0, 0, -1, True, ["one", "\ttwo", "\u4e09"]]),
        ("nvim_set_hl", [0, "Word", {"fg": "#102030", "bold": True}]),
        ("nvim_buf_set_extmark", [0, 1, 0, 0, VIRTUAL]),
        ("nvim_win_set_cursor", [0, [2, 1]]),
        ("nvim_ui_try_resize", [24, 6]),
        ("nvim_ui_detach", []),
    ],
    "calls at once": [
        (
            "nvim_call_atomic",
            [[ATTACH, *[["nvim_buf_set_lines", [0, n, n, True, [f"{n}"]]] for n in range(6)]]],
        ),
        (
            "nvim_call_atomic",
            [
                [
                    ["nvim_buf_get_lines", [0, 0, -1, True]],
                    ["nvim_command", ["undo"]],
                    ["nvim_no_such_call", []],
                ]
            ],
        ),
        ("nvim_create_buf", [True, False]),
        ("nvim_list_bufs", []),
        ("nvim_get_api_info", []),
    ],
}
# What is sent of a screen is cut into batches as the threads of a server meet, so a front of it
# can't be told.
VARYING = {"a screen"}


def requests(calls):
    return b"".join(packed([0, msgid, *call]) for msgid, call in enumerate(calls, 1))


class Trial:
    """Runs of one command over one stream, and how they ended."""

    def __init__(self, program, shim, folder, name):
        self.program, self.shim, self.folder, self.name = program, shim, folder, name
        self.stream = requests(STREAMS[name])
        self.ends = {}

    def environment(self, number, goes_on):
        count = os.path.join(self.folder, f"{number}-{goes_on:d}-{id(self)}")
        words = {
            "LD_PRELOAD": self.shim,
            "REFUSE": str(number),
            "REFUSE_ON": f"{goes_on:d}",
            "COUNT_TO": count,
        }
        return {**os.environ, **words}, count

    def begin(self):
        """The run in which nothing is refused: what it writes, and how many calls for memory there
        are."""
        start = time.monotonic()
        environment, count = self.environment(0, False)
        status, self.whole, said = self.run(environment)
        self.seconds = time.monotonic() - start
        if status != 0 or said:
            what = f"status {status} with all memory that it wants: {said!r}"
            raise nvimd.Error(f"{self.name}, {self.command}: {what}")
        with open(count, "rb") as file:
            self.calls = int.from_bytes(file.read(), sys.byteorder)

    def refuse(self, number, goes_on):
        """A run: what is refused in it, and how it ends."""
        environment, _ = self.environment(number, goes_on)
        try:
            end = self.judged(*self.run(environment), goes_on)
        except (subprocess.TimeoutExpired, TimeoutError):
            end = "hangs"
        self.ends[end] = self.ends.get(end, 0) + 1
        refused = f"call {number}{' and all behind it are' if goes_on else ' is'} refused"
        return f"{self.name}, {self.command}, where {refused}", end


class Embed(Trial):
    command = "embed"
    right = ("status 0 and whole", "status 1 and a front")

    def run(self, environment):
        given = {"input": self.stream, "capture_output": True, "timeout": PATIENCE}
        done = subprocess.run([self.program, "embed"], **given, env=environment)
        return done.returncode, done.stdout, done.stderr

    def judged(self, status, out, said, _goes_on):
        if (status, out, said) == (0, self.whole, b""):
            return "status 0 and whole"
        if (status, said) == (1, LINE) and self.whole.startswith(out):
            return "status 1 and a front"
        return f"status {status}, {len(out)} of {len(self.whole)} bytes, {said!r}"


class Serve(Trial):
    command = "serve"
    right = (
        "status 0 and whole",
        "status 0 and a session cut",
        "status 1 and a front",
        "status 1 at the beginning",
        "each session is cut",
    )
    next = requests([COUNT])
    quit = requests([("nvim_command", ["qall!"])])

    def over(self, address, stream, child):
        """What a session is sent that sends this; None where nobody listens."""
        while True:
            with socket.socket(socket.AF_UNIX) as connection:
                connection.settimeout(PATIENCE)
                got = b""
                try:
                    connection.connect(address)
                except (FileNotFoundError, ConnectionRefusedError):
                    if child.poll() is not None:
                        return None
                    time.sleep(0.001)
                    continue
                try:
                    connection.sendall(stream)
                    connection.shutdown(socket.SHUT_WR)
                    while piece := connection.recv(1 << 16):
                        got += piece
                except TimeoutError:
                    raise
                except OSError:
                    pass
                return got

    def end(self, address, child):
        """Asks the server to end, more than once, since the session that asks may be the one that
        finds no memory."""
        for _ in range(3):
            if self.over(address, self.quit, child) != b"":
                child.wait(PATIENCE)
                return
            try:
                child.wait(0.3)
                return
            except subprocess.TimeoutExpired:
                pass

    def run(self, environment):
        with tempfile.TemporaryDirectory(dir=self.folder) as folder:
            address = os.path.join(folder, "socket")
            words = [self.program, "serve", "--sessions", "1", "--listen", address]
            pipes = {"stdout": subprocess.PIPE, "stderr": subprocess.PIPE}
            child = subprocess.Popen(words, stdin=subprocess.DEVNULL, **pipes, env=environment)
            running.append(child)
            try:
                sent = [self.over(address, stream, child) for stream in (self.stream, self.next)]
                self.end(address, child)
                status = child.poll()
            finally:
                child.kill()
                out, said = child.communicate()
                running.remove(child)
        return status, (*sent, out), said

    def begin(self):
        super().begin()
        self.whole = self.whole[0]

    def has_all(self, sent):
        """Whether all that is due to the first session is in what it was sent."""
        if self.name not in VARYING:
            return sent == self.whole
        messages = unpacker()
        messages.feed(sent)
        return any(message[:2] == [1, len(STREAMS[self.name])] for message in messages)

    def judged(self, status, written, said, goes_on):
        first, after, out = written
        if (status, said, first, out) == (1, LINE, None, b""):
            return "status 1 at the beginning"
        is_front = first is not None and (self.name in VARYING or self.whole.startswith(first))
        cuts = (first is None or not self.has_all(first)) + (not after)
        is_next = not after or (len(after) == 5 and after.startswith(b"\x94\x01\x01\xc0"))
        if out == b"" and is_front and is_next:
            if (status, said) == (1, LINE):
                return "status 1 and a front"
            if (status, said, cuts) == (0, b"", 0):
                return "status 0 and whole"
            if (status, said) == (None, b"") and goes_on:
                return "each session is cut"
            if (status, said) == (0, b"") and (cuts == 1 or goes_on):
                return "status 0 and a session cut"
        got = f"{len(first or b'')} of {len(self.whole)} bytes and then {after!r}"
        return f"status {status}, {got}, {said!r}"


@pytest.mark.skipif(shutil.which("cc") is None, reason="no cc")
def test_each_run_ends_as_it_may(request, check, tmp_path):
    is_whole = request.config.getoption("each_call")
    shim = str(tmp_path / "refused_memory.so")
    source = pathlib.Path(__file__).with_name("refused_memory.c")
    subprocess.run(["cc", "-O2", "-shared", "-fPIC", "-o", shim, source], check=True)
    given = nvimd.program(), shim, str(tmp_path)
    trials = [kind(*given, name) for name in STREAMS for kind in (Embed, Serve)]
    for trial in trials:
        trial.begin()
    wanted = sum(trial.calls * trial.seconds for trial in trials) / AT_ONCE
    step = 1 if is_whole else max(1, round(wanted / SECONDS + 0.5))
    ways = (False, True) if is_whole else (False,)
    with ThreadPoolExecutor(AT_ONCE) as pool:
        for trial in trials:
            runs = [(n, goes_on) for n in range(1, trial.calls + 1, step) for goes_on in ways]
            for refused, end in pool.map(lambda run: trial.refuse(*run), runs):
                check.same(refused, end if end not in trial.right else "right", "right")
            ends = ", ".join(f"{end}: {count}" for end, count in sorted(trial.ends.items()))
            told = f"{len(runs)} runs over {trial.calls} calls for memory: {ends}"
            print(f"{trial.name}, {trial.command}: {told}", flush=True)
