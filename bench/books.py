#!/usr/bin/python3
"""Measures books: a session of many entries that `nvimd serve --book` records, and then `replay` of
that book.

Three sessions: one makes edits of one line, sent ahead, one follows the text, one is a UI. Then the
same of one session alone. Told are the entries, their rate until the last reply came, what writing
the book takes at the end, the rate of `replay` with and without `--check`, and the memory of each
at its peak. Wants Debian's python3-msgpack.
"""

import os
import random
import subprocess
import tempfile
import threading
import time

import nvimd
from nvimd.command import Words, run
from nvimd.session import socket_at
from nvimd.values import unpacker
from session import LINE, call, last_of, set_rows, tell_load

LINES = 1_000
ATTACH = call("nvim_buf_attach", 0, False, {})
UI = call("nvim_ui_attach", 80, 24, {"ext_linegrid": True})
OUTBOX = 131_072


def edits(count):
    """So many requests that each replace a line of a text."""
    rows = random.Random(1).choices(range(LINES), k=count)
    return [set_rows(row, row + 1, [LINE]) for row in rows]


class Asking:
    """One session; its requests are sent ahead, and it waits for the reply to a last one."""

    def __init__(self, address):
        self.socket = socket_at(address)
        self.count = 0
        self.tail = b""

    def until(self, wanted):
        """Reads until these bytes came."""
        while wanted not in self.tail:
            piece = self.socket.recv(1 << 20)
            if not piece:
                raise nvimd.Ended("a server ended")
            self.tail = (self.tail + piece)[-(len(piece) + 64) :]
        self.tail = self.tail[self.tail.index(wanted) + len(wanted) :]

    def ask(self, stream):
        """Sends these requests and one more, and waits for the reply to that one."""
        self.count += 1
        last, wanted = last_of(self.count)
        writer = threading.Thread(target=self.socket.sendall, args=(stream + last,))
        writer.start()
        self.until(wanted)
        writer.join()


class Drain(threading.Thread):
    """A session that reads whatever comes, until the server ends."""

    def __init__(self, address, stream):
        super().__init__(daemon=True)
        self.asking = Asking(address)
        self.asking.ask(stream)
        self.start()

    def run(self):
        while self.asking.socket.recv(1 << 20):
            pass


def entries_of(path):
    """How many entries the end of a book tells."""
    with open(path, "rb") as file:
        file.seek(-14, os.SEEK_END)
        tail = file.read()
    values = unpacker()
    values.feed(tail[tail.rindex(b"\x92\xa3end") :])
    return values.unpack()[1]


def recorded(program, path, stream, others, apart=False):
    """Seconds of a session, and those that the server takes to end behind it; its memory at the
    peak, in MB. Its requests are sent ahead, or apart, each once the one before it is answered."""
    command = [program, "serve", "--listen"]
    server = nvimd.Server("--outbox", str(OUTBOX), book=path, command=command)
    one = Asking(server.address)
    one.ask(set_rows(0, -1, [LINE] * LINES))
    drains = [Drain(server.address, stream) for stream in others]
    start = time.perf_counter()
    for requests in stream if apart else [b"".join(stream)]:
        one.ask(requests)
    worked = time.perf_counter() - start
    one.socket.close()
    memory = server.memory("VmHWM")
    start = time.perf_counter()
    if server.quit(600) != 0:
        raise nvimd.Error("the server ended with another status than 0")
    for drain in drains:
        drain.join()
    return worked, time.perf_counter() - start, memory


def replayed(program, path, *words):
    """Seconds of a replay, and what it used."""
    start = time.perf_counter()
    child = subprocess.Popen([program, "replay", path, *words], stdout=subprocess.DEVNULL)
    _, status, used = os.wait4(child.pid, 0)
    child.returncode = os.waitstatus_to_exitcode(status)
    if child.returncode != 0:
        raise nvimd.Error(f"replay ended with status {child.returncode}")
    return time.perf_counter() - start, used


def measured(program, name, stream, others):
    with tempfile.TemporaryDirectory() as folder:
        path = os.path.join(folder, "book")
        worked, ended, memory = recorded(program, path, stream, others)
        count, size = entries_of(path), os.path.getsize(path) / 1e6
        print(f"    {name}: {count:,} entries, a book of {size:.1f} MB")
        heads = [f"{head:>11}" for head in ("entries/s", "of session", "MB at peak")]
        print(f"    {'':24} {'s':>8}", *heads)
        tell = Told(count, worked)
        tell("the session", worked, memory)
        tell("its end, with the book", ended)
        for words in ([], ["--check"]):
            seconds, used = replayed(program, path, *words)
            tell(" ".join(["replay", *words]), seconds, used.ru_maxrss / 1024)


class Told:
    """Lines on so many entries, beside the seconds that their session took."""

    def __init__(self, count, worked):
        self.count, self.worked = count, worked

    def __call__(self, what, seconds, memory=None):
        rate, ratio = self.count / seconds, self.worked / seconds
        peak = "" if memory is None else f" {memory:11.1f}"
        print(f"    {what:24} {seconds:8.2f} {rate:11,.0f} {ratio:11.2f}{peak}", flush=True)


def main():
    words = Words(__doc__)
    told = "about how many, a million without it"
    words.add_argument(
        "entries", metavar="ENTRIES", nargs="?", type=int, default=1_000_000, help=told
    )
    count = words.parse_args().entries
    program = nvimd.program()
    tell_load()
    measured(program, "one session that edits", edits(count // 2), [])
    measured(program, "beside a follower and a UI", edits(count // 4), [ATTACH, UI])
    return 0


if __name__ == "__main__":
    run(main, 3_600)
