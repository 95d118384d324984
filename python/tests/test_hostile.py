"""Hostile sessions of `nvimd serve` beside honest ones, seeded: what the honest ones are sent is
right all the time.

Twenty honest sessions edit two shared texts and follow them, or change texts of their own. Beside
them others send streams with wrong bytes at a random place, are killed in the middle of a message,
read one byte now and then, open and close at once, begin values that never end, and let their
outbox run over. Each of these ends as it must: closed by the server, or by itself. Behind it all
the server has the descriptors that it had, and ends when it is asked to. The book that it recorded
is right, by `nvimd replay --check`, and gives each honest session what its client read.
"""

import os
import random
import select
import socket
import subprocess
import threading
import time

import pytest

import nvimd
from crowd import PATIENCE, SHARED, Editor, Owner, is_there, settled
from held import Replayed, held_by_sessions
from nvimd.session import socket_at
from nvimd.values import packed
from runs import LONG

SECONDS = 20
OUTBOX = 256
PIECE = 1 << 16
LATE = 0.25  # seconds between two bytes that a slow reader takes


class Honest:
    """A part of the crowd that goes on until the time is over."""

    def work(self):
        while time.monotonic() < self.until:
            self.step()
            self.steps += 1


class HonestEditor(Honest, Editor):
    pass


class HonestOwner(Honest, Owner):
    pass


def calls(draw):
    """A stream of calls as an honest session might make them."""
    names = [
        ("nvim_buf_line_count", [1]),
        ("nvim_buf_get_lines", [2, 0, -1, False]),
        ("nvim_list_bufs", []),
        ("nvim_create_namespace", ["hostile"]),
        ("nvim_buf_attach", [1, False, {}]),
        ("nvim_get_api_info", []),
    ]
    return b"".join(packed([0, n, *draw.choice(names)]) for n in range(draw.randint(1, 40)))


def read_out(connection, seconds):
    """Reads until the server closes the connection: whether it did."""
    until = time.monotonic() + seconds
    while time.monotonic() < until:
        if select.select([connection], [], [], 0.1)[0]:
            try:
                if not connection.recv(PIECE):
                    return True
            except ConnectionResetError:
                return True
    return False


def sent(connection, data):
    """Sends what the server takes."""
    try:
        connection.sendall(data)
    except (BrokenPipeError, ConnectionResetError):
        pass


def ends(connection):
    """Says that no more is sent."""
    try:
        connection.shutdown(socket.SHUT_WR)
    except OSError:
        pass


class Hostile(threading.Thread):
    """Sessions of one kind, one after another, until the time is over."""

    def __init__(self, server, check, seed, until):
        super().__init__(daemon=True)
        self.server, self.check, self.until = server, check, until
        self.random = random.Random(f"{type(self).__name__} {seed}")
        self.count = 0

    def same(self, what, got, wanted):
        self.check.same(f"{type(self).__name__}: {what}", got, wanted)

    def run(self):
        while time.monotonic() < self.until:
            try:
                connection = socket_at(self.server.address)
            except nvimd.Ended as ended:
                return self.same("its beginning", str(ended), "a connection")
            self.attempt(connection)
            connection.close()
            self.count += 1


class BadBytes(Hostile):
    """A stream with a byte that begins nothing at a random place, and anything behind it."""

    def attempt(self, connection):
        stream = calls(self.random)
        at = self.random.randint(0, len(stream))
        sent(connection, stream[:at] + b"\xc1" + self.random.randbytes(40))
        sent(connection, b"\xc1" * 70_000)
        ends(connection)  # a length that the bytes spell may go on behind them
        self.same("closed", read_out(connection, PATIENCE), True)


class NoCalls(Hostile):
    """Values that are no calls, too deep, or too long."""

    WRONG = [
        b"\x91" * 65,
        b"\xc6\xff\xff\xff\xff",
        b"\xdd\x04\x00\x00\x01",
        b"\xc0",
        b"\x93\x00\x01\x02",
        b"\x94\x01\x01\xc0\xc0",
    ]

    def attempt(self, connection):
        sent(connection, calls(self.random) + self.random.choice(self.WRONG))
        self.same("closed", read_out(connection, PATIENCE), True)


class Unended(Hostile):
    """Begins a great value, gives it a little and leaves."""

    def attempt(self, connection):
        front = b"\x91" * self.random.randint(0, 60) + b"\x01" * self.random.randint(0, 5_000)
        sent(connection, b"\xdd\x03\xff\xff\xfb" + front)
        time.sleep(self.random.random() / 2)


class OpenClose(Hostile):
    """Opens and closes at once."""

    def attempt(self, connection):
        if self.random.random() < 0.5:
            sent(connection, calls(self.random)[: self.random.randint(1, 30)])
        time.sleep(0.005)


class Killed(Hostile):
    """A process that is killed while it asks and doesn't read."""

    PROGRAM = (
        "import socket, sys\n"
        "connection = socket.socket(socket.AF_UNIX)\n"
        "connection.connect(sys.argv[1])\n"
        "data = sys.stdin.buffer.read()\n"
        "while True: connection.sendall(data)\n"
    )

    def attempt(self, connection):
        words = ["/usr/bin/python3", "-c", self.PROGRAM, self.server.address]
        child = subprocess.Popen(words, stdin=subprocess.PIPE, stderr=subprocess.DEVNULL)
        child.stdin.write(calls(self.random))
        child.stdin.close()
        time.sleep(0.2 + self.random.random() / 2)
        child.kill()
        child.wait()


class Slow(Hostile):
    """Asks for much and reads a byte now and then."""

    def attempt(self, connection):
        connection.setblocking(False)
        many = packed([0, 1, "nvim_get_api_info", []]) * 20
        until = min(self.until, time.monotonic() + 5)
        while time.monotonic() < until:
            try:
                connection.send(many)
            except (BlockingIOError, BrokenPipeError, ConnectionResetError):
                pass
            try:
                connection.recv(1)
            except (BlockingIOError, ConnectionResetError):
                pass
            time.sleep(LATE)


class Flooded(Hostile):
    """Follows a text, reads nothing while another session of its own changes that text, and is
    closed."""

    def attempt(self, connection):
        other = self.server.connect()
        number = other.call("nvim_create_buf", True, False)
        sent(connection, packed([0, 1, "nvim_buf_attach", [number, False, {}]]))
        while not select.select([connection], [], [], 0.1)[0]:
            pass
        line = "x" * 4_000
        edits = [["nvim_buf_set_lines", [number, 0, -1, True, [line]]]] * 20
        for _ in range(OUTBOX // 10):
            other.call("nvim_call_atomic", edits)
        self.same("closed", read_out(connection, PATIENCE), True)
        other.call("nvim_buf_delete", number, {"force": True})
        other.close()


HONEST = [HonestEditor] * 12 + [HonestOwner] * 8
HOSTILE = [BadBytes, BadBytes, NoCalls, Unended, OpenClose, Killed, Slow, Slow, Flooded]


def beside(server, check, seed, seconds):
    """Honest and hostile sessions at once, for so many seconds. Answers what the honest clients
    read, by session."""
    first = server.connect()
    is_there(first, SHARED[1])
    until = time.monotonic() + seconds
    honest = [kind(server, check, f"{seed} {n}", 0) for n, kind in enumerate(HONEST)]
    for part in honest:
        part.until = until
    hostile = [kind(server, check, f"{seed} {n}", until) for n, kind in enumerate(HOSTILE)]
    for part in honest + hostile:
        part.start()
    for part in honest + hostile:
        part.join(seconds + 2 * PATIENCE)
        check.same(f"{part.name} ended", part.is_alive(), False)
    first.close()
    told = {}
    for part in hostile:
        told[type(part).__name__] = told.get(type(part).__name__, 0) + part.count
    steps = sum(part.steps for part in honest)
    others = ", ".join(f"{count} {kind}" for kind, count in told.items())
    print(f"{steps} steps of {len(honest)} honest sessions, beside {others}")
    return {part.number_of_session: (bytes(part.session.kept), False) for part in honest}


@pytest.mark.seeds(1)
def test_honest_sessions_beside_hostile_ones_and_their_book(request, check, tmp_path, seed):
    path = str(tmp_path / "book")
    seconds = request.config.getoption("seconds") or SECONDS
    with nvimd.Server("--sessions", "64", "--outbox", str(OUTBOX), book=path) as server:
        at_first, memory = settled(server)
        read = beside(server, check, seed, seconds)
        descriptors, later = settled(server)
        check.same("descriptors behind it", descriptors, at_first)
        check.same("status", server.quit(LONG), 0)
    book = Replayed(check, path)
    held_by_sessions(check, book, read)
    size = f"the book, {os.path.getsize(path) / 1e6:.1f} MB"
    print(f"{memory:.1f} MB before, {later:.1f} MB behind it; {size}: {book.summary()}", end="")
