"""Clients of `nvimd serve` that ask for much and read nothing: what each costs the server, and that
it is given back once the client is gone.

A text of 60,000 lines stands there, and each client asks for it 500 times, in 14 kB of calls. One
closes its connection then, one is killed, and others are killed one after another, again and again.
One makes these calls in one, which have one reply. One attaches 500 times, which tells it all lines
each time. Two attach the greatest UI: that may cost what it takes, and is given back as well. An
honest client beside them is answered all the time, and one that waits for its client doesn't keep a
processor busy.

What counts as rest is what the server holds once honest clients, one in each lane, have read the
text and were told all of it.
"""

import subprocess
import time

import nvimd
from nvimd.process import forget_peak
from nvimd.session import socket_at
from nvimd.values import packed

LINES = 60_000
TIMES = 500  # that a client asks for the text
ROUNDS = 24  # clients that are killed, one after another
LANES = 4
READS = 4  # that an honest client reads the text, and is told it, before the server is at rest
SCREEN = 2_000, 1_000  # the greatest
MOST = 64  # MB that a client may cost
TRIES = 3
KEPT = 0.1  # of what a client cost, or may cost, at most so much is left of it
MOMENT = 5  # seconds until memory is back
STILL = 0.5  # seconds without work, after which the server waits for its client
WATCHED = 2  # seconds that a server is watched while clients keep it waiting
BUSY = 0.002  # seconds of a processor that it may take then
PATIENCE = 60

GETS = ["nvim_buf_get_lines", [1, 0, -1, True]]
ATTACHES = [["nvim_buf_attach", [1, True, {}]], ["nvim_buf_detach", [1]]]
UI = ["nvim_ui_attach", [*SCREEN, {"ext_linegrid": True}]]
KILLED = (
    "import socket, sys, time; s = socket.socket(socket.AF_UNIX); s.connect(sys.argv[1]); "
    "s.sendall(sys.stdin.buffer.read()); time.sleep(1000)"
)


def calls(*methods):
    """Requests, one after another."""
    return b"".join(packed([0, number, *method]) for number, method in enumerate(methods))


class Closing:
    """A client that closes its connection."""

    def __init__(self, server, data):
        self.socket = socket_at(server.address)
        self.socket.sendall(data)

    def go(self):
        self.socket.close()


class Dying:
    """A client that is killed."""

    def __init__(self, server, data):
        words = ["/usr/bin/python3", "-c", KILLED, server.address]
        self.child = subprocess.Popen(words, stdin=subprocess.PIPE, stderr=subprocess.DEVNULL)
        self.child.stdin.write(data)
        self.child.stdin.close()

    def go(self):
        self.child.kill()
        self.child.wait()


class Watched(nvimd.Server):
    """A server whose memory is watched, and an honest client of it."""

    def __init__(self):
        super().__init__("--sessions", str(LANES))
        self.honest = self.connect()
        self.honest.api.buf_set_lines(1, 0, -1, True, [f"line {row}" for row in range(LINES)])
        others = [self.connect() for _ in range(LANES - 1)]
        for client in [self.honest, *others]:
            for _ in range(READS):
                for method, params in [GETS, *ATTACHES]:
                    client.call(method, *params)
        for client in others:
            client.close()
        self.still()

    def still(self):
        """Waits until it does nothing more."""
        until = time.monotonic() + PATIENCE
        worked, since = self.seconds(), time.monotonic()
        while time.monotonic() < min(until, since + STILL):
            time.sleep(0.02)
            if (now := self.seconds()) != worked:
                worked, since = now, time.monotonic()

    def comes_down(self, most):
        """What it holds once that is at most so much, or a moment is over."""
        until = time.monotonic() + MOMENT
        while (now := self.memory()) > most and time.monotonic() < until:
            time.sleep(0.02)
        return now

    def answers(self):
        return self.honest.call("nvim_buf_line_count", 1)


def cost_of(check, server, what, kind, data, rounds):
    """What clients of one kind cost, one after another, what is left of it, and how much may be."""
    before = server.memory()
    forget_peak(server.process.pid)
    for _ in range(rounds):
        client = kind(server, data)
        server.still()
        check.same(f"{what}: the honest client beside it", server.answers(), LINES)
        client.go()
    cost = server.memory("VmHWM") - before
    kept = KEPT * max(cost, MOST)
    return cost, server.comes_down(before + kept) - before, kept


def attempt(check, server, what, kind, data, most=MOST, rounds=1):
    """Clients of one kind: what they cost, and what is left of it. More is left now and then, where
    the C library has a block in use above it: then others like them must leave no more."""
    for _ in range(TRIES):
        cost, left, kept = cost_of(check, server, what, kind, data, rounds)
        print(f"{what}: {cost:.1f} MB, {left:.1f} of them left")
        if most:
            check.same(f"{what}: it costs at most {most} MB", cost <= most, True)
        if left <= kept:
            break
    told = f"{what}: of {cost:.1f} MB {left:.1f} are left, at most {kept:.1f}"
    check.same(told, left <= kept, True)


def waits(check, server, data):
    """Clients whose calls wait: that costs next to no time of a processor."""
    clients = [Closing(server, data) for _ in range(LANES - 1)]
    server.still()
    begun = server.seconds()
    time.sleep(WATCHED)
    busy = server.seconds() - begun
    for client in clients:
        client.go()
    server.still()
    told = f"{1000 * busy / WATCHED:.2f} ms of a processor a second"
    print(f"{len(clients)} clients that wait: {told}")
    check.same("a call that waits doesn't keep a processor busy", busy <= BUSY, True)


def test_what_they_cost_is_given_back(check):
    gets, attaches = calls(*[GETS] * TIMES), calls(*ATTACHES * TIMES)
    one = calls(["nvim_call_atomic", [[GETS] * TIMES]])
    greatest = f"a UI of {SCREEN[0]:,} by {SCREEN[1]:,}, and it closes"
    in_turn = f"{ROUNDS} that are killed one after another"
    with Watched() as server:
        attempt(check, server, f"{len(gets) / 1000:.0f} kB of calls, and it closes", Closing, gets)
        attempt(check, server, "the same, and it is killed", Dying, gets)
        attempt(check, server, in_turn, Dying, gets, rounds=ROUNDS)
        attempt(check, server, "the same calls in one, and it closes", Closing, one)
        attempt(check, server, f"all lines told {TIMES} times", Closing, attaches)
        attempt(check, server, greatest, Closing, calls(UI), most=None)
        attempt(check, server, "the same, and it is killed", Dying, calls(UI), most=None)
        waits(check, server, gets)
        check.same("status", server.quit(), 0)
