#!/usr/bin/python3
"""Measures `nvimd serve` beside Neovim (`nvim` on the path, bare) over a socket of the same kind,
with many clients at once (`bench/crowd.c`, which `cc` compiles): edits of a line and reads of one,
by clients that send one request, or fifty at once, and wait for the replies, and edits that others
follow.

Prints a table in Markdown: microseconds a request, of a processor in user mode and in the system,
context switches a request, and the longest that a piece waited for its last reply, of each kind of
server the medians over some. Then whether all clients are served alike, and what sessions cost that
do nothing. With `--goals` it ends with status 1 where something costs more than is wanted, which is
said of a machine with four processors and nothing else on it. `--short` tells whether all that is
measured can be done.
"""

import os
import statistics
import subprocess
import time
from dataclasses import astuple, dataclass

import nvimd
from nvimd.command import Words, limit, run
from nvimd.process import seconds
from nvimd.values import packed
from session import LINE, call, set_rows, tell_load

HERE = os.path.dirname(os.path.abspath(__file__))
CROWD = os.path.join(HERE, "out", "crowd")
NEOVIM = ["nvim", "--headless", "-u", "NONE", "-i", "NONE", "-n", "--listen"]
SHORT = 300  # the most seconds that a short run takes
MOST = 250  # sessions
LINES = 1_000
EDIT = set_rows(0, 1, [LINE])
READ = call("nvim_buf_get_lines", 0, 500, 501, True)
ATTACH = call("nvim_buf_attach", 0, False, {})


def reply(result):
    return packed([1, 1, None, result])


@dataclass
class Row:
    """So many clients, which send so many requests at once, beside idle ones; the ratio that is
    wanted, if one is."""

    work: str
    clients: int
    piece: int = 1
    idle: int = 0
    goal: float = None

    def name(self):
        beside = f", beside {self.idle} idle" if self.idle else ""
        return f"{self.work}, {self.clients}{beside}, {self.piece} at once"


WORK = {
    "edits": (EDIT, reply(None)),
    "reads": (READ, reply([LINE])),
    "told": (EDIT, reply(None), ATTACH, reply(True)),
}
GOALS = {
    ("edits", 1, 1): 0.8,
    ("edits", 1, 50): 0.6,
    ("edits", 4, 50): 0.5,
    ("edits", 16, 50): 0.5,
    ("edits", 60, 50): 0.4,
    ("reads", 60, 50): 0.4,
    ("told", 17, 1): 0.6,
    ("told", 61, 1): 0.6,
}
ASKED = [
    (work, clients, piece)
    for work in ("edits", "reads")
    for piece in (1, 50)
    for clients in (1, 4, 16, 60, MOST)
]
TOLD = [("told", 17, 1), ("told", 61, 1)]  # one edits, and all others are told
ROWS = [Row(*key, goal=GOALS.get(key)) for key in ASKED + TOLD]
ROWS.append(Row("reads", 1, 1, idle=MOST - 1))
FAIR = Row("reads", 60, 50)
SWITCHES, PROCESSOR = 0.05, 5.0  # a request of 60 clients, 50 at once
LEAST = 0.5  # of what the quickest of 60 clients gets
REST = 10.0  # milliseconds of a processor for MOST idle sessions in 10 s


@dataclass
class Spent:
    """What a process spent by now: in ticks, seconds, and context switches of threads that run."""

    user: float
    system: float
    processor: float
    switches: float

    @staticmethod
    def of(pid):
        with open(f"/proc/{pid}/stat") as stat:
            user, system = map(int, stat.read().rpartition(")")[2].split()[11:13])
        switches = 0
        for thread in os.listdir(f"/proc/{pid}/task"):
            with open(f"/proc/{pid}/task/{thread}/status") as status:
                switches += sum(int(line.split()[1]) for line in status if "ctxt_switches" in line)
        return Spent(user, system, seconds(pid), switches)


@dataclass
class Cost:
    """Of a request: microseconds, of these in user mode and in the system, and context switches.
    Milliseconds of the slowest piece, and what the slowest client got of what the quickest did."""

    us: float
    user: float
    system: float
    switches: float
    slowest: float
    share: float

    def processor(self):
        return self.user + self.system


def crowd(row, address, milliseconds):
    words = [address, row.clients, row.piece, milliseconds]
    words += [part.hex() for part in WORK[row.work]]
    pipes = {"stdin": subprocess.PIPE, "stdout": subprocess.PIPE, "text": True}
    return subprocess.Popen([CROWD, *map(str, words)], **pipes)


def told(process):
    line = process.stdout.readline()
    if not line:
        raise nvimd.Error("the clients ended")
    return line


def measured(command, row, milliseconds):
    """What one run by a server of its own costs."""
    with nvimd.Server(command=command) as server:
        first = server.connect()
        first.call("nvim_buf_set_lines", 0, 0, -1, True, [LINE] * LINES)
        idle = [server.connect() for _ in range(row.idle)]
        clients = crowd(row, server.address, milliseconds)
        told(clients)
        before = Spent.of(server.process.pid)
        print(file=clients.stdin, flush=True)
        count, took, least, most, slowest = map(int, told(clients).split())
        after = Spent.of(server.process.pid)
        print(file=clients.stdin, flush=True)
        if clients.wait():
            raise nvimd.Error("the clients failed")
        for session in [first, *idle]:
            session.close()
    user, system, processor, switches = (b - a for a, b in zip(astuple(before), astuple(after)))
    each = processor * 1e6 / count
    part = user / max(user + system, 1)
    costs = each * part, each * (1 - part), switches / count
    return Cost(took / count / 1e3, *costs, slowest / 1e6, least / max(most, 1))


def at_rest(command, wait):
    """Milliseconds of a processor that idle sessions take in this time."""
    with nvimd.Server(command=command) as server:
        idle = [server.connect() for _ in range(MOST)]
        for session in idle:
            session.call("nvim_buf_line_count", 0)
        time.sleep(1)
        before = seconds(server.process.pid)
        time.sleep(wait)
        taken = (seconds(server.process.pid) - before) * 1e3
        for session in idle:
            session.close()
        return taken


def median(costs):
    return Cost(*map(statistics.median, zip(*map(astuple, costs))))


COST = ["us", "user, system", "switches"]
HEAD = ["work, clients", *(f"Neovim, {COST[0]}", *COST[1:]), *(f"nvimd, {COST[0]}", *COST[1:])]
HEAD += ["slowest, ms", "ratio", "wanted"]


def as_line(cells):
    return "| " + " | ".join(cells) + " |"



def line_of(row, theirs, ours):
    cells = [row.name()]
    for cost in (theirs, ours):
        cells += [f"{cost.us:.2f}", f"{cost.user:.1f}, {cost.system:.1f}", f"{cost.switches:.3f}"]
    cells += [f"{theirs.slowest:.1f}, {ours.slowest:.1f}", f"{ours.us / theirs.us:.2f}"]
    return as_line([*cells, f"{row.goal or ''}"])


def too_dear(row, theirs, ours):
    """What of a row costs more than is wanted."""
    if row.goal and ours.us > row.goal * theirs.us:
        yield f"{row.name()}: {ours.us / theirs.us:.2f} of Neovim's time"
    if (row.work, row.clients, row.piece) == ("edits", 60, 50):
        if ours.switches > SWITCHES:
            yield f"{row.name()}: {ours.switches:.3f} context switches a request"
        if ours.processor() > PROCESSOR:
            yield f"{row.name()}: {ours.processor():.1f} us of a processor a request"


def compiled():
    os.makedirs(os.path.dirname(CROWD), exist_ok=True)
    source = os.path.join(HERE, "crowd.c")
    subprocess.run(["cc", "-O2", "-Wall", "-o", CROWD, source], check=True)


def main():
    words = Words(__doc__)
    words.add_argument("rows", nargs="*", help="what their names begin with; all without any")
    words.add_argument("--rounds", type=int, default=3, help="servers of each kind")
    words.add_argument("--alone", action="store_true", help="nvimd alone, beside nothing")
    words.add_argument("--goals", action="store_true", help="fail where something costs more")
    words.add_argument("--short", action="store_true", help="a check of a minute")
    asked = words.parse_args()
    rounds, milliseconds, fair, wait = asked.rounds, 1_000, 10_000, 10
    if asked.short:
        rounds, milliseconds, fair, wait = 1, 100, 500, 1
        limit(SHORT)
    compiled()
    ours = [nvimd.program(), "serve", "--sessions", "256", "--listen"]
    theirs = ours if asked.alone else NEOVIM
    chosen = [r for r in ROWS if not asked.rows or any(r.name().startswith(a) for a in asked.rows)]
    dear = []
    tell_load()
    print(as_line(HEAD))
    print(as_line(["---"] * len(HEAD)))
    for row in chosen:
        runs = [
            [measured(kind, row, milliseconds) for kind in (theirs, ours)] for _ in range(rounds)
        ]
        costs = [median(kind) for kind in zip(*runs)]
        print(line_of(row, *costs), flush=True)
        dear += too_dear(row, *costs)
    if not asked.rows:
        share = measured(ours, FAIR, fair).share
        print(f"\nof {FAIR.clients} clients the slowest got {share:.2f} of what the quickest got")
        idle = at_rest(ours, wait)
        print(f"{MOST} idle sessions took {idle:.1f} ms of a processor in {wait} s")
        dear += [f"the slowest client got {share:.2f}"] if share < LEAST else []
        dear += [f"idle sessions took {idle:.1f} ms"] if idle > REST * wait / 10 else []
    if asked.goals:
        for what in dear:
            print(f"more than is wanted: {what}")
        return int(bool(dear))
    return 0


if __name__ == "__main__":
    run(main, 3_600)
