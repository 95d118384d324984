#!/usr/bin/python3
"""Measures what one client can cost the others of a server: the processor time of a request, in
which no other client is answered, and memory. Each row of its tables is some work at N, 2N, 4N and
8N, with the exponent by which its cost grows from 2N to 8N.

It ends with status 1, and a line for each such row, where an exponent is above 1.15 for work on all
of N, or above 0.3 for work on one among N. Its tables, as Markdown, stand in docs/PROTOCOL.md.
Times are the processor's, of all threads of the server; memory is what it holds above rest, at its
peak or for good. What is small is measured several times, and the least counts. Each measurement
has a server of its own, which may take 8 GB. Wants Debian's python3-msgpack.
"""

import math
import os
import resource
import socket
import subprocess
import tempfile
import threading
import time
from collections.abc import Callable
from contextlib import closing, contextmanager
from dataclasses import dataclass
from typing import NamedTuple

import msgpack

import books
import nvimd
from nvimd.command import Words, run
from nvimd.process import forget_peak, memory, runs, seconds
from nvimd.session import socket_at
from session import Server, call


MOST_MEMORY = 8 << 30  # bytes of addresses for a server
ALL, ONE = 1.15, 0.3  # the greatest exponents of work on all of N, and of work on one among N
EACH = 1 + ALL  # of N calls that each work on all of N
NEAR = 0.3  # an exponent that is above its limit by less is measured again
LEAST = {"time": 20e-6, "memory": 10}  # a cost that is less at 8N has no exponent
ROUNDS = 3  # how often a measurement is made at most
LONG = 0.2  # seconds after which it isn't made again
QUIET, LOOKS = 0.5, 8  # seconds that a server sleeps at rest, and looks at it meanwhile
PATIENCE = 600  # how often that is tried
MESSAGE = 67_108_864  # bytes of a message
LINES, MARKS = 16_777_216, 1_000_000  # lines of a buffer and bytes of a line; marks
SCREEN = 2_000, 1_000  # the greatest
WINDOW = 1_000  # the handle of the first window, from which the others count on


# ---- Rows


class Cost(NamedTuple):
    time: float  # seconds
    memory: float  # MB


@dataclass
class Row:
    word: str
    told: str  # of 8N, which stands in the place of {}
    most: int  # 8N
    limit: float  # of the exponent
    judged: str  # the part of the cost that has it
    goal: float | None  # the most that this part is to be at 8N
    measure: Callable[[str, int], Cost]  # of a program, at a size

    def sizes(self, part):
        """N, 2N, 4N and 8N, each divided by this."""
        return [max(times, self.most * times // (8 * part)) for times in (1, 2, 4, 8)]


ROWS = []


def row(word, told, most, limit=ALL, judged="time", goal=None):
    """The function below is what measures a row."""

    def put(measure):
        ROWS.append(Row(word, told, most, limit, judged, goal, measure))
        return measure

    return put


# ---- Measuring


class Meter:
    """What a server costs from now on, above what it holds at rest."""

    def __init__(self, server):
        self.pid = server.process.pid
        forget_peak(self.pid)
        self.rest, self.begun = memory(self.pid), seconds(self.pid)

    def peak(self):
        return Cost(seconds(self.pid) - self.begun, memory(self.pid, "VmHWM") - self.rest)

    def kept(self):
        return Cost(seconds(self.pid) - self.begun, memory(self.pid) - self.rest)


def least(costs):
    return Cost(*map(min, zip(*costs)))


def repeated(measure):
    """The least cost of some measurements; one that is long counts alone."""
    costs = [measure()]
    while len(costs) < ROUNDS and costs[-1].time < LONG:
        costs.append(measure())
    return least(costs)


def atomic(calls):
    return call("nvim_call_atomic", calls)


def asked(server, stream, told=Meter.peak):
    """The cost of some requests, with what is done behind the last reply."""
    meter = Meter(server)
    server.ask(stream)
    server.ask(b"")
    return told(meter)


@contextmanager
def prepared(program, *before):
    """`nvimd embed`, behind some requests."""
    with closing(Server([program, "embed"])) as server:
        for stream in before:
            server.ask(stream)
        yield server


def fresh(program, before, stream, told=Meter.peak):
    """The cost of some requests behind others, each time by a server of its own."""

    def measure():
        with prepared(program, *before) as server:
            return asked(server, stream, told)

    return repeated(measure)


def again(server, stream):
    """The cost of a request that can be made again and again: as many of them at once as take a
    while."""
    first = asked(server, stream)
    count = 1 + min(1_000, int(LONG / ROUNDS / first.time))

    def measure():
        found = asked(server, stream * count)
        return Cost(found.time / count, found.memory)

    return first if first.time > LONG else least([first, repeated(measure)])


# ---- Windows


def split(beside, way, enter):
    return "nvim_open_win", [0, enter, {"win": beside, "split": way}]


def chain(count):
    """Opens windows up to so many, each split off the one before, below it and beside it in
    turn."""
    return atomic([split(WINDOW + n, ("below", "right")[n % 2], True) for n in range(count - 1)])


def balanced(count):
    """Opens windows up to so many, by splits of all that are there, below them and beside them in
    turn."""
    calls, there = [], 1
    while there < count:
        way = ("below", "right")[there.bit_length() % 2]
        calls += [split(WINDOW + n, way, False) for n in range(min(there, count - there))]
        there *= 2
    return atomic(calls)


UI = {"ext_linegrid": True}
GREATEST = call("nvim_ui_attach", *SCREEN, UI) + call("nvim_ui_detach")
EDIT = call("nvim_buf_set_lines", 0, 0, 0, True, ["a"])
FOLLOW = call("nvim_buf_attach", 0, True, {})  # sent all lines first


@row("chain-open", "{} windows opened in a chain of splits, calls in one", 998, EACH)
def chain_open(program, count):
    return fresh(program, [GREATEST], chain(count))


@row("chain-edit", "an edit in a buffer shown in {} windows in a chain", 998, goal=0.02)
def chain_edit(program, count):
    with prepared(program, GREATEST, chain(count)) as server:
        return again(server, EDIT)


@row("chain-place", "nvim_win_get_position with {} windows in a chain", 998, ONE, goal=0.02)
def chain_place(program, count):
    with prepared(program, GREATEST, chain(count)) as server:
        return again(server, call("nvim_win_get_position", WINDOW + count - 1))


@row("chain-call", "the slowest of six other calls in {} windows in a chain", 998, goal=0.02)
def chain_call(program, count):
    last = WINDOW + count - 1
    calls = [
        call("nvim_win_set_cursor", last, [1, 0]),
        call("nvim_set_current_win", last),
        call("nvim_win_set_width", last, 1),
        call("nvim_list_wins"),
        call("nvim_win_close", last, True),
        msgpack.packb([0, 1, *split(last - 1, "right", True)]),
    ]
    with prepared(program, GREATEST, chain(count)) as server:
        return max(asked(server, stream) for stream in calls)


@row("tree-edit", "an edit in one shown in {} windows in a balanced tree", 1_001, goal=0.02)
def tree_edit(program, count):
    with prepared(program, GREATEST, balanced(count)) as server:
        return again(server, EDIT)


@row("tabclose", "tabclose of a tabpage of {} windows in a chain", 960, goal=0.02)
def tabclose(program, count):
    before = [
        GREATEST,
        chain(count),
        call("nvim_command", "tabnew") + call("nvim_set_current_tabpage", 1),
    ]
    return fresh(program, before, call("nvim_command", "tabclose"))


# ---- Buffers


def made(count):
    """Makes so many buffers, from the second on."""
    return call("nvim_create_buf", True, False) * count


@row("names", "a name for each of {} buffers", 16_000, goal=0.2)
def names(program, count):
    calls = [call("nvim_buf_set_name", 2 + n, f"name {n}") for n in range(count)]
    return fresh(program, [made(count)], b"".join(calls))


@row("deletes", "each of {} buffers deleted", 32_000, goal=0.2)
def deletes(program, count):
    calls = [call("nvim_buf_delete", 2 + n, {}) for n in range(count)]
    return fresh(program, [made(count)], b"".join(calls))


# ---- Marks

SPACES = call("nvim_create_namespace", "marks") + call("nvim_create_namespace", "none")


def lines(texts):
    """Puts these lines in the place of all."""
    return call("nvim_buf_set_lines", 0, 0, -1, True, texts)


def mark(row, col):
    """Sets a mark of one byte, with a group."""
    return call("nvim_buf_set_extmark", 0, 1, row, col, {"end_col": col + 1, "hl_group": "NonText"})


def marked(count):
    """Puts so many lines with a mark in each."""
    return lines(["x"] * count) + SPACES + b"".join(mark(n, 0) for n in range(count))


@row("drawn-marks", "a line drawn with {} marks of one character", 125_000, goal=0.5)
def drawn_marks(program, count):
    before = lines(["x" * count]) + SPACES + b"".join(mark(0, n) for n in range(count))
    return fresh(program, [before], call("nvim_ui_attach", 1 + count // 100, 104, UI))


@row("marks-above", "an edit on the screen of a UI, {} marks above it", 400_000, ONE)
def marks_above(program, count):
    end = call("nvim_win_set_cursor", 0, [count, 0]) + call("nvim_ui_attach", 80, 24, UI)
    with prepared(program, marked(count), end) as server:
        return again(server, call("nvim_buf_set_lines", 0, count - 1, count, True, ["y"]))


@row("list-none", "an empty namespace listed beside {} marks", 200_000, ONE, goal=0.0001)
def list_none(program, count):
    with prepared(program, marked(count)) as server:
        return again(server, call("nvim_buf_get_extmarks", 0, 2, 0, -1, {}))


@row("clear-none", "an empty namespace cleared beside {} marks", 200_000, ONE, goal=0.0001)
def clear_none(program, count):
    with prepared(program, marked(count)) as server:
        return again(server, call("nvim_buf_clear_namespace", 0, 2, 0, -1))


def overlapping(count):
    return "nvim_buf_get_extmarks", [0, 1, [count - 1, 0], -1, {"overlap": True, "limit": 1}]


@row("overlap", "overlap with limit 1 at the end of {} marks", 200_000, ONE)
def overlap(program, count):
    with prepared(program, marked(count)) as server:
        return again(server, msgpack.packb([0, 1, *overlapping(count)]))


@row("overlap-calls", "20 kB of such calls in one, beside {} marks", 200_000, ONE)
def overlap_calls(program, count):
    one = overlapping(count)
    return fresh(program, [marked(count)], atomic([one] * (20_000 // len(msgpack.packb(one)))))


# ---- Replay


def checked(program, stream, others=(), apart=False):
    """The cost of `replay --check` of what a session asks for, beside others: ahead, or one request
    after another."""
    with tempfile.TemporaryDirectory() as folder:
        path = os.path.join(folder, "book")
        books.recorded(program, path, stream, others, apart)
        _, used = books.replayed(program, path, "--check")
        return Cost(used.ru_utime + used.ru_stime, used.ru_maxrss / 1024)


@row("check-marks", "replay --check of {} marks set", 16_000)
def check_marks(program, count):
    return checked(program, [SPACES] + [call("nvim_buf_set_extmark", 0, 1, 0, 0, {})] * count)


@row("check-edits", "replay --check of {} lines put in one by one, each followed", 16_000)
def check_edits(program, count):
    return checked(program, [EDIT] * count, [FOLLOW], apart=True)


# ---- The greatest that the limits let through


def array(count, item):
    """The bytes of a list of so many of an item."""
    return b"\xdd" + count.to_bytes(4, "big") + item * count


def empty_lines(count):
    """Puts so many empty lines in the place of all."""
    return b"\x94\x00\x01\xb2nvim_buf_set_lines\x95\x00\x00\xff\xc3" + array(count, b"\xa0")


GET = call("nvim_buf_get_lines", 0, 0, -1, True)
COUNT = msgpack.packb(["nvim_buf_line_count", [0]])


@row("values", "a message of {} empty strings, which is refused", MESSAGE - 64)
def values(program, count):
    return fresh(program, [], b"\x94\x00\x01\xa9nvim_nope" + array(count, b"\xa0"))


@row("calls", "{} calls in one", (MESSAGE - 64) // len(COUNT))
def calls(program, count):
    return fresh(program, [], b"\x94\x00\x01\xb0nvim_call_atomic\x91" + array(count, COUNT))


@row("put", "{} lines put", LINES)
def put(program, count):
    return fresh(program, [], empty_lines(count))


@row("got", "{} lines got", LINES)
def got(program, count):
    return fresh(program, [empty_lines(count)], GET)


@row("undone", "{} lines put back by undo", LINES)
def undone(program, count):
    return fresh(program, [empty_lines(count), empty_lines(1)], call("nvim_command", "undo"))


@row("line", "a line of {} bytes put, on a screen of 2,000 by 1,000", LINES - 1)
def line(program, count):
    return fresh(program, [call("nvim_ui_attach", *SCREEN, UI)], lines(["x" * count]))


@row("marks", "{} marks set by calls in one", MARKS)
def marks(program, count):
    one = ["nvim_buf_set_extmark", [0, 1, 0, 0, {"hl_group": "NonText"}]]
    return fresh(program, [SPACES], atomic([one] * count))


@row("marks-got", "{} marks listed with details", MARKS)
def marks_got(program, count):
    listing = call("nvim_buf_get_extmarks", 0, 1, 0, -1, {"details": True})
    return fresh(program, [marked(count)], listing)


# ---- Memory


@row("screen", "a UI of {} by 1,000", 2_000, ALL, "memory")
def screen(program, count):
    return fresh(program, [], call("nvim_ui_attach", count, SCREEN[1], UI))


@row(
    "line-edits", "what stays of 100 edits of a byte in a line of {}", LINES - 1, ONE, "memory", 40
)
def line_edits(program, count):
    places = [n * 7_919 % count for n in range(101)]
    edits = [call("nvim_buf_set_text", 0, 0, place, 0, place + 1, ["y"]) for place in places]
    return fresh(program, [lines(["x" * count]), edits[0]], b"".join(edits[1:]), Meter.kept)


@row("refused", "what stays of a refused call, {} bytes of lists 60 deep", 4_000_000, ALL, "memory")
def refused(program, count):
    deep = b"\x91" * 57 + b"\x90"
    values = array(count // len(deep), deep)
    return fresh(program, [], b"\x94\x00\x01\xa9nvim_nope\x91" + values, Meter.kept)


class Served:
    """`nvimd serve` with a text of a megabyte, and what it costs from then on; its clients don't
    read."""

    def __init__(self, program, *words):
        self.server = nvimd.Server(*words, command=[program, "serve", "--listen"])
        self.pid = self.server.process.pid
        with self.server.connect() as client:
            client.api.buf_set_lines(0, 0, -1, True, ["x" * 9_999] * 100)
        self.at_rest(0)
        self.meter = Meter(self.server)

    def at_rest(self, begun):
        """Waits until it has done something since these seconds of its processor, and then sleeps
        nearly all the time."""
        for _ in range(PATIENCE):
            done, asleep = seconds(self.pid), 0
            for _ in range(LOOKS):
                time.sleep(QUIET / LOOKS)
                asleep += not runs(self.pid)
            if begun < done and seconds(self.pid) - done < QUIET / 100 and asleep > LOOKS / 2:
                return
        raise nvimd.Error("a server doesn't come to rest")

    def asks(self, stream):
        """A client sends a stream, as far as the server takes it; what makes it go."""
        begun = seconds(self.pid)
        client = socket_at(self.server.address)
        writer = threading.Thread(target=sent, args=(client, stream), daemon=True)
        writer.start()
        self.at_rest(begun)

        def leave():
            begun = seconds(self.pid)
            client.shutdown(socket.SHUT_RDWR)
            writer.join()
            client.close()
            self.at_rest(begun)

        return leave

    def close(self):
        self.server.kill()


def unread(program, stream):
    """The cost of requests whose replies their client doesn't read."""
    with closing(Served(program)) as served:
        leave = served.asks(stream)
        cost = served.meter.peak()
        leave()
        return cost


@row("unread", "{} bytes of nvim_buf_get_lines of 1 MB, never read", 23_000, ONE, "memory", 64)
def unread_replies(program, count):
    return unread(program, GET * max(1, count // len(GET)))


@row("unread-calls", "{} bytes of such calls in one, never read", 23_000, ONE, "memory", 64)
def unread_calls(program, count):
    one = msgpack.unpackb(GET)[2:]
    return unread(program, atomic([one] * max(1, count // len(msgpack.packb(one)))))


def sent(connection, data):
    """Sends what the server takes."""
    try:
        connection.sendall(data)
    except (BrokenPipeError, ConnectionResetError):
        pass


# a client that asks again and again for what it is given, until it is killed
ENDLESS = (
    "import socket, sys\n"
    "connection = socket.socket(socket.AF_UNIX)\n"
    "connection.connect(sys.argv[1])\n"
    "data = sys.stdin.buffer.read()\n"
    "while True: connection.sendall(data)\n"
)


def left(program, count, stream, *words):
    """What stays of so many clients that ask for this, don't read and go, one after another."""
    with closing(Served(program, *words)) as served:
        for _ in range(count):
            served.asks(stream)()
        return served.meter.kept()


@row("gone", "what stays of {} clients gone, 64 replies of 1 MB unread", 16, ONE, "memory", 6.4)
def gone(program, count):
    return left(program, count, GET * 64, "--outbox", "128")


@row("gone-many", "what stays of {} clients gone, 131,072 replies unread", 8, ONE, "memory", 6.4)
def gone_many(program, count):
    return left(program, count, call("nvim_buf_line_count", 0) * 131_072, "--outbox", "262144")


@row("killed", "what stays of {} clients killed, 64 replies of 1 MB unread", 16, ONE, "memory", 6.4)
def killed(program, count):
    with closing(Served(program, "--outbox", "128")) as served:
        for _ in range(count):
            begun = seconds(served.pid)
            words = ["/usr/bin/python3", "-c", ENDLESS, served.server.address]
            with subprocess.Popen(words, stdin=subprocess.PIPE, stderr=subprocess.DEVNULL) as child:
                child.stdin.write(GET)
                child.stdin.close()
                served.at_rest(begun)
                begun = seconds(served.pid)
                child.kill()
            served.at_rest(begun)
        return served.meter.kept()


@row("screen-gone", "what stays of a UI of {} by 1,000 that went", 2_000, ONE, "memory")
def screen_gone(program, count):
    return left(program, 1, call("nvim_ui_attach", count, SCREEN[1], UI))


# ---- Tables


def told_time(time):
    """Seconds in the unit that suits them."""
    unit, times = ("s", 1) if time >= 1 else ("ms", 1e3) if time >= 0.001 else ("us", 1e6)
    return f"{time * times:.{0 if time * times >= 10 else 1}f} {unit}"


def told_memory(memory):
    return f"{memory:,.{0 if memory >= 10 else 1}f} MB"


TOLD = {"time": told_time, "memory": told_memory}


class Measured:
    """A row's costs at its sizes."""

    def __init__(self, row, program, part):
        self.row, self.sizes = row, row.sizes(part)
        self.costs = [row.measure(program, size) for size in self.sizes]
        for _ in range(2):
            if 0 < self.power() - row.limit < NEAR:
                pairs = zip(self.costs, self.sizes)
                self.costs = [least([cost, row.measure(program, size)]) for cost, size in pairs]

    def judged(self):
        return [getattr(cost, self.row.judged) for cost in self.costs]

    def power(self):
        """The exponent from 2N to 8N; 0 of what costs next to nothing."""
        _, low, _, high = self.judged()
        none = LEAST[self.row.judged]
        if high <= none:
            return 0
        return math.log(high / max(low, none / 10), self.sizes[3] / self.sizes[1])

    def grows(self):
        return f"N^{self.power():.1f}" if self.power() > 0.05 else "-"

    def is_above(self):
        return self.power() > self.row.limit

    def faults(self, goals):
        """What is wrong with it, in words."""
        row, most = self.row, self.judged()[3]
        if self.is_above():
            yield f"{row.word}: grows as N^{self.power():.2f}, and not by at most {row.limit}"
        if goals and row.goal and most > row.goal and self.sizes[3] == row.most:
            cost, goal = (TOLD[row.judged](part) for part in (most, row.goal))
            yield f"{row.word}: costs {cost}, and not at most {goal}"

    def line(self):
        """The part of the costs that is judged, at all sizes."""
        told = " ".join(f"{TOLD[self.row.judged](cost):>9}" for cost in self.judged())
        return f"    {self.row.word:14} {self.sizes[0]:>10,} {told} {self.grows():>6}"

    def markdown(self):
        """The whole cost, at the greatest size; how it grows is bold where that is above its
        limit."""
        row, most = self.row, self.costs[3]
        grows = f"**{self.grows()}**" if self.is_above() else self.grows()
        goal = TOLD[row.judged](row.goal) if row.goal else ""
        told = row.told.format(f"{self.sizes[3]:,}")
        cost = f"{told_time(most.time)} | {told_memory(most.memory)}"
        return f"| {told} | {cost} | {grows} | {goal} |"


def table(title, measured):
    if measured:
        print(f"\n| {title} | Time | Memory | Grows as | Wanted |\n|---|---|---|---|---|")
        print("\n".join(one.markdown() for one in measured))


def words():
    """The words of the command line."""
    told = "".join(f"\n  {row.word:14} {row.told.format(f'{row.most:,}')}" for row in ROWS)
    found = Words(__doc__, epilog=f"rows, at 8N:{told}")
    rows = [row.word for row in ROWS]
    found.add_argument("--only", nargs="+", metavar="ROW", choices=rows, help="these rows alone")
    found.add_argument("--part", type=int, default=1, metavar="N", help="divides each size")
    told = "fail also where a row costs more than is wanted"
    found.add_argument("--goals", action="store_true", help=told)
    return found.parse_args()


def main():
    asked_for = words()
    program = nvimd.program()
    resource.setrlimit(resource.RLIMIT_AS, (MOST_MEMORY, resource.RLIM_INFINITY))
    print(f"    {'':14} {'N':>10} {'at N':>9} {'2N':>9} {'4N':>9} {'8N':>9} {'grows':>6}")
    measured = []
    for row in ROWS:
        if not asked_for.only or row.word in asked_for.only:
            measured.append(Measured(row, program, asked_for.part))
            print(measured[-1].line(), flush=True)
    table("Work of one client", [one for one in measured if one.row.judged == "time"])
    table("Memory of one client", [one for one in measured if one.row.judged == "memory"])
    faults = [fault for one in measured for fault in one.faults(asked_for.goals)]
    print("\n".join(["", *faults]) if faults else "\nno row grows by more than it may")
    return 1 if faults else 0


if __name__ == "__main__":
    run(main)
