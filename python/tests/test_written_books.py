"""Books of `nvimd` beside a reader of their own (nvimd/book.py): those that `generate` and `serve
--book` write.

Each is spelled as it must be, `replay --check` finds it right and counts its entries, and `replay`
gives each session what it was sent. What `generate` has its sessions ask is what the rules give
(script.py). A session isn't heard while half an outbox waits for it, and ends where its outbox runs
over. Values in their longest spellings are read as well. What is no book is refused with the place
of the value that is wrong, a changed output is found, and so is what can't be read or written: each
by its status and its line, and nothing else is written.
"""

import bisect
import hashlib
import os
import subprocess

import msgpack
import pytest

import nvimd
from held import held, held_by_sessions, spelled
from nvimd.book import PIECE, Values
from runs import LONG, finished
from script import script

MOST_BYTES = 67_109_120  # of a value of a book
# of a number, the bytes of what is generated, and their sum
GENERATED = {
    7: (858_848, "02515d4ed4da593e6661e13e302f797523fbc5fda3e948595d0faf0d0e3fb05a"),
    (1 << 64) - 1: (852_451, "ba7f9dbf41a1cea4ba1287705265c3fd3c49222fd5b8fe690ea26dae1c807379"),
}
SUMMARY = "entries 6871 sessions 3 takes 4862 bytes 728618 ok\n"  # of the book of 7

# of a number, how many requests of its script there are of each of these methods, how many others,
# and the sum of the letters put
METHODS = [
    "nvim_buf_set_lines",
    "nvim_buf_set_extmark",
    "nvim_command",
    "nvim_win_set_cursor",
    "nvim_buf_get_lines",
]
SUMS = {
    7: [987, 400, 221, 199, 193, 3, 1_481_881],
    (1 << 64) - 1: [990, 419, 213, 186, 192, 3, 1_523_997],
}

OUTBOX = 16  # the least
NAME = "nvim_buf_line_count"
SMALL = [
    ["nvimd-book", 1, 4096],
    ["o", 0],
    ["r", 0, 1, 1, NAME, [0]],
    ["t", 0, 1, 1],
    b"\x94\x01\x01\xc0\x01",
    ["c", 0, 1],
    ["end", 4],
]
DEEP = [0]
for _ in range(63):
    DEEP = [DEEP]
# what is wrong in place of each value of the small book
WRONG = {
    0: [
        ["nvimd-cook", 1, 4096],
        ["nvimd-book", 0, 4096],
        ["nvimd-book", 1, 15],
        ["nvimd-book", 1, 1_048_577],
        ["nvimd-book", 1],
        "nvimd-book",
        [],
    ],
    1: [
        ["o", -1],
        ["o", 1 << 32],
        ["o"],
        ["o", 0, 0],
        ["x", 0],
        [b"o", 0],
        [],
        0,
        None,
        {"o": 0},
        ["c", 0, 1],
        ["end", 4],
    ],
    2: [
        ["r", 0, 2, 1, NAME, [0]],
        ["r", 0, 0, 1, NAME, [0]],
        ["r", 0, 1, 1 << 32, NAME, [0]],
        ["r", 0, 1, -1, NAME, [0]],
        ["r", 0, 1, 1, NAME.encode(), [0]],
        ["r", 0, 1, 1, NAME, {}],
        ["r", 0, 1, 1, NAME, DEEP],
        ["t", 0, 1, 0],
    ],
    3: [["t", 0, 2, 1], ["t", 0, 1, -1], ["t", 0, 1], b"\x94\x01\x01\xc0\x01"],
    4: [b"", "text", 5, ["t", 0, 1, 1], b"x" * (PIECE + 1)],
    5: [["c", 0, 2], ["c", 0], ["t", 0, 1, 0], ["end", 4]],
    6: [
        ["end", 3],
        ["end", 5],
        ["end", -1],
        ["end"],
        ["fin", 4],
        ["c", 0, 1],
        ["r", 0, 1, 2, NAME, [0]],
    ],
}
# the small book with a number of pieces that its one piece isn't
MISCOUNTED = [["t", 0, 1, 0], ["t", 0, 1, 2]]
BAD_WORDS = [
    ["replay"],
    ["replay", "--check"],
    ["replay", "one", "two"],
    ["replay", "one", "--book", "two"],
    ["serve", "--listen", "/x", "--book"],
    ["generate"],
    ["generate", "-1"],
    ["generate", str(1 << 64)],
    ["generate", "seven"],
    ["generate", "7", "8"],
]


def sums(entries):
    """The sums of the requests among the entries of a script."""
    asked = [told[4:] for told in entries if told[0] == "r"]
    counts = [sum(name == method for name, _ in asked) for method in METHODS]
    put = [line for name, params in asked if name == METHODS[0] for line in params[4]]
    letters = sum(sum(line.encode()) for line in put)
    return [*counts, len(asked) - sum(counts), letters]


def edit(session, msgid):
    """A session puts a line in front of all others."""
    return ["r", 0, session, msgid, "nvim_buf_set_lines", [1, 0, 0, True, ["a"]]]


def event(name, *params):
    """An event of buffer 1."""
    return msgpack.packb([2, name, [msgpack.ExtType(0, b"\x01"), *params]])


def replied(msgid, result=None):
    return msgpack.packb([1, msgid, None, result])


def longest(value):
    """A value in its longest spelling."""
    if isinstance(value, bool) or value is None:
        return msgpack.packb(value)
    if isinstance(value, int):
        if value >= 1 << 63:
            return b"\xcf" + value.to_bytes(8, "big")
        return b"\xd3" + value.to_bytes(8, "big", signed=True)
    head = {str: b"\xdb", bytes: b"\xc6", list: b"\xdd", dict: b"\xdf"}[type(value)]
    held_there = value.encode(errors="surrogateescape") if isinstance(value, str) else value
    head += len(held_there).to_bytes(4, "big")
    if isinstance(held_there, bytes):
        return head + held_there
    parts = value if isinstance(value, list) else [part for pair in value.items() for part in pair]
    return head + b"".join(map(longest, parts))


def values_of(book):
    """All values of a book."""
    return [*book.values(), ["end", len(book.entries)]]


def laid(path):
    """The places at which the values of a file begin, and its end."""
    values = Values(path)
    places = []
    while values.left():
        values.next()
        places.append(values.begun)
    return [*places, len(values.data)]


class Books:
    """What is said of the books in a folder."""

    def __init__(self, check, folder):
        self.same = check.same
        self.folder = folder

    def write(self, name, data):
        path = os.path.join(self.folder, name)
        with open(path, "wb") as file:
            file.write(data)
        return path

    def refused(self, what, data, status, line, *words):
        """`replay` of these bytes writes nothing, and ends with this status and line."""
        got = finished("replay", self.write("bad", data), *words)
        self.same(f"{what} {words}", got, (b"", status, line))

    def malformed(self, what, data, place):
        for words in ([], ["--check"]):
            self.refused(what, data, 6, f"nvimd: malformed book at {place}", *words)

    def generated(self):
        """The same bytes each time, of the size and the sum that the rules give."""
        for number, (size, wanted) in GENERATED.items():
            data, *end = finished("generate", str(number))
            got = (len(data), hashlib.sha256(data).hexdigest(), *end)
            self.same(f"the book of {number}", got, (size, wanted, 0, ""))
            again = finished("generate", str(number))[0]
            self.same(f"the book of {number} again", again == data, True)
            book = held(self, self.write(str(number), data))
            entries = [entry for entry, _ in book.entries if entry[0] != "t"]
            same = entries == script(number)
            self.same(f"what is asked by the script of {number}", same, True)
            self.same(f"the sums of the script of {number}", sums(entries), SUMS[number])
            if number == 7:
                self.same("what it counts", book.summary(), SUMMARY)
                self.long_forms(book)
                self.changed(book)

    def long_forms(self, book):
        """Its values in their longest spellings are the same book."""
        path = self.write("long", b"".join(map(longest, values_of(book))))
        summary = book.summary().encode()
        self.same("long forms, checked", finished("replay", path, "--check"), (summary, 0, ""))
        pieces = spelled(map(list, book.pieces()))
        self.same("long forms", finished("replay", path) == (pieces, 0, ""), True)

    def changed(self, book):
        """Two outputs are changed by a bit: the first is found."""
        numbers = [number for number, _, _ in book.pieces()]
        first, second = numbers[len(numbers) // 3], numbers[-1]
        for number in (first, second):
            told, output = book.entries[number]
            book.entries[number] = told, output[:-1] + bytes([output[-1] ^ 1])
        data = book.whole()
        self.refused(
            "two changed outputs", data, 8, f"nvimd: check differs at entry {first}", "--check"
        )

    def small(self):
        """A small book: right, cut at each byte, and with each value wrong in some way."""
        data = spelled(SMALL)
        path = self.write("small", data)
        places = laid(path)
        held(self, path)
        for at in range(len(data)):
            self.malformed(f"cut at {at}", data[:at], places[bisect.bisect(places, at) - 1])
        for number, wrong in WRONG.items():
            at = places[number]
            self.malformed(f"byte {at} begins nothing", data[:at] + b"\xc1" + data[at + 1 :], at)
            for value in wrong:
                values = [*SMALL[:number], value, *SMALL[number + 1 :]]
                self.malformed(f"{str(value)[:40]} in place {number}", spelled(values), at)
        for take in MISCOUNTED:
            self.malformed(f"{take}", spelled([*SMALL[:3], take, *SMALL[4:]]), places[4])
        self.malformed("more behind it", data + b"\xc0", len(data))
        for output in (b"\x94\x01\x01\xc0\x02", b"\x94\x01\x01\xc0", b"\x94\x01\x01\xc0\x01\xc0"):
            changed = spelled([*SMALL[:4], output, *SMALL[5:]])
            self.refused("another output", changed, 8, "nvimd: check differs at entry 2", "--check")
            true = spelled([[2, 1, SMALL[4]]])
            got = finished("replay", self.write("changed", changed))
            self.same("another output, replayed", got, (true, 0, ""))

    def whole(self, values):
        """A book of these values is right."""
        entries = sum(isinstance(value, list) for value in values) - 1
        held(self, self.write("whole", spelled([*values, ["end", entries]])))

    def outboxes(self):
        """Sessions that take nothing meanwhile: one that asks, and one that is told what another
        does."""
        waiting = [["nvimd-book", 1, OUTBOX], ["o", 0], *(edit(1, n) for n in range(1, 9))]
        replies = b"".join(map(replied, range(1, 9)))
        taken = [*waiting, ["t", 0, 1, 1], replies, edit(1, 9), ["t", 0, 1, 1], replied(9)]
        self.whole(taken)
        ninth = spelled([*waiting, edit(1, 9)])
        self.malformed("a ninth request while eight replies wait", ninth, len(spelled(waiting)))
        front = [
            *(["nvimd-book", 1, OUTBOX], ["o", 0], ["o", 0]),
            *(["r", 0, 2, 1, "nvim_buf_attach", [1, False, {}]], ["t", 0, 2, 1]),
            event("nvim_buf_changedtick_event", 2) + replied(1, True),
        ]
        for n in range(1, OUTBOX + 2):
            front += [edit(1, n), ["t", 0, 1, 1], replied(n)]
        ticks = range(3, 3 + OUTBOX)
        told = [event("nvim_buf_lines_event", tick, 0, 0, ["a"], False) for tick in ticks]
        events = b"".join(told)
        over = [*front, ["t", 0, 2, 1], events]
        self.whole([*over, edit(1, 18), ["t", 0, 1, 1], replied(18), ["c", 0, 1]])
        for entry in (["t", 0, 2, 0], ["t", 0, 2, 1], edit(2, 2)):
            what = f"{entry[0]} of a session whose outbox ran over"
            self.malformed(what, spelled([*over, entry]), len(spelled(over)))

    def served(self):
        """The book of a server over a longer file: what its clients asked for, and what they read;
        an output is of three pieces."""
        path = self.write("served", b"\xc1" * (8 * PIECE))
        server = nvimd.Server("--sessions", "4", "--outbox", "64", book=path)
        sessions = [server.connect() for _ in range(3)]
        for session in sessions:
            session.kept = bytearray()
            session.number = session.call("nvim_get_api_info")[0]
        editor, follower, ui = sessions
        ui.call("nvim_ui_attach", 40, 12, {"ext_linegrid": True})
        follower.call("nvim_buf_attach", 1, True, {})
        buffer = msgpack.ExtType(0, b"\x01")
        notes = [[2, "nvim_nope", []], [2, b"nvim_list_bufs", []], [2, NAME, [buffer]]]
        editor.send(spelled(notes))
        editor.call("nvim_buf_set_lines", 0, 0, -1, True, ["x" * 100_000] * 22)
        editor.call("nvim_buf_get_lines", 0, 0, -1, True)
        for session in (follower, ui):
            session.call(NAME, 0)  # reads what it is told, without which the server doesn't end
        self.same("a server's status", server.quit(LONG), 0)
        for session in sessions:
            session.rest()
            session.close()
        book = held(self, path)
        self.same("its first value", book.head, ["nvimd-book", 1, 64])
        read = {session.number: (session.kept, True) for session in sessions}
        held_by_sessions(self, book, read)
        requests = [told for told, _ in book.entries if told[0] == "r"]
        asked = [told[3:] for told in requests if told[2] == editor.number]
        names = ["nvim_get_api_info", "nvim_nope", "nvim_list_bufs", NAME]
        names += ["nvim_buf_set_lines", "nvim_buf_get_lines"]
        self.same("what was asked", [name for _, name, _ in asked], names)
        self.same("their numbers", [msgid for msgid, _, _ in asked], [1, None, None, None, 2, 3])
        self.same("a handle", asked[3][2], [buffer])
        self.cut_otherwise(book)

    def cut_otherwise(self, book):
        """A byte of the first of three pieces stands in the second."""
        values = values_of(book)
        number = next(n for n, value in enumerate(values) if value[0] == "t" and value[3] == 3)
        one, two = values[number + 1 : number + 3]
        values[number + 1 : number + 3] = [one[:-1], one[-1:] + two]
        self.malformed("a short piece", spelled(values), len(spelled(values[: number + 1])))

    def greatest(self):
        """A value of as many bytes as may be, and one of a byte more."""
        begun = [["nvimd-book", 1, 4096], ["o", 0]]
        reply = msgpack.packb([1, 1, [0, "Invalid method: x"], None])
        for more in (0, 1):
            call = ["r", 0, 1, 1, "x", [bytes(MOST_BYTES)]]
            call[5] = [bytes(2 * MOST_BYTES + more - len(msgpack.packb(call)))]
            self.same("its bytes", len(msgpack.packb(call)), MOST_BYTES + more)
            data = spelled([*begun, call, ["t", 0, 1, 1], reply, ["c", 0, 1], ["end", 4]])
            if more:
                self.malformed("a value of a byte more", data, len(spelled(begun)))
            else:
                told = f"entries 4 sessions 1 takes 1 bytes {len(reply)} ok\n".encode()
                got = finished("replay", self.write("greatest", data), "--check")
                self.same("the greatest value", got, (told, 0, ""))

    def devices(self):
        """What can't be read or written."""
        path = self.write("small", spelled(SMALL))
        for name in (os.path.join(self.folder, "nothing"), self.folder):
            for words in ([], ["--check"]):
                got = finished("replay", name, *words)
                self.same(f"replay of {name} {words}", got, (b"", 3, "nvimd: read fault"))
        for words in (["replay", path], ["replay", path, "--check"], ["generate", "7"]):
            with open("/dev/full", "wb") as full:
                got = finished(*words, into=full)
                self.same(f"{words} on a full disk", got, (None, 4, "nvimd: write fault"))
        socket = os.path.join(self.folder, "socket")
        for name in (os.path.join(self.folder, "nowhere", "book"), self.folder):
            done = finished("serve", "--listen", socket, "--book", name)
            got = (*done, os.path.exists(socket))
            self.same(f"a book in {name}", got, (b"", 4, "nvimd: write fault", False))
        server = nvimd.Server(book="/dev/full", stderr=subprocess.PIPE)
        got = (server.quit(), server.process.stderr.read())
        self.same("a book on a full disk", got, (4, b"nvimd: write fault\n"))
        server.process.stderr.close()
        taken = self.write("taken", b"old")
        nowhere = os.path.join(self.folder, "nowhere", "socket")
        done = finished("serve", "--listen", nowhere, "--book", taken)
        self.same("no address", done, (b"", 5, "nvimd: listener fault"))

    def bad_words(self):
        for words in BAD_WORDS:
            wanted = (b"", 2, "nvimd: bad command line")
            self.same(f"the words {words}", finished(*words), wanted)


@pytest.mark.parametrize(
    "part",
    [
        Books.generated,
        Books.small,
        Books.outboxes,
        Books.greatest,
        Books.served,
        Books.devices,
        Books.bad_words,
    ],
)
def test_books(check, tmp_path, part):
    part(Books(check, str(tmp_path)))
