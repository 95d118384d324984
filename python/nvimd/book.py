"""Reads a recorded book, or what `nvimd replay` writes of one (docs/PROTOCOL.md, "Books").

A book is `["nvimd-book", 1, outbox]`, then for each entry a list that begins with "o", "r", "t" or
"c" (opened, request, taken, closed), a "t" followed by as many binaries as it says, and last
`["end", entries]`. `replay` writes `[entry, session, binary]` for each piece of what a session was
sent. Entries count from 0, sessions from 1.
"""

import subprocess
import tempfile
from typing import NamedTuple

import msgpack

from .errors import BadBook, Fault, words_of
from .program import program
from .screen import OPTIONS, Screen
from .values import packed, unpacker

NAME, VERSION = "nvimd-book", 1
SIZES = {"o": 2, "r": 6, "t": 4, "c": 3}
PIECE = 1 << 20  # bytes of each piece of an output but the last


class Output(NamedTuple):
    """A piece of what a session was sent, and the entry by which it was taken."""

    entry: int
    session: int
    data: bytes


class Frame(NamedTuple):
    """What a session's screen is at a flush; the screen goes on with the next frame."""

    entry: int
    session: int
    screen: Screen


class Values:
    """The MessagePack values of a file, one after another; `-` is standard input."""

    def __init__(self, path):
        self.path = path
        try:
            with open(0 if path == "-" else path, "rb") as file:
                self.data = file.read()
        except OSError as error:
            raise BadBook(f"no book in {path}: {words_of(error)}") from None
        self.unpacker = unpacker(msgpack.ExtType, most=0)
        self.unpacker.feed(self.data)
        self.begun = 0

    def left(self):
        return self.unpacker.tell() < len(self.data)

    def next(self):
        self.begun = self.unpacker.tell()
        try:
            return self.unpacker.unpack()
        except msgpack.OutOfData:
            what = f"{self.path} is cut: the value at byte {self.begun} has no end"
            raise BadBook(what) from None
        except Exception:
            raise self.wrong() from None

    def piece(self):
        """The next piece of an output."""
        piece = self.next()
        if not isinstance(piece, bytes):
            raise self.wrong()
        return piece

    def wrong(self):
        what = f"{self.path} is no book and not what replay writes of one"
        return BadBook(f"{what}: the value at byte {self.begun} is wrong")


def outputs(path):
    """What sessions were sent, of a book or of what `replay` wrote."""
    values = Values(path)
    first = values.next()
    if not isinstance(first, list) or len(first) != 3:
        raise values.wrong()
    if first[:2] != [NAME, VERSION]:
        yield from outputs_of_replay(values, first)
        return
    for entry, (told, pieces) in enumerate(entries_in(values)):
        for piece in pieces:
            yield Output(entry, told[2], piece)


def outputs_of_replay(values, piece):
    while True:
        is_list = isinstance(piece, list)
        if not (is_list and [type(part) for part in piece] == [int, int, bytes]):
            raise values.wrong()
        yield Output(*piece)
        if not values.left():
            return
        piece = values.next()


def entries_in(values):
    """The entries after a book's first value, each with the pieces of its output, to its end."""
    count = 0
    while True:
        told = values.next()
        if not isinstance(told, list) or not told:
            raise values.wrong()
        if told[0] == "end":
            break
        if SIZES.get(told[0]) != len(told):
            raise values.wrong()
        yield told, [values.piece() for _ in range(told[3] if told[0] == "t" else 0)]
        count += 1
    if told != ["end", count] or values.left():
        raise values.wrong()


def frames(found):
    """Each flush of each session's screen, of these outputs in their order."""
    screens, unpackers = {}, {}
    for entry, session, data in found:
        screen = screens.setdefault(session, Screen())
        messages = unpackers.setdefault(session, unpacker(most=0))
        try:
            messages.feed(data)
            batches = [message[2] for message in messages if message[:2] == [2, "redraw"]]
        except Exception:
            raise BadBook(f"what session {session} was sent at entry {entry} is wrong") from None
        for batch in batches:
            screen.take(batch)
            if screen.flushed:
                yield Frame(entry, session, screen)


def cut(output):
    """An output in pieces as a book has it."""
    return [output[at : at + PIECE] for at in range(0, len(output), PIECE)]


class Book:
    """A book that was read whole: its first value, and its entries, each with its output."""

    def __init__(self, path):
        values = Values(path)
        self.path, self.data = path, values.data
        self.head = values.next()
        is_list = isinstance(self.head, list) and len(self.head) == 3
        if not is_list or self.head[:2] != [NAME, VERSION]:
            raise values.wrong()
        self.entries = [(told, b"".join(pieces)) for told, pieces in entries_in(values)]

    def pieces(self):
        """The output of each entry, cut as a book has it."""
        for number, (told, output) in enumerate(self.entries):
            for piece in cut(output):
                yield Output(number, told[2], piece)

    def values(self, last=None):
        """The values of a book of the entries up to this one, without the last value."""
        yield self.head
        for told, output in self.entries if last is None else self.entries[: last + 1]:
            pieces = cut(output)
            yield [*told[:3], len(pieces)] if told[0] == "t" else told
            yield from pieces

    def whole(self):
        """The bytes of the book in the shortest spelling of each value."""
        return b"".join(map(packed, [*self.values(), ["end", len(self.entries)]]))

    def summary(self):
        """What `replay --check` says of it."""
        kinds = [told[0] for told, _ in self.entries]
        count = sum(len(output) for _, output in self.entries)
        opened, taken = kinds.count("o"), kinds.count("t")
        return f"entries {len(kinds)} sessions {opened} takes {taken} bytes {count} ok\n"

    def sent(self):
        """What each session was sent."""
        found = {}
        for _, session, piece in self.pieces():
            found.setdefault(session, bytearray()).extend(piece)
        return found

    # ---- as of an entry

    def after(self, entry, *calls):
        """What one more session is sent that makes these calls after an entry: their results, and
        its screen. They are played by `nvimd replay`."""
        told = [told for told, _ in self.entries[: entry + 1]]
        session = 1 + sum(one[0] == "o" for one in told)
        requests = [["r", 0, session, msgid, *call] for msgid, call in enumerate(calls, 1)]
        more = [["o", 0], *requests, ["t", 0, session, 1], b"?"]
        count = len(told) + len(requests) + 2
        with tempfile.NamedTemporaryFile() as file:
            file.write(b"".join(map(packed, [*self.values(entry), *more, ["end", count]])))
            file.flush()
            words = [program(), "replay", file.name]
            done = subprocess.run(words, stdin=subprocess.DEVNULL, capture_output=True)
        if done.returncode != 0:
            said = done.stderr.decode(errors="replace").strip()
            raise BadBook(f"{self.path} can't be played up to entry {entry}: {said}")
        return answered(done.stdout, session, len(calls))

    def texts(self, entry):
        """The name and the lines of each buffer after an entry, by its number."""
        (buffers,), _ = self.after(entry, ["nvim_list_bufs", []])
        names = [["nvim_buf_get_name", [n]] for n in buffers]
        lines = [["nvim_buf_get_lines", [n, 0, -1, True]] for n in buffers]
        ((results, _),), _ = self.after(entry, ["nvim_call_atomic", [names + lines]])
        pairs = zip(results[: len(buffers)], results[len(buffers) :])
        return dict(zip(buffers, pairs))

    def screen(self, entry, session=None):
        """The screen of a session at its last flush up to an entry; without a session, that of the
        first one that has a screen, or else that of a UI that comes after the entry."""
        found = (output for output in self.pieces() if output.entry <= entry)
        screens = {frame.session: frame.screen for frame in frames(found)}
        if session is None and not screens:
            return self.after(entry, ["nvim_ui_attach", [80, 24, OPTIONS]])[1]
        return chosen(screens, session, self.path)


def chosen(screens, session, path):
    """The screen of a session, of the first one that has any without a session."""
    if session is None and screens:
        return screens[min(screens)]
    if session not in screens:
        raise BadBook(f"no screen{'' if session is None else f' of session {session}'} in {path}")
    return screens[session]


def answered(replayed, session, count):
    """The results of a session's calls in what `replay` wrote, and its screen."""
    values, messages, screen = unpacker(most=0), unpacker(most=0), Screen()
    values.feed(replayed)
    for _, whose, data in values:
        if whose == session:
            messages.feed(data)
    replies = {}
    for message in messages:
        if message[0] == 1:
            replies[message[1]] = message[2:]
        elif message[1] == "redraw":
            screen.take(message[2])
    for error, _ in replies.values():
        if error is not None:
            raise Fault.of(error)
    return [replies[n + 1][1] for n in range(count)], screen
