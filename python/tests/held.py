"""Holds a recorded book against the program, and against what the clients of its sessions read."""

import nvimd
from nvimd.values import packed, unpacker
from runs import finished


def spelled(values):
    """Values in their shortest spellings."""
    return b"".join(map(packed, values))


def held(check, path):
    """Holds a book against the program: it is spelled as it must be, and `replay` gives what it
    says; the book."""
    book = nvimd.Book(path)
    check.same("a book in its spelling", book.whole() == book.data, True)
    summary = book.summary().encode()
    check.same("replay --check", finished("replay", path, "--check"), (summary, 0, ""))
    written, *end = finished("replay", path)
    check.same("replay", (written == spelled(map(list, book.pieces())), *end), (True, 0, ""))
    return book


class Replayed:
    """What `replay` says of a book, and what each session was sent by it. No value of a client is
    read, so there may be any."""

    def __init__(self, check, path):
        line, *end = finished("replay", path, "--check")
        check.same("replay --check", (line.endswith(b" ok\n"), *end), (True, 0, ""))
        written, *end = finished("replay", path)
        check.same("replay", tuple(end), (0, ""))
        values = unpacker(most=0)
        values.feed(written)
        self.line, self.found = line.decode(), {}
        for _, session, piece in values:
            self.found.setdefault(session, bytearray()).extend(piece)

    def summary(self):
        return self.line

    def sent(self):
        return self.found


def held_by_sessions(check, book, read):
    """Holds a book against what the clients of sessions read: all that it says, or a front of it
    where a client left first."""
    sent = book.sent()
    for session, (data, is_whole) in read.items():
        told = sent.get(session, b"")
        wanted = told if is_whole else told[: len(data)]
        check.same(f"what session {session} read", data == wanted, True)
