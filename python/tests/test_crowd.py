"""Many sessions of `nvimd serve` at once over a socket, each a seeded series of calls, and each
reply looked at.

Editors follow two texts that all of them change, and compare their copies with the texts at each of
their calls; some of them stay, and read to the end. Owners change a text of their own, and compare
each reply with a plain model. UIs fold their screens, which must be the text in the end. Some
sessions end in the middle of a message and come again, and some don't read. Then the server is
asked to end. The book that it recorded is right, by `nvimd replay`, and gives each session what its
client read. Last, sessions open, work and close, as many as it takes, three times over: its
descriptors and its memory come back.
"""

import time

import pytest

import nvimd
from crowd import PATIENCE, SHARED, Editor, Owner, Part, is_there, settled
from held import held, held_by_sessions
from nvimd.screen import OPTIONS
from nvimd.values import packed
from runs import LONG

MOST = 256  # sessions at once
ROUND = 8  # MB that a round of short sessions may leave behind, with its entries of the history


class Follower(Editor):
    """An editor that stays, and reads to the end."""

    is_whole = True

    def end(self):
        self.session.rest()
        super().end()


class Ui(Part):
    """Folds its screen; it stays until the text at the end is shown."""

    def begin(self):
        self.screen = nvimd.Screen()
        size = self.random.randint(30, 60), self.random.randint(10, 20)
        self.session.call("nvim_ui_attach", *size, OPTIONS)

    def fold(self):
        for name, batch in self.session.pending():
            self.same("what it is told", name, "redraw")
            self.screen.take(batch)

    def step(self):
        if self.random.random() < 0.3:
            size = self.random.randint(30, 60), self.random.randint(10, 20)
            self.session.call("nvim_ui_try_resize", *size)
        else:
            self.session.ask("nvim_win_set_cursor", 0, [self.random.randint(1, 9), 0])
        self.fold()

    def end(self):
        """Its session stays."""

    def shows(self, size, lines):
        """Waits for a screen of this size that shows these lines, from the first on."""
        width, height = size
        rows = height - 2
        wanted = [line[:width].rstrip() for line in lines[:rows]]
        wanted += ["~"] * (rows - len(wanted))
        until = time.monotonic() + PATIENCE
        got = None
        while time.monotonic() < until and got != wanted:
            self.session.poll(0.1)
            self.fold()
            if self.screen.flushed and (self.screen.width, self.screen.height) == size:
                got = [row.rstrip() for row in self.screen.rows[:rows]]
        self.same("its screen", got, wanted)


class Cut(Part):
    """Ends in the middle of a message, and comes again."""

    is_read = False

    def step(self):
        self.session.call("nvim_buf_line_count", self.random.choice(SHARED))
        message = packed([0, 9, "nvim_buf_get_lines", [1, 0, -1, True]])
        self.session.send(message[: self.random.randint(1, len(message) - 1)])
        self.session.close()
        self.session = self.server.connect()


class Deaf(Part):
    """Follows the shared texts and asks for them, and reads nothing."""

    is_read = False

    def begin(self):
        for number in SHARED:
            self.session.post("nvim_buf_attach", number, True, {})
        self.session.connection.setblocking(False)

    def step(self):
        try:
            self.session.post("nvim_buf_get_lines", self.random.choice(SHARED), 0, -1, True)
        except BlockingIOError:
            pass
        time.sleep(0.002)


ROLES = [Editor, Editor, Follower, Owner, Owner, Ui, Cut, Deaf]


def crowd(server, check, seed, count, steps):
    """So many sessions at once, and what their UIs show behind it; then the server's end. Answers
    what clients read, by session."""
    judge = server.connect()
    is_there(judge, SHARED[1])
    parts = [ROLES[n % len(ROLES)](server, check, f"{seed} {n}", steps) for n in range(count)]
    for part in parts:
        part.start()
    for part in parts:
        part.has_worked.wait()
    calls = [["nvim_set_current_buf", [1]], ["nvim_win_set_cursor", [0, [1, 0]]]]
    judge.call("nvim_call_atomic", calls)
    lines = judge.call("nvim_buf_get_lines", 1, 0, -1, True)
    size = judge.call("nvim_win_get_width", 0), judge.call("nvim_win_get_height", 0) + 2
    shown = [part for part in parts if isinstance(part, Ui)]
    check.same("the UIs that are there", len(judge.call("nvim_list_uis")), len(shown))
    for part in shown:
        part.shows(size, lines)
    for part in shown:  # the screen grows when the smallest UI goes
        part.session.close()
    judge.close()
    check.same("status", server.quit(LONG), 0)
    for part in parts:
        part.join()
    read = [part for part in parts if part.is_read]
    return {part.number_of_session: (bytes(part.session.kept), part.is_whole) for part in read}


def rounds(server, check, count):
    """So many sessions open, work and close, three times; what is left behind the first time is
    what is left later."""
    left = []
    for _ in range(3):
        sessions = [server.connect() for _ in range(count)]
        for n, session in enumerate(sessions):
            session.call("nvim_buf_set_lines", 1, 0, -1, True, [f"session {n}"])
        for session in sessions:
            session.call("nvim_buf_attach", 1, True, {})
            session.call("nvim_buf_detach", 1)
            session.close()
        left.append(settled(server))
    check.same("descriptors behind each round", {told for told, _ in left}, {left[0][0]})
    check.same("memory behind a third round", left[2][1] - left[1][1] < ROUND, True)
    return [memory for _, memory in left]


@pytest.mark.seeds(1)
def test_all_sessions_at_once_and_their_book(request, check, tmp_path, seed):
    count, steps = (request.config.getoption(name) for name in ("sessions", "steps"))
    path = str(tmp_path / "book")
    with nvimd.Server("--sessions", str(min(count + 8, MOST)), book=path) as server:
        read = crowd(server, check, seed, count, steps)
    book = held(check, path)
    held_by_sessions(check, book, read)
    print(f"the book: {book.summary()}", end="")


def test_short_sessions_leave_nothing(check):
    with nvimd.Server("--sessions", str(MOST)) as server:
        left = rounds(server, check, MOST)
        check.same("status", server.quit(), 0)
    print(f"{MOST} sessions three times over: {', '.join(f'{n:.1f}' for n in left)} MB")
