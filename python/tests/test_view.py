"""clients/view.py under pseudo-terminals: what stands on them, read by pyte, is the screen that a
client of its own folds, at each size; and however it ends, there is one line that says why, and the
terminal is as it was.
"""

import fcntl
import os
import re
import select
import signal
import struct
import subprocess
import termios
import time
import unicodedata

import pytest

import nvimd
from nvimd.screen import OPTIONS
from runs import CLIENTS
from scenes import FIRST, FLAGS, SECOND, Bridge, Scenes, flags_in, write_calls

pyte = pytest.importorskip("pyte")
pytest.importorskip("PIL")
from picture import screen_of_server  # of the clients

SIZES = [(80, 24), (47, 13)]
OTHER_SIZES = [(63, 17), (90, 30)]
PATIENCE = 10  # seconds for what must come
MODE = re.compile(rb"\x1b\[\?(\d+)([hl])")
AT_REST = {
    b"1049": b"l",
    b"7": b"h",
    b"25": b"h",
}  # the plain screen, lines that wrap, a cursor that is seen


class Seen:
    """A view in a pseudo-terminal of its own, and what stands there."""

    def __init__(self, size, words):
        self.master, self.slave = os.openpty()
        self.found = termios.tcgetattr(self.slave)
        self.sent = b""
        self.screen = pyte.Screen(*size)
        self.stream = pyte.ByteStream(self.screen)
        self.put_size(size)
        terminal = {"stdin": self.slave, "stdout": self.slave, "preexec_fn": self.own_terminal}
        command = [os.path.join(CLIENTS, "view.py"), *words]
        self.view = subprocess.Popen(command, stderr=subprocess.PIPE, **terminal)

    def own_terminal(self):
        os.setsid()
        fcntl.ioctl(0, termios.TIOCSCTTY, 0)

    def put_size(self, size):
        fcntl.ioctl(self.master, termios.TIOCSWINSZ, struct.pack("HHHH", size[1], size[0], 0, 0))

    def resize(self, size):
        self.screen.resize(size[1], size[0])
        self.put_size(size)

    def press(self, key):
        os.write(self.master, key)

    def take(self, seconds):
        """Takes what the view writes in this time, at most one piece."""
        if not select.select([self.master], [], [], seconds)[0]:
            return False
        piece = os.read(self.master, 1 << 16)
        self.sent += piece
        self.stream.feed(piece)
        return True

    def until(self, wanted, shown):
        """Whether this is shown, now or in a while; what is shown."""
        limit = time.monotonic() + PATIENCE
        while shown() != wanted and self.view.poll() is None and time.monotonic() < limit:
            self.take(0.1)
        return shown()

    def cells(self):
        """What stands there: the cells, each with its attributes, and the cursor's place where it
        is seen."""
        buffer, columns = self.screen.buffer, range(self.screen.columns)
        rows = [[cell_of(buffer[row][col]) for col in columns] for row in range(self.screen.lines)]
        cursor = self.screen.cursor
        return rows, None if cursor.hidden else (cursor.y, cursor.x)

    def end(self):
        """Its status, the lines that it said, and whether the terminal is as it was."""
        limit = time.monotonic() + PATIENCE
        while self.view.poll() is None and time.monotonic() < limit:
            self.take(0.1)
        if self.view.poll() is None:
            self.view.kill()
        said = self.view.stderr.read().decode().splitlines()
        while self.take(0):
            pass
        modes = dict(MODE.findall(self.sent))
        as_found = termios.tcgetattr(self.slave) == self.found
        as_found = as_found and all(AT_REST[mode] == put for mode, put in modes.items())
        status = self.view.wait()
        self.view.stderr.close()
        os.close(self.master)
        os.close(self.slave)
        return status, said, as_found


def cell_of(char):
    """A cell of pyte's screen."""
    flags = (char.bold, char.italics, char.underscore, char.strikethrough, char.reverse)
    return unicodedata.normalize("NFC", char.data), char.fg, char.bg, flags


SHOWN = ("bold", "italic", "underline", "strikethrough", "reverse")
BLANK = (" ", "default", "default", (False,) * 5)


def cell_in(cell, colours):
    """The same of a cell of a screen."""
    text, attribute = cell
    foreground = attribute.get("foreground", colours[0])
    background = attribute.get("background", colours[1])
    flags = tuple(bool(attribute.get(name)) for name in SHOWN)
    return unicodedata.normalize("NFC", text), f"{foreground:06x}", f"{background:06x}", flags


def cells_in(screen, size):
    """What a terminal of this size shows of a screen."""
    rows = [
        [cell_in(cell, screen.colours) for cell in row[: size[0]]]
        for row in screen.shown()[: size[1]]
    ]
    rows = [row + [BLANK] * (size[0] - len(row)) for row in rows]
    return rows + [[BLANK] * size[0]] * (size[1] - len(rows)), screen.cursor


def difference(got, wanted):
    """The first cell in which two screens differ, and None for equal ones."""
    for row, (some, others) in enumerate(zip(got[0], wanted[0])):
        for col, (one, other) in enumerate(zip(some, others)):
            if one != other:
                return f"row {row}, column {col}: {one}, and not {other}"
    return None if got == wanted else f"size or cursor: {got[1]}, and not {wanted[1]}"


def named(calls):
    return [(name, name, *params) for name, params in calls]


class Views(Scenes):
    """What views of the program's screens show."""

    def shows(self, what, seen, screen):
        size = (seen.screen.columns, seen.screen.lines)
        wanted = cells_in(screen, size)
        self.same(what, difference(seen.until(wanted, seen.cells), wanted), None)

    def ends(self, what, seen, words):
        """It ends with one line that holds these words, and with a status that isn't 0."""
        status, said, as_found = seen.end()
        got = status != 0, len(said), as_found
        self.same(f"{what}: ended, lines, terminal as found", got, (True, 1, True))
        right = [line for line in said if line.startswith("view: ") and words in line]
        self.same(f"{what}: said", right, said)

    def sizes(self):
        """Each size, then another one, and each way to leave; over a child and over both kinds of
        socket."""
        unix = Bridge(self.embed, self.path("socket"))
        inet = Bridge(self.embed)
        servers = [self.child, [unix.address], [inet.address]]
        for number, (size, other) in enumerate(zip(SIZES, OTHER_SIZES)):
            for words in servers:
                seen = Seen(size, ["--calls", self.calls, *words])
                calls = named(FIRST + SECOND)
                screen = screen_of_server([], self.embed, size, calls)
                self.same("flags that are shown", flags_in(screen), FLAGS)
                self.shows(f"{size} over {words}", seen, screen)
                calls.append(("size", "nvim_ui_try_resize", *other))
                seen.resize(other)
                later = screen_of_server([], self.embed, size, calls)
                self.shows(f"{size}, then {other}", seen, later)
                seen.press([b"q", b"\x03"][number])
                self.same("left by a key", seen.end(), (0, [], True))

    def cuts(self):
        """A server that ends inside what it sends: before the first screen, and while it is
        shown."""
        with nvimd.start() as session:
            session.call("nvim_ui_attach", *SIZES[0], OPTIONS)
            while not session.pending():
                session.read()
            first = session.fed
        inside = "inside a message"
        for most, words in [(9, inside), (first - 1, inside), (first + 40, "ended")]:
            bridge = Bridge(self.embed, most=most)
            self.ends(
                f"cut behind {most} bytes",
                Seen(SIZES[0], ["--calls", self.calls, bridge.address]),
                words,
            )

    def bad_words(self):
        """Servers that aren't there or are none, and calls that can't be made."""
        nope = write_calls(self.path("nope"), FIRST[:1] + [["nvim_nope", []]])
        quits = write_calls(self.path("quits"), [["nvim_command", ["qall!"]]])
        torn = self.path("torn")
        with open(torn, "w", encoding="utf-8") as file:
            file.write('["nvim_command", ["undo"]')
        for words, said in [
            (["/nowhere/socket"], "no server at /nowhere/socket"),
            (["127.0.0.1:1"], "no server at 127.0.0.1:1"),
            (["--", "/nowhere/program"], "no program /nowhere/program"),
            (["--", "true"], "the server ended at byte 0 of what it sent, with status 0"),
            (["--", "sh", "-c", "echo broken >&2; exit 3"], "with status 3: broken"),
            (["--", "printf", r"\301"], "no MessagePack"),
            (["--", "printf", r"\221\001"], "no message"),
            (["one", "two"], "name no server"),
            (["--calls", "/nowhere/calls", *self.child], "no calls in /nowhere/calls"),
            (["--calls", torn, *self.child], f"line 1 of {torn} is no call"),
            (["--calls", nope, *self.child], f"line 2 of {nope}, nvim_nope: "),
            (["--calls", quits, *self.child], "the server ended"),
        ]:
            self.ends(f"{words}", Seen(SIZES[0], words), said)

    def bad_terminals(self):
        """A terminal that is too small, at first or later; none; and a signal."""
        self.ends("two rows", Seen((40, 2), self.child), "the terminal of 40 by 2 is too small")
        seen = self.begun()
        seen.resize((40, 1))
        self.ends("one row later", seen, "the terminal of 40 by 1 is too small")
        seen = self.begun()
        seen.view.send_signal(signal.SIGTERM)
        self.ends("a signal", seen, "ended by SIGTERM")
        told = self.path("told")
        silent = Bridge(["sh", "-c", f"head -c 1 >{told}; cat >/dev/null"])
        seen = Seen(SIZES[1], [silent.address])
        seen.until(True, lambda: os.path.exists(told) and os.path.getsize(told) == 1)
        seen.press(b"\x03")
        self.ends("Ctrl-C before the first screen", seen, "ended by SIGINT")
        given = {"stdin": subprocess.DEVNULL, "capture_output": True, "text": True}
        ran = subprocess.run([os.path.join(CLIENTS, "view.py"), *self.child], **given)
        got = ran.returncode, ran.stdout, len(ran.stderr.splitlines())
        self.same("no terminal", got, (1, "", 1))

    def begun(self):
        """A view that shows an empty text."""
        seen = Seen(SIZES[1], self.child)
        self.shows("an empty text", seen, screen_of_server([], self.embed, SIZES[1], []))
        return seen

    def several(self):
        """Two views and a client that edits on one server: all show the same."""
        path = self.path("shared")
        served = nvimd.Server(address=path, stderr=subprocess.DEVNULL)
        editor = served.connect()
        views = [Seen(size, [path]) for size in [(60, 16), (48, 20)]]
        for seen in views:
            seen.until(True, lambda: b"[No Name]" in seen.sent)
        calls = named(FIRST + SECOND)
        screen = screen_of_server([path], [], (100, 40), calls)
        self.same("the least size", (screen.width, screen.height), (48, 16))
        for seen in views:
            self.shows("a view of two", seen, screen)
        views[1].press(b"q")
        self.same("one leaves", views[1].end(), (0, [], True))
        self.shows("the other", views[0], screen_of_server([path], [], (100, 40), []))
        editor.command("qall!")
        self.ends("the server is ended", views[0], "the server ended")
        editor.close()
        self.same("the server's status", served.process.wait(PATIENCE), 0)


PARTS = [Views.sizes, Views.cuts, Views.bad_words, Views.bad_terminals, Views.several]


@pytest.mark.parametrize("part", PARTS)
def test_views(check, tmp_path, part):
    part(Views(check, str(tmp_path)))
