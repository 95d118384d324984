#!/usr/bin/python3
"""Shows the screen of a server in this terminal, live: it attaches as a UI of the terminal's size,
follows its resizes, draws what the redraw events tell with colours, attributes and the cursor, and
leaves the terminal as it was.

The calls of FILE are made one after another once the first screen is there. Only `q` and Ctrl-C are
keys, both leave: the protocol has no input of keys. Whoever edits does so in another session. An
undercurl is drawn as an underline. The status is 0 where a key left, else 1, behind one line that
says why. Wants Debian's python3-msgpack.
"""

import os
import select
import selectors
import signal
import termios
import time

from check import run
from nvimd import Error
from nvimd.ansi import CLEAR, HIDE, PLAIN, SHOW, Painter
from ui import ServerWords, Ui, calls_in, session_of

ENTER = f"\x1b[?1049h\x1b[?7l{HIDE}{CLEAR}"
LEAVE = f"{PLAIN}\x1b[?7h{SHOW}\x1b[?1049l"
LEAVERS = b"q\x03"
PIECE = 1 << 16
FAREWELL = 2  # seconds for the answer to the detaching
LAST_WORDS = 0.2  # seconds for what a child that has ended still says
SIGNALS = (signal.SIGTERM, signal.SIGHUP, signal.SIGQUIT, signal.SIGINT)


class Terminal:
    """The terminal: how it was found, and what stands on it now."""

    def __init__(self):
        if not (os.isatty(0) and os.isatty(1)):
            raise Error("standard input and output are no terminal")
        self.found = termios.tcgetattr(0)
        self.taken = False
        self.painter = Painter()

    def size(self):
        try:
            width, height = os.get_terminal_size(1)
        except OSError:
            raise Error("the terminal is gone") from None
        if width < 1 or height < 1:
            raise Error("the terminal has no size")
        return width, height

    def enter(self):
        """Takes it: keys come one by one and unseen, and none is a signal."""
        self.taken = True
        held = termios.tcgetattr(0)
        held[3] &= ~(termios.ICANON | termios.ECHO | termios.ISIG | termios.IEXTEN)
        termios.tcsetattr(0, termios.TCSADRAIN, held)
        self.put(ENTER)

    def leave(self):
        """Gives it back as it was found."""
        if self.taken:
            self.taken = False
            try:
                self.put(LEAVE)
                termios.tcsetattr(0, termios.TCSAFLUSH, self.found)
            except (Error, termios.error):
                pass  # it is gone

    def put(self, text):
        data = text.encode(errors="replace")
        try:
            while data:
                data = data[os.write(1, data) :]
        except OSError:
            raise Error("the terminal is gone") from None

    def draw(self, screen):
        self.put(self.painter.paint(screen, *self.size()))

    def clear(self):
        self.painter.forget()
        self.put(CLEAR)


class View:
    """A terminal that shows the screen of a session."""

    def __init__(self, terminal, session, calls):
        self.terminal, self.session, self.calls = terminal, session, calls
        self.ui = Ui(session)
        self.flushes = 0  # those that were drawn
        self.left = False
        self.said = b""
        self.size = terminal.size()
        self.errors = session.process.stderr.fileno() if session.process else None
        self.waiting = selectors.DefaultSelector()
        self.waiting.register(session, selectors.EVENT_READ, self.hear)
        if self.errors is not None:
            self.waiting.register(self.errors, selectors.EVENT_READ, self.hear_errors)

    def run(self, resized):
        """Shows until a key leaves; `resized` is readable where the terminal may have got another
        size."""
        self.waiting.register(resized, selectors.EVENT_READ, self.resize)
        self.ui.attach(self.size_words(), *self.size)
        while not self.left:
            for key, _ in self.waiting.select():
                key.data(key.fd)
        self.detach()

    def size_words(self):
        return "the terminal of {} by {} is too small, or isn't taken".format(*self.size)

    def hear(self, _):
        self.ui.hear()
        screen = self.ui.screen
        if screen.flushed and screen.flushes > self.flushes:
            self.flushes = screen.flushes
            if not self.terminal.taken:
                self.terminal.enter()
                self.waiting.register(0, selectors.EVENT_READ, self.keys)
            self.terminal.draw(screen)
        if self.terminal.taken and self.calls and not self.ui.asked:
            self.ui.ask(*self.calls.pop(0))

    def hear_errors(self, errors):
        """What a child says on its standard error is said on, but its last line and what comes
        while the screen is shown."""
        piece = os.read(errors, PIECE)
        if not piece:
            self.waiting.unregister(errors)
        *lines, self.said = (self.said + piece).splitlines(keepends=True) or [b""]
        if not self.terminal.taken:
            os.write(2, b"".join(lines))

    def last_words(self):
        """The last line that a child said on its standard error, behind a colon."""
        errors = self.errors
        while errors is not None and errors in self.waiting.get_map():
            if not is_ready(errors, LAST_WORDS):
                break
            self.hear_errors(errors)
        said = self.said.decode(errors="replace").strip()
        return f": {said}" if said else ""

    def keys(self, source):
        try:
            held = os.read(source, PIECE)
        except OSError:
            held = b""
        if not held:
            raise Error("the terminal is gone")
        self.left = any(key in LEAVERS for key in held)

    def resize(self, resized):
        os.read(resized, PIECE)
        size = self.terminal.size()
        if size == self.size:
            return
        self.size = size
        self.ui.resize(self.size_words(), *size)
        if self.terminal.taken:
            self.terminal.clear()
            self.terminal.draw(self.ui.screen)

    def detach(self):
        """Gives the UI up, and waits a little for the answer."""
        until = time.monotonic() + FAREWELL
        try:
            self.ui.ask("detaching", "nvim_ui_detach")
            while self.ui.asked and self.session.is_ready(max(0, until - time.monotonic())):
                self.ui.hear()
        except Error:
            pass  # it is left all the same


def is_ready(file, seconds):
    return bool(select.select([file], [], [], seconds)[0])


def end_by(number, frame):
    raise Error(f"ended by {signal.Signals(number).name}")


def watched_sizes():
    """A pipe that is readable where the terminal may have got another size."""
    resized, told = os.pipe()
    os.set_blocking(told, False)
    signal.set_wakeup_fd(told, warn_on_full_buffer=False)
    signal.signal(signal.SIGWINCH, lambda number, frame: None)
    return resized


def main():
    asked = ServerWords(__doc__).parse_args()
    for number in SIGNALS:
        signal.signal(number, end_by)
    signal.signal(signal.SIGTSTP, signal.SIG_IGN)
    calls = calls_in(asked.calls)
    terminal = Terminal()
    resized = watched_sizes()
    session = session_of(asked.words, asked.child)
    view = View(terminal, session, calls)
    try:
        view.run(resized)
    except Error as error:
        raise Error(f"{error}{view.last_words()}") from None
    finally:
        for number in SIGNALS:
            signal.signal(number, signal.SIG_IGN)
        terminal.leave()
        session.close()
    return 0


if __name__ == "__main__":
    run(main)
