#!/usr/bin/python3
"""A front end of one's own: shows a server's screen in this terminal, and sends it the keys.

It is the whole of an editor without modes: letters are put where the cursor is, the arrows move it,
Backspace and Enter do what they say, Ctrl-Z undoes, Ctrl-Y redoes, and Ctrl-Q leaves. Others may
edit the same text meanwhile.

    python3 examples/front_end/front_end.py /tmp/nvimd.sock
"""

import os
import select
import sys
import termios
import tty

import nvimd
from nvimd.ansi import CLEAR, PLAIN, SHOW, Painter
from nvimd.command import Words, run

ENTER = f"\x1b[?1049h\x1b[?7l{CLEAR}"
LEAVE = f"{PLAIN}{SHOW}\x1b[?7h\x1b[?1049l"
ARROWS = {"\x1b[A": (-1, 0), "\x1b[B": (1, 0), "\x1b[C": (0, 1), "\x1b[D": (0, -1)}
QUIT, UNDO, REDO, ERASE = "\x11", "\x1a", "\x19", "\x7f"


class Editor:
    """The keys of a session, each a call or two where the cursor is. The cursor is a mark, which
    goes along with the text, also with what others put before it."""

    MARK = 1

    def __init__(self, session):
        self.session, self.api = session, session.api
        self.space = self.api.create_namespace(f"cursor of {self.api.get_api_info()[0]}")
        self.go(0, 0)

    def place(self):
        """The cursor's row and column, from 0."""
        return self.api.buf_get_extmark_by_id(0, self.space, self.MARK, {})

    def line(self, row):
        return self.api.buf_get_lines(0, row, row + 1, True)[0]

    def go(self, row, col):
        """Puts the cursor there, or as near as may be, and shows it."""
        keys = {"id": self.MARK, "strict": False, "undo_restore": False}
        self.api.buf_set_extmark(0, self.space, max(row, 0), col, keys)
        row, col = self.place()
        self.api.win_set_cursor(0, [min(row + 1, self.api.buf_line_count(0)), col])

    def press(self, key):
        """Does what a key says; whether it goes on."""
        row, col = self.place()
        if key in ARROWS:
            self.move(row, col, *ARROWS[key])
        elif key == UNDO:
            self.session.command("undo")
        elif key == REDO:
            self.session.command("redo")
        elif key == ERASE:
            self.erase(row, col)
        elif key == "\r" or key.isprintable():
            text = ["", ""] if key == "\r" else [key]
            self.api.buf_set_text(0, row, col, row, col, text)
        if key not in ARROWS:
            self.go(*self.place())
        return key != QUIT

    def move(self, row, col, rows, cols):
        """By whole letters to the sides."""
        line = bytes_of(self.line(row))
        count = max(0, len(text_of(line[:col])) + cols)
        self.go(row + rows, len(bytes_of(text_of(line)[:count])))

    def erase(self, row, col):
        """Takes the letter before the cursor, or joins the line to the one before it."""
        if col > 0:
            start = len(bytes_of(text_of(bytes_of(self.line(row))[:col])[:-1]))
            self.api.buf_set_text(0, row, start, row, col, [""])
        elif row > 0:
            self.api.buf_set_text(0, row - 1, -1, row, 0, [""])


def bytes_of(text):
    return text.encode(errors="surrogateescape")


def text_of(data):
    return data.decode(errors="surrogateescape")


def keys_in(text):
    """The keys of what a terminal sends."""
    while text:
        key = next((arrow for arrow in ARROWS if text.startswith(arrow)), text[0])
        yield key
        text = text[len(key) :]


def show(session, terminal, output):
    """Shows and sends keys until one leaves, or the session ends."""
    width, height = os.get_terminal_size(terminal)
    screen, painter, editor = session.screen(width, height), Painter(), Editor(session)
    while True:
        output.write(painter.paint(screen, width, height))
        output.flush()
        ready = select.select([terminal, session], [], [])[0]
        if session in ready:
            session.poll()
        if terminal in ready:
            text = text_of(os.read(terminal, 1024))
            if not text or not all(editor.press(key) for key in keys_in(text)):
                return
            screen.settle()


def main():
    words = Words(__doc__)
    words.add_argument("address", metavar="ADDRESS", help="a socket's path, or host:port")
    with nvimd.connect(words.parse_args().address) as session:
        if not (os.isatty(0) and os.isatty(1)):
            raise nvimd.Error("standard input and output are no terminal")
        found = termios.tcgetattr(0)
        tty.setraw(0)
        sys.stdout.write(ENTER)
        try:
            show(session, 0, sys.stdout)
        finally:
            sys.stdout.write(LEAVE)
            sys.stdout.flush()
            termios.tcsetattr(0, termios.TCSAFLUSH, found)
    return 0


if __name__ == "__main__":
    run(main)
