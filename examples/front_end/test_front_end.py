"""The keys of the front end, and what its terminal shows, read by pyte."""

import fcntl
import io
import os
import struct
import termios
import threading
import tty

import pyte
import pytest

from front_end import QUIT, REDO, UNDO, Editor, keys_in, show


@pytest.fixture
def typed(nvimd):
    """Presses the keys of a text; the lines after that."""
    editor = Editor(nvimd)

    def type_in(text):
        for key in keys_in(text):
            editor.press(key)
        return nvimd.api.buf_get_lines(0, 0, -1, True)

    return type_in


@pytest.mark.parametrize(
    "keys, lines",
    [
        ("abc", ["abc"]),
        ("ab\rc", ["ab", "c"]),
        ("é世\x1b[D\x7fx", ["x世"]),
        ("ab\rc\x1b[D\x7f", ["abc"]),
        ("ab\x7f\x7f\x7f", [""]),
        ("a\rb\x1b[A\x1b[Cx", ["ax", "b"]),
        (f"ab{UNDO}", ["a"]),
        (f"ab{UNDO}{UNDO}{REDO}", ["a"]),
    ],
)
def test_keys(typed, keys, lines):
    assert typed(keys) == lines


def test_the_terminal_shows_the_screen_and_a_key_leaves(nvimd):
    master, slave = os.openpty()
    fcntl.ioctl(slave, termios.TIOCSWINSZ, struct.pack("HHHH", 6, 30, 0, 0))
    tty.setraw(slave)
    output = io.StringIO()
    shown = threading.Thread(target=show, args=(nvimd, slave, output))
    shown.start()
    os.write(master, f"hello{QUIT}".encode())
    shown.join(10)
    assert not shown.is_alive()
    assert nvimd.api.buf_get_lines(0, 0, -1, True) == ["hello"]
    screen = pyte.Screen(30, 6)
    pyte.Stream(screen).feed(output.getvalue())
    assert screen.display[3].startswith("~") and screen.display[4].startswith("[No Name]")
    os.close(master)
    os.close(slave)
