"""What the tests of the view and of the picture stand on: calls that draw much, and a socket
before a program.
"""

import json
import os
import socket
import subprocess
import sys
import threading

import nvimd

PIECE = 1 << 16
LINES = ["plain", "a\ttab", "wide 世界 and 世", "e\u0301 and é", "\x01 control", "", "x" * 130]
LINES += [f"line {n}" for n in range(60)]
GROUPS = {
    "Red": {"fg": 0xC00000, "bold": True},
    "Blue": {"fg": 0xFFFFFF, "bg": 0x2030A0, "italic": True},
    "Lined": {"underline": True, "strikethrough": True, "sp": 0x00FF00},
    "Turned": {"fg": 0x10FF10, "bg": 0x400040, "reverse": True},
    "Normal": {"fg": 0xE0E0D0, "bg": 0x101020},
}
MARKS = [(0, 0, 0, 5, "Red"), (2, 4, 2, 12, "Blue"), (3, 0, 3, 7, "Lined")]
MARKS += [(6, 20, 6, 110, "Turned"), (10, 0, 14, 3, "Blue")]


def marked(row, col, end_row, end_col, group):
    keys = {"end_row": end_row, "end_col": end_col, "hl_group": group}
    return ["nvim_buf_set_extmark", [0, 1, row, col, keys]]


FLAGS = {"bold", "italic", "underline", "strikethrough", "reverse"}

# a screen with each flag, characters of two columns, a long line and two windows
FIRST = [
    ["nvim_buf_set_lines", [0, 0, -1, True, LINES]],
    ["nvim_create_namespace", ["marks"]],
    *[["nvim_set_hl", [0, name, held]] for name, held in GROUPS.items()],
    *[marked(*place) for place in MARKS],
    ["nvim_win_set_cursor", [0, [3, 8]]],
    ["nvim_open_win", [0, False, {"split": "right"}]],
]
# then another place of the text, by which a window scrolls, and a colour put anew
SECOND = [
    ["nvim_win_set_cursor", [0, [40, 2]]],
    ["nvim_set_hl", [0, "Blue", {"fg": 0x000000, "bg": 0x80FFFF, "italic": True}]],
    ["nvim_buf_set_lines", [0, 38, 40, True, ["other 世", "words"]]],
    ["nvim_win_set_cursor", [0, [2, 1]]],
]


def flags_in(screen):
    """The flags of the cells that a screen shows."""
    return {
        name
        for row in screen.shown()
        for _, attribute in row
        for name in FLAGS
        if attribute.get(name)
    }


def write_calls(path, calls):
    with open(path, "w", encoding="utf-8") as file:
        file.writelines(json.dumps(call) + "\n" for call in calls)
    return path


class Scenes:
    """The program, and a folder for what the tests write, with the calls of both scenes."""

    def __init__(self, check, folder):
        self.same = check.same
        self.embed = [nvimd.program(), "embed"]
        self.child = ["--", *self.embed]
        self.folder = folder
        self.calls = write_calls(self.path("calls"), FIRST + SECOND)

    def path(self, name):
        return os.path.join(self.folder, name)


class Bridge:
    """A socket before a program: each connection has a child of its own, and ends behind so many
    bytes that it was sent."""

    def __init__(self, words, path=None, most=None):
        self.words, self.most = words, most
        self.listener = socket.socket(socket.AF_UNIX if path else socket.AF_INET)
        self.listener.bind(path or ("127.0.0.1", 0))
        self.listener.listen()
        self.address = path or "{}:{}".format(*self.listener.getsockname())
        threading.Thread(target=self.accept, daemon=True).start()

    def accept(self):
        while True:
            connection, _ = self.listener.accept()
            pipes = {"stdin": subprocess.PIPE, "stdout": subprocess.PIPE, "bufsize": 0}
            child = subprocess.Popen(self.words, **pipes, stderr=subprocess.DEVNULL)
            for way in (self.ask, self.answer):
                threading.Thread(target=way, args=(connection, child), daemon=True).start()

    def ask(self, connection, child):
        """What comes in goes to the child, up to its end."""
        try:
            while piece := connection.recv(PIECE):
                child.stdin.write(piece)
        except OSError:
            pass
        child.stdin.close()

    def answer(self, connection, child):
        """What the child answers goes out, as far as it may."""
        left = sys.maxsize if self.most is None else self.most
        try:
            while left > 0 and (piece := child.stdout.read(PIECE)):
                connection.sendall(piece[:left])
                left -= len(piece)
            connection.shutdown(socket.SHUT_RDWR)
        except OSError:
            pass  # the client has gone
        connection.close()
        child.stdout.close()
        child.wait()
