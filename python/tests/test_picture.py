"""The pictures of clients/picture.py cell by cell: each has the background and the text's colour of
the screen that a client of its own folds, and a text where that has one. The same screen gives the
same bytes, whether from a child, a socket, a book or what `replay` writes of one; and what can't
be drawn is named in one line.
"""

import os
import subprocess

import pytest

import nvimd
from nvimd.screen import OPTIONS
from nvimd.values import packed
from runs import CLIENTS, DOCS
from scenes import FIRST, FLAGS, SECOND, Bridge, Scenes, flags_in, write_calls

Image = pytest.importorskip("PIL.Image")
from nvimd.picture import FONTS
from picture import screen_of_server  # of the clients
from ui import calls_in

pytestmark = pytest.mark.skipif(not os.path.exists(FONTS.format("")), reason="no fonts-dejavu-core")
SIZES = [(80, 24), (33, 9)]
README_SIZE = (72, 18)
SEEN = 0.4  # of the way from the background to the text's colour, in some pixel of each text


def colours_in(screen, row, col):
    """The text's colour and the background of a cell, as the documentation of the redraw events
    says; the cursor is a block."""
    attribute = screen.at(row, col).attribute
    text = attribute.get("foreground", screen.colours[0])
    behind = attribute.get("background", screen.colours[1])
    if bool(attribute.get("reverse")) != (screen.cursor == (row, col)):
        text, behind = behind, text
    return text.to_bytes(3, "big"), behind.to_bytes(3, "big")


def share(pixel, text, behind):
    """How far a pixel is from the background to the text's colour, 0 to 1; None for one that isn't
    between."""
    if not all(min(a, b) <= p <= max(a, b) for p, a, b in zip(pixel, text, behind)):
        return None
    whole = sum(abs(a - b) for a, b in zip(text, behind))
    return sum(abs(p - b) for p, b in zip(pixel, behind)) / whole if whole else 0


def wrong_in(pixels, text, behind, is_seen):
    """What is wrong with the pixels of a cell, or None."""
    shares = [share(pixel, text, behind) for pixel in pixels]
    if None in shares:
        return f"a colour that isn't between {behind.hex()} and {text.hex()}"
    if bytes(pixels[0]) != behind and bytes(pixels[-1]) != behind:
        return f"no background {behind.hex()}"
    if is_seen != (max(shares) >= SEEN) or not is_seen and max(shares) > 0:
        return "no text" if is_seen else "a text"
    return None


def wrong_cells(path, screen):
    """The cells of a picture that don't show the screen."""
    with Image.open(path) as image:
        columns, rows = image.width // screen.width, image.height // screen.height
        is_sized = (columns * screen.width, rows * screen.height) == image.size
        wrong = [] if is_sized else [f"size {image.size}"]
        for row in range(screen.height):
            for col in range(screen.width):
                text, attribute = screen.at(row, col)
                if text == "":
                    continue
                wide = col + 1 < screen.width and screen.at(row, col + 1).text == ""
                box = (col * columns, row * rows, (col + 1 + wide) * columns, (row + 1) * rows)
                is_lined = attribute.get("underline") or attribute.get("strikethrough")
                pixels = list(image.crop(box).getdata())
                colours = colours_in(screen, row, col)
                found = wrong_in(pixels, *colours, bool(text.strip() or is_lined))
                wrong += [f"row {row}, column {col}, {text!r}: {found}"] if found else []
    return wrong


def recorded(size, calls):
    """What a session of these calls was sent behind each: name, parameters, two pieces."""
    entries = [("nvim_ui_attach", [*size, OPTIONS]), *calls, ("nvim_list_uis", [])]
    told = []
    with nvimd.start() as session:
        for name, params in entries:
            session.kept = bytearray()
            session.call(name, *params)
            session.call("nvim_strwidth", "")  # what is drawn comes before its reply
            half = len(session.kept) // 2
            told.append((name, params, [bytes(session.kept[:half]), bytes(session.kept[half:])]))
    return told


class Book:
    """A book of one session beside another one, which is sent something that is no screen; and what
    `replay` writes of it."""

    def __init__(self, entries):
        self.values = [["nvimd-book", 1, 4096], ["o", 0], ["o", 1]]
        self.replayed = []
        number = 2
        self.entry_of = []  # the entry of the book that is the taking behind each call
        for msgid, (name, params, pieces) in enumerate(entries, 1):
            number += 4
            self.values += [
                ["r", 0, 1, 7, "nvim_nope", []],
                ["t", 0, 1, 1],
                b"\x94\x01\x07\xc0\xc0",
            ]
            self.values += [["r", 1, 2, msgid, name, params], ["t", 1, 2, len(pieces)], *pieces]
            self.replayed += [[number - 3, 1, b"\x94\x01\x07\xc0\xc0"]]
            self.replayed += [[number - 1, 2, piece] for piece in pieces]
            self.entry_of.append(number - 1)
        self.values += [["c", 0, 1], ["end", number + 1]]

    def write(self, path, values):
        with open(path, "wb") as file:
            file.write(b"".join(packed(value) for value in values))
        return path


def ran_picture(*words):
    """A run of picture.py to its end."""
    command = [os.path.join(CLIENTS, "picture.py"), *words]
    return subprocess.run(command, capture_output=True, text=True)


class Pictures(Scenes):
    """What pictures the program's screens make."""

    def __init__(self, check, folder):
        super().__init__(check, folder)
        self.first = write_calls(self.path("first"), FIRST)

    def run(self, name, *words):
        """A picture: its path; the program's status and lines are kept."""
        path = self.path(name)
        ran = ran_picture(*words[:-1], path, *words[-1])
        self.said = (ran.returncode, ran.stdout + ran.stderr)
        return path

    def picture(self, name, *words):
        """The bytes of a picture that is made."""
        path = self.run(name, *words)
        self.same(f"{name} is made", self.said, (0, ""))
        with open(path, "rb") as file:
            return file.read()

    def cells(self):
        """Pictures of two sizes and moments, over a child and over a socket."""
        bridge = Bridge(self.embed, self.path("socket"))
        for size in SIZES:
            word = "{}x{}".format(*size)
            for name, path, calls in [
                ("early", self.first, FIRST),
                ("late", self.calls, FIRST + SECOND),
            ]:
                made = [
                    self.picture(f"{name} {word} {n}", "--size", word, "--calls", path, words)
                    for n, words in enumerate([self.child, [bridge.address]])
                ]
                self.same(f"{name} {word}: the same bytes", len(set(made)), 1)
                named = [(call, call, *params) for call, params in calls]
                screen = screen_of_server([], self.embed, size, named)
                self.same(f"{name} {word}: flags that are shown", flags_in(screen), FLAGS)
                wrong = wrong_cells(self.path(f"{name} {word} 0"), screen)
                self.same(f"{name} {word}: cells that are wrong", wrong, [])

    def readme(self):
        """The picture of README.md is that of docs/picture.calls."""
        calls = calls_in(os.path.join(DOCS, "picture.calls"))
        screen = screen_of_server([], self.embed, README_SIZE, calls)
        wrong = wrong_cells(os.path.join(DOCS, "picture.png"), screen)
        self.same("docs/picture.png: cells that are wrong", wrong, [])

    def books(self):
        """The pictures of a book, and of what `replay` writes of it, are those of the server."""
        book = Book(recorded(SIZES[0], FIRST + SECOND))
        pairs = [("book", book.values), ("replayed", book.replayed)]
        files = [book.write(self.path(name), values) for name, values in pairs]
        given = "--size", "{}x{}".format(*SIZES[0]), "--calls"
        shown = {
            name: self.picture(name, *given, path, self.child)
            for name, path in (("early", self.first), ("late", self.calls))
        }
        early = str(book.entry_of[len(FIRST)])
        for number, path in enumerate(files):
            for name, words in [
                ("late", []),
                ("late", ["--session", "2"]),
                ("early", ["--entry", early]),
            ]:
                made = self.picture(f"book {number} {name}", "--book", path, *words, [])
                self.same(f"{name} of {path}", made == shown[name], True)
        self.bad_books(*files, book)

    def bad_books(self, path, replayed, book):
        with open(path, "rb") as file:
            data = file.read()
        last = len(packed(book.values[-1]))
        places = (0, 5, len(data) // 2, len(data) - 1, len(data) - last)
        cut = [(f"cut at {at}", data[:at], "is cut: the value at byte") for at in places]
        begun = packed(book.values[0])
        wrong = [
            ("no list", b"\x01", "is no book"),
            ("more", data + b"\x01", "is no book"),
            ("no piece", begun + packed(["t", 0, 1, 1]) + packed(["c", 0, 1]), "is no book"),
            ("another end", begun + packed(["end", 1]), "is no book"),
            ("no bytes", b"\xc1", "is no book"),
            ("no screen", begun + packed(["end", 0]), "no screen in"),
        ]
        for name, held, words in cut + wrong:
            with open(self.path("bad"), "wb") as file:
                file.write(held)
            self.refused(name, words, "--book", self.path("bad"), [])
        self.refused("no book", "no book in /nowhere", "--book", "/nowhere", [])
        self.refused(
            "no session", "no screen of session 1", "--book", replayed, "--session", "1", []
        )

    def refused(self, what, words, *given):
        """It ends with one line that holds these words, and makes no picture."""
        path = self.run("refused", *given)
        made = os.path.exists(path)
        if made:
            os.remove(path)
        status, said = self.said
        is_line = said.count("\n") == 1 and said.startswith("picture: ")
        is_right = status != 0 and is_line and words in said
        self.same(f"{what}: {self.said}", (is_right, made), (True, False))

    def bad_words(self):
        nope = write_calls(self.path("nope"), [["nvim_nope", []]])
        self.refused("no server", "no server at /nowhere/socket", ["/nowhere/socket"])
        self.refused("a size", "80 is no size", "--size", "80", self.child)
        self.refused(
            "a small one", "a screen of 40 by 2: Not enough room", "--size", "40x2", self.child
        )
        self.refused("a call", f"line 1 of {nope}, nvim_nope: ", "--calls", nope, self.child)
        self.refused("an end", "ended at byte 0", ["--", "true"])
        bridge = Bridge(self.embed, most=100)
        self.refused("a cut", "inside a message", [bridge.address])
        ran = ran_picture("/nowhere/picture", *self.child)
        said = "picture: no picture in /nowhere/picture: No such file or directory\n"
        self.same("no folder", (ran.returncode, ran.stderr), (1, said))


PARTS = [Pictures.cells, Pictures.readme, Pictures.books, Pictures.bad_words]


@pytest.mark.parametrize("part", PARTS)
def test_pictures(check, tmp_path, part):
    part(Pictures(check, str(tmp_path)))
