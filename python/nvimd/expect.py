"""A screen beside an expected one, as a text: rows, and a letter for the attribute of each cell."""

import difflib
import re
import string
import textwrap
import time

FLAGS = "bold italic underline undercurl strikethrough reverse".split()
COLOURS = {"fg": "foreground", "bg": "background", "sp": "special"}
LETTERS = re.compile(r"\|[A-Za-z.]+$")
PATIENCE = 2  # seconds for a server whose screen isn't settled by a reply


def attribute_of(keys):
    """An attribute as redraw events have it, of keys as nvim_set_hl takes them, or of those."""
    found = {}
    for key, value in keys.items():
        if isinstance(value, str):
            value = int(value.removeprefix("#"), 16)
        if value is not False:
            found[COLOURS.get(key, key)] = value
    return found


def told(attribute):
    """An attribute in words."""
    words = [flag for flag in FLAGS if attribute.get(flag)]
    for key, name in COLOURS.items():
        if name in attribute:
            words.append(f"{key} #{attribute[name]:06x}")
    return ", ".join(words) or "plain"


class Drawing:
    """A screen as a text: its rows with letters behind them, and what the letters stand for."""

    def __init__(self, screen, letters):
        self.letters = {letter: attribute_of(keys) for letter, keys in letters.items()}
        self.cursor = screen.cursor
        self.texts, self.marks = [], []
        for cells in screen.shown():
            self.texts.append("".join(cell.text if cell else " " for cell in cells).rstrip())
            marks = "".join(self.letter(cell.attribute if cell else {}) for cell in cells)
            self.marks.append(marks.rstrip("."))

    def letter(self, attribute):
        """The letter of an attribute: one that is given, or the next one that is free."""
        if not attribute:
            return "."
        for letter, held in self.letters.items():
            if held == attribute:
                return letter
        free = next(letter for letter in string.ascii_letters if letter not in self.letters)
        self.letters[free] = attribute
        return free

    def rows(self, with_letters=True):
        if not with_letters:
            return self.texts
        width = max(map(len, self.texts), default=0)
        pairs = zip(self.texts, self.marks)
        return [with_marks(text, marks, width) for text, marks in pairs]

    def legend(self):
        used = set("".join(self.marks))
        return [f"{letter} = {told(self.letters[letter])}" for letter in sorted(used - {"."})]

    def whole(self):
        """What stands in a snapshot."""
        place = "none" if self.cursor is None else f"{self.cursor[0]}, {self.cursor[1]}"
        return "\n".join([*self.rows(), "", *self.legend(), f"cursor {place}"]) + "\n"


def with_marks(text, marks, width):
    """A row with its letters, where it has any or its text looks as if it had."""
    if not marks and not LETTERS.search(text):
        return text
    return f"{text:<{width}} |{marks or '.'}"


def rows_in(text):
    """The rows of an expected text, without the indent that all share, and blanks at their ends."""
    lines = textwrap.dedent(text.removeprefix("\n")).split("\n")
    if lines and not lines[-1].strip():
        lines.pop()
    return [line.rstrip() for line in lines]


def has_letters(rows):
    return any(LETTERS.search(row) for row in rows)


def parts_of(row):
    """The text of a row and its letters."""
    text, _, marks = row.rpartition("|") if LETTERS.search(row) else (row, "", "")
    return text, marks


def same_form(row):
    """A row with one blank before its letters."""
    text, marks = parts_of(row)
    marks = marks.rstrip(".")
    return f"{text.rstrip()} |{marks}" if marks else text.rstrip()


def difference(wanted, got):
    lines = difflib.unified_diff(wanted, got, "expected", "the screen", lineterm="", n=99)
    return "\n".join(lines)


class Expectation:
    """Compares the screen of a session with texts, or with the files of a test.

    A text has a row for each row of the screen; blanks at the end of a row don't count. Behind a
    `|` at its end stands a letter for the attribute of each cell, `.` for none; without any letter
    attributes aren't compared. A letter stands for the attribute that is given by its name, or for
    the next one that is met.
    """

    def __init__(self, session, path, name, update, is_settled):
        self.session, self.update = session, update
        self.patience = 0 if is_settled else PATIENCE
        name = re.sub(r"\W+", "-", name).strip("-")
        self.stem = path.parent / "snapshots" / path.stem / name
        self.count = 0

    def __call__(self, text=None, cursor=None, **letters):
        """Fails where the screen is another one. Without a text it is the one in a file, which
        `--snapshot-update` writes; a session without a UI gets one of the size of the text."""
        __tracebackhide__ = True
        if text is None:
            return self.compare_file(letters)
        rows = rows_in(text)
        with_letters = has_letters(rows)
        wanted = [same_form(row) for row in rows] if with_letters else rows
        widths = [len(part.rstrip()) for row in rows for part in parts_of(row)]

        def found(drawing):
            shown = drawing.rows(with_letters)
            return [same_form(row) for row in shown] if with_letters else shown

        screen = self.screen(max(12, *widths), max(4, len(rows)))
        drawing = self.drawing(screen, letters, lambda it: found(it) == wanted)
        told = "\n".join(["", *drawing.legend()]) if with_letters else ""
        assert found(drawing) == wanted, difference(wanted, found(drawing)) + told
        if cursor is not None:
            assert drawing.cursor == tuple(cursor), f"the cursor is at {drawing.cursor}"

    def compare_file(self, letters):
        __tracebackhide__ = True
        self.count += 1
        path = self.stem.with_name(f"{self.stem.name}-{self.count}.screen")
        wanted = path.read_text(encoding="utf-8") if path.exists() else None
        screen = self.screen(80, 24)
        drawing = self.drawing(screen, letters, lambda it: it.whole() == wanted)
        if self.update:
            path.parent.mkdir(parents=True, exist_ok=True)
            path.write_text(drawing.whole(), encoding="utf-8")
            return
        assert wanted is not None, f"no snapshot {path}: write it by --snapshot-update"
        told = difference(wanted.splitlines(), drawing.whole().splitlines())
        assert drawing.whole() == wanted, f"{told}\nif that is right: --snapshot-update"

    def screen(self, width, height):
        """The screen of the session, of this size where it has none yet."""
        return self.session.ui or self.session.screen(width, height)

    def drawing(self, screen, letters, holds):
        """The screen once it is settled, or what is expected, or the time is over."""
        late = time.monotonic() + self.patience
        drawing = Drawing(screen.settle(), letters)
        while not holds(drawing) and self.session.poll(max(0, late - time.monotonic())):
            drawing = Drawing(screen, letters)
        return drawing
