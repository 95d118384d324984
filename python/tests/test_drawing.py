"""The editor's screen over a child process: a UI folds the redraw events through a thousand seeded
calls (edits, undos, cursors, windows, tabpages, sizes, UIs that go and come), and after each its
screen is compared with what the text, the windows and their status lines look like by Neovim's
documentation.
"""

import random

import pytest

import nvimd
from nvimd.screen import OPTIONS

STEPS = 1_000
PLAIN, BOLD = {}, {"bold": True}
CURRENT, OTHER = {"reverse": True, "bold": True}, {"reverse": True}
WIDE = "世"
LETTERS, WEIGHTS = ["a", "b", " ", "é", WIDE, "\t", "\x01"], [5, 5, 3, 2, 2, 1, 1]


def cells_of(line, tabstop, width):
    """The cells of a line in rows of a width, and where the piece at each of its bytes begins
    (help: 'wrap', 'list')."""
    cells, starts, count = [], {}, 0

    def put(text, attribute):
        cells.append((text, attribute))

    at = 0
    for letter in line:
        length = len(letter.encode())
        if letter == WIDE and width > 1 and len(cells) % width == width - 1:
            put(">", BOLD)
        starts.update({byte: len(cells) for byte in range(at, at + length)})
        at += length
        if letter == "\t":
            for _ in range(tabstop - count % tabstop):
                put(" ", PLAIN)
                count += 1
        elif ord(letter) < 32:
            put("^", BOLD)
            put(chr(ord(letter) ^ 64), BOLD)
            count += 2
        elif letter == WIDE:
            for text, attribute in [(letter, PLAIN), ("", PLAIN)] if width > 1 else [(">", BOLD)]:
                put(text, attribute)
            count += 2
        else:
            put(letter, PLAIN)
            count += 1
    return cells, starts


def rows_of(cells, width):
    """The cells in rows, the last one filled with spaces; an empty line has one row."""
    filled = cells + [(" ", PLAIN)] * (-len(cells) % width if cells else width)
    return [filled[at : at + width] for at in range(0, len(filled), width)]


def bar_of(text, tabstop, width, attribute):
    """A status line: a text in one row, cut or filled."""
    cells, _ = cells_of(text, tabstop, 1 << 20)
    cells = [(letter, attribute) for letter, _ in cells[:width]]
    if cells and cells[-1][0] == WIDE:
        cells[-1] = (" ", attribute)
    return cells + [(" ", attribute)] * (width - len(cells))


class Window:
    """A window as the editor tells it."""

    def __init__(self, place, size, cursor, lines, tabstop, bar, current):
        self.row, self.col = place
        self.width, self.height = size
        self.line, self.byte = cursor[0] - 1, cursor[1]
        self.lines = [rows_of(cells_of(line, tabstop, self.width)[0], self.width) for line in lines]
        self.starts = cells_of(lines[self.line], tabstop, self.width)[1]
        self.bar = bar_of(bar, tabstop, self.width, CURRENT if current else OTHER)
        self.current = current

    def text(self, first):
        """Its rows where this line is the first."""
        rows = []
        for line in self.lines[first:]:
            room = self.height - len(rows)
            if room == 0:
                break
            rows += line[:room]
            if len(line) > room:
                marks = min(3, self.width)
                last = list(rows[-1][: self.width - marks])
                if last and rows[-1][self.width - marks][0] == "":
                    last[-1] = (" ", last[-1][1])
                rows[-1] = last + [("@", BOLD)] * marks
        while len(rows) < self.height:
            rows.append([("~", BOLD)] + [(" ", PLAIN)] * (self.width - 1))
        return rows

    def firsts(self):
        """The first lines from which the cursor's line is seen, as far as it fits."""
        height = 0
        for first in range(self.line, -1, -1):
            height += len(self.lines[first])
            if height > self.height and first < self.line:
                return
            yield first

    def cursor(self, first):
        cell = self.starts.get(self.byte, 0)
        above = sum(len(line) for line in self.lines[first : self.line])
        return (
            self.row + min(above + cell // self.width, self.height - 1),
            self.col + cell % self.width,
        )

    def is_shown(self, shown, cursor):
        """Whether the screen shows it, from some first line on."""

        def part(row):
            return shown[self.row + row][self.col : self.col + self.width]

        rows = [part(row) for row in range(self.height)]
        if part(self.height) != self.bar:
            return False
        return any(
            rows == self.text(first) and (not self.current or cursor == self.cursor(first))
            for first in self.firsts()
        )


def places(row, col, height, width):
    """The cells of a part of the screen."""
    return {(row + y, col + x) for y in range(height) for x in range(width)}


class Drawn:
    """The program, and a UI of it."""

    def __init__(self, check, seed):
        self.same = check.same
        self.random = random.Random(seed)
        self.nvim = nvimd.start()
        self.screen = nvimd.Screen()
        self.attached = False

    def ask(self, *calls):
        """What calls are answered, and the batches behind the first of them; behind the others is
        none."""
        batches, replies = [], self.nvim.replies

        def hears(event):
            assert (event.name, len(replies)) == ("redraw", 1), (event.name, len(replies))
            batches.append(event.args)
            return True

        self.nvim.listeners = [hears]
        numbers = self.nvim.post_all(calls)
        while len(replies) < len(calls):
            self.nvim.read()
        return [self.nvim.answer(msgid) for msgid in numbers], batches

    def results(self, *calls):
        answers, batches = self.ask(*calls)
        assert not batches and not any(error for error, _ in answers), answers
        return [result for _, result in answers]

    def do(self, name, *params):
        """A call that is seen, and what follows: a batch where there is a UI, and none where it was
        refused."""
        (answer, windows), batches = self.ask((name, list(params)), ("nvim_tabpage_list_wins", [0]))
        if answer[0] is None and name in ("nvim_ui_attach", "nvim_ui_detach"):
            self.attached = name == "nvim_ui_attach"
        self.same(f"batches behind {name}", len(batches), int(self.attached and answer[0] is None))
        for batch in batches:
            self.flush(batch)
        return answer, windows[1]

    def flush(self, batch):
        """Takes a batch: its last event, and only that, is a flush."""
        before = self.screen.flushes
        self.screen.take(batch)
        is_one = self.screen.flushed and self.screen.flushes == before + 1
        assert is_one and not self.screen.others, batch

    def windows(self, numbers):
        """The windows of the tabpage."""
        names = ["get_buf", "get_position", "get_width", "get_height", "get_cursor"]
        calls = [(f"nvim_win_{name}", [n]) for n in numbers for name in names]
        current, *told = self.results(("nvim_get_current_win", []), *calls)
        told = [told[at : at + len(names)] for at in range(0, len(told), len(names))]
        buffers = sorted({buffer for buffer, *_ in told})
        asked = []
        for buffer in buffers:
            asked.append(("nvim_buf_get_lines", [buffer, 0, -1, True]))
            asked.append(("nvim_buf_get_name", [buffer]))
            for name in ("tabstop", "modified"):
                asked.append(("nvim_get_option_value", [name, {"buf": buffer}]))
        given = self.results(*asked)
        held = {buffer: given[at * 4 : at * 4 + 4] for at, buffer in enumerate(buffers)}
        found = []
        for number, (buffer, place, width, height, cursor) in zip(numbers, told):
            lines, name, tabstop, modified = held[buffer]
            bar = (name or "[No Name]") + (" [+]" if modified else "")
            size = width, height
            found.append(Window(place, size, cursor, lines, tabstop, bar, number == current))
        return found

    def compare(self, what, numbers):
        """Looks at each cell of the screen."""
        shown, cursor = self.screen.shown(), self.screen.cursor
        free = places(0, 0, self.screen.height - 1, self.screen.width)
        for window in self.windows(numbers):
            self.same(f"a window behind {what}", window.is_shown(shown, cursor), True)
            free -= places(window.row, window.col, window.height + 1, window.width)
        between = {shown[row][col][0] for row, col in free} - {"│"}
        self.same(f"what stands between windows behind {what}", between, set())
        blank = [(" ", PLAIN)] * self.screen.width
        self.same(f"the last row behind {what}", shown[-1], blank)

    def line(self):
        count = self.random.randint(0, 40)
        return "".join(self.random.choices(LETTERS, WEIGHTS, k=count))

    def lines(self, most):
        return [self.line() for _ in range(self.random.randint(0, most))]

    def edit(self, buffer):
        (count,) = self.results(("nvim_buf_line_count", [buffer]))
        start = self.random.randint(0, count)
        end = min(count, start + self.random.randint(0, 5))
        if self.random.random() < 0.8 or start == count:
            return "nvim_buf_set_lines", buffer, start, end, True, self.lines(6)
        return "nvim_buf_set_text", buffer, start, 0, min(end, count - 1), -1, self.lines(2) + [""]

    def step(self, numbers):
        """A call at random, and its parameters."""
        draw = self.random
        window = draw.choice(numbers)
        buffers = self.results(("nvim_list_bufs", []))[0]
        kind = draw.random()
        if kind < 0.30:
            return self.edit(draw.choice(buffers))
        if kind < 0.50:
            (buffer,) = self.results(("nvim_win_get_buf", [window]))
            (count,) = self.results(("nvim_buf_line_count", [buffer]))
            return "nvim_win_set_cursor", window, [draw.randint(1, count), draw.randint(0, 60)]
        if kind < 0.58:
            return "nvim_command", draw.choice(["undo", "undo", "redo", "undo 2"])
        if kind < 0.66:
            split = draw.choice(["left", "right", "above", "below"])
            return (
                "nvim_open_win",
                draw.choice(buffers),
                draw.random() < 0.5,
                {"split": split, "win": window},
            )
        if kind < 0.73:
            return "nvim_win_close", window, True
        if kind < 0.80:
            width = "nvim_win_set_width", window, draw.randint(1, 40)
            height = "nvim_win_set_height", window, draw.randint(1, 20)
            return draw.choice([width, height])
        if kind < 0.87:
            return "nvim_ui_try_resize", draw.randint(10, 70), draw.randint(6, 30)
        if kind < 0.91:
            return "nvim_set_current_win", window
        if kind < 0.93:
            return "nvim_win_set_buf", window, draw.choice(buffers)
        if kind < 0.95:
            return (
                "nvim_set_option_value",
                "tabstop",
                draw.randint(1, 9),
                {"buf": draw.choice(buffers)},
            )
        if kind < 0.97:
            return "nvim_command", draw.choice(["tabnew", "tabclose"])
        return ("nvim_ui_detach",)


@pytest.mark.seeds(1, 2)
def test_the_screen_shows_the_text_after_each_call(check, seed):
    drawn = Drawn(check, seed)
    (second,) = drawn.results(("nvim_create_buf", [True, False]))
    drawn.results(("nvim_buf_set_name", [second, f"a{WIDE}second"]))
    _, numbers = drawn.do("nvim_ui_attach", 40, 12, OPTIONS)
    drawn.compare("nvim_ui_attach", numbers)
    for _ in range(STEPS):
        step = drawn.step(numbers)
        _, numbers = drawn.do(*step)
        if not drawn.attached:
            size = drawn.random.randint(10, 70), drawn.random.randint(6, 30)
            _, numbers = drawn.do("nvim_ui_attach", *size, OPTIONS)
        if drawn.attached:
            drawn.compare(step[0], numbers)
    check.same("status", drawn.nvim.end(), 0)
