"""The screen that redraw events tell (help: ui-linegrid)."""

import time
from typing import NamedTuple

from .errors import Error, Fault, Unfit

OPTIONS = {"ext_linegrid": True, "rgb": True}
MOST_COLUMNS, MOST_ROWS = 2_000, 1_000


class Cell(NamedTuple):
    """A text, and the attribute that it is shown with: colours as numbers, and flags."""

    text: str
    attribute: dict


class Screen:
    """What a UI shows: the fold of the redraw events, of a session or of whatever `take` is given.

    A cell is a text and an attribute's id, or None where nothing is known. The right half of a
    character of two columns is a cell with the empty text. An id is what it was last defined as,
    also for the cells that are shown already.
    """

    EVENTS = (
        "grid_resize default_colors_set hl_attr_define grid_clear grid_line grid_scroll "
        "grid_cursor_goto flush"
    ).split()

    def __init__(self, session=None):
        self.session = session
        self.width = self.height = 0
        self.cells = []
        self.attributes = {0: {}}
        self.colours = None  # foreground, background, special and two more; -1 is left open
        self.cursor = None  # row and column, from 0
        self.flushes = 0
        self.flushed = False  # whether the last event was a flush
        self.others = set()  # names of events that tell nothing of this
        if session:
            session.listeners.append(self._hears)

    # ---- what it shows

    @property
    def rows(self):
        """Its rows as texts; a cell that isn't known is a space."""
        return ["".join([cell[0] if cell else " " for cell in row]) for row in self.cells]

    def __str__(self):
        return "\n".join(row.rstrip() for row in self.rows)

    def at(self, row, col):
        """The cell in a row and a column, from 0."""
        text, number = known(self.cells[row][col])
        return Cell(text, self.attributes[number])

    def shown(self):
        """Its rows, each cell with its attribute in place of the id."""
        return [
            [cell and Cell(cell[0], self.attributes[cell[1]]) for cell in r] for r in self.cells
        ]

    def is_wide(self, row, col):
        """Whether a cell and the one after it are one character."""
        return is_wide(self.cells[row], col)

    # ---- of a session

    def attach(self, width, height):
        """Attaches it as a UI of this size, and waits until it is drawn."""
        before = self.flushes
        try:
            self.session.call("nvim_ui_attach", *clamped(width, height), OPTIONS)
        except Fault:
            self.session.listeners.remove(self._hears)
            raise
        while self.flushes == before:
            self.session.read()
        return self

    def resize(self, width, height):
        self.session.call("nvim_ui_try_resize", *clamped(width, height))
        return self.settle()

    def detach(self):
        """Gives the UI up; what was shown stays here."""
        self.session.call("nvim_ui_detach")
        self.session.listeners.remove(self._hears)
        self.session.ui = None

    def settle(self):
        """Waits until it shows all that was done up to now, which the next reply tells."""
        self.session.call("nvim_strwidth", "")
        return self

    def wait(self, holds, timeout=5):
        """Waits until `holds(screen)`, for what others do, or a server that isn't settled by a
        reply; an `Error` where it doesn't hold in so many seconds."""
        late = time.monotonic() + timeout
        self.settle()
        while not (self.flushed and holds(self)):
            if not self.session.poll(max(0, late - time.monotonic())):
                raise Error(f"the screen doesn't come to that in {timeout} seconds:\n{self}")
        return self

    def _hears(self, event):
        if event.name == "redraw":
            self.take(event.args)
        return event.name == "redraw"

    # ---- the fold

    def take(self, batch):
        """The events of one `redraw` notification, in their order."""
        try:
            for name, *calls in batch:
                if name not in self.EVENTS:
                    self.others.add(name)
                    continue
                for arguments in calls:
                    self.flushed = False
                    self._event(name, arguments)
        except (TypeError, ValueError) as error:
            raise Unfit(f"a redraw event is wrong: {error}") from None

    def _event(self, name, arguments):
        try:
            getattr(self, f"_{name}")(*arguments)
        except (TypeError, ValueError, IndexError):
            raise Unfit(f"a redraw event is wrong: {name}{tuple(arguments)} doesn't fit") from None

    def _grid_resize(self, grid, width, height):
        self.width, self.height = width, height
        self.cells = [[None] * width for _ in range(height)]
        self.cursor = None

    def _default_colors_set(self, foreground, background, special, *cterm):
        self.colours = (foreground, background, special, *cterm)

    def _hl_attr_define(self, number, rgb, cterm, info):
        self.attributes[number] = dict(rgb)

    def _grid_clear(self, grid):
        self.cells = [[(" ", 0)] * self.width for _ in range(self.height)]

    def _grid_line(self, grid, row, col, cells, *wrap):
        number = None
        self._within(row, self.height)
        for text, *more in cells:
            number = more[0] if more else number
            times = more[1] if len(more) > 1 else 1
            fits = times >= 0 and 0 <= col <= self.width - times
            if not isinstance(text, str) or number not in self.attributes or not fits:
                raise Unfit(
                    f"grid_line: row {row}, column {col}, attribute {number}, {times} times"
                )
            self.cells[row][col : col + times] = [(text, number)] * times
            col += times

    def _grid_scroll(self, grid, top, bot, left, right, rows, cols):
        fits = 0 <= top < bot <= self.height and 0 <= left < right <= self.width
        if cols != 0 or not fits:
            raise Unfit(f"grid_scroll: rows {top} to {bot}, columns {left} to {right}, by {rows}")
        before = [list(row) for row in self.cells[top:bot]]
        for row in range(top, bot):
            come = row + rows
            none = [None] * (right - left)
            held = before[come - top][left:right] if top <= come < bot else none
            self.cells[row][left:right] = held

    def _grid_cursor_goto(self, grid, row, col):
        self._within(row, self.height)
        self._within(col, self.width)
        self.cursor = (row, col)

    def _flush(self):
        self.flushes += 1
        self.flushed = True

    def _within(self, place, count):
        if not 0 <= place < count:
            raise Unfit(f"a redraw event is wrong: the place {place} of {count}")


def known(cell):
    """A cell, a space where nothing is known."""
    return cell or (" ", 0)


def is_wide(cells, col):
    """Whether a cell and the one after it, which has the empty text, are one character."""
    return col + 1 < len(cells) and cells[col + 1] is not None and cells[col + 1][0] == ""


def clamped(width, height):
    """A size that a screen may have, as near as may be."""
    return min(width, MOST_COLUMNS), min(height, MOST_ROWS)
