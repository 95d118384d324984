"""Draws screens on a terminal, by escapes (ECMA-48, and xterm's colours of 24 bits)."""

import unicodedata

from .screen import is_wide, known

FLAGS = {"bold": 1, "italic": 3, "underline": 4, "undercurl": 4, "reverse": 7, "strikethrough": 9}
HIDE, SHOW, PLAIN = "\x1b[?25l", "\x1b[?25h", "\x1b[0m"
CLEAR = f"{PLAIN}\x1b[2J"
CONTROLS = ("Cc", "Cs", "Zl", "Zp")


def colour(kind, number):
    """A colour of 24 bits, of the text (3) or behind it (4); -1 is the terminal's own."""
    if number is None or number < 0:
        return f"{kind}9"
    return f"{kind}8;2;{number >> 16 & 255};{number >> 8 & 255};{number & 255}"


def style(attribute, colours):
    """The escape that puts an attribute, and takes away what was before."""
    foreground, background = (colours or (-1, -1))[:2]
    codes = ["0"] + sorted({str(code) for name, code in FLAGS.items() if attribute.get(name)})
    codes.append(colour(3, attribute.get("foreground", foreground)))
    codes.append(colour(4, attribute.get("background", background)))
    return f"\x1b[{';'.join(codes)}m"


def printable(text):
    """A text without what would steer the terminal."""
    return "".join("?" if unicodedata.category(char) in CONTROLS else char for char in text)


def place(row, col):
    """The escape that puts the cursor there, from 0."""
    return f"\x1b[{row + 1};{col + 1}H"


def drawn(row, cells, width, styles):
    """The escapes and texts that draw a row, as far as the terminal is wide."""
    parts, last = [place(row, 0)], None
    for col, cell in enumerate(cells[:width]):
        text, number = known(cell)
        if text == "":
            continue
        if number != last:
            parts.append(styles[number])
            last = number
        wide = is_wide(cells, col)
        parts.append(" " if wide and col + 1 == width else printable(text))
        if not (text.isascii() and len(text) == 1):
            parts.append(f"\x1b[{col + (3 if wide else 2)}G")
    if len(cells) < width:
        parts.append(f"{PLAIN}\x1b[K")
    return "".join(parts)


class Painter:
    """A terminal of a size that shows a screen: what stands on it now."""

    def __init__(self):
        self.rows, self.styles = {}, {}

    def forget(self):
        """Nothing stands there any more."""
        self.rows = {}

    def paint(self, screen, width, height):
        """What draws the rows that differ from those that stand there, then the cursor."""
        numbers = screen.attributes.items()
        styles = {number: style(attribute, screen.colours) for number, attribute in numbers}
        if styles != self.styles:
            self.styles, self.rows = styles, {}
        parts = [HIDE]
        for row, cells in enumerate(screen.cells[:height]):
            if self.rows.get(row) != cells:
                self.rows[row] = list(cells)
                parts.append(drawn(row, cells, width, styles))
        if screen.height < height:
            parts.append(f"{PLAIN}{place(screen.height, 0)}\x1b[J")
        if screen.cursor and screen.cursor[0] < height and screen.cursor[1] < width:
            parts.append(place(*screen.cursor) + SHOW)
        return "".join(parts)
