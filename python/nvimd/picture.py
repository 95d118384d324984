"""Draws a screen as a picture: each cell its background, then its text in a monospaced font.

Wants Debian's python3-pil and fonts-dejavu-core.
"""

from .errors import Error, words_of

try:
    from PIL import Image, ImageDraw, ImageFont
except ImportError:
    raise Error("pictures want Debian's python3-pil") from None

FONTS = "/usr/share/fonts/truetype/dejavu/DejaVuSansMono{}.ttf"
POINTS = 15
SLANT = 0.2  # columns to the right by row upwards, of an italic text
FOREGROUND, BACKGROUND = 0xFFFFFF, 0x000000


def rgb(number):
    return number >> 16 & 255, number >> 8 & 255, number & 255


def colours_of(screen, attribute):
    """The colours of a text and of what is behind it; one that is left open is white or black."""
    pairs = zip(screen.colours or (-1, -1), (FOREGROUND, BACKGROUND))
    plain = [colour if colour >= 0 else own for colour, own in pairs]
    pairs = zip(("foreground", "background"), plain)
    text, behind = (attribute.get(name, own) for name, own in pairs)
    return (behind, text) if attribute.get("reverse") else (text, behind)


class Type:
    """The font, and the masks of texts that were drawn before."""

    def __init__(self):
        try:
            self.fonts = {
                bold: ImageFont.truetype(FONTS.format("-Bold" if bold else ""), POINTS)
                for bold in (False, True)
            }
        except OSError:
            raise Error(f"no font {FONTS.format('')}: install fonts-dejavu-core") from None
        self.ascent, descent = self.fonts[False].getmetrics()
        self.width = round(self.fonts[False].getlength("0"))
        self.height = self.ascent + descent
        self.masks = {}

    def mask(self, text, bold, italic, columns):
        """Where a text is, in so many columns."""
        key = (text, bold, italic, columns)
        if key not in self.masks:
            mask = Image.new("L", (columns * self.width, self.height))
            ImageDraw.Draw(mask).text((0, 0), text, font=self.fonts[bold], fill=255)
            if italic:
                slanted = (1, SLANT, -SLANT * self.ascent * 0.7, 0, 1, 0)
                affine, bilinear = Image.Transform.AFFINE, Image.Resampling.BILINEAR
                mask = mask.transform(mask.size, affine, slanted, bilinear)
            self.masks[key] = mask
        return self.masks[key]


class Paper:
    """A picture of so many columns and rows."""

    def __init__(self, columns, rows, type=None):
        self.type = type or Type()
        size = columns * self.type.width, rows * self.type.height
        self.image = Image.new("RGB", size)
        self.pen = ImageDraw.Draw(self.image)

    def cell(self, row, col, columns, text, colours, attribute):
        """A character of one or two columns."""
        colour, behind = colours
        x, y = col * self.type.width, row * self.type.height
        right, bottom = x + columns * self.type.width - 1, y + self.type.height - 1
        self.pen.rectangle((x, y, right, bottom), fill=rgb(behind))
        if text.strip():
            bold, italic = bool(attribute.get("bold")), bool(attribute.get("italic"))
            mask = self.type.mask(text, bold, italic, columns)
            self.image.paste(rgb(colour), (x, y), mask)
        if attribute.get("underline") or attribute.get("undercurl"):
            special = attribute.get("special", colour) if attribute.get("undercurl") else colour
            self.line(x, right, y + self.type.ascent + 1, special)
        if attribute.get("strikethrough"):
            self.line(x, right, y + self.type.height // 2, colour)

    def line(self, left, right, y, colour):
        self.pen.line((left, y, right, y), fill=rgb(colour))

    def draw(self, screen):
        """Each cell of a screen; one that isn't known is left as it is."""
        for row, cells in enumerate(screen.shown()):
            for col, cell in enumerate(cells):
                if cell is not None and cell.text != "":
                    self.draw_cell(screen, row, col, cell)
        return self.image

    def draw_cell(self, screen, row, col, cell):
        """A cell of a screen; the cursor's has its colours changed one for the other."""
        colours = colours_of(screen, cell.attribute)
        if screen.cursor == (row, col):
            colours = colours[::-1]
        columns = 2 if screen.is_wide(row, col) else 1
        self.cell(row, col, columns, cell.text, colours, cell.attribute)


def draw(screen, path):
    """Writes the picture of a screen, a PNG. Equal screens give equal bytes."""
    if not screen.flushes:
        raise Error("nothing was drawn")
    image = Paper(screen.width, screen.height).draw(screen)
    try:
        image.save(path, format="PNG", optimize=True)
    except OSError as error:
        raise Error(f"no picture in {path}: {words_of(error)}") from None
