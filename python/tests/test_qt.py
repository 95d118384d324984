"""nvim-qt, an old GUI, shows a text of a server on a display without a screen: its picture, cell by
cell.

Cells of two colours tell where each cell stands, so nothing is said of the font: the cells of a
letter are alike, those of two letters differ, and a blank is of one colour. Then the text is
changed, and looked at again. By the book the size of the UI is the last that nvim-qt asked for.
"""

import os
import shutil
import subprocess
import tempfile
import time
from contextlib import contextmanager

import pytest

import nvimd
from nvimd.errors import words_of

ImageGrab = pytest.importorskip("PIL.ImageGrab")
NEOVIM = ["nvim", "--clean", "--headless", "--listen"]
PATIENCE = 30  # seconds for a picture
RED, GREEN = (255, 0, 0), (0, 255, 0)
RULER = 20  # cells of two colours in turn

# nvim-qt draws the first column in a way of its own
TEXTS = [" abcab  gjgWab", " W g a b c j .", " ~~--__  abcab"]


@contextmanager
def started(*words, **popen):
    """A process that is ended at the end."""
    try:
        child = subprocess.Popen(words, stderr=subprocess.DEVNULL, **popen)
    except OSError as error:
        raise nvimd.Ended(f"no program {words[0]}: {words_of(error)}") from None
    try:
        yield child
    finally:
        child.terminate()
        child.wait()


@contextmanager
def display():
    """A display without a screen; its name."""
    read, write = os.pipe()
    words = ["-displayfd", str(write), "-screen", "0", "1024x768x24", "-nolisten", "tcp"]
    with os.fdopen(read) as told, os.fdopen(write, "w") as telling:
        with started("Xvfb", *words, pass_fds=[write]):
            telling.close()
            yield f":{told.readline().strip()}"


def gui(server, shown, home):
    """nvim-qt, attached to a server, on a display."""
    environment = {**os.environ, "DISPLAY": shown, "XDG_RUNTIME_DIR": home, "HOME": home}
    words = ["nvim-qt", "--nofork", "--server", server.address]
    return started(*words, env=environment, stdout=subprocess.DEVNULL)


def runs_of(pixels):
    """Where the colour of some pixels changes: each run's colour, first place and length."""
    found = []
    for place, pixel in enumerate(pixels):
        if found and found[-1][0] == pixel:
            found[-1][2] += 1
        else:
            found.append([pixel, place, 1])
    return found


def corner_of(image):
    """The place of the first cell and the size of a cell, by the ruler; None where it isn't
    there."""
    data, red = image.tobytes(), bytes(RED)
    at = data.find(red)
    while at % 3 and at >= 0:
        at = data.find(red, at + 1)
    if at < 0:
        return None
    y, x = divmod(at // 3, image.width)
    pixels = image.load()
    ruler = runs_of([pixels[n, y] for n in range(x, image.width)])[:RULER]
    width = ruler[0][2]
    wanted = [(RED, width), (GREEN, width)] * (RULER // 2)
    if [(colour, length) for colour, _, length in ruler] != wanted:
        return None
    return x, y, width, runs_of([pixels[x, n] for n in range(y, image.height)])[0][2]


def cells(image, row, count):
    """The pixels of the first cells of a row, but for their edges, into which neighbours may
    reach."""
    x, y, width, height = corner_of(image)
    found = []
    for left in range(x, x + width * count, width):
        box = (left + 1, y + height * row, left + width - 1, y + height * (row + 1))
        found.append(image.crop(box).tobytes())
    return found


def picture(shown, wanted):
    """A picture of a display for which something holds, and the same a moment later; None where
    none comes."""
    until, last = time.monotonic() + PATIENCE, None
    while time.monotonic() < until:
        image = ImageGrab.grab(xdisplay=shown)
        if last and image.tobytes() == last.tobytes() and wanted(image):
            return image
        last = image
        time.sleep(0.3)
    return None


def put(api, texts):
    """Puts a ruler of two colours and these lines below it, between lines for the cursor, which may
    leave a trace there and in the line beside."""
    api.buf_set_lines(0, 0, -1, True, ["", "", " " * RULER, *texts, "", ""])
    space = api.create_namespace("ruler")
    groups = {"Odd": RED, "Even": GREEN}
    for group, colour in groups.items():
        api.set_hl(0, group, {"bg": "#" + bytes(colour).hex()})
    for n, group in enumerate([*groups] * (RULER // 2)):
        api.buf_set_extmark(0, space, 2, n, {"end_col": n + 1, "hl_group": group})
    api.win_set_cursor(0, [1, 0])  # which is where the window begins
    api.win_set_cursor(0, [5 + len(texts), 0])


def attached(api):
    """Waits for a UI; whether one came."""
    until = time.monotonic() + PATIENCE
    while not api.list_uis() and time.monotonic() < until:
        time.sleep(0.1)
    return bool(api.list_uis())


def look(check, image, texts):
    """Compares the cells of a picture with the letters of these lines."""
    seen = {}
    for row, text in enumerate(texts, 1):
        for col, (letter, cell) in enumerate(zip(text, cells(image, row, len(text)))):
            what = f"row {row}, column {col}, {letter!r} like others"
            check.same(what, seen.setdefault(letter, cell) == cell, True)
    for letter, cell in seen.items():
        blank = all(cell[at : at + 3] == cell[:3] for at in range(0, len(cell), 3))
        check.same(f"{letter!r} is blank", blank, letter == " ")
    check.same("different letters", len(set(seen.values())), len(seen))


def shows(check, server, home):
    """Two texts as nvim-qt shows them, one after the other; the size of its UI."""
    with display() as shown, server.connect() as session, gui(server, shown, home):
        check.same("attached", attached(session.api), True)
        before = b""
        for texts in (TEXTS, [f"{text} x" for text in reversed(TEXTS)]):
            put(session.api, texts)
            image = picture(shown, lambda image: corner_of(image) and image.tobytes() != before)
            check.same("a picture", image is not None, True)
            if not image:
                return None
            look(check, image, texts)
            image.save(os.path.join(home, "picture.png"))
            before = image.tobytes()
        return [[ui["width"], ui["height"]] for ui in session.api.list_uis()]


def resized(check, book, size):
    """A UI has the size that nvim-qt asked for last, by the old name of that call."""
    sizes = [told[5] for told, _ in book.entries if told[0] == "r" and told[4] == "ui_try_resize"]
    check.same("the size that was asked for", size, sizes[-1:])


@pytest.mark.parametrize("command", [None, NEOVIM], ids=["nvimd", "Neovim"])
def test_each_letter_looks_like_itself_alone(check, tmp_path, command):
    missing = [name for name in ("nvim-qt", "Xvfb", "nvim") if shutil.which(name) is None]
    if missing:
        pytest.skip(f"no {missing[0]}")
    book = None if command else str(tmp_path / "book")
    with nvimd.Server(command=command, book=book) as server:
        size = shows(check, server, str(tmp_path))
        check.same("status", server.quit(), 0)
    if book:
        resized(check, nvimd.Book(book), size)
