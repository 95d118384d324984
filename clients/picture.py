#!/usr/bin/python3
"""Makes a picture, a PNG, of the screen of a server at its last flush, or of a session's screen in
a recorded book. Equal screens give equal bytes.

From a server: it attaches as a UI of this size (80x24), makes the calls of FILE, and detaches. From
a book: it is the book or what `replay` writes of it (`-` is standard input), the session is the
first one that has a screen, and the moment is the last flush that it was sent up to this entry, or
to the end. The status is 0, or 1 behind one line that says why not.

Wants Debian's python3-msgpack, python3-pil and fonts-dejavu-core.
"""

from check import run
from nvimd import Error
from nvimd.book import chosen, frames, outputs
from nvimd.picture import draw
from ui import ServerWords, Ui, calls_in, session_of

SIZE = "80x24"


def size_in(word):
    """Columns and rows of the word COLUMNSxROWS."""
    parts = word.split("x")
    if len(parts) != 2 or not all(part.isascii() and part.isdigit() for part in parts):
        raise Error(f"{word} is no size: COLUMNSxROWS")
    return int(parts[0]), int(parts[1])


def screen_of_server(words, child, size, calls):
    """The screen of a server behind these calls: what a call draws comes before the answer of the
    next one."""
    with session_of(words, child) as session:
        ui = Ui(session)
        ui.attach("a screen of {} by {}".format(*size), *size)
        ui.answered()
        for call in calls:
            ui.ask(*call)
            ui.answered()
        ui.ask("detaching", "nvim_ui_detach")
        ui.answered()
        return ui.screen


def screen_of_book(path, session, last):
    """The screen of a session, at the last flush that it was sent up to an entry."""
    found = (output for output in outputs(path) if last is None or output.entry <= last)
    screens = {frame.session: frame.screen for frame in frames(found)}
    return chosen(screens, session, path)


def main():
    words = ServerWords(__doc__, "[--size COLUMNSxROWS] [--book BOOK ..] PICTURE")
    words.add_argument("--size", metavar="COLUMNSxROWS", default=SIZE)
    words.add_argument("--book", metavar="BOOK", help="in place of a server")
    words.add_argument("--session", metavar="N", type=int, help="of the book, from 1")
    words.add_argument("--entry", metavar="N", type=int, help="of the book, from 0")
    asked = words.parse_args()
    if not asked.words:
        raise Error("no word for the picture")
    picture, *server = asked.words
    if asked.book is None:
        size, calls = size_in(asked.size), calls_in(asked.calls)
        screen = screen_of_server(server, asked.child, size, calls)
    elif server or asked.child:
        raise Error("beside a book no server is meant")
    else:
        screen = screen_of_book(asked.book, asked.session, asked.entry)
    draw(screen, picture)
    return 0


if __name__ == "__main__":
    run(main)
