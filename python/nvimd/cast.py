"""Makes a film of a book: the screens of a session in their order, a frame for each flush.

    python3 -m nvimd.cast BOOK out.cast         for asciinema (asciicast, version 2)
    python3 -m nvimd.cast BOOK out.gif          a picture that moves
    python3 -m nvimd.cast BOOK --at ENTRY       prints the screen as of an entry
    python3 -m nvimd.cast BOOK --until ENTRY    prints the texts of all buffers as of an entry

Entries count from 0; a book holds no time, so each frame takes as long as any other. Where no
session has a UI, the screen as of an entry is that of a UI of 80 by 24 that comes then.
The status is 0, or 1 with one line that says why not.
"""

import json

from .ansi import CLEAR, Painter
from .book import Book, chosen, frames
from .command import Words, run
from .errors import Error, words_of

SECONDS = 0.1  # that a frame takes


class Film:
    """The frames of a session of a book, the first one that has a screen without a session."""

    def __init__(self, book, session):
        self.book = book
        screens = {frame.session: None for frame in frames(book.pieces())}
        chosen(screens, session, book.path)
        self.session = min(screens) if session is None else session
        sizes = [(screen.width, screen.height) for screen in self.screens()]
        self.width, self.height = map(max, zip(*sizes))

    def screens(self):
        """Its screens, each until the next one is asked for."""
        for frame in frames(self.book.pieces()):
            if frame.session == self.session:
                yield frame.screen


def cast(film, seconds):
    """The lines of an asciicast: its head, then what draws each frame."""
    yield {"version": 2, "width": film.width, "height": film.height, "env": {"TERM": "xterm"}}
    painter, size = Painter(), None
    for number, screen in enumerate(film.screens()):
        front = ""
        if size != (screen.width, screen.height):
            size = screen.width, screen.height
            painter.forget()
            front = CLEAR
        text = front + painter.paint(screen, film.width, film.height)
        yield [round(number * seconds, 3), "o", text]


def write_cast(film, path, seconds):
    with open(path, "w", encoding="utf-8") as file:
        file.writelines(json.dumps(line) + "\n" for line in cast(film, seconds))


def write_gif(film, path, seconds):
    from .picture import Paper

    paper = Paper(film.width, film.height)
    stands, images = {}, []
    for screen in film.screens():
        redraw(paper, screen, stands)
        images.append(paper.image.quantize(64))
    first, *others = images
    options = {"save_all": True, "append_images": others, "loop": 0}
    first.save(path, format="GIF", duration=round(seconds * 1000), **options)


def redraw(paper, screen, stands):
    """Draws the cells that differ from those that stand on a paper."""
    for row, cells in enumerate(screen.shown()):
        for col, cell in enumerate(cells):
            if cell is None or cell.text == "":
                continue
            here = (cell, screen.is_wide(row, col), screen.cursor == (row, col), screen.colours)
            if stands.get((row, col)) != here:
                stands[row, col] = here
                paper.draw_cell(screen, row, col, cell)


def printed(texts):
    """The texts of buffers, with a line before each where there are more than one."""
    for number, (name, lines) in texts.items():
        if len(texts) > 1:
            yield f"--- buffer {int(number)} {name}".rstrip()
        yield from lines


WRITERS = {".cast": write_cast, ".gif": write_gif}


def write(asked):
    """Writes the film by the ending of its file."""
    writer = next((WRITERS[end] for end in WRITERS if asked.out.endswith(end)), None)
    if writer is None:
        raise Error(f"{asked.out} ends neither with .cast nor with .gif")
    film = Film(Book(asked.book), asked.session)
    try:
        writer(film, asked.out, asked.seconds)
    except OSError as error:
        raise Error(f"no film in {asked.out}: {words_of(error)}") from None


def main():
    words = Words(__doc__, prog="python3 -m nvimd.cast")
    words.add_argument("book", metavar="BOOK")
    what = words.add_mutually_exclusive_group(required=True)
    what.add_argument("out", metavar="OUT", nargs="?", help="the file of the film")
    what.add_argument("--at", type=int, metavar="ENTRY", help="print the screen")
    what.add_argument("--until", type=int, metavar="ENTRY", help="print the texts")
    words.add_argument("--session", type=int, metavar="N", help="whose screen")
    words.add_argument("--seconds", type=float, default=SECONDS, help="that a frame takes")
    asked = words.parse_args()
    if asked.at is not None:
        print(Book(asked.book).screen(asked.at, asked.session))
    elif asked.until is not None:
        print("\n".join(printed(Book(asked.book).texts(asked.until))))
    else:
        write(asked)
    return 0


if __name__ == "__main__":
    run(main, name="cast")
