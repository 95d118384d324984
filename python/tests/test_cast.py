"""Films of a book, and screens and texts as of an entry."""

import json

import pytest

import nvimd as package
from nvimd.book import frames
from nvimd.cast import Film, cast

pyte = pytest.importorskip("pyte")
Image = pytest.importorskip("PIL.Image")


def folded(lines):
    """Each screen that a terminal shows of an asciicast, read by pyte: rows, cursor."""
    head, *events = lines
    screen = pyte.Screen(head["width"], head["height"])
    stream = pyte.Stream(screen)
    for _, kind, text in events:
        assert kind == "o"
        stream.feed(text)
        yield [row.rstrip() for row in screen.display], (screen.cursor.y, screen.cursor.x)


def test_a_cast_is_the_screens_of_the_book(module, book, tmp_path):
    out = tmp_path / "out.cast"
    assert module("cast", book, out) == (0, "", "")
    lines = [json.loads(line) for line in out.read_text(encoding="utf-8").splitlines()]
    assert lines[0]["version"] == 2 and (lines[0]["width"], lines[0]["height"]) == (40, 12)
    times = [time for time, _, _ in lines[1:]]
    assert times == sorted(times)
    wanted = [
        ([row.rstrip() for row in frame.screen.rows], frame.screen.cursor)
        for frame in frames(package.Book(book).pieces())
    ]
    assert len(wanted) > 100 and list(folded(lines)) == wanted


def test_a_screen_that_changes_its_size(tmp_path):
    path = str(tmp_path / "book")
    with package.Server(book=path) as server, server.connect() as session:
        screen = session.screen(30, 8)
        session.api.buf_set_lines(0, 0, -1, True, ["x" * 40, "世界"])
        shown = [str(screen.settle()), str(screen.resize(20, 5)), str(screen.resize(34, 9))]
    film = Film(package.Book(path), None)
    assert (film.width, film.height) == (34, 9)
    texts = ["\n".join(rows).rstrip() for rows, _ in folded(cast(film, 0.1))]
    for text in shown:
        assert text.rstrip() in [it.replace("世 界 ", "世界").rstrip() for it in texts]


def test_a_gif_has_a_frame_for_each_screen(module, tmp_path):
    path = str(tmp_path / "book")
    with package.Server(book=path) as server, server.connect() as session:
        session.screen(20, 5)
        for n in range(3):
            session.api.buf_set_lines(0, 0, -1, True, [f"line {n}"])
    out = tmp_path / "out.gif"
    assert module("cast", path, out, "--seconds", "0.5") == (0, "", "")
    with Image.open(out) as image:
        assert image.n_frames == 4 and image.info["duration"] == 500


def test_screens_and_texts_as_of_an_entry(module, book):
    found = package.Book(book)
    status, text, said = module("cast", book, "--at", "500")
    assert (status, said) == (0, "") and text.rstrip("\n") == str(found.screen(500)).rstrip("\n")
    status, text, said = module("cast", book, "--until", "500")
    assert (status, said) == (0, "") and text.splitlines() == found.texts(500)[1][1]


@pytest.mark.parametrize(
    "words, said",
    [
        (
            ["/nowhere/book", "out.cast"],
            "cast: no book in /nowhere/book: No such file or directory",
        ),
        (["BOOK", "out.png"], "cast: out.png ends neither with .cast nor with .gif"),
        (["BOOK", "/nowhere/out.cast"], "cast: no film in /nowhere/out.cast: "),
        (["BOOK", "out.cast", "--session", "1"], "cast: no screen of session 1 in "),
    ],
)
def test_what_cannot_be_made_is_one_line(module, book, words, said):
    status, out, told = module("cast", *[book if word == "BOOK" else word for word in words])
    assert (status, out, told.count("\n")) == (1, "", 1) and told.startswith(said)
