"""A book: what it says, as of an entry, and what is no book."""

import pytest

import nvimd as package
from nvimd.values import packed


def test_it_says_what_was_asked_and_sent(tmp_path):
    path = str(tmp_path / "book")
    with package.Server(book=path) as server, server.connect() as session:
        session.api.buf_set_lines(0, 0, -1, True, ["a"])
        with pytest.raises(package.InvalidMethod):
            session.api.nope()
    book = package.Book(path)
    requests = [told for told, _ in book.entries if told[0] == "r"]
    assert [told[4] for told in requests] == ["nvim_buf_set_lines", "nvim_nope", "nvim_command"]
    number = requests[0][2]  # that the server is looked for opens sessions of its own
    assert book.sent()[number] == packed([1, 1, None, None]) + packed(
        [1, 2, [0, "Invalid method: nvim_nope"], None]
    )
    assert book.whole() == book.data
    assert book.summary().startswith(f"entries {len(book.entries)} sessions ")


def test_texts_and_screens_as_of_an_entry(tmp_path):
    path = str(tmp_path / "book")
    with package.Server(book=path) as server, server.connect() as session:
        for text in ("one", "two", "three"):
            session.api.buf_set_lines(0, 0, -1, True, [text])
        session.api.create_buf(True, False)
    book = package.Book(path)
    puts = [n for n, (told, _) in enumerate(book.entries) if told[0] == "r"]
    assert [book.texts(n)[1][1] for n in puts[:3]] == [["one"], ["two"], ["three"]]
    assert book.texts(puts[3]) == {1: ("", ["three"]), 2: ("", [""])}
    assert book.screen(puts[1]).rows[0].rstrip() == "two"
    with pytest.raises(package.BadBook, match="can't be played up to entry"):
        book.texts(puts[4])


def test_the_screen_of_a_session_at_each_entry(book):
    found = package.Book(book)
    screen = found.screen(len(found.entries) - 1)
    assert (screen.width, screen.height) == (40, 12)
    early = found.screen(100)
    assert early.flushes < screen.flushes
    with pytest.raises(package.BadBook, match="no screen of session 1 in"):
        found.screen(100, session=1)


def small():
    return [
        ["nvimd-book", 1, 4096],
        ["o", 0],
        ["r", 0, 1, 1, "nvim_buf_line_count", [0]],
        ["t", 0, 1, 1],
        packed([1, 1, None, 1]),
        ["c", 0, 1],
        ["end", 4],
    ]


@pytest.mark.parametrize("step", [1, 2, 3])
def test_a_book_that_is_cut_is_one_line(tmp_path, step):
    data = b"".join(map(packed, small()))
    path = tmp_path / "cut"
    for at in range(step, len(data), step):
        path.write_bytes(data[:at])
        with pytest.raises(package.BadBook, match="is cut: the value at byte [0-9]+ has no end"):
            package.Book(str(path))


@pytest.mark.parametrize("place, value", [(0, 7), (1, []), (2, ["o"]), (4, 5), (6, ["end", 3])])
def test_what_is_no_book_is_one_line(tmp_path, place, value):
    values = small()
    values[place] = value
    path = tmp_path / "wrong"
    path.write_bytes(b"".join(map(packed, values)))
    with pytest.raises(package.BadBook, match="is no book") as told:
        package.Book(str(path))
    assert "\n" not in str(told.value)
