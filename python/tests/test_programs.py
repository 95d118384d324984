"""Every script and program: `--help`, words that are wrong, and what isn't there, in one line."""

import os
import pathlib
import socket
import sys

import pytest

from nvimd.program import TOP

PROGRAMS = {
    "nvimd.call": [sys.executable, "-m", "nvimd.call"],
    "nvimd.cast": [sys.executable, "-m", "nvimd.cast"],
}
for folder in ("clients", "bench", "examples"):
    for path in sorted(pathlib.Path(TOP, folder).rglob("*.py")):
        if os.access(path, os.X_OK):
            PROGRAMS[f"{folder}/{path.name}"] = ["/usr/bin/python3", str(path)]


@pytest.mark.parametrize("name", PROGRAMS)
def test_help_and_a_word_that_is_wrong(ran, name):
    status, out, said = ran(*PROGRAMS[name], "--help")
    assert (status, said) == (0, "") and out.startswith("usage: ") and len(out.split()) > 20
    status, out, said = ran(*PROGRAMS[name], "--no-such-word", "1", "1")
    assert (status, out) == (2, "") and "Traceback" not in said
    line = said.splitlines()[-1]
    assert "error: " in line and ("--no-such-word" in line or "'1'" in line), line


@pytest.fixture
def deaf(tmp_path):
    """A server that takes a connection and ends it."""
    import threading

    listener = socket.socket(socket.AF_UNIX)
    path = str(tmp_path / "deaf")
    listener.bind(path)
    listener.listen()

    def answer():
        while True:
            try:
                connection, _ = listener.accept()
            except OSError:
                return
            connection.recv(1)
            connection.close()

    threading.Thread(target=answer, daemon=True).start()
    yield path
    listener.close()


@pytest.fixture
def cut(tmp_path, book):
    """A book that has no end."""
    path = tmp_path / "cut"
    with open(book, "rb") as file:
        path.write_bytes(file.read()[:-20])
    return str(path)


@pytest.mark.parametrize(
    "name, words",
    [
        ("nvimd.call", ["ADDRESS", "nvim_list_bufs"]),
        ("clients/picture.py", ["/dev/null", "ADDRESS"]),
        ("clients/typist.py", ["ADDRESS"]),
        ("clients/marker.py", ["ADDRESS"]),
        ("examples/checker.py", ["ADDRESS"]),
        ("examples/front_end.py", ["ADDRESS"]),
        ("examples/todo_plugin.py", ["ADDRESS"]),
    ],
)
@pytest.mark.parametrize("what", ["nowhere", "deaf"])
def test_a_server_that_is_not_there_or_ends(ran, deaf, name, words, what):
    address = deaf if what == "deaf" else "/nowhere/socket"
    words = [address if word == "ADDRESS" else word for word in words]
    status, out, said = ran(*PROGRAMS[name], *words)
    assert status == 1 and "Traceback" not in said
    assert said.count("\n") == 1, said


@pytest.mark.parametrize(
    "name, words",
    [
        ("nvimd.cast", ["BOOK", "out.cast"]),
        ("nvimd.cast", ["BOOK", "--at", "3"]),
        ("nvimd.cast", ["BOOK", "--until", "3"]),
        ("clients/picture.py", ["--book", "BOOK", "/dev/null"]),
    ],
)
def test_a_book_that_is_cut(ran, cut, name, words):
    words = [cut if word == "BOOK" else word for word in words]
    status, out, said = ran(*PROGRAMS[name], *words)
    assert status == 1 and said.count("\n") == 1
    assert f"{cut} is cut: the value at byte " in said
