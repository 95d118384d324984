"""For pytest: a fresh editor for each test, its screen beside an expected one, and its book where a
test fails.

    def test_two_lines(nvimd, expect_screen):
        nvimd.api.buf_set_lines(0, 0, -1, True, ["one", "two"])
        expect_screen(\"\"\"
            one
            two
            ~                   |B
            [No Name] [+]       |AAAAAAAAAAAAAAAAAAAA

        \"\"\", A={"bold": True, "reverse": True}, B={"bold": True})
"""

import os
import re
import signal

import pytest

from .book import Book
from .errors import Ended, Error
from .expect import Expectation
from .server import Server

TIMEOUT = 10  # seconds that a test waits for an answer
LONGEST = 200  # letters of a file's name
SESSIONS = 8  # of a server at once; each costs its start a little
RIGHT = (0, -signal.SIGKILL, -signal.SIGTERM)  # statuses of a server that was told to end


def pytest_addoption(parser):
    group = parser.getgroup("nvimd")
    told = "write the screens that expect_screen() finds, in place of comparing them"
    group.addoption("--snapshot-update", action="store_true", help=told)


@pytest.fixture(scope="session")
def nvimd_command():
    """What starts the server, up to the word for its address; None is `nvimd serve`. A test may
    put another one in its place."""
    return None


class Servers:
    """The servers of a run, one for each test: the next one starts while a test runs, and the end
    of one that was killed isn't waited for."""

    def __init__(self, folder):
        self.folder = folder  # of their books
        self.count = 0
        self.next = None
        self.killed = []  # processes that haven't ended yet

    def start(self):
        self.count += 1
        book = str(self.folder / f"{self.count}.book")
        return Server("--sessions", str(SESSIONS), book=book, wait=False)

    def session(self):
        """One that nobody has used, and a session of it, which it opens while the next one is
        started."""
        server, self.next = self.next or self.start(), None
        session = server.connect()
        self.next = self.start()
        return server, session

    def give_back(self, server):
        """Kills it; an `Ended` where it, or one before it, had ended otherwise."""
        server.kill(wait=False)
        self.killed.append(server.process)
        self.reap()

    def reap(self):
        over = [process for process in self.killed if process.poll() is not None]
        self.killed = [process for process in self.killed if process not in over]
        for process in over:
            if process.returncode not in RIGHT:
                raise Ended(f"the server ended with status {process.returncode}")

    def end(self):
        if self.next:
            self.give_back(self.next)
        for process in self.killed:
            process.wait()
        self.reap()


@pytest.fixture(scope="session")
def nvimd_servers(tmp_path_factory):
    """The servers of this run. Their books are in a folder that pytest keeps for some runs."""
    servers = Servers(tmp_path_factory.mktemp("nvimd"))
    yield servers
    servers.end()


@pytest.fixture
def nvimd(request, nvimd_servers, nvimd_command):
    """A session of an editor of its own."""
    if nvimd_command:
        server = Server(command=nvimd_command)
        session = server.connect()
    else:
        server, session = nvimd_servers.session()
    request.node.nvimd_server, session.timeout = server, TIMEOUT
    with session:
        yield session
    nvimd_servers.give_back(server)


@pytest.fixture
def nvimd_server(request, nvimd):
    """The server of `nvimd`, for more sessions."""
    return request.node.nvimd_server


@pytest.fixture
def expect_screen(request, nvimd, nvimd_command):
    """Compares the screen of `nvimd` with a text, or with a file where none is given."""
    update = request.config.getoption("--snapshot-update")
    return Expectation(nvimd, request.node.path, request.node.name, update, nvimd_command is None)


@pytest.hookimpl(hookwrapper=True)
def pytest_runtest_makereport(item, call):
    outcome = yield
    report = outcome.get_result()
    server = getattr(item, "nvimd_server", None)
    if report.failed and call.when == "call" and server and server.book:
        report.sections.append(("nvimd", kept(server, item.nodeid)))


def kept(server, test):
    """What is told of the book of a server, which ends by that, and has the test's name then."""
    status = server.quit(TIMEOUT)
    if os.path.exists(server.book):
        name = re.sub(r"\W+", "-", test).strip("-")[-LONGEST:]
        path = os.path.join(os.path.dirname(server.book), f"{name}.book")
        os.replace(server.book, path)
        server.book = path
    try:
        entry = last_entry(Book(server.book))
    except Error as error:
        return f"the server ended with status {status}, and left no book: {error}"
    return "\n".join(
        [
            f"the book of this test: {server.book}",
            f"  to play it again:   nvimd replay {server.book} --check",
            f"  its screen, text:   python3 -m nvimd.cast {server.book} --at {entry}",
            f"                      python3 -m nvimd.cast {server.book} --until {entry}",
            f"  as a picture:       python3 -m nvimd.cast {server.book} test.gif",
        ]
    )


def last_entry(book):
    """The last entry before the session that asked the server to end."""
    opened = [number for number, (told, _) in enumerate(book.entries) if told[0] == "o"]
    return max(0, opened[-1] - 1) if opened else 0
