"""`nvimd follow`: a client that follows a buffer of a server, as a process of its own.

Three clients edit one buffer of a server while it is followed: the texts that are listed are those
of the edits, in their order, and the last is the text. Then servers that send bytes of our own:
a buffer that isn't there, what is malformed, cut or doesn't fit, and one that is killed in the
middle. Last, words and addresses that aren't taken.
"""

import random
import subprocess
import sys
import threading

import pytest

import nvimd as package
from nvimd.values import packed
from runs import LONG, finished, followed

EDITS = 60  # of each client
REPLY = b"\x94\x01\x01\xc0\xc3"
BUFFER = b"\xd4\x00\x01"
LINES, DETACH = b"\xb4nvim_buf_lines_event", b"\xb5nvim_buf_detach_event"


@pytest.fixture
def follower():
    """Starts processes that follow a buffer, and ends them."""
    started = []

    def start(address, buffer=1, **popen):
        words = [package.program(), "follow", address, str(int(buffer))]
        popen = {"stdout": subprocess.PIPE, "stderr": subprocess.PIPE, **popen}
        started.append(subprocess.Popen(words, **popen))
        return started[-1]

    yield start
    for process in started:
        process.kill()
        process.communicate()


def listings(stream):
    """The changedticks and the lines of what is listed, as it comes."""
    while heading := stream.readline():
        tick, count = heading.split()[1::2]
        yield int(tick), [stream.readline()[:-1].decode() for _ in range(int(count))]


def edit(server, seed, edits):
    """Edits the first buffer; `edits` gets the text after each edit, by its changedtick."""
    draw = random.Random(seed)
    with server.connect() as session:
        for number in range(EDITS):
            lines = [f"{seed} {number} {n}" for n in range(draw.randrange(3))]
            begin = draw.randrange(4)
            calls = [
                ["nvim_buf_set_lines", [1, begin, begin + draw.randrange(3), False, lines]],
                ["nvim_buf_get_changedtick", [1]],
                ["nvim_buf_get_lines", [1, 0, -1, False]],
            ]
            (_, tick, text), error = session.api.call_atomic(calls)
            assert error is None
            edits[tick] = text


@pytest.mark.seeds(1, 2)
def test_the_texts_of_three_clients_that_edit(nvimd_server, follower, seed):
    process, edits = follower(nvimd_server.address), {}
    texts = listings(process.stdout)
    assert next(texts) == (2, [""]), "the text as it is first"
    draws = range(3 * seed, 3 * seed + 3)
    threads = [threading.Thread(target=edit, args=(nvimd_server, n, edits)) for n in draws]
    for thread in threads:
        thread.start()
    for thread in threads:
        thread.join(LONG)
    last, listed = max(edits), {}
    for tick, lines in texts:
        listed[tick] = lines
        if tick >= last:
            break
    assert list(listed) == sorted(listed) and set(listed) <= set(edits)
    assert listed == {tick: edits[tick] for tick in listed}, "each is the text after an edit"
    with nvimd_server.connect() as session:
        assert listed[last] == session.api.buf_get_lines(1, 0, -1, False)
    nvimd_server.quit()
    assert (*process.communicate(timeout=LONG), process.returncode) == (b"", b"", 0)


def test_a_program_after_it_has_each_text_at_once(nvimd_server, follower):
    echo = "import sys\nfor line in sys.stdin: print(line, end='', flush=True)"
    first = follower(nvimd_server.address)
    words = [sys.executable, "-u", "-c", echo]
    with subprocess.Popen(words, stdin=first.stdout, stdout=subprocess.PIPE) as program:
        texts = listings(program.stdout)
        assert next(texts) == (2, [""])
        with nvimd_server.connect() as session:
            for number in range(3):
                session.api.buf_set_lines(1, 0, -1, True, [str(number)])
                assert next(texts) == (3 + number, [str(number)]), "before the next edit"
        nvimd_server.quit()
        assert first.wait(LONG) == 0


def test_a_server_that_is_killed(nvimd_server, follower):
    process = follower(nvimd_server.address)
    next(listings(process.stdout))
    nvimd_server.kill()
    _, said = process.communicate(timeout=LONG)
    place = said.decode().removeprefix("nvimd: malformed input: cut at ").rstrip("\n")
    assert (process.returncode, said) == (0, b"") or (process.returncode == 6 and place.isdigit())


def lines_event(*arguments):
    """A lines event of the first buffer: its changedtick, the rows, and the lines."""
    return b"\x93\x02" + LINES + b"\x96" + BUFFER + b"".join(map(packed, arguments)) + b"\xc2"


WHOLE, ONE = lines_event(2, 0, -1, [""]), lines_event(3, 0, 1, ["a"])
PAST = lines_event(3, 5, 6, ["a"])
FIRST, SECOND = b"tick 2 lines 1\n\n", b"tick 3 lines 1\na\n"
MALFORMED, CUT = "nvimd: malformed input: ", len(WHOLE)
REFUSAL = b"\x94\x01\x01\x92\x01\xb4Invalid buffer id: 7\xc0"
ROWS = {
    "two texts": (WHOLE + REPLY + ONE, FIRST + SECOND, 0, ""),
    "nothing": (b"", b"", 0, ""),
    "a refusal": (REFUSAL, b"", 9, "nvimd: refused: Invalid buffer id: 7"),
    "no text before": (b"\x93\x02\xa6redraw\x90" + ONE, b"", 10, "nvimd: event 1 does not fit"),
    "rows past the text": (WHOLE + PAST, FIRST, 10, "nvimd: event 1 does not fit"),
    "a value of another kind": (WHOLE + b"\x07", FIRST, 6, f"{MALFORMED}call at 1"),
    "a request": (WHOLE + b"\x94\x00\x01\xa1x\x90", FIRST, 6, f"{MALFORMED}call at 1"),
    "a value that is cut": (WHOLE + ONE[:-1], FIRST, 6, f"{MALFORMED}cut at {CUT}"),
    "a byte of no value": (WHOLE + b"\xc1", FIRST, 6, f"{MALFORMED}bad at {CUT}"),
    "lists that lie too deep": (WHOLE + b"\x91" * 65, FIRST, 6, f"{MALFORMED}deep at {CUT + 64}"),
    "a detached buffer": (WHOLE + b"\x93\x02" + DETACH + b"\x91" + BUFFER + ONE, FIRST, 0, ""),
    "other buffers": (WHOLE + ONE.replace(BUFFER, b"\xd4\x00\x02"), FIRST, 0, ""),
}


def request(buffer):
    """The bytes by which a client attaches to a buffer and asks for its lines."""
    return b"\x94\x00\x01\xafnvim_buf_attach\x93" + packed(buffer) + b"\xc3\x80"


@pytest.mark.parametrize("name", ROWS)
def test_what_a_server_sends(name):
    data, *wanted = ROWS[name]
    assert followed(data) == (*wanted, request(1))


@pytest.mark.parametrize("buffer", [7, 1 << 62])
def test_another_buffer_is_asked_for(buffer):
    wanted = b"", 9, "nvimd: refused: Invalid buffer id: 7"
    assert followed(REFUSAL, buffer) == (*wanted, request(buffer))


def test_a_buffer_that_is_not_there(nvimd_server):
    for buffer in ("7", "4611686018427387904"):
        refused = b"", 9, f"nvimd: refused: Invalid buffer id: {buffer}"
        assert finished("follow", nvimd_server.address, buffer) == refused


def test_a_buffer_that_is_deleted(nvimd, nvimd_server, follower):
    buffer = nvimd.api.create_buf(True, False)
    process = follower(nvimd_server.address, buffer)
    assert next(listings(process.stdout)) == (2, [""])
    nvimd.api.buf_delete(buffer, {"force": True})
    assert (*process.communicate(timeout=LONG), process.returncode) == (b"", b"", 0)


@pytest.mark.parametrize("address", ["/nowhere/socket", "127.0.0.1", "127.0.0.1:1", "nowhere", ""])
def test_an_address_of_no_server(address):
    assert finished("follow", address, "1") == (b"", 5, "nvimd: listener fault")


@pytest.mark.parametrize(
    "words",
    [
        [],
        ["/nowhere"],
        ["/nowhere", "0"],
        ["/nowhere", "4611686018427387905"],
        ["/nowhere", "-1"],
        ["/nowhere", "x"],
        ["/nowhere", ""],
        ["/nowhere", "1", "2"],
        ["/nowhere", "1", "--outbox", "16"],
    ],
)
def test_words_that_are_not_taken(words):
    assert finished("follow", *words) == (b"", 2, "nvimd: bad command line")


def test_an_output_that_is_full(nvimd_server):
    with open("/dev/full", "wb") as full:
        said = finished("follow", nvimd_server.address, "1", into=full)
    assert said == (None, 4, "nvimd: write fault")
