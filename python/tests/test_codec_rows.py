"""The rows of docs/rows/codec.rows beside msgpack for Python, the input of the program `bench`, and
what `nvimd embed` says.
"""

import os
import subprocess
from concurrent.futures import ProcessPoolExecutor, ThreadPoolExecutor

import msgpack
import pytest

import nvimd
from examples import Unwritten, packed, unpacker, value_in
from row_file import Wrong, bytes_in, lines_of
from runs import CRATES, DOCS, of_repository

ROWS = os.path.join(DOCS, "rows", "codec.rows")
CRATE = os.path.join(CRATES, "bench")
# what it writes behind what it read: the cells of a screen, and the sums of works on 300 marks
BEHIND = b"3388 cells\nset: 300\nset again: 300\nedit: 1001\nlist: 103750\nfind: 105505\n"
WORDS = ("bad", "deep", "long", "cut")
FEW = 1000
AT_ONCE = 4
LONG = 60  # seconds


class Row:
    """Bytes, and those after them; and what they are: the shortest spelling and perhaps the value
    in text, or a flaw."""

    def __init__(self, line, data, after, said):
        self.line, self.data, self.after = line, data, after
        self.shortest = self.value = self.flaw = None
        word, _, place = said.partition(" ")
        if word in WORDS:
            self.flaw = word, int(place)
            return
        spelled, found, self.value = said.partition(" = ")
        self.shortest = data if spelled.strip() == "same" else bytes_in(spelled)
        self.value = self.value if found else None

    def told(self):
        """What `bench codec read` writes for it."""
        if self.flaw:
            return f"{self.flaw[0]} {self.flaw[1]}\n".encode()
        return self.shortest + f" in {len(self.data)}\n".encode()

    def ends(self):
        """What the program writes for it, its status, and its line."""
        return b"", 6, f"nvimd: malformed input: {self.flaw[0]} at {self.flaw[1]}\n"


def rows_of(number, text):
    """The rows of a line."""
    left, arrow, said = text.partition(" -> ")
    if not arrow:
        raise Wrong(ROWS, number, "no arrow")
    if not left.startswith("each "):
        data, _, after = left.partition("|")
        return [Row(number, bytes_in(data), bytes_in(after), said)]
    each = [bytes([byte]) for byte in bytes_in(left[len("each ") :])]
    spelled, found, values = said.partition(" = ")
    if not found:
        return [Row(number, data, b"", said) for data in each]
    values = value_in(f"[{values}]")
    if spelled != "same" or len(values) != len(each):
        raise Wrong(ROWS, number, "not as many values as bytes")
    rows = [Row(number, data, b"", "same") for data in each]
    for row, value in zip(rows, values):
        row.value = value
    return rows


def all_rows():
    found = []
    for number, text in lines_of(ROWS):
        if text and not text.startswith("#"):
            try:
                found += rows_of(number, text)
            except (Unwritten, ValueError) as error:
                raise Wrong(ROWS, number, error) from None
    return found


def read(data):
    """The value at the front of the bytes and its length, or None, as msgpack for Python reads
    them."""
    reader = unpacker()
    reader.feed(data)
    try:
        return reader.unpack(), reader.tell()
    except (msgpack.UnpackException, ValueError):
        return None


def is_as_python_says(row):
    found = read(row.data + row.after)
    if row.flaw:
        return found is None or row.flaw[0] == "deep"  # Python has no such limit
    if (
        not found
        or found[1] != len(row.data)
        or read(row.shortest) != (found[0], len(row.shortest))
    ):
        return False
    # Python packs each float in eight bytes, so one of four is compared by its value alone
    is_shortest = packed(found[0]) == row.shortest or b"\xca" in row.data
    value = value_in(row.value) if isinstance(row.value, str) and row.value else row.value
    is_named = row.value is None or packed(value) == packed(found[0])
    return is_shortest and is_named


def ended(pieces):
    """What the program writes for this input, its status and its line."""
    pipes = {"stdin": subprocess.PIPE, "stdout": subprocess.PIPE, "stderr": subprocess.PIPE}
    with subprocess.Popen([nvimd.program(), "embed"], bufsize=0, **pipes) as child:
        try:
            for piece in pieces:
                child.stdin.write(piece)
        except BrokenPipeError:
            pass  # it ended before it read all, as soon as the flaw was sure
        output, line = child.communicate(timeout=LONG)
    return output, child.returncode, line.decode()


def is_as_the_program_says(row):
    data = row.data
    singles = [data[place : place + 1] for place in range(len(data))]
    cuts = [[data], singles] if len(data) <= FEW else [[data]]
    return all(ended(pieces) == row.ends() for pieces in cuts)


def written(found):
    """The files of the program by their names."""
    return {
        "args": b"all\n",
        "stdin": b"".join(msgpack.packb(row.data + row.after) for row in found),
        "stdout": b"".join(row.told() for row in found) + BEHIND,
    }


@pytest.fixture(scope="module")
def rows():
    return all_rows()


def test_python_reads_each_value_and_packs_it_as_short(check, rows):
    """In a process of its own: msgpack never frees the lists of millions that a cut value began,
    through which each collection of garbage would go from then on."""
    with ProcessPoolExecutor(1) as pool:
        found = pool.map(is_as_python_says, rows, chunksize=len(rows))
        for row, is_right in zip(rows, found):
            check.same(f"line {row.line}", is_right, True)


@of_repository
def test_the_bytes_and_the_answers_of_bench_are_those_of_the_rows(holds, rows):
    """`rt ci` runs it on these bytes, and has it write these answers, then what it drew and what it
    did with marks."""
    for name, data in written(rows).items():
        holds(os.path.join(CRATE, name), data)


def test_the_program_ends_as_the_row_of_each_flaw_says(check, rows):
    """In one piece and, where they are few, byte by byte."""
    flaws = [row for row in rows if row.flaw]
    with ThreadPoolExecutor(AT_ONCE) as pool:
        for row, is_right in zip(flaws, pool.map(is_as_the_program_says, flaws)):
            check.same(f"line {row.line}", is_right, True)
