"""The codec beside Debian's python3-msgpack on 1,000 seeded values, both ways.

Each value is packed by Python in its shortest form, and once more by hand in longer forms;
`bench codec copy` reads both streams and writes each value in its shortest spelling, which must be
Python's bytes again, and Python must read the same values back.
"""

import os
import random
import struct
import subprocess

import msgpack
import pytest

from nvimd.values import unpacker
from runs import CRATES, of_repository

CRATE = os.path.join(CRATES, "bench")
PROGRAM = os.path.join(CRATE, "out", "bench")
SMALL = [0, 1, 31, 32, 127, 128, 255, 256, 32767, 32768, 65535, 65536]
EDGES = [*SMALL, 2**31 - 1, 2**31, 2**32 - 1, 2**32, 2**63 - 1]
LETTERS = [97, 0xE9, 0x4E16, 0x1F600]


def value(draw, depth):
    """A value drawn at random, with at most `depth` lists and maps one in another."""
    kind = draw.randrange(9 if depth else 7)
    if kind == 0:
        return draw.choice([None, True, False])
    if kind == 1:
        is_near = draw.random() < 0.8
        return draw.choice(EDGES) + draw.randrange(-2, 3) if is_near else draw.randrange(2**64)
    if kind == 2:
        return -draw.choice(EDGES) - draw.randrange(2)
    if kind == 3:
        count = draw.choice([0, 1, 7, 31, 32, 80, 300])
        return "".join(chr(draw.choice(LETTERS)) for _ in range(count))
    if kind == 4:
        return draw.randbytes(draw.choice([0, 1, 2, 255, 256, 300]))
    if kind == 5:
        return draw.choice([0.0, -1.5, 1e300, 3.14])
    if kind == 6:
        count = [0, 1, 2, 3, 4, 8, 9, 16, 17, 300]
        return msgpack.ExtType(draw.randrange(128), draw.randbytes(draw.choice(count)))
    if kind == 7:
        return [value(draw, depth - 1) for _ in range(draw.choice([0, 1, 3, 15, 16, 20]))]
    return {f"k{n}": value(draw, depth - 1) for n in range(draw.choice([0, 1, 3, 15, 16]))}


def longer(v):
    """A spelling of the value in the longest form of each of its parts."""
    if isinstance(v, bool) or v is None or isinstance(v, float):
        return msgpack.packb(v)
    if isinstance(v, int):
        return b"\xcf" + struct.pack(">Q", v) if v >= 2**63 else b"\xd3" + struct.pack(">q", v)
    if isinstance(v, str):
        data = v.encode()
        return b"\xdb" + struct.pack(">I", len(data)) + data
    if isinstance(v, bytes):
        return b"\xc6" + struct.pack(">I", len(v)) + v
    if isinstance(v, msgpack.ExtType):
        return b"\xc9" + struct.pack(">Ib", len(v.data), v.code) + v.data
    if isinstance(v, list):
        return b"\xdd" + struct.pack(">I", len(v)) + b"".join(map(longer, v))
    parts = [longer(part) for pair in v.items() for part in pair]
    return b"\xdf" + struct.pack(">I", len(v)) + b"".join(parts)


def copied(stream):
    given = {"input": stream, "stdout": subprocess.PIPE}
    return subprocess.run([PROGRAM, "codec", "copy"], check=True, **given).stdout


def clamped(v):
    is_number = isinstance(v, int) and not isinstance(v, bool)
    return min(max(v, -(2**63)), 2**64 - 1) if is_number else v


@of_repository
@pytest.mark.seeds(7)
def test_values_go_through_it(check, seed):
    draw = random.Random(seed)
    if not os.path.exists(PROGRAM):
        words = {"stdin": subprocess.DEVNULL, "stdout": subprocess.DEVNULL, "check": True}
        subprocess.run(["rt", "run"], cwd=CRATE, **words)
    values = [clamped(value(draw, 4)) for _ in range(1000)]
    shortest = b"".join(map(msgpack.packb, values))
    check.same("the same bytes", copied(shortest) == shortest, True)
    check.same("longer forms", copied(b"".join(map(longer, values))) == shortest, True)
    reader = unpacker(msgpack.ExtType, most=0)
    reader.feed(copied(shortest))
    check.same("read back", list(reader) == values, True)
