#!/usr/bin/python3
"""Measures `nvimd follow`, a client that lists the text of a buffer at each changedtick: the time
from its start to its end, what it takes of a processor, and its memory at its peak.

What it follows is a server of this script's own, that has all events ready. Each text that is
listed counts, so its own speed is what stands in a row: the script counts the bytes that come, and
compares them with what the texts have. The best of three runs is printed, as Markdown.
"""

import os
import random
import socket
import subprocess
import tempfile
import threading
import time
from typing import NamedTuple

import nvimd
from nvimd.command import Words, run
from session import tell_load, watch
from spell import integer, items, text


ROUNDS = 3
PIECE = 1 << 20  # bytes that are read or sent at once
BUFFER = b"\xd4\x00\x01"  # the handle of buffer 1
REPLY = items([integer(1), integer(1), b"\xc0", b"\xc3"])


class Sent(NamedTuple):
    """The bytes of a server, and how many a client lists of them."""

    bytes: bytes
    listed: int


class Figures(NamedTuple):
    seconds: float
    user: float  # seconds of a processor, without the kernel's
    peak: float  # MB


def lines_event(tick, first, last, lines):
    put = items([text(line) for line in lines])
    arguments = items([BUFFER, integer(tick), integer(first), integer(last), put, b"\xc2"])
    return items([integer(2), text(b"nvim_buf_lines_event"), arguments])


def sent(count, length, edits):
    """A text of so many lines of one length, and edits that each replace a line by another."""
    line, draw = b"x" * length, random.Random(1)
    pieces, listed = [lines_event(2, 0, -1, [line] * count), REPLY], 0
    for tick in range(3, 3 + edits):
        row = draw.randrange(count)
        pieces.append(lines_event(tick, row, row + 1, [line]))
    for tick in range(2, 3 + edits):
        listed += len(f"tick {tick} lines {count}\n") + count * (length + 1)
    return Sent(b"".join(pieces), listed)


def serve(listener, stream):
    """Sends one client these bytes, behind its request."""
    peer, _ = listener.accept()
    with peer:
        peer.recv(PIECE)
        peer.sendall(stream)
        peer.shutdown(socket.SHUT_WR)
        peer.recv(PIECE)  # until it ends


def count_all(pipe):
    count = 0
    while piece := pipe.read(PIECE):
        count += len(piece)
    return count


def measured(program, stream):
    """What a client takes to list all of what a server sends."""
    with tempfile.TemporaryDirectory() as folder, socket.socket(socket.AF_UNIX) as listener:
        address = os.path.join(folder, "socket")
        listener.bind(address)
        listener.listen()
        sender = threading.Thread(target=serve, args=(listener, stream.bytes))
        sender.start()
        start = time.perf_counter()
        child = subprocess.Popen([program, "follow", address, "1"], stdout=subprocess.PIPE, bufsize=0)
        peak = [0.0]
        watcher = threading.Thread(target=watch, args=(child.pid, peak))
        watcher.start()
        listed = count_all(child.stdout)
        _, status, used = os.wait4(child.pid, 0)
        seconds = time.perf_counter() - start
        child.returncode = os.waitstatus_to_exitcode(status)
        watcher.join()
        sender.join()
    if child.returncode != 0 or listed != stream.listed:
        told = f"status {child.returncode}, {listed} of {stream.listed} bytes"
        raise nvimd.Error(f"follow listed another text: {told}")
    return Figures(seconds, used.ru_utime, peak[0])


def main():
    Words(__doc__).parse_args()
    program = nvimd.program()
    tell_load()
    print("| What is followed | MB read | MB listed | s | s, user | MB at its peak |")
    print("|---|--:|--:|--:|--:|--:|")
    for name, shape in (
        ("a text of 1,000,000 lines, and 20 edits of a line", (1_000_000, 21, 20)),
        ("a text of one line of 4 bytes, and 1,000,000 edits", (1, 4, 1_000_000)),
        ("a text of one line of 100 bytes, and 730,000 edits", (1, 100, 730_000)),
    ):
        stream = sent(*shape)
        best = Figures(*map(min, zip(*(measured(program, stream) for _ in range(ROUNDS)))))
        sizes = f"{len(stream.bytes) / 1e6:.1f} | {stream.listed / 1e6:.1f}"
        print(f"| {name} | {sizes} | {best.seconds:.2f} | {best.user:.2f} | {best.peak:.1f} |")
    return 0


if __name__ == "__main__":
    run(main)
