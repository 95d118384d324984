"""Runs of the program to its end, and where what is tested stands."""

import os
import socket
import subprocess
import tempfile

import pytest

import nvimd
from nvimd.program import TOP

CLIENTS, CRATES, DOCS = (os.path.join(TOP, name) for name in ("clients", "crates", "docs"))
LONG = 300  # seconds for what ends by itself
is_repository = os.path.exists(os.path.join(TOP, "crates.txt"))
of_repository = pytest.mark.skipif(not is_repository, reason="a release has no crates to run")


def finished(*words, data=b"", into=subprocess.PIPE):
    """What the program writes for these words and this input, its status, and its line."""
    given = {"input": data, "stdout": into, "stderr": subprocess.PIPE, "timeout": LONG}
    done = subprocess.run([nvimd.program(), *words], **given)
    return done.stdout, done.returncode, done.stderr.decode().rstrip("\n")


def followed(data, buffer=1):
    """What `follow` writes of a server that sends these bytes, its status, its line, and what it
    asks the server."""
    with tempfile.TemporaryDirectory() as folder, socket.socket(socket.AF_UNIX) as listener:
        address = os.path.join(folder, "socket")
        listener.bind(address)
        listener.listen()
        listener.settimeout(LONG)
        words = [nvimd.program(), "follow", address, str(buffer)]
        process = subprocess.Popen(words, stdout=subprocess.PIPE, stderr=subprocess.PIPE)
        peer, _ = listener.accept()
        with peer:
            asked = peer.recv(1 << 16)
            peer.sendall(data)
            peer.shutdown(socket.SHUT_WR)
            listed, line = process.communicate(timeout=LONG)
    return listed, process.returncode, line.decode().rstrip("\n"), asked
