"""The clients of clients/ that go through pynvim and compare what they are answered."""

import os
import re

import pytest

from runs import CLIENTS

pytest.importorskip("pynvim")
COUNTS = re.compile(r"(\d+) passed, (\d+) failed\n")


@pytest.fixture
def passes(ran, check):
    """Runs a client, which tells how often it compared, and what differed."""

    def run(name, *words):
        status, out, said = ran("/usr/bin/python3", os.path.join(CLIENTS, name), *words)
        found = COUNTS.fullmatch(out)
        assert found and (status, found[2], said) == (0, "0", ""), out + said
        check.passed += int(found[1])

    return run


def test_methods_over_a_child(passes):
    passes("attach.py")


def test_methods_over_a_socket_by_two_sessions_at_once(passes):
    passes("attach.py", "--serve")


@pytest.mark.seeds(1, 2)
def test_copies_follow_their_texts(passes, seed):
    passes("follow.py", str(seed))
