"""A Neovim attaches to a buffer of a server by a channel of its own: what the server tells it it
doesn't know, and says so by nvim_error_event each time.

For ten seconds behind some edits the server's memory stays flat, and the channel still answers. The
book has what Neovim said once for each event, and some entries for each edit and no more.
"""

import shutil
import time

import pytest

import nvimd

SECONDS = 10
NEOVIM = ["nvim", "--clean", "--headless", "--embed"]
EDITS = 20
MOST_MEMORY = 1  # MB that the server may grow by
MOST_ENTRIES = 10  # of the book for each edit: a call, what of it is taken, an answer of each side


def remote(neovim, channel, method, *params):
    """What a call to the server gives, made by Neovim over its channel."""
    words = [channel, method, *params]
    return neovim.api.call_function("rpcrequest", words)


def beside(check, server, neovim, seconds):
    """Edits of a session while a Neovim is told them, and so many seconds behind them."""
    words = ["pipe", server.address, {"rpc": True}]
    channel = neovim.api.call_function("sockconnect", words)
    check.same("attached", remote(neovim, channel, "nvim_buf_attach", 0, True, {}), True)
    with server.connect() as own:
        for n in range(EDITS):
            own.api.buf_set_lines(0, 0, 1, True, [f"edit {n}"])
        before = server.memory()
        time.sleep(seconds)
        grown = server.memory() - before
    print(f"in {seconds} s the server's memory grew by {grown:.1f} MB")
    check.same("its memory is flat", grown < MOST_MEMORY, True)
    text = remote(neovim, channel, "nvim_buf_get_lines", 0, 0, -1, True)
    check.same("the text", text, [f"edit {EDITS - 1}"])


def recorded(check, book):
    """What the book has of it: the first event tells the lines as they were."""
    calls = [told[4] for told, _ in book.entries if told[0] == "r"]
    check.same("events that Neovim didn't know", calls.count("nvim_error_event"), 1 + EDITS)
    print(f"{len(book.entries)} entries of the book for {EDITS} edits")
    check.same("the book is short", len(book.entries) < EDITS * MOST_ENTRIES, True)


@pytest.mark.skipif(shutil.which("nvim") is None, reason="no neovim")
def test_a_neovim_that_is_told_what_it_does_not_know(request, check, tmp_path):
    path = str(tmp_path / "book")
    seconds = request.config.getoption("seconds") or SECONDS
    with nvimd.Server(book=path) as server, nvimd.start(NEOVIM) as neovim:
        beside(check, server, neovim, seconds)
        neovim.kill()
        check.same("status", server.quit(), 0)
    recorded(check, nvimd.Book(path))
