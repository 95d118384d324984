"""The addresses of `nvimd serve`: a socket file that is left over, in use, or no socket; TCP; and a
lane that waits.
"""

import os
import socket

import nvimd
from runs import finished

REFUSED = 5, "nvimd: listener fault"
WAITS = 20  # seconds


class At(nvimd.Server):
    """A server at an address, and a session of it."""

    def __init__(self, address, *words):
        super().__init__(*words, address=address)
        self.session = self.connect()

    def lines(self):
        return self.session.api.buf_line_count(0)

    def told_to_quit(self):
        """The status with which it ends when its session asks for that, and all that is
        answered."""
        self.session.post("nvim_command", "qall!")
        self.session.rest()
        self.session.close()
        return self.process.wait(WAITS), self.session.replies

    def kill(self):
        super().kill()
        self.session.close()


def refused(address):
    """How a server ends that can't listen."""
    return finished("serve", "--listen", address)[1:]


def free_port():
    with socket.socket() as taken:
        taken.bind(("127.0.0.1", 0))
        return taken.getsockname()[1]


def test_a_file_that_is_no_socket_is_left_as_it_was(tmp_path):
    text = tmp_path / "text"
    text.write_text("text")
    assert refused(text) == REFUSED
    assert text.read_text() == "text"


def test_a_socket_that_is_in_use_or_left_over(tmp_path):
    path = str(tmp_path / "socket")
    with At(path) as server:
        assert refused(path) == REFUSED
        assert (server.lines(), os.path.exists(path)) == (1, True), "its server answers as before"
        server.kill()
        assert os.path.exists(path), "a killed server leaves its file"
    with At(path) as server:
        assert server.lines() == 1, "one that is left over is replaced"
        assert server.told_to_quit() == (0, {2: (None, None)}), "its reply, and nothing after it"
        assert not os.path.exists(path), "the file goes with the server"


def test_addresses_of_tcp():
    assert refused("127.0.0.1") == REFUSED, "an address without a port"
    address = f"127.0.0.1:{free_port()}"
    with At(address, "--sessions", "2") as server:
        assert refused(address) == REFUSED, "a port in use"
        assert server.lines() == 1
        # it ends while another lane waits for a client
        assert server.told_to_quit() == (0, {2: (None, None)})
