"""A server for many sessions: `nvimd serve`, or another one of this protocol."""

import atexit
import functools
import itertools
import os
import pathlib
import shutil
import subprocess
import tempfile

from . import process
from .errors import Ended, words_of
from .program import program
from .session import session_over, socket_soon

running = []  # the processes that were started here and haven't ended
numbers = itertools.count(1)  # of the sockets of this process


@functools.cache
def folder_of(owner):
    """The folder of the sockets of a process, which goes with it."""
    path = tempfile.mkdtemp(prefix="nvimd")
    gone = functools.partial(shutil.rmtree, path, ignore_errors=True)
    atexit.register(lambda: os.getpid() == owner and gone())
    return path


class Server:
    """A server, on a socket of its own where no address is given; as a context manager it is ended
    at the end.

    `words` are more words of `nvimd serve`, `book` is the file that it records. `command` is what
    stands before the address of another server, `popen` what its process gets. It listens once it
    is made, or else once it has a session.
    """

    PATIENCE = 30  # seconds until it listens

    def __init__(self, *words, address=None, book=None, command=None, wait=True, **popen):
        self.is_own = address is None
        self.address = address or os.path.join(folder_of(os.getpid()), str(next(numbers)))
        self.book = book
        command = command or [program(), "serve", "--listen"]
        words = [*words, *(["--book", book] if book else [])]
        popen = {"stdin": subprocess.DEVNULL, **popen}
        try:
            self.process = subprocess.Popen([*command, self.address, *words], **popen)
        except OSError as error:
            raise Ended(f"no program {command[0]}: {words_of(error)}") from None
        running.append(self.process)
        if wait:
            self._socket().close()

    def __enter__(self):
        return self

    def __exit__(self, *_):
        if self.process.poll() is None:
            self.quit()
        self._gone()

    def _socket(self):
        """One that is connected, once it listens."""
        try:
            return socket_soon(self.address, self.process, self.PATIENCE)
        except BaseException:
            self.kill()
            raise

    def connect(self):
        """A session of it."""
        return session_over(self._socket())

    def quit(self, timeout=60):
        """Asks it to end; its status, or None where it doesn't end in so many seconds."""
        try:
            with self.connect() as last:
                last.timeout = timeout
                last.command("qall!")
        except Ended:
            pass
        try:
            return self.process.wait(timeout)
        except subprocess.TimeoutExpired:
            return None
        finally:
            self.kill()

    def kill(self, wait=True):
        """Kills it, and waits for its end where that is asked."""
        self.process.kill()
        if wait:
            self.process.wait()
        self._gone()

    def _gone(self):
        if self.process in running:
            running.remove(self.process)
        if self.is_own:
            pathlib.Path(self.address).unlink(missing_ok=True)

    def descriptors(self):
        return process.descriptors(self.process.pid)

    def memory(self, kind="VmRSS"):
        return process.memory(self.process.pid, kind)

    def seconds(self):
        return process.seconds(self.process.pid)
