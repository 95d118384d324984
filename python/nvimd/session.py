"""A session of a server: calls go out, replies and events come in."""

import collections
import functools
import os
import select
import signal
import socket
import subprocess
import time
from typing import NamedTuple

from .errors import Ended, Error, Fault, words_of
from .follower import Follower
from .program import program
from .screen import Screen
from .values import handle, packed, unpacker

PIECE = 1 << 20
PATIENCE = 3  # seconds for a child to end
SIZES = {0: 4, 1: 4, 2: 3}  # how many parts a request, a response and a notification have


class Event(NamedTuple):
    """A notification of the server."""

    name: str
    args: list


class Api:
    """The methods by their names: `api.buf_line_count(0)` calls nvim_buf_line_count."""

    def __init__(self, session):
        self.session = session

    def __getattr__(self, name):
        return functools.partial(self.session.call, f"nvim_{name}")


class Session:
    """Calls and their replies; the events that come meanwhile are kept, in their order.

    As a context manager it is closed at the end. `timeout` is how many seconds it waits for what
    must come; without one it waits as long as it takes.
    """

    def __init__(self, source, sink, ext_hook=handle):
        self.source, self.sink = source, sink
        self.timeout = None
        self.process = self.connection = None
        self.api = Api(self)
        self.ui = None  # its screen, where it has one
        self.listeners = []  # each is offered an event, and says whether it takes it
        self.replies = {}
        self.msgid = 0
        self.fed = self.begun = 0  # bytes that came, and where a message begins that isn't whole
        self.kept = None  # all bytes that were read, where they are to be kept
        self._inbox, self._events = collections.deque(), collections.deque()
        self._unpacker = unpacker(ext_hook)

    def __enter__(self):
        return self

    def __exit__(self, *_):
        self.close()

    def fileno(self):
        return self.source

    # ---- calls

    def send(self, data):
        """Writes bytes as they are."""
        view = memoryview(data)
        try:
            while view:
                view = view[os.write(self.sink, view) :]
        except (BrokenPipeError, ConnectionResetError):
            pass  # it has ended, which what it sent before says better
        except BlockingIOError:
            raise
        except OSError as error:
            raise Ended(f"the server takes no calls: {words_of(error)}") from None

    def post(self, method, *params):
        """Sends a request; its number, for `answer`."""
        self.msgid += 1
        self.send(packed([0, self.msgid, method, params]))
        return self.msgid

    def post_all(self, calls):
        """Sends requests in one piece, each a name and its arguments; their numbers."""
        numbers = range(self.msgid + 1, self.msgid + 1 + len(calls))
        self.msgid += len(calls)
        requests = zip(numbers, calls)
        self.send(b"".join(packed([0, n, name, list(params)]) for n, (name, params) in requests))
        return numbers

    def notify(self, method, *params):
        """Makes a call that isn't answered; one that fails is an event nvim_error_event."""
        self.send(packed([2, method, list(params)]))

    def answer(self, msgid):
        """Waits for the error and the result of a request."""
        while msgid not in self.replies:
            self.read()
        return self.replies.pop(msgid)

    def ask(self, method, *params):
        """The error and the result of a call."""
        return self.answer(self.post(method, *params))

    def call(self, method, *params):
        """The result of a call; a `Fault` where it is refused."""
        error, result = self.ask(method, *params)
        if error is not None:
            raise Fault.of(error)
        return result

    def command(self, command):
        """Runs a command: undo, redo, tabnew, .."""
        return self.call("nvim_command", command)

    # ---- events

    def pending(self):
        """The events up to now, which are kept no longer."""
        events = list(self._events)
        self._events.clear()
        return events

    def events(self, timeout=None):
        """Each event as it comes, until none comes for so many seconds or the session ends."""
        while True:
            while self._events:
                yield self._events.popleft()
            try:
                if not self.poll(timeout):
                    return
            except Ended:
                if not self._events:
                    return

    def screen(self, width=80, height=24):
        """Attaches a UI of this size: its screen."""
        self.ui = Screen(self).attach(width, height)
        return self.ui

    def follow(self, buffer=0):
        """Attaches to a buffer: a copy of its text, which follows each change."""
        return Follower(self, buffer).attach()

    # ---- messages: each is taken in by itself, so what comes after a reply waits for the next look

    def is_ready(self, timeout):
        """Whether something is there, or comes within so many seconds."""
        return bool(self._inbox or select.select([self.source], [], [], timeout)[0])

    def poll(self, timeout=0):
        """Takes in all that is there, or comes within so many seconds; whether anything did."""
        if not self.is_ready(timeout):
            return False
        if not self._inbox:
            self._feed()
        while self._inbox:
            self._take(self._inbox.popleft())
        return True

    def read(self):
        """Waits for a message, and takes it in."""
        while not self._inbox:
            self._feed()
        self._take(self._inbox.popleft())

    def rest(self):
        """Takes in all that comes up to the end of the session."""
        try:
            while True:
                self.read()
        except Ended:
            pass

    def _feed(self):
        """Waits for a piece of what the server sends."""
        piece = self._piece()
        try:
            self._unpacker.feed(piece)
            for message in self._unpacker:
                self._inbox.append(message)
                self.begun = self._unpacker.tell()
        except Exception as error:
            what = f"what the server sent is no MessagePack ({type(error).__name__})"
            raise Error(what) from None

    def _piece(self):
        if self.timeout is not None and not self.is_ready(self.timeout):
            raise Error(f"the server doesn't answer within {self.timeout} seconds")
        try:
            piece = os.read(self.source, PIECE)
        except ConnectionResetError:
            piece = b""
        except BlockingIOError:
            raise
        except OSError as error:
            raise Ended(f"the server can't be read: {words_of(error)}") from None
        if not piece:
            raise Ended(self._how_it_ended())
        self.fed += len(piece)
        if self.kept is not None:
            self.kept += piece
        return piece

    def _take(self, message):
        is_list = isinstance(message, list) and message
        if not is_list or len(message) != SIZES.get(message[0]):
            raise Error("what the server sent is no message")
        kind, *parts = message
        if kind == 1:
            msgid, error, result = parts
            self.replies[msgid] = error, result
        elif kind == 2:
            event = Event(*parts)
            if not any(takes(event) for takes in self.listeners):
                self._events.append(event)

    def _how_it_ended(self):
        inside = self.begun < self.fed
        where = f"inside a message, at byte {self.begun}" if inside else f"at byte {self.fed}"
        status = ""
        if self.process:
            try:
                status = f", with status {self.process.wait(PATIENCE)}"
            except subprocess.TimeoutExpired:
                pass
        return f"the server ended {where} of what it sent{status}"

    # ---- its end

    def end(self):
        """Ends the input of a child, and waits for its end; its status."""
        self.process.stdin.close()
        while self.process.stdout.read(PIECE):
            pass
        self.process.stdout.close()
        return self.process.wait()

    def kill(self):
        """Kills a child."""
        self.process.kill()
        self.close()

    def close(self):
        """Ends the session, and a child with it."""
        if self.connection:
            self.connection.close()
        if not self.process:
            return
        self.process.stdin.close()
        for ask in (None, signal.SIGTERM, signal.SIGKILL):
            try:
                if ask:
                    os.killpg(self.process.pid, ask)
                self.process.wait(PATIENCE)
                break
            except (subprocess.TimeoutExpired, ProcessLookupError):
                pass
        self.process.stdout.close()
        if self.process.stderr:
            self.process.stderr.close()


def start(command=None, ext_hook=handle, **popen):
    """A session of a child of its own: `nvimd embed`, or another command that speaks the protocol.

    The child is in a process group of its own: a key of the terminal isn't meant for it.
    """
    command = command or [program(), "embed"]
    pipes = {"stdin": subprocess.PIPE, "stdout": subprocess.PIPE, "bufsize": 0}
    try:
        process = subprocess.Popen(command, **pipes, start_new_session=True, **popen)
    except OSError as error:
        raise Ended(f"no program {command[0]}: {words_of(error)}") from None
    session = Session(process.stdout.fileno(), process.stdin.fileno(), ext_hook)
    session.process = process
    return session


def socket_at(address):
    """A socket that is connected: to HOST:PORT with a colon and no slash, else to this path."""
    host, colon, port = address.rpartition(":")
    try:
        if colon and "/" not in address:
            return socket.create_connection((host.strip("[]"), port))
        connection = socket.socket(socket.AF_UNIX)
        try:
            connection.connect(address)
        except OSError:
            connection.close()
            raise
        return connection
    except (OSError, ValueError, OverflowError) as error:
        raise Ended(f"no server at {address}: {words_of(error)}") from None


def connect(address, ext_hook=handle):
    """A session of the server at an address: the path of a Unix socket, or `host:port`."""
    return session_over(socket_at(address), ext_hook)


def session_over(connection, ext_hook=handle):
    session = Session(connection.fileno(), connection.fileno(), ext_hook)
    session.connection = connection
    return session


def socket_soon(address, process, timeout):
    """A socket that is connected to a server which was started as this process, once it listens."""
    late = time.monotonic() + timeout
    pause = 0.0002
    while True:
        try:
            return socket_at(address)
        except Ended as ended:
            if process.poll() is not None:
                raise Ended(f"the server ended with status {process.returncode}") from None
            if time.monotonic() > late:
                raise ended
            time.sleep(pause)
            pause = min(1.2 * pause, 0.02)
