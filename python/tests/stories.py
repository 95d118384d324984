"""Runs stories of docs/rows (docs/rows/README.md) through the program, and compares what sessions
are sent byte by byte.

A story of one session goes through `embed`, its input whole and then byte by byte; one of several
sessions through `serve`, one call after another. Each story without raw bytes is also made into a
book with the outputs that the rows have, which `replay --check` judges.
"""

import difflib
import os
import select
import subprocess
import tempfile
import time

import nvimd
from examples import packed, unpacker, written
from nvimd.book import cut as pieces_of
from nvimd.session import socket_at
from runs import LONG

PATIENCE = 60  # seconds for an answer
SINGLE = 1 << 16  # bytes that are written one by one; what is after them is written at once
MOST_TOLD = 6  # differences of a story
WIDTH = 400
PIPES = {"stdout": subprocess.PIPE, "stderr": subprocess.PIPE, "bufsize": 0}
QUIET = {"stdin": subprocess.DEVNULL, "capture_output": True, "timeout": LONG}
FENCE = (1 << 32) - 1  # the number of requests that the runner puts in


def fed(data):
    """Reads the values of bytes."""
    reader = unpacker()
    reader.feed(data)
    return reader


def cut(data):
    """The messages of bytes, each as bytes; the last may be no whole message."""
    reader = fed(data)
    found, at = [], 0
    try:
        for _ in reader:
            found.append(bytes(data[at : reader.tell()]))
            at = reader.tell()
    except Exception:
        pass
    return found + ([bytes(data[at:])] if at < len(data) else [])


def shown(data):
    """A message in text."""
    reader = fed(data)
    try:
        text = written(reader.unpack())
        return text if reader.tell() == len(data) else f"bytes {data.hex(' ')}"
    except Exception:
        return f"bytes {data.hex(' ')}"


def draws_in(data):
    """The redraw events of a message, each in text, or None where it is another one."""
    try:
        message = next(iter(fed(data)))
        if message[:2] == [2, "redraw"]:
            return [f"{name} {written(args)}" for name, *several in message[2] for args in several]
    except Exception:
        pass
    return None


def drawn(wanted, got):
    """The events in which two redraw batches differ."""
    sides = [draws_in(data or b"") for data in (wanted, got)]
    if None in sides:
        return []
    changes = difflib.unified_diff(*sides, lineterm="", n=0)
    names = {"-": "wanted", "+": "got   "}
    return [
        f"    {names[line[0]]} {short(line[1:])}" for line in list(changes)[2:] if line[0] in names
    ]


def pairs_of(wanted, found):
    """The messages in which two lists differ, None for one that is missing, with their places in
    the first list."""
    matcher = difflib.SequenceMatcher(None, wanted, found, autojunk=False)
    for kind, a, b, c, d in matcher.get_opcodes():
        for number in range(max(b - a, d - c) if kind != "equal" else 0):
            place = min(a + number, b if number >= b - a else len(wanted))
            one = wanted[a + number] if number < b - a else None
            yield place, one, found[c + number] if number < d - c else None


def short(text):
    return text if len(text) <= WIDTH else f"{text[:WIDTH]}.. ({len(text)} characters)"


class Run:
    """A run of a story: what was wrong with it."""

    def __init__(self, story, way):
        self.story, self.way = story, way
        self.wrong = []

    def say(self, line, text, *more):
        place = f"{self.story.path}:{line}: {self.story.title} ({self.way})"
        self.wrong.append("\n".join([place, f"    row    {text}", *more]))

    def differs(self, line, text, wanted, got):
        """A message that is another one; as bytes too where their values are alike, or none."""
        told = ["nothing" if data is None else shown(data) for data in (wanted, got)]
        more = drawn(wanted, got) or [
            f"    wanted {short(told[0])}",
            f"    got    {short(told[1])}",
        ]
        if told[0] == told[1] or any(word.startswith("bytes ") for word in told):
            for name, data in (("wanted", wanted), ("got   ", got)):
                if data is not None:
                    more.append(f"    {name} {short(data.hex(' '))}")
        self.say(line, text, *more)

    def compare(self, session, got):
        """Holds all that a session was sent against the rows."""
        wanted, places = [], []
        for step in self.story.steps:
            for told in step.sent(session):
                messages = cut(told.data)
                wanted += messages
                text = told.text if told.text == step.text else f"{step.text}  {told.text}"
                places += [(told.line, text)] * len(messages)
        if b"".join(wanted) == got:
            return
        found = cut(got)
        places.append((self.story.steps[-1].line, f"after {self.story.steps[-1].text}"))
        who = "" if session == 1 else f"S{session}: "
        differences = list(pairs_of(wanted, found))
        for place, one, other in differences[:MOST_TOLD]:
            line, text = places[place]
            self.differs(line, who + text, one, other)
        if len(differences) > MOST_TOLD:
            more = len(differences) - MOST_TOLD
            self.wrong.append(f"    and {more} more differences in this run")

    def end(self, status, line):
        """Holds the end of the program against the rows."""
        wanted = self.story.ends or (0, "")
        if (status, line) != wanted:
            at = self.story.steps[-1].line + bool(self.story.ends)
            told = f"    wanted {wanted[0]} {written(wanted[1])}"
            self.say(at, "ends", told, f"    got    {status} {written(line)}")


# ---- embed


def embedded(program, story, one_by_one):
    """A story of one session through `embed`."""
    run = Run(story, "embed, byte by byte" if one_by_one else "embed")
    data = b"".join(step.data for step in story.steps)
    child = subprocess.Popen([program, "embed", *story.words], stdin=subprocess.PIPE, **PIPES)
    try:
        out, errors = communicated(child, data, one_by_one)
    except subprocess.TimeoutExpired:
        child.kill()
        run.say(story.line, "the program had not ended", f"    after {LONG} seconds")
        return run
    finally:
        child.stdout.close()
        child.stderr.close()
        child.wait()
    run.compare(1, out)
    run.end(child.returncode, errors.decode(errors="replace").removesuffix("\n"))
    return run


def communicated(child, data, one_by_one):
    """Writes the input, and reads what comes meanwhile, up to the end."""
    data, at = memoryview(data), 0
    into, out, errors = child.stdin.fileno(), child.stdout.fileno(), child.stderr.fileno()
    found = {out: bytearray(), errors: bytearray()}
    os.set_blocking(into, False)
    late = time.monotonic() + LONG
    poll = select.poll()
    poll.register(out, select.POLLIN)
    poll.register(errors, select.POLLIN)
    poll.register(into, select.POLLOUT)
    is_open = True
    left = {out, errors}
    while left or is_open:
        if is_open and at == len(data):
            poll.unregister(into)
            child.stdin.close()
            is_open = False
            if not left:
                break
        for fd, event in poll.poll(max(0, late - time.monotonic()) * 1000):
            if fd == into and is_open:
                until = at + 1 if one_by_one and at < SINGLE else len(data)
                try:
                    at += os.write(into, data[at:until])
                except BlockingIOError:
                    pass
                except BrokenPipeError:  # it has ended: what it wrote says more
                    at = len(data)
            elif fd in left:
                piece = os.read(fd, 1 << 20)
                found[fd] += piece
                if not piece:
                    left.remove(fd)
                    poll.unregister(fd)
        if time.monotonic() >= late:
            raise subprocess.TimeoutExpired(child.args, LONG)
    return bytes(found[out]), bytes(found[errors])


# ---- words


def worded(program, story):
    """Each line of words, in an empty folder and without input."""
    run = Run(story, "words")
    for step in story.steps:
        with tempfile.TemporaryDirectory(prefix="rows") as folder:
            done = subprocess.run([program, *step.words], cwd=folder, **QUIET)
        got = done.returncode, done.stderr.decode(errors="replace").removesuffix("\n")
        if got != step.ends or (done.stdout == b"") != step.is_quiet:
            run.say(
                step.line,
                step.text,
                f"    got    {got[0]} {written(got[1])}, {len(done.stdout)} bytes written",
            )
    return run


# ---- serve


class Client:
    """A session over a socket: all that it was sent but the replies to the runner's own
    requests."""

    def __init__(self, address):
        self.socket = socket_at(address)
        self.data = bytearray()
        self.got = bytearray()
        self.fences = 0
        self.is_over = False

    def send(self, data):
        try:
            self.socket.sendall(data)
        except OSError:
            self.is_over = True

    def read(self):
        """Reads a piece that is there."""
        try:
            piece = self.socket.recv(1 << 20)
        except ConnectionResetError:
            piece = b""
        self.is_over = self.is_over or not piece
        self.data += piece
        self.sort()

    def sort(self):
        """Moves whole messages to what was sent, the runner's own apart."""
        reader, at = fed(self.data), 0
        try:
            for message in reader:
                piece = self.data[at : reader.tell()]
                at = reader.tell()
                if isinstance(message, list) and message[:2] == [1, FENCE]:
                    self.fences += 1
                    self.last = message[2:]
                else:
                    self.got += piece
        except Exception:  # no message: it stays in its place
            at = len(self.data)
            self.got += self.data[at:]
        del self.data[:at]

    def rest(self):
        """All that it was sent, what is no whole message too."""
        return bytes(self.got + self.data)


class Server:
    """`serve` with the sessions of a story."""

    def __init__(self, program, story, run, folder):
        self.story, self.run = story, run
        self.address = os.path.join(folder, "socket")
        self.clients = {}
        self.wanted = {}
        self.child = subprocess.Popen(
            [program, "serve", "--listen", self.address, *story.words],
            stdin=subprocess.DEVNULL,
            **PIPES,
        )

    def open(self, session):
        """Connects, and waits until the session is open."""
        late = time.monotonic() + PATIENCE
        while True:
            try:
                self.clients[session] = Client(self.address)
                break
            except nvimd.Ended:
                if self.child.poll() is not None or time.monotonic() > late:
                    raise
                time.sleep(0.005)
        self.wanted[session] = 0
        self.fence(session)

    def wait(self, is_there):
        """Reads all sessions until this holds; whether it does in time."""
        late = time.monotonic() + PATIENCE
        while not is_there():
            left = {client.socket: client for client in self.clients.values() if not client.is_over}
            if not left:
                return False
            ready = select.select(list(left), [], [], max(0, late - time.monotonic()))[0]
            if not ready:
                return False
            for socket in ready:
                left[socket].read()
        return True

    def fence(self, session, *call):
        """Makes a call of the runner's own, and waits for its reply."""
        client = self.clients[session]
        client.last, count = None, client.fences + 1
        client.send(packed([0, FENCE, *(call or ("nvim_strwidth", [""]))]))
        self.wait(lambda: client.fences == count or client.is_over)
        return client.last

    def has_come(self):
        return all(
            len(client.got) >= self.wanted[session] for session, client in self.clients.items()
        )

    def step(self, step):
        """Does what a line says, and waits for all that is sent because of it; whether it came."""
        if step.session not in self.clients:
            self.open(step.session)
        client = self.clients[step.session]
        client.send(step.data)
        for session in step.sessions():
            self.wanted[session] += sum(len(told.data) for told in step.sent(session))
        if step.kind == "closes":
            client.socket.close()
            client.is_over = True
            self.forget(step.session)
        if step.is_quit():
            return self.wait(lambda: all(client.is_over for client in self.clients.values()))
        if not self.wait(self.has_come):
            return False
        if step.kind != "opens" and not step.sessions() and not client.is_over:
            self.fence(step.session)
        return True

    def forget(self, session):
        """Waits until a session that closed is gone: its UI is, where it had one."""
        late = time.monotonic() + PATIENCE
        for other, client in self.clients.items():
            while not client.is_over and time.monotonic() < late:
                told = self.fence(other, "nvim_list_uis", [])
                if told and all(ui["chan"] != session for ui in told[1]):
                    return

    def end(self):
        """Ends the server; its status and what it says."""
        for session, client in list(self.clients.items()):
            if not client.is_over:
                self.fence(session, "nvim_command", ["qall!"])
                self.wait(lambda: all(client.is_over for client in self.clients.values()))
        has_quit = any(step.is_quit() for step in self.story.steps)
        if self.child.poll() is None and not has_quit and not self.clients:
            self.child.kill()
        try:
            out, errors = self.child.communicate(timeout=PATIENCE)
        except subprocess.TimeoutExpired:
            self.child.kill()
            out, errors = self.child.communicate()
        for client in self.clients.values():
            client.socket.close()
        return self.child.returncode, out + errors


def served(program, story):
    """A story of several sessions through `serve`, one call after another."""
    run = Run(story, "serve")
    with tempfile.TemporaryDirectory(prefix="rows") as folder:
        server = Server(program, story, run, folder)
        try:
            for step in story.steps:
                if not server.step(step):
                    break  # what is missing is told below
        except nvimd.Ended as error:
            run.say(story.line, "the server", f"    {error}")
        status, line = server.end()
    for session, client in server.clients.items():
        run.compare(session, client.rest())
    if (status, line) != (0, b""):
        got = f"    got    {status} {written(line.decode(errors='replace'))}"
        run.say(story.line, "the server's end", '    wanted 0 ""', got)
    return run


# ---- books


def outbox_of(story):
    """How many messages an outbox holds, or None where the words say more than that."""
    if not story.words:
        return 4096
    return int(story.words[1]) if len(story.words) == 2 and story.words[0] == "--outbox" else None


def has_book(story):
    return not story.has_bytes() and not story.is_of_words() and outbox_of(story) is not None


class Written:
    """The book of a story, with the outputs that the rows have; the line of the entries' steps;
    what `replay --check` says."""

    def __init__(self, story):
        self.entries, self.places = 0, []
        self.opened, self.takes, self.bytes = 0, 0, 0
        self.parts = [packed(["nvimd-book", 1, outbox_of(story)])]
        self.live = {}
        for step in story.steps:
            self.step(step)
        last = story.steps[-1]
        if story.ends and story.ends[0] == 7:  # the last call ended its session
            self.live.pop(last.session, None)
        for session in list(self.live):  # nothing else is due: what is due now is the reply alone
            self.enter(last, ["r", 0, session, FENCE, "nvim_strwidth", [""]])
            self.take(last, session, packed([1, FENCE, None, 0]))
        for session in list(self.live):
            self.enter(last, ["c", 0, session])
        self.parts.append(packed(["end", self.entries]))
        self.data = b"".join(self.parts)
        counts = f"sessions {self.opened} takes {self.takes} bytes {self.bytes}"
        self.line = f"entries {self.entries} {counts} ok"

    def enter(self, step, entry):
        self.parts.append(packed(entry))
        self.places.append(step)
        self.entries += 1

    def take(self, step, session, data):
        pieces = pieces_of(data)
        self.enter(step, ["t", 0, session, len(pieces)])
        self.parts += map(packed, pieces)
        self.takes += 1
        self.bytes += len(data)

    def step(self, step):
        if step.session not in self.live and step.kind != "closes":
            if step.session <= self.opened:
                return  # after the end of its session
            self.enter(step, ["o", 0])
            self.opened += 1
            self.live[step.session] = True
        if step.kind in ("call", "notify"):
            name = step.name
            if isinstance(name, bytes):
                name = name.decode(errors="surrogateescape")
            self.enter(step, ["r", 0, step.session, step.msgid, name, step.params])
        if step.kind == "closes" and self.live.pop(step.session, None):
            self.enter(step, ["c", 0, step.session])
        own = lambda session: (session != step.session, session)  # its own session first
        for session in sorted(step.sessions(), key=own):
            data = b"".join(told.data for told in step.sent(session))
            if data:
                self.take(step, session, data)
        if step.is_quit():
            self.live.clear()


def replayed(program, story):
    """The book of a story through `replay --check`."""
    run = Run(story, "its book")
    book = Written(story)
    with tempfile.NamedTemporaryFile(prefix="rows", suffix=".book") as file:
        file.write(book.data)
        file.flush()
        done = subprocess.run([program, "replay", file.name, "--check"], **QUIET)
    out, errors = (data.decode(errors="replace") for data in (done.stdout, done.stderr))
    errors = errors.rstrip("\n")
    if (done.returncode, out, errors) == (0, book.line + "\n", ""):
        return run
    words = errors.split()
    step = story.steps[-1]
    names_entry = errors.startswith(("nvimd: check differs", "nvimd: watcher"))
    if names_entry and int(words[-1]) < len(book.places):
        step = book.places[int(words[-1])]
    got = f"    got    {done.returncode} {out.strip()} {errors}"
    run.say(step.line, step.text, f"    wanted 0 {book.line}", got)
    return run


# ---- all


def runs_of(program, story):
    """Each run of a story, as a function."""
    if story.is_of_words():
        yield lambda: worded(program, story)
    elif story.is_alone():
        yield lambda: embedded(program, story, False)
        yield lambda: embedded(program, story, True)
    else:
        yield lambda: served(program, story)
    if has_book(story):
        yield lambda: replayed(program, story)
