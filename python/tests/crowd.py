"""Sessions of a server that make calls at once, each in a thread of its own and by a seed, and look
at each reply."""

import random
import threading
import time

import nvimd
from undo_tree import Model

SHARED = (1, 2)
PATIENCE = 30  # seconds until a server is settled


class Part(threading.Thread):
    """One session, in a thread of its own, of so many steps; what ends it early counts as
    failed."""

    is_read = True  # what its client reads is compared with the book
    is_whole = False  # its client reads to the end

    def __init__(self, server, check, seed, steps):
        super().__init__(daemon=True)
        self.server, self.check, self.steps = server, check, steps
        self.random = random.Random(f"{type(self).__name__} {seed}")
        self.session = None
        self.has_worked = threading.Event()
        self.name = f"{type(self).__name__} {seed}"

    def same(self, what, got, wanted):
        self.check.same(f"{self.name}: {what}", got, wanted)

    def run(self):
        try:
            self.session = self.server.connect()
            self.session.kept = bytearray()
            self.number_of_session = self.session.call("nvim_get_api_info")[0]
            self.begin()
            self.work()
            self.has_worked.set()
            self.end()
        except (nvimd.Error, AssertionError, OSError) as error:
            self.same("its end", repr(error), "no error")
        self.has_worked.set()

    def begin(self):
        """What comes before the steps."""

    def work(self):
        for _ in range(self.steps):
            self.step()

    def step(self):
        """One call or some."""

    def end(self):
        self.session.close()

    def lines(self, most):
        return [self.line() for _ in range(self.random.randint(0, most))]

    def line(self):
        return "".join(self.random.choices("abcdef ", k=self.random.randint(0, 9)))


class Editor(Part):
    """Follows the shared texts and changes them."""

    def begin(self):
        self.copies = {number: nvimd.Follower() for number in SHARED}
        for number in SHARED:
            self.session.call("nvim_buf_attach", number, True, {})
        self.take()

    def take(self):
        """The events up to now; the lines of each text at each changedtick that they tell."""
        copies = self.copies.items()
        seen = {(number, copy.tick): list(copy.lines or ()) for number, copy in copies}
        for name, arguments in self.session.pending():
            number, *told = arguments
            before = self.copies[number].tick
            self.copies[number].take(name, *told)
            tick = self.copies[number].tick
            if before is not None and tick != before + 1:
                self.same("a changedtick", tick, before + 1)
            seen[number, tick] = list(self.copies[number].lines)
        return seen

    def step(self):
        number = self.random.choice(SHARED)
        if self.random.random() < 0.2:
            return self.undo(number)
        count = len(self.copies[number].lines)
        start = self.random.randint(0, count)
        end = min(count, start + self.random.randint(0, 3))
        new = self.lines(3 if count < 60 else 1)
        edit = ["nvim_buf_set_lines", [number, start, end, False, new]]
        tick = ["nvim_buf_get_changedtick", [number]]
        seen, (before, _, after, lines) = self.together(number, tick, edit)
        at = seen[number, before]
        start, end = min(start, len(at)), min(end, len(at))
        wanted = (at[:start] + new + at[end:]) or [""]
        self.same("an edit", lines, wanted)
        self.same("the changedtick behind it", after, before + (start < end or bool(new)))

    def undo(self, number):
        command = ["nvim_command", [self.random.choice(["undo", "undo", "redo", "undo 1"])]]
        self.together(number, ["nvim_set_current_buf", [number]], command)

    def together(self, number, *calls):
        """Calls in one request, and the text behind them, which the copy must be."""
        looks = [["nvim_buf_get_changedtick", [number]]]
        looks += [["nvim_buf_get_lines", [number, 0, -1, True]]]
        results, error = self.session.call("nvim_call_atomic", [*calls, *looks])
        if error is not None and error[2] == "Index out of bounds":
            return self.take(), None  # `undo 1`, where nothing was changed yet
        self.same("calls in one", error, None)
        seen = self.take()
        copy = self.copies[number]
        self.same("a copy", (copy.tick, copy.lines), (results[-2], results[-1]))
        return seen, results


class Owner(Part):
    """Changes a text of its own, many calls at once, and knows each reply."""

    def begin(self):
        self.number = self.session.call("nvim_create_buf", True, False)
        self.model = Model()

    def call(self):
        """A call, and its reply by the model."""
        model, count = self.model, len(self.model.lines)
        kind = self.random.random()
        if kind < 0.5:
            start, end = sorted((self.random.randint(0, count), self.random.randint(0, count)))
            end = min(end, start + 4)
            new = self.lines(3 if count < 60 else 1)
            model.set_lines(start, end, new)
            return None, "nvim_buf_set_lines", self.number, start, end, True, new
        if kind < 0.6:
            return model.tick, "nvim_buf_get_changedtick", self.number
        if kind < 0.7:
            row = self.random.randint(0, count)
            offset = sum(len(line) + 1 for line in model.lines[:row])
            return offset, "nvim_buf_get_offset", self.number, row
        row = self.random.randrange(count)
        length = len(model.lines[row])
        start, end = sorted((self.random.randint(0, length), self.random.randint(0, length)))
        if kind < 0.8:
            text = [model.lines[row][start:end]]
            return text, "nvim_buf_get_text", self.number, row, start, row, end, {}
        new = self.lines(2) or [""]
        model.set_text((row, start), (row, end), new)
        return None, "nvim_buf_set_text", self.number, row, start, row, end, new

    def step(self):
        calls = [self.call() for _ in range(self.random.randint(1, 8))]
        numbers = self.session.post_all([(name, params) for _, name, *params in calls])
        for msgid, (wanted, name, *_) in zip(numbers, calls):
            self.same(name, self.session.answer(msgid), (None, wanted))
        lines = self.session.api.buf_get_lines(self.number, 0, -1, True)
        self.same("its text", lines, self.model.lines)

    def end(self):
        self.session.call("nvim_buf_delete", self.number, {"force": True})
        super().end()


def is_there(session, number):
    """Makes the second of the shared texts."""
    while session.api.buf_line_count(1) and not session.api.buf_is_valid(number):
        session.api.create_buf(True, False)


def settled(server):
    """Its descriptors, once they were as many for a second, and its memory in MB."""
    told, since = server.descriptors(), time.monotonic()
    until = since + PATIENCE
    while time.monotonic() < min(since + 1, until):
        time.sleep(0.05)
        if server.descriptors() != told:
            told, since = server.descriptors(), time.monotonic()
    return told, server.memory()
