#!/usr/bin/python3
"""Follows two buffers by their events with pynvim over a child process: a copy of each text is kept
in step through a thousand seeded edits, undos, redos and calls in one, and compared with
nvim_buf_get_lines after each. Now and then a copy is given up and taken again, with the lines or
with the changedtick alone. Wants Debian's python3-pynvim.
"""

import random

import pynvim

import nvimd
from check import Check, run, seeded


STEPS = 1_000
MOST_SECONDS = 600


class Copies(Check):
    """The program, and a copy of each of its two buffers."""

    def __init__(self, seed):
        super().__init__()
        self.random = random.Random(seed)
        self.nvim = pynvim.attach("child", argv=[nvimd.program(), "embed"])
        first = self.nvim.current.buffer
        second = self.nvim.api.create_buf(True, False)
        self.buffers = {b.number: b for b in (first, second)}
        self.copies = {n: nvimd.Follower() for n in self.buffers}

    def events(self, count):
        """The next events, each taken by the copy of its buffer."""
        for _ in range(count):
            kind, name, (buffer, *told) = self.nvim.next_message()
            assert kind == "notification", kind
            self.copies[buffer.number].take(name, *told)

    def attach(self, number, whole):
        self.same("attached", self.buffers[number].api.attach(whole, {}), True)
        self.events(1)

    def detach(self, number):
        self.same("detached", self.buffers[number].api.detach(), True)
        self.events(1)
        copy = self.copies[number]
        self.same("nothing is known", (copy.tick, copy.lines), (None, None))

    def compare(self):
        """Takes the events up to now, and looks at each copy beside its buffer."""
        now = {number: buffer.api.get_changedtick() for number, buffer in self.buffers.items()}
        followed = {n: copy for n, copy in self.copies.items() if copy.tick is not None}
        self.events(sum(now[n] - copy.tick for n, copy in followed.items()))
        for number, copy in self.copies.items():
            if copy.tick is not None:
                self.same(f"changedtick of {number}", copy.tick, now[number])
            if copy.lines is not None:
                self.same(f"lines of {number}", copy.lines, self.buffers[number][:])

    def strings(self, most):
        count = self.random.randint(0, most)
        return [self.string() for _ in range(count)]

    def string(self):
        return "".join(self.random.choices("abc é", k=self.random.randint(0, 6)))

    def edit_of(self, number, count):
        """An edit of a buffer of so many lines, as a method and its arguments."""
        if self.random.random() < 0.7:
            start, end = sorted((self.random.randint(0, count), self.random.randint(0, count)))
            return [
                "nvim_buf_set_lines",
                [number, start, min(end, start + 4), True, self.strings(4)],
            ]
        start, end = sorted((self.random.randrange(count), self.random.randrange(count)))
        end = min(end, start + 3)
        return ["nvim_buf_set_text", [number, start, 0, end, -1, self.strings(3)]]

    def edit(self, number):
        name, arguments = self.edit_of(number, len(self.buffers[number]))
        self.nvim.request(name, *arguments)

    def atomic(self):
        """Edits of both buffers in one request: each is of line 0, which is always there; the last
        call is refused."""
        calls = [["nvim_buf_set_lines", self.front()] for _ in range(self.random.randint(1, 5))]
        results, error = self.nvim.api.call_atomic(calls + [["nvim_nope", []]])
        refusal = [len(calls), 0, "Invalid method: nvim_nope"]
        self.same("calls in one", (len(results), error), (len(calls), refusal))

    def front(self):
        """The arguments of an edit of a buffer's first line."""
        buffer = self.random.choice(list(self.buffers))
        return [buffer, 0, self.random.randint(0, 1), True, self.strings(2)]

    def step(self):
        number = self.random.choice(list(self.buffers))
        choice = self.random.random()
        if choice < 0.55:
            self.edit(number)
        elif choice < 0.70:
            self.atomic()
        elif choice < 0.90:
            self.nvim.current.buffer = self.buffers[number]
            self.nvim.command(self.random.choice(["undo", "undo", "redo", "undo 1", "undo 3"]))
        elif self.copies[number].tick is None:
            self.attach(number, self.random.random() < 0.8)
        elif choice < 0.93:
            self.detach(number)

    def last(self):
        """A deleted buffer is told of to whoever is attached, and attaching again says nothing."""
        for number, copy in self.copies.items():
            if copy.tick is None:
                self.attach(number, True)
            self.same("attached already", self.buffers[number].api.attach(True, {}), True)
        last = max(self.buffers)
        self.nvim.api.buf_delete(self.buffers[last], {"force": True})
        self.events(1)
        self.same("nothing is known of what was deleted", self.copies[last].tick, None)


def main():
    check = Copies(seeded(__doc__))
    for number in check.buffers:
        check.attach(number, True)
        for word in ("one", "two", "three"):
            check.nvim.request("nvim_buf_set_lines", number, 0, 0, True, [word])
        check.compare()
    for _ in range(STEPS):
        check.step()
        check.compare()
    check.last()
    check.nvim.close()
    return check.end()


if __name__ == "__main__":
    run(main, MOST_SECONDS)
