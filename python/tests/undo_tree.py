"""A buffer and its tree of changes as a plain model, and calls of the program beside it."""

import random

import nvimd


class Model:
    """A buffer: its lines, its changedtick, and a kept text for each change."""

    def __init__(self):
        self.lines = [""]
        self.tick = 2
        self.kept = [[""]]
        self.parent = [0]
        self.entered = {}
        self.current = 0

    def count(self):
        """How many changes there are, the first text with them."""
        return len(self.kept)

    def change(self, lines):
        self.lines = lines
        self.tick += 1
        self.kept.append(lines)
        self.parent.append(self.current)
        self.enter(len(self.kept) - 1)

    def enter(self, number):
        self.entered[self.parent[number]] = number
        self.current = number

    def set_lines(self, start, end, new):
        if start == end and not new:
            return
        self.change((self.lines[:start] + new + self.lines[end:]) or [""])

    def set_text(self, start, end, new):
        new = new or [""]
        if start == end and new == [""]:
            return
        put = list(new)
        put[0] = self.lines[start[0]][: start[1]] + put[0]
        put[-1] = put[-1] + self.lines[end[0]][end[1] :]
        self.change(self.lines[: start[0]] + put + self.lines[end[0] + 1 :])

    def get_text(self, start, end):
        got = self.lines[start[0] : end[0] + 1]
        got[-1] = got[-1][: end[1]]
        got[0] = got[0][start[1] :]
        return got

    def step(self, number):
        self.current = number
        self.lines = self.kept[number]
        self.tick += 1

    def undo(self):
        if self.current:
            self.step(self.parent[self.current])

    def redo(self):
        number = self.entered.get(self.current)
        if number is not None:
            self.step(number)

    def undo_to(self, number):
        above = {number}
        while number:
            number = self.parent[number]
            above.add(number)
        way = max(above)
        while self.current not in above:
            self.undo()
        for number in sorted(above):
            if number > self.current:
                self.step(number)
                self.entered[self.parent[number]] = number
        assert self.current == way


class Beside:
    """Calls of the program and of a model beside each other; a string has a letter a byte."""

    def __init__(self, check, seed, model):
        self.same = check.same
        self.random = random.Random(seed)
        self.nvim = nvimd.start()
        self.model = model

    def answers(self, result, method, *params):
        self.same(f"{method}{params}", self.nvim.ask(method, *params), (None, result))

    def undo(self):
        self.answers(None, "nvim_command", "undo")
        self.model.undo()

    def redo(self):
        self.answers(None, "nvim_command", "redo")
        self.model.redo()

    def visit(self):
        number = self.random.randrange(self.model.count())
        self.answers(None, "nvim_command", f"undo {number}")
        self.model.undo_to(number)
