"""What docs/rows/by_chance.rows has: edits, undos and visits that are drawn from a number, with
what a plain model in Python gives.
"""

import textwrap
from itertools import groupby

from undo_tree import Model

HEAD = """\
# Edits, undos and visits of changes, drawn from a number by python/tests/by_chance.py, which wrote
# this file: what is answered is what a plain list of lines, and a list of the changes, gives. A
# visit goes to a change by its number; undo and redo are as in Neovim's help (undo-tree, :undo,
# :redo).
"""
EDITS, CHANGES, VISITS, STEPS = 60, 40, 80, 100


def lines(found):
    """Lines as the rows spell them, one that repeats by its number."""
    parts = []
    for line, group in groupby(found):
        count = len(list(group))
        text = '"' + line.replace("\\", "\\\\") + '"'
        parts.append(", ".join([text] * count) if count < 3 else f"{count}*({text})")
    return f"[{', '.join(parts)}]"


class Story:
    """A story as it is written, beside a model of its buffer."""

    def __init__(self, comment, title):
        told = textwrap.wrap(comment, 100, initial_indent="# ", subsequent_indent="# ")
        self.rows = ["", *told, f"= {title}"]
        self.model = Model()

    def say(self, row):
        whole = {"break_long_words": False, "break_on_hyphens": False}
        self.rows += textwrap.wrap(row, 100, subsequent_indent=" " * 8, **whole)

    def offset(self, row):
        wanted = sum(len(line) + 1 for line in self.model.lines[:row])
        self.say(f"nvim_buf_get_offset(0, {row}) -> {wanted}")

    def holds(self):
        self.say(f"nvim_buf_get_lines(0, 0, -1, true) -> {lines(self.model.lines)}")

    def visit(self, number):
        self.model.undo_to(number)
        self.say(f'nvim_command("undo {number}") -> nil')
        self.holds()


def edits():
    """Up to 89 lines are put in place of up to 39."""
    story = Story(
        "Each line has one byte, so that offsets are twice the rows.",
        "Sixty edits keep step with a plain list",
    )
    seed, model = 7, story.model
    for turn in range(EDITS):
        seed = (seed * 1664525 + 1013904223) % 2**32
        count = len(model.lines)
        start = (seed >> 16) % count
        end = min(count, start + (seed >> 8) % 40)
        new = [chr(ord("A") + turn)] * ((seed >> 12) % 90)
        if end - start == count and not new:
            continue
        model.set_lines(start, end, new)
        story.say(f"nvim_buf_set_lines(0, {start}, {end}, true, {lines(new)}) -> nil")
        if turn % 6 == 5:
            story.holds()
            count = len(model.lines)
            story.offset(count // 2)
            story.offset(count)
    for number in (len(model.kept) // 2, 0, len(model.kept) - 1):
        story.visit(number)
    return story.rows


class Chance:
    """Numbers by chance."""

    def __init__(self):
        self.held = 7

    def next(self):
        self.held = (self.held * 6364136223846793005 + 1442695040888963407) % 2**64
        return self.held

    def below(self, count):
        return (self.next() >> 33) % count


def changes():
    """Changes of two edits, each at a number by chance, and then more numbers gone to."""
    story = Story("Each change is one request of two edits.", "Forty changes are gone to by chance")
    chance, model = Chance(), story.model
    for _ in range(CHANGES):
        story.visit(chance.below(len(model.kept)))
        row = chance.below(len(model.lines))
        new = [[""], ["yz"], ["", "", ""]][chance.below(3)]
        put = model.lines[:row] + new + model.lines[row + 1 :]
        calls = (
            f'["nvim_buf_set_lines", [0, {row}, {row + 1}, true, {lines(new)}]], '
            '["nvim_buf_set_text", [0, 0, 0, 0, 0, ["p", ""]]]'
        )
        story.say(f"notify nvim_call_atomic([{calls}]) -> nothing")
        model.change(["p", *put])
    for _ in range(VISITS):
        story.visit(chance.below(len(model.kept)))
    return story.rows


def steps():
    """Undo, redo or a new change by chance, against a list of what was entered, each with its
    parent."""
    story = Story(
        "The text of each change is its number, and a session is told what the text becomes.",
        "A hundred steps keep step with a list",
    )
    chance = Chance()
    story.say("nvim_buf_attach(0, false, {}) -> true")
    story.say("    tells nvim_buf_changedtick_event(B1, 2)")
    entered, at, last, tick = [], 0, 0, 2
    for _ in range(STEPS):
        kind, before = chance.next() >> 62, at
        if kind == 0:
            story.say('nvim_command("undo") -> nil')
            at = next((parent for parent, number in entered if number == at), 0)
        elif kind == 1:
            story.say('nvim_command("redo") -> nil')
            at = next((number for parent, number in reversed(entered) if parent == at), at)
            if at != before:
                entered.append((before, at))
        else:
            last += 1
            entered.append((at, last))
            at = last
            story.say(f'nvim_buf_set_lines(0, 0, 1, true, ["{at}"]) -> nil')
        if at != before:
            tick += 1
            told = f'nvim_buf_lines_event(B1, {tick}, 0, 1, ["{at or ""}"], false)'
            story.rows.append(f"    tells {told}")
    return story.rows


def text_of_file():
    return HEAD + "\n".join(edits() + changes() + steps()) + "\n"
