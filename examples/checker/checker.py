#!/usr/bin/python3
"""A language tool: checks the brackets of a text while others edit it, and keeps what it finds in
marks.

It follows the buffer by its events, checks the text as often as it changes, and touches those marks
alone that differ: a mark that is still right goes along with the text by itself, also through undo.

    python3 examples/checker/checker.py /tmp/nvimd.sock
"""

from typing import NamedTuple

import nvimd
from nvimd.command import Words, run

PAIRS = {")": "(", "]": "[", "}": "{"}
GROUP, COLOURS = "Unmatched", {"fg": "#ffffff", "bg": "#c03030", "underline": True}


class Problem(NamedTuple):
    """A bracket that is wrong: its place in bytes, and why."""

    row: int
    col: int
    message: str


def problems_in(lines):
    """The brackets without a partner, in the order of the text."""
    found, open_ones = [], []
    for row, line in enumerate(lines):
        for col, byte in enumerate(line.encode(errors="surrogateescape")):
            letter = chr(byte)
            if letter in PAIRS.values():
                open_ones.append((row, col, letter))
            elif letter in PAIRS:
                if open_ones and open_ones[-1][2] == PAIRS[letter]:
                    open_ones.pop()
                else:
                    found.append(Problem(row, col, f"{letter} closes nothing"))
    found += [Problem(row, col, f"{letter} is never closed") for row, col, letter in open_ones]
    return sorted(found)


class Checker:
    """The marks of one buffer, each with its message, and the session that keeps them."""

    def __init__(self, session, buffer=0):
        self.api = session.api
        self.space = self.api.create_namespace("checker")
        self.api.set_hl(0, GROUP, COLOURS)
        self.text = session.follow(buffer)
        self.buffer = self.text.buffer
        self.messages = {}  # by the ids of the marks
        self.tick = None  # of the text that was checked last

    def run(self, timeout=None):
        """Checks the text until it stays as it is for so many seconds, or is gone."""
        for change in self.text.changes(timeout):
            if change.tick == self.text.tick:  # the last of those that came together
                self.check()

    def check(self):
        """Puts the marks in step with the text."""
        if self.tick == self.text.tick:
            return
        self.tick = self.text.tick
        wanted = {problem: None for problem in problems_in(self.text.lines)}
        for number, problem in self.marks():
            if problem in wanted and wanted[problem] is None:
                wanted[problem] = number
            else:
                self.api.buf_del_extmark(self.buffer, self.space, number)
                del self.messages[number]
        for problem, number in wanted.items():
            if number is None:
                self.messages[self.put(problem)] = problem.message

    def put(self, problem):
        """Sets a mark on a bracket; its id."""
        row, col, _ = problem
        keys = {"end_row": row, "end_col": col + 1, "hl_group": GROUP, "strict": False}
        return self.api.buf_set_extmark(self.buffer, self.space, row, col, keys)

    def marks(self):
        """The marks as they stand now, each with its problem."""
        for number, row, col in self.api.buf_get_extmarks(self.buffer, self.space, 0, -1, {}):
            yield number, Problem(row, col, self.messages[number])


def main():
    words = Words(__doc__)
    words.add_argument("address", metavar="ADDRESS", help="a socket's path, or host:port")
    words.add_argument("--once", action="store_true", help="print what is wrong, and end")
    asked = words.parse_args()
    with nvimd.connect(asked.address) as session:
        checker = Checker(session)
        checker.run(0 if asked.once else None)
        if asked.once:
            for _, (row, col, message) in checker.marks():
                print(f"{row + 1}:{col + 1}: {message}")
            return 1 if checker.messages else 0
    return 0


if __name__ == "__main__":
    run(main)
