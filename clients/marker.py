#!/usr/bin/python3
"""Follows the current buffer of a server by its events, and highlights words as others type them,
each by an extmark. It ends at a line with `.` alone, and then compares the marks with the words of
the text: the status is 0 where they are the same. Wants Debian's python3-pynvim.
"""

import re

import nvimd
from check import run
from nvimd.command import Words
from typist import attached


GROUPS = {
    "Verb": {"fg": "#a0d890", "bold": True},
    "Evil": {"fg": "#1e2029", "bg": "#f0b070"},
    "Small": {"fg": "#8a90a0", "italic": True},
}
WORDS = {
    "Verb": r"be|suffer|take|die|sleep|say|end",
    "Evil": r"slings|arrows|troubles|heart-ache|shocks",
    "Small": r"to|or|not|and|the|by|a|of",
}
PARTS = [f"(?P<{group}>\\b(?:{words})\\b)" for group, words in WORDS.items()]
PATTERN = re.compile("|".join(PARTS), re.IGNORECASE)


def words_in(row, line):
    """The words of a line that are highlighted: row, first and last place in bytes, group."""
    for found in PATTERN.finditer(line):
        start, end = (len(line[:at].encode()) for at in found.span())
        yield row, start, end, found.lastgroup


class Marker:
    """A session that keeps a copy of a buffer, and a mark on each word of it."""

    def __init__(self, path):
        self.nvim = attached(path)
        self.buffer = self.nvim.current.buffer
        self.space = self.nvim.api.create_namespace("marker")
        self.copy = nvimd.Follower()
        for name, held in GROUPS.items():
            self.nvim.api.set_hl(0, name, held)
        self.buffer.api.attach(True, {})

    def hear(self):
        """Takes the next event, and marks the lines that it brings anew."""
        _, name, (buffer, *told) = self.nvim.next_message()
        change = self.copy.take(name, *told)
        if change:
            for row in range(change.first, change.first + len(change.lines)):
                self.mark(row)

    def mark(self, row):
        calls = [["nvim_buf_clear_namespace", [self.buffer, self.space, row, row + 1]]]
        for row, start, end, group in words_in(row, self.copy.lines[row]):
            held = {"end_row": row, "end_col": end, "hl_group": group, "strict": False}
            calls.append(["nvim_buf_set_extmark", [self.buffer, self.space, row, start, held]])
        self.nvim.api.call_atomic(calls)

    def marks(self):
        """The marks as the server has them, like `words_in`."""
        for _, row, start, held in self.buffer.api.get_extmarks(
            self.space, 0, -1, {"details": True}
        ):
            yield row, start, held["end_col"], held["hl_group"]


def main():
    words = Words(__doc__)
    words.add_argument("socket", metavar="SOCKET")
    marker = Marker(words.parse_args().socket)
    while marker.copy.lines is None or "." not in marker.copy.lines:
        marker.hear()
    rows = enumerate(marker.copy.lines)
    wanted = [word for row, line in rows for word in words_in(row, line)]
    found = list(marker.marks())
    print(f"marker: {len(found)} words are marked, of {len(wanted)}")
    marker.nvim.close()
    return 0 if found == wanted else 1


if __name__ == "__main__":
    run(main)
