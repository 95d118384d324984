#!/usr/bin/python3
"""An editor plugin: highlights what is to do in a text, and lists it, while others edit.

It keeps a mark on each TODO and FIXME of a buffer. The marks go along with the text, so only the
lines of a change are looked at anew, and the line after them, to which the marks go of lines that
are taken out.

    python3 examples/todo_plugin/todo_plugin.py /tmp/nvimd.sock
"""

import re

import nvimd
from nvimd.command import Words, run

GROUPS = {"TODO": "Todo", "FIXME": "Fixme"}
COLOURS = {
    "Todo": {"fg": "#1e2029", "bg": "#f0d080", "bold": True},
    "Fixme": {"fg": "#ffffff", "bg": "#c03030", "bold": True},
}
WORD = re.compile(r"\b(TODO|FIXME)\b:?\s*(.*)")


class Todos:
    """The marks of one buffer, and the session that keeps them."""

    def __init__(self, session, buffer=0):
        self.session, self.api = session, session.api
        self.space = self.api.create_namespace("todo")
        for name, colours in COLOURS.items():
            self.api.set_hl(0, name, colours)
        self.text = session.follow(buffer)
        self.buffer = self.text.buffer

    def run(self, timeout=None):
        """Follows the text until nothing changes for so many seconds, or it is gone."""
        for change in self.text.changes(timeout):
            self.mark(change.first, change.first + len(change.lines) + 1)

    def mark(self, first, last):
        """Marks the lines from `first` to before `last` anew, in one request.

        Others may have edited meanwhile: the lines are those of now, and so are the marks.
        """
        last = min(last, len(self.text.lines))
        calls = [["nvim_buf_clear_namespace", [self.buffer, self.space, first, last]]]
        for row in range(first, last):
            found = WORD.search(self.text.lines[row])
            if found:
                start, end = (len(self.text.lines[row][:at].encode()) for at in found.span(1))
                keys = {"end_row": row, "end_col": end, "hl_group": GROUPS[found[1]]}
                keys["strict"] = False
                calls.append(["nvim_buf_set_extmark", [self.buffer, self.space, row, start, keys]])
        if last > first:
            self.api.call_atomic(calls)

    def listed(self):
        """What is to do: row from 1, word, text."""
        marks = self.api.buf_get_extmarks(self.buffer, self.space, 0, -1, {})
        self.text.settle()
        for _, row, *_ in marks:
            found = WORD.search(self.text.lines[row])
            if found:
                yield row + 1, found[1], found[2]


def main():
    words = Words(__doc__)
    words.add_argument("address", metavar="ADDRESS", help="a socket's path, or host:port")
    words.add_argument("--once", action="store_true", help="list what is to do, and end")
    asked = words.parse_args()
    with nvimd.connect(asked.address) as session:
        todos = Todos(session)
        todos.run(0 if asked.once else None)
        if asked.once:
            for row, word, text in todos.listed():
                print(f"{row}: {word} {text}".rstrip())
    return 0


if __name__ == "__main__":
    run(main)
