"""100,000 lines are put over a child process, nearly all of them are taken out, and that is undone
and made again.

Lines, offsets and the changedtick are those of the documented effect of nvim_buf_set_lines(),
nvim_buf_get_offset() and :undo.
"""

import nvimd

COUNT = 100_000
LEFT = 20

# A step's call, and what holds after it: the number of lines and the changedtick.
STEPS = [
    ("nvim_buf_set_lines", [0, 0, -1, True, ["x"] * COUNT], COUNT, 3),
    ("nvim_buf_set_lines", [0, LEFT // 2, COUNT - LEFT // 2, True, []], LEFT, 4),
    ("nvim_command", ["undo"], COUNT, 5),
    ("nvim_command", ["redo"], LEFT, 6),
    ("nvim_command", ["undo 0"], 1, 8),
    ("nvim_command", ["undo 2"], LEFT, 10),
    ("nvim_command", ["undo 1"], COUNT, 11),
]


class LargeText:
    """The program, with each of its answers compared."""

    def __init__(self, check):
        self.same = check.same
        self.nvim = nvimd.start()

    def answers(self, result, method, *params):
        got = self.nvim.ask(method, *params)
        self.same(f"{method}{str(params)[:80]}", got, (None, result))

    def holds(self, lines, tick):
        """The text is so many lines: `x` each, or one empty line."""
        text = ["x"] * lines if lines > 1 else [""]
        self.answers(lines, "nvim_buf_line_count", 0)
        self.answers(tick, "nvim_buf_get_changedtick", 0)
        for row in (0, lines // 2, lines):
            wanted = sum(len(line) + 1 for line in text[:row])
            self.answers(wanted, "nvim_buf_get_offset", 0, row)
        past = self.nvim.ask("nvim_buf_get_offset", 0, lines + 1)
        self.same("an offset past the end", past, ([1, "Index out of bounds"], None))
        self.answers(text, "nvim_buf_get_lines", 0, 0, -1, True)


def test_it_is_put_and_undone(check):
    text = LargeText(check)
    for method, params, lines, tick in STEPS:
        text.answers(None, method, *params)
        text.holds(lines, tick)
    check.same("status", text.nvim.end(), 0)
