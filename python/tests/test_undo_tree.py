"""A text is edited, undone and redone over a child process, and each text compared with a plain
model.

A tree of a hundred changes is made in a seeded order of edits and undos. Then `undo N` visits its
numbers in a seeded order, and each text is compared with the one that was kept when the change was
made. Each reply is compared too: lines, text between places, offsets, the number of lines and the
changedtick.
"""

import pytest

from undo_tree import Beside, Model

CHANGES = 100
VISITS = 300
LONG = 4_000  # bytes
LETTERS = "abc \udcff\x00"  # one of them a byte that isn't UTF-8


class UndoTree(Beside):
    """Grows a tree of changes, and looks at it."""

    def state(self):
        self.answers(self.model.lines, "nvim_buf_get_lines", 0, 0, -1, True)
        self.answers(self.model.tick, "nvim_buf_get_changedtick", 0)

    def row(self):
        return self.random.randrange(len(self.model.lines))

    def place(self):
        row = self.row()
        return row, self.random.randint(0, len(self.model.lines[row]))

    def span(self):
        """Two places, half the times in one row and near each other."""
        start = self.place()
        if self.random.random() < 0.5:
            return sorted((start, self.place()))
        row, col = start
        return start, (row, min(col + self.random.randint(0, 40), len(self.model.lines[row])))

    def written(self, place):
        """The row and the column as arguments, each from the front or from the end."""
        row, col = place
        length = len(self.model.lines[row])
        return (
            self.random.choice((row, row - len(self.model.lines))),
            self.random.choice((col, col - length - 1)),
        )

    def strings(self, most):
        return [self.string() for _ in range(self.random.randint(0, most))]

    def string(self):
        """Few bytes, or so many that of an edit within them undo keeps those alone that it
        changes."""
        most = 6 if self.random.random() < 0.9 else LONG
        return "".join(self.random.choices(LETTERS, k=self.random.randint(0, most)))

    def edit(self):
        if self.random.random() < 0.5:
            count = len(self.model.lines)
            start, end = sorted((self.random.randint(0, count), self.random.randint(0, count)))
            new = self.strings(3)
            self.answers(None, "nvim_buf_set_lines", 0, start, end, True, new)
            self.model.set_lines(start, end, new)
        else:
            start, end = self.span()
            new = self.strings(3)
            self.answers(
                None, "nvim_buf_set_text", 0, *self.written(start), *self.written(end), new
            )
            self.model.set_text(start, end, new)

    def look(self):
        """Text between two places, and the offset of each row."""
        start, end = self.span()
        text = self.model.get_text(start, end)
        places = *self.written(start), *self.written(end)
        self.answers(text, "nvim_buf_get_text", 0, *places, {})
        if start != end:
            self.same(
                "a start behind its end",
                self.nvim.ask("nvim_buf_get_text", 0, *end, *start, {}),
                ([1, "'start' is higher than 'end'"], None),
            )
        row = self.random.randint(0, len(self.model.lines))
        offset = sum(len(line) + 1 for line in self.model.lines[:row])
        self.answers(offset, "nvim_buf_get_offset", 0, row)
        self.answers(len(self.model.lines), "nvim_buf_line_count", 0)

    def grow(self):
        """One edit, or a step in the tree."""
        choice = self.random.random()
        if choice < 0.6:
            self.edit()
        elif choice < 0.8:
            self.undo()
        elif choice < 0.9:
            self.redo()
        else:
            self.visit()


@pytest.mark.seeds(1, 2, 3)
def test_each_change_is_visited(check, seed):
    tree = UndoTree(check, seed, Model())
    tree.state()
    while len(tree.model.kept) <= CHANGES:
        tree.grow()
        tree.state()
        tree.look()
    for _ in range(VISITS):
        tree.visit()
        tree.state()
    refused = tree.nvim.ask("nvim_command", f"undo {CHANGES + 1}")
    check.same("above the last change", refused, ([1, "Index out of bounds"], None))
    tree.state()
    check.same("status", tree.nvim.end(), 0)
