"""The script of a number by its rules (crates/nv_gen/specs): what `nvimd generate` has its three
sessions do, but for the takings."""

FACTOR, TERM = 6364136223846793005, 1442695040888963407
ROUNDS = 2000


class Draws:
    """Numbers drawn one after another, each from the one before."""

    def __init__(self, number):
        self.number = number

    def below(self, most):
        """A number below `most`, by the upper 31 bits of the next one."""
        self.number = (self.number * FACTOR + TERM) % (1 << 64)
        return (self.number >> 33) % most

    def line(self):
        return "".join(chr(97 + self.below(26)) for _ in range(self.below(20)))

    def edit(self):
        first, more, count = self.below(12), self.below(3), self.below(4)
        lines = [self.line() for _ in range(count)]
        return 1, "nvim_buf_set_lines", [0, first, first + more, False, lines]

    def mark(self):
        row, col, number, gravity = self.below(6), self.below(10), self.below(50), self.below(2)
        keys = {"id": 1 + number, "strict": False, "right_gravity": gravity == 1}
        return 1, "nvim_buf_set_extmark", [0, 1, row, col, keys]

    def command(self):
        return 1, "nvim_command", ["undo" if self.below(2) == 0 else "redo"]

    def cursor(self):
        row, col = self.below(3), self.below(8)
        return 1, "nvim_win_set_cursor", [0, [1 + row, col]]

    def reading(self):
        return 2, "nvim_buf_get_lines", [0, 0, -1, False]

    def question(self):
        """Of ten that are equally likely: five edits, two marks, a command, a cursor's place, a
        reading."""
        kinds = [self.edit] * 5 + [self.mark] * 2 + [self.command, self.cursor, self.reading]
        return kinds[self.below(10)]()


def script(number):
    """The entries of a script as a book tells them: three sessions open, ask, and close."""
    draws = Draws(number)
    questions = [
        (2, "nvim_buf_attach", [0, True, {}]),
        (3, "nvim_ui_attach", [40, 12, {"ext_linegrid": True}]),
        (1, "nvim_create_namespace", ["g"]),
        *(draws.question() for _ in range(ROUNDS)),
    ]
    asked = [["r", who, who, msgid, *call] for msgid, (who, *call) in enumerate(questions, 1)]
    return [*(["o", n] for n in (1, 2, 3)), *asked, *(["c", n, n] for n in (1, 2, 3))]
