"""A thousand ranges are moved by two thousand random edits, undos and redos over a child process,
beside a plain model in Python.

The model has the text, each change as the list of its splices, and each mark as two offsets; a
splice goes over all marks. After each step all ranges are listed, now and then with their details,
and compared with the model. None may have its end before its start: a range whose start goes along
with text that is put there has an end that does so too. Some are set anew on the way, or removed,
and some calls make more than one edit.
"""

import bisect

import pytest

from undo_tree import Beside

MARKS = 1_000
STEPS = 2_000
ROWS = 120  # about how many lines the text has
DETAILS = 20  # each such step the details are compared too


class Mark:
    """A mark as it was set: its keys, and the offsets of its start and its end, if it has one."""

    def __init__(self, number, keys, start, stop):
        self.number = number
        self.keys = keys
        self.start = start
        self.stop = stop
        self.hidden = False
        self.kept = {}  # by change and part: what the last splice of that part kept

    def step(self, splice):
        """Whether the mark is still there after a splice."""
        start, stop, new, part = splice
        kept = self.keep(start, stop)
        before = self.kept.pop(part, None)
        if kept is not None:
            self.kept[part] = kept
        if self.keys["invalidate"] and self.is_removed(start, stop):
            if not self.keys["undo_restore"]:
                return False
            self.hidden = True
        self.start = moved(self.start, self.keys["right_gravity"], start, stop, new)
        if self.stop is not None:
            self.stop = moved(self.stop, self.keys["end_right_gravity"], start, stop, new)
        if before is not None:
            self.put_back(*before)
        return True

    def keep(self, start, stop):
        """The ends that stand in the text that is replaced, and whether the mark is hidden; None
        where neither does."""
        ends = (self.start, self.stop)
        within = [p if p is not None and start <= p <= stop else None for p in ends]
        is_kept = self.keys["undo_restore"] and within != [None, None]
        return (*within, self.hidden) if is_kept else None

    def is_removed(self, start, stop):
        end = self.start if self.stop is None else self.stop
        return start <= self.start < stop and end <= stop

    def put_back(self, start, stop, hidden):
        self.start = self.start if start is None else start
        if self.stop is not None and stop is not None:
            self.stop = stop
        self.hidden = hidden


def moved(place, right, start, stop, new):
    if place < start:
        return place
    if place > stop:
        return place - stop + start + new
    return start + new if right else start


class Model:
    """A text, its changes as lists of splices, and its marks by their ids."""

    def __init__(self):
        self.text = "\n"
        self.changes = [[]]  # of each the splices, each with the text that it took and put
        self.parent = [0]
        self.entered = {}
        self.current = 0
        self.open = []
        self.marks = {}
        self.settings = 0

    def count(self):
        """How many changes there are, the first text with them."""
        return len(self.changes)

    def lines(self):
        return self.text[:-1].split("\n")

    def starts(self):
        """The offset of each row, and that of the whole text."""
        starts = [0]
        for line in self.lines():
            starts.append(starts[-1] + len(line) + 1)
        return starts

    def splice(self, at, taken, put, part):
        self.text = self.text[:at] + put + self.text[at + len(taken) :]
        step = (at, at + len(taken), len(put), part)
        self.marks = {n: mark for n, mark in self.marks.items() if mark.step(step)}

    def edit(self, at, old, put):
        part = (len(self.changes), len(self.open))
        taken = self.text[at : at + old]
        self.open.append((at, taken, put))
        self.splice(at, taken, put, part)

    def close(self):
        if self.open:
            self.changes.append(self.open)
            self.parent.append(self.current)
            self.open = []
            self.enter(len(self.changes) - 1)

    def enter(self, number):
        self.entered[self.parent[number]] = number
        self.current = number

    def back(self):
        number = self.current
        for part, (at, taken, put) in reversed(list(enumerate(self.changes[number]))):
            self.splice(at, put, taken, (number, part))
        self.current = self.parent[number]

    def ahead(self, number):
        for part, (at, taken, put) in enumerate(self.changes[number]):
            self.splice(at, taken, put, (number, part))
        self.enter(number)

    def undo(self):
        if self.current:
            self.back()

    def redo(self):
        if self.current in self.entered:
            self.ahead(self.entered[self.current])

    def undo_to(self, number):
        way = [number]
        while way[-1]:
            way.append(self.parent[way[-1]])
        while self.current not in way:
            self.back()
        for number in reversed(way[: way.index(self.current)]):
            self.ahead(number)


class RestoredMarks(Beside):
    """Sets marks, edits the text, and looks where they are."""

    # ---- places

    def place(self, starts, offset):
        row = bisect.bisect_right(starts, offset) - 1
        return row, offset - starts[row]

    def offset(self):
        return self.random.randint(0, len(self.model.text) - 1)

    def near(self, offset, most):
        return min(offset + self.random.randint(0, most), len(self.model.text) - 1)

    # ---- marks

    def keys(self):
        right = self.random.random() < 0.5
        return {
            "right_gravity": right,
            "end_right_gravity": right or self.random.random() < 0.5,
            "undo_restore": self.random.random() < 0.8,
            "invalidate": self.random.random() < 0.4,
        }

    def set_mark(self, number):
        start = self.offset()
        stop = self.near(start, 60)
        if self.random.random() < 0.1:
            stop = None
        keys = self.keys()
        starts = self.model.starts()
        row, col = self.place(starts, start)
        options = dict(keys, id=number)
        if stop is None:
            del options["end_right_gravity"]
        else:
            options["end_row"], options["end_col"] = self.place(starts, stop)
        self.answers(number, "nvim_buf_set_extmark", 0, 1, row, col, options)
        self.model.marks[number] = Mark(number, keys, start, stop)

    def remove_mark(self, number):
        self.answers(number in self.model.marks, "nvim_buf_del_extmark", 0, 1, number)
        self.model.marks.pop(number, None)

    def listed(self, details):
        """The marks of the model as they are listed: by place, then left before right gravity, then
        id."""
        starts = self.model.starts()
        found = []
        for mark in self.model.marks.values():
            row, col = self.place(starts, mark.start)
            one = [mark.number, row, col]
            if details:
                one.append(self.details(mark, starts))
            found.append(((mark.start, mark.keys["right_gravity"], mark.number), one))
        return [one for _, one in sorted(found, key=lambda m: m[0])]

    def details(self, mark, starts):
        told = {"ns_id": 1, "right_gravity": mark.keys["right_gravity"], "priority": 4096}
        if mark.stop is not None:
            told["end_row"], told["end_col"] = self.place(starts, mark.stop)
            told["end_right_gravity"] = mark.keys["end_right_gravity"]
        if not mark.keys["undo_restore"]:
            told["undo_restore"] = False
        if mark.keys["invalidate"]:
            told["invalidate"] = True
        if mark.hidden:
            told["invalid"] = True
        return told

    def look(self, details):
        options = {"details": True} if details else {}
        self.answers(self.listed(details), "nvim_buf_get_extmarks", 0, 1, 0, -1, options)
        reversed_ = [
            m.number for m in self.model.marks.values() if m.stop is not None and m.stop < m.start
        ]
        self.same("ends before their starts", reversed_, [])

    # ---- edits

    def string(self, most):
        return "".join(self.random.choices("abcdefgh\n", k=self.random.randint(0, most)))

    def edit(self):
        """One edit of the model, and the call that makes it."""
        rows = len(self.model.lines())
        grows = rows < ROWS
        if self.random.random() < 0.3:
            return self.edit_rows(rows, grows)
        start = self.offset()
        stop = self.near(start, 20 if grows else 60)
        put = self.string(60 if grows else 20)
        starts = self.model.starts()
        call = [
            "nvim_buf_set_text",
            [0, *self.place(starts, start), *self.place(starts, stop), put.split("\n")],
        ]
        if start != stop or put:
            self.model.edit(start, stop - start, put)
        return call

    def edit_rows(self, rows, grows):
        first = self.random.randint(0, rows)
        last = min(first + self.random.randint(0, 2 if grows else 5), rows)
        new = [
            self.string(20).replace("\n", " ")
            for _ in range(self.random.randint(0, 5 if grows else 2))
        ]
        call = ["nvim_buf_set_lines", [0, first, last, True, new]]
        if last - first == rows and not new:
            new = [""]
        starts = self.model.starts()
        if first != last or new:
            put = "".join(line + "\n" for line in new)
            self.model.edit(starts[first], starts[last] - starts[first], put)
        return call

    def change(self):
        calls = [self.edit() for _ in range(self.random.choice((1, 1, 1, 2, 3)))]
        if len(calls) == 1:
            self.answers(None, calls[0][0], *calls[0][1])
        else:
            self.answers([[None] * len(calls), None], "nvim_call_atomic", calls)
        self.model.close()

    def step(self):
        choice = self.random.random()
        if choice < 0.4:
            self.change()
        elif choice < 0.65:
            self.undo()
        elif choice < 0.85:
            self.redo()
        elif choice < 0.9:
            self.visit()
        elif choice < 0.98:
            self.set_mark(self.random.randint(1, MARKS))
        else:
            self.remove_mark(self.random.randint(1, MARKS))


@pytest.mark.seeds(1)
def test_ranges_are_where_the_model_has_them(check, seed):
    marks = RestoredMarks(check, seed, Model())
    marks.answers(1, "nvim_create_namespace", "ranges")
    text = [marks.string(40).replace("\n", "-") for _ in range(ROWS)]
    marks.answers(None, "nvim_buf_set_lines", 0, 0, -1, True, text)
    marks.model.edit(0, 1, "".join(line + "\n" for line in text))
    marks.model.close()
    for number in range(1, MARKS + 1):
        marks.set_mark(number)
    for step in range(STEPS):
        marks.step()
        marks.look(step % DETAILS == 0)
    marks.answers(marks.model.lines(), "nvim_buf_get_lines", 0, 0, -1, True)
    check.same("status", marks.nvim.end(), 0)
