#!/usr/bin/python3
"""Measures nvimd beside Neovim (`nvim` on the path), as it is installed (`--clean`) and bare,
without the plugins that come with it (`-u NONE`): the same requests to each, over pipes.

Prints a table in Markdown, or with `--json` one object. A figure is the median over some servers of
each kind, which run in turn; memory is that at its peak. `--short` takes small sizes and one server
of each kind: it tells whether all that is measured can be done, and nothing of speed. Where a
server answers a request with a fault, the program ends with status 1.

`--instructions` counts what nvimd alone executes for each of them (`valgrind`), in which time other
work on the machine doesn't matter; `--functions N` names the N functions that execute most of it.
"""

import json
import os
import platform
import random
import re
import shutil
import statistics
import subprocess
import tempfile
import time
from collections.abc import Callable
from dataclasses import dataclass

import nvimd
from nvimd.command import Words, limit, run
from session import LINE, PIECE, Server, call, set_rows

SEED = 7
SHORT = 300  # the most seconds that a short run takes
FLUSH = b"\xa5flush"
SMALL = call("nvim_buf_line_count", 0)
UNDO = call("nvim_command", "undo")
REDO = call("nvim_command", "redo")


def kinds(program, shown):
    """The words that start each kind of server, for a UI or for none."""
    headless = [] if shown else ["--headless"]
    found = {"nvimd": [program, "embed"]}
    if shutil.which("nvim"):
        found["bare"] = ["nvim", *headless, "-u", "NONE", "-i", "NONE", "-n", "--embed"]
        found["installed"] = ["nvim", "--clean", *headless, "-n", "--embed"]
    return found


def trips(server, count, request):
    """Seconds of so many requests, each sent when the reply to the one before has come."""
    begun = time.perf_counter()
    for number in range(count):
        server.send(request(number))
        if server.read()[:4] != b"\x94\x01\x01\xc0":
            raise nvimd.Error("a request was refused")
    return time.perf_counter() - begun


def redraws(server, count, request):
    """The same, each sent when the flush has come that shows what the one before did."""
    begun = time.perf_counter()
    for number in range(count):
        server.send(request(number))
        server.until(FLUSH, 16)
    return time.perf_counter() - begun


# ---- What is measured


@dataclass
class Row:
    name: str
    unit: str  # us, ms, or MB at the peak
    size: int  # of the text, or of what else is there
    count: int  # how often it is done
    prepare: Callable  # gets a server and the size
    do: Callable  # gets them and the count, and gives the seconds of all, or MB
    shown: bool = False  # with a UI

    def sizes(self, part):
        """The size and the count, of which a short run takes a part."""
        size = self.size if self.shown else max(1, self.size // part)
        return size, self.count if self.count < 3 else max(2, self.count // part)

    def once(self, words, size, count):
        """One, by a server of its own."""
        server = Server(words)
        server.ask(b"")
        self.prepare(server, size)
        taken = self.do(server, size, count)
        server.close()
        return taken / count


# ---- what is there before


def nothing(server, size):
    pass


def text(server, size):
    server.ask(set_rows(0, -1, ["x" * 40] * size))


def replaced_text(server, size):
    """A text, and another one in its place."""
    text(server, size)
    server.ask(set_rows(0, -1, ["z" * 40] * size))


def changes(server, size):
    """A text of 1,000 lines, after so many changes of a line."""
    text(server, 1_000)
    server.ask(replacing(1_000, size))


def buffers(server, size):
    """So many buffers more."""
    server.ask(call("nvim_create_buf", True, False) * size)


def marked(server, size):
    """A text with a mark in each line, set in random order."""
    text(server, size)
    server.ask(call("nvim_create_namespace", "bench"))
    server.ask(b"".join(mark_set(row) for row in random.Random(SEED).sample(range(size), size)))


def emptied(server, size):
    """Ten buffers, and in each of them a text with a mark in each line, which was removed."""
    server.ask(call("nvim_create_namespace", "bench") + call("nvim_create_buf", True, False) * 10)
    for buffer in range(2, 12):
        server.ask(set_rows(0, -1, [LINE] * size, buffer))
        server.ask(b"".join(mark_set(row, buffer) for row in range(size)))
        server.ask(set_rows(0, -1, [], buffer))


def screen(server, size):
    """A UI of 120 by 40 over a text."""
    words = "of a text that is long enough to fill some columns"
    server.ask(set_rows(0, -1, [f"line {number} {words}" for number in range(size)]))
    server.send(call("nvim_ui_attach", 120, 40, {"ext_linegrid": True, "rgb": True}))
    server.until(FLUSH, 16)
    server.ask(b"")


def scrolled(server, size):
    """The same, with the cursor in the last row of the window."""
    screen(server, size)
    for row in range(38, 58):
        redraws(server, 1, lambda _, row=row: call("nvim_win_set_cursor", 0, [row, 0]))


# ---- what is done


def rows_of(size, count):
    return [random.Random(SEED).randrange(size) for _ in range(count)]


def mark_set(row, buffer=0):
    return call("nvim_buf_set_extmark", buffer, 1, row, 20, {})


def marks_from(row, end, **keys):
    return call("nvim_buf_get_extmarks", 0, 1, row, end, keys)


def replace(row):
    return set_rows(row, row + 1, [LINE])


def replacing(size, count):
    return b"".join(map(replace, rows_of(size, count)))


def lines_set(width):
    return lambda server, size, count: server.ask(set_rows(0, -1, ["x" * width] * size) * count)


def times(request):
    """The same request again and again."""
    return lambda server, size, count: server.ask(request * count)


def at_rows(request):
    """A request for each of some rows at random."""
    return lambda server, size, count: server.ask(b"".join(map(request, rows_of(size, count))))


def round_trips(server, size, count):
    return trips(server, count, lambda _: SMALL)


def put_and_take(row):
    return set_rows(row, row, [LINE]) + set_rows(row, row + 1, [])


def offset(row):
    return call("nvim_buf_get_offset", 0, row)


def mark_by_id(row):
    return call("nvim_buf_get_extmark_by_id", 0, 1, row + 1, {})


def marks_of_line(row):
    return marks_from([row, 0], [row, -1])


def next_mark(row):
    return marks_from([row, 0], -1, limit=1)


def undone_and_redone(server, size, count):
    """All changes are undone and done again, so often that there are so many steps."""
    there_and_back = [UNDO] * size + [REDO] * size
    return server.ask(b"".join((there_and_back * (1 + count // len(there_and_back)))[:count]))


def undone_each(server, size, count):
    buffers = range(2, 2 + count)
    return server.ask(b"".join(call("nvim_set_current_buf", n) + UNDO for n in buffers))


def followed(server, size, count):
    """A whole text is told to one who begins to follow it, and then stops."""
    stream = call("nvim_buf_attach", 0, True, {}) + call("nvim_buf_detach", 0)
    return server.ask(stream * count)


def peak_of_lines(server, size, count):
    server.ask(set_rows(0, -1, ["x" * 79] * size))
    return server.peak() * count


def peak_of_edits(server, size, count):
    text(server, 1_000)
    for _ in range(20):
        server.ask(replacing(1_000, size // 20))
    return server.peak() * count


def character(number):
    end, put = (4, "") if number % 2 else (3, "x")
    return call("nvim_buf_set_text", 0, 5, 3, 5, end, [put])


def line_at(row):
    """A line is put into a row, and taken out of it, in turn."""

    def request(number):
        end, put = (row + 1, []) if number % 2 else (row, ["a line that was put in"])
        return set_rows(row, end, put)

    return request


def down(number):
    return call("nvim_win_set_cursor", 0, [58 + number, 0])


def jump(number):
    return call("nvim_win_set_cursor", 0, [1000 + 4000 * (number % 2) + number, 0])


def drawn(request):
    return lambda server, size, count: redraws(server, count, request)


def sent_ahead(server, size, count):
    return server.ask(b"".join(character(number) for number in range(count)))


GET_ALL = call("nvim_buf_get_lines", 0, 0, -1, True)
CLEAR = call("nvim_buf_clear_namespace", 0, 1, 0, -1)
INFO = call("nvim_get_api_info")
ABOVE = set_rows(0, 0, [LINE])
K, M = 1_000, 1_000_000

ROWS = [
    Row("a round trip", "us", 1, 2 * K, nothing, round_trips),
    Row("a small request, sent ahead", "us", 1, 20 * K, nothing, times(SMALL)),
    Row("nvim_get_api_info", "us", 1, 300, nothing, times(INFO)),
    Row("an edit", "us", 1, 5 * K, nothing, times(replace(0))),
    Row("an edit beside 99 buffers", "us", 99, 5 * K, buffers, times(replace(0))),
    Row("1e4 lines set", "ms", 10 * K, 1, nothing, lines_set(40)),
    Row("1e5 lines set", "ms", 100 * K, 1, nothing, lines_set(40)),
    Row("1e5 lines set again", "ms", 100 * K, 1, text, lines_set(40)),
    Row("undo of 1e5 lines", "ms", 100 * K, 1, replaced_text, times(UNDO)),
    Row("1e5 lines got", "ms", 100 * K, 2, text, times(GET_ALL)),
    Row("16 MB of lines of 79 set", "ms", 200 * K, 1, nothing, lines_set(79)),
    Row("memory for 16 MB of lines", "MB", 200 * K, 1, nothing, peak_of_lines),
    Row("memory for 1e6 edits of a line", "MB", M, 1, nothing, peak_of_edits),
    Row("a line replaced at 1e4", "us", 10 * K, 10 * K, text, at_rows(replace)),
    Row("a line replaced at 1e6", "us", M, 4 * K, text, at_rows(replace)),
    Row("a line put in and taken out at 1e6", "us", M, 2 * K, text, at_rows(put_and_take)),
    Row("an offset at 1e6", "us", M, 4 * K, text, at_rows(offset)),
    Row("an undo or a redo at 1e2 changes", "us", 100, 10 * K, changes, undone_and_redone),
    Row("an undo or a redo at 1e4 changes", "us", 10 * K, 20 * K, changes, undone_and_redone),
    Row("a mark set at 1e4", "us", 10 * K, 10 * K, marked, at_rows(mark_set)),
    Row("a mark got by its id at 1e5", "us", 100 * K, 10 * K, marked, at_rows(mark_by_id)),
    Row("marks of a line at 1e5", "us", 100 * K, 5 * K, marked, at_rows(marks_of_line)),
    Row("the next mark at 1e5", "us", 100 * K, 5 * K, marked, at_rows(next_mark)),
    Row("a line put before 1e5 marks", "us", 100 * K, K, marked, times(ABOVE)),
    Row("1e5 marks listed", "ms", 100 * K, 2, marked, times(marks_from(0, -1))),
    Row("1e5 marks cleared", "ms", 100 * K, 1, marked, times(CLEAR)),
    Row("an undo that puts 1e3 marks back", "us", K, 10, emptied, undone_each),
    Row("a whole text to a follower, 1e5 lines", "ms", 100 * K, 2, text, followed),
    Row("a character to its flush", "us", 10 * K, 200, screen, drawn(character), True),
    Row("a scroll by one", "us", 10 * K, 200, scrolled, drawn(down), True),
    Row("a line put in at the top, or out", "us", 10 * K, 200, screen, drawn(line_at(0)), True),
    Row("the same in row 5", "us", 10 * K, 200, screen, drawn(line_at(5)), True),
    Row("the same in the last row", "us", 10 * K, 200, screen, drawn(line_at(37)), True),
    Row("a far jump", "us", 10 * K, 200, screen, drawn(jump), True),
    Row("an edit under a UI, sent ahead", "us", 10 * K, 2 * K, screen, sent_ahead, True),
]

SCALE = {"us": 1e6, "ms": 1e3, "MB": 1}


# ---- Times


def timed(row, program, rounds, part):
    """The medians by kind of server, in the unit of the row."""
    size, count = row.sizes(part)
    words = kinds(program, row.shown)
    found = {kind: [] for kind in words}
    for _ in range(rounds):
        for kind, start in words.items():
            found[kind].append(row.once(start, size, count) * SCALE[row.unit])
    return {kind: statistics.median(times) for kind, times in found.items()}


def as_markdown(figures):
    lines = [
        "| Work | nvimd | bare | ratio | as installed | ratio |",
        "|---|---|---|---|---|---|",
    ]
    for row, found in figures:
        cells = [f"{row.name}, {row.unit}", f"{found['nvimd']:.2f}"]
        for kind in ("bare", "installed"):
            if kind in found:
                cells += [f"{found[kind]:.2f}", f"{found['nvimd'] / found[kind]:.2f}"]
            else:
                cells += ["", ""]
        lines.append("| " + " | ".join(cells) + " |")
    return "\n".join(lines)


def as_json(figures, **more):
    rows = [{"name": row.name, "unit": row.unit, **found} for row, found in figures]
    load, kernel = os.getloadavg()[0], platform.release()
    machine = {"processors": os.cpu_count(), "load": load, "kernel": kernel}
    when = time.strftime("%Y-%m-%dT%H:%M:%SZ", time.gmtime())
    return json.dumps({"when": when, "machine": machine, **more, "rows": rows}, indent=2)


# ---- Instructions


def counted(row, program, size, count, folder):
    """Where the counts of one run stand."""
    file = os.path.join(folder, f"counts.{count}")
    words = ["valgrind", "--quiet", "--tool=callgrind", f"--callgrind-out-file={file}"]
    server = Server([*words, program, "embed"])
    server.ask(b"")
    row.prepare(server, size)
    if count:
        row.do(server, size, count)
    server.process.stdin.close()
    for piece in iter(lambda: os.read(server.process.stdout.fileno(), PIECE), b""):
        del piece
    server.process.wait()
    return file


def total(file):
    with open(file, encoding="utf-8") as counts:
        return int(re.search(r"^(?:totals|summary): (\d+)", counts.read(), re.M).group(1))


def by_function(file):
    """What each function executes by itself, and with all that it calls."""
    found = {}
    for place, inclusive in enumerate(("no", "yes")):
        words = ["callgrind_annotate", "--threshold=100", f"--inclusive={inclusive}", file]
        told = subprocess.run(words, capture_output=True, text=True, check=True).stdout
        for number, name in re.findall(r"^ *([\d,]+) *\([ \d.]+%\) +\S*?:(.*?) \[", told, re.M):
            pair = found.setdefault(re.sub("<#.*", "", name), [0, 0])
            pair[place] += int(number.replace(",", ""))
    return found


def instructions(row, program, part, functions):
    """How many one takes: of more of them, less those of fewer."""
    size, count = row.sizes(part)
    few, many = (0, 1) if count < 3 else (max(1, count // 20), count // 4 + 1)
    with tempfile.TemporaryDirectory() as folder:
        files = [counted(row, program, size, count, folder) for count in (few, many)]
        one, other = map(total, files)
        each = many - few
        print(f"| {row.name} | {(other - one) / each:,.0f} |", flush=True)
        if functions:
            before, after = map(by_function, files)
            rows = [
                [(now - then) / each for now, then in zip(pair, before.get(name, [0, 0]))] + [name]
                for name, pair in after.items()
            ]
            for alone, whole, name in sorted(rows, reverse=True)[:functions]:
                print(f"    {alone:12,.0f} {whole:12,.0f}  {name[:70]}", flush=True)


def main():
    words = Words(__doc__)
    names = ", ".join(f"`{row.name}`" for row in ROWS)
    words.add_argument("rows", nargs="*", help=f"some of {names}; all without any")
    words.add_argument("--rounds", type=int, default=10, help="servers of each kind")
    words.add_argument("--short", action="store_true", help="a check of a few seconds")
    words.add_argument("--json", action="store_true", help="one object in place of a table")
    words.add_argument("--instructions", action="store_true", help="counts, of nvimd alone")
    words.add_argument("--functions", type=int, default=0, help="where most of them go")
    asked = words.parse_args()
    program = nvimd.program()
    part, rounds = (100, 1) if asked.short else (1, asked.rounds)
    if asked.short:
        limit(SHORT)
    chosen = [row for row in ROWS if not asked.rows or row.name in asked.rows]
    if asked.instructions:
        for row in chosen:
            if row.unit == "MB":
                continue
            instructions(row, program, part, asked.functions)
        return 0
    figures = [(row, timed(row, program, rounds, part)) for row in chosen]
    print(as_json(figures, rounds=rounds) if asked.json else as_markdown(figures))
    return 0


if __name__ == "__main__":
    run(main)
