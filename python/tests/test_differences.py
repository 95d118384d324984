"""The same calls to Neovim and to `nvimd embed`, and what they are answered.

Each row of the table in rows.py is calls to a fresh server and what the last of them is answered:
its result, or its error, and the events that it tells. Rows with two answers are the part "Call by
call" of docs/PROTOCOL.md, which `--snapshot-update` writes.

Neovim is `nvim` on the path. Without it, or beside another release of it, `nvimd` alone is
compared.
"""

import os
import shutil
import subprocess
import textwrap
from concurrent.futures import ThreadPoolExecutor

import pytest

import nvimd
from examples import calls_in, handle, written
from rows import AT_ONCE, ROWS
from runs import DOCS

RELEASE = "0.7.2"
PAGE = os.path.join(DOCS, "PROTOCOL.md")
HEADING = "### Call by call"
NEOVIM = ["nvim", "--embed", "--headless", "-u", "NONE", "-i", "NONE", "-n"]


def answer(words, text):
    """What a fresh server answers the last of these calls, in text."""
    nvim = nvimd.start(words, handle, cwd="/")
    calls = calls_in(text.removeprefix(AT_ONCE))[0]
    try:
        if text.startswith(AT_ONCE):
            error, result = [nvim.answer(msgid) for msgid in nvim.post_all(calls)][-1]
        else:
            for name, params in calls:
                nvim.pending()
                error, result = nvim.ask(name, *params)
    except nvimd.Ended:
        return "no reply"
    finally:
        nvim.kill()
    told = [written(event) for event in nvim.pending() if event.name != "redraw"]
    given = written(result) if error is None else f"error {written(error)}"
    return given + ("" if not told else f", told {', '.join(told)}")


def release():
    """The release of Neovim on the path, or None."""
    if shutil.which("nvim") is None:
        return None
    told = subprocess.run(
        ["nvim", "--version"], stdout=subprocess.PIPE, text=True, check=True
    ).stdout
    return told.split()[1].lstrip("v")


def part():
    """The part of docs/PROTOCOL.md from its heading on."""
    rows = [row for group in ROWS.values() for row in group]
    alike = sum(len(row) == 2 for row in rows)
    opening = (
        f"Beside Debian's `neovim` {RELEASE}: of {len(rows)} examples, each some calls to a fresh "
        f"server, {alike} are answered alike, and {len(rows) - alike} aren't. "
        "`python/tests/test_differences.py` makes them to both programs; what the last call of "
        "those that differ is answered stands here, `error` before the kind and the message of a "
        "fault, `told` before events."
    )
    parts = [HEADING, textwrap.fill(opening, 100)]
    for name, group in ROWS.items():
        told = [filled(*row) for row in group if len(row) == 4]
        if told:
            parts += [f"**{name}.**", "\n".join(told)]
    return "\n\n".join(parts) + "\n"


def filled(title, calls, ours, theirs):
    calls = f"`{calls.removeprefix(AT_ONCE)}`{' at once' if calls.startswith(AT_ONCE) else ''}"
    text = f"{title}: {calls}: nvimd `{ours}`, Neovim `{theirs}`."
    indents = {"initial_indent": "- ", "subsequent_indent": "  "}
    return textwrap.fill(text, 100, **indents, break_long_words=False, break_on_hyphens=False)


def compare(check, words, place):
    """Compares what is answered with what the table says."""
    rows = [row for group in ROWS.values() for row in group]
    rows = [row if len(row) == 2 else (row[1], row[place]) for row in rows]
    with ThreadPoolExecutor(4) as pool:
        answers = pool.map(lambda row: answer(words, row[0]), rows)
        for (calls, wanted), got in zip(rows, answers):
            check.same(calls, got, wanted)


@pytest.fixture(autouse=True)
def folder(monkeypatch, tmp_path):
    """What Neovim leaves behind stays in a folder of the test."""
    monkeypatch.setenv("TMPDIR", str(tmp_path))


def test_what_nvimd_answers(check):
    compare(check, [nvimd.program(), "embed"], 2)


def test_what_neovim_answers(check):
    found = release()
    if found != RELEASE:
        pytest.skip(f"nvim is {found}, and the table is of {RELEASE}")
    compare(check, NEOVIM, 3)


def test_the_page_has_what_differs(holds):
    with open(PAGE, encoding="utf-8") as file:
        text = file.read()
    before, _, after = text.partition(HEADING + "\n")
    _, next_heading, rest = after.partition("\n## ")
    holds(PAGE, (before + part() + next_heading + rest).encode())
