"""A test harness: one suite for a plugin, at nvimd and at Neovim.

The fixture `nvimd_command` says what is started; everything else is the same. With Neovim the
screen is waited for, with nvimd it is there.
"""

import shutil

import pytest

from todo_plugin import Todos

NEOVIM = ["nvim", "--headless", "-u", "NONE", "-i", "NONE", "-n", "--listen"]
TEXT = ["one", "// TODO: two", "three"]


@pytest.fixture(params=["nvimd", "neovim"])
def nvimd_command(request):
    if request.param == "nvimd":
        return None
    if shutil.which("nvim") is None:
        pytest.skip("no nvim on the path")
    return NEOVIM


@pytest.fixture
def todos(nvimd, nvimd_server):
    nvimd.api.buf_set_lines(0, 0, -1, True, TEXT)
    with nvimd_server.connect() as plugin:
        yield Todos(plugin, nvimd.api.get_current_buf())


def listed(todos):
    todos.text.settle()
    todos.run(timeout=0)
    return list(todos.listed())


def test_what_is_to_do_is_listed(nvimd, todos):
    assert listed(todos) == [(2, "TODO", "two")]
    nvimd.api.buf_set_lines(0, 0, 0, True, ["FIXME"])
    assert listed(todos) == [(1, "FIXME", ""), (3, "TODO", "two")]
    nvimd.api.buf_set_lines(0, 1, 3, True, [])
    assert listed(todos) == [(1, "FIXME", "")]
    nvimd.command("undo")
    assert listed(todos) == [(1, "FIXME", ""), (3, "TODO", "two")]


def test_its_colours_are_on_the_screen(nvimd, todos):
    screen = nvimd.screen(30, 6)
    listed(todos)
    screen.wait(lambda it: it.at(1, 3).attribute.get("background") == 0xF0D080)
    assert screen.rows[1].startswith("// TODO: two")
    assert [screen.at(1, col).attribute.get("bold") for col in (2, 3, 6, 7)] == [
        None,
        True,
        True,
        None,
    ]
