"""The marks of the plugin follow the text, whoever edits."""

import pytest

from todo_plugin import Todos

TEXT = ["fn main() {", "    // TODO: count words", "    run(); // FIXME", "}"]
TODO = {"fg": "#1e2029", "bg": "#f0d080", "bold": True}
FIXME = {"fg": "#ffffff", "bg": "#c03030", "bold": True}


@pytest.fixture
def todos(nvimd, nvimd_server):
    nvimd.api.buf_set_lines(0, 0, -1, True, TEXT)
    with nvimd_server.connect() as plugin:
        yield Todos(plugin)


def settle(todos):
    todos.text.settle()
    todos.run(timeout=0)


def test_what_is_to_do_is_highlighted(nvimd, todos, expect_screen):
    settle(todos)
    expect_screen(
        """
        fn main() {
            // TODO: count words |.......TTTT
            run(); // FIXME      |..............FFFFF
        }
        ~                        |N
        [No Name] [+]            |SSSSSSSSSSSSSSSSSSSSSSSS

        """,
        T=TODO,
        F=FIXME,
        N={"bold": True},
        S={"bold": True, "reverse": True},
    )


def test_the_marks_follow_what_others_edit(nvimd, todos):
    settle(todos)
    assert list(todos.listed()) == [(2, "TODO", "count words"), (3, "FIXME", "")]
    nvimd.api.buf_set_lines(0, 0, 0, True, ["// a", "// TODO b"])
    nvimd.api.buf_set_text(0, 4, 11, 4, 19, [""])
    settle(todos)
    assert list(todos.listed()) == [(2, "TODO", "b"), (4, "TODO", "count words")]
    nvimd.command("undo")
    settle(todos)
    assert list(todos.listed())[-1] == (5, "FIXME", "")


def test_a_text_that_is_gone_ends_it(nvimd, todos):
    nvimd.api.buf_delete(0, {"force": True})
    todos.run()
