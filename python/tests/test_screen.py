"""A screen: the fold of the redraw events, and when it is settled."""

import random

import pytest

import nvimd as package


def test_rows_cells_and_the_cursor(nvimd):
    screen = nvimd.screen(20, 5)
    nvimd.api.buf_set_lines(0, 0, -1, True, ["世x", "two"])
    nvimd.api.win_set_cursor(0, [2, 1])
    screen.settle()
    assert [row.rstrip() for row in screen.rows] == ["世x", "two", "~", "[No Name] [+]", ""]
    assert (screen.width, screen.height, screen.cursor) == (20, 5, (1, 1))
    assert screen.at(0, 0) == ("世", {}) and screen.is_wide(0, 0)
    assert screen.at(0, 1).text == "" and screen.at(0, 2).text == "x"
    assert screen.at(3, 0).attribute == {"bold": True, "reverse": True}
    assert str(screen).startswith("世x\ntwo\n~")


def test_it_follows_its_size_and_goes(nvimd):
    screen = nvimd.screen(20, 5).resize(30, 7)
    assert (screen.width, screen.height) == (30, 7)
    screen.detach()
    assert nvimd.api.list_uis() == [] and nvimd.ui is None
    with pytest.raises(package.UiNotAttached):
        screen.resize(20, 5)


@pytest.mark.seeds(1, 2)
def test_the_next_reply_settles_it(nvimd, seed):
    draw, screen = random.Random(seed), nvimd.screen(40, 12)
    for n in range(200):
        row = draw.randrange(5)
        nvimd.api.buf_set_lines(0, row, row + 1, False, [f"line {n}"])
        screen.settle()
        lines = nvimd.api.buf_get_lines(0, 0, -1, True)
        shown = [row.rstrip() for row in screen.rows[: len(lines)]]
        assert shown == lines[: len(shown)]


def test_it_waits_for_what_others_do(nvimd, nvimd_server):
    screen = nvimd.screen(20, 5)
    with nvimd_server.connect() as other:
        other.notify("nvim_buf_set_lines", 0, 0, -1, True, ["theirs"])
        screen.wait(lambda it: it.rows[0].startswith("theirs"))
    with pytest.raises(package.Error, match="the screen doesn't come to that in 0.1 seconds"):
        screen.wait(lambda it: False, timeout=0.1)


@pytest.mark.parametrize(
    "events",
    [
        [["grid_line", [1, 9, 0, [["a", 0]], False]]],
        [["grid_line", [1, 0, 0, [["a", 7]], False]]],
        [["grid_line", [1, 0, 3, [["a", 0, 9]], False]]],
        [["grid_scroll", [1, 0, 9, 0, 4, 1, 0]]],
        [["grid_cursor_goto", [1, 0, 4]]],
        [["grid_resize", ["a"]]],
        [7],
    ],
)
def test_an_event_that_does_not_fit_is_one_line(events):
    screen = package.Screen()
    screen.take([["grid_resize", [1, 4, 3]], ["grid_clear", [1]], ["flush", []]])
    with pytest.raises(package.Unfit) as told:
        screen.take(events)
    assert "\n" not in str(told.value)
