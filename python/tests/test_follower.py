"""A copy of a text that follows its changes."""

import random

import pytest

import nvimd as package


def test_it_follows_each_change(nvimd, nvimd_server):
    text = nvimd.follow()
    assert (text.lines, text.tick) == ([""], 2)
    with nvimd_server.connect() as other:
        other.api.buf_set_lines(0, 0, -1, True, ["a", "b"])
        other.api.buf_set_text(0, 1, 0, 1, 1, ["x", "y"])
        other.command("undo")
    text.settle()
    assert (text.lines, text.tick) == (["a", "b"], 5)
    changes = list(text.changes(timeout=0))
    assert changes[0] == (2, 0, -1, [""]) and changes[2] == (4, 1, 2, ["x", "y"])
    text.detach()
    assert (text.lines, text.tick) == (None, None)


def test_it_ends_with_its_buffer(nvimd):
    text = nvimd.follow(nvimd.api.create_buf(True, False))
    nvimd.api.buf_delete(text.buffer, {"force": True})
    assert len(list(text.changes())) == 1
    assert text.lines is None


@pytest.mark.seeds(1, 2, 3)
def test_it_is_the_text_through_random_changes(nvimd, seed):
    draw, text = random.Random(seed), nvimd.follow()
    for n in range(100):
        if draw.random() < 0.3:
            nvimd.command(draw.choice(["undo", "redo"]))
        else:
            row = draw.randint(0, len(text.lines))
            lines = [f"{n} {k}" for k in range(draw.randrange(3))]
            nvimd.api.buf_set_lines(0, row, row + draw.randrange(3), False, lines)
        assert text.lines == nvimd.api.buf_get_lines(0, 0, -1, True)
        assert text.tick == nvimd.api.buf_get_changedtick(0)


def test_an_event_that_does_not_fit_is_told():
    text = package.Follower()
    text.take("nvim_buf_lines_event", 2, 0, -1, ["a"])
    with pytest.raises(package.Unfit, match="lines 3 to 4 of 1 don't fit"):
        text.take("nvim_buf_lines_event", 3, 3, 4, ["b"])
