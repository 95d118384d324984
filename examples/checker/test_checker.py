"""What the checker finds is what stands in the text, whoever edits it and undoes."""

import random

import pytest

from checker import Checker, problems_in


@pytest.fixture
def checker(nvimd_server, nvimd):
    with nvimd_server.connect() as tool:
        yield Checker(tool)


def found(checker):
    """What the marks say once the checker has heard all."""
    checker.text.settle()
    checker.run(timeout=0)
    return sorted(problem for _, problem in checker.marks())


@pytest.mark.parametrize(
    "lines, problems",
    [
        (["f(a[1])", "{}"], []),
        (["f(a", "世)]"], [(1, 4, "] closes nothing")]),
        (["(]", "{"], [(0, 0, "( is never closed"), (0, 1, "] closes nothing")]),
    ],
)
def test_what_is_wrong(lines, problems):
    assert problems_in(lines)[: len(problems)] == problems


def test_it_is_shown_where_it_is(nvimd, checker, expect_screen):
    nvimd.api.buf_set_lines(0, 0, -1, True, ["f(a[1)", "ok()"])
    found(checker)
    expect_screen(
        """
        f(a[1)        |.E.E.E
        ok()
        ~             |N
        [No Name] [+] |SSSSSSSSSSSSS

        """,
        E={"fg": "#ffffff", "bg": "#c03030", "underline": True},
        N={"bold": True},
        S={"bold": True, "reverse": True},
    )


def test_a_mark_that_is_still_right_stays_through_undo(nvimd, checker):
    nvimd.api.buf_set_lines(0, 0, -1, True, ["a", "(", "b"])
    assert found(checker) == [(1, 0, "( is never closed")]
    ((number, _),) = checker.marks()
    nvimd.api.buf_set_lines(0, 0, 1, True, [])
    assert found(checker) == [(0, 0, "( is never closed")]
    nvimd.command("undo")
    assert found(checker) == [(1, 0, "( is never closed")]
    assert [mark for mark, _ in checker.marks()] == [number]


@pytest.mark.parametrize("seed", [1, 2])
def test_it_keeps_step_with_others(nvimd, checker, seed):
    draw = random.Random(seed)
    for _ in range(40):
        if draw.random() < 0.3:
            nvimd.command(draw.choice(["undo", "redo"]))
        else:
            row = draw.randrange(4)
            lines = ["".join(draw.choices("ab()[]{}", k=4)) for _ in range(draw.randrange(3))]
            nvimd.api.buf_set_lines(0, row, row + 1, False, lines)
        assert found(checker) == problems_in(nvimd.api.buf_get_lines(0, 0, -1, True))
