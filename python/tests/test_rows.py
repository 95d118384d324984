"""The stories of docs/rows through the built program, the books that they are, and those of them
that are drawn.

`-k TITLE` runs the stories of such a title. `--snapshot-update` writes the stories that are drawn,
and the books that `rt ci` has judged by the program of crates/book_check.
"""

import os
from concurrent.futures import ThreadPoolExecutor

import pytest

import nvimd
from by_chance import text_of_file
from row_file import stories_in
from runs import CRATES, DOCS, of_repository
from stories import Written, has_book, runs_of

ROWS = os.path.join(DOCS, "rows")
BOOKS = os.path.join(CRATES, "book_check")
CODEC = "codec.rows"  # has forms of its own
MOST_BYTES = 1 << 16  # of a book in the gate
AT_ONCE = 4
FILES = sorted(name for name in os.listdir(ROWS) if name.endswith(".rows") and name != CODEC)
STORIES = {
    f"{name.removesuffix('.rows')}: {story.title}": story
    for name in FILES
    for story in stories_in(os.path.relpath(os.path.join(ROWS, name)))
}


@pytest.fixture(scope="module")
def begun(request):
    """The runs of all stories that are asked for, some of them at once."""
    asked = [item.callspec.params for item in request.session.items if hasattr(item, "callspec")]
    titles = [params["title"] for params in asked if "title" in params]
    with ThreadPoolExecutor(AT_ONCE) as pool:
        yield {
            title: [pool.submit(run) for run in runs_of(nvimd.program(), STORIES[title])]
            for title in titles
        }


@pytest.mark.parametrize("title", STORIES)
def test_a_story(begun, title):
    wrong = [text for run in begun[title] for text in run.result().wrong]
    if wrong:
        pytest.fail("\n".join(wrong), pytrace=False)


def test_what_is_drawn_is_what_would_be_written(holds):
    holds(os.path.join(ROWS, "by_chance.rows"), text_of_file().encode())


def books():
    """The files of crates/book_check that the rows give: name and bytes."""
    found, names, lines = {}, [], []
    for file in FILES:
        subject = file.removesuffix(".rows")
        stories = [story for title, story in STORIES.items() if title.startswith(f"{subject}: ")]
        for number, story in enumerate(stories, 1):
            book = Written(story) if has_book(story) else None
            if book and len(book.data) <= MOST_BYTES:
                name = f"{subject}-{number:02}.book"
                found[os.path.join("data", name)] = book.data
                names.append(name)
                lines.append(f"{name}\n{book.line}\n")
    assert found, "no story has a book"
    found["args"] = "".join(f"{name}\n" for name in names).encode()
    found["stdout"] = "".join(lines).encode()
    return found


@of_repository
def test_the_books_that_are_judged_are_those_of_the_stories(request, check, holds):
    found = books()
    there = os.listdir(os.path.join(BOOKS, "data"))
    for name in sorted({os.path.join("data", name) for name in there} - {*found}):
        if request.config.getoption("--snapshot-update"):
            os.remove(os.path.join(BOOKS, name))
        else:
            check.same(f"{name} is of no story (or else --snapshot-update)", name, None)
    for name, data in found.items():
        holds(os.path.join(BOOKS, name), data)
