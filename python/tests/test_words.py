"""The words of the command line: those that ask for help or for the version, and those that are no
command."""

import pytest

from runs import finished

COMMANDS = "embed", "serve", "replay", "generate", "follow"
RANGES = "1 to 256", "16 to 1048576", "0 to 18446744073709551615", "1 to 4611686018427387904"
REFUSED = b"", 2, "nvimd: bad command line"
OF_COMMANDS = [[name, flag] for name in (*COMMANDS, "help") for flag in ("--help", "-h")]


@pytest.fixture(scope="module")
def manual():
    """What `--help` writes."""
    text, status, line = finished("--help")
    assert (status, line) == (0, "")
    return text


def test_it_names_commands_ranges_statuses_and_the_manual(manual):
    text = manual.decode()
    assert all(f"\n  nvimd {name} " in text for name in COMMANDS)
    assert all(found in text for found in RANGES)
    assert all(f"{status}  " in text for status in range(11))
    assert "docs/PROTOCOL.md" in text
    assert max(map(len, text.splitlines())) <= 80


@pytest.mark.parametrize(
    "words",
    [
        ["-h"],
        ["help"],
        ["--help", "embed"],
        *OF_COMMANDS,
        ["serve", "--listen", "/nowhere/socket", "--help"],
        ["embed", "--outbox", "16", "-h"],
        ["follow", "/nowhere/socket", "-h"],
    ],
    ids=" ".join,
)
def test_help_has_one_text(manual, words):
    assert finished(*words) == (manual, 0, "")


def test_the_version():
    assert finished("--version") == (b"nvimd 0.1.0\n", 0, "")


@pytest.mark.parametrize(
    "words",
    [
        [],
        ["--versions"],
        ["--version=1"],
        ["--help=1"],
        ["-V"],
        ["help", "nosuch"],
        ["nosuch", "--help"],
        ["embed", "--version"],
        ["embed", "--outbox", "3", "--help"],
        ["embed", "help"],
        ["replay", "--", "--help", "--help"],
        ["--embed"],
    ],
    ids=" ".join,
)
def test_other_words_are_refused(words):
    assert finished(*words) == REFUSED


def test_a_file_may_have_the_name_of_a_flag():
    assert finished("replay", "--", "--help")[1:] == (3, "nvimd: read fault")


@pytest.mark.parametrize("word", ["--help", "--version"])
def test_an_output_that_is_full(word):
    with open("/dev/full", "wb") as full:
        assert finished(word, into=full) == (None, 4, "nvimd: write fault")
