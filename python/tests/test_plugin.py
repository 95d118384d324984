"""The plugin for pytest: its fixtures, expected screens, snapshots, the book of a failed test."""

import os
import re
import time

import pytest

import nvimd as package

pytest_plugins = ["pytester"]
STATUS = {"bold": True, "reverse": True}


def test_an_expected_screen(nvimd, expect_screen):
    nvimd.api.buf_set_lines(0, 0, -1, True, ["one", "two | three"])
    nvimd.api.set_hl(0, "Mine", {"fg": "#ff0000"})
    nvimd.api.create_namespace("mine")
    nvimd.api.buf_set_extmark(0, 1, 0, 0, {"end_col": 3, "hl_group": "Mine"})
    expect_screen(
        """
        one
        two | three
        ~
        [No Name] [+]

        """
    )
    expect_screen(
        """
        one           |MMM
        two | three
        ~             |B
        [No Name] [+] |SSSSSSSSSSSSS

        """,
        cursor=(0, 0),
        M={"fg": "#ff0000"},
        B={"bold": True},
        S=STATUS,
    )


def test_letters_that_are_not_given_stand_for_the_attributes_in_their_order(nvimd, expect_screen):
    expect_screen(
        """

        ~             |a
        ~             |a
        [No Name]     |bbbbbbbbbbbbbb

        """
    )


def test_a_screen_that_differs_is_told_row_by_row(nvimd, expect_screen):
    nvimd.api.buf_set_lines(0, 0, -1, True, ["one", "two"])
    with pytest.raises(AssertionError) as told:
        expect_screen("one\nthree\n~\n[No Name] [+]\n\n")
    lines = str(told.value).split("\n")
    assert "-three" in lines and "+two" in lines and " one" in lines


def test_an_editor_is_fresh_and_soon_there():
    times = []
    for _ in range(20):
        start = time.perf_counter()
        server = package.Server()
        session = server.connect()
        assert session.api.buf_line_count(0) == 1
        times.append(time.perf_counter() - start)
        session.close()
        server.kill()
    print(f"the fastest of 20: {min(times) * 1e3:.1f} ms")
    assert min(times) < 0.1


def test_the_next_server_starts_while_a_test_runs(pytester):
    pytester.makepyfile(
        """
        import pytest

        @pytest.mark.parametrize("number", range(3))
        def test_it(nvimd, nvimd_server, nvimd_servers, number):
            assert nvimd.api.buf_get_lines(0, 0, -1, True) == [""]
            nvimd.api.buf_set_lines(0, 0, -1, True, ["mine"])
            print("now", nvimd_server.process.pid, "next", nvimd_servers.next.process.pid)
        """
    )
    result = pytester.runpytest("-p", "nvimd.plugin", "-s")
    result.assert_outcomes(passed=3)
    pairs = re.findall(r"now (\d+) next (\d+)", result.stdout.str())
    first, second, third = pairs
    assert (first[1], second[1]) == (second[0], third[0])
    pids = {pid for pair in pairs for pid in pair}
    assert len(pids) == 4 and not any(os.path.exists(f"/proc/{pid}") for pid in pids)


def test_a_server_that_ends_by_itself_fails_its_test(pytester):
    pytester.makepyfile(
        """
        import signal

        def test_it(nvimd_server):
            nvimd_server.process.send_signal(signal.SIGSEGV)
            nvimd_server.process.wait()

        def test_the_next_one(nvimd):
            assert nvimd.api.buf_line_count(0) == 1
        """
    )
    result = pytester.runpytest("-p", "nvimd.plugin")
    result.assert_outcomes(passed=2, errors=1)
    assert "the server ended with status -11" in result.stdout.str()


def test_a_failed_test_leaves_its_book(pytester):
    pytester.makepyfile(
        """
        def test_wrong(nvimd):
            nvimd.api.buf_set_lines(0, 0, -1, True, ["left behind"])
            assert nvimd.api.buf_line_count(0) == 7
        """
    )
    result = pytester.runpytest("-p", "nvimd.plugin")
    result.assert_outcomes(failed=1)
    told = result.stdout.str()
    path = re.search(r"the book of this test: (\S+)", told).group(1)
    entry = int(re.search(r"--until (\d+)", told).group(1))
    assert "nvimd replay" in told and "python3 -m nvimd.cast" in told
    assert package.Book(path).texts(entry)[1][1] == ["left behind"]


def test_snapshots_are_written_by_a_flag(pytester):
    pytester.makepyfile(
        """
        def test_screen(nvimd, expect_screen):
            nvimd.screen(20, 5)
            nvimd.api.buf_set_lines(0, 0, -1, True, [open("text").read()])
            expect_screen()
        """
    )
    pytester.makefile("", text="one")
    words = ["-p", "nvimd.plugin"]
    result = pytester.runpytest(*words)
    result.assert_outcomes(failed=1)
    assert "no snapshot" in result.stdout.str()
    pytester.runpytest(*words, "--snapshot-update").assert_outcomes(passed=1)
    pytester.runpytest(*words).assert_outcomes(passed=1)
    pytester.makefile("", text="two")
    result = pytester.runpytest(*words)
    result.assert_outcomes(failed=1)
    assert "-one" in result.stdout.str() and "+two" in result.stdout.str()
