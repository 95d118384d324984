"""A session: its calls by name, handles, faults and events, and how it ends."""

import pathlib
import re

import pytest

import nvimd as package
from nvimd.program import TOP

PAGE = pathlib.Path(TOP, "docs", "PROTOCOL.md").read_text(encoding="utf-8")


def test_methods_are_called_by_their_names(nvimd):
    nvimd.api.buf_set_lines(0, 0, -1, True, ["one", "two"])
    assert nvimd.call("nvim_buf_get_lines", 0, 0, -1, True) == ["one", "two"]
    assert nvimd.api.buf_line_count(0) == 2
    nvimd.command("undo")
    assert nvimd.api.buf_get_lines(0, 0, -1, True) == [""]


def test_handles_have_types_and_serve_as_arguments(nvimd):
    buffer, window, tabpage = (
        nvimd.api.get_current_buf(),
        nvimd.api.get_current_win(),
        nvimd.api.get_current_tabpage(),
    )
    assert (buffer, window, tabpage) == (1, 1000, 1)
    kinds = package.Buffer, package.Window, package.Tabpage
    assert (type(buffer), type(window), type(tabpage)) == kinds
    assert repr(window) == "Window(1000)"
    assert nvimd.api.win_get_buf(window) == buffer


def test_bytes_that_are_no_utf_8_come_back(nvimd):
    nvimd.api.buf_set_lines(0, 0, -1, True, ["\udcff", "é"])
    assert nvimd.api.buf_get_lines(0, 0, -1, True) == ["\udcff", "é"]
    assert nvimd.api.buf_get_offset(0, 1) == 2


@pytest.mark.parametrize(
    "fault, method, params",
    [
        (package.InvalidMethod, "nvim_nope", []),
        (package.WrongNumberOfArguments, "nvim_buf_line_count", []),
        (package.WrongType, "nvim_buf_line_count", ["x"]),
        (package.InvalidBuffer, "nvim_buf_line_count", [7]),
        (package.InvalidKey, "nvim_buf_delete", [0, {"now": True}]),
        (package.InvalidValue, "nvim_set_option_value", ["tabstop", 0, {}]),
        (package.OutOfBounds, "nvim_buf_get_lines", [0, 0, 9, True]),
        (package.LastOne, "nvim_win_close", [0, True]),
        (package.UnknownName, "nvim_command", ["nope"]),
        (package.UiNotAttached, "nvim_ui_detach", []),
    ],
)
def test_faults_have_names(nvimd, fault, method, params):
    with pytest.raises(fault) as told:
        nvimd.call(method, *params)
    assert isinstance(told.value, package.Fault)
    assert [told.value.kind, told.value.message] == nvimd.ask(method, *params)[0]


def test_each_fault_of_the_page_has_a_name():
    messages = re.findall(r"is\s+refused\s+by\s+`\[[01], \"(.*?)\"\]`", PAGE, re.DOTALL)
    assert len(messages) >= 20
    for message in messages:
        fault = package.Fault.of([1, " ".join(message.split())])
        assert type(fault) is not package.Fault, message


def test_events_come_one_after_another(nvimd):
    assert nvimd.api.buf_attach(0, True, {}) is True
    nvimd.api.buf_set_lines(0, 0, -1, True, ["a"])
    names = [event.name for event in nvimd.events(timeout=0)]
    assert names == ["nvim_buf_lines_event", "nvim_buf_lines_event"]
    assert nvimd.pending() == []


def test_what_comes_after_a_reply_waits_for_the_next_look(nvimd):
    text = nvimd.follow()
    nvimd.post("nvim_buf_get_changedtick", 0)
    nvimd.post("nvim_buf_set_lines", 0, 0, -1, True, ["a"])
    last = nvimd.post("nvim_buf_get_changedtick", 0)
    nvimd.is_ready(10)
    assert nvimd.answer(last - 2) == (None, 2) and text.tick == 2
    assert nvimd.answer(last) == (None, 3) and text.tick == 3


def test_a_notification_that_fails_is_an_event(nvimd):
    nvimd.notify("nvim_nope")
    nvimd.api.list_bufs()
    event = ("nvim_error_event", [0, "Invalid method: nvim_nope"])
    assert nvimd.pending() == [event]


def test_requests_may_be_sent_ahead(nvimd):
    calls = [("nvim_buf_line_count", [0]), ("nvim_nope", []), ("nvim_list_wins", [])]
    numbers = nvimd.post_all(calls)
    errors = [nvimd.answer(number)[0] for number in numbers]
    assert errors == [None, [0, "Invalid method: nvim_nope"], None]


def test_sessions_of_one_server_share_a_text(nvimd, nvimd_server):
    with nvimd_server.connect() as other:
        other.api.buf_set_lines(0, 0, -1, True, ["theirs"])
        assert nvimd.api.buf_get_lines(0, 0, -1, True) == ["theirs"]
        assert other.api.get_api_info()[0] != nvimd.api.get_api_info()[0]


def test_a_child_ends_with_its_session():
    with package.start() as session:
        assert session.api.buf_line_count(0) == 1
    assert session.process.returncode == 0


def test_a_server_that_ends_is_one_line(nvimd):
    nvimd.command("qall!")
    with pytest.raises(package.Ended, match="^the server ended at byte [0-9]+ of what it sent$"):
        nvimd.api.list_bufs()
    assert list(nvimd.events()) == []


@pytest.mark.parametrize(
    "command, words",
    [
        (["/nowhere/program"], "no program /nowhere/program: No such file or directory"),
        (["true"], "the server ended at byte 0 of what it sent, with status 0"),
        (["printf", r"\301"], "what the server sent is no MessagePack"),
        (["printf", r"\221\001"], "what the server sent is no message"),
        (["printf", r"\224\001"], "the server ended inside a message, at byte 0"),
        (["sleep", "60"], "the server doesn't answer within 0.1 seconds"),
    ],
)
def test_what_is_no_server_is_one_line(command, words):
    with pytest.raises(package.Error, match=re.escape(words)):
        with package.start(command) as session:
            session.timeout = 0.1 if command[0] == "sleep" else 10
            session.api.list_bufs()


@pytest.mark.parametrize("address", ["/nowhere/socket", "127.0.0.1:1", "nowhere.invalid:x", ""])
def test_an_address_without_a_server_is_one_line(address):
    with pytest.raises(package.Ended, match=f"^no server at {address}: "):
        package.connect(address)


def test_a_server_without_its_program_is_one_line():
    with pytest.raises(package.Ended, match="^no program /nowhere/program"):
        package.Server(command=["/nowhere/program"])
    with pytest.raises(package.Ended, match="^the server ended with status 1$"):
        package.Server(command=["false"])


def test_a_program_that_is_nowhere_is_one_line(monkeypatch):
    monkeypatch.setenv("NVIMD", "/nowhere/nvimd")
    package.program.cache_clear()
    try:
        with pytest.raises(package.Ended, match="^no program /nowhere/nvimd"):
            package.start()
    finally:
        package.program.cache_clear()
