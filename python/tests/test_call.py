"""Calls from the shell."""

import json

import pytest


@pytest.fixture
def call(module, nvimd_server):
    return lambda *words: module("call", nvimd_server.address, *words)


def test_json_in_and_out(call):
    assert call("nvim_buf_set_lines", "0", "0", "-1", "true", '["é", "b"]') == (0, "null\n", "")
    status, out, said = call("nvim_buf_get_lines", "0", "0", "-1", "true")
    assert (status, json.loads(out), said) == (0, ["é", "b"], "")
    assert call("nvim_list_wins") == (0, "[1000]\n", "")


def test_bytes_that_are_no_utf_8_are_escaped(call, nvimd_server):
    assert call("nvim_buf_set_lines", "0", "0", "-1", "true", r'["\udcff"]')[0] == 0
    assert call("nvim_buf_get_lines", "0", "0", "-1", "true") == (0, '["\\udcff"]\n', "")


def test_a_refused_call_is_one_line(call):
    said = "call: Invalid buffer id: 7\n"
    assert call("nvim_buf_line_count", "7") == (1, "", said)


def test_it_ends_the_server(call, nvimd_server):
    assert call("nvim_command", '"qall!"') == (0, "null\n", "")
    assert nvimd_server.process.wait(10) == 0


def test_what_is_no_json_is_one_line(call):
    status, out, said = call("nvim_command", "undo")
    assert (status, out) == (1, "")
    assert said == "call: undo is no JSON; a string is written in quotes: '\"undo\"'\n"


def test_no_server_is_one_line(module):
    said = "call: no server at /nowhere/socket: No such file or directory\n"
    assert module("call", "/nowhere/socket", "nvim_list_bufs") == (1, "", said)
