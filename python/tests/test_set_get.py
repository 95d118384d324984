"""Lines are set and got over a child process, each reply as Neovim's API says it."""

import msgpack

import nvimd

# method, parameters, error, result
CALLS = [
    ("nvim_buf_set_lines", [0, 0, -1, True, ["a"]], None, None),
    ("nvim_buf_get_lines", [0, 0, -1, True], None, ["a"]),
    ("nvim_buf_set_lines", [1, 1, 1, True, ["b", "c"]], None, None),
    ("nvim_buf_get_lines", [0, -3, -1, True], None, ["b", "c"]),
    ("nvim_buf_get_lines", [0, 3, 1, False], None, []),
    ("nvim_buf_set_lines", [0, 9, 9, True, ["x"]], [1, "Index out of bounds"], None),
    ("nvim_buf_set_lines", [0, 3, 1, False, ["y"]], [1, "'start' is higher than 'end'"], None),
    ("nvim_buf_set_lines", [0, 0, 1, True, ["a\nb"]], [1, "String cannot contain newlines"], None),
    ("nvim_buf_get_lines", [7, 0, -1, True], [1, "Invalid buffer id: 7"], None),
    ("nvim_buf_get_lines", [0, 0], [1, "Wrong number of arguments: expecting 4 but got 2"], None),
    (
        "nvim_buf_get_lines",
        [0, "0", -1, True],
        [1, "Wrong type for argument 2 when calling nvim_buf_get_lines, expecting Integer"],
        None,
    ),
    ("nvim_nope", [], [0, "Invalid method: nvim_nope"], None),
    ("nvim_buf_set_lines", [msgpack.ExtType(0, b"\x01"), 0, -1, 1, []], None, None),
    ("nvim_buf_get_lines", [0, 0, -1, True], None, [""]),
]


def test_each_reply(check):
    nvim = nvimd.start()
    for method, params, error, result in CALLS:
        check.same(f"{method}{params}", nvim.ask(method, *params), (error, result))
    # a notification that succeeds is answered by nothing, one that fails by an event
    nvim.notify("nvim_buf_set_lines", 0, 0, -1, True, ["z"])
    nvim.notify("nvim_nope")
    nvim.process.stdin.close()
    nvim.rest()
    events = [("nvim_error_event", [0, "Invalid method: nvim_nope"])]
    check.same("notifications", nvim.pending(), events)
    check.same("status", nvim.process.wait(), 0)
