#!/usr/bin/python3
"""Goes through pynvim: buffers, undo, options, faults, extmarks, highlight groups, windows,
tabpages, events of buffers and the screen of a UI, with what each must answer; over `nvimd embed`
as a child process, by pynvim's own `attach`, or over a socket, where two sessions then work on one
text at once. Wants Debian's python3-pynvim.
"""

import threading

import pynvim

import nvimd
from check import Check, Words, run
from nvimd.screen import OPTIONS


MOST_SECONDS = 120
check = Check()
same = check.same


def refused(what, call, message):
    try:
        same(what, call(), f"refused: {message}")
    except pynvim.NvimError as error:
        told = error.args[0]
        same(what, told.decode() if isinstance(told, bytes) else told, message)


def buffers(nvim):
    first = nvim.current.buffer
    first[:] = ["one", "two", "three"]
    same("lines", first[:], ["one", "two", "three"])
    same("a line", first[1], "two")
    first.append("four")
    del first[0]
    same("edited", first[:], ["two", "three", "four"])
    same("line count", len(first), 3)
    same("changedtick", nvim.api.buf_get_changedtick(first), 5)
    second = nvim.api.create_buf(True, False)
    second.name = "second"
    same("buffers", [b.number for b in nvim.buffers], [1, 2])
    same("name", second.name, "second")
    nvim.current.buffer = second
    same("current buffer", nvim.current.buffer.number, 2)
    refused("name taken", lambda: nvim.api.buf_set_name(first, "second"), "Name already in use")
    second[:] = ["x"]
    refused("unsaved", lambda: nvim.api.buf_delete(second, {}), "Unsaved changes, use force")
    nvim.api.buf_delete(second, {"force": True})
    same("buffers left", [b.number for b in nvim.buffers], [1])
    same("deleted", second.valid, False)


def undo(nvim):
    buffer = nvim.current.buffer
    before = buffer[:]
    nvim.api.call_atomic(
        [
            ["nvim_buf_set_lines", [0, 0, 0, True, ["a"]]],
            ["nvim_buf_set_lines", [0, 0, 0, True, ["b"]]],
        ]
    )
    same("two calls in one", buffer[:2], ["b", "a"])
    nvim.command("undo")
    same("undone as one change", buffer[:], before)
    nvim.command("redo")
    same("made again", buffer[:2], ["b", "a"])
    refused("undo 99", lambda: nvim.command("undo 99"), "Index out of bounds")
    refused("a command", lambda: nvim.command("quit"), "Unknown name: quit")
    answer = nvim.api.call_atomic([["nvim_buf_line_count", [0]], ["nvim_nope", []]])
    same("calls in one, refused", answer, [[len(buffer)], [1, 0, "Invalid method: nvim_nope"]])


def options(nvim):
    same("tabstop", nvim.api.get_option_value("tabstop", {}), 8)
    nvim.api.set_option_value("tabstop", 4, {})
    same("tabstop put", nvim.api.get_option_value("tabstop", {}), 4)
    nvim.api.set_option_value("modifiable", False, {})
    refused(
        "not modifiable",
        lambda: nvim.api.buf_set_lines(0, 0, 1, True, ["q"]),
        "Buffer is not 'modifiable'",
    )
    nvim.api.set_option_value("modifiable", True, {})
    refused(
        "tabstop 0",
        lambda: nvim.api.set_option_value("tabstop", 0, {}),
        "Invalid value for key: tabstop",
    )


def faults(nvim):
    refused("no method", lambda: nvim.request("nvim_nope"), "Invalid method: nvim_nope")
    refused(
        "count",
        lambda: nvim.request("nvim_buf_line_count"),
        "Wrong number of arguments: expecting 1 but got 0",
    )
    refused(
        "type",
        lambda: nvim.request("nvim_buf_line_count", "x"),
        "Wrong type for argument 1 when calling nvim_buf_line_count, expecting Buffer",
    )
    refused("no buffer", lambda: nvim.request("nvim_buf_line_count", 7), "Invalid buffer id: 7")
    refused(
        "newline",
        lambda: nvim.api.buf_set_lines(0, 0, 1, True, ["a\nb"]),
        "String cannot contain newlines",
    )


def marks(nvim):
    buffer = nvim.current.buffer
    buffer[:] = ["abcdef", "xy"]
    names = nvim.api.get_namespaces()
    same("no namespace", names, {})
    first = nvim.api.create_namespace("first")
    second = nvim.api.create_namespace("second")
    same("namespaces", nvim.api.get_namespaces(), {"first": first, "second": second})
    same("a known name", nvim.api.create_namespace("first"), first)
    same("a mark", buffer.api.set_extmark(first, 0, 3, {"right_gravity": False}), 1)
    same("another", buffer.api.set_extmark(first, 0, 3, {}), 2)
    buffer.api.set_text(0, 3, 0, 3, ["XY"])
    same("moved by text", buffer.api.get_extmarks(first, 0, -1, {}), [[1, 0, 3], [2, 0, 5]])
    same("in reverse", buffer.api.get_extmarks(first, -1, 0, {"limit": 1}), [[2, 0, 5]])
    listings = [
        ["nvim_buf_get_extmarks", [0, first, 0, -1, {}]],
        ["nvim_buf_get_extmarks", [0, first, [1, 0], -1, {}]],
    ]
    same(
        "listed by calls in one",
        nvim.api.call_atomic(listings),
        [[[[1, 0, 3], [2, 0, 5]], []], None],
    )
    same("by id", buffer.api.get_extmark_by_id(first, 2, {}), [0, 5])
    same("by another id", buffer.api.get_extmark_by_id(first, 9, {}), [])
    same("coloured", buffer.api.set_extmark(second, 1, 0, {"end_col": 2, "hl_group": "NonText"}), 1)
    details = {
        "ns_id": second,
        "right_gravity": True,
        "priority": 4096,
        "end_row": 1,
        "end_col": 2,
        "end_right_gravity": False,
        "hl_group": "NonText",
        "hl_eol": False,
    }
    same(
        "overlap",
        buffer.api.get_extmarks(second, [1, 1], -1, {"overlap": True, "details": True}),
        [[1, 1, 0, details]],
    )
    nvim.command("undo")
    same("moved back by undo", buffer.api.get_extmarks(first, 0, -1, {}), [[1, 0, 3], [2, 0, 3]])
    same("removed", buffer.api.del_extmark(first, 1), True)
    same("removed before", buffer.api.del_extmark(first, 1), False)
    buffer.api.clear_namespace(-1, 0, 1)
    same("cleared", buffer.api.get_extmarks(-1, 0, -1, {}), [[1, 1, 0]])
    refused("no namespace of 9", lambda: buffer.api.set_extmark(9, 0, 0, {}), "Index out of bounds")
    refused("a row outside", lambda: buffer.api.set_extmark(first, 9, 0, {}), "Index out of bounds")
    refused("a key", lambda: buffer.api.set_extmark(first, 0, 0, {"nope": 1}), "Invalid key: nope")
    same("the last id", buffer.api.set_extmark(first, 0, 0, {"id": 4294967295}), 4294967295)
    refused("no id left", lambda: buffer.api.set_extmark(first, 0, 0, {}), "No id left")


def groups(nvim):
    same("a link", nvim.api.get_hl(0, {"name": "EndOfBuffer"}), {"link": "NonText"})
    same("no group", nvim.api.get_hl(0, {"name": "Nope"}), {})
    nvim.api.set_hl(0, "Mine", {"fg": "#0a00Ff", "bold": True})
    same("a group", nvim.api.get_hl(0, {"name": "Mine"}), {"fg": 0x0A00FF, "bold": True})
    nvim.api.set_hl(0, "Mine", {"fg": 1, "default": True})
    same("it stays", nvim.api.get_hl(0, {"name": "Mine"}), {"fg": 0x0A00FF, "bold": True})
    same("its id", nvim.api.get_hl_id_by_name("Mine"), 8)
    refused(
        "a colour", lambda: nvim.api.set_hl(0, "Mine", {"fg": "red"}), "Invalid value for key: fg"
    )
    refused("namespace 1", lambda: nvim.api.set_hl(1, "Mine", {}), "Index out of bounds")


def windows(nvim):
    first = nvim.current.window
    same("windows", [w.handle for w in nvim.windows], [1000])
    same("size", (first.width, first.height), (80, 22))
    second = nvim.api.open_win(0, True, {"split": "right"})
    same("current window", nvim.current.window.handle, second.handle)
    same("widths", (first.width, second.width), (40, 39))
    second.width = 20
    same("widths with a wish", (first.width, second.width), (59, 20))
    nvim.current.buffer[:] = ["ab", "cd"]
    second.cursor = (2, 1)
    same("cursor", second.cursor, [2, 1])
    refused(
        "cursor outside", lambda: nvim.api.win_set_cursor(second, [9, 0]), "Index out of bounds"
    )
    nvim.command("tabnew")
    same("tabpages", len(nvim.tabpages), 2)
    same("tabpage's number", nvim.current.tabpage.number, 2)
    nvim.command("tabclose")
    same("tabpages left", len(nvim.tabpages), 1)
    nvim.api.win_close(second, False)
    same("windows left", [w.handle for w in nvim.windows], [1000])
    refused("last window", lambda: nvim.api.win_close(first, False), "Cannot close the last one")


def tabpages(nvim):
    first = nvim.current.tabpage
    window = nvim.current.window
    nvim.command("tabnew")
    second = nvim.current.tabpage
    same("tabpages in order", [t.handle for t in nvim.tabpages], [first.handle, second.handle])
    same("its windows", [w.handle for w in second.windows], [nvim.current.window.handle])
    same("its current window", second.window.handle, nvim.current.window.handle)
    same("a window's tabpage", window.tabpage.handle, first.handle)
    same("numbers", (first.number, second.number), (1, 2))
    nvim.current.tabpage = first
    same("current tabpage", nvim.current.tabpage.handle, first.handle)
    nvim.current.window = second.window
    same("its tabpage is current", nvim.current.tabpage.handle, second.handle)
    nvim.command("tabclose")
    same("valid tabpages", (first.valid, second.valid), (True, False))
    refused("last tabpage", lambda: nvim.command("tabclose"), "Cannot close the last one")
    refused(
        "a tabpage's windows",
        lambda: nvim.api.tabpage_list_wins(second),
        f"Invalid tabpage id: {second.handle}",
    )


def splits(nvim):
    """Windows of one text beside and below each other, each with its own cursor."""
    first = nvim.current.window
    buffer = nvim.current.buffer
    buffer[:] = ["one", "two", "three"]
    below = nvim.api.open_win(buffer, False, {"split": "below", "height": 5})
    other = nvim.api.create_buf(True, False)
    left = nvim.api.open_win(other, False, {"split": "left", "win": below, "width": 10})
    same("no window was entered", nvim.current.window.handle, first.handle)
    same(
        "windows in order",
        [w.handle for w in nvim.windows],
        [first.handle, left.handle, below.handle],
    )
    same("sizes", [(w.width, w.height) for w in nvim.windows], [(80, 11), (10, 10), (69, 10)])
    same("places", [(w.row, w.col) for w in nvim.windows], [(0, 0), (12, 0), (12, 11)])
    same(
        "buffers shown",
        [w.buffer.number for w in nvim.windows],
        [buffer.number, other.number, buffer.number],
    )
    first.cursor, below.cursor = (2, 1), (3, 4)
    buffer.append("new", 0)
    same("cursors move with the text", (first.cursor, below.cursor), ([3, 1], [4, 4]))
    first.height = 5
    same("heights", [w.height for w in nvim.windows], [5, 16, 16])
    nvim.api.win_set_buf(left, buffer)
    same("a buffer put in a window", left.buffer.number, buffer.number)
    nvim.api.buf_delete(other, {})
    for window in (left, below):
        nvim.api.win_close(window, False)
    same(
        "one window",
        [(w.handle, w.width, w.height) for w in nvim.windows],
        [(first.handle, 80, 22)],
    )
    refused(
        "a wrong side",
        lambda: nvim.api.open_win(buffer, True, {"split": "up"}),
        "Invalid value for key: split",
    )


def told(nvim, count):
    """The next notifications, each with its name, buffers as numbers."""
    found = []
    for _ in range(count):
        kind, name, arguments = nvim.next_message()
        same("kind of message", kind, "notification")
        found.append(
            [name, *(a.number if isinstance(a, pynvim.api.Buffer) else a for a in arguments)]
        )
    return found


def events(nvim):
    buffer = nvim.current.buffer
    buffer[:] = ["a", "b"]
    number = buffer.number
    tick = buffer.api.get_changedtick()
    same("attached", buffer.api.attach(True, {}), True)
    buffer.append("c")
    buffer.api.set_text(0, 0, 0, 1, ["x", "y"])
    nvim.command("undo")
    same("detached", buffer.api.detach(), True)
    lines = "nvim_buf_lines_event"
    wanted = [
        [lines, number, tick, 0, -1, ["a", "b"], False],
        [lines, number, tick + 1, 2, 2, ["c"], False],
        [lines, number, tick + 2, 0, 1, ["x", "y"], False],
        [lines, number, tick + 3, 0, 2, ["a"], False],
        ["nvim_buf_detach_event", number],
    ]
    same("events", told(nvim, 5), wanted)
    same("attached without lines", buffer.api.attach(False, {}), True)
    same("its event", told(nvim, 1), [["nvim_buf_changedtick_event", number, tick + 3]])
    buffer.api.detach()
    same("its last event", told(nvim, 1), [["nvim_buf_detach_event", number]])
    nvim.request("nvim_nope", async_=True)
    same(
        "behind a notification that fails",
        told(nvim, 1),
        [["nvim_error_event", 0, "Invalid method: nvim_nope"]],
    )


def screen(nvim):
    """A UI: its screen after some calls, and that it goes and comes."""
    grid = nvimd.Screen()
    buffer = nvim.current.buffer
    buffer[:] = ["first", "second"]
    nvim.ui_attach(20, 6, **OPTIONS)
    grid.take(drawn(nvim))
    same(
        "UIs",
        [(ui["width"], ui["height"], ui["rgb"]) for ui in nvim.api.list_uis()],
        [(20, 6, True)],
    )
    same("screen", rows(grid), ["first", "second", "~", "~", "[No Name] [+]", ""])
    buffer[0] = "other"
    grid.take(drawn(nvim))
    nvim.current.window.cursor = (2, 3)
    grid.take(drawn(nvim))
    same("screen of an edit", (rows(grid)[:2], grid.cursor), (["other", "second"], (1, 3)))
    nvim.api.ui_try_resize(30, 4)
    grid.take(drawn(nvim))
    same("screen of another size", (grid.width, grid.height, rows(grid)[0]), (30, 4, "other"))
    refused("a second UI", lambda: nvim.ui_attach(20, 6, **OPTIONS), "UI already attached")
    nvim.ui_detach()
    same("no UIs", nvim.api.list_uis(), [])
    refused("no UI", lambda: nvim.api.ui_try_resize(20, 6), "UI not attached")
    nvim.ui_attach(80, 24, **OPTIONS)
    grid.take(drawn(nvim))
    nvim.ui_detach()
    same("a UI that comes again", (grid.width, grid.height, rows(grid)[1]), (80, 24, "second"))
    same("cells", (nvim.strwidth("ab\tc"), nvim.strwidth("世")), (4, 2))


def drawn(nvim):
    """The next batch."""
    kind, name, batch = nvim.next_message()
    same("a batch", (kind, name), ("notification", "redraw"))
    return batch


def rows(grid):
    return [row.rstrip() for row in grid.rows]


PARTS = [buffers, undo, options, faults, marks, groups, windows, tabpages, splits, events, screen]


def edits(path, word, count):
    """A session of its own that puts so many lines, each where the text ends at that time."""
    nvim = pynvim.attach("socket", path=path)
    for n in range(count):
        nvim.request("nvim_buf_set_lines", 1, -1, -1, True, [f"{word} {n}"])
    nvim.close()


def together(path, first, second):
    """Two sessions on one text: one edits and the other follows; then both edit at once, and a copy
    is the text."""
    same("two sessions", len({first.channel_id, second.channel_id}), 2)
    buffer = first.buffers[1]
    buffer[:] = ["zero"]
    copy = nvimd.Follower()
    second.buffers[1].api.attach(True, {})
    editors = [threading.Thread(target=edits, args=(path, word, 200)) for word in ("one", "two")]
    for editor in editors:
        editor.start()
    for n in range(200):
        second.request("nvim_buf_set_lines", 1, -1, -1, True, [f"own {n}"])
    for editor in editors:
        editor.join()
    lines = second.buffers[1][:]
    tick = second.request("nvim_buf_get_changedtick", 1)
    while copy.tick != tick:
        _, name, (_, *arguments) = second.next_message()
        copy.take(name, *arguments)
    same("a copy", copy.lines, lines)
    for word in ("one", "two", "own"):
        same(
            f"lines of {word}",
            [l for l in lines if l.startswith(word)],
            [f"{word} {n}" for n in range(200)],
        )
    second.ui_attach(30, 10, **OPTIONS)
    first.ui_attach(40, 8, **OPTIONS)
    same(
        "the screen of two UIs",
        (second.current.window.width, second.current.window.height),
        (30, 6),
    )
    same("UIs of two sessions", len(second.api.list_uis()), 2)
    first.ui_detach()
    second.buffers[1].api.detach()
    second.buffers[1][:] = ["last"]
    grid = nvimd.Screen()
    while (grid.height, grid.flushed and rows(grid)[0]) != (10, "last"):
        kind, name, batch = second.next_message()
        if name == "redraw":
            grid.take(batch)
    same("the screen of the one that stays", (grid.width, rows(grid)[:2]), (30, ["last", "~"]))
    second.close()


def over_socket(path):
    first, second = (pynvim.attach("socket", path=path) for _ in range(2))
    for part in PARTS:
        part(first)
    together(path, first, second)


def over_child():
    nvim = pynvim.attach("child", argv=[nvimd.program(), "embed"])
    same("channel", nvim.channel_id, 1)
    for part in PARTS:
        part(nvim)
    nvim.close()


def main():
    words = Words(__doc__)
    words.add_argument(
        "--serve", action="store_true", help="over a socket of a server that it starts"
    )
    words.add_argument(
        "--socket", metavar="PATH", help="over that of a server that did nothing yet"
    )
    asked = words.parse_args()
    if asked.socket:
        over_socket(asked.socket)
    elif asked.serve:
        server = nvimd.Server()
        over_socket(server.address)
        same("status", server.quit(), 0)
    else:
        over_child()
    return check.end()


if __name__ == "__main__":
    run(main, MOST_SECONDS)
