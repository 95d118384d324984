"""The table of test_differences.py: calls to a fresh server, one after another, and what the last
of them is answered.

A row of two is the calls and the answer of both programs; a row of four a title, the calls, the
answer of `nvimd` and that of Neovim. Calls behind `AT_ONCE` are sent without waiting for replies.
"""

AT_ONCE = "at once: "

ROWS = {
    "Arguments and faults": [
        ("nvim_nope()", 'error [0, "Invalid method: nvim_nope"]'),
        ("nvim_buf_line_count(7)", 'error [1, "Invalid buffer id: 7"]'),
        ("nvim_win_get_buf(7)", 'error [1, "Invalid window id: 7"]'),
        ("nvim_tabpage_list_wins(7)", 'error [1, "Invalid tabpage id: 7"]'),
        ("nvim_buf_get_lines(0, 0, -1, 1)", '[""]'),
        ("nvim_buf_delete(0, [])", "nil"),
        (
            'nvim_call_atomic([["nvim_buf_line_count", [0]], ["nvim_nope", []]])',
            '[[1], [1, 0, "Invalid method: nvim_nope"]]',
        ),
        ("nvim_call_atomic([])", "[[], nil]"),
        ('nvim_set_client_info("gui", {}, "ui", {}, {})', "nil"),
        ('nvim_set_client_info("gui", {"major": 1}, "nope", {}, {})', "nil"),
        (
            "The kind of a wrong number of arguments",
            "nvim_buf_line_count()",
            'error [1, "Wrong number of arguments: expecting 1 but got 0"]',
            'error [0, "Wrong number of arguments: expecting 1 but got 0"]',
        ),
        (
            "The kind of a wrong type",
            'nvim_buf_line_count("x")',
            'error [1, "Wrong type for argument 1 when calling nvim_buf_line_count, expecting '
            'Buffer"]',
            'error [0, "Wrong type for argument 1 when calling nvim_buf_line_count, expecting '
            'Buffer"]',
        ),
        (
            "The kind of a wrong type",
            'nvim_buf_get_lines(0, "0", -1, true)',
            'error [1, "Wrong type for argument 2 when calling nvim_buf_get_lines, expecting '
            'Integer"]',
            'error [0, "Wrong type for argument 2 when calling nvim_buf_get_lines, expecting '
            'Integer"]',
        ),
        (
            "The kind of a wrong type",
            "nvim_buf_get_lines(0, 0, -1, null)",
            'error [1, "Wrong type for argument 4 when calling nvim_buf_get_lines, expecting '
            'Boolean"]',
            'error [0, "Wrong type for argument 4 when calling nvim_buf_get_lines, expecting '
            'Boolean"]',
        ),
        (
            "A float is no Integer",
            "nvim_buf_get_lines(0, 0.5, -1, true)",
            'error [1, "Wrong type for argument 2 when calling nvim_buf_get_lines, expecting '
            'Integer"]',
            'error [0, "Wrong type for argument 2 when calling nvim_buf_get_lines, expecting '
            'Integer"]',
        ),
        (
            "A negative handle is an Integer",
            "nvim_buf_line_count(-1)",
            'error [1, "Invalid buffer id: -1"]',
            'error [0, "Wrong type for argument 1 when calling nvim_buf_line_count, expecting '
            'Buffer"]',
        ),
        (
            "The name of the type of a list of lines",
            'nvim_buf_set_lines(0, 0, -1, true, "x")',
            'error [1, "Wrong type for argument 5 when calling nvim_buf_set_lines, expecting '
            'Array"]',
            'error [0, "Wrong type for argument 5 when calling nvim_buf_set_lines, expecting '
            'ArrayOf(String)"]',
        ),
        (
            "The name of the type of a Dict",
            "nvim_buf_delete(0, [1])",
            'error [1, "Wrong type for argument 2 when calling nvim_buf_delete, expecting Dict"]',
            'error [0, "Wrong type for argument 2 when calling nvim_buf_delete, expecting '
            'Dictionary"]',
        ),
        (
            "A wrong item of a list is a wrong type",
            'nvim_buf_set_lines(0, 0, -1, true, ["a", 1])',
            'error [1, "Wrong type for argument 5 when calling nvim_buf_set_lines, expecting '
            'Array"]',
            'error [1, "All items in the replacement array must be strings"]',
        ),
        (
            "A wrong pair is a wrong type",
            "nvim_win_set_cursor(0, [1])",
            'error [1, "Wrong type for argument 2 when calling nvim_win_set_cursor, expecting '
            'Array"]',
            'error [1, "Argument \\"pos\\" must be a [row, col] array"]',
        ),
        (
            "A call that isn't one",
            'nvim_call_atomic([["nvim_buf_line_count"]])',
            'error [1, "Wrong type for argument 1 when calling nvim_call_atomic, expecting Array"]',
            'error [1, "Items in calls array must be arrays of size 2"]',
        ),
        (
            "A fault says the name that was called",
            'ui_try_resize(10, "x")',
            'error [1, "Wrong type for argument 2 when calling ui_try_resize, expecting Integer"]',
            'error [0, "Wrong type for argument 2 when calling nvim_ui_try_resize, expecting '
            'Integer"]',
        ),
        (
            "An event of errors as a request",
            'nvim_error_event(0, "x")',
            "nil",
            'error [0, "Invalid method: nvim_error_event"]',
        ),
        (
            "Calls in one aren't known inside themselves",
            'nvim_call_atomic([["nvim_buf_line_count", [0]], ["nvim_call_atomic", [[]]]])',
            '[[1], [1, 0, "Invalid method: nvim_call_atomic"]]',
            "[[1, [[], nil]], nil]",
        ),
        (
            "A handle is an Integer where its validity is asked",
            'nvim_buf_is_valid("x")',
            'error [1, "Wrong type for argument 1 when calling nvim_buf_is_valid, expecting '
            'Integer"]',
            'error [0, "Wrong type for argument 1 when calling nvim_buf_is_valid, expecting '
            'Buffer"]',
        ),
        (
            "Options that aren't empty",
            'nvim_buf_set_lines(0, 0, -1, true, ["abc"]); nvim_buf_get_text(0, 0, 0, 0, 1, '
            '{"nope": 1})',
            'error [1, "Invalid key: nope"]',
            'error [1, "opts dict isn\'t empty"]',
        ),
        (
            "An unknown key",
            'nvim_buf_delete(0, {"nope": 1})',
            'error [1, "Invalid key: nope"]',
            'error [1, "unexpected key: nope"]',
        ),
        (
            "An unknown key",
            'nvim_create_namespace("a"); nvim_buf_set_extmark(0, 1, 0, 0, {"nope": 1})',
            'error [1, "Invalid key: nope"]',
            "error [1, \"Invalid key: 'nope'\"]",
        ),
        (
            "A key's value of a wrong type",
            'nvim_buf_delete(0, {"force": "x"})',
            'error [1, "Invalid value for key: force"]',
            'error [1, "force is not a boolean"]',
        ),
    ],
    "Buffers": [
        ("nvim_list_bufs()", "[B1]"),
        ("nvim_get_current_buf()", "B1"),
        ("nvim_create_buf(true, false)", "B2"),
        ("nvim_create_buf(true, false); nvim_set_current_buf(2); nvim_get_current_buf()", "B2"),
        (
            "nvim_create_buf(true, false); nvim_set_current_buf(2); nvim_set_current_buf(1); "
            "nvim_list_bufs()",
            "[B1, B2]",
        ),
        ("nvim_buf_is_valid(7)", "false"),
        ("nvim_buf_is_valid(0)", "true"),
        ("nvim_buf_is_valid(1)", "true"),
        ("nvim_buf_get_name(0)", '""'),
        ('nvim_buf_set_name(0, "/tmp/a"); nvim_buf_get_name(0)', '"/tmp/a"'),
        ('nvim_buf_set_name(0, "/tmp/a"); nvim_buf_set_name(0, "")', "nil"),
        ('nvim_buf_set_name(0, "/tmp/a"); nvim_list_bufs()', "[B1]"),
        (
            'nvim_create_buf(true, false); nvim_buf_set_lines(2, 0, -1, true, ["a"]); '
            'nvim_buf_delete(2, {"force": true}); nvim_buf_is_valid(2)',
            "false",
        ),
        (
            "nvim_create_buf(true, false); nvim_buf_delete(2, {}); nvim_buf_delete(2, {})",
            'error [1, "Invalid buffer id: 2"]',
        ),
        (
            "A name is kept as it was given",
            'nvim_buf_set_name(0, "a"); nvim_buf_get_name(0)',
            '"a"',
            '"/a"',
        ),
        (
            "A name that another buffer has",
            'nvim_create_buf(true, false); nvim_buf_set_name(1, "/tmp/a"); nvim_buf_set_name(2, '
            '"/tmp/a")',
            'error [0, "Name already in use"]',
            'error [0, "Failed to rename buffer"]',
        ),
        (
            "A name with a line feed",
            'nvim_buf_set_name(0, "a\\nb")',
            'error [1, "String cannot contain newlines"]',
            "nil",
        ),
        (
            "The last buffer is deleted, and a new one takes its place",
            "nvim_buf_delete(1, {}); nvim_list_bufs()",
            "[B2]",
            "[B1]",
        ),
        (
            "A modified buffer is deleted",
            'nvim_create_buf(true, false); nvim_buf_set_lines(2, 0, -1, true, ["a"]); '
            "nvim_buf_delete(2, {})",
            'error [0, "Unsaved changes, use force"]',
            'error [0, "Failed to unload buffer."]',
        ),
        (
            "A scratch buffer is a buffer like any",
            'nvim_create_buf(true, true); nvim_buf_set_lines(2, 0, -1, true, ["a"]); '
            "nvim_buf_delete(2, {})",
            'error [0, "Unsaved changes, use force"]',
            "nil",
        ),
        (
            "The changedtick of a new buffer",
            "nvim_create_buf(true, false); nvim_buf_get_changedtick(2)",
            "2",
            "1",
        ),
    ],
    "Text": [
        ("nvim_buf_line_count(0)", "1"),
        ("nvim_create_buf(true, false); nvim_buf_line_count(2)", "1"),
        ("nvim_buf_get_changedtick(0)", "2"),
        ('nvim_buf_set_lines(0, 0, 0, true, ["a"]); nvim_buf_get_changedtick(0)', "3"),
        ('nvim_buf_set_lines(0, 0, 1, true, ["a"]); nvim_buf_get_changedtick(0)', "3"),
        (
            'nvim_buf_set_lines(0, 0, -1, true, ["a", "b", "c"]); nvim_buf_set_lines(0, 0, 2, '
            'true, ["x", "y"]); nvim_buf_get_changedtick(0)',
            "4",
        ),
        ("nvim_buf_set_lines(0, 0, -1, true, []); nvim_buf_get_changedtick(0)", "3"),
        ('nvim_buf_set_lines(0, 0, -1, true, [""]); nvim_buf_get_changedtick(0)', "3"),
        ('nvim_buf_set_lines(0, 0, -1, true, ["ab", "c"]); nvim_buf_get_offset(0, 1)', "3"),
        ('nvim_buf_set_lines(0, 0, -1, true, ["ab", "c"]); nvim_buf_get_offset(0, 2)', "5"),
        ("nvim_buf_get_offset(0, 9)", 'error [1, "Index out of bounds"]'),
        ("nvim_buf_get_offset(0, -1)", 'error [1, "Index out of bounds"]'),
        ("nvim_buf_get_lines(0, 0, -1, true)", '[""]'),
        ("nvim_buf_get_lines(0, 0, 9, true)", 'error [1, "Index out of bounds"]'),
        ("nvim_buf_get_lines(0, 0, 9, false)", '[""]'),
        ("nvim_buf_get_lines(0, 9, 10, false)", "[]"),
        ("nvim_buf_get_lines(0, -9, -1, false)", '[""]'),
        ("nvim_buf_get_lines(0, -9, -1, true)", 'error [1, "Index out of bounds"]'),
        ("nvim_buf_get_lines(0, 1, 0, true)", "[]"),
        (
            'nvim_buf_set_lines(0, 0, -1, true, ["a", "b"]); nvim_buf_get_lines(0, -2, -1, true)',
            '["b"]',
        ),
        ('nvim_buf_set_lines(0, 9, 9, true, ["a"])', 'error [1, "Index out of bounds"]'),
        (
            'nvim_buf_set_lines(0, 9, 9, false, ["a"]); nvim_buf_get_lines(0, 0, -1, true)',
            '["", "a"]',
        ),
        (
            'nvim_buf_set_lines(0, 0, 1, true, ["a\\nb"])',
            'error [1, "String cannot contain newlines"]',
        ),
        (
            'nvim_buf_set_lines(0, 0, 1, true, ["a\\u0000b"]); nvim_buf_get_lines(0, 0, -1, true)',
            '["a\\u0000b"]',
        ),
        (
            'nvim_buf_set_lines(0, 0, 0, true, ["a"]); nvim_buf_get_lines(0, 0, -1, true)',
            '["a", ""]',
        ),
        ("nvim_buf_set_lines(0, 0, -1, true, []); nvim_buf_get_lines(0, 0, -1, true)", '[""]'),
        (
            'nvim_buf_set_lines(0, 0, -1, true, ["abc"]); nvim_buf_get_text(0, 0, 1, 0, 3, {})',
            '["bc"]',
        ),
        (
            'nvim_buf_set_lines(0, 0, -1, true, ["abc"]); nvim_buf_get_text(0, 0, 0, 0, -1, {})',
            '["abc"]',
        ),
        (
            'nvim_buf_set_lines(0, 0, -1, true, ["abc"]); nvim_buf_get_text(0, 0, -2, 0, -1, {})',
            '["c"]',
        ),
        (
            'nvim_buf_set_lines(0, 0, -1, true, ["abc", "de"]); nvim_buf_get_text(0, 0, 2, 1, 1, '
            "{})",
            '["c", "d"]',
        ),
        (
            'nvim_buf_set_lines(0, 0, -1, true, ["abc", "de"]); nvim_buf_get_text(0, -1, 0, -1, '
            "-1, {})",
            '["de"]',
        ),
        (
            'nvim_buf_set_lines(0, 0, -1, true, ["abc", "de"]); nvim_buf_get_text(0, -2, 0, -1, '
            "-1, {})",
            '["abc", "de"]',
        ),
        (
            'nvim_buf_set_lines(0, 0, -1, true, ["abc"]); nvim_buf_get_text(0, 0, 0, 1, 0, {})',
            'error [1, "Index out of bounds"]',
        ),
        (
            'nvim_buf_set_text(0, 0, 0, 0, 0, ["x", "y"]); nvim_buf_get_lines(0, 0, -1, true)',
            '["x", "y"]',
        ),
        (
            'nvim_buf_set_lines(0, 0, -1, true, ["abc"]); nvim_buf_set_text(0, 0, 1, 0, 2, []); '
            "nvim_buf_get_lines(0, 0, -1, true)",
            '["ac"]',
        ),
        (
            'nvim_buf_set_lines(0, 0, -1, true, ["abc"]); nvim_buf_set_text(0, -1, 0, -1, 1, '
            '["x"]); nvim_buf_get_lines(0, 0, -1, true)',
            '["xbc"]',
        ),
        (
            'nvim_buf_set_text(0, 0, 0, 0, 0, ["a\\nb"])',
            'error [1, "String cannot contain newlines"]',
        ),
        (
            "An empty splice is no edit",
            "nvim_buf_set_lines(0, 0, 0, true, []); nvim_buf_get_changedtick(0)",
            "2",
            "3",
        ),
        (
            "An empty splice is no edit",
            'nvim_buf_set_text(0, 0, 0, 0, 0, [""]); nvim_buf_get_changedtick(0)',
            "2",
            "3",
        ),
        ("Offsets of an empty text", "nvim_buf_get_offset(0, 0)", "0", "-1"),
        ("Offsets of an empty text", "nvim_buf_get_offset(0, 1)", "1", "-1"),
        (
            "A start behind its end",
            'nvim_buf_set_lines(0, 1, 0, true, ["a"])',
            "error [1, \"'start' is higher than 'end'\"]",
            'error [1, "Argument \\"start\\" is higher than \\"end\\""]',
        ),
        (
            "A start behind its end",
            'nvim_buf_set_lines(0, 0, -1, true, ["abc"]); nvim_buf_get_text(0, 0, 2, 0, 1, {})',
            "error [1, \"'start' is higher than 'end'\"]",
            'error [1, "start_col must be less than end_col"]',
        ),
        (
            "A start behind its end",
            'nvim_buf_set_lines(0, 0, -1, true, ["abc"]); nvim_buf_set_text(0, 0, 2, 0, 1, ["x"])',
            "error [1, \"'start' is higher than 'end'\"]",
            'error [1, "start is higher than end"]',
        ),
        (
            "Text past the end of a line",
            'nvim_buf_set_lines(0, 0, -1, true, ["abc"]); nvim_buf_get_text(0, 0, 1, 0, 9, {})',
            'error [1, "Index out of bounds"]',
            '["bc"]',
        ),
        (
            "Text past the end of a line",
            'nvim_buf_set_lines(0, 0, -1, true, ["abc"]); nvim_buf_get_text(0, 0, 9, 0, 9, {})',
            'error [1, "Index out of bounds"]',
            '[""]',
        ),
        (
            "A place out of range",
            'nvim_buf_set_text(0, 0, 5, 0, 5, ["x"])',
            'error [1, "Index out of bounds"]',
            'error [1, "start_col out of bounds"]',
        ),
        (
            "A place out of range",
            'nvim_buf_set_text(0, 5, 0, 5, 0, ["x"])',
            'error [1, "Index out of bounds"]',
            'error [1, "start_row out of bounds"]',
        ),
        (
            "Column -1 is the end of the line",
            'nvim_buf_set_lines(0, 0, -1, true, ["abc"]); nvim_buf_set_text(0, 0, -1, 0, -1, '
            '["x"]); nvim_buf_get_lines(0, 0, -1, true)',
            '["abcx"]',
            '["abc"]',
        ),
    ],
    "Events": [
        (
            "nvim_buf_attach(0, true, {})",
            'true, told ["nvim_buf_lines_event", [B1, 2, 0, -1, [""], false]]',
        ),
        ("nvim_buf_attach(0, false, {})", 'true, told ["nvim_buf_changedtick_event", [B1, 2]]'),
        ("nvim_buf_attach(0, true, {}); nvim_buf_attach(0, true, {})", "true"),
        ("nvim_buf_detach(0)", "true"),
        (
            "nvim_buf_attach(0, false, {}); nvim_buf_detach(0)",
            'true, told ["nvim_buf_detach_event", [B1]]',
        ),
        (
            'nvim_buf_attach(0, true, {}); nvim_buf_set_lines(0, 0, 1, true, ["a", "b"])',
            'nil, told ["nvim_buf_lines_event", [B1, 3, 0, 1, ["a", "b"], false]]',
        ),
        (
            'nvim_buf_set_lines(0, 0, -1, true, ["abc"]); nvim_buf_attach(0, false, {}); '
            'nvim_buf_set_text(0, 0, 1, 0, 2, ["x", "y"])',
            'nil, told ["nvim_buf_lines_event", [B1, 4, 0, 1, ["ax", "yc"], false]]',
        ),
        (
            "nvim_create_buf(true, false); nvim_buf_attach(2, false, {}); nvim_buf_delete(2, {})",
            'nil, told ["nvim_buf_detach_event", [B2]]',
        ),
        (
            "An unknown key of an attach",
            'nvim_buf_attach(0, true, {"nope": 1})',
            'error [1, "Invalid key: nope"]',
            'error [1, "unexpected key: nope"]',
        ),
        (
            "An empty splice tells nothing",
            "nvim_buf_attach(0, false, {}); nvim_buf_set_lines(0, 0, 0, true, [])",
            "nil",
            'nil, told ["nvim_buf_lines_event", [B1, 3, 0, 0, [], false]]',
        ),
        (
            "All lines replaced by none leave one",
            "nvim_buf_attach(0, false, {}); nvim_buf_set_lines(0, 0, -1, true, [])",
            'nil, told ["nvim_buf_lines_event", [B1, 3, 0, 1, [""], false]]',
            'nil, told ["nvim_buf_lines_event", [B1, 3, 0, 1, [], false]]',
        ),
        (
            "Undo tells its lines alone",
            'nvim_buf_attach(0, false, {}); nvim_buf_set_lines(0, 0, 1, true, ["a", "b"]); '
            'nvim_command("undo")',
            'nil, told ["nvim_buf_lines_event", [B1, 4, 0, 2, [""], false]]',
            'nil, told ["nvim_buf_lines_event", [B1, 4, 0, 2, [""], false]], '
            '["nvim_buf_changedtick_event", [B1, 5]]',
        ),
    ],
    "Commands and undo": [
        (
            "One undo for each request, also of those that are sent at once",
            'at once: nvim_buf_set_lines(0, 0, 0, true, ["a"]); nvim_buf_set_lines(0, 0, 0, true, '
            '["b"]); nvim_command("undo"); nvim_buf_get_lines(0, 0, -1, true)',
            '["a", ""]',
            '[""]',
        ),
        (
            'nvim_call_atomic([["nvim_buf_set_lines", [0, 0, 0, true, ["a"]]], '
            '["nvim_buf_set_lines", [0, 0, 0, true, ["b"]]]]); nvim_command("undo"); '
            "nvim_buf_get_lines(0, 0, -1, true)",
            '[""]',
        ),
        ('nvim_command("undo")', "nil"),
        ('nvim_command("redo")', "nil"),
        (
            'nvim_buf_set_lines(0, 0, 0, true, ["a"]); nvim_command("undo"); '
            'nvim_command("redo"); nvim_buf_get_lines(0, 0, -1, true)',
            '["a", ""]',
        ),
        (
            'nvim_buf_set_lines(0, 0, 0, true, ["a"]); nvim_command("undo 0"); '
            "nvim_buf_get_lines(0, 0, -1, true)",
            '[""]',
        ),
        ('nvim_command("tabnew"); nvim_list_tabpages()', "[T1, T2]"),
        ('nvim_command("tabnew"); nvim_list_bufs()', "[B1, B2]"),
        ('nvim_command("tabnew"); nvim_command("tabclose"); nvim_list_tabpages()', "[T1]"),
        (
            'nvim_call_atomic([["nvim_buf_set_lines", [0, 0, 0, true, ["a"]]], '
            '["nvim_buf_set_lines", [0, 0, 0, true, ["b"]]]]); nvim_buf_set_lines(0, 0, 0, true, '
            '["c"]); nvim_command("undo"); nvim_buf_get_lines(0, 0, -1, true)',
            '["b", "a", ""]',
        ),
        (
            'nvim_buf_set_lines(0, 0, 0, true, ["a"]); nvim_buf_set_lines(0, 0, 0, true, ["b"]); '
            'nvim_command("undo"); nvim_buf_get_lines(0, 0, -1, true)',
            '["a", ""]',
        ),
        (
            "The changedtick behind an undo",
            'nvim_buf_set_lines(0, 0, 0, true, ["a"]); nvim_command("undo"); '
            "nvim_buf_get_changedtick(0)",
            "4",
            "5",
        ),
        (
            "Undo sets the option modified as any edit does",
            'nvim_buf_set_lines(0, 0, 0, true, ["a"]); nvim_command("undo"); '
            'nvim_get_option_value("modified", {})',
            "true",
            "false",
        ),
        (
            "A change that isn't there",
            'nvim_command("undo 9")',
            'error [1, "Index out of bounds"]',
            'error [0, "Vim(undo):E830: Undo number 9 not found"]',
        ),
        (
            "Nothing to undo in a text that may not change",
            'nvim_set_option_value("modifiable", false, {}); nvim_command("undo")',
            "nil",
            "error [0, \"Vim(undo):E21: Cannot make changes, 'modifiable' is off\"]",
        ),
        (
            "An undo in a text that may not change",
            'nvim_buf_set_lines(0, 0, 0, true, ["a"]); nvim_set_option_value("modifiable", false, '
            '{}); nvim_command("undo")',
            "error [0, \"Buffer is not 'modifiable'\"]",
            "error [0, \"Vim(undo):E21: Cannot make changes, 'modifiable' is off\"]",
        ),
        (
            "An unknown command",
            'nvim_command("nope")',
            'error [0, "Unknown name: nope"]',
            'error [0, "Vim:E492: Not an editor command: nope"]',
        ),
        (
            "An unknown spelling of a command",
            'nvim_command(" undo")',
            'error [0, "Unknown name:  undo"]',
            "nil",
        ),
        ("An empty command", 'nvim_command("")', 'error [0, "Unknown name: "]', "nil"),
        (
            "The last tabpage is closed",
            'nvim_command("tabclose")',
            'error [0, "Cannot close the last one"]',
            'error [0, "Vim(tabclose):E784: Cannot close last tab page"]',
        ),
        ("The end of the server is answered", 'nvim_command("qall!")', "nil", "no reply"),
        ("The end of the server is answered", 'nvim_command("qa!")', "nil", "no reply"),
    ],
    "Options": [
        ('nvim_get_option_value("tabstop", {})', "8"),
        ('nvim_set_option_value("tabstop", 4, {}); nvim_get_option_value("tabstop", {})', "4"),
        ('nvim_get_option_value("modified", {})', "false"),
        ('nvim_buf_set_lines(0, 0, 0, true, ["a"]); nvim_get_option_value("modified", {})', "true"),
        ('nvim_get_option_value("modifiable", {})', "true"),
        ('nvim_get_option_value("buflisted", {})', "true"),
        (
            'nvim_set_option_value("modifiable", false, {}); nvim_buf_set_lines(0, 0, 0, true, '
            '["a"])',
            "error [0, \"Buffer is not 'modifiable'\"]",
        ),
        (
            'nvim_set_option_value("modifiable", false, {}); nvim_buf_set_text(0, 0, 0, 0, 0, '
            '["a"])',
            "error [0, \"Buffer is not 'modifiable'\"]",
        ),
        ('nvim_get_option_value("tabstop", {"scope": "local"})', "8"),
        (
            'nvim_set_option_value("modified", true, {}); nvim_get_option_value("modified", {})',
            "true",
        ),
        (
            "An unknown option",
            'nvim_get_option_value("nope", {})',
            'error [0, "Unknown name: nope"]',
            "error [1, \"unknown option 'nope'\"]",
        ),
        (
            "An option that isn't here",
            'nvim_get_option_value("number", {})',
            'error [0, "Unknown name: number"]',
            "false",
        ),
        (
            "A value out of range",
            'nvim_set_option_value("tabstop", 0, {})',
            'error [1, "Invalid value for key: tabstop"]',
            'error [0, "E487: Argument must be positive"]',
        ),
        (
            "A value of a wrong type",
            'nvim_set_option_value("tabstop", "x", {})',
            'error [1, "Invalid value for key: tabstop"]',
            "nil",
        ),
        (
            "A scope has no effect",
            'nvim_get_option_value("tabstop", {"scope": "nope"})',
            "8",
            "error [1, \"invalid scope: must be 'local' or 'global'\"]",
        ),
        (
            "The key buf, of later releases",
            'nvim_get_option_value("tabstop", {"buf": 1})',
            "8",
            "error [1, \"Invalid key: 'buf'\"]",
        ),
    ],
    "Extmarks": [
        ('nvim_create_namespace("a"); nvim_create_namespace("b")', "2"),
        ('nvim_create_namespace("a"); nvim_create_namespace("a")', "1"),
        ('nvim_create_namespace(""); nvim_create_namespace("")', "2"),
        (
            'nvim_create_namespace("b"); nvim_create_namespace("a"); nvim_get_namespaces()',
            '{"a": 2, "b": 1}',
        ),
        ("nvim_get_namespaces()", "{}"),
        ('nvim_create_namespace("a"); nvim_buf_set_extmark(0, 1, 0, 0, {})', "1"),
        ('nvim_create_namespace("a"); nvim_buf_set_extmark(0, 1, 0, 0, {"id": 7})', "7"),
        (
            'nvim_create_namespace("a"); nvim_buf_set_extmark(0, 1, 0, 0, {"id": 7}); '
            "nvim_buf_set_extmark(0, 1, 0, 0, {})",
            "8",
        ),
        (
            'nvim_create_namespace("a"); nvim_buf_set_extmark(0, 1, 0, 0, {"id": 7}); '
            "nvim_buf_del_extmark(0, 1, 7); nvim_buf_set_extmark(0, 1, 0, 0, {})",
            "8",
        ),
        (
            'nvim_create_namespace("a"); nvim_buf_set_extmark(0, 1, 0, 0, {}); '
            "nvim_buf_del_extmark(0, 1, 1); nvim_buf_set_extmark(0, 1, 0, 0, {})",
            "2",
        ),
        ('nvim_create_namespace("a"); nvim_buf_set_extmark(0, 1, 1, 0, {})', "1"),
        ('nvim_create_namespace("a"); nvim_buf_set_extmark(0, 1, 0, -1, {})', "1"),
        (
            'nvim_buf_set_lines(0, 0, -1, true, ["abc"]); nvim_create_namespace("a"); '
            "nvim_buf_set_extmark(0, 1, 0, -1, {}); nvim_buf_get_extmarks(0, 1, 0, -1, {})",
            "[[1, 0, 3]]",
        ),
        (
            'nvim_create_namespace("a"); nvim_buf_set_extmark(0, 1, 9, 0, {"strict": false}); '
            "nvim_buf_get_extmarks(0, 1, 0, -1, {})",
            "[[1, 1, 0]]",
        ),
        (
            'nvim_create_namespace("a"); nvim_buf_set_extmark(0, 1, 0, 0, {"hl_group": "Mine", '
            '"end_col": 0})',
            "1",
        ),
        ('nvim_create_namespace("a"); nvim_buf_del_extmark(0, 1, 7)', "false"),
        (
            'nvim_create_namespace("a"); nvim_buf_set_extmark(0, 1, 0, 0, {}); '
            "nvim_buf_del_extmark(0, 1, 1)",
            "true",
        ),
        ('nvim_create_namespace("a"); nvim_buf_get_extmark_by_id(0, 1, 7, {})', "[]"),
        (
            'nvim_create_namespace("a"); nvim_buf_set_extmark(0, 1, 0, 0, {}); '
            'nvim_buf_set_lines(0, 0, 0, true, ["x"]); nvim_buf_get_extmark_by_id(0, 1, 1, {})',
            "[1, 0]",
        ),
        (
            'nvim_create_namespace("a"); nvim_buf_set_extmark(0, 1, 0, 0, {}); '
            "nvim_buf_set_extmark(0, 1, 1, 0, {}); nvim_buf_get_extmarks(0, 1, -1, 0, {})",
            "[[2, 1, 0], [1, 0, 0]]",
        ),
        ('nvim_create_namespace("a"); nvim_buf_get_extmarks(0, 1, 0, -1, {})', "[]"),
        (
            'nvim_create_namespace("a"); nvim_buf_set_extmark(0, 1, 0, 0, {}); '
            'nvim_buf_get_extmarks(0, 1, 0, -1, {"limit": 1})',
            "[[1, 0, 0]]",
        ),
        ('nvim_create_namespace("a"); nvim_buf_get_extmarks(0, 1, [0, 0], [9, 9], {})', "[]"),
        (
            'nvim_create_namespace("a"); nvim_buf_set_extmark(0, 1, 0, 0, {}); '
            "nvim_buf_get_extmarks(0, 1, [0, 0], [-1, -1], {})",
            "[[1, 0, 0]]",
        ),
        (
            'nvim_create_namespace("a"); nvim_buf_set_extmark(0, 1, 0, 0, {"id": 1}); '
            'nvim_buf_set_extmark(0, 1, 0, 0, {"id": 2, "right_gravity": false}); '
            "nvim_buf_get_extmarks(0, 1, 0, -1, {})",
            "[[2, 0, 0], [1, 0, 0]]",
        ),
        (
            'nvim_buf_set_lines(0, 0, -1, true, ["abc"]); nvim_create_namespace("a"); '
            'nvim_buf_set_extmark(0, 1, 0, 1, {}); nvim_buf_set_text(0, 0, 1, 0, 1, ["x"]); '
            "nvim_buf_get_extmarks(0, 1, 0, -1, {})",
            "[[1, 0, 2]]",
        ),
        (
            'nvim_buf_set_lines(0, 0, -1, true, ["abc"]); nvim_create_namespace("a"); '
            'nvim_buf_set_extmark(0, 1, 0, 1, {"right_gravity": false}); nvim_buf_set_text(0, 0, '
            '1, 0, 1, ["x"]); nvim_buf_get_extmarks(0, 1, 0, -1, {})',
            "[[1, 0, 1]]",
        ),
        (
            'nvim_buf_set_lines(0, 0, -1, true, ["abc"]); nvim_create_namespace("a"); '
            'nvim_buf_set_extmark(0, 1, 0, 2, {"right_gravity": false}); nvim_buf_set_text(0, 0, '
            '1, 0, 3, ["xyz"]); nvim_buf_get_extmarks(0, 1, 0, -1, {})',
            "[[1, 0, 1]]",
        ),
        (
            'nvim_buf_set_lines(0, 0, -1, true, ["abc"]); nvim_create_namespace("a"); '
            'nvim_buf_set_extmark(0, 1, 0, 2, {}); nvim_buf_set_text(0, 0, 1, 0, 3, ["xyz"]); '
            "nvim_buf_get_extmarks(0, 1, 0, -1, {})",
            "[[1, 0, 4]]",
        ),
        (
            'nvim_buf_set_lines(0, 0, -1, true, ["abc"]); nvim_create_namespace("a"); '
            'nvim_buf_set_extmark(0, 1, 0, 2, {}); nvim_buf_set_lines(0, 0, 1, true, ["xyz"]); '
            "nvim_buf_get_extmarks(0, 1, 0, -1, {})",
            "[[1, 1, 0]]",
        ),
        (
            'nvim_create_namespace("a"); nvim_buf_set_extmark(0, 1, 0, 0, {}); '
            "nvim_buf_clear_namespace(0, 1, 0, -1); nvim_buf_get_extmarks(0, 1, 0, -1, {})",
            "[]",
        ),
        (
            'nvim_create_namespace("a"); nvim_buf_set_extmark(0, 1, 0, 0, {}); '
            "nvim_buf_clear_namespace(0, -1, 0, -1); nvim_buf_get_extmarks(0, 1, 0, -1, {})",
            "[]",
        ),
        ('nvim_create_namespace("a"); nvim_buf_clear_namespace(0, 1, 0, 99)', "nil"),
        (
            "The order of marks at one place",
            'nvim_create_namespace("a"); nvim_buf_set_extmark(0, 1, 0, 0, {"id": 2}); '
            'nvim_buf_set_extmark(0, 1, 0, 0, {"id": 1}); nvim_buf_get_extmarks(0, 1, 0, -1, {})',
            "[[1, 0, 0], [2, 0, 0]]",
            "[[2, 0, 0], [1, 0, 0]]",
        ),
        (
            "All namespaces, as in later releases",
            'nvim_create_namespace("a"); nvim_buf_set_extmark(0, 1, 0, 0, {}); '
            "nvim_buf_get_extmarks(0, -1, 0, -1, {})",
            "[[1, 0, 0]]",
            'error [1, "Invalid ns_id"]',
        ),
        (
            "The key overlap, of later releases",
            'nvim_create_namespace("a"); nvim_buf_set_extmark(0, 1, 0, 0, {}); '
            'nvim_buf_get_extmarks(0, 1, 0, -1, {"overlap": true})',
            "[[1, 0, 0]]",
            'error [1, "unexpected key: overlap"]',
        ),
        (
            "A namespace that wasn't made",
            "nvim_buf_set_extmark(0, 9, 0, 0, {})",
            'error [1, "Index out of bounds"]',
            'error [1, "Invalid ns_id"]',
        ),
        (
            "A namespace that wasn't made",
            "nvim_buf_clear_namespace(0, 9, 0, -1)",
            'error [1, "Index out of bounds"]',
            "nil",
        ),
        (
            "A place out of range",
            'nvim_create_namespace("a"); nvim_buf_set_extmark(0, 1, 9, 0, {})',
            'error [1, "Index out of bounds"]',
            'error [1, "line value outside range"]',
        ),
        (
            "A place out of range",
            'nvim_create_namespace("a"); nvim_buf_set_extmark(0, 1, 0, 9, {})',
            'error [1, "Index out of bounds"]',
            'error [1, "col value outside range"]',
        ),
        (
            "An end out of range",
            'nvim_create_namespace("a"); nvim_buf_set_extmark(0, 1, 0, 0, {"end_col": 9})',
            'error [1, "Index out of bounds"]',
            'error [1, "end_col value outside range"]',
        ),
        (
            "An end before the start",
            'nvim_buf_set_lines(0, 0, -1, true, ["abc"]); nvim_create_namespace("a"); '
            'nvim_buf_set_extmark(0, 1, 0, 2, {"end_row": 0, "end_col": 1})',
            "error [1, \"'start' is higher than 'end'\"]",
            "1",
        ),
        (
            "The gravity of an end that isn't there",
            'nvim_create_namespace("a"); nvim_buf_set_extmark(0, 1, 0, 0, {"end_right_gravity": '
            "true})",
            'error [1, "Invalid value for key: end_right_gravity"]',
            'error [1, "cannot set end_right_gravity without setting end_row or end_col"]',
        ),
        (
            "A number that is no group's",
            'nvim_create_namespace("a"); nvim_buf_set_extmark(0, 1, 0, 0, {"hl_group": 999999})',
            'error [0, "Unknown name: 999999"]',
            "1",
        ),
        (
            "A wrong id",
            'nvim_create_namespace("a"); nvim_buf_set_extmark(0, 1, 0, 0, {"id": 0})',
            'error [1, "Invalid value for key: id"]',
            'error [1, "id is not a positive integer"]',
        ),
        (
            "A wrong priority",
            'nvim_create_namespace("a"); nvim_buf_set_extmark(0, 1, 0, 0, {"priority": 70000})',
            'error [1, "Invalid value for key: priority"]',
            'error [1, "priority is not a valid value"]',
        ),
        (
            "No signs",
            'nvim_create_namespace("a"); nvim_buf_set_extmark(0, 1, 0, 0, {"sign_text": "x"})',
            'error [1, "Invalid key: sign_text"]',
            "1",
        ),
        (
            "Details of a mark",
            'nvim_create_namespace("a"); nvim_buf_set_extmark(0, 1, 0, 0, {}); '
            'nvim_buf_get_extmark_by_id(0, 1, 1, {"details": true})',
            '[0, 0, {"ns_id": 1, "right_gravity": true, "priority": 4096}]',
            '[0, 0, {"right_gravity": true}]',
        ),
        (
            "Details of a mark with a group",
            'nvim_create_namespace("a"); nvim_buf_set_extmark(0, 1, 0, 0, {"hl_group": "NonText", '
            '"end_col": 0}); nvim_buf_get_extmarks(0, 1, 0, -1, {"details": true})',
            '[[1, 0, 0, {"ns_id": 1, "right_gravity": true, "priority": 4096, "end_row": 0, '
            '"end_col": 0, "end_right_gravity": false, "hl_group": "NonText", "hl_eol": false}]]',
            '[[1, 0, 0, {"right_gravity": true, "end_row": 0, "end_col": 0, "end_right_gravity": '
            'false, "hl_group": "NonText", "hl_eol": false, "priority": 4096}]]',
        ),
        (
            "A place by a mark that isn't there",
            'nvim_create_namespace("a"); nvim_buf_get_extmarks(0, 1, 9, -1, {})',
            'error [1, "Index out of bounds"]',
            'error [1, "No mark with requested id"]',
        ),
        (
            "A place of a wrong form",
            'nvim_create_namespace("a"); nvim_buf_get_extmarks(0, 1, [0], -1, {})',
            'error [1, "Wrong type for argument 3 when calling nvim_buf_get_extmarks, expecting '
            'Object"]',
            'error [1, "Position must have 2 integer elements"]',
        ),
        (
            "A place before the first",
            'nvim_create_namespace("a"); nvim_buf_get_extmarks(0, 1, [-2, 0], -1, {})',
            'error [1, "Index out of bounds"]',
            "[]",
        ),
        (
            "A limit of none",
            'nvim_create_namespace("a"); nvim_buf_set_extmark(0, 1, 0, 0, {}); '
            'nvim_buf_get_extmarks(0, 1, 0, -1, {"limit": 0})',
            'error [1, "Invalid value for key: limit"]',
            "[]",
        ),
        (
            "A row out of range in clearing",
            'nvim_create_namespace("a"); nvim_buf_clear_namespace(0, 1, -1, -1)',
            'error [1, "Index out of bounds"]',
            'error [1, "Line number outside range"]',
        ),
        (
            'nvim_buf_set_lines(0, 0, -1, true, ["abc"]); nvim_create_namespace("a"); '
            'nvim_buf_set_extmark(0, 1, 0, 2, {}); nvim_buf_set_text(0, 0, 1, 0, 3, [""]); '
            'nvim_buf_set_text(0, 0, 1, 0, 1, ["z"]); nvim_command("undo"); '
            "nvim_buf_get_extmarks(0, 1, 0, -1, {})",
            "[[1, 0, 1]]",
        ),
        (
            'nvim_buf_set_lines(0, 0, -1, true, ["abc"]); nvim_create_namespace("a"); '
            'nvim_buf_set_extmark(0, 1, 0, 2, {}); nvim_buf_set_text(0, 0, 1, 0, 3, [""]); '
            'nvim_command("undo"); nvim_buf_get_extmarks(0, 1, 0, -1, {})',
            "[[1, 0, 2]]",
        ),
    ],
    "Highlight groups": [
        ('nvim_set_hl(0, "Mine", {"bold": true, "link": "NonText"})', "nil"),
        (
            "A group is read by a method of later releases",
            'nvim_set_hl(0, "Mine", {"fg": "#0000ff"}); nvim_get_hl(0, {"name": "Mine"})',
            '{"fg": 255}',
            'error [0, "Invalid method: nvim_get_hl"]',
        ),
        ("The ids of groups", 'nvim_get_hl_id_by_name("NonText")', "2", "5"),
        (
            "Names of colours",
            'nvim_set_hl(0, "Mine", {"fg": "red"})',
            'error [1, "Invalid value for key: fg"]',
            "nil",
        ),
        (
            "A colour that isn't one",
            'nvim_set_hl(0, "Mine", {"fg": "nope"})',
            'error [1, "Invalid value for key: fg"]',
            "error [1, \"'nope' is not a valid color\"]",
        ),
        (
            "A colour that isn't one",
            'nvim_set_hl(0, "Mine", {"fg": 16777216})',
            'error [1, "Invalid value for key: fg"]',
            "nil",
        ),
        (
            "A group without a name",
            'nvim_set_hl(0, "", {})',
            'error [1, "Invalid value for key: name"]',
            "nil",
        ),
        (
            "Groups of a namespace",
            'nvim_set_hl(9, "Mine", {})',
            'error [1, "Index out of bounds"]',
            "nil",
        ),
    ],
    "Windows and tabpages": [
        ("nvim_list_wins()", "[W1000]"),
        ("nvim_get_current_win()", "W1000"),
        ("nvim_win_is_valid(1000)", "true"),
        ("nvim_win_is_valid(7)", "false"),
        ("nvim_win_get_buf(0)", "B1"),
        ("nvim_create_buf(true, false); nvim_win_set_buf(0, 2); nvim_win_get_buf(0)", "B2"),
        ("nvim_win_set_buf(0, 9)", 'error [1, "Invalid buffer id: 9"]'),
        ("nvim_win_get_cursor(0)", "[1, 0]"),
        ("nvim_win_set_cursor(0, [1, 9]); nvim_win_get_cursor(0)", "[1, 0]"),
        (
            'nvim_buf_set_lines(0, 0, -1, true, ["abc"]); nvim_win_set_cursor(0, [1, 9]); '
            "nvim_win_get_cursor(0)",
            "[1, 2]",
        ),
        (
            'nvim_buf_set_lines(0, 0, -1, true, ["a", "b"]); nvim_win_set_cursor(0, [2, 0]); '
            'nvim_buf_set_lines(0, 0, 0, true, ["x"]); nvim_win_get_cursor(0)',
            "[3, 0]",
        ),
        (
            'nvim_buf_set_lines(0, 0, -1, true, ["a", "b"]); nvim_win_set_cursor(0, [2, 0]); '
            "nvim_buf_set_lines(0, 1, 2, true, []); nvim_win_get_cursor(0)",
            "[1, 0]",
        ),
        ("nvim_win_get_height(0)", "22"),
        ("nvim_win_get_width(0)", "80"),
        ("nvim_win_set_width(0, 20); nvim_win_get_width(0)", "80"),
        ("nvim_win_get_position(0)", "[0, 0]"),
        ("nvim_win_get_tabpage(0)", "T1"),
        ("nvim_list_tabpages()", "[T1]"),
        ("nvim_get_current_tabpage()", "T1"),
        ('nvim_command("tabnew"); nvim_set_current_tabpage(1); nvim_get_current_tabpage()', "T1"),
        ('nvim_command("tabnew"); nvim_get_current_win()', "W1001"),
        ("nvim_tabpage_is_valid(2)", "false"),
        ("nvim_tabpage_list_wins(0)", "[W1000]"),
        ("nvim_tabpage_get_win(0)", "W1000"),
        ('nvim_command("tabnew"); nvim_tabpage_get_number(0)', "2"),
        ("nvim_set_current_win(7)", 'error [1, "Invalid window id: 7"]'),
        ("nvim_set_current_tabpage(7)", 'error [1, "Invalid tabpage id: 7"]'),
        ("nvim_set_current_buf(7)", 'error [1, "Invalid buffer id: 7"]'),
        (
            "A split, as in later releases",
            'nvim_open_win(0, true, {"split": "right"})',
            "W1001",
            "error [1, \"Invalid key: 'split'\"]",
        ),
        (
            "No floating windows",
            'nvim_open_win(0, true, {"relative": "editor", "row": 1, "col": 1, "width": 5, '
            '"height": 2})',
            'error [1, "Invalid key: relative"]',
            "W1001",
        ),
        (
            "The last window is closed",
            "nvim_win_close(0, true)",
            'error [0, "Cannot close the last one"]',
            'error [0, "Vim:E444: Cannot close last window"]',
        ),
        (
            "A cursor out of range",
            "nvim_win_set_cursor(0, [9, 0])",
            'error [1, "Index out of bounds"]',
            'error [1, "Cursor position outside buffer"]',
        ),
        (
            "A cursor out of range",
            "nvim_win_set_cursor(0, [1, -1])",
            'error [1, "Index out of bounds"]',
            'error [1, "Column value outside range"]',
        ),
        (
            "The height of the only window",
            "nvim_win_set_height(0, 5); nvim_win_get_height(0)",
            "22",
            "5",
        ),
        (
            "A height out of range",
            "nvim_win_set_height(0, 0)",
            'error [1, "Index out of bounds"]',
            "nil",
        ),
    ],
    "UIs": [
        ("nvim_list_uis()", "[]"),
        ('nvim_ui_attach(40, 12, {"ext_linegrid": true}); nvim_win_get_width(0)', "40"),
        ('nvim_ui_attach(40, 12, {"ext_linegrid": true}); nvim_ui_detach(); nvim_list_uis()', "[]"),
        (
            'nvim_ui_attach(40, 12, {"ext_linegrid": true}); nvim_ui_try_resize(50, 20); '
            "nvim_win_get_width(0)",
            "50",
        ),
        ('nvim_strwidth("ab\\tc")', "4"),
        ('nvim_strwidth("世")', "2"),
        ('nvim_strwidth("\\u0001")', "1"),
        ('nvim_strwidth("é")', "1"),
        ('nvim_strwidth("a\\nb")', "3"),
        (
            "What is told of a UI",
            'nvim_ui_attach(40, 12, {"ext_linegrid": true}); nvim_list_uis()',
            '[{"chan": 1, "width": 40, "height": 12, "rgb": true}]',
            '[{"width": 40, "height": 12, "rgb": true, "override": false, "ext_cmdline": false, '
            '"ext_popupmenu": false, "ext_tabline": false, "ext_wildmenu": false, "ext_messages": '
            'false, "ext_linegrid": true, "ext_multigrid": false, "ext_hlstate": false, '
            '"ext_termcolors": false, "chan": 1}]',
        ),
        (
            "A session has a UI",
            'nvim_ui_attach(40, 12, {"ext_linegrid": true}); nvim_ui_attach(40, 12, '
            '{"ext_linegrid": true})',
            'error [0, "UI already attached"]',
            'error [0, "UI already attached to channel: 1"]',
        ),
        (
            "A session has no UI",
            "nvim_ui_detach()",
            'error [0, "UI not attached"]',
            'error [0, "UI not attached to channel: 1"]',
        ),
        (
            "A size out of range",
            'nvim_ui_attach(0, 0, {"ext_linegrid": true})',
            'error [1, "Index out of bounds"]',
            'error [1, "Expected width > 0 and height > 0"]',
        ),
        (
            "A size for no window",
            'nvim_ui_attach(40, 2, {"ext_linegrid": true})',
            'error [0, "Not enough room"]',
            "nil",
        ),
        (
            "The grid of lines is asked for",
            "nvim_ui_attach(40, 12, {})",
            'error [1, "Invalid value for key: ext_linegrid"]',
            "nil",
        ),
        (
            "An option of a UI that isn't one",
            'nvim_ui_attach(40, 12, {"nope": 1})',
            'error [1, "Invalid key: nope"]',
            'error [1, "No such UI option: nope"]',
        ),
        (
            "An option of a UI of a wrong type",
            'nvim_ui_attach(40, 12, {"rgb": "x"})',
            'error [1, "Invalid value for key: rgb"]',
            'error [1, "rgb must be a Boolean"]',
        ),
        (
            "A number is a truth value",
            'nvim_ui_attach(40, 12, {"ext_linegrid": true}); nvim_ui_set_option("rgb", 1)',
            "nil",
            'error [1, "rgb must be a Boolean"]',
        ),
        (
            "A cluster of several characters has one width",
            'nvim_strwidth("\\ud83d\\udc68\\u200d\\ud83d\\udc69\\u200d\\ud83d\\udc67")',
            "2",
            "18",
        ),
        ("A character without width takes a cell", 'nvim_strwidth("\\u200b")', "1", "6"),
    ],
}
