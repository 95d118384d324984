"""docs/PROTOCOL.md beside the program: its methods are those that the program answers, each with
the parameters and the type of result that nvim_get_api_info tells; each example of calls gives
what stands behind it, is refused by it, tells these events, or draws this batch; each example of a
message, an input, a book or a server is answered by the messages, the texts, or the status and the
line, that stand behind it; and the limits that some thousand calls reach are where the page has
them.

Each method, fault, event and status must have an example.
"""

import os
import re
import subprocess
import tempfile

import pytest

import nvimd
from examples import calls_in, handle, value_in
from nvimd.values import packed, unpacker
from runs import DOCS, finished, followed

ENTRY = re.compile(r"\[`(nvim_\w+)`\]\([^)]*\)`\(([^)]*)\)` (\w+)")
EXAMPLE = re.compile(r"`(nvim_\w+\([^`]*)` gives `([^`]*)`")
REFUSAL = re.compile(r"(?<!th )`(nvim_\w+\([^`]*)` is refused by `([^`]*)`")
EVENT = re.compile(r"`(nvim_\w+\([^`]*)` tells `([^`]*)`")
DRAWN = re.compile(r"`(nvim_\w+\([^`]*)` draws `([^`]*)`")
MESSAGE = re.compile(r"`(\[[012], [^`]*)` is answered by (nothing|`([^`]*)`)")
INPUT = re.compile(
    r"[Tt]he input `([0-9a-f ]*)`(?: (\d+) times)? ends? with status (\d)(?: and `([^`]*)`)?"
)
BOOK = re.compile(
    r"[Tt]he book `([0-9a-f ]*)` (?:is replayed as `([0-9a-f ]*)`, and `--check` )?"
    r"(?:says `([^`]*)`|ends with status (\d) and `([^`]*)`)"
)
FAULT = re.compile(r"^\| (\d+) \| \d \| .* \|$", re.MULTILINE)
FOLLOWED = re.compile(
    r"The server's `([^`]*)` (?:is listed as ((?:`[^`]*`|, | and )*)"
    r"|ends with status (\d+) and `([^`]*)`)"
)
STATUS = re.compile(r"^\| (\d+) \| [^|]* \| (?:`nvimd: |none)", re.MULTILINE)
LIMIT = re.compile(r"^\| ([^|]*) \| ([\d,]+)[^|]* \| [^|]* \|$", re.MULTILINE)

# limits that are soon reached: the call that reaches them, how many are there at first, and what
# refuses it then
LIMITS = {
    "live buffers": ("nvim_create_buf(true, false)", 1, [0, "Limit reached"]),
    "namespaces": ('nvim_create_namespace("")', 0, [0, "Limit reached"]),
}


def ran(data, *words):
    """What the program writes for an input, and its status and what it says."""
    written, status, line = finished("embed", *words, data=data)
    found = unpacker(handle, most=0)
    found.feed(written)
    return list(found), status, line


def requests(calls):
    """The bytes of calls, numbered from 0."""
    return b"".join(packed([0, n, name, params]) for n, (name, params) in enumerate(calls))


def session(calls):
    """What a session of these calls is sent, handles written as B1, W1000, T1."""
    messages, status, line = ran(requests(calls))
    assert (status, line) == (0, ""), (status, line)
    return messages


def replies(calls):
    """The replies to calls of one session, each `(error, result)`; events may stand between
    them."""
    given = [(message[2], message[3]) for message in session(calls) if message[0] == 1]
    assert len(given) == len(calls), (len(given), len(calls))
    return given


def batch(calls):
    """The redraw events behind the reply to the last call of a session."""
    last = session(calls)[-1]
    return last[2] if last[:2] == [2, "redraw"] else None


def events(calls):
    """The events of the last call of a session, each `[name, arguments]`."""
    told = []
    for message in session(calls):
        if message[0] == 2 and message[1] != "redraw":
            told.append(message[1:])
        elif message[0] == 1 and message[1] < len(calls) - 1:
            told = []
    return told


class Page:
    """docs/PROTOCOL.md, each paragraph in one line."""

    def __init__(self, check):
        self.same = check.same
        with open(os.path.join(DOCS, "PROTOCOL.md"), encoding="utf-8") as file:
            self.text = file.read().partition("\n### Call by call\n")[0]
        self.lines = re.sub(r"\s*\n\s+", " ", self.text)
        self.entries = {name: (words, result) for name, words, result in ENTRY.findall(self.lines)}

    def methods(self):
        """Each method that the program has stands here, as the program tells it, and no other."""
        metadata = replies([("nvim_get_api_info", [])])[0][1][1]
        functions = {f["name"]: f for f in metadata["functions"]}
        refused = [f"Invalid method: {name}" for name in functions]
        for name, (error, _) in zip(functions, replies([(name, ["?"] * 9) for name in functions])):
            self.same(
                f"{name} is answered",
                error is None or error[1] not in refused,
                name in self.entries,
            )
        for name, entry in self.entries.items():
            told = functions.get(name, {"parameters": [], "return_type": None})
            parameters = ", ".join(f"{kind} {word}" for kind, word in told["parameters"])
            self.same(f"{name}: parameters and result", entry, (parameters, told["return_type"]))
        for event in metadata["ui_events"]:
            found = re.search(rf"`{event['name']}\(([^`]*)\)`", self.lines)
            words = [word for word in (found.group(1) if found else "").split(", ") if word]
            got = len(words) if found else None
            self.same(f"{event['name']}: parameters", got, len(event["parameters"]))

    def examples(self):
        """Each example of calls; which methods and which faults have one."""
        shown, faults = set(), set()
        for text, wanted in EXAMPLE.findall(self.lines):
            calls, first = calls_in(text)
            shown.update(name for name, _ in calls)
            error, result = replies(calls)[-1]
            self.same(text, error or (result[0] if first else result), value_in(wanted))
        for text, wanted in REFUSAL.findall(self.lines):
            self.same(text, replies(calls_in(text)[0])[-1], (value_in(wanted), None))
        for text, wanted in EVENT.findall(self.lines):
            self.same(text, events(calls_in(text)[0]), value_in(f"[{wanted}]"))
        for text, wanted in DRAWN.findall(self.lines):
            self.same(text, batch(calls_in(text)[0]), value_in(wanted))
        faults.update(re.findall(r"- (\d+): `nvim_[^`]*` is refused by", self.lines))
        faults.update(re.findall(r"- (\d+): the [\w,]+ `nvim_[^`]*` is refused by", self.lines))
        missing = [name for name in self.entries if name not in shown]
        self.same("methods without an example", missing, [])
        missing = sorted(set(FAULT.findall(self.text)) - faults, key=int)
        self.same("faults without an example", missing, [])

    def messages(self):
        """Each example of a message and of an input."""
        for text, wanted, answer in MESSAGE.findall(self.lines):
            self.same(text, ran(packed(value_in(text)))[0], value_in(f"[{answer}]"))
        shown = {"0"}
        for data, times, status, line in INPUT.findall(self.lines):
            shown.add(status)
            got = ran(bytes.fromhex(data) * int(times or 1))[1:]
            self.same(f"the input {data}", got, (int(status), line))
        shown.update(self.books())
        shown.update(self.followed())
        told = set(STATUS.findall(self.text))
        shown.add(self.device("a word that is none", words=("embed", "now")))
        shown.add(self.device("an input that is a folder", stdin="/"))
        shown.add(self.device("a full disk", stdout="/dev/full"))
        if "5" in told:
            words = ("serve", "--listen", "/nowhere/socket")
            shown.add(self.device("an address in no folder", words=words))
        shown.add(self.overflow())
        # want of memory has no example
        self.same("statuses without an example", sorted(told - shown - {"1"}), [])

    def books(self):
        """Each example of a book; the statuses that they show."""
        shown = set()
        with tempfile.NamedTemporaryFile() as file:
            for data, replayed, said, status, line in BOOK.findall(self.lines):
                file.seek(0)
                file.truncate()
                file.write(bytes.fromhex(data))
                file.flush()
                wanted = (f"{said}\n".encode() if said else b"", int(status or 0), line)
                self.same(
                    f"the book {data}, checked", finished("replay", file.name, "--check"), wanted
                )
                wanted = (bytes.fromhex(replayed), 0, "") if replayed else wanted
                self.same(f"the book {data}", finished("replay", file.name), wanted)
                shown.add(status)
        self.same("an example of a right book", "" in shown, True)
        return shown

    def followed(self):
        """Each example of what a server sends to `follow`; the statuses that they show."""
        shown = set()
        for data, texts, status, line in FOLLOWED.findall(self.lines):
            words = (w.encode() if "_" in w else bytes.fromhex(w) for w in data.split())
            listed = "".join(f"{text}\n" for text in re.findall(r"`([^`]*)`", texts))
            wanted = listed.encode(), int(status or 0), line
            self.same(f"the server's {data}", followed(b"".join(words))[:3], wanted)
            shown.add(status)
        self.same("an example of a text that is followed", "" in shown, True)
        return shown

    def device(self, what, words=("embed",), stdin=None, stdout="/dev/null"):
        """A status that comes for these words and devices; its line must stand beside it in the
        page."""
        call = packed([0, 1, "nvim_list_bufs", []])
        source = os.open(stdin, os.O_RDONLY) if stdin else None
        with open(stdout, "wb") as file:
            given = {"stdin": source} if stdin else {"input": call}
            command = [nvimd.program(), *words]
            done = subprocess.run(command, **given, stdout=file, stderr=subprocess.PIPE)
        if source is not None:
            os.close(source)
        line = done.stderr.decode().rstrip("\n")
        form = rf"^\| {done.returncode} \| [^|]* \| `{re.escape(line)}` \|$"
        got = "there" if re.search(form, self.text, re.MULTILINE) else (done.returncode, line)
        self.same(f"the status and the line of {what}", got, "there")
        return str(done.returncode)

    def overflow(self):
        """A call that makes more due than an outbox holds."""
        edits = [["nvim_buf_set_lines", [0, 0, 0, True, ["a"]]]] * 17
        calls = [("nvim_buf_attach", [0, False, {}]), ("nvim_call_atomic", [edits])]
        messages, status, line = ran(requests(calls), "--outbox", "16")
        self.same("messages of an overflow", len(messages), 2 + 16)
        self.same("an overflow", (status, line), (7, "nvimd: outbox overflow at entry 3"))
        return str(status)

    def limits(self):
        """Each limit that is soon reached."""
        found = {}
        for names, number in LIMIT.findall(self.text):
            found.update(dict.fromkeys(names.split(", "), int(number.replace(",", ""))))
        for name, (text, held, refusal) in LIMITS.items():
            (call,), _ = calls_in(text)
            count = found.get(name, 0) - held
            given = [error for error, _ in replies([call] * (count + 1))]
            self.same(f"the limit of {name}", given[-2:], [None, refusal])


@pytest.mark.parametrize("part", [Page.methods, Page.examples, Page.messages, Page.limits])
def test_it_is_as_the_page_tells_it(check, part):
    part(Page(check))
