"""A UI of a session for the clients here: which server the words name, and calls that are named in
the line that is said where one is refused."""

import json
import subprocess
import sys

import nvimd
from check import Words
from nvimd.screen import OPTIONS, clamped

USAGE = "SOCKET | HOST:PORT | -- PROGRAM [WORD..]"


class ServerWords(Words):
    """The words of a command that end in those that name a server."""

    def __init__(self, doc, *before):
        options = " ".join(["[--calls FILE]", *before])
        super().__init__(doc, usage=f"%(prog)s {options} {USAGE}")
        told = 'calls to make, each a line ["nvim_command", ["undo"]] in JSON'
        self.add_argument("--calls", metavar="FILE", help=told)
        self.add_argument("words", nargs="*", help="the server")

    def parse_args(self):
        given = sys.argv[1:]
        at = given.index("--") if "--" in given else len(given)
        asked = super().parse_args(given[:at])
        asked.child = given[at + 1 :]
        return asked


def session_of(words, child=()):
    """The session that these words name, or a child of its own."""
    if child and not words:
        return nvimd.start(list(child), stderr=subprocess.PIPE)
    if len(words) == 1 and not child:
        return nvimd.connect(words[0])
    raise nvimd.Error(f"the words name no server: {USAGE}")


def calls_in(path):
    """The calls of a file, each with what it is called in a line; none without a file."""
    calls, number = [], 0
    if path is None:
        return calls
    try:
        with open(path, encoding="utf-8") as file:
            for number, line in enumerate(file, 1):
                if line.strip():
                    name, params = json.loads(line)
                    calls.append((f"line {number} of {path}, {name}", name, *params))
    except OSError as error:
        raise nvimd.Error(f"no calls in {path}: {error.strerror}") from None
    except (ValueError, TypeError):
        raise nvimd.Error(f"line {number} of {path} is no call") from None
    return calls


class Ui:
    """The screen of a session, and which of its calls are waiting for their replies."""

    def __init__(self, session):
        self.session, self.screen = session, nvimd.Screen(session)
        self.asked = {}

    def ask(self, what, name, *params):
        """Makes a call; `what` names it in the line that is said where it is refused."""
        self.asked[self.session.post(name, *params)] = what

    def attach(self, what, width, height):
        self.ask(what, "nvim_ui_attach", *clamped(width, height), OPTIONS)

    def resize(self, what, width, height):
        self.ask(what, "nvim_ui_try_resize", *clamped(width, height))

    def hear(self):
        """Waits, and takes in what comes; an `Error` where a call is refused."""
        self.session.poll(None)
        for msgid in [msgid for msgid in self.asked if msgid in self.session.replies]:
            error, _ = self.session.answer(msgid)
            what = self.asked.pop(msgid)
            if error is not None:
                words = " ".join(str(nvimd.Fault.of(error)).split())
                raise nvimd.Error(f"{what}: {words}")

    def answered(self):
        """Takes in what comes until each call is answered."""
        while self.asked:
            self.hear()
