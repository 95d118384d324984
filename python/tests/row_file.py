"""Reads docs/rows/*.rows: stories of sessions, each call with what its session and others are sent
(docs/rows/README.md). Wants Debian's python3-msgpack.
"""

import re

import nvimd
from examples import Reader, Unwritten, packed

NOTHING = "nothing"
INDENT = " " * 8
TOLD = re.compile(r"    (?:S([1-9]\d*) )?(tells|draws) (.*)", re.DOTALL)
SESSION = re.compile(r"S([1-9]\d*)(?:: (.*)| (opens|closes))", re.DOTALL)
ENDS = re.compile(r"ends (\d)(?: (\".*\"))?")
HEX = re.compile(
    r'\s*(?:(?P<times>\d+)\*\(|(?P<end>\))|(?P<text>"(?:[^"\\]|\\.)*")|(?P<byte>[0-9a-f]{2}))'
)
MOST_SESSIONS = 64
QUIET = "a notification says `-> nothing`, or lines below it what is sent"


class Wrong(nvimd.Error):
    """A line of a file that is none of the forms."""

    def __init__(self, path, line, what):
        super().__init__(f"{path}:{line}: {what}")


class Told:
    """A message that a session is sent because of a call: its line, its text, and its bytes;
    whether it goes before the reply."""

    def __init__(self, line, text, session, data, is_event):
        self.line, self.text, self.session = line, text, session
        self.data, self.is_event = data, is_event


class Step:
    """A line of a story: who does what, the bytes that it sends, and all that sessions are sent
    because of it."""

    def __init__(self, line, text, session, kind):
        self.line, self.text, self.session, self.kind = line, text, session, kind
        self.name = self.params = self.msgid = None
        self.data = b""
        self.reply = None
        self.told = []
        self.is_quiet = False  # whether the line says that its session is sent nothing
        self.words = self.ends = None  # of a line of words: them, and the status and the line

    def sent(self, session):
        """What a session is sent, in its order."""
        events = [told for told in self.told if told.session == session and told.is_event]
        draws = [told for told in self.told if told.session == session and not told.is_event]
        replies = [self.reply] if self.reply and session == self.session else []
        return events + replies + draws

    def sessions(self):
        """Whoever is sent something."""
        found = {told.session for told in self.told}
        return found | {self.session} if self.reply else found

    def is_quit(self):
        is_call = self.kind in ("call", "notify") and self.name == "nvim_command"
        return is_call and self.params in (["qall!"], ["qa!"])


class Story:
    """What stands after a title."""

    def __init__(self, path, line, title):
        self.path, self.line, self.title = path, line, title
        self.words = []
        self.steps = []
        self.ends = None

    def sessions(self):
        return sorted({step.session for step in self.steps})

    def is_alone(self):
        return self.sessions() == [1] and not any(step.kind == "closes" for step in self.steps)

    def has_bytes(self):
        return any(step.kind == "bytes" for step in self.steps)

    def is_of_words(self):
        return any(step.kind == "words" for step in self.steps)

    def expects(self):
        if self.ends is not None or self.is_of_words():
            return True
        return any(step.sessions() for step in self.steps)


def lines_of(path):
    """The lines of a file, a continuation joined to the line before it, with their numbers."""
    found = []
    with open(path, encoding="utf-8") as file:
        text = file.read()
    for number, line in enumerate(text.split("\n"), 1):
        if line.startswith(INDENT) and line[8:9].strip():
            if not found or not found[-1][1].strip() or found[-1][1].startswith("#"):
                raise Wrong(path, number, "nothing stands before what this line continues")
            found[-1][1] += " " + line[8:].rstrip()
        else:
            found.append([number, line.rstrip()])
    return found


def bytes_in(text):
    """Bytes in hexadecimal digits, `N*(..)` for what is repeated, and `"text"` for the bytes of a
    text."""
    parts = [[1, bytearray()]]
    at = 0
    while text[at:].strip():
        found = HEX.match(text, at)
        if not found or found["end"] and len(parts) == 1:
            raise Unwritten(f"no bytes at column {at + 1}: {text[at : at + 30]}")
        at = found.end()
        if found["times"]:
            parts.append([int(found["times"]), bytearray()])
        elif found["end"]:
            times, data = parts.pop()
            parts[-1][1] += times * data
        elif found["text"]:
            string = Reader(found["text"]).value()
            parts[-1][1] += string.encode(errors="surrogateescape")
        else:
            parts[-1][1].append(int(found["byte"], 16))
    if len(parts) > 1:
        raise Unwritten("a ) is missing")
    return bytes(parts[0][1])


def end_in(text):
    """The status and the line of an end."""
    found = ENDS.fullmatch(text)
    if not found:
        raise Unwritten('no end: ends STATUS "LINE"')
    status, line = int(found[1]), Reader(found[2]).value() if found[2] else ""
    if (status != 0) != (line != ""):
        raise Unwritten("a status other than 0 has a line, and 0 has none")
    return status, line


def called(reader):
    """A call: its method, as a string or a binary, and its arguments."""
    found = re.compile(r"\s*([A-Za-z_]\w*)(?=\()").match(reader.text, reader.at)
    if found:
        name, reader.at = found[1], found.end()
    else:
        name = reader.value()
        if type(name) not in (str, bytes):
            reader.fail("a method is a string or a binary")
    reader.want("(")
    return name, reader.items(")")


def told_value(kind, text):
    """The notification that a line tells or draws."""
    if kind == "draws":
        reader = Reader(text)
        batch = reader.value()
        reader.end()
        return [2, "redraw", batch]
    reader = Reader(text)
    name, params = called(reader)
    reader.end()
    return [2, name, params]


class File:
    """A file as it is read, line by line."""

    def __init__(self, path):
        self.path = path
        self.stories = []
        self.counts = {}

    def read(self):
        lines = lines_of(self.path)
        if not lines[0][1].startswith("#"):
            raise Wrong(
                self.path, 1, "a file begins with a line that says what it shows, after a #"
            )
        for number, text in lines:
            if not text.strip() or text.startswith("#"):
                continue
            try:
                self.line(number, text)
            except Unwritten as error:
                raise Wrong(self.path, number, str(error)) from None
        self.close()
        return self.stories

    def line(self, number, text):
        if text.startswith("= "):
            self.close()
            self.open(number, text[2:].strip())
            return
        if not self.stories:
            raise Unwritten("no story has begun: = TITLE")
        story = self.stories[-1]
        if story.ends is not None:
            raise Unwritten("`ends` stands last in a story")
        if text.startswith("with "):
            if story.steps or story.words:
                raise Unwritten("`with` stands after the title")
            story.words = text.split()[1:]
        elif text.startswith("    "):
            self.told(story, number, text)
        elif text == "words" or text.startswith("words "):
            self.words(story, number, text)
        elif text.startswith("ends "):
            self.ends(story, text)
        else:
            self.step(story, number, text)

    def open(self, number, title):
        if any(story.title == title for story in self.stories):
            raise Unwritten(f"another story has this title: {title}")
        self.stories.append(Story(self.path, number, title))
        self.counts = {}

    def close(self):
        """Looks at the last story as a whole."""
        if not self.stories:
            return
        story = self.stories[-1]
        opened = list(range(1, len(story.sessions()) + 1))
        others = any(step.kind != "words" for step in story.steps)
        if story.is_of_words() and (story.words or story.ends or others):
            self.wrong(story, "lines of words stand in a story of their own")
        if not story.expects():
            self.wrong(story, "the story expects nothing")
        if story.ends is not None and not story.is_alone():
            self.wrong(story, "`ends` stands in a story of session 1 alone")
        if story.sessions() != opened or len(opened) > MOST_SESSIONS:
            self.wrong(story, "sessions open in their order, 1, 2, 3")
        for step in story.steps:
            if step.kind == "notify" and not step.is_quiet and not step.told:
                raise Wrong(story.path, step.line, QUIET)

    def wrong(self, story, what):
        raise Wrong(story.path, story.line, f"{what}: {story.title}")

    def ends(self, story, text):
        story.ends = end_in(text)

    def words(self, story, number, text):
        words, _, after = text[len("words ") :].partition("-> ")
        step = Step(number, text, 1, "words")
        step.words = words.split()
        step.is_quiet = not after.startswith("writes, ")
        step.ends = end_in(after.removeprefix("writes, "))
        story.steps.append(step)

    def told(self, story, number, text):
        found = TOLD.fullmatch(text)
        if not found or not story.steps:
            form = "[S2] tells CALL, [S2] draws BATCH"
            raise Unwritten(f"after 4 spaces stands what a call above tells or draws: {form}")
        step = story.steps[-1]
        session = int(found[1]) if found[1] else step.session
        if session == step.session and (step.is_quiet or step.kind in ("bytes", "closes")):
            raise Unwritten("the line above says already what its session is sent")
        if session not in story.sessions():
            raise Unwritten(f"session {session} isn't open")
        data = packed(told_value(found[2], found[3]))
        step.told.append(Told(number, text.strip(), session, data, found[2] == "tells"))

    def step(self, story, number, text):
        session, rest = 1, text
        found = SESSION.fullmatch(text)
        if found:
            session, rest = int(found[1]), found[2]
        opened = story.sessions()
        if not opened and session != 1 or session > len(opened) + 1:
            raise Unwritten("sessions open in their order: 1, 2, 3")
        if found and found[3]:
            if (found[3] == "opens") == (session in opened):
                raise Unwritten(f"session {session} is{'' if session in opened else 'n’t'} open")
            story.steps.append(Step(number, text, session, found[3]))
            return
        if any(step.kind == "closes" and step.session == session for step in story.steps):
            raise Unwritten(f"session {session} has closed")
        if rest.startswith("bytes "):
            step = self.raw(number, text, session, rest[len("bytes ") :])
        elif rest.startswith("notify "):
            step = self.call(number, text, session, "notify", Reader(rest, len("notify ")))
        else:
            step = self.call(number, text, session, "call", Reader(rest))
        story.steps.append(step)

    def raw(self, number, text, session, rest):
        step = Step(number, text, session, "bytes")
        sent, found, wanted = rest.partition("->")
        if not found:
            raise Unwritten("bytes HEX -> HEX, or `-> nothing`")
        step.data = bytes_in(sent)
        if wanted.strip() == NOTHING:
            step.is_quiet = True
        else:
            step.reply = Told(number, text, session, bytes_in(wanted), False)
            if not step.reply.data:
                raise Unwritten("no bytes after the arrow: `-> nothing`")
        return step

    def call(self, number, text, session, kind, reader):
        step = Step(number, text, session, kind)
        step.name, step.params = called(reader)
        after = reader.text[reader.at :].strip()
        if kind == "notify":
            step.data = packed([2, step.name, step.params])
            step.is_quiet = after == "-> nothing"
            if after and not step.is_quiet:
                reader.fail(QUIET)
            return step
        self.counts[session] = step.msgid = self.counts.get(session, 0) + 1
        step.data = packed([0, step.msgid, step.name, step.params])
        if not after.startswith("->"):
            reader.fail("no arrow: CALL -> RESULT")
        after = after[2:].strip()
        if after == NOTHING:  # no reply, as after the end of a session; it may be told something
            return step
        is_error = after.startswith("error ")
        answer = Reader(after[len("error ") :] if is_error else after)
        value = answer.value()
        answer.end()
        reply = [1, step.msgid, value, None] if is_error else [1, step.msgid, None, value]
        step.reply = Told(number, text, session, packed(reply), False)
        return step


def stories_in(path):
    """The stories of a file."""
    return File(path).read()
