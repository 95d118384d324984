"""Calls and answers as docs/PROTOCOL.md and docs/rows write them: `nvim_buf_line_count(0)`, `[B1,
nil]`.

A value is JSON, with nil for null, and B1, W1000, T1 for handles; `bin"00ff"` is a binary,
`ext5"00ff"` another ext value of type 5, and in a string `\\udcff` is the byte ff, which isn't
UTF-8. A key of a map may be any value. `3*"ab"` is the string "ababab", and in a list `3*(0, 1)`
stands for 0, 1, 0, 1, 0, 1.
"""

import json
import re

import msgpack

from nvimd import values

KINDS = {0: "B", 1: "W", 2: "T"}
CALL = re.compile(r"(\w+)(\(.*\))( \[0\])?$", re.DOTALL)
WORDS = {"nil": None, "null": None, "true": True, "false": False}
TOKEN = re.compile(
    r"""\s*(?:(?P<string>"(?:[^"\\]|\\.)*")|(?P<times>\d+)\*"""
    r"""|(?P<float>-?\d+(?:\.\d+(?:[eE][-+]?\d+)?|[eE][-+]?\d+))|(?P<int>-?\d+)"""
    r"""|(?P<handle>[BWT]-?\d+)\b|(?P<bin>bin"[0-9a-f]*")|ext(?P<kind>-?\d+)(?P<ext>"[0-9a-f]*")"""
    r"""|(?P<word>[a-z]+)\b|(?P<sign>[][{}(),:]))"""
)


class Handle(str):
    """A handle as it is written: B1, W1000, T1."""


class Ext(tuple):
    """Another ext value: its type and its data."""


class Pairs(list):
    """A map of which two keys are equal, or a key is no string: pairs in their order."""


class Unwritten(ValueError):
    """A text that spells no value."""


def handle(kind, held):
    """What an ext value is written as."""
    if kind in KINDS:
        number = whole(held)
        if (
            isinstance(number, int)
            and not isinstance(number, bool)
            and msgpack.packb(number) == held
        ):
            return Handle(KINDS[kind] + str(number))
    return Ext((kind, held))


def whole(data):
    """The one value of these bytes, or None."""
    try:
        return msgpack.unpackb(data)
    except Exception:
        return None


def map_of(pairs):
    """A map of pairs: a dict where its keys are strings and differ."""
    pairs = list(pairs)
    keys = [key for key, _ in pairs if type(key) is str]
    return dict(pairs) if len(set(keys)) == len(pairs) else Pairs(pairs)


def text_of(string):
    """A string as JSON spells it, with `\\udcff` for a byte that isn't UTF-8."""
    text = json.dumps(string, ensure_ascii=False)
    return re.sub("[\ud800-\udfff]", lambda found: f"\\u{ord(found[0]):04x}", text)


def written(value):
    """A value in text."""
    if value is None:
        return "nil"
    if isinstance(value, Handle):
        return str(value)
    if isinstance(value, Ext):
        return f'ext{value[0]}"{value[1].hex()}"'
    if isinstance(value, bytes):
        return f'bin"{value.hex()}"'
    if isinstance(value, str):
        return text_of(value)
    if isinstance(value, (dict, Pairs)):
        pairs = value.items() if isinstance(value, dict) else value
        parts = [f"{written(key)}: {written(held)}" for key, held in pairs]
        return f"{{{', '.join(parts)}}}"
    if isinstance(value, (list, tuple)):
        return f"[{', '.join(map(written, value))}]"
    return json.dumps(value)


class Reader:
    """Reads values from a text, from a place on."""

    def __init__(self, text, at=0):
        self.text, self.at = text, at

    def fail(self, what):
        raise Unwritten(
            f"{what} at column {self.at + 1}: {self.text[self.at : self.at + 30] or 'its end'}"
        )

    def token(self):
        found = TOKEN.match(self.text, self.at)
        if not found:
            self.fail("no value")
        return found.lastgroup, found

    def is_next(self, sign):
        """Whether this sign is next, which then is read."""
        found = TOKEN.match(self.text, self.at)
        if found and found["sign"] == sign:
            self.at = found.end()
            return True
        return False

    def want(self, sign):
        if not self.is_next(sign):
            self.fail(f"no {sign}")

    def value(self):
        kind, found = self.token()
        if kind == "sign" and found["sign"] in "[{":
            self.at = found.end()
            return self.items("]") if found["sign"] == "[" else self.map()
        if kind == "sign" or kind == "word" and found["word"] not in WORDS:
            self.fail("no value")
        start, self.at = self.at, found.end()
        if kind == "string":
            try:
                return json.loads(found["string"])
            except ValueError:
                self.at = start
                self.fail("no string")
        if kind == "times":
            string = self.value()
            if type(string) is not str:
                self.fail("what is repeated is no string before this place")
            return int(found["times"]) * string
        if kind == "float":
            return float(found["float"])
        if kind == "int":
            return int(found["int"])
        if kind == "handle":
            return Handle(found["handle"])
        if kind == "bin":
            return self.hexed(found["bin"][3:])
        if kind == "ext":
            return Ext((int(found["kind"]), self.hexed(found["ext"])))
        return WORDS[found["word"]]

    def hexed(self, text):
        if len(text) % 2:
            self.fail("half a byte before this place")
        return bytes.fromhex(text[1:-1])

    def items(self, end):
        """The values up to this sign, which is read too."""
        found = []
        while not self.is_next(end):
            if found:
                self.want(",")
            _, times = self.token()
            after = TOKEN.match(self.text, times.end()) if times["times"] else None
            if after and after["sign"] == "(":
                self.at = after.end()
                found += int(times["times"]) * self.items(")")
            else:
                found.append(self.value())
        return found

    def map(self):
        pairs = []
        while not self.is_next("}"):
            if pairs:
                self.want(",")
            key = self.value()
            self.want(":")
            pairs.append((key, self.value()))
        return map_of(pairs)

    def is_over(self):
        return not self.text[self.at :].strip()

    def end(self):
        if not self.is_over():
            self.fail("more behind a value")


def value_in(text):
    """The value that a text spells."""
    reader = Reader(text)
    value = reader.value()
    reader.end()
    return value


def params_in(text):
    """The values between the parentheses of a text."""
    reader = Reader(text)
    reader.want("(")
    params = reader.items(")")
    reader.end()
    return params


def calls_in(text):
    """The calls of an example, and whether the first of a list is meant."""
    calls = []
    for part in text.split("; "):
        name, params, first = CALL.match(part).groups()
        calls.append((name, params_in(params)))
    return calls, first


def packed_ext(kind, data):
    head = {1: b"\xd4", 2: b"\xd5", 4: b"\xd6", 8: b"\xd7", 16: b"\xd8"}.get(len(data))
    for first, size in ((b"\xc7", 1), (b"\xc8", 2), (b"\xc9", 4)):
        if head is None and len(data) < 1 << 8 * size:
            head = first + len(data).to_bytes(size, "big")
    return head + kind.to_bytes(1, "big", signed=True) + data


def packed(value):
    """A value in its shortest spelling; a float in eight bytes."""
    if isinstance(value, Handle):
        return packed_ext("BWT".index(value[0]), msgpack.packb(int(value[1:])))
    if isinstance(value, Ext):
        return packed_ext(*value)
    if isinstance(value, (dict, Pairs)):
        pairs = list(value.items()) if isinstance(value, dict) else value
        parts = [packed(part) for pair in pairs for part in pair]
        return msgpack.Packer().pack_map_header(len(pairs)) + b"".join(parts)
    if isinstance(value, (list, tuple)):
        return msgpack.Packer().pack_array_header(len(value)) + b"".join(map(packed, value))
    return values.packed(value)


def unpacker():
    """Reads values as they are written here."""
    return values.unpacker(handle, most=0, object_pairs_hook=map_of)
