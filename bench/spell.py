"""The shortest spellings of values in MessagePack, by hand."""

import struct


def integer(n):
    """The shortest spelling of an integer."""
    for low, high, head, form in (
        (0, 1 << 7, b"", ">B"),
        (-32, 0, b"", ">b"),
        (0, 1 << 8, b"\xcc", ">B"),
        (0, 1 << 16, b"\xcd", ">H"),
        (0, 1 << 32, b"\xce", ">I"),
        (0, 1 << 64, b"\xcf", ">Q"),
        (-(1 << 7), 0, b"\xd0", ">b"),
        (-(1 << 15), 0, b"\xd1", ">h"),
        (-(1 << 31), 0, b"\xd2", ">i"),
        (-(1 << 63), 0, b"\xd3", ">q"),
    ):
        if low <= n < high:
            return head + struct.pack(form, n)
    raise ValueError(n)


def text(s):
    n = len(s)
    if n < 32:
        return bytes([0xA0 + n]) + s
    if n < 1 << 8:
        return b"\xd9" + struct.pack(">B", n) + s
    if n < 1 << 16:
        return b"\xda" + struct.pack(">H", n) + s
    return b"\xdb" + struct.pack(">I", n) + s


def items(parts):
    n = len(parts)
    if n < 16:
        head = bytes([0x90 + n])
    elif n < 1 << 16:
        head = b"\xdc" + struct.pack(">H", n)
    else:
        head = b"\xdd" + struct.pack(">I", n)
    return head + b"".join(parts)
