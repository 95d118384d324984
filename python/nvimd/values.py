"""Values as they are written on the wire: MessagePack, with handles as types of their own."""

import msgpack

MOST_BYTES = 1 << 30  # of a message


class Handle(int):
    """The number of a buffer, window or tabpage. As an argument it serves as any integer does."""

    def __repr__(self):
        return f"{type(self).__name__}({int(self)})"

    __str__ = __repr__


class Buffer(Handle):
    """A buffer."""


class Window(Handle):
    """A window."""


class Tabpage(Handle):
    """A tabpage."""


HANDLES = {0: Buffer, 1: Window, 2: Tabpage}


def handle(kind, data):
    """What an ext value stands for: a handle, or itself."""
    if kind in HANDLES:
        try:
            return HANDLES[kind](msgpack.unpackb(data))
        except (ValueError, TypeError, msgpack.UnpackException):
            pass
    return msgpack.ExtType(kind, data)


def packed(value):
    """The bytes of a value. A string may hold bytes that aren't UTF-8, as surrogates."""
    return msgpack.packb(value, unicode_errors="surrogateescape")


def unpacker(ext_hook=handle, most=MOST_BYTES, **more):
    """Reads values of at most so many bytes; 0 is no bound."""
    return msgpack.Unpacker(
        raw=False,
        unicode_errors="surrogateescape",
        strict_map_key=False,
        max_buffer_size=most,
        ext_hook=ext_hook,
        **more,
    )
