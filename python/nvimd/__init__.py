"""A client of nvimd, the headless Neovim, and of other servers of its protocol.

    import nvimd

    with nvimd.start() as nvim:
        nvim.api.buf_set_lines(0, 0, -1, True, ["hello", "world"])
        screen = nvim.screen(40, 6)
        print(screen.rows[0], screen.at(0, 0), screen.cursor)

`start()` has an editor of its own, `connect(address)` is one of many sessions of a server, and
`Server()` is such a server. Wants Debian's python3-msgpack.
"""

from .book import Book
from .errors import *
from .follower import Change, Follower
from .program import program
from .screen import Cell, Screen
from .server import Server
from .session import Event, Session, connect, start
from .values import Buffer, Handle, Tabpage, Window
