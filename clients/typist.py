#!/usr/bin/python3
"""Types a text into the current buffer of a server, letter by letter, with the cursor behind it. A
line with `.` alone is its end. Wants Debian's python3-pynvim.
"""

import time

import pynvim

from check import Words, run
from nvimd import Ended


TEXT = """\
To be, or not to be: that is the question.
Whether 'tis nobler in the mind to suffer
The slings and arrows of outrageous fortune,
Or to take arms against a sea of troubles
And by opposing end them. To die: to sleep;
No more; and by a sleep to say we end
The heart-ache and the thousand natural shocks
That flesh is heir to.
."""


def attached(path):
    """A session of the server at a socket, by pynvim."""
    try:
        return pynvim.attach("socket", path=path)
    except OSError as error:
        raise Ended(f"no server at {path}: {error.strerror or error}") from None


def main():
    words = Words(__doc__)
    words.add_argument("socket", metavar="SOCKET")
    told = "seconds behind each letter"
    words.add_argument("pause", metavar="SECONDS", nargs="?", type=float, default=0, help=told)
    asked = words.parse_args()
    nvim, pause = attached(asked.socket), asked.pause
    buffer, window = nvim.current.buffer, nvim.current.window
    buffer.name = "typed"
    for row, line in enumerate(TEXT.split("\n")):
        if row > 0:
            buffer.append("")
        for col, letter in enumerate(line):
            nvim.request("nvim_buf_set_text", buffer, row, col, row, col, [letter])
            window.cursor = (row + 1, col)
            time.sleep(pause)
    nvim.close()
    return 0


if __name__ == "__main__":
    run(main)
