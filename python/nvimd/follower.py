"""A copy of a buffer's text that follows each change by its events."""

import collections
from typing import NamedTuple

from .errors import Ended, Unfit

EVENTS = ("nvim_buf_lines_event", "nvim_buf_changedtick_event", "nvim_buf_detach_event")


class Change(NamedTuple):
    """The lines from `first` to before `last` became these; `last` is -1 for the whole text."""

    tick: int
    first: int
    last: int
    lines: list


class Follower:
    """What is known of a buffer: nothing, or its changedtick, and its lines where they were sent.

    It is of a buffer of a session, or of whatever `take` is given.
    """

    def __init__(self, session=None, buffer=None):
        self.session, self.buffer = session, buffer
        self.tick = self.lines = None
        self._changes = collections.deque()

    def attach(self, whole=True):
        """Attaches to the buffer, with its lines or with the changedtick alone."""
        if self.buffer == 0:
            self.buffer = self.session.call("nvim_get_current_buf")
        self.session.listeners.append(self._hears)
        self.session.call("nvim_buf_attach", self.buffer, whole, {})
        return self

    def detach(self):
        """Follows it no longer; nothing is known of it."""
        self.session.call("nvim_buf_detach", self.buffer)
        self.settle()
        self.session.listeners.remove(self._hears)

    def settle(self):
        """Takes in all changes up to now, which come before the next reply."""
        self.session.call("nvim_strwidth", "")
        return self

    def changes(self, timeout=None):
        """Each change as it comes, the whole text as the first one, until none comes for so many
        seconds, the buffer is gone, or the session ends."""
        while True:
            while self._changes:
                yield self._changes.popleft()
            try:
                if self.tick is None or not self.session.poll(timeout):
                    return
            except Ended:
                if not self._changes:
                    return

    def _hears(self, event):
        if event.name not in EVENTS or event.args[0] != self.buffer:
            return False
        change = self.take(event.name, *event.args[1:])
        if change:
            self._changes.append(change)
        return True

    def take(self, name, tick=None, first=None, last=None, lines=None, more=False):
        """Takes one event, with what stands behind its handle; the change that it tells, if any."""
        self.tick = tick
        if name == "nvim_buf_detach_event":
            self.lines = None
        if name != "nvim_buf_lines_event":
            return None
        if last == -1:
            self.lines = list(lines)
        elif self.lines is not None:
            if not 0 <= first <= last <= len(self.lines) or more:
                raise Unfit(f"lines {first} to {last} of {len(self.lines)} don't fit")
            self.lines[first:last] = lines
        return Change(tick, first, last, lines)
