"""Sessions of `nvimd serve` on a machine that has no time for their threads, or no room.

Beside twice as many busy processes as there are processors, which go first, many sessions come at
once. Each follows a text that all of them change, and changes one of its own; for some seconds it
does nothing; then it calls again, and ends its side. It is served to that end: each reply comes,
and then the end of the bytes.

Then the address space of a server is made so small that few threads more can be had: each session
is served, or has none and ends at once, and the next ones are served once there is room again.
"""

import os
import resource
import socket
import subprocess
import sys
import threading
import time

import nvimd
from runs import LONG

PAUSE = 7  # seconds in which a session does nothing
CALLS = 5  # of a session before its pause, and behind it
LANES = 16
MB = 1 << 20
ROOM = MB  # bytes that are left of an address space, too few for the stack of a thread
SOON = 4  # seconds until a session without a thread has ended, by far
BUSY = "while True: pass"


def work(session, check, name):
    """Changes the text of all and one of its own, and looks at each reply."""
    text = session.call("nvim_create_buf", True, False)
    for n in range(CALLS):
        line = f"{name} {n}"
        session.call("nvim_buf_set_lines", 1, 0, 1, True, [line])
        session.call("nvim_buf_set_lines", text, 0, -1, True, [line])
        check.same(name, session.call("nvim_buf_get_lines", text, 0, -1, True), [line])
    session.call("nvim_buf_delete", text, {"force": True})


def serve_one(server, check, name):
    """A session up to its own end."""
    try:
        with server.connect() as session:
            session.timeout = LONG
            session.call("nvim_buf_attach", 1, True, {})
            work(session, check, name)
            time.sleep(PAUSE)
            work(session, check, name)
            session.call("nvim_buf_detach", 1)
            last = session.post("nvim_buf_line_count", 1)
            session.connection.shutdown(socket.SHUT_WR)
            session.rest()
            check.same(f"{name}: its last reply", last in session.replies, True)
    except (nvimd.Error, OSError) as error:
        check.same(f"{name}: its end", repr(error), "no error")


def without_time(check, count):
    """So many sessions at once beside busy processes: the status of the server."""
    busy = [
        subprocess.Popen([sys.executable, "-c", BUSY]) for _ in range(2 * (os.cpu_count() or 1))
    ]
    try:
        server = nvimd.Server("--sessions", str(count + 1), preexec_fn=lambda: os.nice(19))
        names = [f"session {n}" for n in range(count)]
        parts = [
            threading.Thread(target=serve_one, args=(server, check, name), daemon=True)
            for name in names
        ]
        for part in parts:
            part.start()
        for part in parts:
            part.join()
        return server.quit(LONG)
    finally:
        for process in busy:
            process.kill()
            process.wait()


def limit_space(server, size):
    """Limits the address space of a server to so many bytes."""
    limits = resource.prlimit(server.process.pid, resource.RLIMIT_AS)
    resource.prlimit(server.process.pid, resource.RLIMIT_AS, (size, limits[1]))


def is_served(server, check, name, sessions):
    """Whether a session is served, which then stays; else it has ended at once."""
    since = time.monotonic()
    session = server.connect()
    session.timeout = LONG
    try:
        session.call("nvim_buf_line_count", 1)
        sessions.append(session)
        return True
    except nvimd.Ended:
        check.same(f"{name} ends soon", time.monotonic() - since < SOON, True)
        session.close()
        return False


def without_threads(check):
    """Sessions of a server that has room for few threads: the status of the server."""
    server = nvimd.Server("--sessions", str(LANES))
    sessions = []
    limit_space(server, int(server.memory("VmSize") * MB) + ROOM)
    served = [is_served(server, check, f"session {n}", sessions) for n in range(LANES - 1)]
    check.same("a session without a thread", False in served, True)
    for session in sessions:
        check.same("a session that has its threads", session.call("nvim_buf_line_count", 1), 1)
    limit_space(server, resource.RLIM_INFINITY)
    check.same("a session behind it", is_served(server, check, "the next one", sessions), True)
    for session in sessions:
        session.close()
    return server.quit(LONG)


def test_sessions_without_time_are_served_to_their_end(request, check):
    check.same("status", without_time(check, request.config.getoption("sessions")), 0)


def test_sessions_without_threads_end_at_once(check):
    check.same("status", without_threads(check), 0)
