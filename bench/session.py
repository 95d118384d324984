"""Requests, and a server that is asked over pipes: what the measurements share."""

import contextlib
import os
import resource
import subprocess
import threading
import time

import nvimd
from nvimd.process import memory
from nvimd.values import packed

LAST = 0xEE000000  # the msgid of a last request, which both servers spell in five bytes
REFUSED = b"\x94\x01\x01\x92"  # what the reply to a call begins with that gives a fault
LINE = "y" * 40
PIECE = 1 << 20


def call(method, *params, msgid=1):
    """The bytes of a request."""
    return packed([0, msgid, method, list(params)])


def set_rows(start, end, lines, buffer=0):
    return call("nvim_buf_set_lines", buffer, start, end, True, lines)


def last_of(count):
    """The last request of so many, and what its reply begins with."""
    number = LAST + count
    stream = call("nvim_buf_line_count", 0, msgid=number)
    return stream, b"\x94\x01\xce" + number.to_bytes(4, "big") + b"\xc0"


@contextlib.contextmanager
def processor_time():
    """What gives the processor's seconds of the children that ended within, once they did."""
    before = resource.getrusage(resource.RUSAGE_CHILDREN)

    def taken():
        after = resource.getrusage(resource.RUSAGE_CHILDREN)
        return after.ru_utime + after.ru_stime - before.ru_utime - before.ru_stime

    yield taken


def tell_load():
    """Says how busy the machine is, by which its figures are to be read."""
    load = os.getloadavg()[0]
    print(f"load {load:.1f}" + (": the machine is busy" if load > 1 else ""))


def watch(pid, peak):
    """Keeps the greatest memory of the process that /proc tells, in MB, until it ends."""
    while True:
        try:
            with open(f"/proc/{pid}/status") as status:
                told = [line for line in status if line.startswith("VmHWM")]
        except OSError:
            return
        if not told:
            return
        peak[0] = max(peak[0], int(told[0].split()[1]) / 1024)
        time.sleep(0.001)


class Server:
    """A server that is asked over pipes."""

    def __init__(self, words):
        self.process = subprocess.Popen(
            words, stdin=subprocess.PIPE, stdout=subprocess.PIPE, bufsize=0
        )
        self.count = 0

    def send(self, stream):
        view = memoryview(stream)
        while view:
            view = view[os.write(self.process.stdin.fileno(), view) :]

    def read(self):
        piece = os.read(self.process.stdout.fileno(), PIECE)
        if not piece:
            raise nvimd.Ended("a server ended")
        return piece

    def until(self, wanted, near=PIECE):
        """Reads until these bytes are among so many last ones."""
        tail = b""
        while wanted not in tail[-near:]:
            piece = self.read()
            tail = (tail + piece)[-(len(piece) + 64) :]
            if REFUSED in tail:
                raise nvimd.Error("a request was refused")

    def ask(self, stream):
        """Seconds until all of these requests are answered, which go ahead of their replies: until
        the reply to one more came."""
        self.count += 1
        last, wanted = last_of(self.count)
        begun = time.perf_counter()
        writer = threading.Thread(target=self.send, args=(stream + last,))
        writer.start()
        self.until(wanted)
        taken = time.perf_counter() - begun
        writer.join()
        return taken

    def peak(self):
        """The greatest memory so far, in MB."""
        return memory(self.process.pid, "VmHWM")

    def close(self):
        self.process.stdin.close()
        self.process.stdout.close()
        self.process.kill()
        self.process.wait()
