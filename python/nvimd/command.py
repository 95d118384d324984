"""What the programs of this package share: their words, and one line for what goes wrong."""

import argparse
import os
import signal
import sys

from .errors import Error
from .server import running


class Words(argparse.ArgumentParser):
    """Reads the words of a command, whose use its docstring tells."""

    def __init__(self, doc, **more):
        form = argparse.RawDescriptionHelpFormatter
        super().__init__(description=doc, formatter_class=form, **more)
        told = "another nvimd than the one beside the package, or on PATH"
        self.add_argument("--program", metavar="FILE", help=told)

    def parse_args(self, *given):
        asked = super().parse_args(*given)
        if asked.program:
            os.environ["NVIMD"] = os.path.abspath(asked.program)
        return asked


def limit(seconds):
    """Ends the program, and the servers that it started, where it still runs after so long."""

    def late(*_):
        print(f"not done after {seconds} seconds", file=sys.stderr)
        for process in running:
            process.kill()
        os._exit(1)

    signal.signal(signal.SIGALRM, late)
    signal.alarm(seconds)


def run(main, seconds=None, name=None):
    """Ends with what `main` gives as the status, where it takes no longer than so many seconds;
    where it is an `Error`, with status 1 and a line that says it."""
    if seconds:
        limit(seconds)
    name = name or os.path.splitext(os.path.basename(sys.argv[0]))[0]
    sys.stdout.reconfigure(errors="surrogateescape")  # texts may hold bytes that aren't UTF-8
    try:
        status = main()
        sys.stdout.flush()
    except Error as error:
        print(f"{name}: {error}", file=sys.stderr)
        status = 1
    except KeyboardInterrupt:
        status = 130
    except BrokenPipeError:  # whoever reads this has gone
        os.dup2(os.open(os.devnull, os.O_WRONLY), 1)
        status = 1
    sys.exit(status)
