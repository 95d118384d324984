"""What checks share: one way to compare and to count, and the words of a script."""

import sys
import threading

from nvimd.command import Words, run  # for the scripts

MOST, WIDTH = 10, 300  # findings that are told, and characters of each value in them


class Check:
    """What passed and what failed, of all threads together; the first findings in words."""

    def __init__(self):
        self.lock = threading.Lock()
        self.passed = self.failed = 0
        self.findings = []

    def same(self, what, got, wanted):
        with self.lock:
            if got == wanted:
                self.passed += 1
                return
            self.failed += 1
            if self.failed <= MOST:
                told = f"{what}: got {repr(got)[:WIDTH]}, not {repr(wanted)[:WIDTH]}"
                self.findings.append(told)

    def counts(self):
        return f"{self.passed} passed, {self.failed} failed"

    def end(self):
        """Tells the findings and the counts of a script; its status."""
        for told in self.findings:
            print(told, file=sys.stderr)
        print(self.counts())
        return 1 if self.failed else 0


def seeded(doc, seed=1):
    """The seed that the words of a script give, whose use its docstring tells."""
    words = Words(doc)
    words.add_argument("seed", nargs="?", type=int, default=seed, metavar="SEED")
    return words.parse_args().seed
