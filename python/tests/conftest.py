"""What the tests share: one way to compare and to count, seeds, a limit of time, files that are
held against what makes them, and programs that are run to their end."""

import os
import signal
import subprocess
import sys

import pytest

import nvimd as package
from nvimd.program import TOP
from nvimd.server import running
from runs import CLIENTS

sys.path.append(CLIENTS)  # the modules of the clients
from check import Check

pytest_plugins = ["nvimd.plugin"]  # where the package isn't installed
LONG = 600  # seconds that a test may take
PACKAGE = os.path.dirname(os.path.dirname(os.path.abspath(package.__file__)))
NUMBERS = {
    "--limit": (LONG, "seconds that a test may take"),
    "--seconds": (None, "that hostile sessions go on, or a Neovim is told nothing"),
    "--sessions": (64, "of the crowd, or at once without time"),
    "--steps": (60, "of each session of the crowd"),
}


def pytest_addoption(parser):
    group = parser.getgroup("nvimd")
    told = "of a test that draws, in place of its own; may be given again"
    group.addoption("--seed", action="append", type=int, metavar="N", help=told)
    told = "refuse each call for memory, none left out, which takes an hour"
    group.addoption("--each-call", action="store_true", help=told)
    for name, (number, told) in NUMBERS.items():
        group.addoption(name, type=int, default=number, metavar="N", help=told)


def pytest_configure(config):
    config.addinivalue_line("markers", "seeds(..): of a test that draws; --seed gives others")
    config.compared = {}  # the comparisons of each file


def pytest_generate_tests(metafunc):
    if "seed" in metafunc.fixturenames:
        seeds = metafunc.definition.get_closest_marker("seeds").args
        metafunc.parametrize("seed", metafunc.config.getoption("seed") or seeds)


@pytest.hookimpl(hookwrapper=True)
def pytest_runtest_protocol(item):
    """Ends a test that takes too long, and the servers that it started."""
    seconds, before = item.config.getoption("limit"), set(running)

    def late(*_):
        for process in set(running) - before:
            process.kill()
        raise TimeoutError(f"not done after {seconds} seconds")

    found = signal.signal(signal.SIGALRM, late)
    signal.alarm(seconds)
    yield
    signal.alarm(0)
    signal.signal(signal.SIGALRM, found)


@pytest.fixture
def check():
    """Compares, and goes on where something differs; then the test fails at its end."""
    return Check()


@pytest.hookimpl(hookwrapper=True)
def pytest_runtest_makereport(item, call):
    """A test fails by what its comparisons found, or without any; each file's are counted."""
    outcome = yield
    check = item.funcargs.get("check") if call.when == "call" else None
    if check:
        report, count = outcome.get_result(), check.passed + check.failed
        told = "\n".join([*check.findings, check.counts()])
        if report.passed and (check.failed or not count):
            report.outcome, report.longrepr = "failed", told
        elif report.failed:
            report.sections.append(("compared", told))
        name, counts = item.path.name, item.config.compared
        counts[name] = counts.get(name, 0) + count


def pytest_terminal_summary(terminalreporter, config):
    if config.compared:
        terminalreporter.section("compared")
        for name, count in sorted(config.compared.items()):
            terminalreporter.write_line(f"{name:28} {count:9,}")
        terminalreporter.write_line(f"{'in all':28} {sum(config.compared.values()):9,}")


@pytest.fixture
def holds(request, check):
    """Holds a file against what it must be; `--snapshot-update` writes it."""

    def hold(path, data):
        if request.config.getoption("--snapshot-update"):
            with open(path, "wb") as file:
                file.write(data)
        there = None
        if os.path.exists(path):
            with open(path, "rb") as file:
                there = file.read()
        what = f"{os.path.relpath(path, TOP)} is as it must be (or else --snapshot-update)"
        check.same(what, there == data, True)

    return hold


@pytest.fixture
def ran():
    """Runs a command to its end: its status, and what it writes to both outputs."""

    def run(*words, data=None):
        environment = {**os.environ, "PYTHONPATH": PACKAGE, "NVIMD": package.program()}
        given = {"input": data} if data is not None else {"stdin": subprocess.DEVNULL}
        texts = {"capture_output": True, "text": True, "timeout": LONG}
        done = subprocess.run(words, cwd=TOP, env=environment, **given, **texts)
        return done.returncode, done.stdout, done.stderr

    return run


@pytest.fixture
def module(ran):
    """Runs a program of the package to its end."""
    return lambda name, *words: ran(sys.executable, "-m", f"nvimd.{name}", *map(str, words))


@pytest.fixture
def book(tmp_path):
    """A book that is generated, of three sessions: one edits, one follows, one has a UI."""
    path = tmp_path / "book"
    with open(path, "wb") as file:
        subprocess.run([package.program(), "generate", "7"], stdout=file, check=True)
    return str(path)
