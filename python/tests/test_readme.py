"""README.md: each command and each program in it, run as written, one after another in one folder,
prints what stands below it.

A comment behind a command says what else it wants: minutes or an hour (such a command isn't run
here; its program must be there), the key q in a terminal, or a window on a display. `...` in what
is printed stands for anything. The folder is as a release is, around the program.
"""

import fcntl
import os
import pathlib
import pty
import re
import shutil
import struct
import subprocess
import termios
import time

import pytest

import nvimd
from nvimd.program import TOP
from runs import of_repository
from test_qt import display

ENV = {"HOME", "LANG", "LC_ALL", "TERM", "TMPDIR"}
PATIENCE = 60  # seconds for a command, or for what it waits for
SHOWN = 5  # seconds that a window must stay
BLOCK = re.compile(r"^```(\w+)\n(.*?)^```\n", re.MULTILINE | re.DOTALL)
DONE = "the command ended with"
LONG = re.compile(r"\b(minutes?|hours?)\b")
PARTS = ("nvimd", "docs", "clients", "examples", "bench", "python")


def blocks():
    """The language, the text and the first line of each block."""
    text = pathlib.Path(TOP, "README.md").read_text(encoding="utf-8")
    return [(it[1], it[2], text.count("\n", 0, it.start()) + 1) for it in BLOCK.finditer(text)]


def commands(text):
    """Each command of a block with its comment and what is to be printed."""
    for part in re.split(r"^\$ ", text, flags=re.MULTILINE)[1:]:
        line, _, printed = part.partition("\n")
        command, _, comment = line.partition(" # ")
        yield command.strip(), comment.strip(), printed


def stripped(text):
    """A text without blanks at the ends of its lines, which don't show."""
    return "\n".join(line.rstrip() for line in text.rstrip().split("\n"))


def is_as_shown(printed, shown):
    parts = [re.escape(part) for part in stripped(shown).split("...")]
    return re.fullmatch(r"(?s:.*)".join(parts), stripped(printed)) is not None


class Shell:
    """A shell in a folder, as a user has it open while reading."""

    def __init__(self, folder):
        self.folder = folder
        environment = {name: os.environ[name] for name in ENV if name in os.environ}
        path = os.pathsep.join(["/usr/bin", "/bin", os.path.dirname(shutil.which("rt") or "/bin")])
        self.environment = {**environment, "PATH": path, "PYTHONDONTWRITEBYTECODE": "1"}
        given = {"cwd": folder, "env": self.environment, "text": True, "start_new_session": True}
        streams = {"stdin": subprocess.PIPE, "stdout": subprocess.PIPE, "stderr": subprocess.STDOUT}
        self.process = subprocess.Popen(["bash"], **given, **streams)

    def run(self, command):
        """The status of a command, and what it prints."""
        self.process.stdin.write(f"{command}\necho \"{DONE} $?\"\n")
        self.process.stdin.flush()
        printed = ""
        for line in self.process.stdout:
            before, found, status = line.partition(DONE)
            printed += before
            if found:
                return int(status), printed
        raise AssertionError(f"the shell ended at: {command}\n{printed}")

    def wait_for_server(self, command):
        """Waits until a server that was started is there."""
        address = re.search(r"--listen (\S+)", command)[1].replace("$PWD", str(self.folder))
        late = time.monotonic() + PATIENCE
        while not os.path.exists(address):
            assert time.monotonic() < late, f"no server: {command}"
            time.sleep(0.02)

    def press(self, command, key):
        """Runs a command in a terminal, and presses a key once it has shown something."""
        words = ["bash", "-c", command.replace("$PWD", str(self.folder))]
        child, terminal = pty.fork()
        if child == 0:
            os.chdir(self.folder)
            fcntl.ioctl(0, termios.TIOCSWINSZ, struct.pack("4H", 24, 80, 0, 0))
            os.execvpe("bash", words, {**self.environment, "TERM": "xterm-256color"})
        shown = b""
        try:
            while b"~" not in shown:
                shown += os.read(terminal, 65536)
            os.write(terminal, key)
            while True:
                shown += os.read(terminal, 65536)
        except OSError:
            pass  # it has ended
        return os.waitstatus_to_exitcode(os.waitpid(child, 0)[1]), shown

    def show(self, command):
        """Runs a command on a display without a screen: it must stay until it is ended."""
        with display() as shown:
            home = str(self.folder)
            seen = {"DISPLAY": shown, "XDG_RUNTIME_DIR": home, "HOME": home}
            child = subprocess.Popen(
                ["bash", "-c", f"exec {command}"],
                cwd=self.folder,
                env={**self.environment, **seen},
                stdout=subprocess.DEVNULL,
                stderr=subprocess.DEVNULL,
                stdin=subprocess.DEVNULL,
            )
            try:
                status = child.wait(SHOWN)
            except subprocess.TimeoutExpired:
                status = None
            child.terminate()
            child.wait()
        return status


@pytest.fixture
def shell(tmp_path):
    for name in PARTS:
        there = os.path.join(TOP, name)
        if os.path.isdir(there):
            skipped = shutil.ignore_patterns("__pycache__", "out", "INDEX.md")
            shutil.copytree(there, tmp_path / name, ignore=skipped)
        else:
            shutil.copy(there, tmp_path / name)
    out = tmp_path / "crates" / "nvimd" / "out"
    out.mkdir(parents=True)
    shutil.copy(nvimd.program(), out / "nvimd")
    (out / "sources").write_text("commit='0'\nkit='rattle-kit-0'\nfiles=''\n")
    shell = Shell(tmp_path)
    yield shell
    shell.process.stdin.close()
    os.killpg(shell.process.pid, 9)
    shell.process.wait()


def run_command(shell, command, comment, check, where):
    """Runs a command as its comment says; what it prints."""
    program = re.split(r"\s", command)[0]
    if LONG.search(comment):
        path = os.path.join(TOP, program)
        there = os.access(path, os.X_OK) or shutil.which(program) is not None
        check.same(f"{where}: {program} is there", there, True)
    elif "key q" in comment:
        check.same(f"{where}: its status", shell.press(command, b"q")[0], 0)
    elif "window" in comment:
        if shutil.which("Xvfb") and shutil.which("nvim-qt"):
            check.same(f"{where}: the window stays", shell.show(command), None)
    elif program == "rt" and not shutil.which("rt"):
        pass  # no kit is here
    elif command.endswith("&"):
        shell.process.stdin.write(f"{command}\n")
        shell.process.stdin.flush()
        if "--listen" in command:
            shell.wait_for_server(command)
    else:
        status, printed = shell.run(command)
        check.same(f"{where}: its status", status, 0)
        return printed
    return None


@of_repository
def test_its_commands_print_what_stands_below_them(shell, check):
    found, number = blocks(), 0
    for at, (language, text, line) in enumerate(found):
        if language == "console":
            for command, comment, shown in commands(text):
                printed = run_command(shell, command, comment, check, f"line {line}: {command}")
                if printed is not None:
                    told = f"line {line}: {command}: prints what is shown"
                    check.same(told, is_as_shown(printed, shown) or printed, True)
                number += 1
        elif language == "python" and "def test_" in text:
            (shell.folder / "test_two.py").write_text(text)
        elif language == "python":
            (shell.folder / "program.py").write_text(text)
            ran = shell.run("PYTHONPATH=$PWD/python python3 program.py")
            follows, shown, _ = found[at + 1]
            check.same(f"line {line}: what follows is what it prints", follows, "text")
            check.same(f"line {line}: its status", ran[0], 0)
            check.same(f"line {line}: what it prints", stripped(ran[1]), stripped(shown))
        else:
            check.same(f"line {line}: no other language", language, "text")
    check.same("there are commands", number > 20, True)


@of_repository
def test_each_figure_has_a_program_that_measures_it():
    text = pathlib.Path(TOP, "README.md").read_text(encoding="utf-8")
    rows = re.findall(r"^\| .*\| `(\S+)[^`|]*` \|$", text, re.MULTILINE)
    assert len(rows) == 5
    assert [name for name in rows if not os.access(os.path.join(TOP, name), os.X_OK)] == []
