"""The package is installed without a network, and a test with its fixture passes."""

import importlib.util
import os
import shutil
import subprocess
import sys

import pytest

import nvimd as package
from nvimd.program import TOP

TEST = """
def test_two_lines(nvimd, expect_screen):
    nvimd.api.buf_set_lines(0, 0, -1, True, ["one", "two"])
    expect_screen("one\\ntwo\\n~\\n[No Name] [+]\\n\\n")
"""


@pytest.mark.skipif(
    not all(importlib.util.find_spec(name) for name in ("ensurepip", "setuptools", "wheel")),
    reason="wants python3-venv, python3-setuptools and python3-wheel",
)
def test_it_is_installed_without_a_network(tmp_path):
    source = tmp_path / "python"
    shutil.copytree(os.path.join(TOP, "python"), source)
    environment = {"PATH": os.environ["PATH"], "HOME": str(tmp_path), "NVIMD": package.program()}

    def run(*words):
        given = {"env": environment, "cwd": tmp_path, "capture_output": True, "text": True}
        done = subprocess.run(words, timeout=300, **given)
        assert done.returncode == 0, done.stdout + done.stderr
        return done.stdout

    run(sys.executable, "-m", "venv", "--system-site-packages", "venv")
    python = str(tmp_path / "venv" / "bin" / "python")
    run(python, "-m", "pip", "install", "--no-index", "--no-build-isolation", str(source))
    (tmp_path / "test_two.py").write_text(TEST)
    assert "1 passed" in run(python, "-m", "pytest", "-q", "test_two.py")
