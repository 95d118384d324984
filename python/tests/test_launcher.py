"""The launcher, in a small repository around the program: what it runs, unpacks, builds and
refuses, and the words of a Neovim. In place of the kit stands a script that says what it is asked,
and makes the program that it is told."""

import gzip
import os
import shutil
import subprocess
import time
from concurrent.futures import ThreadPoolExecutor

import pytest

import nvimd
from nvimd.program import TOP
from runs import of_repository

pytestmark = of_repository

# Two requests, nvim_buf_set_lines and nvim_buf_get_lines, and their replies.
REQUESTS = (
    b"\x94\x00\x01\xb2nvim_buf_set_lines\x95\x00\x00\xff\xc3\x91\xa1a"
    b"\x94\x00\x02\xb2nvim_buf_get_lines\x94\x00\x00\xff\xc3"
)
REPLIES = bytes.fromhex("940101c0c0940102c091a161")
SOURCES = {
    "crates.txt": "nv_low:\nnv_top: nv_low\nnv_test: nv_top\nnvimd: nv_top\n",
    "HANDLES": "Handles allowed: none.\n",
    "crates/nv_low/src/lib.rt": "// low\n",
    "crates/nv_low/specs/Lib.antt": "module Lib where\n",
    "crates/nv_low/proofs/all/Answers.antt": "module Answers where\n",
    "crates/nv_top/src/lib.rt": "// top\n",
    "crates/nv_top/src/deep/lib.rt": "// deep\n",
    "crates/nv_test/src/lib.rt": "// test\n",
    "crates/nvimd/src/main.rt": "// main\n",
}
# A kit: what it is asked goes to `asked`; `rt ci` makes the program of the file `made`, if there.
KIT = """#!/bin/sh
kit=${0%/*}
echo "$1" >>"$kit/asked"
case $1 in
version) cat "$kit/version" ;;
ci)
    ls crates | tr '\\n' ' ' >"$kit/crates"
    for name in $(ls crates); do
        echo "rt: $name proved"
        echo "rt: $name: its tests are proved"
    done
    if [ ! -f "$kit/made" ]; then echo 'rt: FAILED: nvimd'; echo '3 passed, 1 failed'; exit 1; fi
    if [ -f "$kit/slow" ]; then sleep 1; fi
    mkdir -p crates/nvimd/out
    cp "$kit/made" crates/nvimd/out/nvimd
    chmod 755 crates/nvimd/out/nvimd
    echo '4 passed, 0 failed'
    ;;
esac
"""


class Repository:
    """A repository with few sources, and a kit beside it."""

    def __init__(self, folder):
        self.top = folder / "repository"
        self.kit = folder / "kit"
        self.program = self.top / "crates" / "nvimd" / "out" / "nvimd"

    def make(self):
        self.kit.mkdir()
        (self.kit / "rt").write_text(KIT)
        (self.kit / "rt").chmod(0o755)
        (self.kit / "version").write_text("a kit\n")
        shutil.copy(nvimd.program(), self.kit / "made")
        for name, text in SOURCES.items():
            self.write(name, text)
        (self.top / ".ci").mkdir()
        for name in ("nvimd", ".ci/dist", ".ci/jobs"):
            shutil.copy(os.path.join(TOP, name), self.top / name)
        self.git("init", "-q")
        self.git("add", ".")
        self.git("-c", "user.name=a", "-c", "user.email=b", "commit", "-qm", "all")

    def git(self, *words):
        done = subprocess.run(["git", *words], cwd=self.top, check=True, capture_output=True)
        return done.stdout.decode().strip()

    def write(self, name, text):
        (self.top / name).parent.mkdir(parents=True, exist_ok=True)
        (self.top / name).write_text(text)

    def asked(self):
        """What the kit was asked since the last look."""
        path = self.kit / "asked"
        words = path.read_text().split() if path.exists() else []
        path.unlink(missing_ok=True)
        return words

    def run(self, *words, launcher="./nvimd", data=REQUESTS, **variables):
        """What comes of these words: the status, standard output and the lines beside it."""
        path = f"{self.kit}:/usr/bin:/bin"
        done = subprocess.run(
            [launcher, *words],
            cwd=self.top,
            env={"PATH": path, **variables},
            input=data,
            capture_output=True,
            timeout=60,
        )
        return done.returncode, done.stdout, done.stderr.decode().splitlines()

    def answers(self, *words, **how):
        """Runs a session that must answer both requests; what it says beside that."""
        status, out, said = self.run(*words or ["embed"], **how)
        assert (status, out) == (0, REPLIES), said
        return said

    def build(self):
        """Builds the program, and gives what is said of it."""
        status, out, said = self.run("build")
        assert (status, out) == (0, b""), said
        return said

    def pack(self):
        """Makes dist/ from the program that is built, as if by the gate."""
        (self.program.parent / "nvimd.by-rattle").touch()
        status, _, said = self.run(launcher=".ci/dist")
        assert (status, said) == (0, [])

    def manifest(self):
        lines = (self.top / "dist" / "MANIFEST").read_text().splitlines()
        return dict(line.split(" ", 1) for line in lines)


@pytest.fixture(scope="module")
def made(tmp_path_factory):
    """A folder with a repository that was built and packed, with its kit."""
    folder = tmp_path_factory.mktemp("made")
    repository = Repository(folder)
    repository.make()
    repository.build()
    repository.pack()
    shutil.rmtree(repository.program.parent)
    repository.asked()
    return folder


@pytest.fixture
def fresh(made, tmp_path):
    """A repository as in a fresh clone."""
    folder = tmp_path / "fresh"
    shutil.copytree(made, folder)
    return Repository(folder)


@pytest.fixture
def bare(fresh):
    """The same without dist/."""
    shutil.rmtree(fresh.top / "dist")
    return fresh


def test_a_program_is_built_from_the_crates_that_it_stands_on(bare):
    said = bare.answers()
    assert said[0] == "nvimd: there is no program in dist/"
    assert said[1].startswith("nvimd: proving 3 crates and building the program: ")
    assert [line.split(": ")[2] for line in said if "is proved" in line] == [
        "1 of 3 crates, 66% of the text, 0 minutes",
        "2 of 3 crates, 88% of the text, 0 minutes",
        "3 of 3 crates, 100% of the text, 0 minutes",
    ]
    assert said[-1] == "nvimd: built in 0 minutes"
    assert (bare.kit / "crates").read_text().split() == ["nv_low", "nv_top", "nvimd"]
    assert bare.asked() == ["ci", "version"]
    assert bare.answers() == [] and bare.asked() == []


def test_two_starts_at_once_build_once(bare):
    (bare.kit / "slow").touch()
    with ThreadPoolExecutor(2) as pool:
        said = list(pool.map(lambda _: bare.answers(), range(2)))
    assert ["nvimd: waiting for another build to end"] in said
    assert bare.asked().count("ci") == 1


def test_what_is_not_proved_is_not_run(bare):
    (bare.kit / "made").unlink()
    status, out, said = bare.run("embed")
    assert (status, out) == (1, b"") and "rt: FAILED: nvimd" in said
    assert said[-1].startswith("nvimd: not built: ") and not bare.program.exists()


def test_without_a_kit_nothing_is_built(bare):
    (bare.kit / "rt").unlink()
    status, out, said = bare.run("embed")
    assert (status, out) == (1, b"")
    assert said[-1] == (
        "nvimd: the kit that proves and builds (rt) isn't on PATH: README.md names it"
    )


@pytest.mark.parametrize("has_kit", [True, False])
def test_the_program_of_dist_is_unpacked_once(fresh, has_kit):
    if not has_kit:
        (fresh.kit / "rt").unlink()
    began = time.monotonic()
    assert fresh.answers() == []
    assert time.monotonic() - began < 30
    assert "ci" not in fresh.asked()
    there = fresh.program.stat()
    assert fresh.answers() == [] and fresh.asked() == []
    assert fresh.program.stat().st_ino == there.st_ino
    assert fresh.program.read_bytes() == (fresh.kit / "made").read_bytes()


@pytest.mark.parametrize("name", [name for name in SOURCES if name != "HANDLES"])
def test_if_one_source_is_changed_it_builds_and_says_so_first(fresh, name):
    fresh.write(name, SOURCES[name] + ("# more\n" if name == "crates.txt" else "-- more\n"))
    said = fresh.answers()
    assert said[0] == (
        "nvimd: the sources or the kit aren't those that the program in dist/ was built from"
    )
    assert said[1].startswith("nvimd: proving 3 crates ") and "ci" in fresh.asked()


def test_another_kit_builds(fresh):
    (fresh.kit / "version").write_text("another kit\n")
    assert "aren't those" in fresh.answers()[0] and "ci" in fresh.asked()


COMPILED = [name for name in SOURCES if name.endswith((".rt", ".txt")) and "nv_test" not in name]


@pytest.mark.parametrize("name", COMPILED)
def test_a_start_sees_each_file_that_is_compiled(fresh, name):
    fresh.answers()
    fresh.write(name, SOURCES[name] + "# more\n")
    said = fresh.answers()
    assert said[0] == f"nvimd: {name} is newer than the program" and "ci" in fresh.asked()
    assert fresh.answers() == [] and fresh.asked() == []


def test_a_file_that_is_as_it_was_builds_nothing(fresh):
    fresh.answers()
    name = "crates/nv_low/src/lib.rt"
    fresh.write(name, SOURCES[name] + "// more\n")
    fresh.write(name, SOURCES[name])
    assert fresh.answers() == [] and "ci" not in fresh.asked()


@pytest.mark.parametrize("is_started", [True, False])
def test_a_program_that_rt_run_built_is_not_taken_for_the_one_before(fresh, is_started):
    """A file is changed, the program built by the kit itself, and the file put back."""
    fresh.answers()
    name, proved = "crates/nv_low/src/lib.rt", fresh.program.read_bytes()
    fresh.write(name, SOURCES[name] + "// more\n")
    time.sleep(0.02)
    fresh.program.write_bytes(proved + b"of other sources")
    if is_started:
        assert fresh.answers() == []
        assert fresh.run("--version")[1].decode().splitlines()[0].endswith("-changed")
    time.sleep(0.02)
    fresh.write(name, SOURCES[name])
    assert fresh.answers() == [] and fresh.program.read_bytes() == proved


@pytest.mark.parametrize("part", ["first", "time", "system", "middle", "last"])
def test_a_program_of_dist_with_another_byte_is_refused(fresh, part):
    path = fresh.top / "dist" / "nvimd.gz"
    data = bytearray(path.read_bytes())
    places = {"first": 0, "time": 4, "system": 9, "middle": len(data) // 2, "last": -1}
    data[places[part]] ^= 1
    path.write_bytes(data)
    status, out, said = fresh.run("embed")
    assert (status, out) == (1, b"") and not fresh.program.exists()
    assert said == [
        "nvimd: dist/nvimd.gz isn't what dist/MANIFEST names: refused. "
        "'./nvimd build' builds the program"
    ]


def test_a_program_with_another_byte_is_refused_beside_its_own_checksum(fresh):
    """The packed program is another one, and the manifest has the checksum of its file."""
    path, before = fresh.top / "dist" / "nvimd.gz", fresh.manifest()["packed"]
    data = bytearray(gzip.decompress(path.read_bytes()))
    data[len(data) // 2] ^= 1
    path.write_bytes(gzip.compress(bytes(data)))
    now = subprocess.run(["sha256sum", path], capture_output=True, text=True).stdout.split()[0]
    manifest = fresh.top / "dist" / "MANIFEST"
    manifest.write_text(manifest.read_text().replace(before, now))
    status, out, said = fresh.run("embed")
    assert (status, out) == (1, b"") and "refused" in said[0]


def test_verify_builds_and_compares(fresh):
    status, out, said = fresh.run("verify")
    assert (status, out) == (0, b"") and fresh.asked().count("ci") == 1
    assert said[-1] == f"nvimd: identical: {fresh.manifest()['program']}"
    with open(fresh.kit / "made", "ab") as file:
        file.write(b"x")
    status, out, said = fresh.run("verify")
    assert status == 1
    assert said[-1] == "nvimd: crates/nvimd/out/nvimd isn't the program of dist/"
    fresh.write("crates/nv_low/src/lib.rt", "// other\n")
    status, out, said = fresh.run("verify")
    assert status == 1 and "nothing to compare" in said[0] and len(said) == 1


def test_the_gate_compares_if_dist_is_of_its_sources(fresh):
    fresh.answers()
    status, out, said = fresh.run("check", launcher=".ci/dist")
    assert (status, said) == (0, []) and b"is that of dist/" in out
    with open(fresh.program, "ab") as file:
        file.write(b"x")
    status, out, said = fresh.run("check", launcher=".ci/dist")
    assert status == 1 and said[-1] == "nvimd: crates/nvimd/out/nvimd isn't the program of dist/"
    fresh.write("crates/nv_low/specs/Lib.antt", "-- other\n")
    status, out, said = fresh.run("check", launcher=".ci/dist")
    assert (status, said) == (0, []) and b"nothing to compare" in out


def test_dist_is_made_of_committed_sources_alone(bare):
    bare.build()
    status, _, said = bare.run(launcher=".ci/dist")
    assert status == 1
    assert said == ["nvimd: the gate (.ci/run) hasn't built crates/nvimd/out/nvimd"]
    (bare.program.parent / "nvimd.by-rattle").touch()
    bare.write("crates/nv_low/specs/Lib.antt", "-- other\n")
    status, _, said = bare.run(launcher=".ci/dist")
    assert status == 1
    assert said == ["nvimd: crates/nv_low/specs/Lib.antt is newer than the program"]
    os.utime(bare.top / "crates/nv_low/specs/Lib.antt", (1, 1))
    status, _, said = bare.run(launcher=".ci/dist")
    assert status == 1 and said[0].startswith("nvimd: the sources aren't committed: ")
    assert not (bare.top / "dist").exists()


WORDS = [
    "embed",
    "embed --outbox 100",
    "--embed",
    "--embed --headless",
    "--headless --embed",
    "-u NONE -i NONE -n --embed",
    "--clean --embed --headless --cmd x",
    "--embed --outbox 100 -u --embed",
    "--embed -u",
]


@pytest.mark.parametrize("words", WORDS)
def test_the_words_of_a_neovim(fresh, words):
    assert fresh.answers(*words.split()) == []


def test_a_word_with_a_blank_is_one(fresh):
    assert fresh.answers("--embed", "--cmd", "set a b", "--headless") == []


@pytest.mark.parametrize(
    "words", ["", "--headless", "-u NONE", "--embed file", "--embed --outbox", "build now", "-x"]
)
def test_words_that_are_no_command(fresh, words):
    assert fresh.run(*words.split()) == (2, b"", ["nvimd: bad command line"])


def test_its_version(fresh):
    commit = fresh.git("rev-parse", "--short=12", "HEAD")
    told = [f"nvimd {commit}", "a kit"]
    assert fresh.run("--version") == (0, "\n".join([*told, ""]).encode(), [])
    status, out, said = fresh.run("--version", NVIMD_AS="nvim")
    assert (status, out.decode().splitlines(), said) == (0, ["NVIM v0.11.0", *told], [])
    fresh.write("crates/nv_low/src/lib.rt", "// other\n")
    status, out, _ = fresh.run("--version")
    assert out.decode().splitlines()[0] == f"nvimd {commit}-changed"


@pytest.mark.parametrize("words", ["help", "-h", "--help", "embed --help", "--embed --help"])
def test_help_has_the_words_of_the_launcher_too(fresh, words):
    """The program is a script here, which says what it is asked."""
    fresh.answers()
    fresh.program.write_text('#!/bin/sh\necho "asked $*"\n')
    status, out, said = fresh.run(*words.split())
    first, *more = out.decode().splitlines()
    assert (status, first, said) == (0, f"asked {words.replace('--embed', 'embed')}", [])
    told = [line.split()[:2] for line in more if line.startswith("  nvimd ")]
    own = [["nvimd", "build"], ["nvimd", "verify"]]
    assert told == (own if " " not in words else [])


def test_a_start_runs_nothing_but_the_program(fresh):
    fresh.answers()
    assert fresh.answers(PATH="/nowhere") == []


def test_from_elsewhere_and_by_a_link(fresh, tmp_path):
    link = tmp_path / "bin" / "nvimd"
    link.parent.mkdir()
    link.symlink_to(fresh.top / "nvimd")
    assert fresh.answers(launcher=str(link)) == []
    assert fresh.answers("nvimd", "embed", launcher="/bin/sh") == []
    launcher, fresh.top = str(fresh.top / "nvimd"), tmp_path
    assert fresh.answers(launcher=launcher) == []


def test_a_release_looks_at_nothing(fresh):
    fresh.answers()
    built_from = fresh.program.parent / "sources"
    built_from.write_text("commit='c'\nkit='k'\nfiles=''\n")
    shutil.rmtree(fresh.top / ".ci")
    fresh.write("crates/nv_low/src/lib.rt", "// other\n")
    os.utime(built_from, (1, 1))
    assert fresh.answers() == []
    assert fresh.run("--version")[1] == b"nvimd c\nk\n"
    status, out, said = fresh.run("build")
    assert (status, out) == (1, b"") and "has nothing to build the program from" in said[0]
