"""tools/build over a kit that only seems to be one, and tools/release: the same bytes each time, and what is unpacked runs."""
import hashlib
import os
import pathlib
import shutil
import signal
import subprocess
import sys
import time
from typing import Iterator

import pytest

HERE = pathlib.Path(__file__).resolve().parent
TOP = HERE.parents[1]
sys.path.insert(0, str(HERE))
# pylint: disable=wrong-import-position,redefined-outer-name
from installation import as_another, open_folder
from machine import program as built

RT = """#!/bin/sh
echo rt >>"$CALLS"
[ ! -e "$FAILS" ] || { echo "src/main.rt: no such name"; exit 1; }
mkdir "$TMPDIR/rt-try"
echo MODULE >"$TMPDIR/rt-try/module.bc"
exec sleep 100
"""
CLANG = """#!/bin/sh
for last; do :; done
case "$*" in *-emit-llvm*) printf 'define i32 @main(\\ncall void @llvm.trap()\\nret\\n'; exit;; esac
echo clang >>"$CALLS"
[ ! -e "$SLOW" ] || exec sleep 100
grep -q llvm.trap "$4" && exit 1
cp "$MADE" "$last"
"""


class Kit:
    """A crate, and a kit whose programs note that they were called."""

    def __init__(self, room: pathlib.Path) -> None:
        self.room, self.calls, self.out = room, room / "calls", room / "program"
        for name, text in (("bin/rt", RT), ("toolchain/bin/clang", CLANG)):
            file = room / "kit" / name
            file.parent.mkdir(parents=True)
            file.write_text(text, encoding="utf-8")
            file.chmod(0o755)
        (room / "kit/KIT-ID").write_text("one", encoding="utf-8")
        self.crate = room / "crates/tool"
        (self.crate / "src").mkdir(parents=True)
        self.main = self.crate / "src/main.rt"
        self.main.write_text("fn main() {}", encoding="utf-8")
        (room / "crates.txt").write_text("tool:\n", encoding="utf-8")
        (room / "made").write_text("a program", encoding="utf-8")
        self.words = [str(TOP / "tools/build"), str(self.crate), str(self.out)]
        self.env = {**os.environ, "PATH": f"{room}/kit/bin:{os.environ['PATH']}", "XDG_CACHE_HOME": str(room / "cache"), "CALLS": str(self.calls)}
        self.env |= {"FAILS": str(room / "fails"), "SLOW": str(room / "slow"), "MADE": str(room / "made")}

    def build(self) -> "subprocess.CompletedProcess[str]":
        return subprocess.run(self.words, env=self.env, capture_output=True, text=True, check=False)

    def called(self) -> list[str]:
        """Whom it called since this was asked last."""
        found = self.calls.read_text(encoding="utf-8").split() if self.calls.exists() else []
        self.calls.unlink(missing_ok=True)
        return found


@pytest.fixture
def kit(tmp_path: pathlib.Path) -> Kit:
    return Kit(tmp_path)


def test_a_build_says_its_steps_and_is_kept(kit: Kit) -> None:
    """The same sources aren't built again; changed ones are."""
    ran = kit.build()
    assert (ran.returncode, kit.out.read_text(encoding="utf-8")) == (0, "a program"), ran.stderr
    assert [it.split()[1] for it in ran.stderr.splitlines()] == ["compiles", "compiles:", "optimises", "optimises:"]
    assert "of processor time" in ran.stderr
    assert kit.called() == ["rt", "clang"]
    assert (kit.build().returncode, kit.called()) == (0, [])
    kit.main.write_text("fn main() { }", encoding="utf-8")
    assert (kit.build().returncode, kit.called()) == (0, ["rt", "clang"])


def test_a_build_that_was_ended_goes_on(kit: Kit) -> None:
    """Nothing of it runs on, and no program is there in part."""
    (kit.room / "slow").touch()
    kit.out.write_text("before", encoding="utf-8")
    with subprocess.Popen(kit.words, env=kit.env, stderr=subprocess.PIPE, text=True) as job:
        while "clang" not in (kit.calls.read_text(encoding="utf-8") if kit.calls.exists() else ""):
            assert job.poll() is None
            time.sleep(0.05)
        job.send_signal(signal.SIGTERM)
        said = job.communicate()[1]
    assert (job.returncode, said.splitlines()[-1]) == (130, "build: stopped")
    assert kit.out.read_text(encoding="utf-8") == "before"
    left = time.monotonic() + 60  # what was told to end takes its time on a busy machine
    while still := [it for it in pathlib.Path("/proc").glob("[0-9]*/environ") if runs_for(it, kit.room)]:
        assert time.monotonic() < left, still
        time.sleep(0.1)
    (kit.room / "slow").unlink()
    kit.called()
    assert (kit.build().returncode, kit.called(), kit.out.read_text(encoding="utf-8")) == (0, ["clang"], "a program")


def runs_for(environ: pathlib.Path, room: pathlib.Path) -> bool:
    """A process that was begun with this room's files."""
    try:
        return str(room / "calls").encode() in environ.read_bytes() and environ.parent.name != str(os.getpid())
    except OSError:
        return False


def test_a_build_that_fails_says_why(kit: Kit) -> None:
    (kit.room / "fails").touch()
    kit.out.write_text("before", encoding="utf-8")
    ran = kit.build()
    assert (ran.returncode, ran.stderr.splitlines()[-1]) == (2, "build: rt compiled no module of tool: src/main.rt: no such name")
    assert kit.out.read_text(encoding="utf-8") == "before"


@pytest.fixture(scope="module")
def room() -> Iterator[pathlib.Path]:
    yield from open_folder()


def git(folder: pathlib.Path, *words: str) -> str:
    own = ["-c", "user.name=nobody", "-c", "user.email=nobody@localhost", "-c", "safe.directory=*"]
    return subprocess.run(["git", *own, "-C", folder, *words], capture_output=True, text=True, check=True).stdout


@pytest.fixture(scope="module")
def tree(room: pathlib.Path) -> pathlib.Path:
    """A repository of what is released, as it stands here."""
    made = room / "tree"
    for name in git(TOP, "ls-files", "-co", "--exclude-standard", "tools", "man", "docs/JOURNAL.md").splitlines():
        (made / name).parent.mkdir(parents=True, exist_ok=True)
        shutil.copy(TOP / name, made / name)
    (made / ".gitignore").write_text("__pycache__/\n", encoding="utf-8")
    git(room, "init", "-q", str(made))
    git(made, "add", "-A")
    git(made, "commit", "-qm", "as it stands")
    return made


def release(tree: pathlib.Path, where: pathlib.Path) -> "subprocess.CompletedProcess[str]":
    where.mkdir(exist_ok=True)
    return subprocess.run([tree / "tools/release", "--program", built(), where], capture_output=True, text=True, check=False)


def test_two_releases_are_the_same_bytes(room: pathlib.Path, tree: pathlib.Path) -> None:
    """Also where the files are others, with other times and rights of a group; and it runs where it is unpacked."""
    first = release(tree, room / "one")
    assert first.returncode == 0, first.stderr
    other = room / "other"
    subprocess.run(["git", "-c", "safe.directory=*", "clone", "-q", tree, other], check=True)
    for it in other.rglob("*"):
        os.utime(it, (1, 1))
        it.chmod(it.stat().st_mode | 0o020)
    assert release(other, room / "two").returncode == 0
    one, two = ({it.name: it.read_bytes() for it in (room / name).iterdir()} for name in ("one", "two"))
    assert one == two
    tar = next(it for it in (room / "one").iterdir() if it.suffix == ".gz")
    assert (tar.with_name(f"{tar.name}.sha256")).read_text(encoding="utf-8") == f"{hashlib.sha256(tar.read_bytes()).hexdigest()}  {tar.name}\n"
    unpacked_runs(room, tar, git(tree, "rev-parse", "HEAD"))


def unpacked_runs(room: pathlib.Path, tar: pathlib.Path, commit: str) -> None:
    """What an administrator unpacks has the sums and the commit that it says, and its tools run for others."""
    there = room / "opt"
    there.mkdir()
    subprocess.run(["tar", "-xzf", tar, "-C", there], check=True)
    folder = there / tar.name.removesuffix(".tar.gz")
    subprocess.run(["sha256sum", "--quiet", "--strict", "-c", "SHA256SUMS"], cwd=folder, check=True)
    listed = {line.split("  ")[1] for line in (folder / "SHA256SUMS").read_text(encoding="utf-8").splitlines()}
    assert listed == {str(it.relative_to(folder)) for it in folder.rglob("*") if it.is_file() and not it.is_symlink()} - {"SHA256SUMS"}
    assert (folder / "COMMIT").read_text(encoding="utf-8") == commit
    assert "neither proved nor built here" in (folder / "README").read_text(encoding="utf-8")
    empty = room / "empty"
    shutil.copytree(TOP / "demo", empty)
    ran = as_another(empty, folder, "look logins --quiet initiator.pcap target.pcap".split())
    assert (ran.returncode, "20:00:00:1b:21:00:00:0a" in ran.stdout) == (0, True), ran.stderr


def test_what_is_in_no_commit_is_not_released(room: pathlib.Path, tree: pathlib.Path) -> None:
    file = tree / "tools/fcoe/more.py"
    file.write_text("", encoding="utf-8")
    ran = release(tree, room / "none")
    file.unlink()
    assert (ran.returncode, ran.stderr.count("\n"), "tools/fcoe/more.py" in ran.stderr, list((room / "none").iterdir())) == (2, 1, True, []), ran.stderr
