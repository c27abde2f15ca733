"""Installations to try: a folder that everybody may read, and commands as another user, who sees the installation and the system alone."""
import os
import pathlib
import shutil
import subprocess
import tempfile
from typing import Iterator

TOP = pathlib.Path(__file__).resolve().parents[2]
NOBODY = 65534
HIDE = 'mount -t tmpfs none "$0" && exec setpriv --reuid=65534 --regid=65534 --clear-groups -- "$@"'


def open_folder() -> Iterator[pathlib.Path]:
    """A folder outside the repository that everybody may read."""
    room = pathlib.Path(tempfile.mkdtemp(prefix="wegcapho"))
    room.chmod(0o755)
    yield room
    shutil.rmtree(room)


def install(prefix: pathlib.Path, *words: str) -> "subprocess.CompletedProcess[str]":
    return subprocess.run([TOP / "tools/install", *words, prefix], capture_output=True, text=True, check=False)


def can_hide() -> bool:
    """Whether the repository can be hidden from a command, as root."""
    return os.geteuid() == 0 and not subprocess.run(["unshare", "-m", "true"], capture_output=True, check=False).returncode


def as_another(folder: pathlib.Path, home: pathlib.Path, words: list[str]) -> "subprocess.CompletedProcess[str]":
    """A command in this folder, with a PATH of the installation and the system alone; as root it is another user's, and the repository isn't there."""
    plain = ["env", "-i", f"PATH={home}/bin:/usr/bin:/bin", f"HOME={folder}", "LC_ALL=C.UTF-8", *words]
    if can_hide():
        os.chown(folder, NOBODY, NOBODY)
        plain = ["unshare", "-m", "sh", "-c", HIDE, str(TOP), *plain]
    return subprocess.run(plain, cwd=folder, capture_output=True, text=True, check=False)


def listing(folder: pathlib.Path) -> dict[str, object]:
    """All that is in a folder: what links say, and the bytes of files."""
    return {
        str(it.relative_to(folder)): os.readlink(it) if it.is_symlink() else it.read_bytes() if it.is_file() else None
        for it in sorted(folder.rglob("*"))
    }
