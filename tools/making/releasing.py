"""A release: what an installation has, as one file to unpack anywhere, with its checksums and its commit; the same bytes each time."""
import gzip
import hashlib
import io
import os
import pathlib
import subprocess
import tarfile
import tempfile
from dataclasses import dataclass

from fcoe.errors import Refused

from .staging import HOME, TOP, Program, lead, links, stage

SUMS, COMMIT, README = "SHA256SUMS", "COMMIT", "README"
ABOUT = """{name}: an FCoE forwarder that is run over captures and on interfaces, and the tools beside it, for Linux on x86-64.

Unpack it anywhere and put its bin on PATH; the tools want python3, and look's report jinja2 (python3-jinja2):

    tar -xzf {name}.tar.gz -C /opt
    export PATH=/opt/{name}/bin:$PATH MANPATH=/opt/{name}/share/man:

`sha256sum -c SHA256SUMS` in this folder checks it. `man look` and `fcoe_tool --help` say how it is used.

Commit {commit}; the program: {how}.
"""


@dataclass(frozen=True)
class Commit:
    """The commit that is released, and when it was made, in seconds since 1970."""

    name: str
    moment: int
    day: str


def git(*words: str) -> str:
    try:
        ran = subprocess.run(["git", "-C", str(TOP), *words], capture_output=True, text=True, check=False)
    except FileNotFoundError:
        raise Refused("git isn't there: a release says its commit") from None
    if ran.returncode:
        raise Refused(f"{TOP}: git says: {(ran.stderr.strip().splitlines() or ['nothing'])[-1]}: a release says its commit")
    return ran.stdout.strip()


def commit() -> Commit:
    """The commit of the tree; refuses one with changes, as it would not be what is released."""
    changed = git("status", "--porcelain", "--untracked-files=normal").splitlines()
    if changed:
        raise Refused(f"{changed[0].split()[-1]}: was changed and is in no commit: commit it, or put it away (`git stash -u`)")
    name, moment, day = git("log", "-1", "--format=%H %ct %cd", "--date=format-local:%Y%m%d").split()
    return Commit(name, int(moment), day)


def name_of(it: Commit) -> str:
    return f"wegcapho-{it.day}-{it.name[:12]}-{os.uname().machine}"


def sums(folder: pathlib.Path) -> str:
    """The checksums of all files, as sha256sum -c takes them."""
    files = sorted(it for it in folder.rglob("*") if it.is_file() and not it.is_symlink())
    return "".join(f"{hashlib.sha256(it.read_bytes()).hexdigest()}  {it.relative_to(folder)}\n" for it in files)


def image(folder: pathlib.Path, program: Program, it: Commit) -> None:
    """What is unpacked."""
    stage(folder / HOME, program)
    for link, target in links().items():
        (folder / link).parent.mkdir(parents=True, exist_ok=True)
        (folder / link).symlink_to(lead(link, target))
    (folder / COMMIT).write_text(f"{it.name}\n", encoding="utf-8")
    (folder / README).write_text(ABOUT.format(name=name_of(it), commit=it.name, how=program.how), encoding="utf-8")
    (folder / SUMS).write_text(sums(folder), encoding="utf-8")


def packed(folder: pathlib.Path, moment: int) -> bytes:
    """The folder as a tar: in order, of root, with the commit's time, so that two are the same bytes."""

    def plain(info: tarfile.TarInfo) -> tarfile.TarInfo:
        info.uid = info.gid = 0
        info.uname = info.gname = "root"
        info.mtime = moment
        is_run = info.isdir() or info.issym() or info.mode & 0o100
        info.mode = 0o755 if is_run else 0o644
        return info

    made = io.BytesIO()
    with tarfile.open(fileobj=made, mode="w", format=tarfile.USTAR_FORMAT) as tar:
        for it in [folder, *sorted(folder.rglob("*"))]:
            tar.add(it, arcname=str(it.relative_to(folder.parent)), recursive=False, filter=plain)
    return gzip.compress(made.getvalue(), mtime=moment)


def release(where: pathlib.Path, program: Program, it: Commit) -> list[pathlib.Path]:
    """Writes the tar and its checksum; neither is there in part."""
    with tempfile.TemporaryDirectory() as room:
        folder = pathlib.Path(room) / name_of(it)
        folder.mkdir()
        image(folder, program, it)
        data = packed(folder, it.moment)
    tar = where / f"{name_of(it)}.tar.gz"
    written = {tar: data, tar.with_name(f"{tar.name}.sha256"): f"{hashlib.sha256(data).hexdigest()}  {tar.name}\n".encode()}
    made = {path: path.with_name(f".{path.name}.{os.getpid()}") for path in written}
    try:
        for path, bytes_ in written.items():
            made[path].write_bytes(bytes_)
        for path, new in made.items():
            new.replace(path)
    finally:
        for new in made.values():
            new.unlink(missing_ok=True)
    return list(written)
