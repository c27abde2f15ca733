"""An installation under a prefix: all of it, or what was there before."""
import compileall
import contextlib
import fcntl
import os
import pathlib
import shutil
from typing import Callable, Iterator

from fcoe.errors import Refused

from .staging import HOME, Program, lead, links, stage

LINKS = "LINKS"  # the links of an installation, one a line


class Undo:
    """What puts things back where a step behind them fails."""

    def __init__(self) -> None:
        self.steps: list[Callable[[], object]] = []

    def add(self, step: Callable[[], object]) -> None:
        self.steps.append(step)

    def back(self) -> None:
        for step in reversed(self.steps):
            with contextlib.suppress(OSError):
                step()


@contextlib.contextmanager
def all_or_nothing() -> Iterator[Undo]:
    undo = Undo()
    try:
        yield undo
    except BaseException:
        undo.back()
        raise


class Prefix:
    """Where an installation goes."""

    def __init__(self, name: str) -> None:
        self.folder = pathlib.Path(os.path.abspath(os.path.expanduser(name)))
        self.home = self.folder / HOME
        self.new, self.old = (self.home.with_name(f".{self.home.name}.{word}") for word in ("new", "old"))

    def folders(self) -> list[pathlib.Path]:
        """Where it writes."""
        return list(dict.fromkeys([self.home.parent, *((self.folder / it).parent for it in links())]))

    def check(self) -> None:
        """Refuses a prefix that can't be written, and files there that are no installation's."""
        for folder in self.folders():
            there = next(it for it in (folder, *folder.parents) if os.path.lexists(it))
            if not there.is_dir():
                raise Refused(f"{there}: is no folder: name another PREFIX")
            if not os.access(there, os.W_OK | os.X_OK):
                raise Refused(f"{there}: you may not write there: name another PREFIX (~/.local without one), or do it as root")
        for link in links():
            path = self.folder / link
            if os.path.lexists(path) and not self.is_own(path):
                raise Refused(f"{path}: is there, and no installation of these tools put it there: name another PREFIX, or remove it")

    def is_own(self, path: pathlib.Path) -> bool:
        """A link to HOME; and whatever has the name of a tool, where an installation is that lists no links, as earlier ones did."""
        if path.is_symlink():
            return self.home in pathlib.Path(os.path.normpath(path.parent / os.readlink(path))).parents
        return path.is_file() and self.home.is_dir() and not (self.home / LINKS).exists()

    def listed(self) -> list[str]:
        """The links of the installation that is there."""
        with contextlib.suppress(OSError):
            return [it for it in (self.home / LINKS).read_text(encoding="utf-8").splitlines() if self.is_own(self.folder / it)]
        return []

    def put(self, program: Program) -> None:
        """Installs; where a step fails all is as it was."""
        with all_or_nothing() as undo:
            self.make_folders(undo)
            self.hold()
            undo.add(lambda: shutil.rmtree(self.new, ignore_errors=True))
            stage(self.new, program)
            (self.new / LINKS).write_text("".join(f"{it}\n" for it in links()), encoding="utf-8")
            compileall.compile_dir(self.new / "tools", quiet=2, stripdir=str(self.new), prependdir=str(self.home))  # who runs a tool there may not write
            before = self.listed()
            self.exchange(undo)
            for link in before:
                if link not in links():
                    self.set_aside(self.folder / link, undo)
            for link, target in links().items():
                self.link(self.folder / link, lead(link, target), undo)
        self.clean([*before, *links()])

    def make_folders(self, undo: Undo) -> None:
        """The folders of the prefix; those that it makes are taken away again where it fails."""
        for folder in self.folders():
            for it in reversed([folder, *folder.parents]):
                if not it.exists():
                    it.mkdir()
                    undo.add(it.rmdir)

    def hold(self) -> None:
        """One installation at a time; what one that was killed left is put back, or goes."""
        fcntl.flock(os.open(self.home.parent, os.O_RDONLY), fcntl.LOCK_EX)  # until this process ends
        if self.old.exists() and not self.home.exists():
            self.old.rename(self.home)
        for rest in (self.new, self.old):
            shutil.rmtree(rest, ignore_errors=True)

    def exchange(self, undo: Undo) -> None:
        """The new files in place of the old ones."""
        if self.home.exists():
            self.home.rename(self.old)
            undo.add(lambda: self.old.rename(self.home))
        self.new.rename(self.home)
        undo.add(lambda: self.home.rename(self.new))

    def aside(self, path: pathlib.Path) -> pathlib.Path:
        return path.with_name(f".{path.name}.wegcapho")

    def set_aside(self, path: pathlib.Path, undo: Undo) -> None:
        if os.path.lexists(path):
            path.rename(self.aside(path))
            undo.add(lambda: self.aside(path).rename(path))

    def link(self, path: pathlib.Path, to: str, undo: Undo) -> None:
        self.set_aside(path, undo)
        path.symlink_to(to)
        undo.add(path.unlink)

    def clean(self, names: list[str]) -> None:
        """What was there before goes."""
        shutil.rmtree(self.old, ignore_errors=True)
        for it in names:
            self.aside(self.folder / it).unlink(missing_ok=True)
