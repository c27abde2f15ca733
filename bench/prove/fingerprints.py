"""The fingerprint of what a wrong body is refused by: src and specs of its crate, and of the crates that it stands on by crates.txt; and the wrong bodies with it."""
import functools
import hashlib
import pathlib
import re
from dataclasses import dataclass
from typing import Iterator, Optional

TOP = pathlib.Path(__file__).resolve().parents[2]
REFUSED = re.compile(r"^refused: ([0-9a-f]{12}) (\S.*)$", re.M)


@functools.cache
def below() -> dict[str, list[str]]:
    """The crates that each crate names, by crates.txt."""
    text = (TOP / "crates.txt").read_text(encoding="utf-8")
    return {it[1]: it[2].split() for it in re.finditer(r"^(\w+)[^:#\n]*:(.*)$", text, re.M)}


@functools.cache
def own(crate: str, top: pathlib.Path = TOP) -> str:
    """The sum of a crate's src and specs; tests are no part of what is proved of its calls."""
    made = hashlib.sha256()
    folder = top / "crates" / crate
    files = [it for part in ("src", "specs") for it in (folder / part).rglob("*") if it.is_file() and not re.match(r"tests.*\.rt$", it.name)]
    for it in sorted(files):
        data = it.read_bytes()
        made.update(f"{it.relative_to(folder)} {len(data)}\n".encode() + data)
    return made.hexdigest()


@functools.cache
def stands_on(crate: str) -> frozenset[str]:
    """A crate, and all below it; libraries of the kit have no folder here."""
    names = {crate}
    for it in below().get(crate, []):
        if (TOP / "crates" / it).is_dir():
            names |= stands_on(it)
    return frozenset(names)


@functools.cache
def fingerprint(crate: str) -> str:
    rows = [f"{it} {own(it)}" for it in sorted(stands_on(crate))]
    return hashlib.sha256("\n".join(rows).encode()).hexdigest()[:12]


@dataclass(frozen=True)
class Tried:
    """A wrong body outside the gate, and by what it was refused when it was tried last."""

    path: pathlib.Path
    crate: str
    over: Optional[str]
    clause: str

    @property
    def is_of_today(self) -> bool:
        return self.over == fingerprint(self.crate)


def wrong_bodies() -> Iterator[Tried]:
    for path in sorted(TOP.glob("crates/*/wrong/*.edit")):
        found = REFUSED.search(path.read_text(encoding="utf-8"))
        yield Tried(path, path.parents[1].name, found[1] if found else None, found[2] if found else "")


def note(path: pathlib.Path, crate: str, clause: Optional[str]) -> None:
    """Writes by what a wrong body was refused over today's text; none takes out what stands there."""
    text = re.sub(r"^refused: .*\n?", "", path.read_text(encoding="utf-8"), flags=re.M).rstrip("\n") + "\n"
    path.write_text(text + (f"refused: {fingerprint(crate)} {clause}\n" if clause else ""), encoding="utf-8")
