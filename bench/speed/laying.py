"""Programs over some of the crates: NAME/main.rt.txt laid out in a copy of what it stands on, and built unproved but optimised by tools/build.

A .rt file may stand only in a crate that crates.txt lists, so the sources here have another ending.
"""
import pathlib
import re
import shutil
import subprocess

TOP = pathlib.Path(__file__).resolve().parents[2]
SPEED = TOP / "bench/speed"
USES = re.compile(r"^(?:ghost )?use (?:Rattle\.)?(\w+)(?:::|\.)", re.M)


def programs() -> list[str]:
    return sorted(it.parent.name for it in SPEED.glob("*/main.rt.txt"))


def lines_of_crates() -> dict[str, str]:
    """The lines of crates.txt by the names that they begin with, in their order."""
    text = (TOP / "crates.txt").read_text(encoding="utf-8")
    return {it[1]: it[0] for it in re.finditer(r"^(\w+)[^:#\n]*:.*$", text, re.M)}


def needed(name: str) -> list[str]:
    """The crates that a program names, and those below them, in the order of crates.txt."""
    lines = lines_of_crates()
    left, found = [it for it in USES.findall(source(name)) if it in lines], set[str]()
    while left:
        crate = left.pop()
        if crate not in found:
            found.add(crate)
            left += [it for it in lines[crate].partition(":")[2].split() if it in lines]
    return [it for it in lines if it in found]


def source(name: str) -> str:
    return (SPEED / name / "main.rt.txt").read_text(encoding="utf-8")


def laid_out(name: str, room: pathlib.Path) -> pathlib.Path:
    """The program's crate in a copy of those that it needs."""
    lines, named = lines_of_crates(), set(USES.findall(source(name)))
    crate = room / "crates" / f"{name}_bench"
    (crate / "src").mkdir(parents=True)
    shutil.copy(TOP / "HANDLES", room)
    for it in needed(name):
        shutil.copytree(TOP / "crates" / it, room / "crates" / it, ignore=shutil.ignore_patterns("out", "wrong", "must-fail"))
    own = " ".join(it for it in needed(name) if it in named)
    (room / "crates.txt").write_text("".join(f"{lines[it]}\n" for it in needed(name)) + f"{name}_bench: {own}\n", encoding="utf-8")
    (crate / "src/main.rt").write_text(source(name), encoding="utf-8")
    return crate


def built(name: str, room: pathlib.Path) -> pathlib.Path:
    """The program, built in a folder."""
    program = room / f"{name}_program"
    subprocess.run([str(TOP / "tools/build"), str(laid_out(name, room)), str(program)], check=True)
    return program
