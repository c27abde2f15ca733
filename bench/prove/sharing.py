"""Gives clones the libraries that were proved in one place of the same text.

A library is given only where all crates below it have the same text too, tests aside, and in place of one that the clone has from elsewhere: a check refuses
libraries that were proved over different builds of one below them. It rests on how this kit keeps a library (out/rlib/NAME.rlib and its stamp), and no
verdict rests on it.
"""
import functools
import os
import pathlib
import re
import shutil
import sys
import tempfile

sys.path.insert(0, str(pathlib.Path(os.path.realpath(shutil.which("rt") or "rt")).parent))
import rtlib


@functools.cache
def text(folder):
    """What a library is made of."""
    files = [it for it in rtlib.files_of(folder) if not re.match(r"tests.*\.rt$", os.path.basename(it))]
    return {os.path.relpath(it, folder): pathlib.Path(it).read_bytes() for it in files}


def link(one, other):
    try:
        os.link(one, other)
    except OSError:
        shutil.copyfile(one, other)


def crates_of(root):
    """The libraries of a repository, each behind those below it."""
    known, order = {}, []

    def add(crate):
        if crate not in order:
            for it in crate.deps:
                add(it)
            order.append(crate)

    for folder in rtlib.listed(root):
        add(known.get(folder) or known.setdefault(folder, rtlib.Crate(folder, root, known)))
    return [it for it in order if it.makes_rlib()]


def made(root, name):
    """Which build of a library this is."""
    try:
        return os.stat(f"{root}/crates/{name}/out/rlib/{name}.rlib/format").st_ino
    except OSError:
        return None


def give(source, crate):
    """Gives the crate the library of `source`."""
    out = f"{crate.folder}/out"
    os.makedirs(out, exist_ok=True)
    room = tempfile.mkdtemp(dir=out)
    shutil.copytree(f"{source}/crates/{crate.name}/out/rlib/{crate.name}.rlib", f"{room}/{crate.name}.rlib", copy_function=link)
    pathlib.Path(f"{room}/stamp").write_text(crate.stamp(), encoding="utf-8")
    shutil.rmtree(f"{out}/rlib", ignore_errors=True)
    os.rename(room, f"{out}/rlib")


def share(source: str, clone: str, done: set[str]) -> list[str]:
    """Gives a clone what it may have of `source`, and returns the names of what it lacks."""
    lacking: list[str] = []
    for crate in crates_of(clone):
        names = [it.name for it in (*crate.below(), crate)]
        is_same = all(text(f"{source}/crates/{it}") == text(f"{clone}/crates/{it}") for it in names)
        if not is_same or crate.name not in done:
            lacking += [] if crate.is_built() else [crate.name + "*" * (not is_same)]
        elif made(clone, crate.name) != made(source, crate.name) or not crate.is_built():
            give(source, crate)
    return lacking


def share_all(source, log, *clones):
    """Gives each clone what it may have of `source`; the log has a line `rt: NAME proved` for each library that was proved there. Behind what a clone lacks
    an asterisk says that it or a crate below it was changed in that clone."""
    # (a stamp reads all files below)
    rtlib.Crate.stamp = functools.cache(rtlib.Crate.stamp)
    done = set(re.findall(r"^rt: (\w+) (?:proved$|is kept:)", pathlib.Path(log).read_text(encoding="utf-8"), re.M))
    for clone in map(os.path.realpath, clones):
        print(f"{clone} lacks: {' '.join(share(os.path.realpath(source), clone, done)) or 'nothing'}", flush=True)
