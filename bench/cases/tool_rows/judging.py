"""Compares answers with those of a book."""
import re
from typing import Optional

from .book import HEAD, Book, Ended, Front, Told, bytes_of


class Wrong(Exception):
    """An answer isn't the one of the book."""


class Reader:
    """The lines of an answer, one after another, with the case that they belong to."""

    def __init__(self, text: str) -> None:
        self.lines, self.at, self.case = text.split("\n"), 0, ""

    def next(self) -> str:
        if self.at >= len(self.lines):
            raise Wrong("the answers end too early")
        line = self.lines[self.at]
        self.at += 1
        if line.startswith("#"):
            self.case = line
        return line

    def behind(self, mark: str) -> list[str]:
        """The lines that begin so."""
        found = []
        while self.at < len(self.lines) and self.lines[self.at].startswith(mark):
            found.append(self.next())
        return found

    def file(self, name: str) -> Optional[bytes]:
        """The bytes of a file that is printed here."""
        kind, _, named = self.next().partition(" ")
        if named != name or kind not in ("none", "file", "capture"):
            raise Wrong(f"{kind} {named} stands where {name} is printed")
        if kind == "none":
            return None
        return (HEAD if kind == "capture" else b"") + bytes_of(self.behind(" "))


def _front(reader: Reader, answer: Front) -> None:
    line = reader.next()
    found = re.fullmatch(r"front (\S+) of (\d+) of (\d+) bytes", line)
    count = int(found[2]) if found else None
    if line != f"none {answer.name}" and (not found or found[1] != answer.name or int(found[3]) != answer.whole):
        raise Wrong(f"{line!r} is no front of {answer.name}")
    if not answer.judge(count):
        raise Wrong(f"{line!r} isn't as it should be")


def _ended(reader: Reader, answer: Ended) -> None:
    said = b"".join(line[2:].encode("latin-1") + b"\n" for line in reader.behind("> "))
    line = reader.next()
    if line == " .":
        said, line = said[:-1], reader.next()
    if not line.startswith("status ") or not answer.judge(said, int(line[7:])):
        raise Wrong(f"{said[:300]!r} and {line!r} aren't as they should be")


def judge(book: Book, text: str) -> tuple[int, int]:
    """How many lines were compared with known ones, and how many answers a judge looked at."""
    reader, known, looked = Reader(text), 0, 0
    for answer in book.answers:
        try:
            if isinstance(answer, str):
                line = reader.next()
                known += 1
                if line != answer:
                    raise Wrong(f"line {reader.at}\n  says   {line[:300]}\n  should {answer[:300]}")
            elif isinstance(answer, Told):
                data = reader.file(answer.name)
                looked += 1
                if answer.judge and not answer.judge(data):
                    raise Wrong(f"{answer.name} isn't as it should be")
            elif isinstance(answer, Front):
                looked += 1
                _front(reader, answer)
            else:
                looked += 1
                _ended(reader, answer)
        except Wrong as wrong:
            raise Wrong(f"{reader.case}\n  {wrong}") from None
    if "".join(reader.lines[reader.at :]):
        raise Wrong(f"more answers than cases, from line {reader.at + 1} on")
    return known, looked
