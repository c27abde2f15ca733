"""Cases: a line each, with what its answer must say. For bench/cases/codec_cases and what it is made of."""
import codec_judge as judge


class Cases:
    """The lines of the cases, and what each answer must have."""

    def __init__(self) -> None:
        self.lines: list[str] = []
        self.wants: list[tuple[int, str, tuple[str, ...]]] = []

    def section(self, title: str) -> None:
        self.lines += ["", f"# ==== {title}"]

    def test(self, name: str, says: str) -> None:
        self.lines += ["", f"# {name}: {says}"]
        self.name = name

    def add(self, line: str) -> None:
        self.lines.append(line)

    def case(self, line: str, *wants: str) -> None:
        """A case, and the lines that its answer must have: a whole line behind =, a part of one else."""
        self.lines.append(line)
        self.wants.append((len(self.lines) - 1, self.name, wants))

    def judged(self, call: str, data: bytes, *wants: str) -> None:
        """A case whose whole answer the judge gives too."""
        self.case(f"{call} {data.hex() or '-'}", "=" + judge.ANSWERS[call](data), *wants)


def changed(data: bytes, *changes: tuple[int, int]) -> bytes:
    out = bytearray(data)
    for place, value in changes:
        out[place] = value
    return bytes(out)


def one(data: bytes) -> str:
    return data.hex() or "-"
