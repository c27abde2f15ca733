"""`make` beside another generator of loads (bench/cases/vectors), byte by byte."""
import functools
import pathlib
import subprocess

from machine import RoomCase, program, script

NAMES = ["config"] + [f"in{port}" for port in range(1, 9)]
NUMBERS = ["1", "0", str(2**64 - 1)]


class Make(RoomCase):
    """Loads of three numbers."""

    def made(self, number: str) -> pathlib.Path:
        folder = self.room / f"made{number}"
        folder.mkdir(exist_ok=True)
        self.assertEqual(self.said("make", number, *(str(folder / it) for it in NAMES)), "made 20000")
        return folder

    @functools.cache
    def other(self, number: str, name: str) -> bytes:
        """A file by the other generator."""
        vectors = script("bench/cases/vectors")
        return bytes(vectors.config() if name == "config" else vectors.capture(int(number), int(name[2:])))

    def said(self, *words: str) -> str:
        ran = subprocess.run([program(), *words], stdout=subprocess.PIPE, text=True, check=False)
        self.assertEqual(ran.returncode, 0, words)
        return ran.stdout.strip()

    def test_bytes(self) -> None:
        """Each file is that of the other generator, and is again where it is made again; `run` takes the load of 1."""
        for number in NUMBERS:
            folder = self.made(number)
            for _ in range(2):
                for name in NAMES:
                    self.assertTrue((folder / name).read_bytes() == self.other(number, name), f"{name} of {number}")
                self.made(number)
        pairs = [str(self.room / it) for port in range(1, 9) for it in (f"made1/in{port}", f"out{port}")]
        self.assertEqual(self.said("run", str(self.room / "made1/config"), str(self.room / "journal"), *pairs), "frames 20000 entries 20281")
