"""`snoop` and `enode` beside models in Python, over random captures (drawn.py)."""
import pathlib
import tempfile
from collections import Counter

import drawn
from machine import RoomCase, program, slow


class Drawn(RoomCase):
    """Each seed is a bridge and a node."""

    def compare(self, seeds: range) -> None:
        kept = pathlib.Path(tempfile.gettempdir()) / "wegcapho-disagreements"
        kept.mkdir(exist_ok=True)
        seen: Counter[str] = Counter()
        wrong = sum(drawn.one(program(), self.room, kept, seed, seen) for seed in seeds)
        self.assertEqual(wrong, 0, "what is printed above names the folders")
        for word in ("bridge: passed", "node: up", "node: asking", "way: down", "way: up"):
            self.assertTrue(any(it.startswith(word) for it in seen), f"no {word} among {sorted(seen)}")

    def test_words(self) -> None:
        self.assertEqual(drawn.try_words(program(), self.room), 0)

    def test_some(self) -> None:
        self.compare(range(100))

    @slow
    def test_many(self) -> None:
        self.compare(range(100, 1500))
