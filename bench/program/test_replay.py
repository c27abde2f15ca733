"""`replay` and `show` on the demo: what `run` wrote is accepted, and no change of one byte of it is."""
import random
import subprocess

from machine import DEMO, RoomCase, program

CHANGES = 200
OUTS = ["out1", "out2"]


class Replay(RoomCase):
    """Of the run over the demo."""

    def called(self, command: str) -> tuple[int, str]:
        """The status of a command and its line."""
        pairs = [name for port, out in zip(("initiator", "target"), OUTS) for name in (DEMO / f"{port}.pcap", self.room / out)]
        words = [*pairs[::2]] if command == "show" else pairs
        ran = subprocess.run([program(), command, DEMO / "fabric.conf", self.room / "journal", *words], stdout=subprocess.PIPE, text=True, check=False)
        return ran.returncode, ran.stdout.strip()

    def changed(self, name: str, draw: random.Random) -> tuple[int, str]:
        """What `replay` says where one byte of a file is another; the file is as it was behind it."""
        path = self.room / name
        kept = path.read_bytes()
        place, by = draw.randrange(len(kept)), draw.randrange(1, 256)
        path.write_bytes(kept[:place] + bytes([kept[place] ^ by]) + kept[place + 1 :])
        found = self.called("replay")
        path.write_bytes(kept)
        return found[0], f"byte {place} of {name} changed: {found[1]}"

    def test_changes(self) -> None:
        """Two hundred changes of one byte of the journal or of an output are refused with status 1."""
        self.assertEqual(self.called("run"), (0, "frames 315 entries 475"))
        self.assertEqual(self.called("replay"), (0, "legal 475"))
        status, shown = self.called("show")
        self.assertEqual((status, shown.split("\n")[0]), (0, "entries 475"))
        draw = random.Random(1)
        for _ in range(CHANGES):
            status, what = self.changed(draw.choice(["journal", *OUTS]), draw)
            self.assertEqual(status, 1, what)
