"""tools/load: the same bytes for the same words, which the forwarder takes; and a load through `live`, as root."""
import pathlib
import subprocess
import sys
from collections import Counter

from machine import TOOLS, RoomCase, program, root, slow

from fcoe.frames.captures import classic
from fcoe.frames.heard import hear

LOAD = str(TOOLS / "load")
WORDS: tuple[list[str], ...] = (
    [],
    ["--storm"],
    ["--reject"],
    ["--silent"],
    ["--loss"],
    ["--storm", "--reject", "--silent", "--loss", "--ports", "64", "--logins", "1000"],
)


class Load(RoomCase):
    """Loads of small sizes."""

    def made(self, name: str, *words: str) -> pathlib.Path:
        folder = self.room / name
        subprocess.run([sys.executable, LOAD, *words, str(folder)], check=True, capture_output=True)
        return folder

    def ran(self, folder: pathlib.Path) -> str:
        """What `run` prints over a load."""
        ports = len(list(folder.glob("in*.pcap")))
        pairs = [name for port in range(1, ports + 1) for name in (f"in{port}.pcap", f"out{port}.pcap")]
        return subprocess.run([program(), "run", "fabric.conf", "journal", *pairs], cwd=folder, capture_output=True, text=True, check=False).stdout.strip()

    def same(self, *words: str, frames: int = 3000) -> pathlib.Path:
        """A load that is the same where it is made twice, and that `run` takes."""
        name = "".join(words) or "plain"
        folder, again = (self.made(f"{name}{it}", "--frames", str(frames), *words) for it in "ab")
        names = sorted(path.name for path in folder.iterdir())
        self.assertTrue(all((folder / it).read_bytes() == (again / it).read_bytes() for it in names), f"{words}: the same bytes")
        self.assertTrue(self.ran(folder).startswith(f"frames {frames} entries "), words)
        return folder

    def kinds(self, folder: pathlib.Path) -> Counter[str]:
        return Counter(hear(it.data).kind for path in folder.glob("in*.pcap") for it in classic(str(path)).records)

    def test_keep_alives(self) -> None:
        """ENodes and N_Ports send keep alives while data flows, so that no login ends in five minutes."""
        words = ["--ports", "2", "--logins", "12", "--rate", "100"]
        folder = self.same(*words, frames=30_000)
        for kind in ("Keep alive", "VN_Port keep alive"):
            self.assertGreater(self.kinds(folder)[kind], 0)
        stand = subprocess.run([program(), "show", "fabric.conf", "journal", "in1.pcap", "in2.pcap"], cwd=folder, capture_output=True, text=True, check=True).stdout
        self.assertEqual(stand.count("\nlogin "), 12, stand)

    def test_kinds(self) -> None:
        for words in WORDS:
            self.same(*words)

    @slow
    @root
    def test_live(self) -> None:
        sizes = ["--frames", "4000", "--ports", "4", "--logins", "40", "--rate", "500"]
        live = subprocess.run([LOAD, "--live", *sizes, "--program", program(), str(self.room / "live")], capture_output=True, text=True, check=False)
        self.assertEqual(live.returncode, 0, live.stderr)
        self.assertIn(", 0 lost before the program, 0 after it", live.stdout)
