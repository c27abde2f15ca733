"""The report of `look` as text: what its page holds before a browser opens it (test_report.py opens it)."""
import base64
import gzip
import html
import json
import re
import subprocess
from typing import Any, Iterator

from machine import DEMO, TOOLS, RoomCase, needs_in_tools, program

PAIR = [str(DEMO / f"{it}.pcap") for it in ("initiator", "target")]
HOSTS = ["20:00:00:1b:21:00:00:0b", "20:00:00:1b:21:00:00:0a", "21:01:00:1b:21:00:00:0a"]
# sections in their order, each with how many tables it has, and words that stand in them
SECTIONS: dict[str, tuple[int, list[str]]] = {
    "answer": (0, []),
    "logins": (1, HOSTS),
    "switch": (0, []),
    "exchanges": (3, ["READ(10)", "PLOGI", "median"]),
    "check": (4, ["FC-BB-5"]),
    "drops": (0, ["dropped dest-login"]),
    "verdicts": (1, ["forwarded", "dropped ethertype", "granted"]),
    "names": (1, HOSTS[:2]),
    "zones": (0, ["all"]),
    "reach": (1, HOSTS),
    "frames": (1, ["verdict"]),
    "ladder": (0, []),
    "captures": (0, ["initiator.pcap", "target.pcap"]),
}


@needs_in_tools("jinja2")
class ReportText(RoomCase):
    """Of the demo."""

    def setUp(self) -> None:
        super().setUp()
        self.file = self.room / "report.html"
        words = [str(TOOLS / "look"), "summary", "--quiet", "--json", "--program", program(), "--report", str(self.file), *PAIR]
        self.summary: Any = json.loads(subprocess.run(words, check=True, capture_output=True, text=True).stdout)
        self.text = self.file.read_text(encoding="utf-8")

    def sections(self) -> Iterator[tuple[str, str]]:
        for it in re.finditer(r'<section id="(\w+)">(.*?)(?=<section id=|</main>)', self.text, re.S):
            yield it[1], it[2]

    def test_sections(self) -> None:
        """Each section is there with its tables, and these hold what they are for."""
        found = dict(self.sections())
        self.assertEqual(list(found), list(SECTIONS))
        for name, (tables, words) in SECTIONS.items():
            with self.subTest(name):
                self.assertEqual(found[name].count("<table"), tables)
                shown = html.unescape(re.sub(r"<[^>]+>", " ", found[name]))
                self.assertEqual([it for it in words if it not in shown], [])

    def test_rows(self) -> None:
        """As many rows as there are logins and verdicts."""
        found = dict(self.sections())
        verdicts = {word for port in self.summary["verdicts"].values() for word in port}
        self.assertEqual(found["verdicts"].count("<tr") - 1, len(verdicts))
        self.assertGreaterEqual(found["logins"].count("<tr") - 1, len(self.summary["logins"]))

    def test_frames(self) -> None:
        """The frames that the page's script shows are those of the captures, and the page asks for nothing else."""
        packed = re.search(r'<script type="text/plain" id="data">([^<]*)</script>', self.text)
        assert packed
        data = json.loads(gzip.decompress(base64.b64decode(packed[1])))
        self.assertEqual(data["in_all"], 315)
        self.assertEqual({name: len(it) for name, it in data["columns"].items() if len(it) != 315}, {})
        self.assertEqual(re.findall(r'(?:src|href)="(?!#|data:)[^"]*"', self.text), [])
