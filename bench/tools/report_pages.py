# mypy: allow-untyped-calls
"""The reports that bench/tools/test_report.py opens: captures of several kinds, what `look` makes of them, and a browser without a window."""
import json
import pathlib
import subprocess
import time
from dataclasses import dataclass, field
from typing import Any

import look_captures
import look_failures
from look_captures import DEMO
from machine import TOP
from selenium import webdriver
from selenium.webdriver.chrome.service import Service
from selenium.webdriver.common.action_chains import ActionChains

from fcoe.frames.captures import classic, write_classic
from fcoe.frames.columns import Record
from fcoe.frames.heard import hear

LOOK = str(TOP / "tools" / "look")
OWN = bytes.fromhex("001b2100000a")  # the demo's initiator
KINDS = ("VLAN request", "Solicitation", "FLOGI", "Keep alive")
PATIENCE = 600  # seconds until a page must be there and ready: a machine with other work takes minutes over one


@dataclass
class Report:
    """A report with what it was made of."""

    name: str
    file: pathlib.Path
    folder: pathlib.Path
    captures: list[str]
    summary: dict[str, Any] = field(default_factory=dict)

    def lines(self) -> list[list[str]]:
        """The journal's lines of frames: clock, port, index, verdict."""
        text = (self.folder / "journal").read_text(encoding="ascii").splitlines()[1:]
        return [words for words in (it.split(" ", 3) for it in text) if words[1] != "tick"]

    def inputs(self, port: int) -> list[Record]:
        return list(classic(str(self.folder / f"in{port}.pcap")).records)


def made(program: str, folder: pathlib.Path, name: str, captures: list[str], words: list[str]) -> Report:
    """A report of captures, with the files of its run."""
    report = Report(name, folder / f"{name}.html", folder / f"kept_{name}", captures)
    own = [LOOK, "summary", "--json", "--quiet", "--program", program, "--keep", str(report.folder), "--report", str(report.file), *words, *captures]
    report.summary = json.loads(subprocess.run(own, cwd=folder, capture_output=True, text=True, check=True).stdout)
    return report


def load(program: str, folder: pathlib.Path) -> Report:
    """20,000 frames on 8 ports."""
    captures = [f"in{it}" for it in range(1, 9)]
    subprocess.run([program, "make", "1", "fabric.conf", *captures], cwd=folder, check=True, capture_output=True)
    return made(program, folder, "load", captures, ["--config", "fabric.conf"])


def with_switch(program: str, folder: pathlib.Path) -> Report:
    """The demo in both directions, where the switch rejected a link service for another reason and left one frame out."""
    look_captures.both_ways(folder, [LOOK, "--program", program])
    records = list(classic(str(folder / "one.pcap")).records)
    for edit in ("reason", "not_forwarded", "rscn_missing"):
        records = look_captures.EDITS[edit][0](records)
    write_classic(str(folder / "edited.pcap"), records)
    return made(program, folder, "switch", ["edited.pcap"], [])


def many(program: str, folder: pathlib.Path) -> Report:
    """64 ports, on each the demo's initiator under names of its own."""
    captures = []
    for port in range(1, 65):
        own = OWN[:4] + bytes([port]) + OWN[5:]
        found = [it for it in classic(str(DEMO / "initiator.pcap")).records if hear(it.data).kind in KINDS]
        write_classic(str(folder / f"host_{port}.pcap"), [Record(it.moment, it.data.replace(OWN, own), it.length, it.number) for it in found])
        captures.append(f"host_{port}.pcap")
    return made(program, folder, "many", captures, [])


def limit(program: str, folder: pathlib.Path) -> Report:
    """A login that the switch rejects."""
    return made(program, folder, "limit", look_failures.make_failures(folder)["limit"], [])


class Browser:
    """A Chromium without a window."""

    def __init__(self) -> None:
        options = webdriver.ChromeOptions()
        for word in ("--headless=new", "--no-sandbox", "--disable-gpu", "--hide-scrollbars"):
            options.add_argument(word)
        options.set_capability("goog:loggingPrefs", {"browser": "ALL", "performance": "ALL"})
        self.driver = webdriver.Chrome(service=Service("/usr/bin/chromedriver"), options=options)
        self.driver.set_script_timeout(PATIENCE)
        self.driver.set_page_load_timeout(PATIENCE)

    def see(self, width: int, scheme: str, height: int = 1000) -> None:
        """A window of this size, in light or dark colours."""
        self.driver.execute_cdp_cmd("Emulation.setDeviceMetricsOverride", {"width": width, "height": height, "deviceScaleFactor": 1, "mobile": False})
        self.driver.execute_cdp_cmd("Emulation.setEmulatedMedia", {"features": [{"name": "prefers-color-scheme", "value": scheme}]})

    def open(self, report: Report, where: str = "") -> float:
        """Opens a page, and gives the seconds until its table was there."""
        self.driver.get("about:blank")
        self.driver.get(f"file://{report.file}{where}")
        begin = time.monotonic()
        while not self.run("return document.body.dataset.ready"):
            if time.monotonic() - begin > PATIENCE:
                raise TimeoutError(f"{report.name}{where}: not ready")
            time.sleep(0.05)
        return float(self.run("return document.body.dataset.ready")) / 1000

    def run(self, script: str, *words: Any) -> Any:
        return self.driver.execute_script(script, *words)

    def press(self, *keys: str) -> None:
        """Presses keys, one by one."""
        for key in keys:
            ActionChains(self.driver).send_keys(key).perform()

    def picture(self, file: pathlib.Path) -> None:
        self.driver.save_screenshot(str(file))

    def asked(self) -> list[str]:
        """The addresses that the browser asked for since the last call."""
        messages = [json.loads(it["message"])["message"] for it in self.driver.get_log("performance")]
        return [it["params"]["request"]["url"] for it in messages if it["method"] == "Network.requestWillBeSent"]

    def complaints(self) -> list[str]:
        return [it["message"] for it in self.driver.get_log("browser")]

    def close(self) -> None:
        self.driver.quit()
