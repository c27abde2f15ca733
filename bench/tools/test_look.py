"""tools/look and the tools beside it over a folder of small captures (look_captures.py)."""
import bz2
import csv
import fcntl
import hashlib
import io
import json
import lzma
import os
import pathlib
import re
import shutil
import signal
import subprocess
import tempfile
import termios
import time
import unittest
from typing import Any, ClassVar

import look_captures
from look_captures import EDITS
from machine import DEMO, TOOLS, needs, program

HOSTS = ["20:00:00:1b:21:00:00:0b", "20:00:00:1b:21:00:00:0a", "21:01:00:1b:21:00:00:0a", "20:00:00:1b:21:00:00:0a"]
PAIR = [str(DEMO / "initiator.pcap"), str(DEMO / "target.pcap")]
REFUSED = {
    "any.pcap": "captured with `-i any`; capture on the Ethernet port",
    "any2.pcap": "captured with `-i any`; capture on the Ethernet port",
    "vlan_interface.pcap": "captured on the VLAN interface; capture on the Ethernet port below it",
    "empty.pcap": "nothing was captured",
    "text.pcap": "no capture",
    "packed.pcap": "unpack it with `zstd -d`",
    "folder.pcap": "name the captures in it",
    "noise.pcap": "neither FIP nor FCoE frames",
    "cut_head.pcap": "cut in its head",
    "switch.pcap": "only the switch's own frames: merge it",
    "missing.pcap": "look at its spelling",
}


def digest(names: list[pathlib.Path]) -> dict[str, str]:
    """What files hold."""
    return {str(it): hashlib.sha256(it.read_bytes()).hexdigest() for it in names if it.is_file()}


class Base(unittest.TestCase):
    """The folder of captures, made once."""

    program: ClassVar[str]
    room: ClassVar["tempfile.TemporaryDirectory[str]"]
    folder: ClassVar[pathlib.Path]
    before: ClassVar[dict[str, str]]

    @classmethod
    def setUpClass(cls) -> None:
        cls.program = program()
        cls.room = tempfile.TemporaryDirectory()  # pylint: disable=consider-using-with
        cls.folder = pathlib.Path(cls.room.name)
        look_captures.make_all(cls.folder, [str(TOOLS / "look")], cls.program)
        cls.before = digest([*cls.folder.iterdir(), *DEMO.iterdir()])

    @classmethod
    def tearDownClass(cls) -> None:
        after = digest([*cls.folder.iterdir(), *DEMO.iterdir()])
        changed = [name for name, was in cls.before.items() if after.get(name) != was]
        cls.room.cleanup()
        if changed:
            raise AssertionError(f"inputs changed: {changed}")

    def call(self, tool: str, *words: str, status: int = 0) -> "subprocess.CompletedProcess[str]":
        ran = subprocess.run([str(TOOLS / tool), *words], cwd=self.folder, capture_output=True, text=True, check=False)
        self.assertEqual(ran.returncode, status, f"{tool} {' '.join(words)}: {ran.stdout[-400:]}{ran.stderr[-400:]}")
        return ran

    def json(self, command: str, *words: str) -> Any:
        return json.loads(self.call("look", command, "--json", *words).stdout)

    def refuse(self, tool: str, *words: str) -> str:
        """One line on standard error, nothing on standard output."""
        ran = self.call(tool, *words, status=2)
        self.assertEqual((ran.stdout, ran.stderr.count("\n")), ("", 1), ran.stderr)
        return ran.stderr


def told(logins: list[dict[str, Any]]) -> list[tuple[Any, ...]]:
    """What is the same of a login whatever the port and the run's window are."""
    return [(it["fcid"], it["wwpn"], it["kind"], it["parent"], it["from"], it["to"], it["why"]) for it in logins]


def counted(verdicts: dict[str, dict[str, int]]) -> dict[str, int]:
    """Counts of verdicts over all ports; the order within a window may forward a frame or drop it by `dest-login`, and answer a query or not."""
    found: dict[str, int] = {}
    for some in verdicts.values():
        for word, count in some.items():
            word = {"dropped dest-login": "forwarded", "refused 09 01": "answered"}.get(word, word)
            found[word] = found.get(word, 0) + count
    return found


@needs("tshark", "editcap")
class Cases(Base):
    """What `look` tells of each capture."""

    def readme(self) -> Any:
        """The run of README, with its configuration."""
        names = [*PAIR[:1], "r1.pcap", *PAIR[1:], "r2.pcap"]
        ran = subprocess.run([self.program, "run", str(DEMO / "fabric.conf"), "readme.journal", *names], cwd=self.folder, capture_output=True, text=True, check=True)
        self.assertEqual(ran.stdout, "frames 315 entries 475\n")
        return self.json("summary", "--quiet", "--config", str(DEMO / "fabric.conf"), "--journal", "readme.journal", *names)

    def test_without_a_configuration(self) -> None:
        """The demo, also merged into one file with both directions, gives the logins and counts of README's run."""
        wanted = self.readme()
        self.assertEqual([it["wwpn"] for it in wanted["logins"]], HOSTS)
        for names in (PAIR, ["both1.pcapng", "both2.pcapng"], ["one.pcapng"], ["one.pcap"]):
            found = self.json("summary", "--quiet", *names)
            self.assertEqual(found["printed"], "frames 315 entries 475")
            self.assertEqual(found["checked"], "legal 475")
            self.assertEqual(told(found["logins"]), told(wanted["logins"]), names)
            self.assertEqual(counted(found["verdicts"]), counted(wanted["verdicts"]), names)
        for port in ("1", "2"):
            two = self.json("summary", "--quiet", "both1.pcapng", "both2.pcapng")["verdicts"][port]
            self.assertEqual(counted({port: two}), counted({port: wanted["verdicts"][port]}))

    def test_refusals(self) -> None:
        """Each says the file and the next step in one line."""
        packed = {"packed.pcap": "can't be unpacked (" if shutil.which("zstd") else "unpack it with `zstd -d`"}
        for name, next_step in {**REFUSED, **packed}.items():
            said = self.refuse("look", name)
            self.assertIn(name, said)
            self.assertIn(next_step, said)

    def test_forms(self) -> None:
        """Packed, in another byte order or unit of time, and tagged again: the same logins."""
        wanted = told(self.json("logins", "--quiet", "one.pcap"))
        for words in (["one.pcap.gz"], ["one.pcapng.gz"], ["one.pcapng"], ["--vlan", "100", "vlan_interface.pcap"]):
            self.assertEqual(told(self.json("logins", "--quiet", *words)), wanted, words)
        plain = (self.folder / "one.pcap").read_bytes()
        (self.folder / "one.bz2").write_bytes(bz2.compress(plain))
        (self.folder / "one.xz").write_bytes(lzma.compress(plain))
        packers = [it for it in ("zstd", "lz4") if shutil.which(it)]
        for it in packers:
            subprocess.run([it, "-q", "-f", "one.pcap", *(["-o"] if it == "zstd" else []), f"one.{it}"], cwd=self.folder, check=True, capture_output=True)
        for it in ("bz2", "xz", *packers):
            self.assertEqual(told(self.json("logins", "--quiet", f"one.{it}")), wanted, it)
        host = told(self.json("logins", "--quiet", PAIR[0]))
        self.assertEqual(told(self.json("logins", "--quiet", "big_endian.pcap")), host)
        self.assertEqual(told(self.json("logins", "--quiet", "back.pcap")), host)

    def test_comments(self) -> None:
        """Each frame of the capture has the verdict of its own line as its comment."""
        self.readme()
        subprocess.run([str(TOOLS / "annotate"), str(DEMO / "fabric.conf"), "readme.journal", PAIR[0], "told.pcapng", "1"], cwd=self.folder, check=True, capture_output=True)
        lines = (line.split(" ", 3) for line in (self.folder / "readme.journal").read_text(encoding="ascii").splitlines())
        wanted = [f"{int(line[2]) + 1}\t{line[3]}" for line in lines if len(line) == 4 and line[1] == "1"]
        shown = subprocess.run(["tshark", "-r", "told.pcapng", "-T", "fields", "-e", "frame.number", "-e", "frame.comment"], cwd=self.folder, capture_output=True, text=True, check=True)
        self.assertEqual(shown.stdout.splitlines(), wanted)

    def test_interfaces(self) -> None:
        both = self.json("summary", "two_interfaces.pcapng")
        self.assertEqual([it["hosts"] for it in both["ports"]], [162, 153])
        self.assertEqual(told(both["logins"]), told(self.json("logins", *PAIR)))
        one = self.json("summary", "--interface", "1", "two_interfaces.pcapng")
        self.assertEqual([it["hosts"] for it in one["ports"]], [153])
        self.assertIn("has no interface eth7", self.refuse("look", "--interface", "eth7", "two_interfaces.pcapng"))
        ways = self.json("summary", "one_way_interfaces.pcapng")
        self.assertEqual([(it["hosts"], it["switch"]) for it in ways["ports"]], [(162, 160)])

    def remark(self, name: str) -> str:
        return self.call("look", name).stderr

    def test_remarks(self) -> None:
        """What stands out is said, and the look goes on."""
        for name, words in (
            ("cut.pcap", "cut at byte 220236, after frame 572"),
            ("cut.pcapng", "cut after frame"),
            ("snap.pcap", "148 frames cut by the snap length (first: frame 1)"),
            ("back.pcap", "times go back 1 time (first at frame 42)"),
            ("one.pcap", "switch 00:05:1e:00:00:02, from its advertisements"),
            ("host.pcap", "as hosts send to it; no frame of the switch is here"),
        ):
            self.assertIn(words, self.remark(name))
        self.assertEqual(self.json("summary", "--quiet", "snap.pcap")["verdicts"]["1"]["dropped truncated"], 148)

    def test_other_switches(self) -> None:
        """Another switch's addresses become those of the run, with and without its frames."""
        wanted = told(self.json("logins", "--quiet", "one.pcap"))
        for name, old in (("domain101.pcap", "650100"), ("area7f.pcap", "017f00"), ("exchanged.pcap", "010101"), ("other_mac.pcap", "650100")):
            found = self.json("summary", "--quiet", name)
            self.assertEqual(told(found["logins"]), wanted, name)
            self.assertEqual(found["logins"][0]["switch_fcid"], old)
            self.assertEqual(found["comparison"]["totals"], {"equal": 88}, name)
            self.assertEqual(counted(found["verdicts"]), counted(self.json("summary", "--quiet", "one.pcap")["verdicts"]), name)
        self.assertEqual(told(self.json("logins", "--quiet", "initiator101.pcap", "target101.pcap")), told(self.json("logins", "--quiet", *PAIR)))

    def test_differences(self) -> None:
        """A difference of each kind that was put in by hand is found, and no other."""
        self.assertEqual(self.json("compare", "--quiet", "one.pcap")["totals"], {"equal": 88})
        states: dict[str, set[str]] = {"choice": set(), "open": set(), "different": set()}
        for name, (_, request, field) in EDITS.items():
            found = self.json("compare", "--quiet", f"edit_{name}.pcap")
            apart = [it for it in found["answers"] if it["state"] != "equal"]
            self.assertEqual(len(apart), 1, name)
            self.assertTrue(apart[0]["request"].startswith(request), (name, apart))
            self.assertIn(field, [it["field"] for it in apart[0]["differences"]], name)
            states[apart[0]["state"]].add(name)
        self.assertEqual(states["choice"], {"r_a_tov", "e_d_tov", "receive_size", "reason", "ct_reason", "priority", "d_bit"})
        self.assertEqual(states["open"], {"not_forwarded", "rscn_twice"})


    def test_two_forwarders(self) -> None:
        """The one that hosts log in at is taken, and compared with."""
        ran = self.call("look", "compare", "--json", "two_forwarders.pcap")
        self.assertIn("1 more advertises itself (00:0d:ec:00:00:09)", ran.stderr)
        self.assertEqual(json.loads(ran.stdout)["totals"], {"equal": 88})
        self.assertIn("switch 00:0d:ec:00:00:09, as --fcf says", self.call("look", "logins", "--fcf", "00:0d:ec:00:00:09", "two_forwarders.pcap").stderr)

    def test_late(self) -> None:
        """Who logged in before the capture began is nobody to the run, and that is said."""
        rows = self.json("summary", "--quiet", "late.pcap")["troubles"]
        hints = next(it["hints"] for it in rows if it["verdict"] == "dropped source-login")
        self.assertIn("logged in before the capture began", " ".join(hints))
        self.assertNotIn("different", self.json("compare", "--quiet", "late.pcap")["totals"])

    def test_silence(self) -> None:
        """A login that ends by silence says so, with the clear link message that the switch didn't send."""
        found = self.json("summary", "--quiet", "silent.pcap")
        self.assertIn("silent: no keep alive of its ENode for", found["logins"][0]["why"])
        apart = [it for it in found["comparison"]["answers"] if it["request"].startswith("Clear links")]
        self.assertEqual([(it["switch"], it["forwarder"]) for it in apart], [("missing", "sent")])
        self.assertIn("silent: ", self.call("look", "ladder", "--quiet", "silent.pcap").stdout)


class Views(Base):
    """Each view, and the tools that share the package."""

    def cut_at(self, name: str, frames: int, out: str) -> None:
        subprocess.run(["editcap", "-F", "pcap", "-r", str(name), out, f"1-{frames}"], cwd=self.folder, check=True, capture_output=True)

    def agree(self, *names: str) -> None:
        """The views say what `show` says."""
        with tempfile.TemporaryDirectory() as room:
            kept = os.path.join(room, "kept")
            self.call("look", "--quiet", "--keep", kept, *names)
            ran = subprocess.run([self.program, "show", "fabric.conf", "journal", *(f"in{it}.pcap" for it in range(1, len(names) + 1))], cwd=kept, capture_output=True, text=True, check=True)
            lines = ran.stdout.splitlines()
        shown = [it.split() for it in lines if it.startswith("login ")]
        rows = self.json("names", "--quiet", *names)
        logged = self.json("logins", "--quiet", *names)
        words = [[it["fcid"], it["wwpn"], it["wwnn"], it["port"], it["enode"], it["node_heard"], it["port_heard"], it["receive_size"], it["watching"]] for it in rows]
        self.assertEqual([[str(it).replace(":", "") for it in row] for row in words], [it[1:] for it in shown], names)
        self.assertEqual([f"types {it['fcid']} {it['map']}" for it in rows if it["types"]], [it for it in lines if it.startswith("types ")])
        self.assertEqual(sorted(it["fcid"] for it in logged if it["to"] is None), [it[1] for it in shown])

    def test_agree_with_show(self) -> None:
        for frames in (20, 60, 82, 110, 125):
            self.cut_at(PAIR[0], frames, f"front{frames}.pcap")
            self.agree(f"front{frames}.pcap")
        self.cut_at(PAIR[1], 100, "front_target.pcap")
        self.agree("front110.pcap", "front_target.pcap")
        self.agree("silent.pcap")
        self.agree(*(f"make{it}.pcap" for it in range(1, 9)))

    def test_at_a_moment(self) -> None:
        names = self.json("names", "--at", "+30", *PAIR)
        self.assertEqual([(it["fcid"], it["types"], it["features"]) for it in names], [("010100", [8, 32], {"8": 3}), ("010101", [8, 32], {"8": 2})])
        self.assertEqual([it["fcid"] for it in self.json("logins", "--at", "2026-11-26 23:03:50", *PAIR)], ["010100", "010101", "010102"])
        zone = self.json("zones", "--at", "23:03:50", *PAIR)["zones"][0]
        self.assertEqual([it["fcid"] for it in zone["members"]], ["010101", "010102", "010100"])
        self.assertIn("--at yesterday", self.refuse("look", "names", "--quiet", "--at", "yesterday", *PAIR))

    def test_zone_sets(self) -> None:
        text = (DEMO / "fabric.conf").read_text(encoding="ascii") + "zoneset day lab\n"
        text += "zone apart 20:00:00:1b:21:00:00:0b\nzoneset apart apart\nactivate day 1795734180000\nactivate apart 1795734230000\n"
        (self.folder / "sets.conf").write_text(text, encoding="ascii")
        words = ["--quiet", "--config", "sets.conf", *PAIR]
        for moment, name in (("1795734177000", None), ("1795734200000", "day"), ("1795734240000", "apart")):
            self.assertEqual(self.json("zones", "--at", moment, *words)["set"], name)
        found = self.json("summary", *words)
        drop = next(it for it in found["troubles"] if it["verdict"] == "dropped zone")
        told_why = self.json("why", str(drop["frames"][0][0]), str(drop["frames"][0][1]), *words)
        self.assertEqual(told_why["zones"]["set"], "apart")
        self.assertIn("zone set apart", self.call("look", "why", *map(str, drop["frames"][0]), *words).stdout)

    def test_why_by_the_window(self) -> None:
        """A drop that another order within the window would turn says so, and of one capture for all ports there is none."""
        ran = subprocess.run([self.program, "run", "wide.conf", "wide.journal", PAIR[0], "w1", PAIR[1], "w2"], cwd=self.wide(), capture_output=True, text=True, check=True)
        self.assertIn("frames 315", ran.stdout)
        words = ["--config", "wide.conf", "--journal", "wide.journal", PAIR[0], "w1", PAIR[1], "w2"]
        rows = self.json("summary", *words)["troubles"]
        hint = next(hint for row in rows for hint in row["hints"] if "by the window" in hint)
        port, frame = re.search(r"\((\d)/(\d+)", hint).groups()  # type: ignore[union-attr]
        text = self.call("look", "why", port, frame, *words).stdout
        self.assertIn("judged the other way round: `--window 10` or one capture for all ports", text)
        self.assertIn("granted", text)
        self.assertEqual(text, self.call("look", "why", "--index", port, str(int(frame) - 1), *words).stdout)
        together = self.json("summary", "--together", *PAIR)["troubles"]
        self.assertFalse([hint for row in together for hint in row["hints"] if "by the window" in hint])

    def wide(self) -> pathlib.Path:
        (self.folder / "wide.conf").write_text((DEMO / "fabric.conf").read_text(encoding="ascii").replace("window 10", "window 1000"), encoding="ascii")
        return self.folder

    def test_why_of_the_switch(self) -> None:
        at = next(it["frame"] for it in self.json("compare", "--quiet", "one.pcap")["answers"] if it["request"] == "Advertisement to all")
        self.assertIn("is the switch's own", self.refuse("look", "why", "--quiet", "1", str(at), "one.pcap"))
        self.assertIn("has no such frame", self.refuse("look", "why", "--quiet", "1", "9999", "one.pcap"))

    def tshark(self, name: str, *words: str) -> str:
        return subprocess.run(["tshark", "-r", name, *words], cwd=self.folder, capture_output=True, text=True, check=True).stdout

    def test_merge(self) -> None:
        """Wireshark pairs requests and answers: nothing malformed."""
        for name, frames in (("both1.pcapng", 322), ("one.pcapng", 573)):
            self.assertEqual(self.tshark(name, "-Y", "_ws.malformed"), "")
            said = self.tshark(name)
            self.assertEqual(said.count("\n"), frames)
            for words in ("ACC (FLOGI)", "ACC (GPN_FT)", "ACC (PLOGI)", "ACC (RFT_ID)", "ACC (SCR)"):
                self.assertIn(words, said)
        self.assertIn("choose one with --port", self.refuse("look", "merge", "--quiet", "out.pcapng", *PAIR))
        for own in (["merge", "one.pcap", "one.pcap"], ["merge", "./one.pcap", "one.pcap"], ["annotate", "one.pcapng", "one.pcapng"]):
            self.assertIn("is the input", self.refuse("look", *own))
        self.assertIn("is the input", self.refuse("look", "--report", "one.pcap", "one.pcap"))

    def test_annotate(self) -> None:
        """Verdicts beside the comments that are there, in the user's own pcapng."""
        subprocess.run(["editcap", "-F", "pcapng", "-a", "1:mine", "one.pcapng", "own.pcapng"], cwd=self.folder, check=True, capture_output=True)
        self.call("look", "annotate", "--quiet", "verdicts.pcapng", "own.pcapng")
        first = self.tshark("verdicts.pcapng", "-c", "1", "-T", "fields", "-e", "frame.comment")
        self.assertIn("mine", first)
        self.assertIn("dropped ethertype", first)
        self.assertEqual(self.tshark("own.pcapng", "-T", "fields", "-e", "frame.len"), self.tshark("verdicts.pcapng", "-T", "fields", "-e", "frame.len"))
        self.readme_run()
        self.assertEqual(self.call("annotate", str(DEMO / "fabric.conf"), "a.journal", "both2.pcapng", "target_verdicts.pcapng").stdout, "annotated 153\n")
        self.assertIn("granted 010100", self.tshark("target_verdicts.pcapng", "-Y", 'frame.comment contains "granted"', "-T", "fields", "-e", "frame.comment"))
        self.assertIn("is the input", self.refuse("annotate", str(DEMO / "fabric.conf"), "a.journal", "both2.pcapng", "./both2.pcapng"))

    def readme_run(self) -> None:
        subprocess.run([self.program, "run", str(DEMO / "fabric.conf"), "a.journal", PAIR[0], "a1", PAIR[1], "a2"], cwd=self.folder, check=True, capture_output=True)

    def test_ladder(self) -> None:
        """The picture has a legend and clock time; files that don't belong together are refused."""
        self.readme_run()
        conf = str(DEMO / "fabric.conf")
        said = self.call("ladder", conf, "a.journal", PAIR[0], "a1", PAIR[1], "a2").stdout
        for words in ("dropped, with its rule", "23:03:06.12", "+0.00 s", "PLOGI to 010101", HOSTS[0]):
            self.assertIn(words, said)
        self.assertIn("aren't of one run", self.refuse("ladder", conf, "a.journal", PAIR[0], "a2", PAIR[1], "a1"))
        self.assertIn("is no journal of", self.refuse("ladder", conf, "a.journal", PAIR[1], "a1", PAIR[0], "a2"))
        subprocess.run([self.program, "run", conf, "b.journal", PAIR[0], "b1"], cwd=self.folder, check=True, capture_output=True)
        self.assertIn("has frames of port 2", self.refuse("ladder", conf, "a.journal", PAIR[0], "a1"))
        self.assertIn("is no journal of", self.refuse("ladder", conf, "b.journal", PAIR[0], "a1", PAIR[1], "a2"))
        self.assertEqual(self.call("look", "ladder", "--quiet", "one.pcap").stdout.count("</svg>"), 1)

    def test_readdress(self) -> None:
        """There and back is the same; a wrong check sequence stays wrong; a run's grants are taken over."""
        self.call("readdress", "one.pcap", "there.pcap", "01=65")
        self.call("readdress", "there.pcap", "back_again.pcap", "65=01")
        self.assertEqual((self.folder / "back_again.pcap").read_bytes()[24:], (self.folder / "one.pcap").read_bytes()[24:])
        self.call("readdress", "edit_check_sequence.pcap", "wrong.pcap", "01=65")
        bad = self.tshark("wrong.pcap", "-Y", "fcoe.crc.status == 0 or fcoe.crc.status == \"Bad\"", "-T", "fields", "-e", "frame.number")
        self.assertEqual(bad.count("\n"), 1)
        subprocess.run([self.program, "run", str(DEMO / "fabric.conf"), "c.journal", "initiator101.pcap", "c1"], cwd=self.folder, check=True, capture_output=True)
        self.call("readdress", "--grants", str(DEMO / "fabric.conf"), "c.journal", "initiator101.pcap", "granted.pcap")
        sources = set(self.tshark("granted.pcap", "-T", "fields", "-e", "fc.s_id").split())
        self.assertEqual(sources, {"00.00.00", "01.01.00", "01.01.01"})
        self.assertIn("is the input", self.refuse("readdress", "one.pcap", "./one.pcap", "01=65"))
        self.assertIn("wants OLD=NEW", self.refuse("readdress", "one.pcap", "out.pcap", "0101=65"))

    def test_program(self) -> None:
        self.assertIn("tools/install", self.refuse("look", "--program", "missing", "one.pcap"))
        self.assertIn("wants 10 to 1000", self.refuse("look", "--window", "5", "one.pcap"))
        for line in ("", "--wrong one.pcap", "why 1", "logins", "why one 2 one.pcap"):
            self.assertIn("words: ", self.refuse("look", *line.split()))


@needs("tshark", "editcap")
class Manners(Base):
    """How it takes captures and words, and how it ends."""

    def piped(self, *words: str, close: bool = True) -> "subprocess.CompletedProcess[str]":
        """What it says of a capture that comes through a pipe, which ends or is interrupted while it is idle."""
        with open(PAIR[0], "rb") as file, subprocess.Popen([str(TOOLS / "look"), *words], stdin=subprocess.PIPE, stdout=subprocess.PIPE, stderr=subprocess.PIPE, cwd=self.folder) as ran:
            assert ran.stdin and ran.stdout and ran.stderr
            ran.stdin.write(file.read())
            ran.stdin.flush()
            if close:
                ran.stdin.close()
            else:
                while fcntl.ioctl(ran.stdin.fileno(), termios.FIONREAD, bytes(4)) != bytes(4):  # until it has taken all of it, and waits
                    time.sleep(0.05)
                ran.send_signal(signal.SIGINT)
            out, said = ran.stdout.read().decode(), ran.stderr.read().decode()
            ran.wait(60)
            if not close:
                ran.stdin.close()
        return subprocess.CompletedProcess(words, ran.returncode, out, said)

    def test_pipes(self) -> None:
        """Standard input, a FIFO, a file of the shell, and what is packed: as the file; of an idle pipe what came before an interrupt."""
        wanted = self.call("look", "logins", "--quiet", PAIR[0]).stdout
        self.assertEqual(self.piped("logins", "--quiet", "-").stdout, wanted)
        stopped = self.piped("logins", "--quiet", "-", close=False)
        self.assertEqual((stopped.returncode, stopped.stdout), (0, wanted), stopped.stderr)
        self.assertIn("interrupted: looks at what came", stopped.stderr)
        look = TOOLS / "look"
        for command in (f"{look} logins --quiet <(cat {PAIR[0]})", f"mkfifo ff; cat {PAIR[0]} >ff & {look} logins --quiet ff", f"gzip -c {PAIR[0]} | {look} logins --quiet -"):
            ran = subprocess.run(["bash", "-c", command], cwd=self.folder, capture_output=True, text=True, check=False, timeout=120)
            self.assertEqual((ran.returncode, ran.stdout), (0, wanted), ran.stderr)

    def test_twice(self) -> None:
        """A capture is one port: under its name, under another, and as a copy."""
        (self.folder / "linked.pcap").symlink_to(PAIR[0])
        shutil.copyfile(PAIR[0], self.folder / "copied.pcap")
        for other, said in ((PAIR[0], "is named twice"), ("linked.pcap", "once more"), ("copied.pcap", "holds the same bytes")):
            self.assertIn(said, self.refuse("look", PAIR[0], other))

    def test_statuses(self) -> None:
        """0 where nothing is amiss or nobody asked, 1 by --check, 2 where it couldn't look; and what was likely meant."""
        self.call("look", "--quiet", "silent.pcap")
        self.call("look", "--quiet", "--check", "silent.pcap", status=1)
        self.assertIn("did you mean logins?", self.refuse("look", "lgins", PAIR[0]))
        self.assertIn("did you mean --check?", self.refuse("look", "--chek", PAIR[0]))
        (self.folder / "misspelt.conf").write_text((DEMO / "fabric.conf").read_text(encoding="ascii") + "windw 10\n", encoding="ascii")
        self.assertIn("line 5: no key windw: did you mean window?", self.refuse("look", "--config", "misspelt.conf", PAIR[0]))
        for tool in ("look", "annotate", "ladder", "readdress", "zones", "bound"):
            self.assertTrue(self.call(tool, "--help").stdout)

    def test_frames_as_data(self) -> None:
        """The same rows in each form; what is chosen is what the journal has."""
        rows = self.json("frames", "--quiet", *PAIR)
        self.assertEqual(len(rows), 315)
        lines = self.call("look", "frames", "--quiet", "--jsonl", *PAIR).stdout.splitlines()
        self.assertEqual([json.loads(it) for it in lines], rows)
        table = list(csv.DictReader(io.StringIO(self.call("look", "frames", "--quiet", "--csv", *PAIR).stdout)))
        self.assertEqual([(it["port"], it["frame"], it["verdict"]) for it in table], [(str(it["port"]), str(it["frame"]), it["verdict"]) for it in rows])
        some = self.json("frames", "--quiet", "--where", "verdict=dropped dest-login", "--port", "2", *PAIR)
        self.assertEqual(some, [it for it in rows if it["port"] == 2 and it["verdict"] == "dropped dest-login"])
        part = self.json("frames", "--quiet", "--from", "23:03:06", "--to", "23:03:10", *PAIR)
        self.assertEqual(part, [it for it in rows if 1795734186 * 10**9 <= it["moment"] <= 1795734190 * 10**9])
