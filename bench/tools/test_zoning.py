"""tools/zones, and what of tools/look stands on zonings, over the files of demo/zonings (as switches print them, by hand) and over random ones."""
import contextlib
import io
import json
import pathlib
import random
import re
import subprocess
import sys
import tempfile
import unittest
from itertools import combinations
from typing import Any, ClassVar, Iterable, Optional
from unittest import mock

import zoning_forms as forms
from machine import DEMO, TOP, needs_modules, program, script
from zoning_forms import Made, wwn

from fcoe.frames.captures import classic
from fcoe.start import main_of

FILES = DEMO / "zonings"
A, B, N = "20:00:00:1b:21:00:00:0a", "20:00:00:1b:21:00:00:0b", "21:01:00:1b:21:00:00:0a"
OLD, NEW = "50:0a:09:81:86:57:d5:58", "50:0a:09:81:86:57:d5:59"
Pairs = set[tuple[str, str]]


def host(number: int) -> str:
    return wwn(number, "10:00:00:00:c9")


def array(number: int) -> str:
    return wwn(number, "50:06:01:60:00")


def between(ones: Iterable[str], others: Iterable[str]) -> Pairs:
    return {(min(a, b), max(a, b)) for a in ones for b in others}


def among(*zones: Iterable[str]) -> Pairs:
    return {(min(pair), max(pair)) for zone in zones for pair in combinations(zone, 2)}


HOSTS = [host(1), host(2), host(3)]
TAPE = "50:01:04:f0:00:00:00:01"
LOOP, ARRAY1, ARRAY2 = ["21:00:00:20:37:0c:76:85", "21:00:00:20:37:0c:71:df"], ["21:00:00:20:37:0c:76:8c", "21:00:00:20:37:0c:71:02"], ["21:00:00:20:37:0c:76:22", "21:00:00:20:37:0c:76:28"]
LOGINS = ["--logins", "nxos_logins.txt", "--logins", "fos_logins.txt"]
# what each file joins, by hand: its words, and the pairs that reach each other
REACH: dict[str, tuple[list[str], Pairs]] = {
    "nxos_active.txt": ([], among([A, B], [N, B, OLD])),
    "nxos_planned.txt": ([], among([A, NEW], [N, A])),
    "nxos_full.txt": (["--set", "ZS_A"], among([host(1), host(2), array(1)], [host(3), TAPE])),
    "nxos_running.txt": ([], among([host(1), array(1)])),
    "nxos_log.txt": ([], among([A, B, OLD])),
    "nxos_smart.txt": ([], between(HOSTS, [array(1), array(2), array(9)]) | between([array(9)], [array(1), array(2)]) | among([host(1), host(3)])),
    "nxos_permit.txt": (LOGINS[:2], among([A, B])),
    "nxos_vsans.txt": (["--vsan", "20"], among([host(2), array(2)])),
    "nxos_config_session.txt": ([], among([A, B])),
    "nxos_every_member.txt": (["--skip", *LOGINS], among([A, B])),
    "fos_cfgshow.txt": ([], among(LOOP)),
    "fos_effective.txt": ([], among([A, B], [N, B, OLD])),
    "fos_log.txt": ([], among([A, B], [N, B])),
    "fos_peer.txt": ([], between([array(1)], HOSTS)),
    "fos_commands.txt": ([], among([A, B], [N, B], [A, array(1)], [N, array(1)])),
    "fos_every_member.txt": (["--skip", *LOGINS], among([A, B])),
}
# what is said of each member that a WWPN can't say, without lists of logins: line and words
UNSAID = {
    "nxos_every_member.txt": {
        9: "FCID 010100", 10: "WWNN 10:00:00:1b:21:00:00:0b", 11: "port name of the fabric's port (fwwn) 20:0b:00:05:1e:00:00:02", 12: "interface vfc11", 13: "domain and port 1,11",
        16: "symbolic node name iqn.1987-05.com.cisco:02.host", 17: "IP address 192.0.2.7", 18: "FCID 0b0204", 19: "device-alias unknown_alias", 20: "alias Unknown",
    },
    "fos_every_member.txt": {5: "domain and port 1,11", 7: "domain and port 9,9"},
}  # fmt: skip


def pairs_of(text: str) -> Pairs:
    """Who reaches whom by lines of a configuration: all members of a zone."""
    return among(*(line.split()[2:] for line in text.splitlines() if line.startswith("zone ")))


LOADED = {tool: script(f"tools/{tool}") for tool in ("zones", "look")}


class Base(unittest.TestCase):
    """A room for files that are made."""

    program: ClassVar[str]
    room: ClassVar["tempfile.TemporaryDirectory[str]"]
    folder: ClassVar[pathlib.Path]

    @classmethod
    def setUpClass(cls) -> None:
        cls.program = program()
        cls.room = tempfile.TemporaryDirectory()  # pylint: disable=consider-using-with
        cls.folder = pathlib.Path(cls.room.name)

    @classmethod
    def tearDownClass(cls) -> None:
        cls.room.cleanup()

    def call(self, tool: str, *words: str, folder: Optional[pathlib.Path] = None) -> "subprocess.CompletedProcess[str]":
        """A tool within this process."""
        out, said, status = io.StringIO(), io.StringIO(), 0
        with contextlib.chdir(folder or FILES), contextlib.redirect_stdout(out), contextlib.redirect_stderr(said), mock.patch.object(sys, "argv", [tool, *words]):
            try:
                main_of(LOADED[tool].run)
            except SystemExit as ended:
                status = int(ended.code or 0)
        return subprocess.CompletedProcess(words, status, out.getvalue(), said.getvalue())

    def said(self, tool: str, *words: str, folder: Optional[pathlib.Path] = None) -> str:
        ran = self.call(tool, *words, folder=folder)
        self.assertEqual(ran.returncode, 0, f"{tool} {' '.join(words)}: {ran.stderr[-600:]}")
        return ran.stdout

    def refused(self, tool: str, *words: str, folder: Optional[pathlib.Path] = None) -> str:
        ran = self.call(tool, *words, folder=folder)
        self.assertNotEqual(ran.returncode, 0, ran.stdout[-400:])
        self.assertEqual(ran.stdout, "")
        self.assertNotIn("Traceback", ran.stderr)
        return ran.stderr

    def file(self, name: str, text: str | bytes) -> str:
        path = self.folder / name
        path.write_bytes(text if isinstance(text, bytes) else text.encode())
        return str(path)


class Files(Base):
    """The files that were written by hand."""

    def test_reach(self) -> None:
        """Each joins whom it joins, and nobody else; none is left out of this table."""
        for name, (words, wanted) in REACH.items():
            self.assertEqual(pairs_of(self.said("zones", "--quiet", *words, "--from", name)), wanted, name)
        rest = {it.name for it in FILES.iterdir()} - set(REACH)
        self.assertEqual(rest, {"nxos_logins.txt", "fos_logins.txt"})

    def test_no_member_vanishes(self) -> None:
        """A member that a WWPN can't say is refused with its file, its line and what to do; --skip says the same of each."""
        for name, members in UNSAID.items():
            said = self.refused("zones", "--from", name)
            for line, words in members.items():
                found = [it for it in said.splitlines() if f"{name}, line {line}: " in it and words in it]
                self.assertEqual(len(found), 1, (name, line, said))
                self.assertRegex(found[0], "can't be said by a WWPN: .*(--logins FILE|--from FILE|zone it by)")
            skipped = self.call("zones", "--skip", "--from", name).stderr
            for line in members:
                self.assertRegex(skipped, f"left out: {name}, line {line}: ")

    def test_by_logins(self) -> None:
        """Lists of logins say which WWPN an FCID, a node, a port of the fabric, an interface and a port is."""
        said = self.call("zones", "--skip", *LOGINS, "--from", "nxos_every_member.txt").stderr
        for line in (9, 10, 11, 12, 13):
            self.assertRegex(said, f"line {line}: .* is {B}, by the logins")
        self.assertIn(f"line 5: LUN 0x0003 of {B}: zones of this forwarder hold for all LUNs of a port", said)
        said = self.call("zones", "--skip", *LOGINS, "--from", "fos_every_member.txt").stderr
        self.assertRegex(said, f"line 5: domain and port 1,11 is {B}, by the logins")
        self.assertIn("alias empty_alias of zone by_nothing has no members", said)
        self.assertIn("who is in no zone", self.refused("zones", "--from", "nxos_permit.txt").replace("whoever", "who"))

    def test_each_line_taken_out_is_seen(self) -> None:
        """A zone less a line with a member joins less, or is refused: no line with a WWPN is there for nothing."""
        for name in ("nxos_active.txt", "nxos_planned.txt", "nxos_smart.txt", "fos_effective.txt", "fos_peer.txt", "nxos_config_session.txt"):
            lines = (FILES / name).read_text(encoding="ascii").splitlines()
            members = [at for at, it in enumerate(lines) if re.search(r"(..:){7}..", it) and "00:02:00:00:00" not in it]
            for at in members if name != "fos_peer.txt" else members[-4:]:
                less = self.call("zones", "--quiet", "--from", self.file("less.txt", "\n".join(lines[:at] + lines[at + 1 :]) + "\n"))
                self.assertNotEqual(pairs_of(less.stdout), REACH[name][1], (name, at + 1, lines[at]))

    def test_noise(self) -> None:
        """Other lines of a log are gone past and counted; one that may be a member is refused."""
        said = self.call("zones", "--from", "nxos_log.txt").stderr
        self.assertIn("3 lines of other things gone past (1, 5-6;", said)
        active = (FILES / "nxos_active.txt").read_text(encoding="ascii")
        for line, words in (
            ("    pwwwn 20:00:00:1b:21:00:00:0c", "is no member that is known"),
            ("    pwwn 20:00:00:1b:21:00:0c", "is no member that is known"),
            ("    vsan 100 lun 3", "is no member that is known"),
        ):
            cut = active.replace("  * fcid 0x010102", f"{line}\n  * fcid 0x010102")
            self.assertIn(words, self.refused("zones", "--from", self.file("noise.txt", cut)))
        self.assertIn("no zone is open", self.refused("zones", "--from", self.file("noise.txt", "device-alias name a pwwn 20:00:00:1b:21:00:00:0c\n  pwwn 20:00:00:1b:21:00:00:0d\n" + active)))
        effective = (FILES / "fos_effective.txt").read_text(encoding="ascii")
        self.assertIn("is no list of members", self.refused("zones", "--from", self.file("noise.txt", effective.replace("\t\t50:0a:09:81:86:57:d5:58", "\t\t50:0a:09:81:86:57:d5:5\n8"))))

    def test_which(self) -> None:
        """The active zoning is taken, or the one that is named; several VSANs and several zone sets want a choice."""
        self.assertEqual(pairs_of(self.said("zones", "--quiet", "--defined", "--from", "nxos_running.txt")), among([host(1), host(2), array(1)], [host(3), TAPE]))
        self.assertIn("zone z_spare stands in no zone set, and isn't taken", self.call("zones", "--defined", "--from", "nxos_running.txt").stderr)
        self.assertIn("has VSANs 10, 20: choose one with --vsan", self.refused("zones", "--from", "nxos_vsans.txt"))
        self.assertIn("has no zone of VSAN 30; it has VSAN 10, 20", self.refused("zones", "--vsan", "30", "--from", "nxos_vsans.txt"))
        self.assertIn("ZS_A, ZS_B, and none of them is active: choose one with --set", self.refused("zones", "--from", "nxos_full.txt"))
        self.assertIn("has no zone set ZS_C; it has ZS_A, ZS_B", self.refused("zones", "--set", "ZS_C", "--from", "nxos_full.txt"))
        every = self.said("zones", "--quiet", "--all", "--from", "nxos_full.txt")
        self.assertEqual([it for it in every.splitlines() if it.startswith("zoneset")], ["zoneset ZS_A z_hosts z_backup", "zoneset ZS_B z_backup"])
        self.assertIn("line 7: zone Blue_zone: member domain and port 1,1", self.refused("zones", "--set", "USA_cfg", "--from", "fos_cfgshow.txt"))

    def test_several_files(self) -> None:
        """Aliases may stand in a file of their own; a zone that is printed twice must say the same."""
        lines = (FILES / "nxos_full.txt").read_text(encoding="ascii").split("switch# show device-alias database")
        zones, aliases = self.file("zones.txt", lines[0]), self.file("aliases.txt", lines[1])
        self.assertIn("device-alias array1 can't be said", self.refused("zones", "--set", "ZS_A", "--from", zones))
        self.assertEqual(pairs_of(self.said("zones", "--quiet", "--set", "ZS_A", "--from", zones, "--from", aliases)), REACH["nxos_full.txt"][1])
        other = self.file("other.txt", lines[0].replace("10:00:00:00:c9:00:00:03", "10:00:00:00:c9:00:00:07"))
        self.assertIn("zone z_backup has other members in each", self.refused("zones", "--set", "ZS_A", "--from", zones, "--from", other, "--from", aliases))
        self.assertIn("give each switch's lines in a file of its own", self.refused("zones", "--from", self.file("both.txt", (FILES / "nxos_active.txt").read_text() + (FILES / "fos_effective.txt").read_text())))
        self.assertIn("no zoning: it wants the output of", self.refused("zones", "--from", self.file("text.txt", "no zoning\n")))
        self.assertIn("takes something away", self.refused("zones", "--from", self.file("no.txt", "zone name a vsan 1\n  no member pwwn 20:00:00:1b:21:00:00:0c\n")))

    def test_there_and_back(self) -> None:
        """What is written as a switch's commands is read back to the same reach."""
        for name, (words, wanted) in REACH.items():
            for vendor in ("nxos", "fos"):
                vsan = [] if "--vsan" in words or vendor == "fos" else ["--vsan", "100"]
                made = self.said("zones", "--quiet", *words, *vsan, "--to", vendor, "--from", name)
                self.assertEqual(pairs_of(self.said("zones", "--quiet", "--from", self.file("back.txt", made))), wanted, (name, vendor))

    def commands(self, vendor: str, text: str) -> str:
        """A zoning as a vendor's commands."""
        return self.said("zones", "--quiet", *(["--vsan", "7"] if vendor == "nxos" else []), "--to", vendor, "--from", self.file("way.txt", text))

    def test_roles_there_and_back(self) -> None:
        """Roles survive each way: a principal is a target, the storage, and comes back as a principal; a smart zone comes back as one."""
        for text, first, other in ((forms.PEER_AND_MORE, "fos", "nxos"), (forms.SMART_ZONE, "nxos", "fos")):
            made, there = self.commands(first, text), self.commands(other, text)
            self.assertEqual(self.commands(other, made), there)
            self.assertEqual(self.commands(first, made), made)
            self.assertEqual(sorted(self.commands(first, there).splitlines()), sorted(made.splitlines()))
        self.assertIn('-principal "50:06:01:60:3b:20:11:aa" -members "10:00:00:90:fa:11:22:01; 10:00:00:90:fa:11:22:02"', self.commands("fos", forms.SMART_ZONE))
        self.assertIn("  member pwwn 50:06:01:60:3b:20:11:aa target\n  member pwwn 10:00:00:90:fa:11:22:01 init\n", self.commands("nxos", forms.PEER_AND_MORE))

    def test_defined_and_active(self) -> None:
        """That the defined zone set and the active one differ is said, by zones and by members; where they are the same nothing is."""
        file = self.file("prod.txt", forms.PEER_AND_MORE)
        self.assertIn("PROD: the defined zone set and the active one differ, defined alone: esx02_a, tape: activating it would change that", self.call("zones", "--from", file).stderr)
        less = forms.PEER_AND_MORE.replace("; esx02_a; peer1; tape", "; peer1")
        self.assertNotIn("differ", self.call("zones", "--from", self.file("same.txt", less)).stderr)
        moved = less.replace(" zone:\tesx01_a\n\t\t10:00:00:90:fa:11:22:01", " zone:\tesx01_a\n\t\t10:00:00:90:fa:11:22:02")
        self.assertIn("differ, with other members: esx01_a:", self.call("zones", "--from", self.file("moved.txt", moved)).stderr)
        gone = less.replace("esx01_a; peer1", "peer1")
        self.assertIn("differ, active alone: esx01_a:", self.call("zones", "--from", self.file("gone.txt", gone)).stderr)

    def test_names_of_the_whole_file(self) -> None:
        """Aliases of the defined zoning name the WWNs of the active one, and whoever is in none of its zones."""
        file = self.file("prod.txt", forms.PEER_AND_MORE)
        said = self.said("look", "why", "not", "esx01", "ARRAY1", "--quiet", "--zoning", file)
        self.assertIn("reach each other where both are logged in: zone esx01_a, peer1", said)
        said = self.said("look", "why", "not", "esx02", "tape_0", "--quiet", "--zoning", file)
        self.assertIn("no zone of PROD has both: 10:00:00:90:fa:11:22:02 is in peer1; 50:01:04:f0:00:00:00:01 is in no zone", said)
        rows = json.loads(self.said("look", "reach", "--json", "--quiet", "--zoning", file))["ports"]
        self.assertEqual([it["called"] for it in rows], [["esx01"], ["esx02"], ["array1"]])

    def test_zones_of_a_pair(self) -> None:
        """What becomes of a zone whose members don't all reach each other is said by its count."""
        for text, words in (
            (forms.PEER_AND_MORE, "zone peer1: its members don't all reach each other: 2 zones of a pair each"),
            (forms.SMART_ZONE.replace("    pwwn 10:00:00:90:fa:11:22:02 init\n", "    pwwn 50:06:01:60:3b:20:11:ab target\n"), "zone z1: its members don't all reach each other: 2 zones of a pair each"),
        ):
            self.assertIn(words, self.call("zones", "--from", self.file("pairs.txt", text)).stderr)
        ran = self.call("zones", "--from", self.file("pair.txt", forms.SMART_ZONE.replace("    pwwn 10:00:00:90:fa:11:22:02 init\n", "")))
        self.assertNotIn("reach each other", ran.stderr)
        self.assertEqual(pairs_of(ran.stdout), among(["10:00:00:90:fa:11:22:01", "50:06:01:60:3b:20:11:aa"]))

    def test_other_switches(self) -> None:
        """Forms that aren't read are refused by name, with the plain lines that are; so is none of them in part."""
        for name, (whose, text) in forms.OTHERS.items():
            said = self.refused("zones", "--from", self.file(name, text))
            self.assertIn(whose, said, name)
            self.assertIn("zone NAME WWPN WWPN ..", said, name)
        for before in ("mds# show zoneset active vsan 400 | json\n", "$ curl -k -i https://sw0/rest/running\nHTTP/1.1 200 OK\nContent-Type: application/json\n\n"):
            for name in ("nxos.json", "fos_rest.json"):
                said = self.refused("zones", "--from", self.file("log.txt", before + forms.OTHERS[name][1] + "mds#\n"))
                self.assertIn("JSON or XML of a REST interface", said, (before, name))
                self.assertIn("zone NAME WWPN WWPN ..", said, name)

    def test_members_of_other_vsans(self) -> None:
        """A member of another VSAN is one like the others, and that is said."""
        for words in (["--vsan", "400"], ["--set", "other"]):
            first, _, second = forms.IVR.partition("mds# show ivr")
            ran = self.call("zones", *words, "--from", self.file("ivr.txt", first if "--vsan" in words else f"mds# show ivr{second}"))
            self.assertEqual(pairs_of(ran.stdout), among(["20:00:00:1b:21:00:00:0a", "20:00:00:1b:21:00:00:0b"]), ran.stderr)
            self.assertIn("is of another VSAN (IVR)", ran.stderr)

    def test_names(self) -> None:
        """A name that the configuration doesn't take is written otherwise, and that is said."""
        text = f" cfg:\tact\t1st; {'x' * 70}\n zone:\t1st\t{A}; {B}\n zone:\t{'x' * 70}\t{A}; {N}\n"
        ran = self.call("zones", "--from", self.file("names.txt", text))
        self.assertEqual(pairs_of(ran.stdout), among([A, B], [A, N]))
        self.assertIn("zone 1st is written as z_1st: the configuration doesn't take that name", ran.stderr)
        self.assertIn(f"is written as {'x' * 64}: ", ran.stderr)


def names_in(journal: list[list[str]], captures: list[list[bytes]]) -> list[tuple[int, int, dict[str, str], str]]:
    """Of each frame of a journal its port, its place, who held which address then, and its verdict."""
    held: dict[str, str] = {}
    found = []
    for words in journal:
        if words[1] == "tick":
            continue
        port, index, verdict = int(words[1]), int(words[2]), " ".join(words[3:])
        if words[3] == "granted":
            held = {**held, words[4]: captures[port - 1][index][76:84].hex(":")}
        found.append((port, index, held, verdict))
    return found


class Plain:
    """What two journals say, counted line by line; of the tools it takes the reader of captures alone."""

    def __init__(self, program: str, folder: pathlib.Path, captures: list[str]) -> None:
        self.program, self.folder, self.names = program, folder, captures
        self.captures = [[it.data for it in classic(name).records] for name in captures]

    def journal(self, config: str) -> list[tuple[int, int, dict[str, str], str]]:
        outputs = [word for at, name in enumerate(self.names) for word in (name, f"out{at}")]
        subprocess.run([self.program, "run", config, "plain.journal", *outputs], cwd=self.folder, check=True, capture_output=True)
        lines = (self.folder / "plain.journal").read_text(encoding="ascii").splitlines()
        return names_in([it.split(" ") for it in lines[1:]], self.captures)

    def counts(self, was: str, planned: str) -> tuple[dict[tuple[str, str], list[int]], dict[tuple[str, str], int]]:
        """By pair: frames and bytes that went, and of these how many are dropped by zone by the other; and how many dropped ones would go."""
        said: dict[tuple[str, str], list[int]] = {}
        would: dict[tuple[str, str], int] = {}
        others = {(port, index): verdict for port, index, _, verdict in self.journal(planned)}
        for port, index, held, verdict in self.journal(was):
            data = self.captures[port - 1][index]
            if not verdict.startswith("forwarded") and verdict != "dropped zone":
                continue
            one, other = sorted((held[data[37:40].hex()], held[data[33:36].hex()]))
            if verdict.startswith("forwarded"):
                some = said.setdefault((one, other), [0, 0, 0])
                some[0], some[1], some[2] = some[0] + 1, some[1] + len(data), some[2] + (others[(port, index)] == "dropped zone")
            elif others[(port, index)].startswith("forwarded"):
                would[(one, other)] = would.get((one, other), 0) + 1
        return said, would


class WhatIf(Base):
    """`look whatif`, `reach`, `why not` and `compare --logins`."""

    pair: ClassVar[list[str]] = [str(TOP / "demo" / "initiator.pcap"), str(TOP / "demo" / "target.pcap")]

    def config(self, name: str, zones: list[list[str]]) -> str:
        lines = ["fcf-mac 00:05:1e:00:00:02", "vlan 100", "window 10", *(f"zone z{at} {' '.join(it)}" for at, it in enumerate(zones))]
        return self.file(name, "\n".join(lines) + "\n")

    def what(self, *words: str, status: int) -> Any:
        ran = self.call("look", "whatif", "--json", "--quiet", *words)
        self.assertEqual((ran.returncode, ran.stdout[:1]), (status, "{"), ran.stderr)
        return json.loads(ran.stdout)

    def test_story(self) -> None:
        """From the switch's active zoning and the one that is planned to two conversations that would break."""
        found = self.what("--was", "nxos_active.txt", "--planned", "nxos_planned.txt", *self.pair, status=1)
        self.assertEqual([(set(it["wwpns"]), it["zones"], it["lacking"]) for it in found["cut"]], [({A, B}, ["host"], [{"zone": "host", "lacks": [B]}]), ({N, B}, ["guest"], [{"zone": "guest", "lacks": [B]}])])
        self.assertEqual([(it["frames"], it["bytes"]) for it in found["cut"]], [(132, 89156), (13, 1256)])
        self.assertEqual({tuple(it["wwpns"]) for it in found["lost_silent"]}, {(min(it, OLD), max(it, OLD)) for it in (B, N)})
        self.assertEqual({tuple(it["wwpns"]): it["would_go"] for it in found["gained"]}, {(A, N): 14, (A, NEW): 0})
        self.assertEqual([(it["wwpn"], it["of"]) for it in found["notices"]], [(A, [B, N]), (B, [A, N])])  # N watches later
        self.assertEqual(found["checked"], ["legal 475", "legal 475"])
        self.assertEqual([it["wwpn"] for it in found["never_logged_in"]], [NEW])
        self.assertEqual([(it["zone"], it["wwpn"]) for it in found["alone"]], [("host", A)])
        self.assertEqual(found["renamed"], [{"wwpn": N, "was": ["guest_a"], "planned": ["guest"]}])
        self.assertIn({"wwpn": A, "query": "GPN_FT", "count": 2, "lacks": [B]}, found["answers"])

    def test_moment(self) -> None:
        """From a moment on: what is dropped stands behind it, and who spoke before it is cut off as well."""
        found = self.what("--was", "nxos_active.txt", "--planned", "nxos_planned.txt", "--at", "23:04:30", *self.pair, status=1)
        self.assertEqual({tuple(it["wwpns"]): (it["frames"], it["dropped"]) for it in found["cut"]}, {(A, B): (132, 8), (B, N): (13, 0)})
        self.assertEqual([(it["wwpn"], it["of"]) for it in found["notices"]], [(A, [B]), (B, [A])])
        self.assertIn("--at: is no moment of these captures", self.refused("look", "whatif", "--planned", "nxos_planned.txt", "--at", "1795734999000", *self.pair))

    def test_nothing_changes(self) -> None:
        found = self.what("--was", "nxos_active.txt", "--planned", "nxos_active.txt", *self.pair, status=0)
        self.assertEqual([found[it] for it in ("cut", "lost_silent", "gained", "notices", "answers")], [[], [], [], [], []])

    def test_without_captures(self) -> None:
        """The same pairs, by the zonings alone; any loss is status 1, as nobody can say who spoke."""
        found = self.what("--was", "nxos_active.txt", "--planned", "nxos_planned.txt", status=1)
        old, new = REACH["nxos_active.txt"][1], REACH["nxos_planned.txt"][1]
        self.assertEqual({tuple(it["wwpns"]) for it in found["lost_silent"]}, old - new)
        self.assertEqual({tuple(it["wwpns"]) for it in found["gained"]}, new - old)
        self.what("--was", "nxos_planned.txt", "--planned", "nxos_planned.txt", status=0)
        self.assertIn("both zonings are wanted", self.refused("look", "whatif", "--planned", "nxos_planned.txt"))
        self.assertIn("whatif --planned FILE", self.refused("look", "whatif", *self.pair))

    def check(self, plain: Plain, zones: list[list[list[str]]], extra: list[str]) -> None:
        was, planned = self.config("was.conf", zones[0]), self.config("planned.conf", zones[1])
        said, would = plain.counts(was, planned)
        old, new = among(*zones[0]), among(*zones[1])
        cut = {pair: counts for pair, counts in said.items() if pair in old - new}
        found = self.what(*extra, "--was", was, "--planned", planned, *plain.names, status=int(bool(cut)))
        self.assertEqual({tuple(it["wwpns"]): [it["frames"], it["bytes"], it["dropped"]] for it in found["cut"]}, cut)
        self.assertEqual({tuple(it["wwpns"]) for it in found["cut"] + found["lost_silent"]}, old - new)
        self.assertEqual({tuple(it["wwpns"]) for it in found["gained"]}, new - old)
        self.assertEqual({tuple(it["wwpns"]): it["would_go"] for it in found["gained"] if it["would_go"]}, would)
        self.assertTrue(all(counts[2] == counts[0] for counts in cut.values()))

    def test_random_pairs(self) -> None:
        """What `whatif` says of two random zonings is a plain count over the two journals."""
        plain = Plain(self.program, self.folder, self.pair)
        for seed in range(12):
            rng = random.Random(seed)
            zones = [[rng.sample([A, B, N, OLD], rng.randint(1, 4)) for _ in range(rng.randint(1, 4))] for _ in range(2)]
            with self.subTest(seed=seed):
                self.check(plain, zones, [])

    def test_a_large_load(self) -> None:
        """The same over 20,000 frames of 240 logins."""
        names = [f"make{it}.pcap" for it in range(1, 9)]
        subprocess.run([self.program, "make", "1", "make.conf", *names], cwd=self.folder, check=True, capture_output=True)
        text = (self.folder / "make.conf").read_text(encoding="ascii")
        zones = [it.split()[2:] for it in text.splitlines() if it.startswith("zone ")]
        fewer = [it[:-2] if at % 3 else it for at, it in enumerate(zones)]
        plain = Plain(self.program, self.folder, [str(self.folder / it) for it in names])
        head = "\n".join(it for it in text.splitlines() if not it.startswith("zone "))
        with mock.patch.object(self, "config", lambda name, some: self.file(name, head + "\n" + "".join(f"zone z{at} {' '.join(it)}\n" for at, it in enumerate(some)))):
            self.check(plain, [zones, fewer], ["--config", str(self.folder / "make.conf")])

    def test_reach(self) -> None:
        """Who reaches whom at a moment, by which zone."""
        found = json.loads(self.said("look", "reach", "--json", "--quiet", "--zoning", "nxos_active.txt", *self.pair))
        self.assertEqual([it["wwpn"] for it in found["ports"]], [B, A, N])
        self.assertEqual({tuple(it["wwpns"]): it["zones"] for it in found["pairs"]}, {(A, B): ["host"], (B, N): ["guest"]})
        self.assertEqual(found["absent"], [OLD])
        found = json.loads(self.said("look", "reach", "--json", "--quiet", "--at", "+20", "--zoning", "nxos_active.txt", *self.pair))
        self.assertEqual([it["wwpn"] for it in found["ports"]], [B, A])
        shown = self.said("look", "reach", "--quiet", "--zoning", "nxos_smart.txt")
        self.assertIn("6 N_Ports, zone set SMART", shown)
        self.assertRegex(shown, rf"(?m)^  2  {host(2)}  esx2 +\. +x  x  x$")

    def test_why_not(self) -> None:
        """One line, whatever the cause is."""
        for words, line in (
            ([A, B], "reach each other: zone host; they are 010101 on port 1 and 010100 on port 2"),
            ([A, N], f"don't reach each other: no zone of night has both: {A} is in host; {N} is in guest"),
            (["host_a", "010102"], f"don't reach each other: no zone of night has both: {A} is in host; {N} is in guest"),
            ([A, "old_disk"], f"{OLD} never logged in in these captures; no zone of night has both"),
            ([A, host(9)], f"{host(9)} never logged in in these captures; no zone of night has both: {A} is in host; {host(9)} is in no zone"),
        ):
            said = self.said("look", "why", "not", *words, "--quiet", "--zoning", "nxos_active.txt", *self.pair)
            self.assertEqual(said.count("\n"), 1)
            self.assertIn(line, said)
        said = self.said("look", "why", "not", N, B, "--quiet", "--at", "23:04:20", "--zoning", "nxos_active.txt", *self.pair)
        self.assertIn(f"don't reach each other: {N} isn't logged in: its login ended 23:04:02.470 (LOGO)", said)
        self.assertIn("reach each other where both are logged in: zone host", self.said("look", "why", "not", A, B, "--quiet", "--zoning", "nxos_active.txt"))
        self.assertIn("doesn't let them reach each other", self.said("look", "why", "not", "esx1", "esx2", "--quiet", "--zoning", "nxos_smart.txt"))
        self.assertIn("wants a WWPN, an address", self.refused("look", "why", "not", "nobody", A, *self.pair))

    def test_logins(self) -> None:
        """A switch's list of logins beside the run's: the same, and each kind of difference."""
        for name in ("nxos_logins.txt", "fos_logins.txt"):
            rows = json.loads(self.said("look", "compare", "--json", "--quiet", "--logins", name, *self.pair))["logins"]
            self.assertEqual({it["wwpn"]: it["differences"] for it in rows}, {A: [], B: [], N: []}, name)
        text = (FILES / "nxos_logins.txt").read_text(encoding="ascii").split("switch# show fcns")[0]
        other = text.replace("0x010100", "0x010177").replace(f"vfc10            100   0x010102  {N}", f"vfc10            100   0x010102  {host(1)}")
        rows = json.loads(self.said("look", "compare", "--json", "--quiet", "--logins", self.file("other.txt", other), *self.pair))["logins"]
        self.assertEqual({it["wwpn"]: it["differences"] for it in rows}, {A: [], host(1): ["not logged in here"], B: ["another address"], N: ["not in the switch's list"]})
        moved = text.replace("vfc11  ", "vfc10  ")
        rows = json.loads(self.said("look", "compare", "--json", "--quiet", "--logins", self.file("moved.txt", moved), *self.pair))["logins"]
        self.assertEqual([(it["wwpn"], it["differences"]) for it in rows if it["differences"]], [(B, ["another port: vfc10 of the switch is port 1 here for the others behind it"])])
        self.assertIn("no list of logins", self.refused("look", "compare", "--logins", "nxos_active.txt", *self.pair))

    @needs_modules("jinja2")
    def test_report(self) -> None:
        """The report has the matrix, and the conversations that would break."""
        name = str(self.folder / "report.html")
        self.call("look", "whatif", "--quiet", "--report", name, "--was", "nxos_active.txt", "--planned", "nxos_planned.txt", *self.pair)
        text = pathlib.Path(name).read_text(encoding="utf-8")
        whatif = text.split('<section id="whatif">')[1].split("</section>")[0]
        self.assertIn("2 conversations would break", whatif)
        for it in (A, B, N):
            self.assertIn(f'<td class="mono">{it}</td>', whatif)
        self.assertEqual(text.split('<section id="reach">')[1].split("</section>")[0].count('title="all"'), 6)

    def test_zones_of_the_switch(self) -> None:
        """`look zones` shows the active zones of the run, and with --from writes lines; members are resolved by the captures."""
        shown = self.said("look", "zones", "--quiet", "--at", "23:03:50", "--zoning", "nxos_active.txt", *self.pair)
        self.assertIn(f"* {A} [FCID 010101]", shown)
        self.assertEqual(pairs_of(self.said("look", "zones", "--quiet", "--from", "nxos_active.txt")), REACH["nxos_active.txt"][1])
        text = f"zoneset name n vsan 1\n  zone name z vsan 1\n    nwwn 10:00:00:1b:21:00:00:0b\n    pwwn {A}\n"
        words = ["zones", "--quiet", "--from", self.file("node.txt", text)]
        self.assertIn("name captures that hold its login", self.refused("look", *words))
        self.assertEqual(pairs_of(self.said("look", *words, *self.pair)), among([A, B]))


class Sizes(Base):
    """Large zonings, and the limits of a configuration."""

    def large(self, zones: int, members: int) -> str:
        lines = ["zoneset name large vsan 1"]
        for zone in range(zones):
            lines.append(f"  zone name zone_{zone} vsan 1")
            lines += [f"  * fcid 0x{zone * members + it:06x} [pwwn {wwn(zone * members + it)}]" for it in range(members)]
        return "\n".join(lines) + "\n"

    def test_large(self) -> None:
        """1,000 zones with 4,000 members are read and written."""
        said = self.said("zones", "--quiet", "--from", self.file("large.txt", self.large(1000, 4)))
        self.assertEqual(sum(it.startswith("zone ") for it in said.splitlines()), 1000)
        self.assertEqual(len(pairs_of(said)), 6000)

    def test_limits(self) -> None:
        self.assertIn("1001 zones: a configuration has at most 1000", self.refused("zones", "--from", self.file("many.txt", self.large(1001, 2))))
        self.assertIn("20002 members of zones: a configuration has at most 20000", self.refused("zones", "--from", self.file("many.txt", self.large(73, 274))))


class Random(Base):
    """Random zonings in each form."""

    def check(self, made: Made, form: forms.Form, seed: int) -> None:
        rng = random.Random(seed)
        name = self.file("random.txt", forms.as_file(form(made, rng), rng))
        ran = self.call("zones", "--from", name)
        self.assertEqual(ran.returncode, 0, (form.__name__, seed, ran.stderr[-500:]))
        self.assertEqual(pairs_of(ran.stdout), made.pairs(), (form.__name__, seed))
        written = set(re.findall(r"(?:[0-9a-f]{2}:){7}[0-9a-f]{2}", ran.stdout + ran.stderr))
        self.assertLessEqual(made.wwpns, written, (form.__name__, seed))

    def test_forms(self) -> None:
        """Each form of a random zoning is read to the reach that it was made of, and each WWPN of it is in a line or in a remark."""
        for seed in range(60):
            for roles, some in (("",), forms.PLAIN), (("init", "target", "both"), forms.SMART), (("principal", "peer"), forms.PEERS):
                made = forms.drawn(seed, roles)
                for form in some:
                    self.check(made, form, seed)
