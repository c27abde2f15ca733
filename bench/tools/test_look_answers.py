"""What tools/look says first of captures of logins that fail (look_failures.py)."""
import json
import pathlib
import subprocess
import tempfile
import unittest
from dataclasses import replace
from typing import Any, ClassVar

import look_failures
from machine import TOOLS, TOP, program

LOOK = TOOLS / "look"
A, B = "20:00:00:1b:21:00:00:0a", "20:00:00:1b:21:00:00:0b"
FIRST = {  # severity, port, name, and what the first answer says
    "no_fip": ("failed", 1, A, "asked for VLANs twice, nobody answered: FIP doesn't reach the switch"),
    "untagged": ("failed", 1, A, "sends FCoE without a tag"),
    "vlan200": ("failed", 1, A, "sends in VLAN 200, the switch advertises in 100"),
    "vn2vn": ("failed", 1, "the host 00:1b:21:00:00:0a", "is in VN2VN mode"),
    "no_jumbo": ("failed", 1, "the host 00:1b:21:00:00:0a", "solicited, was advertised to, sent no FLOGI: look whether 2,158 bytes come through"),
    "no_answer_padded": ("failed", 1, "the host 00:1b:21:00:00:0a", "the answer to it doesn't: look whether 2,158 bytes come through"),
    "limit": ("failed", 2, B, "got no login: the switch rejected 12 FLOGIs, 09 29 (insufficient resources)"),
    "name_held": ("failed", 2, A, "got no login: the switch rejected 1 FLOGI, 03 00 (logical error)"),
    "name_elsewhere": ("failed", 1, A, "got no login: the switch rejected 1 FLOGI, 03 00 (logical error); a right switch would grant it"),
    "short_period": ("lost", None, None, "the switch advertises a period of 250 ms, and Linux heeds none below 500 ms: 1 login fell silent by it"),
    "silence": ("lost", 1, A, "fell silent: no keep alive of its ENode for 40.0 s, up to the end of the captures"),
    "relogin": ("lost", 1, A, "logged in again 3 times without a LOGO"),
    "unheard": ("failed", 1, A, "sent 3 FLOGIs to 00:05:1e:00:00:02, the switch answered none"),
    "unused": ("failed", 1, A, "was granted 650100 6 times and never used it"),
    "busy": ("failed", 1, "20:00:00:1b:21:00:00:0c", "got no login: the switch rejected 5 FDISCs, 05 00 (logical busy); a right switch would grant it"),
    "watched": ("failed", 2, B, "got no login: the switch rejected 3 FLOGIs, 05 00 (logical busy); a right switch would grant it"),
    "own_mac": ("dropped", 1, None, "sent from the ENode's MAC 00:1b:21:00:00:0a (as with SPMA), not from the granted 0e:fc:00:65:01:00 (FPMA)"),
    "no_server": ("different", 1, A, "the switch left 4 PLOGIs to name server (fffffc) unanswered; a right switch would answer LS_ACC"),
    "cloned": ("failed", 2, A, "two hosts use this port name at once: 00:1b:21:00:00:0a on port 1, and from 23:03:17.505 on 00:1b:21:00:00:1a on port 2"),
    "sends_on": ("lost", 1, A, "fell silent: no keep alive of its ENode for 20.0 s"),
    "not_zoned": ("dropped", 1, None, f"1 frame from {A} to {B} dropped: no active zone joins the two"),
    "other_map": ("dropped", 1, None, "sent from 0e:fc:00:2a:01:00, with the FC-MAP 0e:fc:00; the switch's is 0e:fc:05, and it granted 0e:fc:05:2a:01:00; the real switch answered none of the"),
    "other_fabric": ("failed", 1, A, "got no login: two switches of different fabrics advertise in VLAN 100; the host logs in to 00:05:1e:00:00:02 (priority 128), which rejected 6 FLOGIs, 09 0d (invalid port name), and never tried 00:0d:ec:00:00:09"),
    "lost_keep_alives": ("lost", 1, A, "the switch cleared its login 3 times, first 20.0 s after its accept (2.5 periods of 8000 ms), as if it heard no keep alive: 6 keep alives of the host stand in this capture before that, well formed"),
    "receive_size": ("failed", 1, A, "got no login: the switch rejected 3 FLOGIs, 03 07 (service parameters: receive size)"),
    "virtual_limit": ("failed", 1, "20:00:00:1b:21:00:00:24", "got no login: the switch rejected 1 FDISC, 09 29 (insufficient resources); it grants 4 logins here (1 FLOGI + 3 FDISCs)"),
    "not_available": ("failed", 1, "the host 00:1b:21:00:00:0a", "was advertised to without the flag A (available for login), sent no FLOGI"),
}


class Base(unittest.TestCase):
    """The folder of captures, made once."""

    room: ClassVar["tempfile.TemporaryDirectory[str]"]
    folder: ClassVar[pathlib.Path]
    files: ClassVar[dict[str, list[str]]]

    @classmethod
    def setUpClass(cls) -> None:
        program()
        cls.room = tempfile.TemporaryDirectory()  # pylint: disable=consider-using-with
        cls.folder = pathlib.Path(cls.room.name)
        cls.files = look_failures.make_failures(cls.folder)

    @classmethod
    def tearDownClass(cls) -> None:
        cls.room.cleanup()

    def call(self, *words: str) -> str:
        ran = subprocess.run([str(LOOK), *words], cwd=self.folder, capture_output=True, text=True, check=False)
        self.assertEqual(ran.returncode, 0, f"look {' '.join(words)}: {ran.stdout[-400:]}{ran.stderr[-400:]}")
        return ran.stdout

    def json(self, command: str, *words: str) -> Any:
        return json.loads(self.call(command, "--json", "--quiet", *words))


class Answers(Base):
    """What stands on top."""

    def test_first(self) -> None:
        """Each failure's reason is the first answer, with its host, port and a next step."""
        self.assertEqual(set(FIRST), set(self.files))
        for name, (severity, port, wwpn, text) in FIRST.items():
            with self.subTest(name):
                rows = self.json("answers", *self.files[name])
                first = rows[0]
                self.assertEqual((first["severity"], first["port"], first["wwpn"]), (severity, port, wwpn), rows)
                self.assertIn(text, first["text"])
                self.assertTrue(first["next"])
                self.assertLessEqual(first["from"], first["to"])
                self.assertFalse([it for it in rows[1:] if it["severity"] in ("failed", "different")], rows)

    def test_text(self) -> None:
        """The page begins with it."""
        lines = self.call("--quiet", *self.files["no_fip"]).splitlines()
        self.assertEqual(lines[0], "Answer")
        self.assertTrue(lines[1].startswith(f"  {A} (port 1): asked for VLANs twice, nobody answered: FIP doesn't reach the switch"))

    def test_holder(self) -> None:
        """A reject of a name says which login holds it, by the switch's own address, and when that ends."""
        said = self.json("answers", *self.files["name_held"])[0]["next"]
        self.assertIn("the name is held by 650100 on port 1 (ENode 00:1b:21:00:00:0a", said)
        self.assertIn("or by silence at 23:03:25.508", said)
        self.assertIn("it is on a port that wasn't captured", self.json("answers", *self.files["name_elsewhere"])[0]["next"])

    def test_fallback(self) -> None:
        """FLOGIs in FCoE to the service's MAC make nobody a switch."""
        found = self.json("summary", *self.files["no_fip"])
        self.assertEqual([(it["hosts"], it["switch"]) for it in found["ports"]], [(19, 0)])
        self.assertEqual(found["answers"][0]["followers"], ["16 FLOGIs in FCoE, without FIP: what Linux sends where FIP isn't answered"])
        for words in (["--fcf", "00:05:1e:00:00:02"], ["--config", str(TOP / "demo" / "fabric.conf")]):
            self.assertEqual(self.json("answers", *words, *self.files["no_fip"])[0]["text"], found["answers"][0]["text"])


    def test_derived(self) -> None:
        """The switch's own answers tell its limit and its zones: the run then goes as the fabric did, and that is said."""
        found = self.json("summary", *self.files["limit"])
        self.assertIn("limit 1, since the switch rejected the second login with 09 29 (insufficient resources)", found["assumed"])
        self.assertEqual(found["verdicts"]["2"], {"rejected 09 29": 12, "vlans": 1, "advertised": 1})
        self.assertNotIn("different", found["comparison"]["totals"])
        self.assertEqual([(it["switch"], it["switch_fcid"]) for it in found["logins"]], [("granted 650100", "650100")])
        self.assertEqual({(it["verdict"], it["switch"]) for it in found["rejected_logins"]}, {("rejected 09 29", "rejected 09 29")})
        said = self.json("summary", *self.files["not_zoned"])
        self.assertIn(f"zones: {A} and {B} are apart, since the switch's answer to GPN_FT of 010100 doesn't list it", said["assumed"])
        self.assertEqual([it["verdict"] for it in said["troubles"]], ["dropped zone"])
        self.assertNotIn("different", said["comparison"]["totals"])
        given = self.json("summary", "--zone", f"both {A} {B}", *self.files["not_zoned"])
        self.assertEqual([it["zone"] for it in given["zones"]["zones"]], ["both"])
        (self.folder / "switch.txt").write_text(f"zoneset name day vsan 1\n  zone name both vsan 1\n    pwwn {A}\n    pwwn {B}\n")
        given = self.json("summary", "--zoning", "switch.txt", *self.files["not_zoned"])
        self.assertEqual([it["zone"] for it in given["zones"]["zones"]], ["both"])
        self.assertFalse([it for it in given["assumed"] if it.startswith("zones: ")], given["assumed"])
        self.assertFalse([it for it in given["answers"] if it["text"].startswith("zones: ")], given["answers"])

    def test_followers(self) -> None:
        """What this forwarder tells of a login that the switch rejected stands under it as one line, and is no difference of its own."""
        line = "6 RSCNs and 1 clear link message follow from it"
        found = self.json("summary", *self.files["watched"])
        self.assertEqual([(it["severity"], it["followers"]) for it in found["answers"]], [("failed", [line])])
        states = {(it["request"].split(" to ")[0], it["state"]) for it in found["comparison"]["answers"] if it["state"] in ("follows", "different")}
        self.assertEqual(states, {("FLOGI", "different"), ("RSCN", "follows"), ("Clear links", "follows")})
        self.assertEqual((found["comparison"]["totals"]["different"], found["comparison"]["totals"]["follows"]), (3, 7))
        text = self.call("compare", "--quiet", *self.files["watched"])
        self.assertEqual((text.count(line), text.count("RSCN to")), (1, 0))

    def test_consequences(self) -> None:
        """What comes of a failure is no answer beside it."""
        self.assertEqual([it["severity"] for it in self.json("answers", *self.files["sends_on"])], ["lost"])
        texts = [it["text"] for it in self.json("answers", *self.files["cloned"])]
        self.assertEqual(texts[1:], ["2 frames from 660100 to fffffc: the switch granted 660100, which a right switch wouldn't"])

    def test_fabrics(self) -> None:
        """Where switches of several fabrics advertise themselves in one VLAN, the first step is which of them is the host's own, whichever is looked at."""
        first, *rest = self.json("answers", *self.files["other_fabric"])
        self.assertTrue(first["next"].startswith("if 00:0d:ec:00:00:09 is its own: part the VLANs, or set the priorities (a host takes the lowest value); only if 00:05:1e:00:00:02 is: the port name"), first)
        self.assertIn("00:05:1e:00:00:02 is of fabric 10:00:00:05:1e:00:00:02, 00:0d:ec:00:00:09 is of fabric", first["followers"][0])
        self.assertFalse([it for it in rest if "advertise" in it["text"]], rest)
        other = self.json("answers", "--fcf", "00:0d:ec:00:00:09", *self.files["other_fabric"])[0]
        self.assertIn("sent 6 FLOGIs to 00:05:1e:00:00:02 and none to this switch: two switches of different fabrics advertise in VLAN 100", other["text"])
        self.assertIn("`--fcf 00:05:1e:00:00:02` has what the other answered", other["next"])
        self.assertNotIn("bridge", other["next"])

    def test_room(self) -> None:
        """Logins on one port for which the switch has no room are one answer: how many it grants, who comes too late, and no step that the page rules out."""
        found = self.json("summary", *self.files["virtual_limit"])
        self.assertNotIn("whether", found["answers"][0]["next"])
        self.assertEqual([it["look"] for it in found["troubles"] if it["verdict"] == "rejected 09 29"], [found["answers"][0]["next"]])
        self.assertFalse([it for it in found["answers"] if it["text"].startswith("limit ")])
        wire = look_failures.Wire()
        wire.log_in(look_failures.A, 1, 0x010100)
        for number, late in enumerate((0x31, 0x32), 2):
            wire.wait(2)
            wire.flogi(look_failures.A, number, 8, look_failures.Host(late).name)
            wire.reject(look_failures.A, number, 0x09, 0x29, 8)
        look_failures.write_classic(str(self.folder / "room.pcap"), wire.records)
        text = self.call("--quiet", "room.pcap")
        self.assertIn("port 1: the switch grants 1 login here (1 FLOGI); 20:00:00:1b:21:00:00:31 and 20:00:00:1b:21:00:00:32 come too late: it rejected 2 FDISCs", text)
        self.assertEqual(text.count("whether the port takes NPIV"), 1)

    def test_sizes(self) -> None:
        """A reject of the receive size says which it is, and what it wants."""
        self.assertIn("the host's receive size is 1424: 2112 bytes of payload want an MTU of 2,500", self.json("answers", *self.files["receive_size"])[0]["next"])
        wire = look_failures.Wire()
        wire.discover(look_failures.A)
        wire.flogi(look_failures.A, 1)
        wire.reject(look_failures.A, 1, 0x03, 0x07)
        login = next(at for at, it in enumerate(wire.records) if it.data[12:14] == b"\x81\0" and len(it.data) > 150 and it.data[6:12] == look_failures.A.mac)
        own = wire.records[login]
        at = own.data.index(look_failures.A.name) - 20 + 74  # of class 3, in the payload
        wire.records[login] = replace(own, data=own.data[:at] + (1424).to_bytes(2, "big") + own.data[at + 2 :])
        look_failures.write_classic(str(self.folder / "class3.pcap"), wire.records)
        self.assertIn("the host's receive size of class 3 is 1424, the common one 2112: 2112 bytes of payload want", self.json("answers", "class3.pcap")[0]["next"])

    def test_cleared(self) -> None:
        """A login that the switch clears long after its accept isn't said to be lost by its keep alives."""
        wire = look_failures.Wire()
        wire.log_in(look_failures.A, 1, 0x010100)
        wire.stay(look_failures.A, 80)
        wire.wait(1)
        wire.clear(look_failures.A)
        wire.idle(8)
        look_failures.write_classic(str(self.folder / "cleared.pcap"), wire.records)
        first = self.json("answers", "cleared.pcap")[0]
        self.assertIn("the switch cleared its login once, 81.0 s after its accept (10.1 periods of 8000 ms), though the host's keep alives stand in this capture up to 1.0 s before", first["text"])
        self.assertIn("whether they reach the switch", first["next"])

    def test_alike(self) -> None:
        """The same of more than three hosts is one answer, with the hosts under it."""
        files = []
        for number in range(5):
            wire, host = look_failures.Wire(), look_failures.Host(0x30 + number)
            wire.discover(host)
            for turn in range(1 + number // 4):
                wire.wait(2)
                wire.flogi(host, turn + 1)
            files.append(f"alike{number}.pcap")
            look_failures.write_classic(str(self.folder / files[-1]), wire.records)
        rows = [it for it in self.json("answers", *files) if it["severity"] != "noted"]
        self.assertEqual([(it["severity"], it["port"], it["count"], len(it["followers"])) for it in rows], [("failed", None, 6, 5)])
        self.assertTrue(rows[0]["text"].startswith("5 hosts alike; the first, 20:00:00:1b:21:00:00:30 on port 1: sent 1 FLOGI to 00:05:1e:00:00:02"), rows)
        self.assertEqual(rows[0]["followers"][4], "20:00:00:1b:21:00:00:34 (port 5): sent 2 FLOGIs to 00:05:1e:00:00:02, the switch answered none")

    def test_many(self) -> None:
        """Drops of one rule between many ends are one answer, with each pair under it."""
        wire = look_failures.Wire()
        wire.log_in(look_failures.A, 1, 0x010100)
        for number in range(5):
            wire.service(0x010100, 0x020001 + number, 1, 0x20 + number, look_failures.A.login(3))
        look_failures.write_classic(str(self.folder / "many.pcap"), wire.records)
        rows = [it for it in self.json("answers", "many.pcap") if it["count"]]
        self.assertEqual([it["text"] for it in rows], ["5 frames to 5 addresses outside these captures dropped by dest-login"])
        self.assertEqual((rows[0]["severity"], rows[0]["count"], len(rows[0]["followers"])), ("noted", 5, 5))

    def test_logins(self) -> None:
        """The switch's verdict stands beside this forwarder's, rejects that are alike as one line."""
        lines = self.call("logins", "--quiet", *self.files["limit"]).splitlines()
        self.assertRegex(lines[1], r"1 +20:00:00:1b:21:00:00:0a  FLOGI +granted 650100 +granted 010100 ")
        self.assertRegex(lines[2], r"2 +20:00:00:1b:21:00:00:0b  FLOGI ×12 +rejected 09 29 \(insufficient resources\) +rejected 09 29 \(insufficient resources\) ")
        self.assertEqual(len(lines), 3)

    def test_why(self) -> None:
        """A frame's page has the switch's answer, and that of the answer tells its request."""
        for frame in ("5", "6"):
            lines = self.call("why", "--quiet", "2", frame, *self.files["name_held"]).splitlines()
            self.assertEqual(lines[1], "the switch: rejected 03 00 (logical error) (frame 6)")
            self.assertTrue(any(it.startswith("  the name is held by 650100 on port 1") for it in lines), lines)

    def test_single(self) -> None:
        """Of one host's capture addresses are those that Wireshark shows, with the run's behind them."""
        rows = self.json("answers", str(TOP / "demo" / "initiator.pcap"))
        self.assertTrue(any("to 010100 (ee0100 in the run), which isn't in these captures" in it["text"] for it in rows), rows)

    def test_fields(self) -> None:
        """A host's messages beside `enode`'s: where they differ, with the rule."""
        rows = self.json("fields", str(TOP / "demo" / "initiator.pcap"))
        self.assertEqual([(it["message"], it["count"]) for it in rows], [("VLAN request", 1), ("Solicitation", 2), ("FLOGI", 2), ("Keep alive", 11)])
        login = [(it["field"], it["host"][:4], it["enode"][:4], it["rule"][:7]) for it in rows[2]["differences"]]
        self.assertEqual(login, [("FLOGI descriptor: credit", "000a", "0000", "FC-BB-5"), ("FLOGI descriptor: class 3", "8800", "8000", "FC-LS-2")])
