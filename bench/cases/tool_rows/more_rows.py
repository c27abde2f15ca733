"""More rows: each configuration key wrong in each way, outputs with one byte changed, captures in other forms, the demo, random bridges and nodes."""
import pathlib
import random
import re
import struct
import sys
from typing import Callable, Optional

TOP = pathlib.Path(__file__).resolve().parents[3]
sys.path.insert(0, str(TOP / "bench/cases"))
import drawn as drawing  # noqa: E402
import models  # noqa: E402
from captures import Fault, Forwarder, read  # noqa: E402

from .book import Book, records
from .common import ONE_PORT, inputs, untouched
from .worked import worked
from .worked_rows import ROWS, WORDS, outputs, stored

BASE = "fcf-mac 00:05:1e:00:00:02\nvlan 100\n"
A, B = "20:00:00:1b:21:00:00:0a", "20:00:00:1b:21:00:00:0b"
RANGES = {"domain": (1, 239), "pool": (1, 60000), "priority": (0, 255), "period": (250, 90000), "window": (10, 1000), "limit": (1, 1000)}


def _taken() -> list[str]:
    """Texts that are configurations."""
    rows = [BASE + f"{key} {value}\n" for key, ends in RANGES.items() for value in ends]
    rows += [f"vlan {value}\nfcf-mac 00:05:1e:00:00:02\n" for value in (1, 4094)]
    rows += [BASE + line for line in ("switch 10:00:00:05:1E:00:00:02\n", "fc-map 0e:fc:00\n", "fc-map 0e:fc:ff\n", "# a remark\n", "# \x80\n", "\n", f"zone z {A}\n")]
    rows += [BASE + f"zone z {A}\nzoneset s z\nactivate s 0\nactivate s 4294967295999\n", BASE.rstrip("\n"), BASE.replace("\n", "\r\n")]
    rows += [BASE.replace(" ", " \t  "), BASE + f"zone z {A} {A}\n"]
    return rows


def _refused() -> list[tuple[str, str]]:
    """Texts, and their first fault."""
    rows: list[tuple[str, str]] = []
    for key, (least, most) in {**RANGES, "vlan": (1, 4094)}.items():
        base, line = (BASE, 3) if key != "vlan" else ("fcf-mac 00:05:1e:00:00:02\n", 2)
        wrong = [str(most + 1), f"0{most}", f"+{most}", "-1", "x", "", f"{most} {most}", "18446744073709551616"] + ([str(least - 1)] if least else [])
        rows += [(base + f"{key} {value}".rstrip() + "\n", f"{line} value") for value in wrong]
        rows += [(base + f"{key} {most}\n{key} {most}\n", f"{line + 1} twice")]
    for mac in ("01:05:1e:00:00:02", "00:00:00:00:00:00", "00:05:1e:00:00", "00:05:1e:00:00:02:03", "00051e000002", "0:5:1e:0:0:2", "00-05-1e-00-00-02", ""):
        rows += [(f"fcf-mac {mac}".rstrip() + "\nvlan 100\n", "1 value")]
    rows += [("fcf-mac 00:05:1e:00:00:02\n" + BASE, "2 twice"), ("vlan 100\n", "2 missing"), ("fcf-mac 00:05:1e:00:00:02\n", "2 missing"), ("", "1 missing")]
    for name in ("10:00:00:05:1e:00:00", "1000:00:05:1e:00:00:02", "10:00:00:05:1e:00:00:02 x", ""):
        rows += [(BASE + f"switch {name}".rstrip() + "\n", "3 value")]
    rows += [(BASE + f"fc-map {value}".rstrip() + "\n", "3 value") for value in ("0e:fd:00", "0f:fc:00", "0e:fc", "0e:fc:00:00", "0efc00", "")]
    rows += [(BASE + text, line) for text, line in (("zone\n", "3 value"), ("zone z\n", "3 value"), ("zone z x\n", "3 value"), (f"zone z {A[:20]}\n", "3 value"))]
    rows += [(BASE + f"zone z {A}\nzone z {B}\n", "4 twice"), (BASE + "zoneset s\n", "3 value"), (BASE + "zoneset s z\n", "3 value")]
    rows += [(BASE + f"zone z {A}\nzoneset s z\nzoneset s z\n", "5 twice"), (BASE + f"zoneset s z\nzone z {A}\n", "3 value")]
    rows += [(BASE + "activate s 0\n", "3 value")]
    sets = BASE + f"zone z {A}\nzoneset s z\n"
    rows += [(sets + f"activate {text}\n", "5 value") for text in ("s", "s 4294967296000", "s 00", "s x", "t 0", "s 0 0")]
    rows += [(sets + "activate s 5\nactivate s 5\n", "6 value"), (sets + "activate s 5\nactivate s 4\n", "6 value")]
    rows += [(BASE + f"{key} x\n", "3 key") for key in ("Vlan", "vlans", "fcf", "x", "zone-set", "=")]
    rows += [(BASE + "\x01\n", "3 ascii"), ("fcf-mac\x0b00:05:1e:00:00:02\nvlan 100\n", "1 ascii"), (BASE + "vlan 100\r\r\n", "3 ascii")]
    rows += [("x\nvlan 0\nvlan 0\n", "1 key"), ("vlan 0\nx\n", "1 value"), ("vlan 1\nvlan 0\nx\n", "2 twice"), ("x \x7f\n", "1 ascii")]
    return rows


def configurations(book: Book) -> None:
    book.title("run: configurations that are taken, and each key wrong in each way")
    for text in _taken():
        book.case("faults_of_the_configuration", "taken")
        inputs(book, config=text.encode("latin-1"), one="head")
        book.run(ONE_PORT, "frames 0 entries 0\n", 0)
    fixed = {BASE + "activate s 0\n": "activation_of_an_unknown_set", "fcf-mac 00:05:1e:00:00:02\nvlan 4095\n": "vlan_out_of_range"}
    fixed |= {"vlan 100\n": "required_key_missing", "fcf-mac 00:05:1e:00:00:02\n" + BASE: "key_given_twice"}
    for text, line in _refused():
        book.case(fixed.get(text, "faults_of_the_configuration"), "refused")
        inputs(book, config=text.encode("latin-1"))
        book.run(ONE_PORT, f"config {line}\n", 1)
        untouched(book)


def changed_outputs(book: Book) -> None:
    book.title("replay of the worked journals over outputs of which one byte is changed: the place is told")
    for name, ports, texts, _ in ROWS:
        made = worked(*texts)
        left = {file: data for file, data in outputs(made, ports).items() if data is not None}
        stored(book, made, ports, J=left["J"])
        for port, file in enumerate("XYZ"[:ports], 1):
            data = left[file]
            whole = book.names.get(data) or book.file(f"left-{file.lower()}", data)
            for place in sorted({0, 24, (24 + len(data)) // 2, len(data) - 1} & set(range(len(data)))):
                book.case("output_changed_in_its_last_byte", f"{name}, byte {place} of {len(data)} of the output of port {port}")
                other = book.changed("changed-output", whole, {place: data[place] ^ 0x20})
                stored(book, made, ports, J=left["J"], **{it: left[it] for it in "XYZ"[:ports] if it != file}, **{file: other})
                book.run(["replay"] + WORDS[ports], f"output {port} {place}\n", 1)


FORMS = {"microseconds, big end first": (">", 0xA1B2C3D4, 1), "nanoseconds": ("<", 0xA1B23C4D, 1000), "nanoseconds, big end first": (">", 0xA1B23C4D, 1000)}


def forms(book: Book) -> None:
    book.title("run over captures of the other forms: what is left is the same")
    for name, ports, texts, _ in ROWS:
        made = worked(*texts)
        if len(made.frames) > 12 or any(len(it.data) > 400 for it in made.frames):
            continue
        for form, (order, magic, unit) in FORMS.items():
            files = {}
            for port, file in enumerate("ABC"[:ports], 1):
                files[file] = struct.pack(order + "IHHIIII", magic, 2, 4, 0, 0, 65535, 1)
                for seconds, micros, frame in records(made.came(port)) or []:
                    files[file] += struct.pack(order + "IIII", seconds, micros * unit, len(frame), len(frame)) + frame
            book.case("big_endian_nanoseconds", f"{name}, {form}")
            book.given(K=made.config.encode(), **files)
            book.run(["run"] + WORDS[ports], made.line, 0)
            book.see(**outputs(made, ports))


def _journal(made: int) -> Callable[[Optional[bytes]], bool]:
    """Whether a file is a journal of format 2 with so many frames, whose clock doesn't go back."""

    def fits(data: Optional[bytes]) -> bool:
        lines = (data or b"").decode().splitlines()
        clocks = [int(line.split(" ")[0]) for line in lines[1:]]
        frames = [line for line in lines[1:] if line.split(" ")[1] != "tick"]
        return lines[:1] == ["journal 2"] and len(frames) == made and clocks == sorted(clocks)

    return fits


def demo(book: Book) -> None:
    book.title("the demo's captures: one port at a time, and both")
    folder = TOP / "demo"
    book.file("fabric", (folder / "fabric.conf").read_bytes())
    counts = {}
    for name in ("target", "initiator"):
        book.file(name, (folder / f"{name}.pcap").read_bytes())
        counts[name] = len(read(folder / f"{name}.pcap"))
    for ports in (["target"], ["initiator"], ["target", "initiator"]):
        count = sum(counts[name] for name in ports)
        words = ["K", "J"] + [word for port in range(len(ports)) for word in (f"IN{port + 1}", f"OUT{port + 1}")]
        book.case("demo", " and ".join(ports))
        book.given(K="fabric", **{f"IN{port}": name for port, name in enumerate(ports, 1)})
        book.run_told(["run"] + words, lambda said, status, count=count: status == 0 and re.fullmatch(rb"frames %d entries \d+\n" % count, said) is not None)  # type: ignore[misc]
        book.see_told("J", _journal(count))
        for port in range(len(ports)):
            book.see_told(f"OUT{port + 1}", lambda data: records(data or b"") is not None)
        book.run_told(["replay"] + words, lambda said, status: status == 0 and re.fullmatch(rb"legal \d+\n", said) is not None)
        book.run_told(["show", "K", "J"] + words[2::2], lambda said, status: status == 0 and said.startswith(b"entries "))


def drawn(book: Book, bridges: int, nodes: int) -> None:
    """Bridges and nodes of random captures, with what the models say."""
    drawn_bridges(book, bridges)
    drawn_nodes(book, nodes)


def drawn_bridges(book: Book, bridges: int) -> None:
    book.title("snoop over drawn captures: the answers are those of a model")
    for seed in range(bridges):
        dice = random.Random(seed)
        bridged = drawing.Bridged(dice)
        files = {f"I{port}": file for port, file in enumerate(bridged.files(dice), 1)}
        names = [f"O{port}" for port in range(1, len(files) + 1)]
        said = dict(line.split() for line in bridged.configuration().splitlines())
        mac, fc_map = (bytes.fromhex(said[key].replace(":", "")) for key in ("fcf-mac", "fc-map"))
        forwarder = Forwarder(mac, int(said["vlan"]), fc_map, 100)
        book.case("drawn_bridge", f"seed {seed}")
        book.given(K=bridged.configuration().encode(), **files)
        words = ["snoop", "K"] + [word for pair in zip(files, names) for word in pair]
        try:
            line, left = models.snoop(forwarder, list(files.values()))
            book.run(words, f"{line}\n", 0)
            book.see(**dict(zip(names, left)))
        except Fault as why:
            book.run(words, f"{why.line}\n", why.status)
            book.see(**{name: None for name in names})


def drawn_nodes(book: Book, nodes: int) -> None:
    book.title("enode over drawn captures: the answers are those of a model")
    for seed in range(nodes):
        dice = random.Random(seed)
        played = drawing.Played(dice)
        file = drawing.capture(dice, played.records)
        book.case("drawn_node", f"seed {seed}")
        book.given(IN=file)
        words = ["enode", str(played.start), played.mac.hex(":"), played.name.hex(":"), played.node.hex(":"), "IN", "OUT"]
        try:
            line, sent = models.enode(played.start, played.mac, played.name, played.node, file)
            book.run(words, f"{line}\n", 0)
            if len(sent) > 20_000:
                book.sum(OUT=sent)
            else:
                book.see(OUT=sent)
        except Fault as why:
            book.run(words, f"{why.line}\n", why.status)
            book.see(OUT=None)


def all_rows(book: Book) -> None:
    configurations(book)
    changed_outputs(book)
    forms(book)
    demo(book)
    drawn(book, 12, 24)
