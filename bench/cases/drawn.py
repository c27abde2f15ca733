"""Random captures for `snoop` and `enode`, and what the models of bench/cases/models.py say of them.

A seed makes one bridge and one node: frames of FIP and FCoE that fit together, some of them changed in a byte, a length, a tag or a MAC; equal moments on
several ports and moments that go back; captures of both byte orders and units; and now and then a capture that can't be taken. Besides there are words that
are a command's and words that aren't. The printed line, the status and each output must be those of the model, byte for byte; of a disagreement the
captures are cut down to the fewest records that still disagree, and kept.
"""
import pathlib
import random
import shutil
import struct
import subprocess
import zlib
from collections import Counter
from typing import Callable, Optional

import models
import wire
from captures import MAGICS, Fault, Forwarder, Record, records_of
from models import ALL_ENODES, ALL_FCFS, ethernet, fip
from wire import descriptor

Dice = random.Random
Tag = Optional[int]
Made = tuple[int, bytes, int]  # moment, frame, original length
Words = tuple[int, bytes, bytes, bytes]  # a node's start, MAC, port name and node name
Ended = tuple[int, str, list[Optional[bytes]]]  # status, line and outputs

# ---- frames


def name(dice: Dice) -> bytes:
    return bytes([dice.choice([0x20, 0x21, 0x10])]) + dice.randbytes(7)


def mac_descriptor(mac: bytes) -> bytes:
    return descriptor(2, mac)


def named(data: bytes) -> bytes:
    return descriptor(4, b"\0\0" + data)


def listed_port(mac: bytes, address: int, port_name: bytes) -> bytes:
    return descriptor(11, mac + b"\0" + address.to_bytes(3, "big") + port_name)


def fc(r_ctl: int, d_id: int, s_id: int, kind: int, ox_id: int, payload: bytes) -> bytes:
    return wire.fc(wire.Head(r_ctl, d_id, s_id, kind, wire.REPLY, ox_id), payload)


def data_frame(dice: Dice, dst: bytes, src: bytes, vlan: int, d_id: int, s_id: int) -> bytes:
    frame = fc(6, d_id, s_id, 8, dice.randrange(65536), dice.randbytes(4 * dice.choice([0, 0, 1, 8, 528])))
    check = struct.pack("<I", zlib.crc32(frame))
    eof = bytes([dice.choice([0x41, 0x42, 0x42, 0x42, 0x49, 0x50])])
    sof = bytes([dice.choice([0x2E, 0x2E, 0x2E, 0x36, 0x2D, 0x35, 0x28])])
    return dst + src + b"\x81\x00" + struct.pack(">H", vlan) + b"\x89\x06" + bytes(13) + sof + frame + check + eof + bytes(3)


def accept_load(dice: Dice) -> bytes:
    return b"\2\0\0\0" + dice.randbytes(dice.choice([112, 112, 112, 112, 112, 116, 108, 0, 4]))


def reply(
    dice: Dice, dst: bytes, src: bytes, vlan: Tag, kind: int, address: int, mac: Optional[bytes], ox_id: int = 1, usual: float = 0.9
) -> bytes:
    """A login reply of this kind to an address with this MAC, or none."""
    load = accept_load(dice) if kind != 9 else b"\2\0\0\0" + bytes(dice.choice([0, 0, 0, 0, 108, 112]))
    if dice.random() > usual:
        load = dice.choice([b"\1\0\0\0\0\3\0\0", b"", dice.randbytes(116), b"\2" + dice.randbytes(115)])
    frame = fc(dice.choice([0x23] * 9 + [0x22]), address, 0xFFFFFE, dice.choice([1] * 9 + [8]), ox_id, load)
    listed = [descriptor(kind, b"\0\0" + frame)] + ([mac_descriptor(mac)] if mac else [])
    if dice.random() < 0.2:
        listed.reverse()
    return ethernet(dst, src, vlan, fip(2, 2, 0x8000, *listed))


def advertisement(
    dice: Dice, dst: bytes, src: bytes, vlan: Tag, fc_map: bytes, usual: float = 0.9, period: Optional[int] = None
) -> bytes:
    """An advertisement, now and then with one thing that isn't as a node wants it."""
    flags, quiet, mac = 0x8007 if dst != ALL_ENODES else 0x8005, 0, src
    period = period or dice.choice([250, 251, 1000, 8000, 8001, 90000])
    if dice.random() > usual:
        what = dice.randrange(4)
        flags = dice.choice([flags ^ bit for bit in (0x8000, 4, 2, 1, 0x4000)]) if what == 0 else flags
        quiet = dice.choice([1, 2, 255]) if what == 1 else quiet
        period = dice.choice([0, 249, 90001, 2**32 - 1]) if what == 2 else period
        mac = dice.randbytes(6) if what == 3 else mac
    listed = [
        descriptor(1, b"\0\x80"),
        mac_descriptor(mac),
        named(name(dice)),
        descriptor(5, b"\0\0\0" + fc_map + name(dice)),
        descriptor(12, bytes([0, quiet]) + struct.pack(">I", period)),
    ]
    return ethernet(dst, src, vlan, fip(1, 2, flags, *listed)) + bytes(dice.choice([0, 0, 0, 2100]))


def notification(dst: bytes, src: bytes, tag: Tag, numbers: list[int]) -> bytes:
    return ethernet(dst, src, tag, fip(4, 2, 0, mac_descriptor(src), *(descriptor(14, struct.pack(">H", it)) for it in numbers)))


def clear(dst: bytes, src: bytes, vlan: Tag, ports: list[tuple[bytes, int, bytes]]) -> bytes:
    return ethernet(dst, src, vlan, fip(3, 2, 0, mac_descriptor(src), named(bytes(8)), *(listed_port(*it) for it in ports)))


def login(dice: Dice, dst: bytes, src: bytes, vlan: Tag, kind: int) -> bytes:
    frame = fc(0x22, 0xFFFFFE, 0, 1, dice.randrange(65536), bytes([{7: 4, 8: 0x51, 9: 5}[kind]]) + dice.randbytes(115))
    return ethernet(dst, src, vlan, fip(2, 1, 0x8000, descriptor(kind, b"\0\0" + frame), mac_descriptor(bytes(6))))


def changed(dice: Dice, given: bytes, macs: list[bytes]) -> bytes:
    """The frame with one thing changed."""
    frame = bytearray(given)
    what = dice.randrange(9)
    if what == 0:
        frame[dice.randrange(len(frame))] ^= 1 << dice.randrange(8)
    elif what == 1:
        frame[dice.randrange(min(len(frame), 60))] = dice.choice([0, 1, 2, 7, 8, 9, 11, 100, 128, 200, 255])
    elif what == 2:
        del frame[dice.choice([dice.randrange(len(frame)), 13, 14, 16, 17, 18, 27, 28, len(frame) - 1, len(frame) - 4]) :]
    elif what == 3:
        frame += bytes(dice.choice([1, 2, 4, 4, 100]))
    elif what == 4 and frame[12:14] == b"\x81\x00":
        frame[14:16] = dice.choice([b"\0\0", b"\x60\0", b"\xff\xff", bytes([frame[14] | 0x60, frame[15]]), dice.randbytes(2)])
    elif what == 5 and frame[12:14] == b"\x81\x00":
        del frame[12:16]
    elif what == 6:
        frame[12:12] = b"\x81\x00" + dice.choice([b"\0\0", b"\x60\0", dice.randbytes(2)])
    elif what == 7:
        frame[:6] = dice.choice(macs)
    else:
        frame[6:12] = dice.choice(macs)
    return bytes(frame)


# ---- captures


def capture(dice: Dice, records: list[Made]) -> bytes:
    """The bytes of a capture of (moment, frame, original length), in some byte order and unit."""
    order, unit = MAGICS[magic := dice.choice(list(MAGICS) if dice.random() < 0.3 else [b"\xd4\xc3\xb2\xa1"])]
    figures = [dice.randrange(2**32) if dice.random() < 0.2 else it for it in (0, 0, 65535)]
    out = magic + struct.pack(order + "HHIIII", 2, 4, *figures, 1)
    for moment, frame, original in records:
        fraction = moment % 1000 * unit + dice.choice([0, unit - 1, dice.randrange(unit)])
        out += struct.pack(order + "IIII", moment // 1000, fraction, len(frame), original) + frame
    return out


def broken(dice: Dice, file: bytes) -> bytes:
    """A capture that perhaps can't be taken."""
    what = dice.randrange(6)
    if what == 0:
        return file[: dice.randrange(len(file) + 1)]
    if what == 1:
        return file[: dice.randrange(25)]
    if what == 2:
        return dice.randbytes(4) + file[4:]
    if what == 3:
        at = dice.choice([4, 5, 6, 7, 20, 21, 22, 23])
        return file[:at] + bytes([file[at] ^ 1]) + file[at + 1 :]
    if what == 4:
        return file + struct.pack("<IIII", 9, 0, dice.choice([65535, 65536, 2**31]), 1) + bytes(dice.choice([0, 65535]))
    return file + file[-3:]


def lengths(dice: Dice, frame: bytes) -> int:
    """The original length of a record: mostly that of the frame."""
    return dice.choice([len(frame)] * 19 + [len(frame) + 1]) if dice.random() < 0.5 else dice.choice([len(frame)] * 39 + [0])


# ---- a bridge


class Bridged:
    """A bridge's configuration and captures."""

    def __init__(self, dice: Dice) -> None:
        self.dice = dice
        self.fcf = bytes([dice.randrange(0, 256, 2)]) + dice.randbytes(4) + bytes([dice.randrange(1, 256)])
        self.vlan, self.fc_map = dice.choice([1, 100, 4094, dice.randrange(1, 4095)]), bytes([0x0E, 0xFC, dice.choice([0, 0, 255])])
        self.ports = dice.choice([2, 3, 3, 4, 5])
        self.nodes = [dice.randbytes(6) for _ in range(dice.choice([1, 2, 2, 3]))]
        self.addresses = dice.sample([0x010100, 0x010101, 0x010102, 0, 0xFFFFFF], dice.choice([1, 2, 2, 3]))
        self.captures: list[list[Made]] = [[] for _ in range(self.ports)]
        now = dice.choice([0, 1000, 1795734176489])
        if dice.random() < 0.7:
            for node in self.nodes:
                frame = ethernet(ALL_FCFS, node, None, fip(4, 1, 0, mac_descriptor(node)))
                self.captures[dice.randrange(1, self.ports)].append((now, frame, len(frame)))
        for _ in range(dice.choice([3, 10, 20, 30, 50])):
            now += dice.choice([0, 0, 0, 1, 1, 7, 250])
            port = 1 if dice.random() < 0.45 else dice.randrange(2, self.ports + 1)
            frame = self.down() if (port == 1) != (dice.random() < 0.03) else self.up()
            if dice.random() < 0.08:
                frame = changed(dice, frame, [self.fcf, ALL_ENODES, ALL_FCFS, *self.nodes, *map(self.granted, self.addresses)])
            back = dice.choice([0] * 15 + [1, 5, 300])
            self.captures[port - 1].append((max(0, now - back), frame, lengths(dice, frame)))
            if dice.random() < 0.06:
                now += 1
                self.probe(now)
        self.probe(now + 1)
        if dice.random() < 0.02:
            self.captures[-1].append((now + dice.choice([21_600_000 - 5, 21_600_000, 21_600_001]), b"\0" * 60, 60))

    def granted(self, address: int) -> bytes:
        return self.fc_map + address.to_bytes(3, "big")

    def probe(self, now: int) -> None:
        """Frames that show every binding and every home, and change none."""
        for address in self.addresses:
            for port in range(2, self.ports + 1):
                self.captures[port - 1].append((now, data_frame(self.dice, self.fcf, self.granted(address), self.vlan, 0x010101, address), 0))
            self.captures[0].append((now, data_frame(self.dice, self.granted(address), self.fcf, self.vlan, address, 0x010101), 0))
        for mac in [*self.nodes, *map(self.granted, self.addresses)]:
            self.captures[0].append((now, notification(mac, self.fcf, self.vlan, [self.vlan]), 0))

    def down(self) -> bytes:
        dice, node, address = self.dice, self.dice.choice(self.nodes), self.dice.choice(self.addresses)
        mac = self.granted(address) if dice.random() < 0.93 else dice.choice([None, self.granted(dice.choice(self.addresses)), dice.randbytes(6)])
        what = dice.randrange(12)
        if what < 4:
            dst = node if dice.random() < 0.95 else ALL_ENODES
            return reply(dice, dst, self.fcf, self.vlan, dice.choice([7, 7, 8, 8, 8]), address, mac)
        if what == 4:
            return reply(dice, node, self.fcf, self.vlan, 9, address, dice.choice([None, None, mac]))
        if what == 5:
            named_ones = [(self.granted(it), dice.choice([it, it, 5]), dice.randbytes(8)) for it in dice.sample(self.addresses, dice.randrange(len(self.addresses) + 1))]
            return clear(dice.choice([node, node, node, node, ALL_ENODES]), self.fcf, self.vlan, named_ones)
        if what == 6:
            return advertisement(dice, dice.choice([ALL_ENODES, node]), self.fcf, self.vlan, self.fc_map)
        if what == 7:
            return notification(node, self.fcf, dice.choice([None, self.vlan, 0]), [self.vlan])
        if what == 8:
            flags = dice.choice([0x8001, 0x8001, 0x8000])
            return ethernet(node, self.fcf, self.vlan, fip(1, 1, flags, mac_descriptor(self.fcf), named(bytes(8)), descriptor(6, b"\x08\x6e")))
        return data_frame(dice, self.granted(address), self.fcf, self.vlan, dice.choice([address] * 3 + self.addresses), dice.choice(self.addresses))

    def up(self) -> bytes:
        dice, node, address = self.dice, self.dice.choice(self.nodes), self.dice.choice(self.addresses)
        dst, what = dice.choice([self.fcf] * 6 + [ALL_FCFS] * 2 + [ALL_ENODES]), dice.randrange(10)
        if what == 0:
            return ethernet(dst, node, dice.choice([None, self.vlan, 0]), fip(4, 1, 0, mac_descriptor(node)))
        if what == 1:
            return ethernet(dst, node, self.vlan, fip(1, 1, dice.choice([0x8000] * 9 + [0x8001]), mac_descriptor(node), named(bytes(8)), descriptor(6, b"\x08\x6e")))
        if what < 4:
            return login(dice, dst, node, self.vlan, dice.choice([7, 7, 8, 9]))
        if what == 4:
            return ethernet(dst, node, self.vlan, fip(3, 1, 0, mac_descriptor(node)))
        if what == 5:
            vx, dst = dice.choice([address] * 9 + self.addresses), self.fcf if dice.random() < 0.9 else dst
            port = listed_port(self.granted(vx), vx if dice.random() < 0.9 else address, dice.randbytes(8))
            return ethernet(dst, self.granted(address), self.vlan, fip(3, 1, 0, mac_descriptor(node), port))
        source = self.granted(address) if dice.random() < 0.95 else node
        dst = self.fcf if dice.random() < 0.9 else dst
        return data_frame(dice, dst, source, self.vlan, 0x010101, dice.choice([address] * 3 + self.addresses))

    def configuration(self) -> str:
        return f"fcf-mac {self.fcf.hex(':')}\nvlan {self.vlan}\nfc-map {self.fc_map.hex(':')}\n"

    def files(self, dice: Dice) -> list[bytes]:
        made = [capture(dice, it) for it in self.captures]
        if dice.random() < 0.05:
            place = dice.randrange(self.ports)
            made[place] = broken(dice, made[place])
        return made


def try_bridge(program: str, room: pathlib.Path, configuration: str, files: list[bytes]) -> tuple[Ended, Ended]:
    """What the program and the model make of these captures: status, line and outputs."""
    text = configuration.splitlines()
    said = dict(line.split() for line in text)
    forwarder = Forwarder(bytes.fromhex(said["fcf-mac"].replace(":", "")), int(said["vlan"]), bytes.fromhex(said["fc-map"].replace(":", "")), 100)
    try:
        line, outs = models.snoop(forwarder, files)
        made: Ended = 0, line, list(outs)
    except Fault as why:
        made = why.status, why.line, [None] * len(files)
    (room / "conf").write_text(configuration)
    words = ["snoop", "conf"]
    for port, file in enumerate(files, 1):
        (room / f"in{port}").write_bytes(file)
        (room / f"out{port}").unlink(missing_ok=True)
        words += [f"in{port}", f"out{port}"]
    return ran(program, room, words, [f"out{port}" for port in range(1, len(files) + 1)]), made


def ran(program: str, room: pathlib.Path, words: list[str], outs: list[str]) -> Ended:
    job = subprocess.run([program, *words], cwd=room, capture_output=True, text=True, check=False)
    return job.returncode, job.stdout.rstrip("\n"), [(room / it).read_bytes() if (room / it).exists() else None for it in outs]


# ---- a node


class Played:
    """A node's words and the capture that it hears. The model tells which frames fit, so that it comes far."""

    def __init__(self, dice: Dice) -> None:
        self.dice = dice
        self.start = dice.choice([0, 1000, 1795734176489, dice.randrange(2**40)])
        self.mac, self.name, self.node = dice.randbytes(6), name(dice), name(dice)
        self.fcf, self.vlan, self.fc_map = dice.randbytes(6), dice.choice([1, 100, 4094]), b"\x0e\xfc" + dice.randbytes(1)
        self.records: list[Made] = []
        machine = models.Node(self.start, self.mac, self.name, self.node)
        self.usual = dice.choice([0.95, 0.9, 0.7])
        self.period = dice.choice([None, 250, 251, 8000])
        now = max(0, self.start - dice.choice([0, 0, 1, 500]))
        for _ in range(dice.choice([0, 2, 4, 6, 10, 20, 40])):
            now = max(now, self.moment(now, machine))
            frame = self.frame(machine)
            if dice.random() < 0.06:
                frame = changed(dice, frame, [self.mac, self.fcf, ALL_ENODES, dice.randbytes(6)])
            self.records.append((max(0, now - dice.choice([0] * 15 + [1, 50, 3000])), frame, lengths(dice, frame)))
            if now >= self.start:
                machine.until(now)
                _, _, original = self.records[-1]
                machine.frame(now, Record(now, frame, len(frame) >= original))
        if dice.random() < 0.02:
            self.records.append((self.start + dice.choice([21_600_000, 21_600_001]), bytes(60), 60))

    def moment(self, now: int, machine: models.Node) -> int:
        dice, due = self.dice, machine.next_due()
        far = dice.choice([due, due - 1, due + 1, due + 2500, now + 20_000, now + 100_000]) if dice.random() < 0.3 else now + dice.choice([0, 1, 3, 40, 400])
        return min(far, self.start + 21_000_000)

    def frame(self, machine: models.Node) -> bytes:
        """A frame that fits, or one that fits but for one thing."""
        dice = self.dice
        wrong = None if dice.random() < self.usual else dice.choice(["vlan", "to", "source", "own", "own"])
        phase = machine.phase if dice.random() < 0.85 else dice.choice(["asking", "looking", "logging", "up"])
        number = machine.vlan or self.vlan
        vlan: Tag = dice.choice([None, 0, number ^ 1]) if wrong == "vlan" else number
        to = dice.choice([ALL_ENODES, self.fcf]) if wrong == "to" else self.mac
        source = dice.randbytes(6) if wrong == "source" else self.fcf
        right = wrong != "own"
        if phase == "asking":
            numbers = [self.vlan] if right else [dice.choice([0, 4095, 0x1000, 0x6001, 1, 4094]) for _ in range(dice.randrange(4))]
            return notification(to, source, dice.choice([None, None, 0]) if wrong != "vlan" else self.vlan, numbers)
        if phase == "looking":
            return advertisement(dice, to, source, vlan, self.fc_map, 1 if right else 0, self.period)
        if phase == "logging":
            return self.accept(machine, to, source, vlan, right)
        return self.frame_while_up(machine, to, source, vlan)

    def accept(self, machine: models.Node, to: bytes, source: bytes, vlan: Tag, right: bool) -> bytes:
        dice = self.dice
        address, kind, ox_id = dice.choice([0x010100, 0x010101, 1, 0xFEFFFF]), 7, machine.ox_id
        mac, usual, what = None, self.usual, dice.randrange(5)
        if not right:
            address = dice.choice([0, 0xFF0000, 0xFFFFFE]) if what == 0 else address
            kind = dice.choice([8, 9]) if what == 1 else kind
            ox_id = dice.choice([ox_id - 1, ox_id + 1, 0]) % 65536 if what == 2 else ox_id
            usual = 0 if what == 3 else usual
            mac = dice.choice([b"", bytes(6), self.mac]) if what == 4 else mac
        mac = (machine.fc_map or self.fc_map) + address.to_bytes(3, "big") if mac is None else mac
        return reply(dice, to, source, vlan, kind, address, mac, ox_id, usual)

    def frame_while_up(self, machine: models.Node, to: bytes, source: bytes, vlan: Tag) -> bytes:
        dice, what = self.dice, self.dice.randrange(6)
        if what < 3:
            return advertisement(dice, dice.choice([ALL_ENODES, to]), source, vlan, self.fc_map, self.usual, self.period)
        if what == 3:
            mine = (machine.granted, machine.address, self.name)
            other = dice.choice([(machine.granted, machine.address, bytes(8)), (machine.granted, machine.address ^ 1, self.name), (bytes(6), machine.address, self.name)])
            return clear(to, source, vlan, dice.choice([[], [mine], [other], [other, mine]]))
        return login(dice, to, source, vlan, 7) if what == 4 else data_frame(dice, to, source, vlan or 0, 1, 2)


def try_node(program: str, room: pathlib.Path, words: Words, file: bytes) -> tuple[Ended, Ended]:
    start, mac, port_name, node = words
    try:
        line, out = models.enode(start, mac, port_name, node, file)
        made: Ended = 0, line, [out]
    except Fault as why:
        made = why.status, why.line, [None]
    (room / "in1").write_bytes(file)
    (room / "out1").unlink(missing_ok=True)
    return ran(program, room, ["enode", str(start), mac.hex(":"), port_name.hex(":"), node.hex(":"), "in1", "out1"], ["out1"]), made


# ---- comparing


def fewer(attempt: Callable[[list[list[Made]]], tuple[Ended, Ended]], captures: list[list[Made]]) -> list[list[Made]]:
    """The captures without each record that isn't needed for the disagreement."""
    again = True
    while again:
        again = False
        for port, records in enumerate(captures):
            for place in range(len(records) - 1, -1, -1):
                less = [it if at != port else it[:place] + it[place + 1 :] for at, it in enumerate(captures)]
                program, model = attempt(less)
                if program != model:
                    captures, records, again = less, less[port], True
    return captures


def told(seed: int, what: str, results: tuple[Ended, Ended], room: pathlib.Path, kept: pathlib.Path) -> None:
    """Says a disagreement, and keeps its files."""
    (status, line, outs), (made_status, made_line, made_outs) = results
    differ = [port for port, (a, b) in enumerate(zip(outs, made_outs), 1) if a != b]
    folder = kept / f"{what}-{seed}"
    shutil.rmtree(folder, ignore_errors=True)
    shutil.copytree(room, folder)
    for port, made in enumerate(made_outs, 1):
        if made is not None:
            (folder / f"model{port}").write_bytes(made)
    print(f"seed {seed}, {what}: the program {status} {line!r}, the model {made_status} {made_line!r}; outputs that differ: {differ or 'none'}; {folder}", flush=True)


def plain(records: list[Made]) -> bytes:
    """The bytes of a capture in one form, for a case that is cut down."""
    return capture(random.Random(0), records)


def one(program: str, room: pathlib.Path, kept: pathlib.Path, seed: int, seen: Counter[str]) -> int:
    """Compares over what one seed makes; answers how many disagree."""
    wrong = 0
    bridged = Bridged(random.Random(f"bridge {seed}"))
    files = bridged.files(random.Random(f"files {seed}"))
    results = try_bridge(program, room, bridged.configuration(), files)
    seen["bridge: " + (results[1][1].split(" ")[0])] += 1
    count_ways(bridged, files, seen)
    if results[0] != results[1]:
        wrong += 1
        less = fewer(lambda captures: try_bridge(program, room, bridged.configuration(), [plain(it) for it in captures]), bridged.captures)
        again = try_bridge(program, room, bridged.configuration(), [plain(it) for it in less])
        told(seed, "snoop", again if again[0] != again[1] else try_bridge(program, room, bridged.configuration(), files), room, kept)
    played = Played(random.Random(f"node {seed}"))
    words = (played.start, played.mac, played.name, played.node)
    dice = random.Random(f"file {seed}")
    file = capture(dice, played.records)
    file = broken(dice, file) if dice.random() < 0.05 else file
    results = try_node(program, room, words, file)
    seen["node: " + results[1][1].split(" ")[0]] += 1
    if results[0] != results[1]:
        wrong += 1
        less = fewer(lambda captures: try_node(program, room, words, plain(captures[0])), [played.records])
        again = try_node(program, room, words, plain(less[0]))
        told(seed, "enode", again if again[0] != again[1] else try_node(program, room, words, file), room, kept)
    return wrong


# ---- words

A = ["00:1b:21:00:00:0a", "20:00:00:1b:21:00:00:0a", "10:00:00:1b:21:00:00:0a"]
WORDS = "2 words"


def pairs(count: int) -> list[str]:
    return [word for port in range(count) for word in ("empty" if port == 0 else f"empty{port}", f"to{port}")]


# the words of a command, and its status and line
FAULTY_STARTS = ["4294967296000", "18446744073709551617", "01000", "+1", "-1", "1e3", "", " 1", "0x10"]
FAULTY_MACS = ["00:1b:21:00:00", A[0] + ":0b", "001b2100000a", "00:1b:21:00:00:0g", "0:1b:21:0:0:a", ""]
FAULTY_FILES: list[list[str]] = [["empty", "empty"], ["", "out"], ["empty", ""], ["empty"], ["empty", "out", "more"], []]
FAULTY_SIDES: list[list[str]] = [[], pairs(1), pairs(65), pairs(2)[:-1], [*pairs(2), "more"], ["empty", "out", "empty1", "out"]]
FAULTY_SIDES += [["empty", "out", "empty", "to1"], ["empty", "conf", "empty1", "to1"], ["empty", "", "empty1", "to1"]]
SAID: list[tuple[list[str], str]] = [
    (["enode", "0", *A, "empty", "out"], "0 asking"),
    (["enode", "4294967295999", *A, "empty", "out"], "0 asking"),
    (["enode", "1000", "00:1B:21:00:00:0A", *A[1:], "empty", "out"], "0 asking"),
    (["enode", "1000", "00:00:00:00:00:00", *A[1:], "empty", "out"], "0 asking"),
    (["enode", "1000", *A, "none", "out"], "3 read fault"),
    (["enode", "1000", *A, "empty", "none/out"], "4 write fault"),
    (["enode", "1000", *A, "conf", "out"], "1 capture 1 0 magic"),
    *((["enode", start, *A, "empty", "out"], WORDS) for start in FAULTY_STARTS),
    *((["enode", "1000", mac, *A[1:], "empty", "out"], WORDS) for mac in FAULTY_MACS),
    *((["enode", "1000", A[0], name, A[2], "empty", "out"], WORDS) for name in (A[0], A[1] + ":00", "2000001b2100000a")),
    *((["enode", "1000", *A[:2], name, "empty", "out"], WORDS) for name in (A[0], A[1][:-1])),
    *((["enode", "1000", *A, *names], WORDS) for names in FAULTY_FILES),
    (["snoop", "conf", *pairs(2)], "0 passed 0 dropped 0"),
    (["snoop", "conf", *pairs(64)], "0 passed 0 dropped 0"),
    (["snoop", "conf", "empty", "out", "none", "to1"], "3 read fault"),
    (["snoop", "none", *pairs(2)], "3 read fault"),
    (["snoop", "conf", "empty", "out", "empty1", "none/out"], "4 write fault"),
    (["snoop", "empty", "conf", "out", "empty1", "to1"], "1 config 1 ascii"),
    (["snoop", "conf", "cut", "out", "short", "to1"], "1 capture 1 24 cut"),
    (["snoop", "conf", "empty", "out", "short", "to1"], "1 capture 2 0 short"),
    *((["snoop", "conf", *names], WORDS) for names in FAULTY_SIDES),
    (["snoop"], WORDS),
    (["enode"], WORDS),
]


def try_words(program: str, room: pathlib.Path) -> int:
    """How many words end otherwise than they should, or, where they are refused, with an output."""
    wrong = 0
    (room / "conf").write_text("fcf-mac 00:05:1e:00:00:02\nvlan 100\n")
    for name in ["empty", *(f"empty{port}" for port in range(1, 65))]:
        (room / name).write_bytes(capture(random.Random(0), []))
    (room / "cut").write_bytes(capture(random.Random(0), []) + b"\0")
    (room / "short").write_bytes(b"\0")
    for words, want in SAID:
        (room / "out").unlink(missing_ok=True)
        status, line, (out,) = ran(program, room, words, ["out"])
        refused = want[0] not in "04"
        if f"{status} {line}" != want or refused and out is not None:
            wrong += 1
            print(f"{' '.join(words)[:120]}: {status} {line!r} {'with' if out is not None else 'without'} an output, and not {want!r}", flush=True)
    return wrong


def count_ways(bridged: Bridged, files: list[bytes], seen: Counter[str]) -> None:
    forwarder = Forwarder(bridged.fcf, bridged.vlan, bridged.fc_map, 100)
    try:
        captures = [records_of(it) for it in files]
    except Fault:
        return
    bridge = models.Bridge(forwarder)
    for port, _, caught in models.arrivals(captures):
        way = bridge.frame(port, caught)
        seen["way: " + (way[1] if way[0] == "dropped" else way[0])] += 1
