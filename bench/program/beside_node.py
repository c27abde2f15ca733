"""A node (`enode`) beside the demo's two hosts.

For each host a node with the host's MAC and names starts at the first frame of its capture, and hears what `run` sends to the host, a window
later than it bears:
  1. as it is: the host waits four seconds before its FLOGI, in which the node repeats its own, so the accept is for an older OX_ID;
  2. with the OX_ID of the node's latest FLOGI in the accept, which no other byte depends on;
  3. with no byte changed, but the wait taken out of the moments;
  4. in a loop with `run`, which gets the node's own frames and the other host's, until nothing new is sent.
In 2, 3 and 4 it must be up with the address that the journal grants to the host's name, and in 4 `replay` must accept the journal.
"""
import pathlib
import subprocess
from typing import Callable

import fields
from captures import HEAD, Record, forwarder_of, journal_of, later, read, write
from machine import DEMO
from models import Fc, read_eth, read_fc, read_fip

CONFIG = DEMO / "fabric.conf"
WINDOW = forwarder_of(CONFIG.read_text()).window
HOSTS = ("initiator", "target")


class Beside:
    """A node with the MAC, the names and the start of a host."""

    def __init__(self, program: str, room: pathlib.Path, place: int) -> None:
        self.program, self.room, self.place = program, room, place
        self.host = read(DEMO / f"{HOSTS[place]}.pcap")
        login = next(it.data for it in self.host if fields.kind_of(it.data) == "FLOGI")
        payload = login_of(login).payload
        self.mac, self.name, self.node = login[6:12], payload[20:28], payload[28:36]

    def said(self, *words: object) -> str:
        job = subprocess.run([self.program, *map(str, words)], cwd=self.room, capture_output=True, text=True, check=False)
        if job.returncode:
            raise AssertionError(f"{' '.join(map(str, words))} ended with {job.returncode}: {job.stdout.strip()} {job.stderr.strip()}")
        return job.stdout.strip()

    def play(self, name: str, heard: list[Record]) -> tuple[str, list[Record]]:
        """What the node prints over these records, and what it sends."""
        write(self.room / f"{name}-heard.pcap", heard)
        start = self.host[0].moment
        line = self.said("enode", start, self.mac.hex(":"), self.name.hex(":"), self.node.hex(":"), f"{name}-heard.pcap", f"{name}-sent.pcap")
        return line, read(self.room / f"{name}-sent.pcap")

    def fabric(self, own: pathlib.Path) -> tuple[list[Record], list[object]]:
        """What `run` sends to the node's port where this file is what the port takes, and the words of that run."""
        ins = [DEMO / f"{name}.pcap" for name in HOSTS]
        ins[self.place] = own
        words: list[object] = [CONFIG, "journal", ins[0], "out1.pcap", ins[1], "out2.pcap"]
        self.said("run", *words)
        return later(read(self.room / f"out{self.place + 1}.pcap"), WINDOW), words

    def granted(self, own: pathlib.Path) -> str:
        """The address of the first grant in the journal to the name."""
        taken = read(own)
        for entry in journal_of(self.room / "journal"):
            if entry.port == self.place + 1 and entry.words[0] == "granted" and login_of(taken[entry.index].data).payload[20:28] == self.name:
                return entry.words[1]
        return "none"


def login_of(data: bytes) -> Fc:
    """The FC frame of a frame that is a login in FIP."""
    eth = read_eth(data)
    message = read_fip(eth.body) if eth else None
    frame = read_fc(message.login[1]) if message else None
    if frame is None:
        raise AssertionError(f"no login: {data.hex()}")
    return frame


def is_accept(it: Record) -> bool:
    return fields.kind_of(it.data) == "FLOGI accept"


def first_of(records: list[Record], passes: Callable[[Record], bool]) -> int:
    return next(place for place, it in enumerate(records) if passes(it))


def with_ox_id(heard: list[Record], sent: list[Record]) -> tuple[list[Record], int]:
    """The accept with the OX_ID of the node's latest FLOGI before it."""
    place = first_of(heard, is_accept)
    latest = [it for it in sent if fields.kind_of(it.data) == "FLOGI" and it.moment <= heard[place].moment][-1]
    data = bytearray(heard[place].data)
    data[48:50] = latest.data[48:50]  # behind the tag, the FIP header and the first four bytes of the descriptor: bytes 16 and 17 of the FC header
    return [*heard[:place], Record(heard[place].moment, bytes(data)), *heard[place + 1 :]], login_of(latest.data).ox_id


def without_wait(heard: list[Record]) -> tuple[list[Record], int]:
    """The same bytes, those behind the solicited advertisement so much earlier that the accept comes a second behind it."""
    told = first_of(heard, lambda it: fields.kind_of(it.data) == "advertise" and it.data[0] % 2 == 0)
    wait = heard[first_of(heard, is_accept)].moment - heard[told].moment - 1000
    moved = [Record(max(it.moment - wait, heard[told].moment), it.data) for it in heard[told + 1 :]]
    return [*heard[: told + 1], *moved], wait


def in_loop(host: Beside, own: pathlib.Path) -> tuple[str, str]:
    """The node and the forwarder over what the other sent, until nothing changes: what the node prints then, and `replay`."""
    own.write_bytes(HEAD)
    had, line, words = b"", "", list[object]()
    while own.read_bytes() != had:
        had = own.read_bytes()
        heard, words = host.fabric(own)
        line, sent = host.play("loop", heard)
        write(own, sent)
    return line, host.said("replay", *words)


def up(address: str) -> str:
    return f"up {address} 0efc00{address}"


def show(what: str, line: str, is_so: bool) -> int:
    """Prints it, and says whether it isn't so."""
    print(f"  {what:66} {line}{'' if is_so else '  NOT SO'}")
    return not is_so


def tried_in_loop(host: Beside, own: pathlib.Path) -> int:
    line, replayed = in_loop(host, own)
    return show("4. in a loop with the forwarder", f"{line}, replay {replayed}", line == up(host.granted(own)) and replayed.startswith("legal "))


def tried(program: str, room: pathlib.Path, place: int) -> int:
    """How many things aren't so with one host."""
    host = Beside(program, room, place)
    recorded, own = DEMO / f"{HOSTS[place]}.pcap", room / "own.pcap"
    heard, _ = host.fabric(recorded)
    address = host.granted(recorded)
    print(f"{HOSTS[place]}: {host.mac.hex(':')} {host.name.hex(':')} {host.node.hex(':')}, granted {address}")
    line, sent = host.play("as-it-is", heard)
    wrong = show("1. as it is", line, line == "logging")
    changed, ox_id = with_ox_id(heard, sent)
    line, _ = host.play("ox-id", changed)
    wrong += show(f"2. with the OX_ID {ox_id} in the accept", line, line == up(address))
    moved, wait = without_wait(heard)
    line, _ = host.play("no-wait", moved)
    wrong += show(f"3. with {wait} ms taken out of the moments", line, line == up(address))
    return wrong + tried_in_loop(host, own)
