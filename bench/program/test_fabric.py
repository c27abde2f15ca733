"""Nodes, bridges and the forwarder together: the demo's hosts served, and behind a bridge, a node in a host's place, and a fabric of nodes at rest."""
import contextlib
import io
import pathlib
import struct
import subprocess
import zlib

import behind_bridge
import beside_node
import boxes
from captures import read
from machine import DEMO, RoomCase, program, slow

CONTROLLER_ACCEPT = b"\x23\xff\xff\xfd"


def fc_frames(path: pathlib.Path) -> list[tuple[bytes, bytes]]:
    """The FC frames of a capture's tagged FCoE frames, each with its check sequence."""
    return [(it.data[32:-8], it.data[-8:-4]) for it in read(path) if it.data[16:18] == b"\x89\x06"]


class Fabric(RoomCase):
    """What each finds that isn't so stands in what it prints."""

    def test_demo(self) -> None:
        """The RSCNs that go to the demo's hosts are those that they accepted when they were recorded, and each check sequence is right."""
        outs = [self.room / "out1", self.room / "out2"]
        pairs = [str(it) for pair in zip((DEMO / "initiator.pcap", DEMO / "target.pcap"), outs) for it in pair]
        subprocess.run([program(), "run", str(DEMO / "fabric.conf"), str(self.room / "journal"), *pairs], check=True, stdout=subprocess.DEVNULL)
        sent = [it for out in outs for it in fc_frames(out)]
        self.assertEqual([fc.hex() for fc, check in sent if struct.pack("<I", zlib.crc32(fc)) != check], [])
        told = [(fc[1:4], fc[16:18]) for fc, _ in sent if fc[0] == 0x22 and fc[24] == 0x61]
        accepted = [(fc[5:8], fc[16:18]) for name in ("initiator", "target") for fc, _ in fc_frames(DEMO / f"{name}.pcap") if fc[:4] == CONTROLLER_ACCEPT]
        self.assertEqual(told, accepted)
        self.assertEqual(len(told), 16)

    def test_bridge(self) -> None:
        said = io.StringIO()
        with contextlib.redirect_stdout(said):
            wrong = behind_bridge.tried(program(), self.room)
        self.assertIsNone(wrong, said.getvalue())

    def test_node(self) -> None:
        for place in range(2):
            said, room = io.StringIO(), self.room / str(place)
            room.mkdir()
            with contextlib.redirect_stdout(said):
                wrong = beside_node.tried(program(), room, place)
            self.assertEqual(wrong, 0, said.getvalue())

    def boxed(self, count: int) -> None:
        for is_bridged in (False, True):
            said = io.StringIO()
            with contextlib.redirect_stdout(said):
                is_good = boxes.boxed(program(), count, 100_000, is_bridged)
            self.assertTrue(is_good, said.getvalue())

    def test_few_nodes(self) -> None:
        self.boxed(2)
        self.boxed(20)

    @slow
    def test_many_nodes(self) -> None:
        self.boxed(200)
