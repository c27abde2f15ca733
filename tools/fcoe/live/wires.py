"""Frames of a network interface, in and out, by a raw socket of Linux; and of the other end of a tap device."""
import contextlib
import errno
import fcntl
import os
import socket
import struct
import time
from dataclasses import dataclass
from typing import NamedTuple

from ..errors import Refused
from ..frames.heard import ALL_ENODES, ALL_FCFS, TAG_TYPE

# linux/if_ether.h, linux/if_packet.h, asm-generic/socket.h; Python's socket module has no names for them
ETH_P_ALL = 3
SOL_PACKET = 263
PACKET_ADD_MEMBERSHIP, PACKET_STATISTICS, PACKET_AUXDATA, PACKET_IGNORE_OUTGOING = 1, 6, 8, 23
PACKET_MR_MULTICAST, PACKET_MR_PROMISC = 0, 1
SO_SNDBUFFORCE, SO_RCVBUFFORCE, SO_TIMESTAMPNS = 32, 33, 35
TP_STATUS_VLAN_VALID, TP_STATUS_VLAN_TPID_VALID = 1 << 4, 1 << 6
AUXDATA = struct.Struct("=IIIHHHH")  # status, length, stored, two places, the tag and its Ethertype
TIMESPEC = struct.Struct("=qq")
NOTES = socket.CMSG_SPACE(AUXDATA.size) + socket.CMSG_SPACE(TIMESPEC.size)
TAG_PLACE, TAG_LENGTH = 12, 4
TUN, TUNSETIFF, IFF_TAP, IFF_NO_PI = "/dev/net/tun", 0x400454CA, 0x0002, 0x1000  # linux/if_tun.h
LONGEST = 65535 - TAG_LENGTH  # with its tag put back a frame is no longer than a capture's record may be
BUFFER = 8 << 20


class Arrived(NamedTuple):
    """A frame as it was on the wire, its length there, and when the kernel had it, in nanoseconds since 1970."""

    frame: bytes
    length: int
    moment: int


@dataclass
class Clock:
    """Moments in nanoseconds since 1970 that go on evenly where the system's clock is set."""

    ahead: int = 0

    def __post_init__(self) -> None:
        self.ahead = time.time_ns() - time.monotonic_ns()

    def now(self) -> int:
        return time.monotonic_ns() + self.ahead

    def correction(self) -> int:
        """What has to be added to a moment of the system's clock."""
        return self.now() - time.time_ns()

    def moment(self, stamp: int, correction: int, least: int) -> int:
        """The moment of a frame by its stamp of the system's clock. No frame came later than now, nor earlier than nothing waited: where the clock
        was set while a frame waited, its stamp and the correction are of different clocks."""
        return max(least, min(stamp + correction, self.now()))


def enlarge(it: socket.socket, forced: int, limited: int) -> None:
    """Gives a socket room; without CAP_NET_ADMIN up to the system's limit."""
    try:
        it.setsockopt(socket.SOL_SOCKET, forced, BUFFER)
    except PermissionError:
        it.setsockopt(socket.SOL_SOCKET, limited, BUFFER)


class Wire:
    """All that comes in on an interface, also to others' MACs, but nothing that is sent here; and what is sent."""

    def __init__(self, name: str) -> None:
        try:
            self.socket = socket.socket(socket.AF_PACKET, socket.SOCK_RAW, 0)
        except PermissionError:
            raise Refused(f"{name}: raw sockets want the right CAP_NET_RAW: run it as root (sudo)") from None
        for option in (PACKET_AUXDATA, PACKET_IGNORE_OUTGOING):
            self.socket.setsockopt(SOL_PACKET, option, 1)
        self.socket.setsockopt(socket.SOL_SOCKET, SO_TIMESTAMPNS, 1)
        enlarge(self.socket, SO_RCVBUFFORCE, socket.SO_RCVBUF)
        enlarge(self.socket, SO_SNDBUFFORCE, socket.SO_SNDBUF)
        self.index = number = socket.if_nametoindex(name)
        for kind, mac in ((PACKET_MR_PROMISC, b""), (PACKET_MR_MULTICAST, ALL_FCFS), (PACKET_MR_MULTICAST, ALL_ENODES)):
            self.socket.setsockopt(SOL_PACKET, PACKET_ADD_MEMBERSHIP, struct.pack("iHH8s", number, kind, len(mac), mac))
        self.socket.bind((name, ETH_P_ALL))
        self.socket.setblocking(False)

    def fileno(self) -> int:
        return self.socket.fileno()

    def receive(self) -> Arrived:
        """The next frame, with the tag that the kernel took out put back."""
        frame, notes, _, _ = self.socket.recvmsg(LONGEST, NOTES)
        moment, tag, length = 0, b"", len(frame)
        for level, _, data in notes:
            if level == SOL_PACKET:
                status, length, _, _, _, control, kind = AUXDATA.unpack_from(data)
                if status & TP_STATUS_VLAN_VALID:
                    tag = struct.pack(">HH", kind if status & TP_STATUS_VLAN_TPID_VALID else TAG_TYPE, control)
            else:
                seconds, rest = TIMESPEC.unpack_from(data)
                moment = seconds * 1_000_000_000 + rest
        if tag:
            frame = frame[:TAG_PLACE] + tag + frame[TAG_PLACE:]
        return Arrived(frame, max(length + len(tag), len(frame)), moment or time.time_ns())

    def send(self, frame: bytes) -> None:
        self.socket.send(frame)

    def lost(self) -> int:
        """How many frames the kernel had no room for since this was asked last."""
        return int(struct.unpack("=II", self.socket.getsockopt(SOL_PACKET, PACKET_STATISTICS, 8))[1])

    def is_there(self) -> bool:
        """The interface wasn't removed; it may have another name by now."""
        try:
            return bool(socket.if_indextoname(self.index))
        except OSError:
            return False

    def close(self) -> None:
        self.socket.close()


class TapEnd(Wire):
    """The other end of a tap device, as a virtual machine has it: what is sent here comes in on the device."""

    def __init__(self, name: str) -> None:  # pylint: disable=super-init-not-called
        try:
            self.file = os.open(TUN, os.O_RDWR | os.O_NONBLOCK | os.O_CLOEXEC)
            fcntl.ioctl(self.file, TUNSETIFF, struct.pack("16sH22x", name.encode(), IFF_TAP | IFF_NO_PI))
        except OSError as why:
            whys = {errno.EBUSY: "another program has its other end", errno.EINVAL: "no tap device of one queue (`ip tuntap add NAME mode tap`)"}
            raise Refused(f"{name}: {whys.get(why.errno or 0, f'{why.strerror}: {TUN} wants root')}") from None

    def fileno(self) -> int:
        return self.file

    def receive(self) -> Arrived:
        frame = os.read(self.file, LONGEST)
        return Arrived(frame, len(frame), time.time_ns())

    def send(self, frame: bytes) -> None:
        with contextlib.suppress(OSError):  # the device is down: the frame is lost
            os.write(self.file, frame)

    def lost(self) -> int:
        return 0

    def close(self) -> None:
        os.close(self.file)
