"""Network interfaces of Linux as ports of a forwarder: what stands in an interface's way."""
import array
import fcntl
import os
import pathlib
import socket
import struct
from typing import Optional

from ..errors import Refused

CLASS = pathlib.Path("/sys/class/net")
LEAST_MTU = 2180
ETHERNET = 1  # ARPHRD_ETHER
IFF_UP = 1

# linux/ethtool.h
SIOCETHTOOL, ETHTOOL_GSTRINGS, ETHTOOL_GSSET_INFO, ETHTOOL_GFEATURES, ETH_SS_FEATURES, STRING = 0x8946, 0x1B, 0x37, 0x3A, 4, 32
# features by which an interface hands on other frames than were on the wire, with the name that `ethtool -K` takes
CHANGING = {"rx-lro": "lro", "rx-gro-hw": "rx-gro-hw", "rx-fcs": "rx-fcs"}


def said(name: str, what: str) -> str:
    """A value that the kernel tells of an interface, or nothing."""
    try:
        return (CLASS / name / what).read_text(encoding="ascii", errors="replace").strip()
    except OSError:
        return ""


def names() -> list[str]:
    """The interfaces that are there."""
    return sorted(name for _, name in socket.if_nameindex())


def ask(name: str, request: bytes, room: int) -> bytes:
    """What a driver answers to a request of ethtool."""
    held = array.array("B", request + bytes(room))
    with socket.socket(socket.AF_INET, socket.SOCK_DGRAM) as it:
        fcntl.ioctl(it, SIOCETHTOOL, struct.pack("16sP", name.encode(), held.buffer_info()[0]) + bytes(16))
    return held.tobytes()


def features(name: str) -> set[str]:
    """The features of an interface that are on, by the kernel's names; none where it tells none."""
    try:
        (count,) = struct.unpack_from("=I", ask(name, struct.pack("=IIQ", ETHTOOL_GSSET_INFO, 0, 1 << ETH_SS_FEATURES), 4), 16)
        texts = ask(name, struct.pack("=III", ETHTOOL_GSTRINGS, ETH_SS_FEATURES, count), count * STRING)[12:]
        words = (count + 31) // 32
        states = ask(name, struct.pack("=II", ETHTOOL_GFEATURES, words), words * 16)[8:]
    except OSError:
        return set()
    active = [struct.unpack_from("=IIII", states, 16 * at)[2] for at in range(words)]
    return {texts[STRING * at : STRING * (at + 1)].split(b"\0")[0].decode("ascii", "replace") for at in range(count) if active[at // 32] >> at % 32 & 1}


def master_of(name: str) -> Optional[str]:
    """The bridge, bond or team that an interface belongs to."""
    link = CLASS / name / "master"
    return os.path.basename(os.readlink(link)) if link.is_symlink() else None


def trouble(name: str) -> Optional[str]:
    """Why an interface can be no port, with the next step."""
    if name not in names():
        return f"no such interface: there are {', '.join(names())}"
    if not (CLASS / name).exists():
        return f"{CLASS} is that of another network namespace: `ip netns exec NAMESPACE` mounts its own"
    if said(name, "type") != str(ETHERNET):
        return "no Ethernet interface"
    if "DEVTYPE=vlan" in said(name, "uevent").split():
        return "an interface of one VLAN, which gets no FIP VLAN request: name the Ethernet port below it"
    if (master := master_of(name)) is not None:
        return f"it belongs to {master}, which would pass frames on beside the forwarder: `ip link set {name} nomaster`"
    if int(said(name, "mtu") or 0) < LEAST_MTU:
        return f"its MTU is {said(name, 'mtu')}, and FCoE wants {LEAST_MTU} at least: `ip link set {name} mtu 2500`"
    if changing := sorted(CHANGING[it] for it in features(name) & set(CHANGING)):
        return f"it changes frames before they are seen ({', '.join(changing)}): `ethtool -K {name} {' '.join(f'{it} off' for it in changing)}`"
    if not int(said(name, "flags") or "0", 16) & IFF_UP:
        return f"it's down: `ip link set {name} up`"
    return None


def check(wanted: list[str]) -> None:
    """Refuses interfaces that can't be ports."""
    for at, name in enumerate(wanted):
        if name in wanted[:at]:
            raise Refused(f"{name}: named twice: each interface is one port")
        if (why := trouble(name)) is not None:
            raise Refused(f"{name}: {why}")
    if len(wanted) > 64:
        raise Refused(f"{wanted[64]}: the 65th port: a forwarder has 64 at most")


def listed() -> list[list[object]]:
    """Each interface with its MTU, its link, its MAC, and whether it can be a port."""
    link = {"1": "yes", "0": "no"}
    return [[it, said(it, "mtu"), link.get(said(it, "carrier"), "-"), said(it, "address"), trouble(it) or "can be a port"] for it in names()]
