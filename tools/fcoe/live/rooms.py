"""Rooms for scenes: a pair of network namespaces, the tester's with the interface `port` and the host's with `eth0`."""
import contextlib
import os
import pathlib
import subprocess
from typing import Iterator

from ..errors import Refused

PREFIX = "scene"
PORT, FACE, MTU = "port", "eth0", "2500"
HOST_MAC = "02:00:00:00:10:01"


def ip(*words: str) -> None:
    ran = subprocess.run(["ip", *words], capture_output=True, text=True, check=False)
    if ran.returncode:
        raise Refused(f"ip {' '.join(words)}: {ran.stderr.strip() or 'failed'}: namespaces want root and iproute2")


def names_of(number: int) -> tuple[str, str]:
    """The tester's namespace and the host's."""
    return f"{PREFIX}-{os.getpid()}-{number}t", f"{PREFIX}-{os.getpid()}-{number}h"


def remove(name: str) -> None:
    subprocess.run(["ip", "netns", "del", name], capture_output=True, check=False)


def remove_stale() -> None:
    """Removes the namespaces of testers that were killed."""
    for path in pathlib.Path("/run/netns").glob(f"{PREFIX}-*-*"):
        owner = path.name.split("-")[1]
        if owner.isdigit() and not pathlib.Path(f"/proc/{owner}").exists():
            remove(path.name)


def quiet(namespace: str, name: str) -> None:
    """The system sends nothing of its own there."""
    words = ["ip", "netns", "exec", namespace, "sysctl", "-qw", f"net.ipv6.conf.{name}.disable_ipv6=1"]
    subprocess.run(words, capture_output=True, check=False)


@contextlib.contextmanager
def room(number: int) -> Iterator[tuple[str, str]]:
    """Two namespaces with a wire between them; they are taken away again."""
    tester, host = names_of(number)
    try:
        for name in (tester, host):
            ip("netns", "add", name)
        ip("-n", tester, "link", "add", PORT, "mtu", MTU, "type", "veth", "peer", "name", FACE, "address", HOST_MAC, "mtu", MTU, "netns", host)
        for name, face in ((tester, PORT), (host, FACE)):
            quiet(name, face)
            ip("-n", name, "link", "set", face, "up")
        yield tester, host
    finally:
        for name in (tester, host):
            remove(name)
