"""FIP VLAN discovery."""
from .holding import FABRIC_LOGIN, FIRST, FLOGI, FROM_ENODE, IN_VLAN, LATER, LOGIN, SIZED, SOLICITS, TO_FORWARDERS, TOLD, UNTAGGED, VLANS
from .changes import in_descriptor, with_descriptor
from .script import Holds, Late, Lose, Never, Rewrite, Scene, Setup, Twice, Want

SOURCE = "FC-BB-5, FIP VLAN discovery"
ASKS = frozenset({"vlans"})
IN_TOLD = Holds("in VLAN 200", lambda heard, _: heard.vlan == 200)

SCENES = (
    Scene(
        "vlan-asked",
        "The host asks for its VLAN, and goes on in the VLAN that it's told.",
        SOURCE,
        (
            Want(VLANS, FIRST, (UNTAGGED, FROM_ENODE, TO_FORWARDERS)),
            Want(SOLICITS, FIRST, (IN_VLAN, FROM_ENODE, TO_FORWARDERS, SIZED)),
            Want(FLOGI, LATER, FABRIC_LOGIN),
        ),
        needs=ASKS,
    ),
    Scene(
        "vlan-asked-again",
        "Two notifications are lost: the host asks again.",
        SOURCE,
        (Want(VLANS, FIRST, (UNTAGGED, FROM_ENODE), 3, LOGIN), Want(SOLICITS, FIRST, (IN_VLAN,)), Want(FLOGI, LATER, FABRIC_LOGIN)),
        Setup(bends=(Lose(TOLD, 2),)),
        ASKS,
    ),
    Scene(
        "vlan-late",
        "Notifications are late by 1.5 seconds: the host logs in all the same, once.",
        SOURCE,
        (Want(VLANS, FIRST, (UNTAGGED,)), Want(FLOGI, FIRST, FABRIC_LOGIN), Never(FLOGI, 4)),
        Setup(bends=(Late(1.5, TOLD),)),
        ASKS,
    ),
    Scene(
        "vlan-twice",
        "Each notification arrives twice: the host logs in once.",
        SOURCE,
        (Want(VLANS, FIRST, (UNTAGGED,)), Want(FLOGI, FIRST, FABRIC_LOGIN), Never(FLOGI, 3)),
        Setup(bends=(Twice(TOLD),)),
        ASKS,
    ),
    Scene(
        "vlan-several",
        "The notification lists a further VLAN, in which nobody answers: the host logs in where it's answered.",
        SOURCE,
        (Want(VLANS, FIRST, (UNTAGGED,)), Want(FLOGI, FIRST, FABRIC_LOGIN)),
        Setup(bends=(Rewrite(with_descriptor(bytes.fromhex("0e0100c8")), "VLAN 200 behind it", TOLD),)),
        ASKS,
    ),
    Scene(
        "vlan-of-nobody",
        "The notification lists a VLAN alone in which nobody answers: the host solicits there, and doesn't log in.",
        SOURCE,
        (Want(VLANS, FIRST, (UNTAGGED,)), Want(SOLICITS, FIRST, (IN_TOLD,)), Never(LOGIN, 6)),
        Setup(bends=(Rewrite(in_descriptor(14, 2, b"\0\xc8"), "VLAN 200 in its place", TOLD),)),
        ASKS,
    ),
    Scene(
        "vlan-untold",
        "No notification arrives: the host asks on, and doesn't log in.",
        SOURCE,
        (Want(VLANS, FIRST, (UNTAGGED,)), Never(LOGIN, 6), Want(VLANS, FIRST, (UNTAGGED,), without=LOGIN)),
        Setup(bends=(Lose(TOLD),)),
        ASKS,
    ),
)
