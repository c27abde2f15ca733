"""FIP discovery: which forwarder a host logs in at."""
from .changes import body_flags, both, from_mac, priority, with_descriptor
from .holding import ADVERTISED, ADVERTISED_ALL, ADVERTISED_ALONE, FABRIC_LOGIN, FIRST, FLOGI, FROM_ENODE, IN_VLAN, LATER, LOGIN, SIZED, SOLICITS, TO_FORWARDERS, stays
from .script import Begin, Like, Lose, Never, Rewrite, Scene, Setup, Straight, Twice, Want

SOURCE, DESCRIPTORS = "FC-BB-5, FIP discovery", "FC-BB-5, FIP descriptors"
FP, SP, AVAILABLE = 0x8000, 0x4000, 0x0004
OTHER = bytes.fromhex("00051e0000ee")
STRANGE, FREE = bytes.fromhex("7f020000000000a1"), bytes.fromhex("f0020000000000a1")
LONG = Like(("Advertisement",), test=lambda it, _: len(it.data) > 1518, words="advertisement longer than 1518 bytes")

SCENES = (
    Scene(
        "solicited",
        "The host solicits before it logs in.",
        SOURCE,
        (Want(SOLICITS, FIRST, (IN_VLAN, FROM_ENODE, TO_FORWARDERS, SIZED), without=LOGIN), Want(FLOGI, LATER, FABRIC_LOGIN)),
    ),
    Scene(
        "solicited-again",
        "Two solicited advertisements are lost: the host solicits again.",
        SOURCE,
        (Want(SOLICITS, FIRST, (IN_VLAN, SIZED), 3, LOGIN), Want(FLOGI, LATER, FABRIC_LOGIN)),
        Setup(period=8000, bends=(Lose(ADVERTISED_ALONE, 2),)),
    ),
    Scene(
        "advertised-to-all",
        "Advertisements to all nodes arrive, solicited ones don't: the host doesn't log in.",
        SOURCE,
        (Want(SOLICITS, FIRST, (IN_VLAN,)), Never(LOGIN, 6), Straight(), Want(FLOGI, FIRST, FABRIC_LOGIN)),
        Setup(bends=(Lose(ADVERTISED_ALONE),)),
    ),
    Scene(
        "no-jumbo",
        "No frame longer than 1518 bytes arrives: the host doesn't log in.",
        f"{SOURCE}: the advertisement is padded to the size that was asked for",
        (Want(SOLICITS, FIRST, (IN_VLAN,)), Never(LOGIN, 6), Straight(), Want(FLOGI, FIRST, FABRIC_LOGIN)),
        Setup(bends=(Lose(LONG),)),
    ),
    Scene(
        "cut-advertisement",
        "Solicited advertisements arrive without their padding: the host doesn't log in.",
        f"{SOURCE}: the advertisement is padded to the size that was asked for",
        (Want(SOLICITS, FIRST, (IN_VLAN,)), Never(LOGIN, 6)),
        Setup(bends=(Rewrite(lambda it: it[:100], "cut at 100 bytes", LONG),)),
    ),
    Scene(
        "not-available",
        "The forwarder isn't available (A flag): the host logs in once it is.",
        SOURCE,
        (Want(SOLICITS, FIRST, (IN_VLAN,)), Never(LOGIN, 5), Straight(), Want(FLOGI, FIRST, FABRIC_LOGIN)),
        Setup(bends=(Rewrite(body_flags(AVAILABLE), "the A flag is clear", ADVERTISED),)),
    ),
    Scene(
        "no-granted-macs",
        "The forwarder grants no MACs (SP in place of FP): the host doesn't ask for one.",
        f"{SOURCE}: FP and SP",
        (Want(SOLICITS, FIRST, (IN_VLAN,)), Never(Like(("FLOGI",), test=lambda it, _: not it.flags & SP, words="FLOGI without SP"), 5)),
        Setup(bends=(Rewrite(body_flags(FP, SP), "SP in place of FP", ADVERTISED),)),
    ),
    Scene(
        "worse-forwarder",
        "A second forwarder with a lower priority (200; 128 is higher) is heard first: the host logs in at the other.",
        f"{SOURCE}: priority",
        (Want(FLOGI, FIRST, FABRIC_LOGIN), stays(3)),
        Setup(bends=(Rewrite(both(from_mac(OTHER), priority(200)), "one with another MAC and priority 200 is before it", ADVERTISED, beside=True),)),
    ),
    Scene(
        "better-not-available",
        "A second forwarder with the highest priority isn't available: the host logs in at the other.",
        f"{SOURCE}: priority, A",
        (Want(FLOGI, FIRST, FABRIC_LOGIN), stays(3)),
        Setup(bends=(Rewrite(both(from_mac(OTHER), priority(1), body_flags(AVAILABLE)), "one with another MAC, priority 1 and A clear is before it", ADVERTISED, beside=True),)),
    ),
    Scene(
        "unknown-critical",
        "Advertisements have a critical descriptor that nobody knows (type 7F): they are discarded.",
        DESCRIPTORS,
        (Want(SOLICITS, FIRST, (IN_VLAN,)), Never(LOGIN, 5), Straight(), Want(FLOGI, FIRST, FABRIC_LOGIN)),
        Setup(bends=(Rewrite(with_descriptor(STRANGE), "a descriptor of type 7F", ADVERTISED),)),
    ),
    Scene(
        "unknown-free",
        "Advertisements have a descriptor of a vendor (type F0): it is skipped.",
        DESCRIPTORS,
        (Want(FLOGI, FIRST, FABRIC_LOGIN), stays(3)),
        Setup(bends=(Rewrite(with_descriptor(FREE), "a descriptor of type F0", ADVERTISED),)),
    ),
    Scene(
        "advertised-twice",
        "Each advertisement arrives twice: the host logs in once.",
        SOURCE,
        (Want(FLOGI, FIRST, FABRIC_LOGIN), Never(FLOGI, 3)),
        Setup(bends=(Twice(ADVERTISED),)),
    ),
    Scene(
        "priority-changes",
        "The forwarder's priority changes: the host stays logged in.",
        f"{SOURCE}: priority",
        (Want(FLOGI, FIRST, FABRIC_LOGIN), Begin(Rewrite(priority(250), "priority 250", ADVERTISED_ALL)), stays(5)),
    ),
)
