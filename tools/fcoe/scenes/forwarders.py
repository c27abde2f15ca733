"""Two forwarders that are both real: which of them a host takes, and that it goes over to the other one."""
from ..frames.heard import Heard
from .holding import ALIVE, ASKS_FP, AT_NAMES, FABRIC_LOGIN, FIRST, FIRST_LOGIN, FLOGI, FROM_ENODE_MAC, IN_VLAN, LATER, OWN_MAC, SOUND
from .script import SECOND, Begin, Holds, Like, Lose, Never, Scene, Setup, Step, Straight, Want, World

SOURCE = "FC-BB-5, FIP discovery"
SAME = "switch 10:00:00:05:1e:00:00:02"  # both are of one fabric
OF_FIRST = Like(test=lambda heard, world: heard.source == world.forwarder, words="frame of the first forwarder")
OF_SECOND = Like(test=lambda heard, _: heard.source == SECOND, words="frame of the second forwarder")
CEASES = Begin(Lose(OF_FIRST))


def is_to_its_own(heard: Heard, world: World) -> bool:
    """To the forwarder of the host's latest FLOGI."""
    return [it.destination for it in world.said if it.kind == "FLOGI"][-1:] == [heard.destination]


def is_to_either(heard: Heard, world: World) -> bool:
    return heard.destination in (world.forwarder, SECOND)


def has_map(heard: Heard, _world: World) -> bool:
    """From a MAC of the second fabric's FC-MAP."""
    return heard.source[:3] == bytes.fromhex("0efc01")


TO_SECOND = Holds("to the second forwarder's MAC", lambda heard, _: heard.destination == SECOND)
TO_EITHER = Holds("to one of both forwarders", is_to_either)
TO_ITS_OWN = Holds("to the forwarder of its FLOGI", is_to_its_own)
OTHER_MAP = Holds("from a MAC of the second fabric's FC-MAP", has_map)


def at_second(*more: Holds) -> tuple[Step, ...]:
    """The host logs in at the second forwarder, and keeps its login alive there."""
    return (
        Want(FLOGI, FIRST, (IN_VLAN, TO_SECOND, FROM_ENODE_MAC, ASKS_FP, FIRST_LOGIN)),
        Want(AT_NAMES, LATER, (IN_VLAN, TO_SECOND, OWN_MAC, SOUND, *more)),
        Want(ALIVE, LATER, (IN_VLAN, TO_SECOND)),
    )


SCENES = (
    Scene(
        "two-forwarders",
        "Two real forwarders of one fabric: the host logs in at the one with the higher priority (128; 200 is lower), and stays.",
        f"{SOURCE}: priority",
        (Want(FLOGI, FIRST, FABRIC_LOGIN), Want(AT_NAMES, LATER, (IN_VLAN, OWN_MAC)), Never(FLOGI, 5)),
        Setup(second=("priority 200", SAME)),
    ),
    Scene(
        "equal-priority",
        "Two real forwarders have the same priority: the host logs in at one of them, and stays there.",
        f"{SOURCE}: priority",
        (Want(FLOGI, FIRST, (IN_VLAN, TO_EITHER, FROM_ENODE_MAC)), Want(ALIVE, LATER, (IN_VLAN, TO_ITS_OWN)), Never(FLOGI, 5)),
        Setup(second=(SAME,)),
    ),
    Scene(
        "second-takes-over",
        "The forwarder of the login falls silent, and another one of its fabric is there: the host logs in at that.",
        f"{SOURCE}, FKA_ADV_PERIOD",
        (Want(FLOGI, FIRST, FABRIC_LOGIN), Want(ALIVE, LATER, (IN_VLAN,)), CEASES, *at_second()),
        Setup(second=("priority 200", SAME)),
    ),
    Scene(
        "other-fabric",
        "The forwarder falls silent; the one that is left is of another fabric, with another name, FC-MAP and domain: the host has what that grants.",
        f"{SOURCE}, FC-MAP; FC-BB-5, fabric-provided MAC addresses",
        (Want(FLOGI, FIRST, FABRIC_LOGIN), Want(ALIVE, LATER, (IN_VLAN,)), CEASES, *at_second(OTHER_MAP)),
        Setup(second=("priority 200", "fc-map 0e:fc:01", "domain 2")),
    ),
    Scene(
        "better-comes-late",
        "A better forwarder is there once the host has logged in at the other one: the host stays.",
        f"{SOURCE}: priority",
        (Want(FLOGI, FIRST, FABRIC_LOGIN), Want(ALIVE, LATER, (IN_VLAN, TO_ITS_OWN)), Straight(), Never(FLOGI, 5)),
        Setup(bends=(Lose(OF_SECOND),), second=("priority 1", SAME)),
    ),
)
