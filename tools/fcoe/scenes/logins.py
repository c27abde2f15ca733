"""FLOGI, FDISC and LOGO in FIP."""
from ..frames.heard import NAME_SERVER, Heard
from .acts import STOPS
from .changes import in_descriptor, rejected, without_mac
from .holding import ACCEPTED, ASKS_FP, AT_NAMES, FABRIC_LOGIN, FDISC, FIRST, FIRST_LOGIN, FLOGI, FROM_ENODE_MAC, IN_FABRIC
from .holding import IN_VLAN, LATER, LINK_SERVICE, NEW_OX_ID, TO_FORWARDER, stays, upto_login
from .script import FCOE, All, EndHost, Holds, Late, Lose, Never, Rewrite, Scene, Setup, Twice, Wait, Want, World, kind

SOURCE, EXCHANGES = "FC-BB-5, FIP FLOGI; FC-LS-2, FLOGI", "FC-FS-3, exchange identifiers"
ALONE = Setup(peer="none")
ENTERS = kind("PLOGI", to=NAME_SERVER)


def is_second_login(heard: Heard, world: World) -> bool:
    """A PLOGI from a granted MAC, and from an S_ID that had none before."""
    if heard.kind != "PLOGI" or heard.fc is None:
        return True
    earlier = [it.fc.s_id for it in world.said if it is not heard and it.kind == "PLOGI" and it.fc is not None and it.fc.d_id == heard.fc.d_id]
    return world.granted.get(heard.fc.s_id) == heard.source and heard.fc.s_id not in earlier


# of an LS_RJT: a name, the code, and its words
REASONS = (
    ("command", 0x01, "invalid command"), ("logical", 0x03, "logical error"), ("busy", 0x05, "logical busy"), ("protocol", 0x07, "protocol error"),
    ("unable", 0x09, "unable to perform"), ("unknown", 0x0B, "command not supported"), ("vendor", 0xFF, "a vendor's own"),
)

SCENES = (
    Scene("login", "The host logs in, and sends FCoE from the MAC that it was granted.", SOURCE, upto_login(), ALONE),
    Scene(
        "flogi-lost",
        "Two FLOGIs are lost: the host sends another, in an exchange of its own.",
        f"{SOURCE}; {EXCHANGES}",
        (Want(FLOGI, FIRST, FABRIC_LOGIN), Want(FLOGI, LINK_SERVICE, (*FABRIC_LOGIN, NEW_OX_ID), 2), Want(AT_NAMES, LATER, IN_FABRIC)),
        Setup(peer="none", bends=(Lose(FLOGI, 2, from_host=True),)),
    ),
    Scene(
        "accept-lost",
        "The accept of a FLOGI is lost: the host sends another FLOGI, and uses what that was granted.",
        f"{SOURCE}; {EXCHANGES}",
        (Want(FLOGI, FIRST, FABRIC_LOGIN), Want(FLOGI, LINK_SERVICE, (*FABRIC_LOGIN, NEW_OX_ID), without=FCOE), Want(AT_NAMES, LATER, IN_FABRIC)),
        Setup(peer="none", bends=(Lose(ACCEPTED, 1),)),
    ),
    Scene("accept-twice", "The accept of the FLOGI arrives twice: the host is logged in once.", SOURCE, (*upto_login(), stays(4)), Setup(peer="none", bends=(Twice(ACCEPTED),))),
    Scene(
        "accept-late",
        "The accept of the FLOGI is late by a second: the host uses no granted MAC before it.",
        SOURCE,
        (Want(FLOGI, FIRST, FABRIC_LOGIN), Want(AT_NAMES, LATER, IN_FABRIC), stays(3)),
        Setup(peer="none", bends=(Late(1.0, ACCEPTED),)),
    ),
    Scene(
        "rejected",
        "The fabric takes one login, which the peer has: the host is rejected (09 29), and logs in once there is room.",
        "FC-LS-2, LS_RJT; FC-BB-5, fabric-provided MAC addresses",
        (Want(FLOGI, FIRST, FABRIC_LOGIN), Never(FCOE, 5), STOPS, Want(FLOGI, 60, (*FABRIC_LOGIN, NEW_OX_ID)), Want(AT_NAMES, LATER, IN_FABRIC)),
        Setup(limit=1, peer="there"),
    ),
    Scene(
        "fc-map",
        "The fabric's FC-MAP is 0E:FC:10: the host's MAC begins with it.",
        "FC-BB-5, fabric-provided MAC addresses",
        upto_login(),
        Setup(peer="none", fc_map="0e:fc:10"),
    ),
    Scene(
        "second-port",
        "The host has a second N_Port (NPIV): FDISC, and an address and a MAC of its own.",
        "FC-BB-5, FIP FDISC; FC-LS-2, FDISC",
        (
            Want(FLOGI, FIRST, FABRIC_LOGIN),
            All((FDISC, ENTERS, ENTERS), FIRST, (IN_VLAN, TO_FORWARDER, Holds("each PLOGI from an S_ID and MAC of its own", is_second_login))),
        ),
        ALONE,
        frozenset({"npiv"}),
    ),
    Scene(
        "second-port-rejected",
        "The fabric takes one login: the FDISC is rejected, and the first N_Port stays.",
        "FC-LS-2, FDISC, LS_RJT",
        (Want(FLOGI, FIRST, FABRIC_LOGIN), Want(FDISC, LATER, (IN_VLAN, TO_FORWARDER, FROM_ENODE_MAC, ASKS_FP, FIRST_LOGIN)), stays(5)),
        Setup(peer="none", limit=1),
        frozenset({"npiv"}),
    ),
    Scene(
        "logout",
        "The host ends: it logs out at the fabric, and is silent then.",
        "FC-BB-5, FIP LOGO; FC-LS-2, LOGO",
        (*upto_login(), Wait(1), EndHost(), Want(kind("LOGO", is_fcoe=False, words="LOGO in FIP"), LATER, (IN_VLAN, TO_FORWARDER, FROM_ENODE_MAC)), Never(FCOE, 2, 1)),
        ALONE,
        frozenset({"end"}),
    ),
    *(
        Scene(
            f"rejected-{name}",
            f"The first FLOGI is rejected with reason {reason:02X} ({words}): the host uses nothing, and asks again.",
            "FC-LS-2, LS_RJT",
            (Want(FLOGI, FIRST, FABRIC_LOGIN), Want(FLOGI, 60, FABRIC_LOGIN, without=FCOE), Want(AT_NAMES, LATER, IN_FABRIC)),
            Setup(peer="none", bends=(Rewrite(rejected(reason, 0), f"LS_RJT {reason:02X}", ACCEPTED, 1),)),
        )
        for name, reason, words in REASONS
    ),
    Scene(
        "accept-small",
        "The accept of the FLOGI has a receive size of 256: the host sends no more to the fabric at once.",
        "FC-LS-2, FLOGI: receive data field size",
        (*upto_login(), stays(4)),
        Setup(peer="none", bends=(Rewrite(in_descriptor(7, 38, b"\x01\x00"), "a receive size of 256", ACCEPTED),)),
    ),
    *(
        Scene(
            name,
            f"The first accept of the FLOGI has {words}: the host doesn't use it, and asks again.",
            "FC-BB-5, fabric-provided MAC addresses",
            (Want(FLOGI, FIRST, FABRIC_LOGIN), Want(FLOGI, 60, FABRIC_LOGIN, without=FCOE), Want(AT_NAMES, LATER, IN_FABRIC)),
            Setup(peer="none", bends=(Rewrite(change, words, ACCEPTED, 1),)),
        )
        for name, words, change in (
            ("accept-other-mac", "a MAC that isn't of its address", in_descriptor(2, 5, b"\x01\x77\x77")),
            ("accept-other-map", "a MAC of another FC-MAP", in_descriptor(2, 2, b"\x0e\xfc\x77")),
            ("accept-no-mac", "no MAC descriptor", without_mac),
        )
    ),
)
