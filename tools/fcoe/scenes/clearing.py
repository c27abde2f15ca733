"""Clear Virtual Links."""
from .acts import FALLS_SILENT
from .changes import from_mac, with_port, without_ports
from .holding import ALIVE, AT_NAMES, CLEARED, FABRIC_LOGIN, FDISC, FIRST, FLOGI, IN_FABRIC, LATER, STARTS_ANEW, stays, upto_login, upto_peer
from .script import Astray, Begin, Bend, Lose, Rewrite, Scene, Setup, Step, Straight, Twice, Want

SOURCE = "FC-BB-5, FIP Clear Virtual Links"
OTHER = bytes.fromhex("00051e0000ee")
SILENCED = Lose(ALIVE, from_host=True)


def cleared(*bends: Bend) -> tuple[Step, ...]:
    """The host's keep alives are lost, so that the forwarder clears its link; it begins anew."""
    begun = tuple(Begin(it) for it in (SILENCED, *bends))
    return (*upto_login(), *begun, Want(STARTS_ANEW, FIRST), Straight(), Want(FLOGI, FIRST, FABRIC_LOGIN), Want(AT_NAMES, LATER, IN_FABRIC), stays(3))


SCENES = (
    Scene("link-cleared", "The forwarder clears the host's login: the host logs in anew.", SOURCE, cleared()),
    Scene(
        "all-links-cleared",
        "Clear Virtual Links lists no N_Port: all logins are over, and the host logs in anew.",
        SOURCE,
        cleared(Rewrite(without_ports, "no N_Port is listed", CLEARED)),
    ),
    Scene("cleared-twice", "Clear Virtual Links arrives twice: the host logs in anew once.", SOURCE, cleared(Twice(CLEARED))),
    Scene(
        "second-cleared",
        "Clear Virtual Links lists the second of two N_Ports: that one logs in anew by FDISC, and the first one stays.",
        SOURCE,
        (
            Want(FLOGI, FIRST, FABRIC_LOGIN),
            Want(FDISC, FIRST),
            Want(ALIVE, FIRST),
            Begin(SILENCED),
            Begin(Rewrite(with_port(1), "the second N_Port alone is listed", CLEARED)),
            Want(FDISC, FIRST, without=FLOGI),
        ),
        Setup(peer="none"),
        frozenset({"npiv"}),
    ),
    Scene(
        "cleared-by-another",
        "Clear Virtual Links comes from a MAC that isn't the forwarder's: the host stays.",
        SOURCE,
        (*upto_login(), Begin(SILENCED), Begin(Rewrite(from_mac(OTHER), "from another MAC", CLEARED)), stays(6)),
        Setup(peer="none"),
    ),
    Scene(
        "link-of-another",
        "Clear Virtual Links that lists the peer's N_Port arrives at the host: the host stays.",
        SOURCE,
        (*upto_peer(), Begin(Astray(CLEARED)), FALLS_SILENT, stays(8)),
        Setup(peer="there"),
    ),
)
