"""A wire that treats all frames badly."""
from .holding import ALIVE, AT_NAMES, AT_PEER, FABRIC_LOGIN, FIRST, FLOGI, IN_FABRIC, LATER, stays, upto_peer
from .script import ANY, Late, Lose, Scene, Setup, Straight, Twice, Wait, Want

SOURCE = "FC-BB-5, FIP; FC-FS-3, class 3: frames may be lost"

SCENES = (
    Scene(
        "lossy",
        "Each twentieth frame is lost, both ways, for 20 seconds: the host is logged in after it.",
        SOURCE,
        (Want(FLOGI, FIRST, FABRIC_LOGIN), Wait(20), Straight(), Want(ALIVE, 60), Want(ALIVE, 20, count=3)),
        Setup(peer="there", bends=(Lose(share=0.05), Lose(share=0.05, from_host=True))),
    ),
    Scene("all-twice", "Each frame arrives twice: the host logs in, at the peer too, and stays.", SOURCE, (*upto_peer(), stays(5)), Setup(peer="there", bends=(Twice(ANY),))),
    Scene(
        "all-late",
        "Each frame is late by 0.4 seconds: the host logs in, at the peer too, and stays.",
        SOURCE,
        (Want(FLOGI, FIRST, FABRIC_LOGIN), Want(AT_NAMES, LATER, IN_FABRIC), Want(AT_PEER, LATER, IN_FABRIC), stays(5)),
        Setup(peer="there", bends=(Late(0.4),)),
    ),
)
