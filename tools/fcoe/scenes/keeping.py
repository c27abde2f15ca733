"""Keep alives, and a forwarder that falls silent."""
from .changes import in_descriptor, period
from .holding import ADVERTISED_ALL, ALIVE, FABRIC_LOGIN, FIRST, FLOGI, FROM_ENODE, IN_VLAN, PORT_ALIVE, PORT_KEEP, TO_FORWARDER, quiet, stays, upto_login
from .script import ANY, Again, Begin, Like, Lose, Never, OtherMac, Rewrite, Scene, Setup, Spaced, Straight, Wait, Want, kind

SOURCE, SILENCE = "FC-BB-5, FIP keep alive", "FC-BB-5, FIP discovery: 2.5 periods without an advertisement"
OTHER = bytes.fromhex("00051e0000ee")
LOOKS = Like(("Solicitation", "VLAN request"), words="solicitation or VLAN request")
KEEPS = Like(("Keep alive", "VN_Port keep alive"), words="keep alive")
BEATS = Want(ALIVE, FIRST, (IN_VLAN, TO_FORWARDER, FROM_ENODE))
QUIET = in_descriptor(12, 3, b"\x01")
CUT = (Begin(Lose(ANY)), Begin(Lose(ANY, from_host=True)), Wait(0.8), Straight(), Wait(2))

SCENES = (
    Scene("keep-alive", "The period is a second: keep alives come each second.", SOURCE, (*upto_login(), BEATS, Spaced(ALIVE, 6, 0.3, 1.6))),
    Scene("keep-alive-slow", "The period is three seconds: keep alives come each three.", SOURCE, (*upto_login(), BEATS, Spaced(ALIVE, 4, 1.5, 4.5)), Setup(period=3000)),
    Scene(
        "keep-alive-fast",
        "The period is 250 ms, the least there is: keep alives come as often.",
        SOURCE,
        (*upto_login(), BEATS, Spaced(ALIVE, 8, 0.05, 0.6)),
        Setup(period=250),
    ),
    Scene("keep-alive-slowest", "The period is 90 seconds, the longest there is: the host logs in, and stays.", SOURCE, (*upto_login(), stays(10)), Setup(period=90_000)),
    Scene(
        "period-changes",
        "The advertised period changes from two seconds to 0.6: keep alives come faster.",
        SOURCE,
        (*upto_login(), Begin(Again(period(600), "a period of 600 ms", 0.6, 4, ADVERTISED_ALL)), Want(ALIVE, FIRST, count=4), Spaced(ALIVE, 6, 0.1, 1.1)),
        Setup(period=2000),
    ),
    Scene(
        "port-keep-alive",
        "Within 90 seconds a keep alive of the VN_Port comes (the scene takes that long).",
        SOURCE,
        (*upto_login(), Want(PORT_KEEP, 95, (IN_VLAN, TO_FORWARDER, PORT_ALIVE))),
    ),
    Scene(
        "quiet",
        "Advertisements say by D that no keep alives are owed: the host logs in, and stays.",
        "FC-BB-5, FIP discovery: D",
        (*upto_login(), stays(5)),
        Setup(period=3000, bends=(Rewrite(QUIET, "D is set", kind("Advertisement")),)),
    ),
    Scene(
        "quiet-for-a-while",
        "D is set for some seconds, and cleared: the host stays, and its keep alives come.",
        "FC-BB-5, FIP discovery: D",
        (*upto_login(), BEATS, Begin(Rewrite(QUIET, "D is set", kind("Advertisement"))), stays(4), Straight(), Want(ALIVE, FIRST, (IN_VLAN, TO_FORWARDER, FROM_ENODE), 2)),
        Setup(period=3000),
    ),
    Scene("cut-short", "Nothing arrives either way for less than a second: the host stays.", SILENCE, (*upto_login(), BEATS, *CUT, stays(5)), Setup(period=2000)),
    Scene("cut-thrice", "Thrice nothing arrives either way for less than a second: the host stays.", SILENCE, (*upto_login(), BEATS, *CUT, *CUT, *CUT, stays(4)), Setup(period=2000)),
    Scene("advertisement-lost", "One advertisement is lost: the host stays.", SILENCE, (*upto_login(), Wait(2.5), Begin(Lose(ADVERTISED_ALL, 1)), stays(6))),
    Scene(
        "forwarder-silent",
        "The forwarder falls silent: the host ends its logins, looks for a forwarder, and logs in once it is back.",
        SILENCE,
        (*upto_login(), BEATS, Begin(Lose(ANY)), Want(LOOKS, 15), quiet(3, 0.5), Never(KEEPS, 1), Straight(), Want(FLOGI, FIRST, FABRIC_LOGIN), BEATS),
    ),
    Scene(
        "advertisements-cease",
        "Advertisements cease, all else arrives: the host ends its logins, and doesn't log in without an advertisement.",
        SILENCE,
        (*upto_login(), BEATS, Begin(Lose(kind("Advertisement"))), Want(LOOKS, 15), quiet(3, 0.5), Never(FLOGI, 2), Straight(), Want(FLOGI, FIRST, FABRIC_LOGIN)),
    ),
    Scene(
        "other-mac",
        "The forwarder comes back with another MAC: the host logs in there, and sends nothing to the old one.",
        SILENCE,
        (*upto_login(), BEATS, Begin(OtherMac(OTHER)), Want(FLOGI, FIRST, FABRIC_LOGIN), Want(ALIVE, FIRST, (IN_VLAN, TO_FORWARDER, FROM_ENODE)), stays(4)),
    ),
)
