"""Exchanges with another N_Port: PLOGI, PRLI, commands, link services, ABTS."""
from ..frames.heard import Heard
from .acts import ABORTS, ASKS_STRANGE, ECHOES, LOGS_OUT, REFUSES, REFUSES_PRLI
from .changes import in_payload, wrong_check
from .holding import AT_PEER, COMMAND, FABRIC_LOGIN, FIRST, FLOGI, IN_FABRIC, LATER, LINK_SERVICE, NEW_OX_ID, PRLI_PEER, answers, stays, upto_peer
from .script import FCOE, Astray, Begin, Bend, Holds, Like, Lose, Never, Rewrite, Scene, Setup, Wait, Want, World, kind

PLOGI, SERVICES, SEQUENCES, IDENTIFIERS = "FC-LS-2, PLOGI", "FC-LS-2", "FC-FS-3", "FC-FS-3, exchange identifiers"
THERE, COMMANDS = Setup(peer="there"), frozenset({"commands"})
RECEIVE = 512
IN_EXCHANGE = (*IN_FABRIC, NEW_OX_ID)
BASIC = Like(("BA_ACC", "BA_RJT"), to="peer", of="host", words="BA_ACC or BA_RJT to the peer")
USES = Like(("PRLI", "FCP_CMND", "FCP_DATA"), to="peer", of="host", words="PRLI or FCP to the peer")
GIVES_UP = Like(("ABTS", "REC", "LOGO"), to="peer", words="ABTS, REC or LOGO to the peer")
STORAGE = Like(("FCP_CMND", "FCP_DATA"), to="peer", of="host", words="FCP to the peer")
REPLY = Like(("LS_ACC", "LS_RJT"), to="peer", of="host", words="LS_ACC or LS_RJT to the peer")
LOSSES: tuple[tuple[str, str, Bend], ...] = (
    ("command-lost", "A command is lost", Lose(COMMAND, 1, from_host=True)),
    ("response-lost", "A response is lost", Lose(kind("FCP_RSP"), 1)),
    ("response-broken", "The CRC of a response is wrong", Rewrite(wrong_check, "the CRC is wrong", kind("FCP_RSP"), 1)),
    ("ready-lost", "What asks for data is lost", Lose(kind("FCP_XFER_RDY"), 1)),
    ("data-lost", "Data of a write are lost", Lose(kind("FCP_DATA", to="peer"), 1, from_host=True)),
)


def is_stray(heard: Heard, world: World) -> bool:
    """An answer to a frame that wasn't for its sender."""
    fc = heard.fc
    return fc is not None and not any(it.fc and (it.fc.d_id, it.fc.s_id, it.fc.ox_id) == (fc.s_id, fc.d_id, fc.ox_id) for it in world.told)


RESPONSES = Like(("LS_ACC", "LS_RJT", "FCP_RSP", "FCP_XFER_RDY", "BA_ACC"), is_fcoe=True, test=is_stray, words="answer to a frame for another")


def is_small(heard: Heard, _world: World) -> bool:
    return heard.fc is not None and len(heard.fc.payload) <= RECEIVE


SCENES = (
    Scene(
        "peer-login",
        "The host logs in at the peer (PLOGI, PRLI), each request in an exchange of its own.",
        f"{PLOGI}, PRLI",
        (Want(FLOGI, FIRST, FABRIC_LOGIN), Want(AT_PEER, FIRST, IN_EXCHANGE), Want(PRLI_PEER, LATER, IN_EXCHANGE)),
        THERE,
    ),
    Scene(
        "commands",
        "The host sends commands after PLOGI and PRLI, each in an exchange of its own.",
        f"FCP-4; {IDENTIFIERS}",
        (
            Want(AT_PEER, FIRST, IN_FABRIC, without=STORAGE),
            Want(PRLI_PEER, LATER, IN_FABRIC, without=STORAGE),
            Want(COMMAND, LATER, IN_EXCHANGE, 6),
            stays(2),
        ),
        THERE,
        COMMANDS,
    ),
    Scene(
        "small-frames",
        "The peer takes 512 bytes a frame: no frame to it has more.",
        f"{PLOGI}: receive data field size",
        (*upto_peer(), Want(kind("FCP_DATA", to="peer", of="host"), LATER, (*IN_FABRIC, Holds("512 bytes of payload at most", is_small)), 8)),
        Setup(peer="there", receive=RECEIVE),
        COMMANDS,
    ),
    *(
        Scene(
            name,
            f"{what}: the host ends that command by ABTS (or asks by REC, or logs out), and goes on.",
            "FCP-4, error detection and recovery",
            (*upto_peer(), Begin(bend), Want(GIVES_UP, 90, IN_FABRIC), Want(COMMAND, 60, IN_EXCHANGE)),
            THERE,
            COMMANDS,
        )
        for name, what, bend in LOSSES
    ),
    Scene(
        "target-busy",
        "The peer is busy (status 08) for three commands: the host goes on, each command in an exchange of its own.",
        "FCP-4, FCP_RSP; SAM, BUSY",
        (*upto_peer(), Begin(Rewrite(in_payload(11, b"\x08"), "status 08", kind("FCP_RSP"), 3)), Want(COMMAND, 60, IN_EXCHANGE, 5), stays(1)),
        THERE,
        COMMANDS,
    ),
    Scene(
        "peer-refuses",
        "The peer rejects PLOGIs: the host sends neither PRLI nor commands.",
        f"{PLOGI}, LS_RJT",
        (REFUSES, Want(AT_PEER, FIRST, IN_FABRIC), Never(USES, 5)),
        THERE,
    ),
    Scene(
        "peer-refuses-prli",
        "The peer rejects PRLIs: the host sends no commands.",
        "FC-LS-2, PRLI",
        (REFUSES_PRLI, Want(PRLI_PEER, FIRST, IN_FABRIC), Never(STORAGE, 5)),
        THERE,
    ),
    Scene(
        "peer-login-lost",
        "A PLOGI is lost: the host sends another, in an exchange of its own.",
        f"{PLOGI}: 2 x R_A_TOV; {IDENTIFIERS}",
        (Want(AT_PEER, FIRST, IN_FABRIC), Want(AT_PEER, LINK_SERVICE, IN_EXCHANGE), Want(PRLI_PEER, LATER, IN_FABRIC)),
        Setup(peer="there", bends=(Lose(AT_PEER, 1, from_host=True),)),
    ),
    Scene(
        "peer-logs-out",
        "The peer sends LOGO: the host accepts it, and sends no commands before another PLOGI.",
        "FC-LS-2, LOGO",
        (*upto_peer(), Wait(1), LOGS_OUT, Want(REPLY, LATER, (*IN_FABRIC, answers("LOGO"))), Never(STORAGE, 6, 0.3, until=AT_PEER)),
        THERE,
    ),
    Scene("echo", "The peer sends ECHO: the host answers.", f"{SERVICES}, ECHO", (*upto_peer(), ECHOES, Want(REPLY, LATER, (*IN_FABRIC, answers("ECHO")))), THERE),
    Scene(
        "echo-broken",
        "The CRC of the peer's ECHO is wrong: it is discarded.",
        f"{SEQUENCES}, CRC",
        (*upto_peer(), Begin(Rewrite(wrong_check, "the CRC is wrong", kind("ECHO"))), ECHOES, Never(REPLY, 4)),
        THERE,
    ),
    Scene(
        "strange-service",
        "The peer sends a link service that nobody knows: the host rejects it.",
        f"{SERVICES}, LS_RJT: command not supported",
        (*upto_peer(), ASKS_STRANGE, Want(Like(("LS_RJT",), to="peer", of="host", words="LS_RJT to the peer"), LATER, (*IN_FABRIC, answers("ELS")))),
        THERE,
    ),
    Scene(
        "abort",
        "The peer aborts an exchange that isn't open: the host answers with BA_ACC or BA_RJT.",
        f"{SEQUENCES}, ABTS",
        (*upto_peer(), ABORTS, Want(BASIC, LATER, (*IN_FABRIC, answers("ABTS")))),
        THERE,
    ),
    Scene(
        "astray",
        "Frames for the peer's MAC arrive at the host too: it answers none of them.",
        "FC-BB-5, FCoE: the destination's MAC",
        (*upto_peer(), Never(RESPONSES, 4)),
        Setup(peer="there", bends=(Astray(FCOE),)),
    ),
)
