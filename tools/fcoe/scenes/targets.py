"""The host as a target: another N_Port logs in at it, and asks and commands it."""
from .acts import ABORTS, ABORTS_OPEN, ASKS_ADISC, ASKS_PDISC, ASKS_PLOGI, ASKS_REC, ASKS_RLS, ASKS_RTV, ASKS_STRANGE, ECHOES, LOGS_OUT, PROCESS_LOGS_OUT, STARTS, STOPS
from .changes import wrong_check
from .holding import FABRIC_LOGIN, FIRST, FLOGI, IN_FABRIC, LATER, answers
from .script import Begin, Like, Never, Peer, Rewrite, Scene, Setup, Step, Wait, Want, kind

SERVICES, STORAGE, BASIC = "FC-LS-2", "FCP-4", "FC-FS-3, ABTS"
ASKED = Setup(peer="there", peer_role="initiator")
NEEDS = frozenset({"target"})
REPLY = Like(("LS_ACC", "LS_RJT"), to="peer", of="host", words="LS_ACC or LS_RJT to the peer")
ACCEPTS = Like(("LS_ACC",), to="peer", of="host", words="LS_ACC to the peer")
DONE = kind("FCP_RSP", to="peer", of="host")
TAKES = kind("FCP_XFER_RDY", to="peer")  # of any of its N_Ports
DONE_ANY = kind("FCP_RSP", to="peer")
GIVES = kind("FCP_DATA", to="peer", of="host")
ANY_STORAGE = Like(("FCP_RSP", "FCP_DATA", "FCP_XFER_RDY"), to="peer", of="host", words="FCP to the peer")
ABORTED = Like(("BA_ACC", "BA_RJT"), to="peer", of="host", words="BA_ACC or BA_RJT to the peer")


def upto_commands() -> tuple[Step, ...]:
    """The peer has logged in at the host, and its commands are answered."""
    return (Want(FLOGI, FIRST, FABRIC_LOGIN), Want(ACCEPTS, FIRST, (*IN_FABRIC, answers("PLOGI"))), Want(DONE, FIRST, IN_FABRIC))


def asked(name: str, what: str, act: Peer, request: str) -> Scene:
    """The peer asks something, and the host answers."""
    return Scene(name, f"The peer {what}: the host answers.", f"{SERVICES}, {request}", (*upto_commands(), act, Want(REPLY, LATER, (*IN_FABRIC, answers(request)))), ASKED, NEEDS)


SCENES = (
    Scene(
        "target-login",
        "The peer logs in at the host (PLOGI, PRLI): the host accepts both.",
        f"{SERVICES}, PLOGI, PRLI",
        (Want(FLOGI, FIRST, FABRIC_LOGIN), Want(ACCEPTS, FIRST, (*IN_FABRIC, answers("PLOGI"))), Want(ACCEPTS, LATER, (*IN_FABRIC, answers("PRLI")))),
        ASKED,
        NEEDS,
    ),
    Scene("target-reads", "The peer reads: the host sends data and FCP_RSP.", f"{STORAGE}, FCP_DATA", (*upto_commands(), Want(GIVES, LATER, IN_FABRIC), Want(DONE, LATER, IN_FABRIC)), ASKED, NEEDS),
    Scene(
        "target-writes",
        "The peer writes: the host asks for the data, and sends FCP_RSP behind them.",
        f"{STORAGE}, FCP_XFER_RDY",
        (*upto_commands(), Want(TAKES, LATER, IN_FABRIC), Want(DONE_ANY, LATER, IN_FABRIC)),
        ASKED,
        NEEDS,
    ),
    asked("target-echo", "sends ECHO", ECHOES, "ECHO"),
    asked("target-adisc", "sends ADISC", ASKS_ADISC, "ADISC"),
    asked("target-pdisc", "sends PDISC", ASKS_PDISC, "PDISC"),
    asked("target-rtv", "sends RTV", ASKS_RTV, "RTV"),
    asked("target-rls", "sends RLS", ASKS_RLS, "RLS"),
    asked("target-rec", "sends REC", ASKS_REC, "REC"),
    asked("target-strange", "sends a link service that nobody knows", ASKS_STRANGE, "ELS"),
    asked("target-prlo", "sends PRLO", PROCESS_LOGS_OUT, "PRLO"),
    Scene(
        "target-aborted",
        "The peer aborts a command that is open or just over: the host answers with BA_ACC or BA_RJT.",
        BASIC,
        (*upto_commands(), ABORTS_OPEN, Want(ABORTED, LATER, (*IN_FABRIC, answers("ABTS")))),
        ASKED,
        NEEDS,
    ),
    Scene("target-abort", "The peer aborts an exchange that isn't open: the host answers.", BASIC, (*upto_commands(), ABORTS, Want(ABORTED, LATER, (*IN_FABRIC, answers("ABTS")))), ASKED, NEEDS),
    asked("target-plogi-again", "sends a further PLOGI", ASKS_PLOGI, "PLOGI"),
    Scene(
        "target-command-broken",
        "The CRC of the peer's commands is wrong: the host answers none.",
        "FC-FS-3, CRC",
        (*upto_commands(), Begin(Rewrite(wrong_check, "the CRC is wrong", kind("FCP_CMND"))), Wait(1), Never(ANY_STORAGE, 3)),
        ASKED,
        NEEDS,
    ),
    Scene(
        "target-login-again",
        "The peer logs out at the fabric, and in again: the host accepts its PLOGI and PRLI.",
        f"{SERVICES}, PLOGI, PRLI",
        (*upto_commands(), STOPS, Wait(1), STARTS, Want(ACCEPTS, FIRST, (*IN_FABRIC, answers("PLOGI"))), Want(ACCEPTS, LATER, (*IN_FABRIC, answers("PRLI")))),
        ASKED,
        NEEDS,
    ),
    Scene(
        "target-logged-out",
        "The peer sends LOGO: the host accepts it, and sends no data and no FCP_RSP behind it.",
        f"{SERVICES}, LOGO",
        (*upto_commands(), LOGS_OUT, Want(REPLY, LATER, (*IN_FABRIC, answers("LOGO"))), Wait(0.2), Never(ANY_STORAGE, 1.5)),
        ASKED,
        NEEDS,
    ),
)
