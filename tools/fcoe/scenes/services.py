"""The name server, and the fabric's notices (RSCN)."""
from ..frames.heard import CONTROLLER, NAME_SERVER
from .acts import STARTS, STOPS
from .changes import both, in_payload, wrong_check
from .holding import AT_NAMES, AT_PEER, FABRIC_LOGIN, FIRST, FLOGI, IN_FABRIC, LATER, LINK_SERVICE, NEW_OX_ID, OWN_ADDRESS
from .holding import PRLI_PEER, QUERIES, REGISTERS, TO_PEER, WATCHES, WITH_FCP, answers, is_of_peer, stays, upto_login, upto_peer, upto_watching
from .script import All, Begin, Late, Like, Lose, Never, Rewrite, Scene, Setup, Twice, Want, kind

NAMES, NOTICES = "FC-GS-6, name server", "FC-LS-2, RSCN"
ANSWER = Like(("LS_ACC",), to=CONTROLLER, of="host", words="LS_ACC to the RSCN")
OF_PEER = Like(("LS_ACC",), to=CONTROLLER, of="host", test=is_of_peer, words="LS_ACC to the RSCN that names the peer")
ANSWERED = (*IN_FABRIC, answers("RSCN"))

SCENES = (
    Scene(
        "registers",
        "The host registers its address with the type of FCP, and asks to be told of changes (SCR).",
        f"{NAMES}; FC-LS-2, SCR",
        (*upto_login(), Want(REGISTERS, LATER, (*IN_FABRIC, OWN_ADDRESS, WITH_FCP)), All((WATCHES, QUERIES), LATER, IN_FABRIC)),
        Setup(peer="none"),
    ),
    Scene(
        "name-server-silent",
        "The answer to the PLOGI at the name server is lost: the host sends another, in an exchange of its own.",
        "FC-LS-2, PLOGI: 2 x R_A_TOV; FC-FS-3, exchange identifiers",
        (Want(FLOGI, FIRST, FABRIC_LOGIN), Want(AT_NAMES, LATER, IN_FABRIC), Want(AT_NAMES, LINK_SERVICE, (*IN_FABRIC, NEW_OX_ID)), Want(REGISTERS, LATER, IN_FABRIC)),
        Setup(peer="none", bends=(Lose(Like(("LS_ACC",), of=NAME_SERVER, words="LS_ACC of the name server"), 1),)),
    ),
    Scene(
        "names-slow",
        "The name server answers after three seconds: the host registers all the same.",
        NAMES,
        (*upto_login(), Want(REGISTERS, LATER, (*IN_FABRIC, OWN_ADDRESS)), Want(WATCHES, FIRST, IN_FABRIC), stays(2)),
        Setup(peer="none", bends=(Late(3.0, kind("CT accept")),)),
    ),
    Scene(
        "registration-rejected",
        "The name server rejects the first registration (05, busy): the host stays.",
        NAMES,
        (*upto_login(), Want(REGISTERS, LATER, (*IN_FABRIC, OWN_ADDRESS)), stays(6)),
        Setup(peer="none", bends=(Rewrite(both(in_payload(8, b"\x80\x01"), in_payload(13, b"\x05\0\0")), "a CT reject", kind("CT accept"), 1),)),
    ),
    *(
        Scene(
            f"notice-of-{name}",
            f"The RSCN of the peer's login names its {name}: the host accepts it, asks the name server, and logs in at the peer.",
            NOTICES,
            (
                *upto_watching(),
                Want(QUERIES, LATER),
                Begin(Rewrite(in_payload(4, bytes([form])), f"the {name}", kind("RSCN"))),
                STARTS,
                Want(OF_PEER, LATER, ANSWERED),
                Want(QUERIES, 10, IN_FABRIC),
                Want(AT_PEER, LATER, IN_FABRIC),
            ),
        )
        for name, form in (("area", 1), ("domain", 2), ("fabric", 3))
    ),
    Scene(
        "told-of-login",
        "The peer logs in: the host accepts the RSCN, asks the name server, and logs in at the peer.",
        NOTICES,
        (
            *upto_watching(),
            Want(QUERIES, LATER),
            STARTS,
            Want(OF_PEER, LATER, ANSWERED),
            Want(QUERIES, 10, IN_FABRIC),
            Want(AT_PEER, LATER, IN_FABRIC),
            Want(PRLI_PEER, LATER, IN_FABRIC),
        ),
    ),
    Scene(
        "told-twice",
        "Each RSCN arrives twice: the host logs in at the peer all the same.",
        NOTICES,
        (*upto_watching(), Want(QUERIES, LATER), Begin(Twice(kind("RSCN"))), STARTS, Want(OF_PEER, LATER, ANSWERED), Want(AT_PEER, LATER, IN_FABRIC), stays(3)),
    ),
    Scene(
        "notice-broken",
        "The CRC of RSCNs is wrong: they are discarded.",
        "FC-FS-3, CRC",
        (*upto_watching(), Want(QUERIES, LATER), Begin(Rewrite(wrong_check, "the CRC is wrong", kind("RSCN"))), STARTS, Never(ANSWER, 6)),
    ),
    Scene(
        "told-of-logout",
        "The peer logs out: the host accepts the RSCN, asks the name server, and sends nothing to the peer.",
        NOTICES,
        (*upto_peer(), STOPS, Want(OF_PEER, LATER, ANSWERED), Want(QUERIES, 10, IN_FABRIC), Never(TO_PEER, 4, 2)),
        Setup(peer="there"),
    ),
    Scene(
        "zone-closes",
        "20 seconds in a zone set is activated that parts both: the host accepts the RSCN, asks the name server, and sends nothing to the peer.",
        f"{NOTICES}; FC-GS-6, zoning",
        (*upto_peer(), Want(OF_PEER, 40, ANSWERED), Want(QUERIES, 10, IN_FABRIC), Never(TO_PEER, 4, 2)),
        Setup(peer="there", rezoned=20),
    ),
    Scene(
        "zone-opens",
        "20 seconds in a zone set is activated that joins both: the host accepts the RSCN, asks the name server, and logs in at the peer.",
        f"{NOTICES}; FC-GS-6, zoning",
        (*upto_watching(), Want(OF_PEER, 40, ANSWERED, without=AT_PEER), Want(QUERIES, 10, IN_FABRIC), Want(AT_PEER, LATER, IN_FABRIC), Want(PRLI_PEER, LATER, IN_FABRIC)),
        Setup(peer="there", zoned=False, rezoned=20),
    ),
    Scene(
        "not-zoned",
        "No zone has both: the host isn't told of the peer, and sends nothing to it.",
        "FC-GS-6, zoning",
        (*upto_watching(), Want(QUERIES, LATER), STARTS, Never(TO_PEER, 6)),
        Setup(zoned=False),
    ),
)
