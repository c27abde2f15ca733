"""What scenes ask of a host's frames, and the frames that they speak of."""
from ..frames.heard import ALL_FCFS, CONTROLLER, FABRIC_PORT, NAME_SERVER, Heard, fc_check, number
from .script import FCOE, Holds, Like, Never, Step, Want, World, kind

FP, LEAST_SIZE = 0x8000, 2112 + 28  # of a solicitation: an FC frame of full size with what FCoE adds
FCP_BIT = 0x01
LAST_ANSWER = 0x900000  # F_CTL: of the exchange's responder, last sequence

FIRST = 30.0  # seconds that a host has for its first frames, and for a repetition
LATER = 20.0  # for what follows
LINK_SERVICE = 30.0  # for the repetition of a link service: 2 x R_A_TOV and a half
E_D_TOV = 2.0


def in_vlan(heard: Heard, world: World) -> bool:
    return heard.vlan == world.vlan


def own_descriptor(heard: Heard, world: World) -> bool:
    """FIP from the ENode's MAC, which its MAC descriptor has too."""
    found = heard.descriptor(2)
    return heard.source == world.mac and found is not None and found.data[2:8] == heard.source


def is_granted_mac(heard: Heard, world: World) -> bool:
    """FCoE from the MAC that was granted with its S_ID."""
    return heard.fc is not None and world.granted.get(heard.fc.s_id) == heard.source


def has_new_ox_id(heard: Heard, world: World) -> bool:
    """No exchange with this OX_ID is open between the two: each earlier one has had its last sequence."""
    if heard.fc is None:
        return False
    own = (heard.fc.s_id, heard.fc.d_id, heard.fc.ox_id)
    begun = [it for it in world.said if it is not heard and it.kind == heard.kind and it.fc and (it.fc.s_id, it.fc.d_id, it.fc.ox_id) == own]
    ended = [it for it in world.told if it.fc and it.fc.f_ctl & LAST_ANSWER == LAST_ANSWER and (it.is_fip or (it.fc.d_id, it.fc.s_id) == own[:2]) and it.fc.ox_id == own[2]]
    return len(begun) <= len(ended)


def is_sized(heard: Heard, _world: World) -> bool:
    size, name = heard.descriptor(6), heard.descriptor(4)
    return size is not None and name is not None and number(size.data[2:4]) >= LEAST_SIZE


def is_first_login(heard: Heard, _world: World) -> bool:
    """FLOGI: S_ID 0, D_ID FFFFFE."""
    return heard.fc is not None and heard.fc.s_id == 0 and heard.fc.d_id == FABRIC_PORT


def answers(kinds: str) -> Holds:
    """An answer in the exchange of the last such request."""

    def test(heard: Heard, world: World) -> bool:
        asked = [it.fc for it in world.told if it.kind == kinds and it.fc is not None]
        return heard.fc is not None and any(it.ox_id == heard.fc.ox_id and it.s_id == heard.fc.d_id for it in asked)

    return Holds(f"in the exchange of the {kinds}", test)


def has_own_address(heard: Heard, _world: World) -> bool:
    """A registration of the sender's own address."""
    return heard.fc is not None and number(heard.fc.payload[17:20]) == heard.fc.s_id


def has_storage(heard: Heard, _world: World) -> bool:
    """RFT_ID with the bit of FCP (type 8)."""
    return heard.fc is not None and heard.fc.payload[22] & FCP_BIT == FCP_BIT


def is_port_alive(heard: Heard, world: World) -> bool:
    """A keep alive of a VN_Port: its MAC, its address and its name in the descriptor."""
    found = heard.descriptor(11)
    if found is None:
        return False
    mac, address, name = found.data[2:8], number(found.data[9:12]), found.data[12:20]
    return heard.source == mac == world.granted.get(address, b"") and name in world.names


def is_beginning(heard: Heard, world: World) -> bool:
    """A solicitation to another forwarder asks for its size; a host that is logged in may send it."""
    return heard.kind != "Solicitation" or heard.destination in (ALL_FCFS, world.shown)


def names_peer(payload: bytes, world: World) -> bool:
    """A page of an RSCN that has the peer in it: its address, its area, its domain, or the whole fabric."""
    for at in range(4, len(payload) - 3, 4):
        size = 8 * (payload[at] & 3)
        if number(payload[at + 1 : at + 4]) >> size == world.peer_address >> size:
            return True
    return False


def is_of_peer(heard: Heard, world: World) -> bool:
    """The answer to an RSCN that has the peer in it."""
    told = [it.fc for it in world.told if it.kind == "RSCN" and it.fc is not None and names_peer(it.fc.payload, world)]
    return heard.fc is not None and any((it.s_id, it.d_id, it.ox_id) == (heard.fc.d_id, heard.fc.s_id, heard.fc.ox_id) for it in told)


def is_sound(heard: Heard, _world: World) -> bool:
    fc = heard.fc
    return fc is not None and fc_check(heard.data[fc.at : fc.end]) == heard.data[fc.end : fc.end + 4]


UNTAGGED = Holds("untagged or in VLAN 0", lambda heard, _: heard.vlan == 0)
IN_VLAN = Holds("in the VLAN that was told", in_vlan)
FROM_ENODE = Holds("from the ENode's MAC, also in its descriptor", own_descriptor)
FROM_ENODE_MAC = Holds("from the ENode's MAC", lambda heard, world: heard.source == world.mac)
TO_FORWARDERS = Holds("to All-FCF-MACs or the forwarder's MAC", lambda heard, world: heard.destination in (ALL_FCFS, world.shown))
TO_FORWARDER = Holds("to the forwarder's MAC", lambda heard, world: heard.destination == world.shown)
OWN_MAC = Holds("from the MAC granted with its S_ID", is_granted_mac)
ASKS_FP = Holds("with the FP flag", lambda heard, _: bool(heard.flags & FP))
SIZED = Holds("with its name and the size of a full frame", is_sized)
NEW_OX_ID = Holds("with an OX_ID of its own", has_new_ox_id)
FIRST_LOGIN = Holds("S_ID 000000 and D_ID FFFFFE", is_first_login)
OWN_ADDRESS = Holds("of the sender's own address", has_own_address)
WITH_FCP = Holds("with the type of FCP", has_storage)
PORT_ALIVE = Holds("from the granted MAC, with address and port name", is_port_alive)
SOUND = Holds("with its right CRC", is_sound)
FABRIC_LOGIN = (IN_VLAN, TO_FORWARDER, FROM_ENODE_MAC, ASKS_FP, FIRST_LOGIN)
IN_FABRIC = (IN_VLAN, TO_FORWARDER, OWN_MAC, SOUND)

VLANS, SOLICITS, FLOGI, FDISC, LOGIN = kind("VLAN request"), kind("Solicitation"), kind("FLOGI"), kind("FDISC"), kind("FLOGI", "FDISC")
ALIVE, PORT_KEEP = kind("Keep alive"), kind("VN_Port keep alive")
TOLD, ADVERTISED, ACCEPTED, CLEARED = kind("VLAN notification"), kind("Advertisement"), kind("FLOGI accept"), kind("Clear links")
ADVERTISED_ALONE, ADVERTISED_ALL = kind("Advertisement", to_all=False, words="solicited advertisement"), kind("Advertisement", to_all=True, words="advertisement to all")
AT_NAMES, REGISTERS, WATCHES = kind("PLOGI", to=NAME_SERVER, of="host"), kind("RFT_ID", of="host"), kind("SCR", to=CONTROLLER, of="host")
QUERIES = Like(("GPN_FT", "GID_FT", "GNN_FT", "GID_PT", "GA_NXT", "GPN_ID", "GID_PN", "GNN_ID"), of="host", words="query of the name server")
AT_PEER, PRLI_PEER, COMMAND = kind("PLOGI", to="peer", of="host"), kind("PRLI", to="peer", of="host"), kind("FCP_CMND", to="peer", of="host")
TO_PEER = Like(to="peer", is_fcoe=True, words="FCoE to the peer")
STARTS_ANEW = Like(("VLAN request", "Solicitation", "FLOGI"), test=is_beginning, words="new beginning (VLAN request, solicitation or FLOGI)")


def upto_login() -> tuple[Step, ...]:
    """The host logs in, and enters the name server."""
    return (Want(FLOGI, FIRST, FABRIC_LOGIN), Want(AT_NAMES, LATER, IN_FABRIC))


def upto_watching() -> tuple[Step, ...]:
    """The host is told of changes from here on."""
    return (*upto_login(), Want(WATCHES, LATER, IN_FABRIC))


def upto_peer() -> tuple[Step, ...]:
    """The host is logged in at the peer."""
    return (Want(FLOGI, FIRST, FABRIC_LOGIN), Want(AT_PEER, FIRST, IN_FABRIC), Want(PRLI_PEER, LATER, IN_FABRIC))


def stays(seconds: float) -> Step:
    """The host stays logged in."""
    return Never(STARTS_ANEW, seconds)


def quiet(seconds: float, grace: float) -> Step:
    """No frame of a login that is over."""
    return Never(FCOE, seconds, grace)
