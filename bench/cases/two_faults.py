"""Requests with two faults at once, and which of the two is told: part of bench/cases/fabric_cases.

The order of the tests is that of docs/JOURNAL.md: the rules of dropping, and behind them the codes of rejects. A request is made of named fields, and a fault is other
values of some of them; two faults that change one field are no pair. Whether FIP and a link service can be read bench/cases/codec_judge.py says.
"""
import itertools
import pathlib
import re
import zlib

import codec_judge
import wire

FORWARDER, ALL_FCFS, OTHER = bytes.fromhex("00051e000002"), bytes.fromhex("011018010002"), bytes.fromhex("00051e000003")
FABRIC, CONTROLLER, NAMES = b"\xff\xff\xfe", b"\xff\xff\xfd", b"\xff\xff\xfc"
FIP_RULES = {"Version": "fip-version", "Operation": "fip-operation", "ListLength": "fip-list", "DescLength": "fip-length", "Critical": "fip-critical",
             "Double": "fip-double", "Missing": "fip-missing"}
JOURNAL = pathlib.Path(__file__).resolve().parents[2] / "docs/JOURNAL.md"


def journal_rules():
    """The rules of dropping in the order of the page, and whether a number stands behind each."""
    section = re.search(r"^## Rules of dropping$(.*?)^## ", JOURNAL.read_text(encoding="utf-8"), re.M | re.S)
    return {rule: bool(number) for rule, number in re.findall(r"^\| `([a-z-]+)( NUMBER)?` \|", section[1], re.M)}


LOGIN_ORDER = ["dropped " + rule for rule in journal_rules()]
LOGIN_ORDER += ["rejected " + codes for codes in ("0b 2c", "09 00", "0b 00", "03 00", "09 29")]
FCOE_ORDER = ["dropped " + rule for rule in """vlan fcoe-length fcoe-version fcoe-sof fcoe-eof fcoe-crc fcoe-class fcoe-dest source-mac source-login source-port
service-address service-frame els-short ct-short self dest-login zone""".split()]
FCOE_ORDER += ["rejected " + codes for codes in ("0b 2c", "0b 00", "03 00")]
FCOE_ORDER += ["refused " + codes for codes in ("09 10", "0b 00", "04 00", "09 01", "09 03", "09 07", "09 02", "09 00")]


# ---- four nodes, of which node N is on port N; the first three log in, and a zone joins the first two


def mac_of(node):
    return bytes.fromhex("001b210000") + bytes([9 + node])


def name_of(node, more=0):
    return bytes([0x20, more]) + bytes.fromhex("001b210000") + bytes([9 + node])


def node_name(node):
    return b"\x10\0" + name_of(node)[2:]


def address_of(node):
    return bytes([1, 1, node - 1])


def granted(address):
    return bytes.fromhex("0efc00") + address


# ---- frames of fields


def in_vlan(f, source, kind, body):
    return wire.ethernet(f["dst"], source, int.from_bytes(kind, "big"), body, f["vlan"], priority=0)


def fc_frame(f, payload):
    d_id, s_id = (int.from_bytes(f[it], "big") for it in ("d_id", "s_id"))
    return wire.Head(f["r_ctl"], d_id, s_id, f["type"], wire.REQUEST, 1).bytes() + payload


def parameters(f):
    """The payload of a FLOGI, FDISC or PLOGI."""
    head = bytes([f["command"], 0, 0, 0, 0x20, 0x20, 0, 0, 0x80, 0]) + f["size"].to_bytes(2, "big") + bytes(8)
    return head + f["name"] + f["node"] + bytes(32) + bytes([f["class3"]]) + bytes(47)


def logout(f):
    return bytes([f["command"], 0, 0, 0, 0]) + f["names"] + f["name"]


def state_change(f):
    return bytes([f["command"], 0, 0, 0, 0, 0, 0, f["function"]])


def common_transport(f):
    return bytes([1, 0, 0, 0, f["gs"], f["subtype"], 0, 0]) + f["code"].to_bytes(2, "big") + bytes(6) + b"".join(f[part] for part in ("first", "second"))


def whole(f, payload):
    """The payload, but for what is cut off."""
    return payload[: f["keep"] if f["keep"] >= 0 else len(payload) + f["keep"]] if f["keep"] is not None else payload


def fip(f, operation, descriptors):
    words = len(descriptors) // 4 + f["longer"]
    body = bytes([f["version"], 0, 0, operation, 0, f["subcode"]]) + words.to_bytes(2, "big") + f["flags"].to_bytes(2, "big") + descriptors
    return in_vlan(f, f["src"], b"\x89\x14", body)


def login(f):
    payload = whole(f, (logout if f["kind"] == 9 else parameters)(f))
    frame = fc_frame(f, payload)
    own = b"" if f["mac"] is None else bytes([2, f["mac_words"]]) + f["mac"]
    return fip(f, 2, bytes([f["kind"], 1 + len(frame) // 4, 0, 0]) + frame + own + f["more"]), payload


def alive(f):
    port = b"" if f["vx"] is None else bytes([11, 5]) + f["vx_mac"] + b"\0" + f["vx"] + f["name"]
    return fip(f, 3, bytes([2, f["mac_words"]]) + f["mac"] + port + f["more"]), None


def fcoe(f):
    payload = whole(f, f["payload"](f))
    frame = fc_frame(f, payload)
    body = bytes([f["fcoe_version"]]) + bytes(12) + bytes([f["sof"]]) + frame + (zlib.crc32(frame) ^ f["damage"]).to_bytes(4, "little") + bytes([f["eof"], 0, 0, 0])
    return in_vlan(f, f["src"] or granted(f["s_id"]), b"\x89\x06", body + f["trail"]), payload if f["type"] == 1 else None


# ---- what is told


def fault_of(read, data):
    try:
        read(data)
    except codec_judge.Fault as fault:
        return re.match(r"(\w+)(?: \{ \w+: (\d+))?", str(fault)).groups()
    return None


def told(order, frame, service, verdicts):
    """The fault of FIP, or the first of these verdicts; one more is that the link service can't be read."""
    unread = frame[16:18] == b"\x89\x14" and fault_of(codec_judge.read_fip, frame[18:])
    if unread:
        return "dropped " + FIP_RULES[unread[0]] + (f" {unread[1]}" if unread[1] else "")
    if service is not None and fault_of(codec_judge.read_els, service):
        verdicts = [*verdicts, "dropped els-short"]
    return min(verdicts, key=order.index, default=None)


class Steps:
    """Frames of a fabric, port by port, each with its verdict."""

    def __init__(self):
        self.counts = {}

    def step(self, port, frame, verdict):
        index = self.counts.get(port, 0)
        self.counts[port] = index + 1
        return f"fabric step {port} {index} whole {frame.hex()}", ["= " + f"{port} {index} {verdict}"]

    def faulty(self, made, order, request, faults, most=2, always=()):
        """A request with each fault alone and with two, unless these are none together."""
        for count in range(0 if always else 1, most + 1):
            for chosen in itertools.combinations(faults, count):
                fields = [field for _, changes in chosen for field in changes]
                if len(set(fields)) < len(fields):
                    continue
                f = {**request, **{field: value for _, changes in chosen for field, value in changes.items()}}
                frame, service = made(f)
                verdict = told(order, frame, service, [it for it, _ in chosen if it] + list(always))
                if verdict:
                    yield self.step(f["port"], frame, verdict)

    def right(self, made, request, verdict):
        return self.step(request["port"], made(request)[0], verdict)


def remark(text):
    return "# " + text, ["= # " + text]


def configured(*more):
    lines = ["fcf-mac 00:05:1e:00:00:02", "vlan 100", "switch 10:00:00:05:1e:00:00:02", *more]
    lines.append(f"zone z {name_of(1).hex(':')} {name_of(2).hex(':')}")
    yield "config new", ["= new"]
    for line in lines:
        yield "config " + line, ["= noted"]


def opened(steps, *more):
    """A fabric of four ports on which the first three nodes are logged in."""
    yield from configured(*more)
    yield "fabric open 4", ["= open"]
    yield "fabric tick 1000", ["= ended 0"]
    for node in (1, 2, 3):
        yield steps.right(login, flogi_of(node), "granted " + address_of(node).hex())


# ---- logins in FIP

OVER_FIP = {"dst": FORWARDER, "vlan": 100, "version": 0x10, "subcode": 1, "flags": 0x8000, "longer": 0, "mac_words": 2, "more": b"", "keep": None}


def flogi_of(node):
    return {**OVER_FIP, "port": node, "src": mac_of(node), "kind": 7, "r_ctl": 0x22, "d_id": FABRIC, "s_id": bytes(3), "type": 1, "command": 4, "size": 0x840,
            "name": name_of(node), "node": node_name(node), "class3": 0x80, "mac": bytes(6)}


def fdisc_of(node, more):
    return {**flogi_of(node), "kind": 8, "command": 0x51, "name": name_of(node, more)}


def logo_of(node):
    return {**flogi_of(node), "kind": 9, "command": 5, "s_id": address_of(node), "names": address_of(node), "mac": granted(address_of(node))}


def alive_of(node, vx):
    return {**OVER_FIP, "flags": 0, "port": node, "src": granted(address_of(node)) if vx else mac_of(node), "mac": mac_of(node), "name": name_of(node),
            "vx": address_of(node) if vx else None, "vx_mac": granted(address_of(node))}


UNREAD = [(None, {"version": 0x20}), (None, {"subcode": 3}), (None, {"longer": 1}), (None, {"mac_words": 3}), (None, {"mac_words": 0}),
          (None, {"more": bytes([100, 1, 0, 0])}), (None, {"more": bytes([2, 2]) + mac_of(1)})]
PLACED = [("dropped vlan", {"vlan": 101}), ("dropped vlan", {"vlan": 0}), ("dropped fip-dest", {"dst": OTHER}), ("dropped fip-dest", {"dst": ALL_FCFS})]
KINDS = [("dropped els-kind", {"r_ctl": 0x23}), ("dropped els-kind", {"type": 0x20}), ("dropped els-kind", {"d_id": CONTROLLER})]
PARMS = [(None, {"mac": None}), (None, {"keep": 112}), (None, {"keep": 0}), *KINDS, ("dropped els-kind", {"command": 0x78}),
         ("dropped els-kind", {"s_id": address_of(1)}), ("rejected 0b 2c", {"flags": 0}), ("rejected 0b 00", {"class3": 0}), ("rejected 03 00", {"name": bytes(8)}),
         ("rejected 03 00", {"name": name_of(2)})]
FLOGI_FAULTS = UNREAD + PLACED + PARMS + [("dropped els-kind", {"command": 0x51})]
FDISC_FAULTS = UNREAD + PLACED + PARMS + [("dropped els-kind", {"command": 4}), ("rejected 09 00", {"src": mac_of(4)}), ("rejected 09 00", {"port": 2})]
LOGO_FAULTS = UNREAD + PLACED + KINDS + [
    (None, {"mac": None}), (None, {"keep": 12}), (None, {"keep": 0}), ("dropped els-kind", {"command": 0x78}),
    (None, {"command": 4}), ("rejected 03 00", {"s_id": address_of(2)}), ("rejected 03 00", {"s_id": address_of(9)}),
    ("rejected 03 00", {"names": address_of(2)}), ("rejected 03 00", {"name": name_of(2)}), ("rejected 03 00", {"mac": granted(address_of(2))}),
    ("rejected 03 00", {"src": mac_of(4)}), ("rejected 03 00", {"port": 2})]
UNKNOWN = "dropped keepalive-unknown"
NODE_FAULTS = UNREAD + PLACED + [("dropped fip-mac", {"mac": mac_of(4)}), ("dropped fip-mac", {"src": mac_of(3)}), (UNKNOWN, {"port": 2})]
PORT_FAULTS = UNREAD + PLACED + [
    (UNKNOWN, {"port": 2}), (UNKNOWN, {"mac": mac_of(4)}), (UNKNOWN, {"src": mac_of(1)}), (UNKNOWN, {"vx": address_of(2)}), (UNKNOWN, {"vx": address_of(9)}),
    (UNKNOWN, {"vx_mac": granted(address_of(2))}), (UNKNOWN, {"name": name_of(2)})]


def logins():
    steps = Steps()
    yield remark("FC-LS-2, FLOGI and FDISC; FC-BB-5, FIP: two faults at once. First what FIP and its frame are, then the codes in their order.")
    yield from opened(steps)
    yield remark("FLOGI of a new node")
    yield from steps.faulty(login, LOGIN_ORDER, flogi_of(4), FLOGI_FAULTS)
    yield remark("FDISC of a node that is logged in")
    yield from steps.faulty(login, LOGIN_ORDER, fdisc_of(1, 1), FDISC_FAULTS)
    yield remark("LOGO in FIP")
    yield from steps.faulty(login, LOGIN_ORDER, logo_of(1), LOGO_FAULTS)
    yield remark("FC-BB-5, keep alive of an ENode, and of an N_Port")
    yield from steps.faulty(alive, LOGIN_ORDER, alive_of(1, False), NODE_FAULTS)
    yield from steps.faulty(alive, LOGIN_ORDER, alive_of(1, True), PORT_FAULTS)
    yield remark("The same without a fault")
    yield steps.right(alive, alive_of(1, False), "alive")
    yield steps.right(alive, alive_of(1, True), "alive 010100")
    yield steps.right(login, flogi_of(4), "granted 010103")
    yield steps.right(login, fdisc_of(1, 1), "granted 010104")
    yield steps.right(login, logo_of(1), "logout 010100")
    for line, says in [("limit 3", "as many logins are live as may be"), ("pool 3", "no address is free")]:
        steps = Steps()
        yield remark(f"Each fault of a FLOGI and of an FDISC where {says}: that is told last.")
        yield from opened(steps, line)
        yield from steps.faulty(login, LOGIN_ORDER, flogi_of(4), FLOGI_FAULTS, 1, ["rejected 09 29"])
        yield from steps.faulty(login, LOGIN_ORDER, fdisc_of(1, 1), FDISC_FAULTS, 1, ["rejected 09 29"])
        yield remark("A FLOGI of a node that is logged in ends its own login first.")
        yield steps.right(login, flogi_of(3), "granted 010102")


# ---- frames in FCoE

OVER_FCOE = {"port": 1, "dst": FORWARDER, "src": None, "vlan": 100, "fcoe_version": 0, "sof": 0x2E, "eof": 0x42, "damage": 0, "trail": b"", "s_id": address_of(1),
             "keep": None}
CARRIED = [("vlan", {"vlan": 101}), ("fcoe-length", {"trail": bytes(2)}), ("fcoe-version", {"fcoe_version": 0x10}), ("fcoe-sof", {"sof": 0x2F}), ("fcoe-eof", {"eof": 0x43}),
           ("fcoe-crc", {"damage": 1}), ("fcoe-class", {"sof": 0x2D}), ("fcoe-class", {"eof": 0x49}), ("fcoe-dest", {"dst": OTHER}),
           ("source-mac", {"src": granted(address_of(2))}), ("source-login", {"s_id": address_of(9)}), ("source-port", {"port": 2})]
CARRIED = [("dropped " + rule, changes) for rule, changes in CARRIED]
SERVED = [("dropped service-address", {"d_id": b"\xff\xff\xfa"}), ("dropped service-frame", {"sof": 0x36}), ("dropped service-frame", {"eof": 0x41}),
          ("dropped service-frame", {"r_ctl": 0x32})]


def els(d_id, payload, **fields):
    return {**OVER_FCOE, "d_id": d_id, "r_ctl": 0x22, "type": 1, "payload": payload, **fields}


def link_services():
    steps = Steps()
    yield remark("FC-LS-2, link services to the name server and the fabric controller: two faults at once.")
    yield from opened(steps)
    plogi = els(NAMES, parameters, command=3, size=0x840, name=name_of(1), node=node_name(1), class3=0x80)
    no_names = [("dropped service-frame", {"type": 8}), (None, {"keep": -4}), ("rejected 0b 2c", {"command": 0x78})]
    yield remark("PLOGI to the name server; to the fabric controller it isn't supported")
    yield from steps.faulty(fcoe, FCOE_ORDER, plogi, CARRIED + SERVED + no_names + [
        ("rejected 0b 2c", {"d_id": CONTROLLER}), ("rejected 0b 00", {"class3": 0}), ("rejected 03 00", {"name": name_of(2)}), ("rejected 03 00", {"size": 255})])
    scr = els(CONTROLLER, state_change, command=0x62, function=3)
    yield remark("SCR to the fabric controller; to the name server it isn't supported")
    yield from steps.faulty(fcoe, FCOE_ORDER, scr, CARRIED + SERVED + no_names + [
        ("rejected 0b 2c", {"d_id": NAMES}), *[("rejected 03 00", {"function": number}) for number in (0, 4, 254)]])
    logo = els(NAMES, logout, command=5, names=address_of(1), name=name_of(1))
    yield remark("LOGO to the name server; to the fabric controller it isn't supported")
    yield from steps.faulty(fcoe, FCOE_ORDER, logo, CARRIED + SERVED + no_names + [("rejected 0b 2c", {"d_id": CONTROLLER})])
    yield remark("The same without a fault; a PLOGI of 256 bytes, each function, and the accept of a state change")
    yield steps.right(fcoe, plogi, "ns-login")
    yield steps.right(fcoe, {**plogi, "size": 256}, "ns-login")
    yield steps.right(fcoe, logo, "ns-logout")
    for number in (1, 2, 3, 255):
        yield steps.right(fcoe, {**scr, "function": number}, f"watching {number}")
    yield steps.right(fcoe, {**scr, "r_ctl": 0x23, "command": 2, "function": 0}, "noted")


def data():
    steps = Steps()
    yield remark("FC-BB-5, forwarding: a data frame with two faults at once.")
    yield from opened(steps)
    frame = {**OVER_FCOE, "d_id": address_of(2), "r_ctl": 6, "type": 8, "payload": lambda f: bytes(range(8))}
    yield from steps.faulty(fcoe, FCOE_ORDER, frame, CARRIED + [
        ("dropped service-address", {"d_id": b"\xff\xff\xfa"}), ("dropped service-frame", {"d_id": NAMES}), ("dropped self", {"d_id": address_of(1)}),
        ("dropped dest-login", {"d_id": address_of(9)}), ("dropped zone", {"d_id": address_of(3)})])
    yield remark("The same without a fault, in each class 3 start and end")
    for sof, eof in itertools.product((0x2E, 0x36), (0x41, 0x42)):
        yield steps.right(fcoe, {**frame, "sof": sof, "eof": eof}, "forwarded 2")


# ---- requests to the name server: each with its command, its body, and what is wrong with that alone (FC-GS-6)

OWN, PEER, HIDDEN, NOBODY = (b"\0" + address_of(node) for node in (1, 2, 3, 9))
UNSEEN = [("refused 09 01", {"first": HIDDEN}), ("refused 09 01", {"first": NOBODY})]
NO_TYPE = [("refused 09 07", {"first": bytes([0, 0, 0, 0x99])})]
NOT_OWN = [("refused 09 01", {"first": PEER})]
QUERIES = [
    ("GA_NXT", 0x100, NOBODY, b"", []), ("GPN_ID", 0x112, PEER, b"", UNSEEN), ("GNN_ID", 0x113, PEER, b"", UNSEEN),
    ("GFT_ID", 0x117, OWN, b"", [*UNSEEN, ("refused 09 07", {"first": PEER})]), ("GFF_ID", 0x11F, PEER, b"", UNSEEN),
    ("GID_FT", 0x171, b"\0\0\0\x08", b"", NO_TYPE), ("GPN_FT", 0x172, b"\0\0\0\x08", b"", NO_TYPE), ("GNN_FT", 0x173, b"\0\0\0\x08", b"", NO_TYPE),
    ("GID_PN", 0x121, name_of(2), b"", [("refused 09 02", {"first": name_of(3)}), ("refused 09 02", {"first": name_of(9)})]),
    ("GID_PT", 0x1A1, b"\x7f\0\0\0", b"", [("refused 09 00", {"first": bytes([2, 0, 0, 0])})])]
REGISTRATIONS = [
    ("RNN_ID", 0x213, OWN, node_name(1), NOT_OWN), ("RFT_ID", 0x217, OWN, bytes([0, 0, 1, 0]) + bytes(28), NOT_OWN), ("RSPN_ID", 0x218, OWN, b"\x03abc", NOT_OWN),
    ("RFF_ID", 0x21F, OWN, b"\0\0\x01\x08", NOT_OWN), ("RSNN_NN", 0x239, node_name(1), b"\x03abc", [("refused 09 03", {"first": node_name(2)})]),
    ("DA_ID", 0x300, OWN, b"", NOT_OWN)]


def ask(code, first, second):
    return {**OVER_FCOE, "d_id": NAMES, "r_ctl": 2, "type": 0x20, "payload": common_transport, "gs": 0xFC, "subtype": 2, "code": code, "first": first, "second": second}


def requests():
    steps = Steps()
    yield remark("FC-GS-6, requests to the name server with two faults at once: nodes 1 and 2 are logged in to it, node 1 has registered type 08.")
    yield from opened(steps)
    for node in (1, 2):
        own = {"port": node, "s_id": address_of(node), "name": name_of(node), "node": node_name(node)}
        yield steps.right(fcoe, els(NAMES, parameters, command=3, size=0x840, class3=0x80, **own), "ns-login")
    types = ask(0x217, OWN, bytes([0, 0, 1, 0]) + bytes(28))
    yield steps.right(fcoe, types, "registered")
    server = [("dropped ct-short", {"keep": 12}), ("refused 09 10", {"s_id": address_of(3), "port": 3}), ("refused 0b 00", {"gs": 0xFA}),
              ("refused 0b 00", {"subtype": 3}), ("refused 0b 00", {"code": 0x999}), ("refused 04 00", {"keep": -4})]
    few = [("dropped source-port", {"port": 2}), ("dropped service-frame", {"d_id": CONTROLLER}), ("dropped service-frame", {"type": 0x21})]
    for name, code, first, second, own in QUERIES + REGISTRATIONS:
        yield remark(f"{name}, with two faults at once and without one")
        every = CARRIED + SERVED if name in ("GID_PN", "RFT_ID") else []
        yield from steps.faulty(fcoe, FCOE_ORDER, ask(code, first, second), every + [it for it in few if it not in every] + server + own)
        yield steps.right(fcoe, ask(code, first, second), "answered" if code < 0x200 else "registered")


def two_faults():
    yield from logins()
    yield from link_services()
    yield from data()
    yield from requests()
