"""The worked examples (crates/examples/specs) that are no journals of their own, as cases of the fabric: part of bench/cases/fabric_cases.

Each answer, and each byte of a message that is compared whole, stands in the example of that name, which is proved there from the definitions.
"""
from two_faults import ALL_FCFS, CONTROLLER, FORWARDER, OVER_FCOE, OVER_FIP, Steps, address_of, alive, alive_of, els, fcoe, fdisc_of, fip, flogi_of, granted
from two_faults import in_vlan, login, logo_of, mac_of, name_of, node_name, remark, state_change

ZONE = "zone z " + name_of(1).hex(":") + " " + name_of(2).hex(":")
TAG = bytes.fromhex("81006064")


def begun(ports, *lines):
    """A fabric with the defaults and these lines."""
    yield "config new", ["= new"]
    for line in ["fcf-mac 00:05:1e:00:00:02", "vlan 100", *lines]:
        yield "config " + line, ["= noted"]
    yield f"fabric open {ports}", ["= open"]


def tick(moment, ended=0):
    return f"fabric tick {moment}", [f"= ended {ended}"]


def drained(entries, *sent):
    """All that was done and sent since the last time; a frame that ends in `..` is known by its front."""
    texts = ["=^ sent " + it[:-2] if it.endswith("..") else "= sent " + it for it in sent]
    return "fabric drain", ["= " + it for it in entries] + texts


def solicit(f):
    own = bytes([2, 2]) + f["mac"] + bytes([4, 3, 0, 0]) + f["node"] + bytes([6, 1]) + (2158).to_bytes(2, "big")
    return fip(f, 1, own), None


def data(sender, receiver):
    """The data frame of the examples: R_CTL 01, without payload."""
    return {**OVER_FCOE, "port": sender, "s_id": address_of(sender), "d_id": address_of(receiver), "r_ctl": 1, "type": 8, "payload": lambda f: b""}


def scr(node):
    return els(CONTROLLER, state_change, port=node, s_id=address_of(node), command=0x62, function=3)


def rscn(watcher, affected, ox_id, check):
    """An RSCN from the fabric controller, with its check sequence as the example has it."""
    head = b"\x22" + address_of(watcher) + b"\0\xff\xff\xfd" + bytes.fromhex("0129000000000000") + ox_id.to_bytes(2, "big") + b"\xff\xff" + bytes(4)
    body = bytes(13) + b"\x2e" + head + bytes.fromhex("6104000800") + address_of(affected) + bytes.fromhex(check) + b"\x42\0\0\0"
    return (granted(address_of(watcher)) + FORWARDER + TAG + b"\x89\x06" + body).hex()


def advertisement(period):
    own = bytes([1, 1, 0, 0x80, 2, 2]) + FORWARDER + bytes([4, 3, 0, 0, 0x10, 0]) + FORWARDER + bytes([5, 4, 0, 0, 0, 0x0E, 0xFC, 0, 0x10, 0]) + FORWARDER
    body = bytes.fromhex("100000010002000c8005") + own + bytes([12, 2, 0, 0]) + period.to_bytes(4, "big")
    return (bytes.fromhex("011018010001") + FORWARDER + TAG + b"\x89\x14" + body).hex()


# ---- logins


def of_login():
    steps = Steps()
    yield remark("Worked: Login. A FLOGI and the bytes of its accept")
    yield from begun(2)
    yield tick(1000)
    yield steps.right(login, flogi_of(1), "granted 010100")
    accept = "001b2100000a00051e0000028100606489141000000200020026800007240000" + "2301010000fffffe01980000000000000001ffff00000000"
    accept += "02000000202000003000084000002710000007d0200100051e000002100000051e000002" + "00" * 32 + "88" + "00" * 47 + "02020efc00010100"
    yield drained(["tick 1000", "1 0 granted 010100"], "1 1000 " + accept)
    yield "fabric login 010100", ["= login 010100 2000001b2100000a 1000001b2100000a 1 00:1b:21:00:00:0a -"]


def of_silence():
    steps = Steps()
    yield remark("Worked: Silence. Two logins of an ENode that falls silent, the tick that ends them, and its clear link message")
    yield from begun(2)
    yield tick(1000)
    yield steps.right(login, flogi_of(1), "granted 010100")
    yield tick(1100)
    yield steps.right(login, {**fdisc_of(1, 0), "name": bytes.fromhex("2000001b2100001a")}, "granted 010101")
    yield tick(8000)
    yield steps.right(alive, alive_of(1, False), "alive")
    for moment in (9000, 17000, 25000, 28000):
        yield tick(moment)
    yield steps.right(solicit, {**OVER_FIP, "port": 2, "src": mac_of(2), "mac": mac_of(2), "node": node_name(2)}, "advertised")
    before = ["tick 1000", "1 0 granted 010100", "tick 1100", "1 1 granted 010101", "tick 8000", "1 2 alive"]
    before += ["tick 9000", "tick 17000", "tick 25000", "tick 28000", "2 0 advertised"]
    told = [f"{port} {moment} {advertisement(8000)}" for moment in (9000, 17000, 25000) for port in (1, 2)]
    yield drained(before, "1 1000 ..", "1 1100 ..", *told, "2 28000 ..")
    yield tick(28100, 2)
    clear = "001b2100000a00051e0000028100606489141000000300" + "02000f0000020200051e00000204030000100000051e000002"
    clear += "0b050efc00010100000101002000001b2100000a0b050efc00010101000101012000001b2100001a"
    yield drained(["tick 28100 010100 010101"], "1 28100 " + clear)
    yield steps.right(alive, alive_of(1, False), "dropped keepalive-unknown")


def of_silence_edges():
    yield remark("Worked: SilenceEdges. Two and a half periods are not too long, half a millisecond more is: five halves of 251 are 627.5")
    for period, last in ((251, 1627), (8000, 21000)):
        yield from begun(1, "pool 1", f"period {period}")
        yield tick(1000)
        yield Steps().right(login, flogi_of(1), "granted 010100")
        yield tick(last)
        yield tick(last + 1, 1)
    for vx, verdict, heard, silent in ((False, "alive", "ENode", "N_Port"), (True, "alive 010100", "N_Port", "ENode")):
        steps = Steps()
        yield remark(f"Worked: SilenceEdges. The {heard} was heard at 200000, its {silent} at 1000 alone.")
        yield from begun(1, "pool 1", "period 90000")
        yield tick(1000)
        yield steps.right(login, flogi_of(1), "granted 010100")
        yield tick(200000)
        yield steps.right(alive, alive_of(1, vx), verdict)
        yield tick(226000)
        yield tick(226001, 1)


def of_quarantine():
    steps = Steps()
    yield remark("Worked: Quarantine. Of two addresses one is free again for another name more than ten seconds after its login ended.")
    yield from begun(3, "pool 2")
    for node, moment in ((1, 1000), (2, 1100)):
        yield tick(moment)
        yield steps.right(login, flogi_of(node), "granted " + address_of(node).hex())
    yield tick(1200)
    yield steps.right(login, flogi_of(3), "rejected 09 29")
    yield tick(5000)
    yield steps.right(login, logo_of(1), "logout 010100")
    yield "fabric due", ["= 9000"]
    yield tick(9000)
    yield tick(15000)
    yield steps.right(login, flogi_of(3), "rejected 09 29")
    yield tick(15100)
    yield steps.right(login, flogi_of(3), "granted 010100")


# ---- state changes


def of_state_change():
    steps = Steps()
    yield remark("Worked: StateChange. A second FLOGI of an ENode whose login is watched: two state changes with rising OX_IDs")
    yield from begun(2, ZONE)
    for node, moment in ((1, 1000), (2, 1100)):
        yield tick(moment)
        yield steps.right(login, flogi_of(node), "granted " + address_of(node).hex())
    yield tick(1200)
    yield steps.right(fcoe, scr(2), "watching 3")
    yield tick(1300)
    yield drained(["tick 1000", "1 0 granted 010100", "tick 1100", "2 0 granted 010101", "tick 1200", "2 1 watching 3", "tick 1300"], "1 1000 ..", "2 1100 ..", "2 1200 ..")
    yield steps.right(login, flogi_of(1), "granted 010100")
    yield drained(["1 1 granted 010100"], "1 1300 ..", "2 1300 " + rscn(2, 1, 0, "ec6918ec"), "2 1300 " + rscn(2, 1, 1, "04b2e355"))


def of_zones():
    steps = Steps()
    yield remark("Worked: Zones. A change of the active zone set: who is told of whom, and which frames go on")
    lines = [ZONE, "zone y " + name_of(1).hex(":") + " " + name_of(3).hex(":"), "zoneset s1 z", "zoneset s2 y", "activate s1 0", "activate s2 5000"]
    yield from begun(3, "pool 4", *lines)
    for node, moment in ((1, 1000), (2, 1100), (3, 1200)):
        yield tick(moment)
        yield steps.right(login, flogi_of(node), "granted " + address_of(node).hex())
    for node, moment in ((2, 1300), (3, 1400)):
        yield tick(moment)
        yield steps.right(fcoe, scr(node), "watching 3")
    yield "fabric due", ["= 5000"]
    yield tick(1500)
    yield steps.right(fcoe, data(1, 2), "forwarded 2")
    yield steps.right(fcoe, data(1, 3), "dropped zone")
    entries = ["tick 1000", "1 0 granted 010100", "tick 1100", "2 0 granted 010101", "tick 1200", "3 0 granted 010102", "tick 1300", "2 1 watching 3", "tick 1400", "3 1 watching 3"]
    front = in_vlan({"dst": granted(address_of(2)), "vlan": 100}, FORWARDER, b"\x89\x06", fcoe(data(1, 2))[0][18:])
    entries += ["tick 1500", "1 1 forwarded 2", "1 2 dropped zone"]
    yield drained(entries, "1 1000 ..", "2 1100 ..", "3 1200 ..", "2 1300 ..", "3 1400 ..", "2 1500 " + front.hex())
    yield tick(5000)
    yield drained(["tick 5000"], *[f"{watcher} 5000 {(granted(address_of(watcher)) + FORWARDER + TAG).hex()}.." for watcher in (2, 3)])
    yield tick(6000)
    yield steps.right(fcoe, data(1, 2), "dropped zone")
    yield steps.right(fcoe, data(1, 3), "forwarded 3")


# ---- frames of two live N_Ports, and of nobody


def of_data():
    steps = Steps()
    yield remark("Worked: Data. Data frames between two N_Ports that a zone joins, and why others are dropped")
    yield from begun(2, ZONE, "pool 4")
    yield tick(1000)
    for node in (1, 2):
        yield steps.right(login, flogi_of(node), "granted " + address_of(node).hex())
    yield drained(["tick 1000", "1 0 granted 010100", "2 0 granted 010101"], "1 1000 ..", "2 1000 ..")
    frame = data(1, 2)
    yield steps.right(fcoe, frame, "forwarded 2")
    yield drained(["1 1 forwarded 2"], "2 1000 " + (granted(address_of(2)) + FORWARDER + fcoe(frame)[0][12:]).hex())
    yield steps.right(fcoe, {**frame, "port": 2}, "dropped source-port")
    yield steps.right(fcoe, {**frame, "src": granted(address_of(2))}, "dropped source-mac")
    yield steps.right(fcoe, data(1, 1), "dropped self")
    yield steps.right(fcoe, data(1, 3), "dropped dest-login")
    steps = Steps()
    yield remark("Worked: Data. Without zones nobody is joined, and an FDISC needs a login of its ENode.")
    yield from begun(2, "pool 4")
    yield tick(1000)
    yield steps.right(login, fdisc_of(1, 1), "rejected 09 00")
    for node in (1, 2):
        yield steps.right(login, flogi_of(node), "granted " + address_of(node).hex())
    yield steps.right(fcoe, frame, "dropped zone")


def of_strangers():
    steps = Steps()
    yield remark("Worked: Strangers. Frames of nodes of which none has logged in")
    yield from begun(1)
    yield tick(1000)
    node = alive_of(1, False)
    ask = bytes.fromhex("011018010002001b2100000a8914100000040001000200000202001b2100000a") + bytes(28)
    yield steps.step(1, ask, "vlans")
    yield steps.right(solicit, {**OVER_FIP, "port": 1, "src": mac_of(1), "mac": mac_of(1), "node": node_name(2)}, "advertised")
    yield steps.right(login, logo_of(1), "rejected 03 00")
    yield steps.right(alive, node, "dropped keepalive-unknown")
    yield steps.right(alive, alive_of(1, True), "dropped keepalive-unknown")
    yield steps.right(fcoe, data(1, 2), "dropped source-login")
    yield steps.right(fcoe, scr(1), "dropped source-login")
    head = FORWARDER + mac_of(1)
    yield steps.step(1, head + bytes.fromhex("810000648906") + bytes(42), "dropped fcoe-length")
    yield steps.right(alive, {**node, "vlan": 101}, "dropped vlan")
    yield steps.step(1, head + alive(node)[0][16:], "dropped vlan")
    yield steps.right(alive, {**node, "dst": ALL_FCFS}, "dropped fip-dest")
    clear = bytes.fromhex("10000003000200050000") + bytes([2, 2]) + mac_of(1) + bytes([4, 3, 0, 0]) + node_name(1)
    yield steps.step(1, head + bytes.fromhex("810000648914") + clear, "dropped fip-role")
    yield steps.right(alive, {**node, "src": mac_of(2)}, "dropped fip-mac")
    yield steps.step(1, head + bytes.fromhex("810000658906") + bytes(42), "dropped vlan")
    yield steps.step(1, head + b"\x08\0" + bytes(46), "dropped ethertype")


def of_two_ports():
    yield remark("Worked: TwoPorts. Advertisements are owed between two VLAN requests, on both ports, a period after the first tick.")
    yield from begun(2)
    yield tick(1000)
    ask = bytes.fromhex("011018010002001b2100000a8914100000040001000200000202001b2100000a") + bytes(28)
    tell = "001b2100000a00051e000002891410000004000200030000" + "020200051e0000020e010064" + "00" * 24
    yield f"fabric step 1 0 whole {ask.hex()}", ["= 1 0 vlans"]
    yield drained(["tick 1000", "1 0 vlans"], "1 1000 " + tell)
    for moment in (9000, 17000):
        yield "fabric due", [f"= {moment}"]
        yield tick(moment)
        yield drained([f"tick {moment}"], *[f"{port} {moment} {advertisement(8000)}" for port in (1, 2)])
    yield "fabric until 20000", ["= ticks 1"]
    yield f"fabric step 1 1 whole {ask.hex()}", ["= 1 1 vlans"]
    yield drained(["tick 20000", "1 1 vlans"], "1 20000 " + tell)


def examples():
    for part in (of_login, of_silence, of_silence_edges, of_quarantine, of_state_change, of_zones, of_data, of_strangers, of_two_ports):
        yield from part()
