"""What to look at next, by a verdict and the frame that got it."""
from ..frames.heard import VN2VN, Heard, number
from .journals import row_of

NO_ROOM = "rejected 09 29"
LOGIN_STEPS = {
    "rejected 0b 2c": "the FIP flags: FP and SP say which kind of MAC the host asks for (`look fields`)",
    "rejected 0b 00": "whether that port of the switch takes hosts at all: FCoE on there, its mode (F_Port), its VSAN or fabric; else the class of service that the host asks for (`look fields`)",
    "rejected 09 00": "whether that port of the switch, its VSAN and its fabric are up; the switch's log at that time",
    "rejected 03 00": "the port name beside those of all logins at that moment (`look logins --at`)",
}
FDISC_STEPS = {
    **LOGIN_STEPS,
    "rejected 0b 00": "whether NPIV is on at the switch's port (`feature npiv`, `portcfgnpivport`); else the class of service that the host asks for (`look fields`)",
    "rejected 09 00": "the ENode's own FLOGI comes before its FDISC",
}
STEPS = {"FLOGI": LOGIN_STEPS, "FDISC": FDISC_STEPS}
SERVICE_STEPS = {
    "rejected 0b 2c": "nothing, where the host goes on without it: this link service isn't in the profile (docs/inside/DECISIONS.md)",
    "rejected 0b 00": "the class of service that the host asks for (`look fields`)",
    "rejected 03 00": "the request's address, names and sizes beside those of its login (`look why`)",
    "refused 09 10": "whether its PLOGI to FFFFFC was accepted before, and not closed by a LOGO",
    "refused 0b 00": "nothing, where the host goes on without it: this command isn't in the profile (docs/inside/DECISIONS.md)",
    "refused 04 00": "the length of the request",
    "refused 09 01": "who the asker sees at that moment: `look names --at`, `look zones --at`",
    "refused 09 03": "the node name in the request beside that of its FLOGI",
    "refused 09 07": "whether the others registered that type (RFT_ID), and are zoned with the asker: `look names --at`, `look zones --at`",
    "refused 09 02": "whether that name is logged in, and zoned with the asker: `look names --at`, `look zones --at`",
}
BY_REASON = {"ff": "what the switch's vendor calls its byte: the switch's log at that time, its documents", "05": "whether the switch takes it later, and its log at that time: it says that it is busy"}
BY_EXPLANATION = {
    "0d": "the port name: whether its form is right, and whether the switch lets it in (port security, fabric binding)",
    "0e": "the node name: whether its form is right, and whether the switch lets it in (port security, fabric binding)",
}
FULL = 2112  # bytes of payload of an FC frame (FC-FS-3)
MTU = f"{FULL} bytes of payload want an MTU of 2,500 (mini-jumbo) at its Ethernet port, and at each hop"
OTHERWISE = "the switch's log at that time; FC-LS-2 and FC-GS-6 have the codes"
IN_VN2VN = "the host is in VN2VN mode: it looks for other hosts, not for a switch"


def next_step(verdict: str, heard: Heard) -> str:
    """What to look at next; empty where nothing is amiss."""
    if verdict.startswith("rejected") and verdict.endswith(" 07") and heard.fc is not None and heard.kind in ("FLOGI", "FDISC"):
        common, own = (number(heard.fc.payload[at : at + 2]) & 0xFFF for at in (10, 74))  # of the port, and of class 3 (FC-LS-2)
        size, whose = (own, f" of class 3 is {own}, the common one {common}") if 0 < own < common else (common, f" is {common}")
        return f"the host's receive size{whose}: " + (MTU if size < FULL else "the switch's log has what it wants (`look fields`)")
    if verdict.startswith(("rejected", "refused")):
        steps = STEPS.get(heard.kind, SERVICE_STEPS)
        return steps.get(verdict) or BY_REASON.get(verdict.split(" ")[1]) or BY_EXPLANATION.get(verdict.split(" ")[-1]) or OTHERWISE
    if verdict == "dropped vlan":
        return "which VLAN the host's FCoE interface has, and the switch's" if heard.vlan else "whether the host sends without a tag, or the capture lost it (a VLAN interface)"
    if verdict == "dropped fip-operation" and heard.operation is not None and heard.operation[0] == VN2VN:
        return IN_VN2VN
    row = row_of(verdict)
    return row.look if row else ""
