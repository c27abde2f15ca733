"""A host's FIP messages beside those that `enode` sends with the host's MAC and names over the same fabric."""
import os
from typing import Any

from ..errors import Refused
from ..frames.captures import classic, write_classic
from ..frames.columns import Record
from ..frames.heard import colons, login_names
from ..frames.message_fields import compared, firsts, is_choice, rule_of, shown
from ..runs.enodes import Enode, enodes_of
from ..runs.looking import Look
from ..runs.program import say

ROUNDS = 8  # of node and forwarder, of which each answers the other
KINDS = ("VLAN request", "Solicitation", "FLOGI", "Keep alive")
NOISE = bytes.fromhex("ffffffffffff020000000001") + b"\x88\xb5" + bytes(46)  # a frame that is neither, so that the clock goes on
Row = dict[str, Any]


def names_of(enode: Enode) -> tuple[bytes, bytes]:
    """Port name and node name of a host, made of its MAC where it sent no login."""
    logins = (login_names(enode.heard(at)) for at in enode.all("FLOGI"))
    return next((it for it in logins if it), (b"\x20\x00" + enode.mac, b"\x10\x00" + enode.mac))


def node_frames(look: Look, enode: Enode, room: str) -> list[bytes]:
    """What `enode` sends with the host's MAC and names, in a loop with the forwarder until both stand still."""
    folder = os.path.join(room, f"node{len(os.listdir(room))}")
    os.mkdir(folder)
    with open(os.path.join(folder, "fabric.conf"), "w", encoding="latin-1") as file:
        file.write(look.inputs.text)
    start = enode.port.frames.milliseconds(0)
    end = (start + 3 * look.run.config.period + 6000) * 1_000_000
    name, node = names_of(enode)
    own: list[Record] = []
    for _ in range(ROUNDS):
        sent = sorted([*own, Record(end, NOISE, len(NOISE), 0)], key=lambda it: it.moment)
        write_classic(os.path.join(folder, "in.pcap"), sent)
        ran = say([look.program, "run", "fabric.conf", "journal", "in.pcap", "out.pcap"], folder)
        heard = classic(os.path.join(folder, "out.pcap")).records if not ran.returncode else []
        later = [Record(it.moment + look.run.config.window * 1_000_000, it.data, it.length, 0) for it in heard]
        write_classic(os.path.join(folder, "heard.pcap"), later)
        ran = say([look.program, "enode", str(start), colons(enode.mac), colons(name), colons(node), "heard.pcap", "sent.pcap"], folder)
        if ran.returncode:
            raise Refused(f"enode: {ran.stdout.strip()} {ran.stderr.strip()}: keep the run with --keep and report it")
        made = classic(os.path.join(folder, "sent.pcap")).records
        if [it.data for it in made] == [it.data for it in own]:
            break
        own = made
    return [it.data for it in own]


def fields_beside(look: Look, room: str) -> list[Row]:
    """For each host and each kind of message that it sent: the fields in which its first one differs from `enode`'s."""
    if not look.program:
        raise Refused("fields wants the captures themselves, not --journal")
    rows: list[Row] = []
    for enode in enodes_of(look.captured):
        frames, right = enode.port.frames, firsts(node_frames(look, enode, room))
        own = firsts(frames.data(at) for at in enode.port.host_messages if frames.heard(at).source == enode.mac)
        for kind in KINDS:
            if kind not in own:
                continue
            numbers = [frames.number(at) for at in enode.port.host_messages if frames.heard(at).kind == kind and frames.heard(at).source == enode.mac]
            pairs = compared(own[kind].data, right[kind].data) if kind in right else []
            apart = [{"field": name, "host": shown(a), "enode": shown(b), "rule": rule_of(name), "is_choice": is_choice(kind, name, a)} for name, a, b in pairs]
            rows.append({"port": enode.port.number, "enode": colons(enode.mac), "message": kind, "frame": numbers[0], "count": len(numbers), "compared": kind in right, "differences": apart})
    return rows


def fields_text(rows: list[Row]) -> list[str]:
    """The same as text: a line for each field that differs, and under it the rule."""
    lines: list[str] = []
    for row in rows:
        count = f", the first of {row['count']} that it sent (the others aren't compared)" if row["count"] > 1 else ""
        lines.append(f"port {row['port']}, {row['enode']}: {row['message']}, frame {row['frame']}{count}")
        if not row["compared"]:
            lines.append("  `enode` sends none here")
        elif not row["differences"]:
            lines.append("  each field as `enode` has it")
        for it in row["differences"]:
            lines.append(f"  {it['field']}: {it['host']}, enode {it['enode']}")
            lines += [f"    {it['rule']}"] if it["rule"] else []
    hosts = dict.fromkeys((row["port"], row["enode"]) for row in rows)
    return lines + [verdict_text([row for row in rows if (row["port"], row["enode"]) == host]) for host in hosts] or ["no host sends FIP here"]


def verdict_text(rows: list[Row]) -> str:
    """What a host's messages are in all: as `enode` sends them but for what is free, or with other fields too."""
    apart = {row["message"]: [it["field"] for it in row["differences"] if not it["is_choice"]] for row in rows if row["compared"]}
    same, others = [kind for kind, fields in apart.items() if not fields], {kind: fields for kind, fields in apart.items() if fields}
    told = [f"{', '.join(same)}: as `enode` sends {'it' if len(same) == 1 else 'them'}, but for padding and what is the host's choice"] if same else []
    told += [f"look at {kind}: {', '.join(fields)}" for kind, fields in others.items()]
    return f"port {rows[0]['port']}, {rows[0]['enode']}, in all: " + ("; ".join(told) or "nothing to compare with")
