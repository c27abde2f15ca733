"""Files of a switch: whose words they have, and what several of them say together."""
import re
from typing import Callable, Iterable, Optional

from ..errors import Refused
from .config import read_config_zones
from .fos import read_fos
from .lines import Line, Use, lines_of
from .model import Kind, LoginRow, Reading, Vendor, Which, Zoning
from .nxos import read_nxos

SIGNS: dict[Vendor, "re.Pattern[str]"] = {
    Vendor.NXOS: re.compile(r"^(zone\s+name|zoneset\s+(name|activate)|fcalias\s+name|device-alias\s+name|zone\s+default-zone|VSAN:?\s*\d+|INTERFACE\s+(VSAN|FCID)\b)", re.I),
    Vendor.FOS: re.compile(r"^((cfg|zone|alias)\s*:|(ali|zone|cfg)(create|add|enable)\b|zone\s+--|(Defined|Effective)\s+configuration|Type\s+Pid\b|switchName\s*:|Port\s+Te\s?[Pp]ort|Port\s.*Device WWN)", re.I),
    Vendor.CONFIG: re.compile(r"^(fcf-mac|zone\s+(?!name\b)\S+\s+(?:[0-9a-f]{2}:){7}|vlan\s+\d+$)", re.I),
}
READERS: dict[Vendor, Callable[[list[Line]], Reading]] = {Vendor.NXOS: read_nxos, Vendor.FOS: read_fos, Vendor.CONFIG: read_config_zones}
SHAPES = "`show zoneset active`, `show zone`, `show running-config zone`, `show device-alias database`, `show fcalias` (NX-OS), `cfgshow`, `zoneshow`, `alishow` (FOS), or plain lines `zone NAME WWPN WWPN ..`, to which any other switch's can be brought"

PLAIN = "bring it to plain lines, `zone NAME WWPN WWPN ..`, one a zone (docs/ZONES.md)"
PACKED = "JSON or XML of a REST interface or of `| json`, which isn't read: give the text of `cfgshow` (FOS) or of `show zoneset active` (NX-OS), which has the roles of members too, or"
IN_A_LOG = re.compile(r'^\s*(?:\{\s*(?:"|$)|\[\s*(?:[{"]|$)|<\?xml\b|HTTP/\d)', re.M)  # JSON or XML behind a command
# forms that aren't read, by what stands in them
OTHERS: list[tuple["re.Pattern[str]", str]] = [
    (re.compile(r"\A\s*[\[{]|\A\s*<\?xml"), PACKED),
    (re.compile(r"^<[\w.-]+>\s*dis\w*\s|^\s*zoneset\s+(?!name\b|activate\b|distribute\b|overwrite|capture)\S+\s*\n\s+zone\s+(?!name\b)\S+\s*$", re.M), "the zoning of Comware (`display zoneset active`), which isn't read:"),
    (re.compile(r"^Active Zoneset\s*:|^ZoneName\s+ZoneMember|show fc (?:zone|alias)", re.M | re.I), "the zoning of Dell FTOS (`show fc zoneset active`), which isn't read:"),
    (re.compile(r"^\s*zoning (?:defined|enabled)-configuration\b", re.M), "the zoning of VDX (`show running-config zoning`), which isn't read:"),
    (re.compile(r"ZoneSet\s+Zone\s+ZoneMember|^\s*Active ZoneSet Information", re.M | re.I), "the zoning of a QLogic switch (`zoning active`), which isn't read:"),
    (re.compile(r"^\s*o- \S+ \.{3,}", re.M), "targetcli's tree: its acls are masking at the target and no zoning; of each target and those whom it lets in"),
]


def refuse_others(name: str, lines: list[Line], others: list[tuple["re.Pattern[str]", str]]) -> None:
    """Refuses forms that aren't read, each with the way to one that is."""
    text = "\n".join(it.text for it in lines)
    for sign, what in others:
        if sign.search(text):
            raise Refused(f"{name}: {what} {PLAIN}")


def vendor_of(name: str, lines: list[Line]) -> Vendor:
    """Whose words a file has."""
    refuse_others(name, lines, OTHERS)
    found: dict[Vendor, Line] = {}
    for line in lines:
        text = (line.command if line.is_prompt else line.text).strip()
        for vendor, sign in SIGNS.items():
            if sign.match(text):
                found.setdefault(vendor, line)
    if len(found) > 1:
        places = " and of ".join(f"{vendor.value} (line {line.place.line})" for vendor, line in found.items())
        raise Refused(f"{name}: has words of {places}: give each switch's lines in a file of its own")
    if not found:
        refuse_others(name, lines, [(IN_A_LOG, PACKED)])
        raise Refused(f"{name}: no zoning: it wants the output of {SHAPES}")
    return next(iter(found))


def read_file(name: str) -> Reading:
    """All that a file says of zones and logins."""
    lines = lines_of(name)
    return READERS[vendor_of(name, lines)](lines)


def merged(readings: Iterable[Reading]) -> Reading:
    """What several files of one switch say together."""
    readings = list(readings)
    vendors = [it.vendor for it in readings if it.zonings or it.device_aliases] or [readings[0].vendor]
    found = Reading(vendors[0])
    for it in readings:
        found.device_aliases += it.device_aliases
        found.logins += it.logins
        found.remarks += it.remarks
        for vsan, zoning in it.zonings.items():
            join(found.zoning(vsan), zoning)
    return found


def join(whole: Zoning, part: Zoning) -> None:
    """Adds what a further file says of a zoning."""
    for which in Which:
        for zones in part.database(which).zones.values():
            for zone in zones:
                whole.database(which).add_zone(zone)
        for sets in part.database(which).sets.values():
            for one in sets:
                whole.database(which).add_set(one)
    for (kind, _), aliases in part.aliases.items():
        for alias in aliases:
            whole.add_alias(kind, alias)
    whole.active_name = whole.active_name or part.active_name
    whole.default_permit = whole.default_permit or part.default_permit


def zoning_of(reading: Reading, vsan: Optional[int], names: list[str]) -> Zoning:
    """The zoning of a VSAN: the one that is wanted, or the only one."""
    own = {it: zoning for it, zoning in reading.zonings.items() if not zoning.is_empty or zoning.default_permit}
    if vsan is not None and vsan not in own and None not in own:
        there = ", ".join(str(it) for it in sorted(it for it in own if it is not None))
        raise Refused(f"{names[0]}: has no zone of VSAN {vsan}" + (f"; it has VSAN {there}" if there else ""))
    if vsan is None and len(own) > 1:
        raise Refused(f"{names[0]}: has VSANs {', '.join(str(it) for it in sorted(own, key=lambda it: it or 0))}: choose one with --vsan")
    if not own:
        raise Refused(f"{names[0]}: no zone is in it: it wants the output of {SHAPES}")
    found = Zoning()
    chosen = next(iter(own)) if vsan is None else vsan if vsan in own else None
    for it in dict.fromkeys([chosen, None]):
        if it in reading.zonings:
            join(found, reading.zonings[it])
    for alias in reading.device_aliases:
        found.add_alias(Kind.DEVICE_ALIAS, alias)
    return found


def logins_in(names: list[str]) -> tuple[list[LoginRow], list[str]]:
    """The rows of a switch's lists of logins, and what is to be said of the files."""
    rows: list[LoginRow] = []
    remarks: list[str] = []
    for name in names:
        reading = read_file(name)
        if not reading.logins:
            raise Refused(f"{name}: no list of logins: it wants the output of `show flogi database`, `show fcns database`, `show fcoe database` (NX-OS), `nsshow`, `switchshow` or `fcoe --loginshow` (FOS)")
        rows += reading.logins
        remarks += reading.remarks
    return rows, remarks


def uses(names: Iterable[str]) -> dict[Use, int]:
    """How many lines of each use files have."""
    found: dict[Use, int] = {}
    for name in names:
        lines = lines_of(name)
        READERS[vendor_of(name, lines)](lines)
        for line in lines:
            if line.use is not None:
                found[line.use] = found.get(line.use, 0) + 1
    return found
