"""A switch's lists of logins, row by row: `show flogi database`, `show fcns database`, `show fcoe database` (NX-OS), `nsshow`,
`switchshow` and `fcoe --loginshow` (FOS)."""
import re
from dataclasses import replace
from typing import Any, Callable, Optional

from ..numerals import hexadecimal, whole
from .lines import Line, Use
from .model import WWN, LoginRow

MAC = r"(?:[0-9A-Fa-f]{2}:){5}[0-9A-Fa-f]{2}"
HEX = r"(?:0x)?([0-9A-Fa-f]{6})"
FLOGI = re.compile(rf"^(\S+)\s+([0-9]+)\s+{HEX}\s+({WWN})\s+({WWN})$")
FCOE = re.compile(rf"^(\S+)\s+(?:([0-9]+)\s+)?{HEX}\s+({WWN})\s+{MAC}$")
FCNS = re.compile(rf"^0x([0-9A-Fa-f]{{6}})\s+(?:NL?|Nx?|F|\w+)\s+({WWN})(?:\s+\(.*?\))?(?:\s+.*)?$")
NSSHOW = re.compile(rf"^(?:NL?|U)\s+{HEX}\s*;\s*[\d, ]*;\s*({WWN})\s*;\s*({WWN})\s*;.*$")
SWITCHSHOW = re.compile(rf"^([0-9]+)\s+(?:\d+\s+){{0,2}}{HEX}\s+\S+\s+\S+\s+(\S+)\s*(.*)$")
LOGINSHOW = re.compile(rf"^(\S+)\s+(?:[TtGgFf]\w*\s+)?(?:\d+/\d+\s+|\S+/\S+\s+)?({WWN})\s+({MAC})\s+({MAC}).*$")
LABEL = re.compile(r"^\[\s*([^\[\]]+?)\s*\]$")
VSAN = re.compile(r"^VSAN\s+([0-9]+)\s*:?$", re.I)
FIELD = re.compile(
    r"^(switchWwn|Fabric Port Name|Permanent Port Name|Port Index|PortSymb|NodeSymb|FC4s|Device type|Share Area|Device Shared in Other AD|Redirect|Partial|LSAN"
    r"|Device link speed|Device Link|Connected through AG|Real device behind AG|Slow Drain Device|FCoE|Port Properties)\b\s*:?\s*(.*)$"
)
HEADS = re.compile(
    r"^([-=]{5,}|INTERFACE\s+(VSAN|FCID)\b.*|FCID\s+TYPE\s.*|Total number of .*|\{|\}|Type\s+Pid\s.*|The Local Name Server has.*|Index\s+(Slot\s+)?Port\s.*|Port\s+Te\s?[Pp]ort.*"
    r"|Port\s+.*Device WWN.*|Number of (connected|login) devices.*|switch(Name|Type|State|Mode|Role|Domain|Id|Beacon)\s*:.*|zoning\s*:.*|FC Router( BB.*|\s*:.*)|Fabric Name\s*:.*"
    r"|Allow XISL.*|(LS Attributes|HIF Mode|Address Mode)\s*:.*)$"
)


class Tables:
    """The rows that were read so far, and what the next line may add to the last of them."""

    def __init__(self) -> None:
        self.rows: list[LoginRow] = []
        self.vsan: Optional[int] = None
        self.is_open = False
        self.remarks: list[str] = []

    def add(self, row: LoginRow) -> Use:
        self.rows.append(row)
        self.is_open = True
        return Use.LOGIN

    def change(self, **what: Any) -> Use:
        self.rows[-1] = replace(self.rows[-1], **what)
        return Use.FIELD

    def take(self, line: Line) -> Optional[Use]:
        """Takes a line of a list of logins; none where it is no such line."""
        text = line.text.strip()
        for pattern, made in ROWS:
            found = pattern.match(text)
            if found:
                return made(self, line, found)
        if self.is_open and (label := LABEL.match(text)):
            return self.change(called=label[1])
        if (self.is_open or text.startswith("switchWwn")) and (part := FIELD.match(text)):
            return self.take_field(part[1], part[2])
        if head := VSAN.match(text):
            self.vsan = whole(head[1])
            return Use.NOTE
        if HEADS.match(text):
            self.is_open = False
            return Use.NOTE
        return None

    def take_field(self, name: str, value: str) -> Use:
        """A line below a row of `nsshow`."""
        if name == "Fabric Port Name" and re.fullmatch(WWN, value):
            return self.change(fabric_port=value.lower())
        if name == "Port Index" and (index := whole(value)) is not None:
            return self.change(index=index, port=value)
        return Use.FIELD


def flogi(tables: Tables, line: Line, it: "re.Match[str]") -> Use:
    return tables.add(LoginRow(it[4].lower(), line.place, hexadecimal(it[3]), it[1], it[5].lower(), vsan=whole(it[2])))


def fcoe(tables: Tables, line: Line, it: "re.Match[str]") -> Use:
    return tables.add(LoginRow(it[4].lower(), line.place, hexadecimal(it[3]), it[1], vsan=whole(it[2] or "")))


def fcns(tables: Tables, line: Line, it: "re.Match[str]") -> Use:
    return tables.add(LoginRow(it[2].lower(), line.place, hexadecimal(it[1]), vsan=tables.vsan))


def nsshow(tables: Tables, line: Line, it: "re.Match[str]") -> Use:
    return tables.add(LoginRow(it[2].lower(), line.place, hexadecimal(it[1]), wwnn=it[3].lower()))


def switchshow(tables: Tables, line: Line, it: "re.Match[str]") -> Use:
    """A port; one with several N_Ports behind it names none of them."""
    tables.is_open = False
    names = re.findall(WWN, it[4])
    if len(names) == 1 and re.search(r"\b[NFV]\w*-Port\b", it[4]):
        return tables.add(LoginRow(names[0].lower(), line.place, hexadecimal(it[2]), it[1], index=whole(it[1])))
    if re.search(r"\d+ N Port|NPIV", it[4]):
        tables.remarks.append(f"{line.place}: port {it[1]} has several N_Ports, which `switchshow` doesn't name: `nsshow` does")
    return Use.FIELD


def loginshow(tables: Tables, line: Line, it: "re.Match[str]") -> Use:
    """The granted MAC ends in the FCID (FPMA); it is the MAC that begins with 0e:fc."""
    macs = [it[3].lower(), it[4].lower()]
    granted = next((mac for mac in macs if mac.startswith("0e:fc")), macs[1])
    return tables.add(LoginRow(it[2].lower(), line.place, hexadecimal(granted.replace(":", "")[6:]), it[1]))


ROWS: list[tuple["re.Pattern[str]", Callable[[Tables, Line, "re.Match[str]"], Use]]] = [
    (FLOGI, flogi),
    (FCOE, fcoe),
    (FCNS, fcns),
    (NSSHOW, nsshow),
    (LOGINSHOW, loginshow),
    (SWITCHSHOW, switchshow),
]
