"""Reads what Cisco NX-OS prints of its zoning, and the commands that its running configuration has."""
import re
from dataclasses import dataclass, field, replace
from typing import Optional

from ..numerals import hexadecimal, told, whole
from .lines import Account, Line, Use
from .model import WWN, Kind, Member, Reading, Role, Vendor, Which, Zone, ZoneSet
from .tables import Tables

FIRST_VSAN, LAST_VSAN = 1, 4094
NAME = r"[^\s\[\]]+"
IN_VSAN = r"(?:\s+vsan\s+([0-9]+))?"
IVR = re.compile(r"^ivr\s+(?=zone)", re.I)  # before zones and zone sets across VSANs
SET = re.compile(rf"^zoneset\s+name\s+({NAME}){IN_VSAN}$", re.I)
ZONE = re.compile(rf"^zone\s+name\s+({NAME}){IN_VSAN}$", re.I)
BRIEF = re.compile(rf"^zone\s+({NAME})$", re.I)
FCALIAS = re.compile(rf"^fcalias\s+name\s+({NAME}){IN_VSAN}(?:\s+(init|initiator|target|both))?$", re.I)
DEVICE = re.compile(rf"^device-alias\s+name\s+({NAME})\s+pwwn\s+({WWN})$", re.I)
ACTIVATE = re.compile(rf"^zoneset\s+activate\s+name\s+({NAME}){IN_VSAN}(?:\s+force)?$", re.I)
PERMIT = re.compile(r"^(no\s+)?zone\s+default-zone\s+permit\s+vsan\s+([0-9,\s-]+)$|^VSAN:\s*([0-9]+)\s+default-zone:\s*(\w+).*$", re.I)
SMART_OFF = re.compile(r"^smart-zoning:\s*disabled$", re.I)
SECTION = re.compile(r"^!\s*(Active|Full)\s+Zone\s+Database\s+Section.*$", re.I)
LABEL = re.compile(r"^!?\s*\[\s*([^\[\]]+?)\s*\]$")
ATTRIBUTE = re.compile(r"^(?:no\s+)?attribute(?:-group)?\b\s*(.*)$", re.I)
REMOVAL = re.compile(r"^no\s+(member|zone\s+name|zoneset\s+name|zoneset\s+activate|fcalias|device-alias\s+name)\b", re.I)
DATABASE = re.compile(r"^(?:no\s+)?device-alias\s+(mode|database|commit|distribute|confirm-commit)(\s.*)?$", re.I)
NOTE = re.compile(
    r"^(!.*|version\s.*|zoneset\s+(distribute|overwrite-control|capture-zone)\b.*"
    r"|zone\s+(mode|smart-zoning|commit|convert|gs|rscn|merge-control|confirm-commit|broadcast|copy|compact|capacity|qos|default-zone)\b.*|(no\s+)?zone\s+(gs|confirm-commit|smart-zoning|mode|merge-control)\b.*"
    r"|zone\s+commit\b.*|do\s+clear\b.*|(system|terminal|exit|end|configure|conf|copy)\b.*|Total number of .*|\*|\d+\s+entries.*"
    r"|(mode|session|hard-zoning|smart-zoning|rscn-format|qos|DB size|Zonesets|Name|Status|broadcast|merge-control|distribute|interop):.*|Default zone:|(Full|Active) Zoning Database\s*:.*|Current Total.*|Activation completed.*|Database Not Available"
    r"|Zone(set)? not present|There are no entries in the database|Device Alias.*|Zone status:.*|.*Alias(es)?: *\d+.*)$",
    re.I,
)
IN_COMMANDS = re.compile(r"^(member|attribute|no|!|\[)", re.I)  # what stands below the head of a zone where members stand behind `member`
OF_VSAN = r"\s+vsan\s+\d+(?:\s+autonomous-fabric-id\s+\d+)?"  # of a member of another VSAN (IVR)
ROLES = {"init": Role.INITIATOR, "initiator": Role.INITIATOR, "target": Role.TARGET, "both": Role.ANY}
# members by their first word: the kind, and what stands behind the word
MEMBERS: list[tuple[Kind, "re.Pattern[str]"]] = [
    (Kind.WWPN, re.compile(rf"^pwwn\s+({WWN})(?:{OF_VSAN})?(?:\s+lun\s+(\S+))?(.*)$", re.I)),
    (Kind.NODE, re.compile(rf"^nwwn\s+({WWN})()(.*)$", re.I)),
    (Kind.FABRIC_PORT, re.compile(rf"^fwwn\s+({WWN})()(.*)$", re.I)),
    (Kind.FCID, re.compile(r"^fcid\s+(?:0x)?([0-9A-Fa-f]{6})(?:\s+lun\s+(\S+))?(.*)$", re.I)),
    (Kind.INTERFACE, re.compile(rf"^interface\s+(\S+(?:\s+swwn\s+{WWN}|\s+domain-id\s+\d+)?)()(.*)$", re.I)),
    (Kind.DOMAIN_PORT, re.compile(r"^(domain-id\s+(?:0x)?[0-9A-Fa-f]{1,8}\s+port-?number\s+(?:0x)?[0-9A-Fa-f]{1,8})()(.*)$", re.I)),
    (Kind.SYMBOLIC, re.compile(r"^symbolic-nodename\s+(\S+)()(.*)$", re.I)),
    (Kind.IP, re.compile(r"^ip-address\s+(\S+(?:\s+[\d.]+|/\d+)?)()(.*)$", re.I)),
    (Kind.DEVICE_ALIAS, re.compile(rf"^device-alias\s+({NAME})()(.*)$", re.I)),
    (Kind.ALIAS, re.compile(rf"^fcalias\s+(?:name\s+)?({NAME})(?:\s+vsan\s+\d+)?()(.*)$", re.I)),
]
REST = re.compile(r"^\s*(?:\[\s*([^\[\]]*?)\s*\])?\s*(?:\[\s*([^\[\]]*?)\s*\])?\s*\(?(init|initiator|target|both)?\)?\s*$", re.I)
DIGITS = re.compile(r"(?:0x)?[0-9a-f]+(?=\s|$)")
TYPED = re.compile(r"^(pwwn|nwwn|fwwn|interface|domain-id|symbolic-nodename|device-alias|fcalias)\s", re.I)


def value_of(kind: Kind, word: str) -> str:
    if kind in (Kind.WWPN, Kind.NODE, Kind.FABRIC_PORT, Kind.FCID):
        return word.lower()
    if kind is Kind.DOMAIN_PORT:
        domain, port = (hexadecimal(it.removeprefix("0x")) if it.startswith("0x") or whole(it) is None else told(it) for it in DIGITS.findall(word.lower())[-2:])
        return f"{domain},{port}"
    return " ".join(word.split())


def member_of(text: str, line: Line) -> Optional[Member]:
    """The member that a line names: in front of it may stand a star, and the FCID under which it is logged in."""
    text = text.lstrip("*").strip()
    for kind, pattern in MEMBERS:
        found = pattern.match(text)
        rest = REST.match(found[3]) if found else None
        if not found or not rest:
            continue
        inner, label, role = rest[1] or "", rest[2] or "", ROLES[(rest[3] or "both").lower()]
        if kind in (Kind.FCID, Kind.DEVICE_ALIAS) and TYPED.match(inner):
            one = member_of(inner, line)
            if one is None:
                return None
            called = found[1] if kind is Kind.DEVICE_ALIAS else label or one.called
            return replace(one, role=role if rest[3] else one.role, called=called, lun=found[2] or one.lun)
        return Member(kind, value_of(kind, found[1]), line.place, role, found[2] or "", inner or label)
    return None


@dataclass
class Block:
    """A zone set with its zones, or zones by themselves, as one printing has them."""

    vsan: Optional[int]
    which: Optional[Which]
    one: Optional[ZoneSet] = None
    indent: int = 0
    zones: list[Zone] = field(default_factory=list)

    def database(self) -> Which:
        """The active zoning alone has stars and FCIDs before its members."""
        if self.which is not None:
            return self.which
        return Which.ACTIVE if any(it.is_starred for it in self.zones) else Which.FULL


class Reader:
    """Takes the lines of a file one after the other."""

    def __init__(self, account: Account) -> None:
        self.account = account
        self.tables = Tables()
        self.reading = Reading(Vendor.NXOS)
        self.blocks: list[Block] = []
        self.block: Optional[Block] = None
        self.zone: Optional[Zone] = None
        self.zone_indent = 0
        self.inline: Optional[tuple[Zone, int]] = None  # an fcalias that is printed inside a zone, with its indentation
        self.which: Optional[Which] = None
        self.vsan: Optional[int] = None
        self.is_commands = False  # the last member stood behind `member`
        self.plain: set[Optional[int]] = set()

    # ---- lines

    def take(self, line: Line) -> None:
        if line.is_prompt:
            self.take_prompt(line)
        elif not line.text.strip():
            line.use = Use.BLANK
        elif not line.is_read:
            line.use = Use.OTHER
        else:
            self.take_text(line, line.text.strip())

    def take_prompt(self, line: Line) -> None:
        """A prompt ends what stood before it; a line of configuration may stand behind it."""
        line.use = Use.PROMPT
        if line.mode.startswith("config"):
            self.which = Which.FULL
            if not re.match(r"(do|show|sh|end|exit)\b", line.command):
                self.take_text(line, line.command)
            return
        self.close()
        words = line.command.lower().split()
        is_show = bool(words) and "show".startswith(words[0])
        self.which = (Which.ACTIVE if any(len(it) > 2 and "active".startswith(it) for it in words) else Which.FULL) if is_show and any(it.startswith("zone") for it in words) else None

    def take_text(self, line: Line, text: str) -> None:
        """Each line has one use."""
        text = IVR.sub("", text)
        if self.is_commands and self.zone is not None and self.zone.members and not IN_COMMANDS.match(text):
            self.close()
        if self.take_head(line, text) or (self.zone is None or member_of(text, line) is None) and self.take_table(line):
            return
        if REMOVAL.match(text):
            self.account.fault(line, "takes something away from a zoning that isn't here: give the zoning that results (`show running-config zone` once it is entered, before it is activated)")
        elif DATABASE.match(text) and (self.zone is None or line.indent <= self.zone_indent):
            self.close()
            line.use = Use.NOTE
        elif self.take_member(line, text):
            return
        elif label := LABEL.match(text):
            self.take_label(line, label[1])
        elif attribute := ATTRIBUTE.match(text):
            self.take_attribute(line, attribute[1])
        elif NOTE.match(text):
            line.use = Use.FIELD if text.startswith("!") else Use.NOTE
            if text.startswith("!") and not line.indent:
                self.close()
            if SMART_OFF.match(text):
                self.plain.add(self.vsan)
        elif self.zone is not None or re.match(r"\*|member\b", text):
            self.account.fault(line, "is no member that is known: docs/ZONES.md has the shapes that are read")
        else:
            self.account.other(line)

    def take_table(self, line: Line) -> bool:
        use = self.tables.take(line)
        if use is Use.LOGIN:
            self.close()
        line.use = use
        return use is not None

    def take_head(self, line: Line, text: str) -> bool:
        """The head of a zone, a zone set or an alias, and lines of one word on a whole VSAN."""
        if section := SECTION.match(text):
            self.close()
            self.which, line.use = Which[section[1].upper()], Use.NOTE
        elif head := SET.match(text):
            self.open_set(line, head[1], head[2])
        elif head := ZONE.match(text):
            self.open_zone(line, head[1], head[2])
        elif head := FCALIAS.match(text):
            return self.open_alias(line, head)
        elif head := DEVICE.match(text):
            self.close()
            self.reading.device_aliases.append(Zone(head[1], line.place, [Member(Kind.WWPN, head[2].lower(), line.place)]))
            line.use = Use.MEMBER
        elif head := ACTIVATE.match(text):
            self.close()
            line.use = Use.HEAD
            self.reading.zoning(self.vsan_of(line, head[2])).active_name = head[1]
        elif head := PERMIT.match(text):
            self.take_default(line, head)
        elif self.block and self.block.one and self.zone is None and (head := BRIEF.match(text)):
            self.block.one.zones.append(head[1])
            line.use = Use.MEMBER
        else:
            return False
        return True

    def take_default(self, line: Line, it: "re.Match[str]") -> None:
        line.use = Use.HEAD
        is_permit = it[4].lower() == "permit" if it[3] else not it[1]
        vsans = vsans_in(it[3] or it[2])
        if not vsans:
            self.no_vsan(line)
        for vsan in vsans:
            self.vsan = vsan
            self.reading.zoning(vsan).default_permit = line.place if is_permit else None

    # ---- heads

    def no_vsan(self, line: Line) -> Optional[int]:
        """A number that no VSAN has is a fault of its line."""
        self.account.fault(line, f"a VSAN is {FIRST_VSAN} to {LAST_VSAN}, and a range goes upwards")
        return self.vsan

    def vsan_of(self, line: Line, word: Optional[str]) -> Optional[int]:
        """The VSAN of a head, or that of the heads before."""
        if not word:
            return self.vsan
        found = whole(word, FIRST_VSAN, LAST_VSAN)
        return found if found is not None else self.no_vsan(line)

    def open_set(self, line: Line, name: str, vsan: Optional[str]) -> None:
        self.close()
        line.use = Use.HEAD
        self.vsan = self.vsan_of(line, vsan)
        self.block = Block(self.vsan, self.which, ZoneSet(name, line.place), line.indent)
        self.blocks.append(self.block)

    def open_zone(self, line: Line, name: str, vsan: Optional[str]) -> None:
        """A zone: inside its zone set, or by itself."""
        line.use = Use.HEAD
        own = self.vsan_of(line, vsan)
        block = self.block
        is_inside = bool(block and block.one and block.vsan == own and "run" not in line.command and (line.indent > block.indent or not line.is_prompt and not block.one.zones[len(block.zones) :]))
        self.end_zone()
        if not is_inside or block is None:
            self.close()
            block = Block(own, self.which)
            self.block = block
            self.blocks.append(block)
        self.vsan, self.tables.is_open = own, False
        self.zone, self.zone_indent = Zone(name, line.place), line.indent
        block.zones.append(self.zone)
        if block.one:
            block.one.zones.append(name)

    def open_alias(self, line: Line, head: "re.Match[str]") -> bool:
        """An fcalias: a member of the zone that is open, with its own members below it, or by itself."""
        if self.zone is not None and line.indent > self.zone_indent and self.block is not None:
            self.zone.members.append(Member(Kind.ALIAS, head[1], line.place, ROLES[(head[3] or "both").lower()]))
            alias = Zone(head[1], line.place)
            self.inline = (alias, line.indent)
            line.use = Use.MEMBER
            return True
        if self.zone is not None and self.block is not None and self.zone.members and not self.is_commands and "fcalias" not in line.command:
            self.account.fault(line, f"the indentation is lost, so that it can't be told whether this alias is a member of zone {self.zone.name}: copy the lines with their spaces, or give `show running-config zone`")
            return True
        self.close()
        line.use = Use.HEAD
        self.vsan = self.vsan_of(line, head[2])
        self.zone, self.zone_indent = Zone(head[1], line.place), line.indent
        self.reading.zoning(self.vsan).add_alias(Kind.ALIAS, self.zone)
        return True

    def end_zone(self) -> None:
        self.end_inline()
        self.zone = None

    def end_inline(self) -> None:
        if self.inline is not None and self.inline[0].members:
            self.reading.zoning(self.vsan).add_alias(Kind.ALIAS, self.inline[0])
        self.inline = None

    def close(self) -> None:
        self.end_zone()
        self.block = None

    # ---- members

    def take_member(self, line: Line, text: str) -> bool:
        """A member of the zone or the alias that is open, or a zone of the zone set that is."""
        words = text.split()
        if self.zone is None:
            if self.block and self.block.one and len(words) == 2 and words[0] == "member":
                self.block.one.zones.append(words[1])
                line.use = Use.MEMBER
                return True
            if member_of(re.sub(r"^member\s+", "", text), line) is not None:
                self.account.fault(line, "is a member, and no zone is open: the head of its zone is missing in this file")
                return True
            return False
        member = member_of(re.sub(r"^member\s+", "", text), line)
        if member is None:
            return False
        if self.inline is not None and line.indent > self.inline[1]:
            self.inline[0].members.append(member)
        else:
            self.end_inline()
            self.zone.members.append(member)
        if member.kind is Kind.WWPN and re.search(OF_VSAN, text, re.I):
            self.reading.remarks.append(f"{line.place}: {member.value} is of another VSAN (IVR), which this forwarder's zones can't say: it is a member like the others")
        self.zone.is_starred |= text.startswith("*") or text.startswith("fcid") and "[" in text
        self.is_commands = text.startswith("member")
        line.use = Use.MEMBER
        return True

    def take_label(self, line: Line, label: str) -> None:
        """The name of the member above."""
        line.use = Use.FIELD
        if self.zone is not None and self.zone.members and not self.inline:
            self.zone.members[-1] = replace(self.zone.members[-1], called=label)

    def take_attribute(self, line: Line, words: str) -> None:
        line.use = Use.NOTE
        if self.zone is not None and words.startswith("disable-smart-zoning"):
            self.zone.is_plain = True
            self.reading.remarks.append(f"{line.place}: zone {self.zone.name} has smart zoning disabled: its members all reach each other")
        elif self.zone is not None and re.match(r"read-?only", words):
            self.reading.remarks.append(f"{line.place}: zone {self.zone.name} is read-only on the switch, which this forwarder's zones can't say: reads and writes both go")

    # ---- the end

    def finish(self) -> Reading:
        """The zonings that were read."""
        self.close()
        self.reading.remarks += self.account.close() + self.tables.remarks
        self.reading.logins = self.tables.rows
        for block in self.blocks:
            zoning = self.reading.zoning(block.vsan)
            which = block.database()
            database = zoning.database(which)
            for zone in block.zones:
                self.plain_members(zone, block.vsan)
                database.add_zone(zone)
            if block.one is not None:
                database.add_set(block.one)
                if which is Which.ACTIVE:
                    zoning.active_name = zoning.active_name or block.one.name
        return self.reading

    def plain_members(self, zone: Zone, vsan: Optional[int]) -> None:
        """Where smart zoning is disabled, what its members are doesn't count."""
        if not (zone.is_plain or vsan in self.plain) or all(it.role is Role.ANY for it in zone.members):
            return
        zone.members = [replace(it, role=Role.ANY) for it in zone.members]
        if not zone.is_plain:
            self.reading.remarks.append(f"{zone.place}: smart zoning is disabled in VSAN {vsan}: the members of zone {zone.name} all reach each other")


def vsans_in(text: str) -> list[int]:
    """The VSANs of `10-12,20`; none where a part names none."""
    found: dict[int, None] = {}
    for part in re.split(r"[,\s]+", text.strip(", \t")):
        first, _, last = part.partition("-")
        ends = whole(first, FIRST_VSAN, LAST_VSAN), whole(last or first, FIRST_VSAN, LAST_VSAN)
        if ends[0] is None or ends[1] is None or ends[0] > ends[1]:
            return []
        found.update(dict.fromkeys(range(ends[0], ends[1] + 1)))
    return list(found)


def read_nxos(lines: list[Line]) -> Reading:
    """The zonings, aliases and logins of the lines of a file."""
    account = Account(lines)
    reader = Reader(account)
    for line in lines:
        reader.take(line)
    return reader.finish()
