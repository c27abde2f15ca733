"""Reads what Brocade FOS prints of its zoning, and the commands that make one."""
import re
import shlex
from typing import Optional

from ..numerals import hexadecimal
from .lines import Account, Line, Use
from .model import WWN, Kind, Member, Reading, Role, Vendor, Which, Zone, ZoneSet
from .tables import Tables

NAME = r"[A-Za-z0-9][\w$^-]*"
HEAD = re.compile(rf"^(cfg|zone|alias)\s*:\s*({NAME})(?:\s+(\S.*))?$")
SECTION = re.compile(r"^(Defined|Effective)\s+configuration\s*:?\s*(.*)$", re.I)
PROPERTY = re.compile(r"^00:02:00:00:00(?::[0-9a-f]{2}){3}$", re.I)
PEER_HEAD = re.compile(r"^(Principal|Peer)\s+Member\(?s?\)?\s*:?\s*(.*)$", re.I)
PEER_NOTE = re.compile(r"^(Property\s+Member|Created\s+by)\s*:?\s*.*$", re.I)
DOMAIN_PORT = r"[0-9]{1,3},[0-9]{1,5}"
TOKEN = re.compile(rf"^(?:{WWN}|{DOMAIN_PORT}|{NAME})$")
COMMAND = re.compile(
    r"^(ali|zone|cfg)(create|add|remove|delete|enable|disable|save|clear|clone|rename|show|transabort|transshow|size|actvshow)\b\s*(.*)$|^zone\s+--(\w+)\s*(.*)$|^(defzone)\s+--(\w+).*$", re.I
)
NOTE = re.compile(r"^(no configuration (defined|in effect).*|No Effective configuration.*|Default Zone Access Mode.*|(committed|transaction)\s*-.*|\d+ Peer Zones? in .*|zone db.*|[-=]+)$", re.I)
PERMIT = re.compile(r"^(?:No Effective configuration\s*:?\s*\(All Access\)|committed\s*-\s*All Access.*)$", re.I)


class Reader:
    """Takes the lines of a file one after the other."""

    def __init__(self, account: Account) -> None:
        self.account = account
        self.tables = Tables()
        self.reading = Reading(Vendor.FOS)
        self.zoning = self.reading.zoning(None)
        self.which = Which.FULL
        self.open: Optional[Zone] = None
        self.set: Optional[ZoneSet] = None
        self.role = Role.ANY
        self.principals = 0  # so many of the next members are principals of a peer zone
        self.is_peer = False
        self.is_behind_blank = False

    def take(self, line: Line) -> None:
        if line.is_prompt:
            self.close()
            line.use, self.which = Use.PROMPT, Which.FULL
            if "actvshow" in line.command.lower():
                self.which = Which.ACTIVE
            self.take_command(line, line.command)
        elif not line.text.strip():
            line.use, self.is_behind_blank = Use.BLANK, True
        elif not line.is_read:
            line.use = Use.OTHER
        else:
            self.take_text(line, line.text.strip())

    def take_text(self, line: Line, text: str) -> None:
        """Each line has one use."""
        if head := SECTION.match(text):
            self.close()
            self.which, line.use = (Which.FULL if head[1].lower() == "defined" else Which.ACTIVE), Use.NOTE
            self.take_default(line, head[2])
        elif self.take_default(line, text):
            line.use = Use.NOTE
        elif head := HEAD.match(text):
            self.take_head(line, head[1], head[2], head[3] or "")
        elif self.take_command(line, text):
            return
        elif self.is_open and (part := PEER_HEAD.match(text)):
            self.role, self.is_peer, line.use = Role[part[1].upper()], True, Use.FIELD
            self.take_members(line, part[2])
        elif self.is_open and PEER_NOTE.match(text):
            self.is_peer, line.use = True, Use.FIELD
        elif NOTE.match(text):
            line.use = Use.NOTE
        elif self.is_open and all(TOKEN.match(it) for it in tokens(text)) and tokens(text):
            self.take_members(line, text)
        elif (use := self.tables.take(line)) is not None:
            self.close()
            line.use = use
        elif self.is_open and (not self.is_behind_blank or ";" in text):
            self.account.fault(line, "stands below a zone and is no list of members: WWNs, `domain,index` and names with `;` between them")
        elif re.match(r"(cfg|zone|alias)\s*:", text):
            self.account.fault(line, "is no head of a zone, an alias or a configuration: docs/ZONES.md has the shapes that are read")
        else:
            self.account.other(line)

    @property
    def is_open(self) -> bool:
        return self.open is not None or self.set is not None

    def take_default(self, line: Line, text: str) -> bool:
        """`All Access` lets all reach each other where no configuration is in effect."""
        if PERMIT.match(text.strip()):
            self.zoning.default_permit = line.place
            return True
        return False

    def take_head(self, line: Line, word: str, name: str, rest: str) -> None:
        self.close()
        line.use = Use.HEAD
        if word == "cfg":
            self.set = ZoneSet(name, line.place)
            self.zoning.database(self.which).add_set(self.set)
            if self.which is Which.ACTIVE:
                self.zoning.active_name = name
        else:
            self.open = Zone(name, line.place)
            self.keep(word, self.open)
        self.take_members(line, rest)

    def keep(self, word: str, zone: Zone) -> None:
        if word == "zone":
            self.zoning.database(self.which).add_zone(zone)
        else:
            self.zoning.add_alias(Kind.ALIAS, zone)

    def take_members(self, line: Line, text: str) -> None:
        """A list of members, or the zones of a configuration."""
        words = tokens(text)
        line.use, self.is_behind_blank = Use.MEMBER if words else line.use, False
        for word in words:
            if self.set is not None:
                self.set.zones.append(word)
            elif self.open is not None:
                self.add_member(self.open, line, word)

    def add_member(self, zone: Zone, line: Line, word: str) -> None:
        if PROPERTY.match(word) and not zone.members:
            # the property member of a peer zone: its last two bytes say how many principals follow, where no heading does
            self.is_peer, self.principals = True, hexadecimal(word.replace(":", "")[12:])
            self.role = Role.PEER
            return
        member = member_of(word, line)
        if member is None:
            self.account.fault(line, f"'{word}' is no member: a WWN, `domain,index` or the name of an alias")
            return
        role = self.role
        if self.principals:
            role, self.principals = Role.PRINCIPAL, self.principals - 1
        zone.members.append(Member(member.kind, member.value, member.place, role))

    def close(self) -> None:
        if self.open is not None and self.is_peer and not any(it.role is Role.PRINCIPAL for it in self.open.members):
            self.account.faults.append(f"{self.open.place}: peer zone {self.open.name} has no principal here: give `zoneshow --peerzone all`, which lists them")
        self.open, self.set, self.role, self.is_peer, self.principals = None, None, Role.ANY, False, 0

    # ---- commands

    def take_command(self, line: Line, text: str) -> bool:
        """A command, typed at a prompt or in a script."""
        found = COMMAND.match(text)
        if not found:
            return False
        self.close()
        line.use = Use.PROMPT
        try:
            words = shlex.split(re.sub(r"\s*,\s*(?=\")", " ", found[3] or found[5] or ""))
        except ValueError:
            self.account.fault(line, "the quotes of this command don't match")
            return True
        what, verb = (found[1] or "").lower(), (found[2] or found[4] or found[7] or "").lower()
        if found[4]:
            self.peer_command(line, verb, words)
        elif verb in ("create", "add") and len(words) >= 2:
            self.made(line, what, words[0], ";".join(words[1:]))
        elif verb == "enable" and words:
            self.zoning.active_name = words[0]
        elif verb in ("remove", "delete", "clear", "clone", "rename"):
            self.account.fault(line, "changes a zoning that isn't here: give the zoning that results (`cfgshow`, once it is saved and before it is enabled)")
        return True

    def made(self, line: Line, what: str, name: str, members: str) -> None:
        """`alicreate`, `zonecreate`, `cfgcreate`, and those that add to one."""
        full = self.zoning.full
        if what == "cfg":
            self.set = (full.sets.get(name) or [ZoneSet(name, line.place)])[0]
            full.sets.setdefault(name, [self.set])
        else:
            known = full.zones.get(name) if what == "zone" else self.zoning.aliases.get((Kind.ALIAS, name))
            self.open = known[0] if known else Zone(name, line.place)
            if not known:
                self.which = Which.FULL
                self.keep("zone" if what == "zone" else "alias", self.open)
        self.take_members(line, members)
        self.open = self.set = None

    def peer_command(self, line: Line, verb: str, words: list[str]) -> None:
        """`zone --create -peerzone NAME -principal "A;B" -members "C;D"`, and --add."""
        if verb not in ("create", "add"):
            if verb in ("delete", "remove", "replace", "expunge", "copy", "rename"):
                self.account.fault(line, "changes a zoning that isn't here: give the zoning that results (`cfgshow`, once it is saved and before it is enabled)")
            return
        said = {words[at]: words[at + 1] for at in range(len(words) - 1) if words[at].startswith("-")}
        name = said.get("-peerzone", "")
        if not name:
            self.account.fault(line, "makes no peer zone (-peerzone NAME -principal .. -members ..): traffic isolation zones let nobody reach anybody, take it out")
            return
        known = self.zoning.full.zones.get(name)
        self.open = known[0] if known else Zone(name, line.place)
        if not known:
            self.zoning.full.add_zone(self.open)
        for option, role in (("-principal", Role.PRINCIPAL), ("-members", Role.PEER)):
            self.role = role
            self.take_members(line, said.get(option, ""))
        self.is_peer = True
        self.close()

    def finish(self) -> Reading:
        """The zoning that was read; of the effective configuration the head alone is printed, and its zones behind it."""
        self.close()
        active = self.zoning.active
        for one in [it for some in active.sets.values() for it in some]:
            one.zones = one.zones or list(active.zones)
        self.reading.remarks += self.account.close() + self.tables.remarks
        self.reading.logins = self.tables.rows
        return self.reading


def tokens(text: str) -> list[str]:
    """The words of a list with `;` between them."""
    return [it.strip() for it in text.split(";") if it.strip()]


def member_of(word: str, line: Line) -> Optional[Member]:
    """The member of a word; a WWN may name a port or a node."""
    if re.fullmatch(WWN, word):
        return Member(Kind.WWPN, word.lower(), line.place)
    if re.fullmatch(DOMAIN_PORT, word):
        return Member(Kind.DOMAIN_PORT, word, line.place)
    return Member(Kind.ALIAS, word, line.place) if re.fullmatch(NAME, word) else None


def read_fos(lines: list[Line]) -> Reading:
    """The zonings, aliases and logins of the lines of a file."""
    account = Account(lines)
    reader = Reader(account)
    for line in lines:
        reader.take(line)
    return reader.finish()
