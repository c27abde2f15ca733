"""Random zonings, and each as switches print it: for bench/tools/test_zoning.py. It shares no code with the readers."""
import random
from dataclasses import dataclass, field
from typing import Callable

SPEAK = {("init", "target"), ("target", "init"), ("principal", "peer"), ("peer", "principal")}
Listed = list[tuple[str, str]]  # WWPNs or aliases with their roles


@dataclass
class Made:
    """A zoning: its zones of WWPNs and aliases, and what the aliases stand for."""

    zones: dict[str, Listed] = field(default_factory=dict)
    aliases: dict[str, list[str]] = field(default_factory=dict)

    def ends(self, name: str) -> Listed:
        return [(wwpn, role) for it, role in self.zones[name] for wwpn in self.aliases.get(it, [it])]

    def pairs(self) -> set[tuple[str, str]]:
        """Who reaches whom, counted plainly."""
        found = set()
        for name in self.zones:
            for one, role in self.ends(name):
                for other, another in self.ends(name):
                    if one < other and ("" in (role, another) or "both" in (role, another) or (role, another) in SPEAK):
                        found.add((one, other))
        return found

    @property
    def wwpns(self) -> set[str]:
        return {wwpn for name in self.zones for wwpn, _ in self.ends(name)}


def wwn(number: int, first: str = "20:00:00:1b:21") -> str:
    return f"{first}:{number >> 16 & 255:02x}:{number >> 8 & 255:02x}:{number & 255:02x}"


def drawn(seed: int, roles: tuple[str, ...]) -> Made:
    """A random zoning; of principals there is at least one in a zone, and each WWPN stands in one place of it."""
    rng = random.Random(seed)
    made = Made()
    names = [wwn(it) for it in rng.sample(range(400), rng.randint(4, 40))]
    rest = list(names)
    rng.shuffle(rest)
    for number in range(rng.randint(0, 4)):
        if len(rest) > 6:
            made.aliases[f"al_{number}"] = [rest.pop() for _ in range(rng.randint(1, 2))]
    for number in range(rng.randint(1, 12)):
        pool = [*rest, *made.aliases]
        members = rng.sample(pool, min(len(pool), rng.randint(1, 7)))
        own = [rng.choice(roles) for _ in members]
        if "principal" in roles:
            own[0] = "principal"
        made.zones[f"{rng.choice(['z', 'Zone', 'x-1$'])}_{number}"] = list(zip(members, own))
    return made


def role_word(role: str) -> str:
    return f" {role}" if role else ""


def nxos_active(made: Made, rng: random.Random) -> list[str]:
    """`show zoneset active`: some are logged in."""
    lines = ["zoneset name act vsan 7"]
    called = {wwpn: name for name, some in made.aliases.items() for wwpn in some}
    for name in made.zones:
        lines.append(f"  zone name {name} vsan 7")
        for wwpn, role in made.ends(name):
            label = f" [{called[wwpn]}]" if wwpn in called else ""
            star = rng.random() < 0.5
            lines.append((f"  * fcid 0x{rng.randrange(1 << 24):06x} [pwwn {wwpn}]" if star else f"    pwwn {wwpn}") + label + role_word(role))
        if rng.random() < 0.5:
            lines.append("")
    return lines


def device_aliases(made: Made) -> list[str]:
    lines = [f"device-alias name {name} pwwn {some[0]}" for name, some in made.aliases.items() if len(some) == 1]
    return [*lines, "", f"Total number of entries = {len(lines)}"]


def nxos_member(made: Made, it: str, role: str, indent: str, is_nested: bool) -> list[str]:
    """A member in the defined zoning: an alias of one port is a device alias, one of several an fcalias."""
    some = made.aliases.get(it)
    if some is None:
        return [f"{indent}pwwn {it}{role_word(role)}"]
    if len(some) == 1:
        return [f"{indent}device-alias {it}{role_word(role)}"]
    below = [f"{indent.replace('member ', '')}  pwwn {wwpn}" for wwpn in some] if is_nested else []
    return [f"{indent}fcalias name {it} vsan 7{role_word(role)}" if is_nested else f"{indent}fcalias {it}{role_word(role)}", *below]


def nxos_full(made: Made, _: random.Random) -> list[str]:
    """`show zoneset`, `show fcalias` and `show device-alias database` in a terminal's log."""
    lines = ["mds# show zoneset vsan 7", "zoneset name act vsan 7"]
    for name, members in made.zones.items():
        lines.append(f"  zone name {name} vsan 7")
        lines += [line for it, role in members for line in nxos_member(made, it, role, "    ", True)]
        lines.append("")
    lines.append("mds# show fcalias vsan 7")
    for name, some in made.aliases.items():
        if len(some) > 1:
            lines += [f"fcalias name {name} vsan 7", *(f"  pwwn {it}" for it in some), ""]
    return [*lines, "mds# show device-alias database", *device_aliases(made), "mds#"]


def nxos_running(made: Made, _: random.Random) -> list[str]:
    """`show running-config zone`, behind the device aliases."""
    lines = ["!Command: show running-config zone", "version 9.3(1)", "device-alias database"]
    lines += [f"  {it}" for it in device_aliases(made)[:-2]]
    lines += ["", "device-alias commit", "", "!Full Zone Database Section for vsan 7"]
    for name, members in made.zones.items():
        lines.append(f"zone name {name} vsan 7")
        lines += [line for it, role in members for line in nxos_member(made, it, role, "    member ", False)]
        lines.append("")
    for name, some in made.aliases.items():
        if len(some) > 1:
            lines += [f"fcalias name {name} vsan 7", *(f"    member pwwn {it}" for it in some), ""]
    return [*lines, "zoneset name act vsan 7", *(f"    member {it}" for it in made.zones), "", "zoneset activate name act vsan 7"]


def in_lines(words: list[str], rng: random.Random) -> list[str]:
    """A list of FOS, cut into lines."""
    lines = []
    while words:
        count = rng.randint(1, 3)
        part, words = words[:count], words[count:]
        lines.append("\t\t" + "; ".join(part) + (";" if words else ""))
    return lines


def fos_defined(made: Made, rng: random.Random) -> list[str]:
    """`cfgshow` of a zoning that isn't enabled."""
    lines = ["sw0:admin> cfgshow", "Defined configuration:", " cfg:\tact\t", *in_lines(list(made.zones), rng)]
    for name, members in sorted(made.zones.items()):
        lines += [f" zone:\t{name}\t", *in_lines([it for it, _ in members], rng)]
    for name, some in made.aliases.items():
        lines.append(f" alias:\t{name}\t{'; '.join(some)}")
    return [*lines, "", "Effective configuration:", " No Effective configuration: (No Access)", "", "sw0:admin> "]


def fos_effective(made: Made, _: random.Random) -> list[str]:
    lines = ["Effective configuration:", " cfg:\tact\t"]
    for name in made.zones:
        lines += [f" zone:\t{name}\t", *(f"\t\t{wwpn}" for wwpn, _ in made.ends(name))]
    return lines


def fos_commands(made: Made, _: random.Random) -> list[str]:
    lines = [f'alicreate "{name}", "{"; ".join(some)}"' for name, some in made.aliases.items()]
    lines += [f'zonecreate "{name}", "{";".join(it for it, _ in members)}"' for name, members in made.zones.items()]
    return [*lines, f'cfgcreate "act", "{"; ".join(made.zones)}"', 'cfgenable "act"']


def fos_peers(made: Made, _: random.Random) -> list[str]:
    """`zoneshow --peerzone all`, and `alishow`."""
    lines = ["sw0:admin> cfgshow", "Defined configuration:", f" cfg:\tact\t{'; '.join(made.zones)}", "sw0:admin> zoneshow --peerzone all", "Defined configuration:"]
    for name, members in made.zones.items():
        principals, peers = [it for it, role in members if role == "principal"], [it for it, role in members if role == "peer"]
        lines += [f" zone:\t{name}\t", f"\tProperty Member: 00:02:00:00:00:03:00:{len(principals):02x}", "\tCreated by: User", "\tPrincipal Member(s):", "\t\t" + "; ".join(principals)]
        lines += ["\tPeer Member(s):", "\t\t" + "; ".join(peers)]
    return [*lines, "sw0:admin> alishow", *(f" alias:\t{name}\t{'; '.join(some)}" for name, some in made.aliases.items())]


def fos_properties(made: Made, _: random.Random) -> list[str]:
    """`cfgactvshow`: the first member of a peer zone says how many principals follow."""
    lines = ["Effective configuration:", " cfg:\tact\t"]
    for name in made.zones:
        ends = made.ends(name)
        principals, peers = [it for it, role in ends if role == "principal"], [it for it, role in ends if role == "peer"]
        lines += [f" zone:\t{name}\t", f"\t\t00:02:00:00:00:03:00:{len(principals):02x}", *(f"\t\t{it}" for it in principals + peers)]
    return lines


def configuration(made: Made, _: random.Random) -> list[str]:
    zones = [f"zone {name} {' '.join(dict.fromkeys(wwpn for wwpn, _ in made.ends(name)))}" for name in made.zones]
    return ["fcf-mac 00:05:1e:00:00:02", "vlan 100", *zones, f"zoneset act {' '.join(made.zones)}", "activate act 0"]


Form = Callable[[Made, random.Random], list[str]]
PLAIN: list[Form] = [nxos_active, nxos_full, nxos_running, fos_defined, fos_effective, fos_commands, configuration]
SMART: list[Form] = [nxos_active, nxos_full, nxos_running]
PEERS: list[Form] = [fos_peers, fos_properties]


def as_file(lines: list[str], rng: random.Random) -> bytes:
    """With either end of line."""
    return (rng.choice(["\n", "\r\n"]).join(lines) + "\n").encode()


# ---- forms that are refused by name, each as its switch prints it

OTHERS = {
    "fos_rest.json": (
        "JSON",
        """{"Response": {"effective-configuration": {"cfg-name": "PROD_CFG", "checksum": "5f1e", "enabled-zone": [
  {"zone-name": "esx01_array1", "zone-type": 0, "zone-type-string": "zone",
   "member-entry": {"entry-name": ["10:00:00:90:fa:11:22:01", "50:06:01:60:3b:20:11:aa"]}}]}}}
""",
    ),
    "nxos.json": (
        "JSON",
        """{"TABLE_zoneset": {"ROW_zoneset": {"zoneset_name": "prod", "zoneset_vsan_id": "400", "TABLE_zone": {"ROW_zone": [
  {"zone_name": "z1", "zone_vsan_id": "400", "TABLE_zone_member": {"ROW_zone_member": [{"type": "pwwn", "wwn": "20:00:00:1b:21:00:00:0a"}]}}]}}}}
""",
    ),
    "comware.txt": (
        "Comware",
        """<core-1> display zoneset active vsan 2
VSAN 2:
  zoneset prod
    zone z1
      pwwn 20:00:00:1b:21:00:00:0a
      pwwn 20:00:00:1b:21:00:00:0b
""",
    ),
    "ftos.txt": (
        "FTOS",
        """Dell#show fc zoneset active
Active Zoneset: fcoe_srv_fc_tgt
ZoneName      ZoneMember
=======================================
brcd_sanb     10:00:00:00:c9:9c:4f:01
              20:02:00:11:0d:03:00:00
""",
    ),
    "vdx.txt": (
        "VDX",
        """sw0# show running-config zoning
zoning defined-configuration zone z1
 member-entry 20:00:00:1b:21:00:00:0a
 member-entry 20:00:00:1b:21:00:00:0b
!
zoning defined-configuration cfg prod
 member-zone z1
!
zoning enabled-configuration cfg-name prod
""",
    ),
    "qlogic.txt": (
        "QLogic",
        """SANbox #> zoning active
  Active ZoneSet Information
  ZoneSet      Zone           ZoneMember
  -----------------------------------------
  wwn
               wwn_b0241f
                              50:06:04:82:bf:d2:18:c2
                              21:00:00:e0:8b:02:41:2f
""",
    ),
    "targetcli.txt": (
        "targetcli",
        """o- / ..................................................................... [...]
  o- tcm_fc ........................................................ [Targets: 1]
    o- naa.2000001b2100000b .............................................. [no-gen-acls]
      o- acls ............................................................ [ACLs: 1]
        o- naa.2000001b2100000a .................................... [Mapped LUNs: 1]
""",
    ),
}
# a peer zone, an alias in no zone, and an effective configuration that isn't the defined one
PEER_AND_MORE = """sw0:admin> cfgshow
Defined configuration:
 cfg:\tPROD\tesx01_a; esx02_a; peer1; tape
 zone:\tesx01_a\tesx01; array1
 zone:\tesx02_a\tesx02; array1
 zone:\tpeer1\t00:02:00:00:00:03:00:01; array1; esx01; esx02
 zone:\ttape\tesx01; tape_0
 alias:\tesx01\t10:00:00:90:fa:11:22:01
 alias:\tesx02\t10:00:00:90:fa:11:22:02
 alias:\tarray1\t50:06:01:60:3b:20:11:aa
 alias:\ttape_0\t50:01:04:f0:00:00:00:01

Effective configuration:
 cfg:\tPROD
 zone:\tesx01_a
\t\t10:00:00:90:fa:11:22:01
\t\t50:06:01:60:3b:20:11:aa
 zone:\tpeer1
\t\t00:02:00:00:00:03:00:01
\t\t50:06:01:60:3b:20:11:aa
\t\t10:00:00:90:fa:11:22:01
\t\t10:00:00:90:fa:11:22:02

sw0:admin>
"""
SMART_ZONE = """mds# show zoneset active vsan 7
zoneset name act vsan 7
  zone name z1 vsan 7
  * fcid 0x650040 [pwwn 10:00:00:90:fa:11:22:01] init
    pwwn 10:00:00:90:fa:11:22:02 init
    pwwn 50:06:01:60:3b:20:11:aa target
mds#
"""
IVR = """mds# show zoneset active vsan 400
zoneset name across vsan 400
  zone name IVRZ_esx vsan 400
  * fcid 0x650040 [pwwn 20:00:00:1b:21:00:00:0a]
    pwwn 20:00:00:1b:21:00:00:0b vsan 500
mds# show ivr zoneset active
zoneset name other
  zone name z_esx
  * pwwn 20:00:00:1b:21:00:00:0a vsan 400 autonomous-fabric-id 1
    pwwn 20:00:00:1b:21:00:00:0b vsan 500 autonomous-fabric-id 1
mds#
"""
