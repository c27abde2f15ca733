#!/usr/bin/env python3
"""bench/text/rooms.py [write | TOP]: the table 'What each room may know' of docs/inside/ARCHITECTURE.md, and its picture of levels, compared with the crates.

A crate stands one level above the highest that it names, by crates.txt; with `write` the picture is drawn anew from there.
Each cell 'What it is' stands as the first sentence of the crate's README, which may have more in brackets. Each cell 'What it doesn't know' is a list
of phrases, and PHRASES has what each of them means: crates, or modules of their definitions, that the crate's src, specs and proofs may not name, and
words that its src may not have, both without remarks. A cell `all crates but ..` has the crates of this repository that the crate may name, and no other; PROCESS holds for each crate
without such a cell. A phrase without a row, and a row whose phrase no cell has, are faults. TOP is the tree to look at, this one where none is given.
bench/text/pages runs it too.
"""
import pathlib
import re
import sys

CODECS = "eth_frames fc_frames fcoe_codec fip_codec els_messages ct_messages"
TABLES = "fc_addresses login_table keepalive_clock name_server state_change"
FABRIC = "fab_policy fab_roster fab_sending fab_judge forward_core fab_shared"
RUNS = "window_records fab_windows fab_replay fab_live fab_pages run_files side_runs fabric_tool"

# a sentence of the page, and the crates that it means
PROCESS = ("No crate but fcoe_tool and tool_process knows the process.", "tool_process fcoe_tool")
# what the rules decide, as modules: who takes other definitions of fab_policy, of windows or of who is live, knows no verdict by them
VERDICTS = "fab_policy.specs.Verdicts fab_policy.specs.Right fab_policy.specs.Cause fab_policy.specs.declared.verdict"
# what an entry sends, as modules: who takes the messages and their bytes alone doesn't know that
SENDS = " ".join(f"fab_sending.specs.{it}" for it in ("Sends", "Notices", "Messages", "Clearing", "Counting", "Framed"))
# phrase of a cell: what it means, as crates or modules, and as words of src
PHRASES: dict[str, tuple[str, str]] = {
    "captures": ("pcap_file pcapng_file", ""),
    "each other standard": (CODECS, ""),
    "Ethernet": ("eth_frames", ""),
    "FCoE": ("fcoe_codec", ""),
    "files": ("run_files", "Depot Sink create open_read"),
    "FIP": ("fip_codec", ""),
    "frames": ("eth_frames fc_frames fcoe_codec fip_codec", "Frame FcFrame Caught"),
    "free addresses": ("fc_addresses", "Pool"),
    "how a frame is handled": ("fab_judge fab_sending forward_core", ""),
    "how a verdict is found": ("fab_judge", "judge frame_rule"),
    "how captures are read": ("", "Reader Budget"),
    "how captures are written": ("", "write_head write_record"),
    "how tables are kept": (f"{TABLES} fab_roster", "Roster"),
    "pages": ("fab_pages run_files", ""),
    "payloads": ("els_messages ct_messages", ""),
    "queries": ("ct_messages name_server", ""),
    "the configuration": ("fab_config", "Config"),
    "the fabric": ("forward_core", ""),
    "the forwarder": (FABRIC, "Rule Verdict"),
    "the node's stages": ("", "Stage"),
    "the rules": ("fab_policy fab_judge", "Rule Verdict"),
    "threads": ("fab_turn fab_shared", "Threads Wait spawn"),
    "verdicts": (f"fab_judge {VERDICTS}", "Rule Verdict"),
    "what an entry sends": (SENDS, "frame_sends tick_sends"),
    "what is in the frames": (CODECS, "Mac What FcFrame"),
    "what is sent": ("fab_sending", "Out OutMessage OutList"),
    "what the pieces are": ("fab_judge fab_sending forward_core", "Caught Event Verdict"),
    "what the value is": (f"{CODECS} {FABRIC} fab_config", "Fabric"),
    "what they hold": (f"{TABLES} {FABRIC} fab_config", "Login"),
    "where the stream comes from": ("", "Stdin TcpStream"),
    "whether the journal is legal": ("forward_core fab_replay fab_judge", "Legal judged"),
    "which store it runs over": ("", "FileDepot MemDepot MemSink OsDepot StdSink"),
    "which thread takes a frame": ("fab_turn", "spawn"),
    "who goes on": ("fab_judge fab_sending forward_core", "Config Fabric"),
    "who is logged in": ("fab_roster login_table", "Login"),
    "who runs it": (RUNS, ""),
    "who wrote the files": ("fab_live fab_migrate fab_windows run_files", ""),
    "why a frame is sent": (f"window_records fab_judge fab_roster {SENDS}", "Verdict Rule Journal"),
    "zones": ("zone_rules", ""),
}
TESTS = re.compile("_tests|_cases|case_|examples")  # in names of crates that are no rooms: tests, cases and examples
PAGE = "docs/inside/ARCHITECTURE.md"
ALL = "all "  # begins a cell that forbids all crates: `all crates but ..`, or `all other crates`


def text(folder: pathlib.Path, parts: tuple[tuple[str, str], ...], remark: str) -> str:
    """The files of some parts of a crate, without its tests and their remarks."""
    files = sorted(file for part, kind in parts for file in (folder / part).rglob(f"*.{kind}") if file.stem != "tests")
    return "\n".join(re.sub(rf"{remark}.*", "", file.read_text(encoding="utf-8")) for file in files)


def named(folder: pathlib.Path, crates: set[str]) -> tuple[set[str], set[str], set[str]]:
    """The crates that a crate names, the words of its code without what contracts name, and the modules that its contracts and proofs name."""
    code = text(folder, (("src", "rt"),), "//")
    ghost = text(folder, (("specs", "antt"), ("proofs", "antt")), "--")
    heads = set(re.findall(r"(?<![\w.:])([a-z]\w*)::", code)) | set(re.findall(r"\buse ([a-z]\w*)(?:;| as )", code))
    heads |= set(re.findall(r"\bRattle\.([a-z]\w*)\b", code + ghost))
    plain = re.sub(r"^\s*ghost use [^;]*;", "", code, flags=re.M)
    modules = set(re.findall(r"\bRattle\.([a-z]\w*(?:\.\w+)+)", code + ghost))
    return heads & crates - {folder.name}, set(re.findall(r"\w+", plain)), modules


def is_there(name: str, folders: dict[str, pathlib.Path]) -> bool:
    """Whether there is a crate of this name, or a module: CRATE.specs.FILE, or CRATE.specs.declared.FILE, which is made of the code's FILE."""
    crate, _, path = name.partition(".specs.")
    file = f"src/{path.removeprefix('declared.')}.rt" if path.startswith("declared.") else f"specs/{path}.antt"
    return crate in folders and (not path or (folders[crate] / file).is_file())


def rows(section: str) -> dict[str, tuple[str, list[str]]]:
    """Of each crate of the table what it is, and the phrases of what it doesn't know; a row without a crate goes on with the one above."""
    table = [[it.strip() for it in line.split("|")[1:-1]] for line in section.splitlines() if line.startswith("|")][2:]
    joined: list[list[str]] = []
    for row in table:
        if row[0]:
            joined.append(row)
        else:
            joined[-1] = [" ".join(both).strip() for both in zip(joined[-1], row)]
    return {name: (what, unknown.split(", ")) for name, what, unknown in joined}


def unknown_of(name: str, phrases: list[str], crates: set[str]) -> tuple[set[str], set[str]]:
    """What a crate may not name, crates and modules, and the words that it may not have, by the phrases of its cell."""
    if phrases[0].startswith(ALL):
        return crates - set(re.findall(r"\w+", " ".join(phrases))) - {name}, set()
    meant = [PHRASES.get(it, ("", "")) for it in phrases]
    return set(" ".join([PROCESS[1], *(it for it, _ in meant)]).split()) - {name}, set(" ".join(it for _, it in meant).split())


def first_sentence(readme: str) -> str:
    """The first sentence of a README, without what stands in brackets."""
    return re.split(r"\.(?:\s|$)", re.sub(r"\s\([^()]*\)", "", " ".join(readme.split("\n\n")[1].split())))[0]


def levels(top: pathlib.Path) -> dict[str, int]:
    """The level of each crate but those of tests, cases and examples."""
    lines = re.findall(r"^(\w+)[^:#\n]*:(.*)$", (top / "crates.txt").read_text(encoding="utf-8"), re.M)
    found: dict[str, int] = {}
    for name, below in lines:  # each stands behind those that it names
        found[name] = 1 + max((found[it] for it in below.split() if it in found), default=-1)
    return {name: level for name, level in found.items() if not TESTS.search(name)}


def picture(top: pathlib.Path) -> str:
    """The levels from the program down, a line each, and a further one where a level has more crates than fit."""
    found, drawn = levels(top), ""
    for level in range(max(found.values()), -1, -1):
        names = [it for it in found if found[it] == level]
        drawn += "".join(f"{level if not at else '':>2}  {'  '.join(f'{it:<15}' for it in names[at : at + 6]).rstrip()}\n" for at in range(0, len(names), 6))
    return f"```\n{drawn}```\n"


def wrong(top: pathlib.Path) -> list[str]:
    """What rooms know that they may not, and cells that differ from the crate."""
    folders = {it.name: it for it in (top / "crates").iterdir() if (it / "src").is_dir()}
    whole, page = (top / PAGE).read_text(encoding="utf-8"), PAGE
    section = whole.split("## What each room may know")[1].split("\n## ")[0]
    found = rows(section)
    said = [] if picture(top) in whole else [f"{page}: the levels are others by crates.txt: bench/text/rooms.py write"]
    said += [f"{page}: of {it} only the row or only the folder is there" for it in sorted(set(found) ^ {it for it in folders if not TESTS.search(it)})]
    said += [] if PROCESS[0] in section else [f"{page}: lacks the sentence '{PROCESS[0]}'"]
    used = {it for _, phrases in found.values() if not phrases[0].startswith(ALL) for it in phrases}
    said += [f"{page}: bench/text/rooms.py doesn't say what '{it}' means" for it in sorted(used - set(PHRASES))]
    said += [f"bench/text/rooms.py: no cell of {page} has '{it}'" for it in sorted(set(PHRASES) - used)]
    meant = set(" ".join([PROCESS[1], *(it for it, _ in PHRASES.values())]).split())
    said += [f"bench/text/rooms.py: there is no {it}" for it in sorted(meant) if not is_there(it, folders)]
    return said + [it for name in sorted(set(found) & set(folders)) for it in wrong_of(name, *found[name], folders)]


def wrong_of(name: str, what: str, phrases: list[str], folders: dict[str, pathlib.Path]) -> list[str]:
    """The same of one room."""
    begin = first_sentence((folders[name] / "README.md").read_text(encoding="utf-8"))
    said = [] if what == begin else [f"{PAGE}: {name} is '{what}', and its README begins with '{begin}'"]
    crates, words, modules = named(folders[name], set(folders))
    never, unsaid = unknown_of(name, phrases, set(folders))
    inside = {it for it in never - set(folders) if any(f"{path}.".startswith(f"{it}.") for path in modules)}
    both = sorted(crates & never | inside | words & unsaid)
    return said + [f"crates/{name}: may not know {' '.join(both)}"] * bool(both)


if __name__ == "__main__":
    TOP = pathlib.Path(__file__).resolve().parents[2]
    if sys.argv[1:] == ["write"]:
        text_ = (TOP / PAGE).read_text(encoding="utf-8")
        (TOP / PAGE).write_text(re.sub(r"^```\n.*?^```\n", lambda _: picture(TOP), text_, count=1, flags=re.M | re.S), encoding="utf-8")
    faults = wrong(pathlib.Path(sys.argv[1]) if sys.argv[1:] and sys.argv[1:] != ["write"] else TOP)
    print("\n".join(faults) or "the rooms are what the table says, and know no more")
    sys.exit(bool(faults))
