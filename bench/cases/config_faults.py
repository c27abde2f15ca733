"""Configurations with each fault in each line, and with two faults at once, of which the first is told: part of bench/cases/codec_cases. bench/cases/config_judge.py knows the answers."""
import itertools

import config_judge
from case_lines import Cases
from codec_files import refused, text

LINES = """fcf-mac 00:05:1e:00:00:02
vlan 100
switch 10:00:00:05:1e:00:00:02
fc-map 0e:fc:07
domain 2
pool 400
priority 7
period 9000
window 50
limit 300
zone z 10:00:00:1b:21:00:00:0a 10:00:00:1b:21:00:00:0b
zone y 10:00:00:1b:21:00:00:0c
zoneset s z y
zoneset t y
activate s 1000
activate t 2000""".split("\n")
MEMBER = " 10:00:00:00:00:00:00:01"


def judged(cases: Cases, words: str) -> None:
    """Asks for what the lines before it say, with the judge's answer for this text."""
    try:
        said = config_judge.read(words.encode())
        cases.case("config @", "==" + "\n".join(said + ["read again: same"]))
    except config_judge.Fault as fault:
        refused(cases, fault.line, fault.why)


def faulty(place: int) -> list[str]:
    """Lines in the place of that one: a byte, a key, no value, one more, a line of before, and what else its key may not have."""
    line, before = LINES[place], LINES[place - 1]
    key, *values = line.split(" ")
    rows = [line + "\t\x7f", "x" + line, key, line + " :"]
    rows += [before] if place else []
    if key in ("zone", "zoneset"):
        rows += [f"{key} {values[0]}", f"{key} 9{line[len(key) + 1:]}", f"{key} {before.split(' ')[1]} x"]
    elif key == "activate":
        rows += ["activate u 3000", "activate s 0", "activate s 4294967296000"]
    return rows


def replaced(changes: dict[int, str]) -> str:
    return "".join(changes.get(place, line) + "\n" for place, line in enumerate(LINES))


def one_fault(cases: Cases) -> None:
    cases.test("each_line_with_each_fault", "a byte, a key, a value less, a value more, a name or a key twice: the line is told, and why")
    text(cases, replaced({}))
    judged(cases, replaced({}))
    for place in range(len(LINES)):
        for line in faulty(place):
            words = replaced({place: line})
            text(cases, words)
            judged(cases, words)
    cases.test("each_line_left_out", "a default stands for it, or the line that needs it has a fault, or it is missing behind the last line")
    for place in range(len(LINES)):
        words = "".join(line + "\n" for at, line in enumerate(LINES) if at != place)
        text(cases, words)
        judged(cases, words)
    cases.test("each_line_a_second_time", "at the end: keys and names stand once, and moments rise")
    for line in LINES:
        words = replaced({}) + line + "\n"
        text(cases, words)
        judged(cases, words)


def in_two_lines(cases: Cases) -> None:
    cases.test("of_two_lines_with_a_fault_the_first_is_told", "each two causes, in two lines of the values and in two of the zones")
    for first, second in ((6, 8), (11, 13), (3, 15), (8, 11)):
        for one, other in itertools.product(faulty(first)[:5], faulty(second)[:5]):
            words = replaced({first: one, second: other})
            text(cases, words)
            judged(cases, words)
    cases.test("a_missing_key_is_told_last", "no vlan, and each cause in a line before the end")
    for line in faulty(13):
        words = replaced({1: "# vlan 100", 13: line})
        text(cases, words)
        judged(cases, words)


def in_one_line(cases: Cases) -> None:
    cases.test("of_two_faults_of_a_line_the_first_test_tells", "the byte before the key, the key before its values, a second time before its values")
    for line in ("xvlan \x7f", "vlan 100 \x7f", "vlan 0 \x7f", "vlan\t\x7f", "\x7f", "xvlan 0", "xvlan", " xvlan", "vlan 0", "vlan 1 2", "vlan", "limit 0", "zone z", "zone z 1",
                 "zone z \x7f", "zone 1z 1", "zoneset s", "zoneset s x", "zoneset 1s z", "zoneset u x", "zoneset \x7f z", "activate u 1", "activate s 1 2", "activate u"):
        words = replaced({}) + line + "\n"
        text(cases, words)
        judged(cases, words)


def at_a_limit(cases: Cases) -> None:
    cases.test("a_limit_is_told_last_of_its_line", "one zone, zone set or activation too many, with and without another fault of that line")
    zones = "".join(f"zone z{place}{MEMBER}\n" for place in range(1000))
    sets, active = "".join(f"zoneset s{place} z\n" for place in range(64)), "".join(f"activate s {place}\n" for place in range(64))
    rows = [(f"each 1000 zone z%{MEMBER}", zones, "", ["zone a" + MEMBER, "zone z0" + MEMBER, "zone a 1", "zone z0 1", "zone 1a" + MEMBER, "zone a", "\x7f"])]
    rows.append(("each 64 zoneset s% z", sets, f"zone z{MEMBER}\n", ["zoneset a z", "zoneset s0 z", "zoneset a x", "zoneset s0 x", "zoneset 1a z"]))
    rows.append(("each 64 activate s %", active, f"zone z{MEMBER}\nzoneset s z\n", ["activate s 64", "activate s 63", "activate t 64", "activate s", "activate s 064"]))
    head = "fcf-mac 0e:fc:00:00:00:0a\nvlan 100\n"
    for each, added, before, lines in rows:
        for line in lines:
            text(cases, head + before)
            cases.add(each)
            text(cases, line + "\n")
            judged(cases, head + before + added + line + "\n")
            text(cases, head + before)
            cases.add(each)
            text(cases, line + "\nxvlan\n")
            judged(cases, head + before + added + line + "\nxvlan\n")
    cases.test("a_long_text_is_told_first", "at line 0, whatever its lines are")
    for line in ("vlan 0", "xvlan", "\x7f", ""):
        text(cases, line + "\n#")
        cases.add("fill 1048576 78")
        judged(cases, line + "\n#" + "x" * 1048576)


def all_faults(cases: Cases) -> None:
    one_fault(cases)
    in_two_lines(cases)
    in_one_line(cases)
    at_a_limit(cases)
