"""What `look check` found as JUnit XML: a suite for each host and forwarder, a test case for each rule."""
import xml.etree.ElementTree as ET
from typing import Optional

from ..files import write_whole
from ..moments import stamp
from ..printing import as_json
from ..waivers import Waiver
from .command import Checked, Found, row_of
from .rules import BROKEN, HELD, OPEN


def case_of(it: Found, waiver: Optional[Waiver]) -> ET.Element:
    """A rule: failed where it is broken, skipped where it isn't seen or can't be told."""
    row = row_of(it)
    case = ET.Element("testcase", classname=f"{it.group}.{it.rule.who}", name=it.rule.name)
    if row["state"] == BROKEN and waiver is not None:
        ET.SubElement(case, "skipped", message=f"broken, accepted until {waiver.until}: {waiver.reason}")
    elif row["state"] == BROKEN:
        lines = [f"frame {one['frame']} {stamp(int(one['clock']))} {one['kind']}: {one['field']} {one['stands']}, should be {one['should']}" for one in row["broken"]]
        failure = ET.SubElement(case, "failure", message=f"{it.rule.text} [{'; '.join(it.rule.clauses)}: {it.rule.word}; from memory]", type=it.rule.name)
        failure.text = "\n".join(lines)
    elif row["state"] != HELD:
        whys = dict.fromkeys(one["why"] for one in row["open"])
        ET.SubElement(case, "skipped", message=f"{row['state']}: {'; '.join(whys)}" if row["state"] == OPEN else row["state"])
    return case


def write_junit(found: Checked, name: str) -> None:
    """Writes the file."""
    top = ET.Element("testsuites", name="look check")
    if found.origin:
        told = ET.SubElement(top, "properties")
        for key, value in found.origin.items():
            ET.SubElement(told, "property", name=key, value=value if isinstance(value, str) else as_json(value))
    for talk, rows in found.by_whom():
        cases = [case_of(it, found.waiver(it)) for it in rows]
        failures, skipped = (sum(case.find(kind) is not None for case in cases) for kind in ("failure", "skipped"))
        suite = ET.SubElement(top, "testsuite", name=f"port {talk.port.number} {rows[0].who}", tests=str(len(cases)), failures=str(failures), skipped=str(skipped), errors="0")
        suite.extend(cases)
    ET.indent(top)
    write_whole(name, "<?xml version='1.0' encoding='utf-8'?>\n" + ET.tostring(top, encoding="unicode"))
