"""How scenes went: on the terminal, as JSON, as JUnit XML."""
import xml.etree.ElementTree as tree
from collections import Counter
from dataclasses import asdict
from typing import Any, Iterable

from .. import printing
from ..answers.texts import table
from .playing import BROKEN, FAILED, PASSED, SKIPPED, Outcome


def line(found: Outcome) -> str:
    """One scene, as soon as it's over."""
    return f"{found.scene:22} {found.verdict:8} {found.seconds:6.1f} s  {found.why}".rstrip()


def summary(outcomes: list[Outcome]) -> list[str]:
    """The table, and what it comes to."""
    counts = Counter(it.verdict for it in outcomes)
    rows = [[it.scene, it.verdict, f"{sum(step.held is True for step in it.steps)} of {len(it.steps)}", it.source] for it in outcomes]
    total = ", ".join(f"{count} {verdict}" for verdict, count in counts.most_common())
    unchecked = sorted({it.unchecked for it in outcomes if it.unchecked})
    last = f"{len(outcomes)} scene{'s' * (len(outcomes) != 1)}: {total}"
    return [*table(["scene", "verdict", "steps", "source"], rows, ""), "", *(f"`look check` couldn't look: {it}" for it in unchecked), last]


def details(found: Outcome) -> Iterable[str]:
    """What a scene that wasn't passed shows."""
    yield f"{found.scene}: {found.verdict}: {found.title}"
    yield f"  source: {found.source}"
    for it in found.steps:
        mark = {True: "held", False: "NOT HELD", None: "not come to"}[it.held]
        yield f"  {mark:11} {it.words}" + (f" ({it.what})" if it.what else "")
    if found.why:
        yield f"  why: {found.why}"
    if found.last_heard is not None:
        yield f"  the host was last heard at {found.last_heard:g} s of {found.seconds:g}"
    if found.folder:
        yield f"  next: look check {found.folder}/wire.pcap; the journal is {found.folder}/journal"


def as_json(outcomes: list[Outcome], made: dict[str, Any]) -> str:
    return printing.as_json({"origin": made, "scenes": [asdict(it) for it in outcomes]}, 1)


def cause(found: Outcome) -> str:
    """Why a scene wasn't passed, without what differs from scene to scene: the step that wasn't held, or the first rule that was broken."""
    failed = next((it.words for it in found.steps if it.held is False), None)
    if found.verdict == FAILED and failed:
        return failed
    return found.broken[0].partition(":")[0] if found.verdict == BROKEN and found.broken else found.why


def causes(outcomes: list[Outcome]) -> list[str]:
    """What wasn't passed by its causes, the one that has most scenes first."""
    by: dict[str, list[str]] = {}
    for it in outcomes:
        if it.verdict not in (PASSED, SKIPPED):
            by.setdefault(cause(it), []).append(it.scene)
    if not by:
        return []
    rows = sorted(by.items(), key=lambda it: -len(it[1]))
    count = sum(map(len, by.values()))
    return [f"{count} not passed, of {len(by)} cause{'s' * (len(by) != 1)}; mend these first:", *(f"  {len(scenes)} x {why} ({', '.join(scenes)})" for why, scenes in rows)]


KEPT = {"scene": str, "verdict": str}  # what of an earlier report is read


def changes(outcomes: list[Outcome], before: list[dict[str, Any]]) -> list[tuple[Outcome, str]]:
    """The scenes with another verdict than in an earlier report, each with that."""
    was = {it["scene"]: it["verdict"] for it in before}
    return [(it, was.get(it.scene, "not played")) for it in outcomes if it.verdict != was.get(it.scene, "not played")]


def as_junit(outcomes: list[Outcome], made: dict[str, Any], accepted: dict[str, str]) -> str:
    """JUnit XML, as build servers read it."""
    suite = tree.Element("testsuite", name="scenes", tests=str(len(outcomes)))
    waived = {it.scene for it in outcomes if it.scene in accepted and it.verdict in (FAILED, BROKEN)}
    suite.set("failures", str(sum(it.verdict in (FAILED, BROKEN) and it.scene not in waived for it in outcomes)))
    suite.set("skipped", str(sum(it.verdict == SKIPPED for it in outcomes) + len(waived)))
    suite.set("errors", str(sum(it.verdict not in (PASSED, FAILED, BROKEN, SKIPPED) for it in outcomes)))
    told = tree.SubElement(suite, "properties")
    for key, value in made.items():
        tree.SubElement(told, "property", name=key, value=value if isinstance(value, str) else printing.as_json(value))
    for it in outcomes:
        case = tree.SubElement(suite, "testcase", classname="scenes", name=it.scene, time=f"{it.seconds:.2f}")
        if it.scene in waived:
            tree.SubElement(case, "skipped", message=f"{it.verdict}, {accepted[it.scene]}")
        elif it.verdict != PASSED:
            word = {SKIPPED: "skipped", FAILED: "failure", BROKEN: "failure"}.get(it.verdict, "error")
            tree.SubElement(case, word, message=it.why).text = "\n".join(details(it))
    tree.indent(suite)
    return '<?xml version="1.0" encoding="UTF-8"?>\n' + tree.tostring(suite, encoding="unicode") + "\n"
