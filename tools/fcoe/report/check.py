"""The report's section of what the standards ask, and what the captures show of it."""
import tempfile
from typing import Any

from ..check.command import Checked, Found, Row, check, of_session, spot, whys
from ..check.rules import BROKEN, HELD, OPEN, STATES, UNSEEN
from ..frames.heard import colons
from ..moments import short
from ..runs.looking import Look

LISTED = 20  # frames of a rule that the page lists
WHOLE = 8  # hosts and forwarders up to which each has its tables


def checked(look: Look) -> Checked:
    """The rules over the captures; over a run that exists in both directions."""
    if look.program:
        return check(look.captured)
    with tempfile.TemporaryDirectory() as room:
        return check(of_session(look, room))


def broken_row(it: Found, first: int) -> Row:
    frames = [
        {"spot": spot(it.talk, shown), "at": short(int(shown.clock), first), "kind": shown.heard.kind, "field": fault.field, "stands": fault.stands, "should": fault.should}
        for shown, fault in it.tally.broken[:LISTED]
    ]
    return {"rule": it.rule.name, "text": it.rule.text, "source": it.rule.cited, "frames": frames, "more": max(len(it.tally.broken) - LISTED, 0)}


def check_rows(look: Look, first: int) -> dict[str, Any]:
    """Each host and forwarder with its rules by their states; of many those with a broken rule, and how many are left out."""
    found, everyone = [], list(checked(look).by_whom())
    for talk, rows in everyone:
        of = {state: [it for it in rows if it.tally.state == state] for state in STATES}
        counts = {state: len(some) for state, some in of.items()}
        if len(everyone) > WHOLE and not of[BROKEN]:
            continue
        found.append(
            {
                "who": rows[0].who,
                "port": talk.port.number,
                "mac": colons(talk.mac),
                "directions": "both directions" if talk.is_two_way else "its direction alone",
                "counts": counts,
                "broken": [broken_row(it, first) for it in of[BROKEN]],
                "open": [{"rule": it.rule.name, "text": it.rule.text, "whys": list(whys(it))} for it in of[OPEN]],
                "held": [{"rule": it.rule.name, "text": it.rule.text, "source": it.rule.cited, "frames": len(it.tally.held)} for it in of[HELD]],
                "unseen": [it.rule.name for it in of[UNSEEN]],
            }
        )
    return {"rows": found, "left": len(everyone) - len(found)}
