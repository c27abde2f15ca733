"""What a terminal shows of zonings: reach, `whatif`, and a switch's list of logins."""
from ..answers.texts import LISTED, table
from ..answers.views import Row
from ..moments import short, stamp

DRAWN = 24  # N_Ports of a matrix that a terminal shows


def joined(words: list[str], none: str = "none") -> str:
    return ", ".join(words) or none


def listed_rows(lines: list[str], what: str, most: int = LISTED) -> list[str]:
    return lines[:most] + ([f"  and {len(lines) - most} more {what} (--json)"] if len(lines) > most else [])


def matrix(found: Row) -> list[str]:
    """Who reaches whom, a row and a column each."""
    names = [it["wwpn"] for it in found["ports"]]
    pairs = {frozenset(it["wwpns"]) for it in found["pairs"]}
    numbers = [str(at) for at in range(1, len(names) + 1)]
    rows = []
    for at, row in enumerate(found["ports"]):
        marks = ["." if other == row["wwpn"] else "x" if frozenset((row["wwpn"], other)) in pairs else "" for other in names]
        called = [joined(row["called"], "")] if "called" in row else [row["address"], row["port"]]
        rows.append([numbers[at], row["wwpn"], *called, *marks])
    return table(["", "WWPN", *(["names"] if found["at"] is None else ["FCID", "port"]), *numbers], rows)


def reach_text(found: Row, first: int) -> list[str]:
    """The matrix, and the zones of each pair."""
    at = f" at {short(found['at'], first)}" if found["at"] is not None else ""
    name = f", zone set {found['set']}" if found["set"] else ""
    lines = [f"{len(found['ports'])} N_Ports{at}{name}: x where two reach each other"]
    if not found["ports"]:
        return lines
    if len(found["ports"]) <= DRAWN:
        lines += matrix(found)
    else:
        lines.append(f"  more than {DRAWN} N_Ports: the matrix is in --report and --json")
    lines.append(" By which zone")
    lines += listed_rows([f"  {one} and {other}: {joined(it['zones'])}" for it in found["pairs"] for one, other in [it["wwpns"]]], "pairs", 3 * LISTED) or ["  nobody reaches anybody"]
    if found["absent"]:
        lines += [f" Zoned and not logged in: {joined(found['absent'][:LISTED])}" + (" .." if len(found["absent"]) > LISTED else "")]
    return lines


def where(row: Row) -> str:
    """Which planned zone lacks whom."""
    if row["lacking"]:
        return "; ".join(f"planned zone {it['zone']} lacks {joined(it['lacks'])}" for it in row["lacking"][:3])
    return "; ".join(f"{wwpn} is in {joined(zones, 'no planned zone')}" for wwpn, zones in row["planned"].items())


def cut_line(row: Row, first: int) -> str:
    one, other = row["wwpns"]
    dropped = f", {row['dropped']} of them dropped" if row["dropped"] != row["frames"] else ""
    return f"  {one} and {other}: {row['frames']} frames, {row['bytes']} bytes{dropped}, last heard {short(row['last'], first)}; joined by {joined(row['zones'])}; {where(row)}"


def whatif_text(found: Row) -> list[str]:
    """The difference, by conversation."""
    lines = [f"was: {found['was']}", f"planned: {found['planned']}" + (f", active from {stamp(found['at'])}" if found["at"] is not None else "")]
    if found["has_captures"]:
        first = found["first"]
        lines += [f"both runs are checked by replay: {' and '.join(found['checked'])}", ""]
        count = len(found["cut"])
        lines.append(f"{count} conversation{'' if count == 1 else 's'} would break" if found["cut"] else "no conversation of these captures would break")
        lines += [cut_line(it, first) for it in found["cut"]]
    silent = [f"  {one} and {other}: joined by {joined(it['zones'])}; {where(it)}" for it in found["lost_silent"] for one, other in [it["wwpns"]]]
    if silent:
        lines += [" Lose each other" + (", and never spoke here" if found["has_captures"] else ""), *listed_rows(silent, "pairs")]
    gained = [f"  {one} and {other}: by {joined(it['zones'])}" + (f"; {it['would_go']} frames that were dropped would go" if it["would_go"] else "") for it in found["gained"] for one, other in [it["wwpns"]]]
    lines += [" Gain each other", *listed_rows(gained, "pairs")] if gained else []
    if found["has_captures"]:
        lines += told_text(found)
    names = [f"  {it['wwpn']}: was {joined(it['was'], 'without a name')}, planned {joined(it['planned'], 'without a name')}" for it in found["renamed"]]
    lines += [" Under several names", *listed_rows(names, "WWPNs")] if names else []
    if not silent and not gained and not found["cut"]:
        lines.append("both zonings let the same reach each other")
    return lines


def told_text(found: Row) -> list[str]:
    """What hosts hear of the change, and what stands out in the plan."""
    lines = []
    notices = [f"  {it['wwpn']} ({it['fcid']}, port {it['port']}): of {joined(it['of'])}" for it in found["notices"]]
    if notices:
        lines += [f" RSCNs, were it activated at {short(found['told_at'], found['first'])}", *listed_rows(notices, "hosts")]
    answers = [f"  {it['wwpn']}: {it['query']} ({it['count']}) lacks {joined(it['lacks'])}" for it in found["answers"]]
    lines += [" Answers of the name server that shrink", *listed_rows(answers, "queries")] if answers else []
    pairs = [f"  {one} and {other}: {joined(it['zones'])}" for it in found["silent_pairs"] for one, other in [it["wwpns"]]]
    lines += [" Planned together, and never spoke", *listed_rows(pairs, "pairs")] if pairs else []
    absent = [f"  {it['wwpn']}: {joined(it['zones'])}" for it in found["never_logged_in"]]
    lines += [" Planned, and never logged in", *listed_rows(absent, "WWPNs")] if absent else []
    zones = [f"  {it['zone']}: {it['wwpn']}" for it in found["alone"]]
    return lines + ([" Planned zones of which one member alone logged in", *listed_rows(zones, "zones")] if zones else [])


def login_lists_text(rows: list[Row], clock: int, first: int) -> list[str]:
    """A switch's list beside the run's logins."""
    apart = sum(bool(it["differences"]) for it in rows)
    lines = [f"at {short(clock, first)}: {len(rows)} N_Ports, {apart} differ" if apart else f"at {short(clock, first)}: {len(rows)} N_Ports, the same in the list and in the run"]
    cells = [[it["wwpn"], it["called"] or None, it["switch_port"], it["switch_fcid"], it["port"], it["fcid"], "; ".join(it["differences"]) or "same"] for it in rows]
    return lines + table(["WWPN", "name", "on the switch", "FCID there", "port here", "FCID here", ""], cells)
