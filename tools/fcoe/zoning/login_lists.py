"""A switch's list of logins beside the logins of the run: who is missing, who has another address or port."""
from collections import Counter

from ..answers.views import Row, switch_address
from ..frames.heard import colons, fcid
from ..runs.fabric import Login
from ..runs.looking import Look
from .model import LoginRow


def by_wwpn(rows: list[LoginRow]) -> dict[str, list[LoginRow]]:
    found: dict[str, list[LoginRow]] = {}
    for it in rows:
        found.setdefault(it.wwpn, []).append(it)
    return found


def ports_apart(rows: dict[str, list[LoginRow]], live: dict[str, Login]) -> dict[str, str]:
    """N_Ports that the switch has behind one of its ports, and the captures behind another than the rest of that port."""
    behind: dict[str, Counter[int]] = {}
    for wwpn, some in rows.items():
        for label in {it.port for it in some if it.port and wwpn in live}:
            behind.setdefault(label, Counter())[live[wwpn].port] += 1
    found = {}
    for wwpn, some in rows.items():
        for label in dict.fromkeys(it.port for it in some if it.port and wwpn in live):
            usual = behind[label].most_common(1)[0][0]
            if live[wwpn].port != usual:
                found[wwpn] = f"{label} of the switch is port {usual} here for the others behind it"
    return found


def login_comparison(look: Look, rows: list[LoginRow], clock: int) -> list[Row]:
    """Each WWPN of the list and of the run at a moment: the same, missing on one side, or with another address or port."""
    live = {colons(it.name): it for it in look.walk.fabric.logins if it.is_live(clock)}
    listed, found = by_wwpn(rows), []
    apart = ports_apart(listed, live)
    for wwpn in [*listed, *(it for it in live if it not in listed)]:
        own = listed.get(wwpn, [])
        addresses = list(dict.fromkeys(it.fcid for it in own if it.fcid is not None))
        login = live.get(wwpn)
        granted = (switch_address(look, login) if login else None) or (login.address if login else None)
        differences = []
        if own and login is None:
            differences.append("not logged in here")
        if login is not None and not own:
            differences.append("not in the switch's list")
        if login is not None and addresses and granted not in addresses:
            differences.append("another address")
        if wwpn in apart:
            differences.append(f"another port: {apart[wwpn]}")
        if len(addresses) > 1:
            differences.append("has several addresses in the list")
        found.append(
            {
                "wwpn": wwpn,
                "called": next((it.called for it in own if it.called), ""),
                "switch_port": next((it.port for it in own if it.port), None),
                "switch_fcid": fcid(addresses[0]) if addresses else None,
                "port": login.port if login else None,
                "fcid": fcid(granted) if granted is not None else None,
                "differences": differences,
                "lines": [str(it.place) for it in own],
            }
        )
    return found
