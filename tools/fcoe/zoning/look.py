"""The words of `look` that stand on zonings: `zones --from`, `reach`, `why not`, `whatif`, `compare --logins`, and --zoning of all."""
import argparse
from typing import Any, Optional

from ..answers.views import Row, busiest, first_clock
from ..errors import Refused
from ..moments import moment_of
from ..runs.looking import Look
from .commands import wanted_of, written
from .login_lists import login_comparison
from .model import LoginRow, Plan, Which
from .reach import reach, reach_of, why_not, why_not_by, wwpn_of
from .reading import logins_in
from .rezone import plan_of, rows_of, taken_of, with_zoning
from .taking import Taken, Wanted
from .texts import login_lists_text, reach_text, whatif_text
from .whatif import alone, change_of, is_cut, whatif

Shown = tuple[Any, list[str]]  # what is shown: as JSON, and as text


class Zonings:
    """What the user says of zonings, and what is to be said of how they were taken."""

    def __init__(self, said: argparse.Namespace) -> None:
        self.said = said
        self.remarks: list[str] = []
        self.rows: list[LoginRow] = []
        if said.logins:
            self.rows, self.remarks = logins_in(said.logins)

    def zoned(self, look: Look, room: str) -> Look:
        """The look with the zones of a switch, where they are wanted."""
        if not self.said.zoning:
            return look
        if self.said.config or self.said.zone:
            raise Refused("--zoning: says the zones in place of --config and --zone: name one of them")
        return with_zoning(look, wanted_of(self.said, self.said.zoning), self.rows, room)

    def taken(self, wanted: Wanted, look: Optional[Look]) -> Taken:
        found = taken_of(wanted, self.rows, look)
        self.remarks += found.remarks
        return found

    def plan(self) -> Plan:
        """The zoning that is looked at without captures."""
        return self.taken(wanted_of(self.said, self.said.zoning), None).plan

    def moment(self, look: Look) -> Optional[int]:
        return moment_of(self.said.at, first_clock(look)) if self.said.at is not None else None

    # ---- commands

    def lines(self, look: Optional[Look]) -> Shown:
        """`zones --from`: lines of the configuration, or commands of a switch."""
        lines, remarks = written(wanted_of(self.said, self.said.source), [*self.rows, *(rows_of(look) if look else [])], self.said)
        self.remarks += remarks
        return lines, lines

    def reach(self, look: Optional[Look]) -> Shown:
        """Who reaches whom, at a moment of captures or by the zoning alone."""
        if look is None:
            found = reach_of(self.plan())
            return found, reach_text(found, 0)
        at = self.moment(look)
        found = reach(look, at if at is not None else busiest(look))
        return found, reach_text(found, first_clock(look))

    def why_not(self, look: Optional[Look], one: str, other: str) -> Shown:
        """Why two don't reach each other."""
        if look is None:
            plan = self.plan()
            found = why_not_by(plan, wwpn_of(one, None, plan), wwpn_of(other, None, plan))
        else:
            at = self.moment(look)
            plan = plan_of(look.run.config, at if at is not None else busiest(look))
            called = taken_of(wanted_of(self.said, self.said.zoning), self.rows, look).plan if self.said.zoning else plan
            found = why_not(look, wwpn_of(one, look, called), wwpn_of(other, look, called), at)
        return found, [found["line"]]

    def logins(self, look: Look) -> Shown:
        """A switch's list of logins beside those of the run."""
        at = self.moment(look)
        clock = at if at is not None else busiest(look)
        rows = login_comparison(look, self.rows, clock)
        return {"at": clock, "logins": rows}, login_lists_text(rows, clock, first_clock(look))

    def whatif(self, look: Optional[Look], room: str) -> Row:
        """What a planned zoning would change."""
        said = self.said
        if not said.planned:
            raise Refused("words: look whatif --planned FILE [--was FILE] [CAPTURE ..]: the zoning that is planned, as a switch prints it or as a configuration")
        was = self.taken(Wanted(said.was, said.vsan, said.was_set, Which.ACTIVE, said.skip), look).plan if said.was else None
        planned = self.taken(Wanted(said.planned, said.vsan, said.set, Which.FULL, said.skip), look).plan
        if look is not None:
            return whatif(change_of(look, was, planned, self.moment(look), room))
        if was is None:
            raise Refused("words: look whatif --was FILE --planned FILE: without captures both zonings are wanted")
        return whatif(alone(was, planned))

    def without_captures(self, command: str, own: list[str]) -> Optional[Shown]:
        """What can be said of zonings alone; none where captures are wanted."""
        if command == "zones" and self.said.source:
            return self.lines(None)
        if command == "reach" and self.said.zoning:
            return self.reach(None)
        if command == "why not" and self.said.zoning:
            return self.why_not(None, *own)
        return None

    @staticmethod
    def whatif_said(found: Row) -> Shown:
        return found, whatif_text(found)

    @staticmethod
    def is_cut(found: Row) -> bool:
        """Whether a planned zoning would break a conversation."""
        return is_cut(found)
