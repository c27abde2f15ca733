"""What the report shows of zonings: who reaches whom, and what a planned zoning would change."""
from typing import Optional

from ..answers.views import Row, busiest, first_clock
from ..moments import short
from ..runs.looking import Look
from ..zoning.reach import reach
from ..zoning.texts import joined, where, whatif_text

MATRIX = 40  # N_Ports of the matrix


def reach_rows(look: Look) -> Row:
    """The matrix at the moment at which most are logged in."""
    found = reach(look, busiest(look))
    zones = {frozenset(it["wwpns"]): joined(it["zones"]) for it in found["pairs"]}
    shown = found["ports"][:MATRIX]
    drawn = [{**row, "cells": [zones.get(frozenset((row["wwpn"], other["wwpn"])), "") if row is not other else "" for other in shown]} for row in shown]
    return {"drawn": drawn, "more": max(len(found["ports"]) - MATRIX, 0)}


def whatif_rows(look: Look) -> Optional[Row]:
    """What `whatif` found, as tables."""
    found = look.whatif
    if found is None:
        return None
    first = first_clock(look)
    cut = [[*it["wwpns"], f"{it['frames']} frames, {it['bytes']} bytes", f"last heard {short(it['last'], first)}", f"joined by {joined(it['zones'])}", where(it)] for it in found["cut"]]
    silent = [[*it["wwpns"], f"joined by {joined(it['zones'])}", where(it)] for it in found["lost_silent"]]
    gained = [[*it["wwpns"], f"by {joined(it['zones'])}", f"{it['would_go']} frames that were dropped would go"] for it in found["gained"]]
    tables = [("Conversations that would break", cut), ("Lose each other, and never spoke here", silent), ("Gain each other", gained)]
    return {**found, "tables": tables, "text": "\n".join(whatif_text(found))}
