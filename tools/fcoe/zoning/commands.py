"""What `zones` and `look zones --from` write."""
import argparse
from typing import Optional

from ..errors import Refused
from .config import config_lines
from .model import LoginRow, Vendor, Which
from .taking import Wanted, take, take_all
from .vendors import commands


def vendor_of(word: Optional[str]) -> Vendor:
    """What is written."""
    try:
        return Vendor(word or Vendor.CONFIG)
    except ValueError:
        raise Refused(f"--to {word}: wants {', '.join(it.value for it in Vendor)}") from None


def wanted_of(said: argparse.Namespace, files: list[str]) -> Wanted:
    return Wanted(files, said.vsan, said.set, Which.FULL if said.defined else Which.ACTIVE, said.skip)


def written(wanted: Wanted, rows: list[LoginRow], said: argparse.Namespace) -> tuple[list[str], list[str]]:
    """The lines that say the zones of files, and what is to be said of them."""
    vendor = vendor_of(said.to)
    if said.all:
        if vendor is not Vendor.CONFIG:
            raise Refused("--all: the commands of a switch make one zone set: take it with --set")
        found, active = take_all(wanted, rows)
        lines, more = config_lines([it.plan for it in found], active)
        return lines, [remark for it in found for remark in it.remarks] + more
    taken = take(wanted, rows)
    others = [f"zone sets {', '.join(taken.others)} aren't written: --set NAME takes another, --all takes all"] if taken.others else []
    if vendor is Vendor.CONFIG:
        lines, more = config_lines([taken.plan], taken.plan.name)
    else:
        lines, more = commands(vendor, taken.plan, said.vsan)
    return lines, taken.remarks + others + more
