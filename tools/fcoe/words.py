"""The words of a command line, and those that name zonings, apart from what reads these."""
import argparse
from typing import Any, NoReturn

from .errors import Refused, meant
from .numerals import seconds, signed


class Parser(argparse.ArgumentParser):
    """Refuses in one line, and reads numbers as the tools do."""

    def __init__(self, *words: Any, **options: Any) -> None:
        super().__init__(*words, **options)
        self.register("type", int, signed)
        self.register("type", float, seconds)

    def error(self, message: str) -> NoReturn:
        wrong = message.rpartition("unrecognized arguments: ")[2].split(" ")[0]
        hint = meant(wrong, self._option_string_actions) if wrong != message.split(" ")[0] else ""
        raise Refused(f"words: {message}{hint or f': `{self.prog} --help` has them all'}")


def parser_of(name: str, text: str) -> Parser:
    return Parser(prog=name, description=text, formatter_class=argparse.RawDescriptionHelpFormatter)


def add_taking(made: Parser) -> None:
    """The words that say which zones are taken of which files."""
    add = made.add_argument
    add("--from", dest="source", action="append", default=[], metavar="FILE", help="what a switch prints of its zoning, or a configuration; may stand many times")
    add("--vsan", type=int, metavar="N", help="the VSAN, where a file has several; with --to nxos the VSAN of the commands")
    add("--set", metavar="NAME", help="the zone set that is taken, in place of the active one")
    add("--defined", action="store_true", help="the defined zoning, where files have the active one too")
    add("--all", action="store_true", help="all zone sets that are defined; `look check`: all rules, each in a line")
    add("--logins", action="append", default=[], metavar="FILE", help="a switch's list of logins: it says which WWPN an FCID, an interface or a port is")
    add("--skip", action="store_true", help="goes on without members that can't be said; each is named")
    add("--to", metavar="FORM", help="what is written: lines of the configuration (config), or a switch's commands (nxos, fos)")


def add_zoning(made: Parser) -> None:
    """The words of `look` on zonings."""
    add = made.add_argument
    add("--zoning", action="append", default=[], metavar="FILE", help="the zones of the run, as a switch prints them; may stand many times")
    add("--was", action="append", default=[], metavar="FILE", help="whatif: the zoning that was, where it isn't that of the run")
    add("--was-set", metavar="NAME", help="whatif: the zone set of --was")
    add("--planned", action="append", default=[], metavar="FILE", help="whatif: the zoning that is planned; its defined zone set, where it has an active one too")
    add_taking(made)
