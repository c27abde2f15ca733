"""A rule of `look check` as a value, and the tally of what a capture shows of it."""
from dataclasses import dataclass, field
from typing import Callable, Hashable, Optional

from .clauses import clauses_of, word_of
from .shown import Shown
from .talk import Talk

HELD, BROKEN, UNSEEN, OPEN = "held", "broken", "not seen", "can't be told"
STATES = (BROKEN, OPEN, HELD, UNSEEN)
ONE_WAY = "the capture has the ENode's direction alone"
LEFT = "the standards leave it open"
CUT = "the frame is cut by the snap length"
GUESSED = "the order of both directions is a guess"
ALONE = "a single frame may have been lost on the wire, or by the tap"
PLENTY, ENOUGH = 1000, 400  # frames whose loss would be seen, behind which a single one that is missing is no accident; of a host's direction alone


@dataclass(frozen=True)
class Fault:
    """A field, what stands there, and what should."""

    field: str
    stands: str
    should: str


def want(name: str, stands: object, should: object, is_right: Optional[bool] = None) -> Optional[Fault]:
    """A fault, unless it is as it should be."""
    right = stands == should if is_right is None else is_right
    return None if right else Fault(name, str(stands), str(should))


@dataclass(frozen=True)
class Lack:
    """A fault that would be none if frames were missing from the capture: of what, so that alike ones count once, and how many at least."""

    of: Hashable
    it: Shown
    fault: Fault
    missing: int


@dataclass
class Tally:
    """What was found of a rule."""

    held: list[Shown] = field(default_factory=list)
    broken: list[tuple[Shown, Fault]] = field(default_factory=list)
    left: list[tuple[Optional[Shown], str]] = field(default_factory=list)
    lacks: list[Lack] = field(default_factory=list)

    def judge(self, it: Shown, *faults: Optional[Fault]) -> None:
        """A frame is held where it has no fault; what is cut off can't be told."""
        found = [fault for fault in faults if fault]
        if found and not it.is_whole:
            self.leave(CUT, it)
            return
        self.broken += [(it, fault) for fault in found]
        if not found:
            self.held.append(it)

    def lack(self, of: Hashable, it: Shown, *faults: Optional[Fault], missing: int = 1) -> None:
        """The same where the fault is that frames aren't there: they may be missing from the capture alone."""
        found = [fault for fault in faults if fault]
        self.lacks += [Lack(of, it, fault, missing) for fault in found]
        if not found:
            self.held.append(it)

    def settle(self, talk: Talk, is_across: bool) -> None:
        """Whether what isn't there was never sent: a capture with other signs of loss can't tell, and one frame may always be lost."""
        if is_across and talk.port.tidy.is_askew:
            self.left += [(it, f"{fault.field} {fault.stands}: {GUESSED}") for it, fault in self.broken]
            self.broken.clear()
        causes = {it.of for it in self.lacks}
        signs = [it for it in talk.signs if it.of not in causes]
        for it in self.lacks:
            sign = next((one for one in signs if it.missing == 1 or not one.is_wire), None)
            if sign is not None:
                self.leave(f"{it.fault.field} {it.fault.stands}: frames are missing ({sign.what})", it.it)
            elif it.missing > 1 or len(causes) > 1 or talk.accounted >= (PLENTY if talk.is_two_way else ENOUGH):
                self.broken.append((it.it, it.fault))
            else:
                self.leave(f"{it.fault.field} {it.fault.stands}: {ALONE}", it.it)

    def usual(self, it: Shown, *faults: Optional[Fault]) -> None:
        """The same where the standards leave a choice: nothing is broken."""
        found = [fault for fault in faults if fault]
        self.left += [(it, f"{fault.field} {fault.stands}, usual is {fault.should}: {LEFT}") for fault in found]
        if not found:
            self.held.append(it)

    def leave(self, why: str, it: Optional[Shown] = None) -> None:
        """Can't be told."""
        self.left.append((it, why))

    @property
    def state(self) -> str:
        return BROKEN if self.broken else OPEN if self.left else HELD if self.held else UNSEEN


ENODE, FCF = "ENode", "FCF"
Judge = Callable[[Talk, Tally], None]
Faults = Callable[[Shown], list[Optional[Fault]]]


@dataclass(frozen=True)
class Rule:
    """What a standard asks: of whom, where it says so, and how it is judged."""

    name: str
    who: str
    source: str
    text: str
    judge: Judge
    is_choice: bool = False  # the standards say what is usual and leave a choice: never broken
    is_across: bool = False  # it rests on the order of both directions

    @property
    def word(self) -> str:
        """The word of the standards."""
        return word_of(self.name, self.is_choice)

    @property
    def clauses(self) -> list[str]:
        return clauses_of(self.source)

    @property
    def cited(self) -> str:
        """As texts cite it: all is from memory."""
        return f"{self.source.replace(' (from memory)', '')}: {self.word}"


@dataclass(frozen=True)
class Group:
    """Rules of one subject, in the order in which they are shown: each stands above what judges it."""

    name: str
    who: str = ENODE
    is_across: bool = False
    rules: list[Rule] = field(default_factory=list)

    def rule(self, name: str, source: str, text: str, *, is_choice: bool = False, is_across: bool = False) -> Callable[[Judge], Judge]:
        """A rule that the function below judges."""

        def judged(judge: Judge) -> Judge:
            self.rules.append(Rule(name, self.who, source, text, judge, is_choice, is_across or self.is_across))
            return judge

        return judged

    def each(self, name: str, source: str, text: str, kind: str) -> Callable[[Faults], Faults]:
        """A rule on frames of a kind, of which each is judged by itself."""

        def judged(faults: Faults) -> Faults:
            @self.rule(name, source, text)
            def _judge(talk: Talk, tally: Tally) -> None:
                for it in talk.of(kind):
                    tally.judge(it, *faults(it))

            return faults

        return judged


def held_against(rule: Rule, talk: Talk) -> Tally:
    """What a talk shows of a rule."""
    tally = Tally()
    rule.judge(talk, tally)
    tally.settle(talk, rule.is_across)
    return tally
