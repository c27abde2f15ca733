"""What an exchange is: who asked whom for what, what went over, and how it ended."""
from dataclasses import dataclass, field
from enum import Enum
from typing import Optional

from .spans import Spans

UNKNOWN = "request not captured"
Place = tuple[int, int]  # of a frame: port, and number as Wireshark shows it
NO_BYTES = Spans()  # of whom no data came yet, which most are: never added to


class Kind(str, Enum):
    """What an exchange carries."""

    __str__ = str.__str__  # as text they are what they say, and are told apart as fast as texts

    FIP = "FIP"  # a link service in FIP: FLOGI, FDISC, LOGO
    ELS = "ELS"
    CT = "CT"
    FCP = "FCP"
    NVME = "NVMe"
    OTHER = "other"


class End(str, Enum):
    """How an exchange ended."""

    __str__ = str.__str__

    DONE = "done"
    REJECTED = "rejected"  # by its responder: LS_RJT, a reject of CT
    RETURNED = "returned"  # by the fabric or the port: F_RJT, P_RJT, F_BSY, P_BSY
    FAILED = "failed"  # FCP_RSP with another status than GOOD
    ABORTED = "aborted"  # ABTS, BA_ACC
    ABORT_REJECTED = "abort rejected"  # ABTS, BA_RJT
    ABORT_UNANSWERED = "abort unanswered"
    LOGGED_OUT = "ended by a logout"  # LOGO, PRLO, TPRLO or a new login of one end
    UNANSWERED = "no answer"
    OPEN = "open at the end"  # so shortly before the capture's end that an answer may come behind it
    NOT_CAPTURED = "its answer isn't captured"


@dataclass(slots=True)
class Sequence:
    """The frames of a sequence: from one side, with one SEQ_ID."""

    r_ctl: int
    first: int  # SEQ_CNT
    counts: Spans = field(default_factory=Spans)
    last: int = 0
    is_ended: bool = False  # its last frame came

    @property
    def holes(self) -> list[tuple[int, int]]:
        """Missing frames, as ranges of SEQ_CNT."""
        return self.counts.lacking(self.first, self.last + 1)


@dataclass(slots=True)
class View:
    """What one port saw of an exchange: frames by kind of information, bytes of data that came."""

    kinds: dict[str, int] = field(default_factory=dict)
    data: Spans = NO_BYTES
    data_frames: int = 0
    longest: int = 0  # the longest frame, on the wire


@dataclass(slots=True)
class Exchange:
    """An exchange, whatever it carries; what FCP alone has is none elsewhere."""

    kind: Kind
    command: str
    originator: int
    responder: int
    ox_id: int
    vlan: int
    began: int  # nanoseconds since 1970
    first: Place
    enode: bytes = b""
    is_from_switch: bool = False  # the first sight of its request
    rx_id: int = 0xFFFF
    until: int = 0  # when its last frame came
    last: Place = (0, 0)
    answered: Optional[int] = None
    answer: Optional[Place] = None
    end: Optional[End] = None
    says: str = ""  # the answer in words
    codes: tuple[int, ...] = ()  # of a reject: reason, explanation, the vendor's; of sense data: key, ASC, ASCQ
    frames: int = 0
    lun: str = ""
    cdb: bytes = b""
    attribute: int = 0
    management: int = 0  # flags of a task management function
    reads: bool = False
    writes: bool = False
    wanted: int = 0  # bytes, FCP_DL
    data: Spans = NO_BYTES
    head: bytes = b""  # the first bytes of data
    status: Optional[int] = None
    residual: int = 0  # over, where positive; under, where negative
    request: bytes = b""  # the payload of the request, as much as is kept
    reply: bytes = b""
    sequences: Optional[dict[tuple[bool, int], Sequence]] = None  # that aren't whole
    views: dict[int, View] = field(default_factory=dict)
    broken: tuple[Place, ...] = ()  # frames whose check sequence is wrong
    broken_by_host: int = 0  # of which so many were on their way from a host to the switch
    marks: tuple[str, ...] = ()  # REC, SRR, ABTS and the like, with their frames
    aborted: Optional[int] = None  # when the first ABTS came
    abort: Optional[Place] = None

    @property
    def pair(self) -> tuple[int, int]:
        return self.originator, self.responder

    @property
    def is_half(self) -> bool:
        """Its request isn't in the capture."""
        return self.command == UNKNOWN

    @property
    def took(self) -> Optional[int]:
        return self.answered - self.began if self.answered is not None and not self.is_half else None

    @property
    def came(self) -> int:
        """Bytes of data that were seen, at any port."""
        return self.data.total

    @property
    def arrived(self) -> int:
        """Bytes of data that were seen where they were to arrive, or on the way there: at the port that saw fewest of those that must have seen all."""
        sure = "response" if self.reads else "command"  # what goes the same way as the data
        judged = [view.data.total for view in self.views.values() if sure in view.kinds]
        return min(judged, default=self.came)

    @property
    def due(self) -> int:
        """Bytes that should have gone over, as far as its answer tells."""
        return max(self.wanted + min(self.residual, 0), 0)

    @property
    def lacks(self) -> int:
        """Bytes of a transfer that is said to be done and that weren't seen."""
        if not (self.reads or self.writes) or self.status is None or self.end is not End.DONE:
            return 0
        return max(self.due - self.arrived, 0)

    @property
    def holes(self) -> list[str]:
        """Missing frames within sequences, in words."""
        found = []
        for (_, seq_id), sequence in (self.sequences or {}).items():
            for begin, end in sequence.holes:
                count = f"SEQ_CNT {begin}" if end == begin + 1 else f"SEQ_CNT {begin} to {end - 1}"
                found.append(f"{count} of SEQ_ID {seq_id:02x}")
        return found
