"""What the cases of several commands take."""
from .book import HEAD, Book

CONFIG = b"fcf-mac 00:05:1e:00:00:02\nvlan 100\n"


def record(seconds: int, micros: int, frame: bytes) -> bytes:
    """A record of a frame that was captured whole."""
    return b"".join(number.to_bytes(4, "little") for number in (seconds, micros, len(frame), len(frame))) + frame


# A VLAN request of 00:1b:21:00:00:0a to All-FCF-MACs at 1000 ms.
ASKED = bytes.fromhex("011018010002001b2100000a8914 1000 0004 0001 0002 0000 0202001b2100000a") + bytes(28)
REQUEST = HEAD + record(1, 0, ASKED)

# Its answer: a VLAN notification of VLAN 100 from 00:05:1e:00:00:02.
TOLD = bytes.fromhex("001b2100000a00051e0000028914 1000 0004 0002 0003 0000 020200051e0000020e010064") + bytes(24)
NOTIFICATION = HEAD + record(1, 0, TOLD)

# A solicitation of 00:1b:21:00:00:0a on VLAN 100 that asks for 2158 bytes.
SOLICITATION = bytes.fromhex(
    "011018010002001b2100000a810000648914 1000 0001 0001 0006 8000 0202001b2100000a 040300001000001b2100000a 0601086e"
) + bytes(12)

# The advertisement of the forwarder behind the Ethertype, but for its flags, and what stands before one to All-ENode-MACs.
ADVERTISEMENT = bytes.fromhex(
    "1000 0001 0002 000c 8005 01010080 020200051e000002 04030000100000051e000002 05040000000efc00100000051e000002 0c02000000001f40"
)
TO_ALL = bytes.fromhex("01101801000100051e000002810060648914")

# To the forwarder from 00:1b:21:00:00:0a, with VLAN 100.
TO_FORWARDER = bytes.fromhex("00051e000002001b2100000a810000648914")

JOURNAL = b"journal 2\n1000 tick\n1000 1 0 vlans\n"

ONE_PORT = "run K J IN OUT".split()
TWO_PORTS = "run K J IN OUT IN2 OUT2".split()

# The journal of a pool of two addresses, of which one is taken again after its quarantine, in both formats.
POOL = """\
journal 2
1000 tick
1000 1 0 granted 010100
1100 tick
1100 2 0 granted 010101
1200 tick
1200 3 0 rejected 09 29
5000 tick
5000 1 1 logout 010100
9000 tick
15000 tick
15000 3 1 rejected 09 29
15100 tick
15100 3 2 granted 010100
"""
POOL_OLD = """\
tick 1000
1 0 granted 010100
tick 1100
2 0 granted 010101
tick 1200
3 0 rejected 09 29
tick 5000
1 1 logout 010100
tick 9000
tick 15000
3 1 rejected 09 29
tick 15100
3 2 granted 010100
"""


def begin(book: Book) -> None:
    """The files that most cases take."""
    book.file("plain", CONFIG)
    book.file("request", REQUEST)
    book.file("answer", NOTIFICATION)
    book.file("head", HEAD)
    book.file("empty", b"", [])
    book.file("before", b"before")
    book.file("vlans", JOURNAL)
    book.file("pool-journal", POOL.encode())
    book.file("pool-journal-1", POOL_OLD.encode())


def inputs(book: Book, config: object = "plain", one: object = "request", two: object = "head") -> None:
    """A configuration, the captures of two ports, and a journal that was there before."""
    book.given(K=config, IN=one, IN2=two, J="before")  # type: ignore[arg-type]


def untouched(book: Book) -> None:
    """Each output is as it was."""
    book.see(J=b"before", OUT=None)
