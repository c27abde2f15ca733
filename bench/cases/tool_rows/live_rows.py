"""`live`: the rows that are written out."""
import struct
from typing import Iterable, Optional

from .book import HEAD, Book, digits
from .common import ASKED, CONFIG, JOURNAL, NOTIFICATION, REQUEST, record
from .worked import worked

ONE = "live K J S I O".split()
TWO = "live K J S I O P Q".split()
SPAN = 21_600_000


def block(kind: int, body: bytes) -> bytes:
    """A block of a stream, little-endian."""
    size = struct.pack("<I", 12 + len(body))
    return struct.pack("<I", kind) + size + body + size


def head(ports: int) -> bytes:
    """A section, and an interface for each port, with times in milliseconds."""
    section = block(0x0A0D0D0A, struct.pack("<IHHq", 0x1A2B3C4D, 1, 0, -1))
    return section + block(1, struct.pack("<HHI", 1, 0, 0) + struct.pack("<HHB3xHH", 9, 1, 3, 0, 0)) * ports


def packet(port: int, moment: int, frame: bytes = ASKED, original: Optional[int] = None) -> bytes:
    """A packet that came in on a port."""
    numbers = struct.pack("<IIIII", port - 1, moment >> 32, moment & 0xFFFFFFFF, len(frame), len(frame) if original is None else original)
    return block(6, numbers + frame + bytes(-len(frame) % 4))


def stream(ports: int, packets: Iterable[bytes]) -> bytes:
    return head(ports) + b"".join(packets)


def given(book: Book, data: bytes, config: bytes = CONFIG) -> None:
    book.given(K=config, S=data, J="before", I="before", O="before")


def left(book: Book) -> None:
    """One VLAN request came in, and was answered."""
    book.see(J=JOURNAL, I=REQUEST, O=NOTIFICATION)


def sessions(book: Book) -> None:
    book.title("live: sessions to the end of their stream")
    book.case("one_vlan_request", "what came, the journal, and what is sent; replay and show take it")
    given(book, stream(1, [packet(1, 1000)]))
    book.run(ONE, "frames 1 entries 2\n", 0)
    left(book)
    book.run("replay K J I O".split(), "legal 2\n", 0)
    book.run("show K J I".split(), "entries 2\nclock 1000\n", 0)
    book.case("an_empty_stream", "a section and an interface, and no packet")
    given(book, stream(1, []))
    book.run(ONE, "frames 0 entries 0\n", 0)
    book.see(J=b"journal 2\n", I=HEAD, O=HEAD)
    book.run("replay K J I O".split(), "legal 0\n", 0)
    book.case("an_earlier_time", "a packet with an earlier time is taken at the greatest one so far")
    given(book, stream(1, [packet(1, 1000), packet(1, 900)]))
    book.run(ONE, "frames 2 entries 3\n", 0)
    book.see(J=JOURNAL + b"1000 1 1 vlans\n", I=REQUEST + REQUEST[24:], O=NOTIFICATION + NOTIFICATION[24:])
    book.run("replay K J I O".split(), "legal 3\n", 0)
    book.case("two_ports_in_one_window", "in the order of the stream: port 2 before port 1")
    given(book, stream(2, [packet(2, 1000), packet(1, 1050)]))
    book.run(TWO, "frames 2 entries 3\n", 0)
    book.see(J=b"journal 2\n1000 tick\n1000 2 0 vlans\n1000 1 0 vlans\n", I=HEAD + record(1, 50000, ASKED), O=NOTIFICATION, P=REQUEST, Q=NOTIFICATION)
    book.run("replay K J I O P Q".split(), "legal 3\n", 0)
    book.case("a_packet_that_was_cut", "its original length is kept, and it's dropped as truncated")
    given(book, stream(1, [packet(1, 1000, ASKED[:40], 100)]))
    book.run(ONE, "frames 1 entries 2\n", 0)
    book.see(J=b"journal 2\n1000 tick\n1000 1 0 dropped truncated\n", O=HEAD)
    book.run("replay K J I O".split(), "legal 2\n", 0)


def login(book: Book) -> None:
    book.title("live: one login, as it was recorded")
    made = worked("one-login")
    book.case("one_login", "VLAN request, solicitation, FLOGI, PLOGI to the name server, LOGO: the journal, what came and what is sent, byte for byte")
    given(book, stream(1, [packet(it.port, it.moment, it.data) for it in made.frames]), made.config.encode())
    book.run(ONE, made.line, 0)
    book.see(J=made.second.encode(), I=made.came(1), O=made.left(1))
    book.run("replay K J I O".split(), f"legal {made.entries}\n", 0)
    book.run("show K J I".split(), f"entries {made.entries}\nclock 2040\n", 0)
    book.case("one_login", "cut behind each packet: the files of the packets before it, which replay takes")
    for count in range(len(made.frames)):
        kept = worked("one-login")
        end = kept.frames[count].moment
        kept.frames = kept.frames[:count]
        kept.sent = [it for it in kept.sent if it.moment + 10 <= end]
        kept.journal = "".join(f"{line}\n" for line in kept.journal.splitlines()[: 2 * count])
        whole = stream(1, [packet(it.port, it.moment, it.data) for it in kept.frames])
        given(book, whole + packet(1, end)[:-1], kept.config.encode())
        book.run(ONE, f"stream {len(whole)} cut\n", 1)
        book.see(J=kept.second.encode(), I=kept.came(1), O=kept.left(1))
        book.run("replay K J I O".split(), f"legal {kept.entries}\n", 0)


def refusals(book: Book) -> None:
    book.title("live: streams that can't be taken on; the packets before that place are recorded")
    one = stream(1, [packet(1, 1000)])
    more = packet(1, 2000)
    rows = [(one + more[:-1], f"{len(one)} cut"), (one + b"\x06", f"{len(one)} cut"), (one + block(3, bytes(4)), f"{len(one)} simple")]
    rows += [(one + packet(2, 2000), f"{len(one)} interface"), (one + more[:4] + b"\0\0\0\0" + more[8:], f"{len(one)} length")]
    for data, line in rows:
        book.case("a_fault_at_a_block")
        given(book, data)
        book.run(ONE, f"stream {line}\n", 1)
        left(book)
        book.run("replay K J I O".split(), "legal 2\n", 0)
    for data, line in ((b"", "0 cut"), (one[4:], "0 section"), (b"\xd4\xc3\xb2\xa1" + bytes(20), "0 section")):
        book.case("no_stream", "no packet was taken: the files are empty, as those of no frame")
        given(book, data)
        book.run(ONE, f"stream {line}\n", 1)
        book.see(J=b"journal 2\n", I=HEAD, O=HEAD)
    book.case("no_such_port", "the second interface has packets, and there is one port")
    given(book, stream(2, [packet(1, 1000), packet(2, 1000)]))
    book.run(ONE, "stream port 2\n", 1)
    left(book)
    book.case("no_such_port", "a packet of it is refused before its time is looked at")
    given(book, stream(3, [packet(1, 1000), packet(3, 1000 + 2 * SPAN)]))
    book.run(ONE, "stream port 3\n", 1)
    left(book)
    for moment, limit, status in ((1000 + SPAN, "", 0), (1100 + SPAN, f"limit span {SPAN}\n", 6)):
        book.case("span_of_a_session", "six hours from the first window to the last")
        given(book, stream(1, [packet(1, 1000), packet(1, moment, bytes(14))]))
        if limit:
            book.run(ONE, limit, status)
            left(book)
        else:
            book.run_told(ONE, lambda said, ended: said.startswith(b"frames 2 ") and ended == 0)
    book.case("faults_of_the_configuration", "nothing is opened")
    given(book, stream(1, [packet(1, 1000)]), b"vlan 1\n")
    book.run(ONE, "config 2 missing\n", 1)
    book.see(J=b"before", I=b"before", O=b"before")


def words(book: Book) -> None:
    book.title("live: words")
    rows = ["live K J S I", "live K J S", "live K J S I O P", "live K J S I I", "live K J S I S", "live K K S I O", "live K J J I O", "live K J S S O", "live K J S I J"]
    for row in rows:
        book.case("words_that_are_no_session", "a name twice, or an odd number of captures")
        given(book, stream(1, [packet(1, 1000)]))
        book.run(row.split(), "words\n", 2)
        book.see(J=b"before", I=b"before", O=b"before")


def failing(book: Book) -> None:
    book.title("live: calls of the store that fail")
    data = stream(1, [packet(1, 1000)])
    for call in range(4):
        book.case("an_input_cannot_be_read", "the calls are: open and fetch twice K, open S; no output was opened")
        given(book, data)
        book.fail(call)
        book.run(ONE, "read fault\n", 3)
        book.see(J=b"before", I=b"before", O=b"before")
    for call, kept in ((4, "J"), (5, "I"), (6, "O")):
        book.case("an_output_cannot_be_opened", "J, then I and O, none of which was there: those before it are, and are empty")
        book.given(K=CONFIG, S=data)
        book.fail(call)
        book.run(ONE, "write fault\n", 4)
        book.see(**{name: b"" if place < "JIO".index(kept) else None for place, name in enumerate("JIO")})
    rows = ((7, None, (b"", b"", b"")), (8, None, (HEAD, b"", b"")), (9, None, (HEAD, b"journal 2\n", b"")))
    for call, _, (came, lines, sent) in rows:
        book.case("a_head_cannot_be_written", "I, then J and O")
        given(book, data)
        book.fail(call)
        book.run(ONE, "write fault\n", 4)
        book.see(I=came, J=lines, O=sent)
    book.case("the_stream_cannot_be_read", "behind the heads: the files are those of no packet")
    given(book, data)
    book.fail(10)
    book.run(ONE, "read fault\n", 3)
    book.see(J=b"journal 2\n", I=HEAD, O=HEAD)
    for room, said in ((0, ""), (7, "frames ")):
        book.case("no_room_to_print", "what is printed can't be; the outputs are whole")
        given(book, data)
        book.room(room)
        book.run(ONE, said, 4)
        left(book)


BYTES, FRAMES = 1 << 30, 4_000_000


def limits(book: Book) -> None:
    book.title("live: limits; the packets before that place are recorded")
    one = stream(1, [packet(1, 1000)])
    for size, line, status in ((BYTES - len(one), f"stream {len(one)} cut\n", 1), (BYTES - len(one) + 4, f"limit bytes {BYTES}\n", 6)):
        book.case("limit_bytes", "the length of a block of another kind, up to the limit and past it")
        given(book, one + struct.pack("<II", 5, size) + bytes(4))
        book.run(ONE, line, status)
        left(book)
        book.run("replay K J I O".split(), "legal 2\n", 0)
    empty = book.file("empty-packet", packet(1, 1000, b""))
    most = head(1) + FRAMES * packet(1, 1000, b"")
    journal = b"journal 2\n1000 tick\n" + b"".join(b"1000 1 %d dropped eth-short\n" % index for index in range(FRAMES))
    for more, line, status in ((b"", f"frames {FRAMES} entries {FRAMES + 1}\n", 0), (packet(1, 1000), f"limit frames {FRAMES}\n", 6)):
        book.case("limit_frames", f"{FRAMES} packets without a byte in one window{', and one more' if more else ''}: journal and capture by their sums")
        pieces = [f" = {digits(head(1))}", f" * {FRAMES} {empty}"] + ([f" = {digits(more)}"] if more else [])
        book.given(K=CONFIG, S=book.file("most-packets", most + more, pieces), J="before", I="before", O="before")
        book.run(ONE, line, status)
        book.sum(J=journal, I=HEAD + FRAMES * record(1, 0, b""))
        book.see(O=HEAD)
        if more:
            book.run("convert S O".split(), line, status)
            book.see(O=HEAD)
    book.file("most-packets", b"", [])


def all_rows(book: Book) -> None:
    sessions(book)
    login(book)
    refusals(book)
    limits(book)
    words(book)
    failing(book)
