"""`run`: its statuses, captures of every form, limits."""
import struct

from .book import HEAD, Book
from .common import ADVERTISEMENT, ASKED, JOURNAL, NOTIFICATION, ONE_PORT, REQUEST, SOLICITATION, TO_ALL
from .common import TO_FORWARDER, TOLD, TWO_PORTS, inputs, record, untouched
from .worked import named

DONE = "frames 1 entries 2\n"


def discovery(book: Book) -> None:
    book.title("run: discovery (FC-BB-5, FIP VLAN discovery and FCF discovery)")
    book.case("format_two_of_one_vlan_request", "one VLAN request; the journal in format 2, and the notification of VLAN 100")
    inputs(book)
    book.run(ONE_PORT, DONE, 0)
    book.see(J=JOURNAL, OUT=NOTIFICATION)

    book.case("two_requests_in_one_window", "the ports of a window with few bytes go in turn, ascending")
    inputs(book, two="request")
    book.run(TWO_PORTS, "frames 2 entries 3\n", 0)
    book.see(J=JOURNAL + b"1000 2 0 vlans\n", OUT=NOTIFICATION, OUT2=NOTIFICATION)

    book.case("two_empty_captures", "no frame: a journal without an entry, and two captures without a record")
    inputs(book, one="head")
    book.run(TWO_PORTS, "frames 0 entries 0\n", 0)
    book.see(J=b"journal 2\n", OUT=HEAD, OUT2=HEAD)

    book.case("solicited_advertisement_is_padded", "an advertisement that was asked for has 2176 bytes; the other port gets none")
    book.file("solicitation", HEAD + record(1, 0, SOLICITATION))
    inputs(book, one="head", two="solicitation")
    book.run(TWO_PORTS, DONE, 0)
    sent = bytes.fromhex("001b2100000a") + TO_ALL[6:] + ADVERTISEMENT[:8] + b"\x80\x07" + ADVERTISEMENT[10:] + bytes(2100)
    assert len(sent) == 2176
    book.see(J=b"journal 2\n1000 tick\n1000 2 0 advertised\n", OUT2=HEAD + record(1, 0, sent), OUT=HEAD)

    book.case("records_of_two_ports_at_once", "a window that sends more than 262,144 bytes: a thread encodes the records of each port")
    asked = book.file("asked", record(0, 0, named("solicitation", 0x0A)))
    hundred = book.file("hundred", HEAD + 100 * book.shelf[asked], [" < head", f" * 100 {asked}"])
    inputs(book, one=hundred, two=hundred)
    book.run(TWO_PORTS, "frames 200 entries 201\n", 0)
    answers = HEAD + 100 * record(0, 0, sent)
    book.sum(OUT=answers, OUT2=answers)
    book.run("replay K J IN OUT IN2 OUT2".split(), "legal 201\n", 0)

    book.case("advertisements_between_two_requests", "every 8 seconds each port gets an advertisement, also one without a frame")
    book.file("two-requests", REQUEST + record(20, 0, ASKED))
    inputs(book, one="two-requests")
    book.run(TWO_PORTS, "frames 2 entries 6\n", 0)
    both = record(9, 0, TO_ALL + ADVERTISEMENT) + record(17, 0, TO_ALL + ADVERTISEMENT)
    journal = b"journal 2\n1000 tick\n1000 1 0 vlans\n9000 tick\n17000 tick\n20000 tick\n20000 1 1 vlans\n"
    book.see(J=journal, OUT=NOTIFICATION + both + record(20, 0, TOLD), OUT2=HEAD + both)


def _drops(book: Book, name: str, frame: bytes, lengths: tuple[int, int], line: str) -> None:
    """A frame at 1000 ms that is dropped by this line of the journal."""
    inputs(book, one=book.file(name, HEAD + struct.pack("<IIII", 1, 0, *lengths) + frame))
    book.run(ONE_PORT, DONE, 0)
    book.see(J=f"journal 2\n1000 tick\n1000 1 0 dropped {line}\n".encode(), OUT=HEAD)


def drops(book: Book) -> None:
    book.title("run: frames that are dropped")
    book.case("keep_alive_with_a_further_descriptor", "a keep alive, and a critical descriptor of type 100 behind that of its MAC")
    keep = bytes.fromhex("1000 0003 0001 0003 0000 0202001b2100000a 64010000")
    _drops(book, "critical", TO_FORWARDER + keep, (40, 40), "fip-critical 18")
    book.case("descriptor_of_length_zero", "a VLAN request whose descriptor has no words")
    _drops(book, "without-words", ASKED[:25] + b"\0" + ASKED[26:], (60, 60), "fip-length 10")
    book.case("descriptor_of_length_zero", "one whose list passes the frame's end")
    _drops(book, "past-the-end", ASKED[:20] + b"\0\x0a" + ASKED[22:], (60, 60), "fip-list")
    book.case("truncated_record", "a record of 40 bytes of 100")
    _drops(book, "truncated", ASKED[:40], (40, 100), "truncated")


def ports(book: Book) -> None:
    book.title("run: words, and the number of ports")
    book.case("sixty_four_ports", "the frame comes to the last of 64 ports; one pair more is no command")
    pairs = [(f"I{port}", f"O{port}") for port in range(1, 66)]
    book.given(K="plain", **{name: "request" if name == "I64" else "head" for name, _ in pairs})
    words = ["run", "K", "J"] + [name for pair in pairs[:64] for name in pair]
    book.run(words, DONE, 0)
    book.see(J=b"journal 2\n1000 tick\n1000 64 0 vlans\n", O64=NOTIFICATION, O63=HEAD)
    book.run(words + ["I65", "O65"], "words\n", 2)
    book.see(O65=None)

    rows = ["run K J IN J IN2 OUT2", "run K K IN OUT IN2 OUT2", "run K J IN IN IN2 OUT2", "run K J IN OUT IN OUT2"]
    rows += ["run K J IN OUT IN2 OUT", "K K J IN OUT IN2 OUT2", "", "run", "run K J", "run K J IN", "run K J IN OUT IN2"]
    for row in rows:
        book.case("the_same_name_twice", "a name twice, or words that are no command")
        inputs(book)
        book.run(row.split(), "words\n", 2)
        untouched(book)


def configuration(book: Book) -> None:
    book.title("run: faults of the configuration")
    rows = [("", "1 missing"), ("fcf-mac 00:05:1e:00:00:02\n", "2 missing"), ("fcf-mac 00:05:1e:00:00:02\nvlan 5000\n", "2 value")]
    rows += [("fcf-mac 00:05:1e:00:00:02\nvlan 100\nvlan 100\n", "3 twice"), ("fcf-mac 00:05:1e:00:00:02\nvlans 100\n", "2 key")]
    rows += [("fcf-mac 00:05:1e:00:00:02\nvlan 1\x7f\n", "2 ascii")]
    for number, (text, line) in enumerate(rows, 1):
        book.case("faults_of_the_configuration")
        inputs(book, config=book.file(f"config-{number}", text.encode()))
        book.run(ONE_PORT, f"config {line}\n", 1)
        untouched(book)


def failing(book: Book) -> None:
    book.title("run: calls of the store that fail, and a sink without room")
    for call in range(5):
        book.case("first_fetch_fails", "the calls are: open and fetch twice K, open IN and fetch its head")
        inputs(book)
        book.fail(call)
        book.run(ONE_PORT, "read fault\n", 3)
        untouched(book)
    for room, said in ((0, ""), (7, "frames ")):
        book.case("no_room_to_print", "what is printed can't be; the outputs are whole")
        inputs(book)
        book.room(room)
        book.run(ONE_PORT, said, 4)
        book.see(J=JOURNAL, OUT=NOTIFICATION)


def heads(book: Book) -> None:
    book.title("run: heads of captures")
    for place, why in ((0, "magic"), (3, "magic"), (4, "version"), (7, "version"), (20, "link")):
        bad = book.changed(f"head-{place}", "request", {place: REQUEST[place] ^ 1})
        for port, one, two in ((1, bad, "empty"), (2, "head", bad)):
            book.case("first_bad_head_is_told", f"byte {place} of the head of port {port} is changed")
            inputs(book, one=one, two=two)
            book.run(TWO_PORTS, f"capture {port} 0 {why}\n", 1)
            untouched(book)
    for length in (0, 23):
        book.case("first_bad_head_is_told", f"a head of {length} bytes")
        inputs(book, one="head", two=book.part(f"request-{length}", "request", 0, length))
        book.run(TWO_PORTS, "capture 2 0 short\n", 1)
        untouched(book)


def records(book: Book) -> None:
    book.title("run: records of captures, and limits")
    book.case("third_record_cut", "the third record has one byte less than its head says; the entries before its window stand")
    cut = REQUEST + record(1, 200_000, ASKED) + record(2, 0, ASKED)
    inputs(book, one=book.file("third-cut", cut[:-1]))
    book.run(ONE_PORT, "capture 1 176 cut\n", 1)
    book.see(J=JOURNAL)

    book.case("a_record_is_too_long", "a record of 65536 bytes")
    inputs(book, one=book.joined("long", "request", struct.pack("<IIII", 2, 0, 65536, 65536)))
    book.run(ONE_PORT, "capture 1 100 long\n", 1)
    book.see(J=b"journal 2\n")

    book.case("span_limit", "21,600,000 ms behind the first record")
    inputs(book, one=book.file("span", REQUEST + record(21601, 0, ASKED)))
    book.run(ONE_PORT, "frames 2 entries 2703\n", 0)
    ticks = b"".join(b"%d tick\n" % moment for moment in range(9000, 21_601_000, 8000))
    book.sum(J=JOURNAL + ticks + b"21601000 tick\n21601000 1 1 vlans\n")
    book.case("span_limit", "a window later")
    inputs(book, one=book.file("late", REQUEST + record(21601, 100_000, ASKED)))
    book.run(ONE_PORT, "limit span 21600000\n", 6)
    book.see(J=JOURNAL)

    book.case("big_endian_nanoseconds", "a capture in the other byte order, with nanoseconds")
    head = bytes.fromhex("a1b23c4d 00020004 00000000 00000000 0000ffff 00000001")
    inputs(book, one=book.file("big-endian", head + struct.pack(">IIII", 1, 0, 60, 60) + ASKED))
    book.run(ONE_PORT, DONE, 0)
    book.see(J=JOURNAL, OUT=NOTIFICATION)


def _logins(book: Book, name: str, places: list[dict[int, int]], told: list[str]) -> None:
    """Logins with other bytes at places of their FIP messages, and what the journal tells of each."""
    login = named("flogi", 0x0A)
    one = book.file("login-record", record(1, 0, login))
    data, pieces = bytearray(HEAD + len(places) * record(1, 0, login)), [" < head", f" * {len(places)} {one}"]
    for number, changes in enumerate(places):
        for place, byte in changes.items():
            at = 24 + number * (16 + len(login)) + 16 + 18 + place
            data[at] = byte
            pieces.append(f" ! {at} {byte:02x}")
    inputs(book, one=book.file(name, bytes(data), pieces))
    book.run(ONE_PORT, f"frames {len(places)} entries {len(places) + 1}\n", 0)
    lines = [f"1000 1 {index} {line}\n" for index, line in enumerate(told)]
    book.see(J=("journal 2\n1000 tick\n" + "".join(lines)).encode())


def _first(words: int) -> str:
    """What is told of a login whose first descriptor has this length: it has 7 to 255 words and ends within the list of 38; behind it then is
    a descriptor without words, the end, or the second descriptor."""
    if words == 36:
        return "granted 010100"
    if words == 38:
        return "dropped fip-missing 2"
    return f"dropped fip-length {10 + 4 * words if 7 <= words <= 37 else 10}"


def descriptors(book: Book) -> None:
    book.title("run: lengths of descriptors (FC-BB-5, FIP descriptors)")
    book.case("descriptor_length_table", "the first descriptor of a login with each length")
    _logins(book, "first-lengths", [{11: words} for words in range(256)], [_first(words) for words in range(256)])
    book.case("descriptor_length_table", "the second, which has 2 words and ends with the list")
    told = ["granted 010100" if words == 2 else "dropped fip-length 154" for words in range(256)]
    _logins(book, "second-lengths", [{155: words} for words in range(256)], told)
    book.case("descriptor_length_table", "a list of no words, one too few, one too many, and of the most")
    places = [{6: 0, 7: 0}, {6: 0, 7: 37}, {6: 0, 7: 39}, {6: 255, 7: 255}]
    _logins(book, "lists", places, ["dropped fip-missing 7", "dropped fip-length 154", "dropped fip-list", "dropped fip-list"])


def all_rows(book: Book) -> None:
    for part in (discovery, drops, ports, configuration, failing, heads, records, descriptors):
        part(book)
