"""`replay` and `show` of small journals, `convert`, `migrate`, `make`, `--help` and `--version`."""
import functools
import pathlib
import re
import struct
import subprocess
import sys
import tempfile
from typing import Union

from .book import HEAD, Book
from .common import ASKED, JOURNAL, NOTIFICATION, POOL, POOL_OLD, REQUEST, inputs, record, untouched
from .worked import named

TOP = pathlib.Path(__file__).resolve().parents[3]
REPLAY = "replay K JOURNAL IN OUT".split()
SHOW = "show K JOURNAL IN".split()
LOGIN = HEAD + record(1, 0, named("flogi", 0x0A))


def checked(book: Book, journal: Union[str, bytes], one: str = "request", output: str = "answer") -> None:
    """A configuration, a capture, a journal and an output."""
    book.given(K="plain", IN=one, JOURNAL=journal, OUT=output)


def replays(book: Book) -> None:
    book.title("replay over one VLAN request")
    rows = [(JOURNAL.decode(), "legal 2", 0), ("tick 1000\n1 0 vlans\n", "legal 2", 0), ("journal 2\n", "journal 2 rest", 1)]
    rows += [("", "journal 1 rest", 1), ("journal 2\n1000 tick\n1000 1 1 vlans\n", "journal 3 frame", 1)]
    rows += [("journal 2\n1000 tick\n1000 2 0 vlans\n", "journal 3 frame", 1), ("journal 2\n1000 tick\n1000 1 0 alive\n", "journal 3 verdict", 1)]
    rows += [("journal 2\n1000 tick\n1000 1 0 vlans", "journal 3 text", 1), ("journal 2\n1000 tick\n1000 1 0 vlan\n", "journal 3 text", 1)]
    rows += [("journal 2\n1000 tick\n1000 1 0 vlans\n1100 tick\n", "journal 4 tick", 1)]
    rows += [("journal 2\n1000 tick\n1000 1 0 vlans\n1000 1 1 vlans\n", "journal 4 frame", 1)]
    for journal, line, status in rows:
        book.case("journals_of_one_vlan_request")
        checked(book, journal.encode())
        book.run(REPLAY, f"{line}\n", status)
    rows = [("tick 1000\n", "2 rest", 1), ("journal 2\n1000 tick\n", "3 rest", 1)]
    for journal, line, status in rows:
        book.case("journal_without_its_last_line", "the line behind the last one is told")
        checked(book, journal.encode())
        book.run(REPLAY, f"journal {line}\n", status)
    for journal, line in (("tick 1100\n1 0 vlans\n", "1 tick"), ("journal 2\n1100 tick\n1100 1 0 vlans\n", "2 tick")):
        book.case("journal_with_another_tick")
        checked(book, journal.encode())
        book.run(REPLAY, f"journal {line}\n", 1)
    book.case("frame_line_with_another_clock")
    checked(book, b"journal 2\n1000 tick\n1100 1 0 vlans\n")
    book.run(REPLAY, "journal 3 frame\n", 1)
    outputs = [(book.changed("last-byte", "answer", {99: 1}), 99), (book.part("answer-99", "answer", 0, 99), 99), ("head", 24)]
    for output, place in outputs:
        book.case("output_changed_in_its_last_byte", "changed, cut, and without its record")
        checked(book, "vlans", output=output)
        book.run(REPLAY, f"output 1 {place}\n", 1)
    for length, line in ((23, "0 short"), (99, "24 cut")):
        book.case("captures_that_stop", f"a capture of {length} bytes")
        checked(book, "vlans", one=book.part(f"request-{length}", "request", 0, length))
        book.run(REPLAY, f"capture 1 {line}\n", 1)
    book.case("what_run_wrote_is_legal", "two requests in one window")
    inputs(book, two="request")
    book.run("run K J IN OUT IN2 OUT2".split(), "frames 2 entries 3\n", 0)
    book.run("replay K J IN OUT IN2 OUT2".split(), "legal 3\n", 0)


def shows(book: Book) -> None:
    book.title("show, and which addresses a journal may grant")
    rows = [(JOURNAL.decode(), "entries 2\nclock 1000\n", 0), ("journal 2\n1000 tick\n", "journal 3 rest\n", 1)]
    rows += [("journal 2\n1000 tick\n1000 1 0 alive\n", "journal 3 verdict\n", 1)]
    for journal, text, status in rows:
        book.case("show_without_logins")
        checked(book, journal.encode(), output="empty")
        book.run(SHOW, text, status)
    book.file("login", LOGIN)
    login = "2000001b2100000a 1000001b2100000a 1 001b2100000a 1000 1000 0 0"
    rows = [("journal 2\n1000 tick\n1000 1 0 granted 010100\n", f"entries 2\nclock 1000\nlogin 010100 {login}\n", 0)]
    rows += [("tick 1000\n1 0 granted 0101ff\n", f"entries 2\nclock 1000\nlogin 0101ff {login}\n", 0)]
    rows += [("journal 2\n1000 tick\n1000 1 0 granted 020100\n", "journal 3 verdict\n", 1)]
    rows += [("journal 2\n1000 tick\n1000 1 0 alive\n", "journal 3 verdict\n", 1)]
    for journal, text, status in rows:
        book.case("show_one_login")
        checked(book, journal.encode(), one="login", output="empty")
        book.run(SHOW, text, status)
    book.case("replay_accepts_any_free_address", "the accept has to fit: it has the address twice, the second time at its end")
    checked(book, "empty", one="login", output="empty")
    book.run("run K JOURNAL IN OUT".split(), "frames 1 entries 2\n", 0)
    book.run(REPLAY, "legal 2\n", 0)
    book.given(JOURNAL=b"journal 2\n1000 tick\n1000 1 0 granted 010102\n")
    book.run(REPLAY, "output 1 75\n", 1)
    accept = HEAD + record(1, 0, named("accept", 0x0A, 0, 0, 1, True))
    book.see(OUT=accept)
    book.file("accept", accept)
    book.given(OUT=book.changed("other-accept", "accept", {75: 2, 219: 2}))
    book.run(REPLAY, "legal 2\n", 0)


def refusals(book: Book) -> None:
    book.title("replay and show: the configuration comes first, then the captures, and the limits")
    unlike = book.file("journal-3", b"journal 3\n")
    for words in (REPLAY, SHOW):
        for config, line in ((b"", "1 missing"), (b"fcf-mac 00:05:1e:00:00:02\nvlan 5000\n", "2 value")):
            book.case("faulty_configuration_beside_a_journal", f"{words[0]}: no line of the journal is right, and the capture has no head")
            book.given(K=config, IN="empty", JOURNAL=unlike, OUT="before")
            book.run(words, f"config {line}\n", 1)
            book.see(JOURNAL=b"journal 3\n", OUT=b"before")
        book.case("span_limit_beside_a_journal", f"{words[0]}: the journal and the output are those of the windows before it")
        checked(book, "vlans", one="late")
        book.run(words, "limit span 21600000\n", 6)
    for length, line in ((23, "0 short"), (99, "24 cut")):
        book.case("captures_that_stop", f"show of a capture of {length} bytes")
        checked(book, "vlans", one=f"request-{length}", output="empty")
        book.run(SHOW, f"capture 1 {line}\n", 1)


# A section header, an interface at 28, and at 48 what a packet has before its 60 bytes, in microseconds; in both byte orders.
def pcapng(order: str, interface: int = 0) -> bytes:
    section = struct.pack(order + "IIIHHq", 0x0A0D0D0A, 28, 0x1A2B3C4D, 1, 0, -1) + struct.pack(order + "I", 28)
    described = struct.pack(order + "IIHHII", 1, 20, 1, 0, 0, 20)
    packet = struct.pack(order + "IIIIIII", 6, 92, interface, 0, 1_000_000, 60, 60)
    return section + described + packet + ASKED + struct.pack(order + "I", 92)


CONVERT = "convert IN OUT".split()


def converts(book: Book) -> None:
    book.title("convert: pcapng")
    for order, name in (("<", "little"), (">", "big")):
        book.case("pcapng_of_one_vlan_request", f"{name} end first")
        inputs(book, one=book.file(f"pcapng-{name}", pcapng(order)))
        book.run(CONVERT, "records 1\n", 0)
        book.see(OUT=REQUEST)
    book.case("the_capture_is_run")
    inputs(book, one="pcapng-little")
    book.run(CONVERT, "records 1\n", 0)
    book.run("run K J OUT OUT2".split(), "frames 1 entries 2\n", 0)
    book.see(J=JOURNAL, OUT2=NOTIFICATION)
    long = bytearray(pcapng("<")[:76])
    long[4:8] = bytes([4, 0, 0, 0x40])
    rows = [(book.file("pcapng-unknown", pcapng("<", 1)), "capture 1 48 interface", 1, "a packet of interface 1, which isn't there")]
    rows += [("empty", "capture 1 0 cut", 1, "no byte"), ("request", "capture 1 0 section", 1, "a classic capture")]
    rows += [(book.file("pcapng-long", bytes(long)), "limit bytes 1073741824", 6, "a section header of more bytes than are taken")]
    for one, line, status, what in rows:
        book.case("files_that_are_not_converted", what)
        inputs(book, one=one)
        book.run(CONVERT, f"{line}\n", status)
        untouched(book)
    for row in ("convert IN", "convert IN IN", "convert IN OUT J", "IN IN OUT"):
        book.case("words_that_convert_nothing")
        inputs(book)
        book.run(row.split(), "words\n", 2)
        untouched(book)


MIGRATE = "migrate IN OUT".split()


def migrates(book: Book) -> None:
    book.title("migrate: journals of format 1")
    old = "tick 5 010100 010101\n64 18446744073709551615 dropped fip-length 7\n"
    new = "journal 2\n5 tick 010100 010101\n5 64 18446744073709551615 dropped fip-length 7\n"
    for one, two, count in ((POOL_OLD, POOL, 13), ("tick 0\n", "journal 2\n0 tick\n", 1), (old, new, 2)):
        book.case("each_line_gets_the_clock")
        inputs(book, one=one.encode())
        book.run(MIGRATE, f"migrated {count}\n", 0)
        book.see(IN=one.encode(), OUT=two.encode())
    book.case("migrate_an_empty_journal")
    inputs(book, one="empty")
    book.run(MIGRATE, "migrated 0\n", 0)
    book.see(OUT=b"journal 2\n")
    rows = [("\n", "1 text"), ("tick 1000", "1 text"), ("tick 1000 \n", "1 text"), ("tick 01000\n", "1 text"), (POOL, "1 text")]
    rows += [("1 0 vlans\n", "1 tick"), ("tick 1000\n1 0 vlans\n1 1 vlans", "3 text"), ("tick 1000\n1 0 vlans\n1 1 vlan\n", "3 text")]
    rows += [("tick 1000\n1000 1 0 vlans\n", "2 text"), ("tick 1000\n1 0 vlans\ntick 1000\n", "3 tick")]
    rows += [("tick 1000\ntick 999\n65 0 vlans\n", "2 tick"), ("tick 1000\n65 0 vlans\ntick 999\n", "2 text")]
    rows += [("tick 1000 010101 010100\n", "1 text")]
    for text, line in rows:
        book.case("journals_that_are_not_migrated")
        inputs(book, one=text.encode())
        book.run(MIGRATE, f"journal {line}\n", 1)
        untouched(book)
    for row in ("migrate IN", "migrate IN IN", "migrate IN OUT J"):
        book.case("words_that_migrate_nothing")
        inputs(book)
        book.run(row.split(), "words\n", 2)
        untouched(book)


NINE = "K IN1 IN2 IN3 IN4 IN5 IN6 IN7 IN8".split()
MOST = 2**64 - 1
K_SUM = (6166, 0xC7A2_A536)


@functools.cache
def _load(number: int) -> list[bytes]:
    """The nine files of another generator."""
    with tempfile.TemporaryDirectory() as room:
        subprocess.run([sys.executable, TOP / "bench/cases/vectors", str(number), room], check=True, stdout=subprocess.DEVNULL)
        return [(pathlib.Path(room) / name).read_bytes() for name in ["config"] + [f"in{port}" for port in range(1, 9)]]


def _shown() -> str:
    """What `show` prints of a load: its 240 logins, each of which registers type 08, watches, and is heard when it is granted; their nodes' last keep
    alive comes at 32000."""
    text = "entries 20281\nclock 33400\n"
    for k in range(240):
        port, login = k // 30 + 1, k % 30
        names = f"{0x2000001B21000000 + 256 * port + login:016x} {0x1000001B21000000 + 256 * port:016x}"
        text += f"login {0x010100 + k:06x} {names} {port} 001b2100010{port} 32000 {1000 + 10 * k // 100 * 100} 2112 3\n"
        text += f"types {0x010100 + k:06x} 00000100{56 * '0'}\n"
    return text


def makes(book: Book) -> None:
    book.title("make: loads, whose files are those of another generator")
    known = {1: {"IN1": (2_713_608, 0x0FF3_FEBE), "IN8": (2_706_676, 0xCE9A_D940)}, MOST: {"IN1": (2_698_108, 0xAF05_8314)}}
    for number, name, shows in (
        (1, "generated_load", "the load of 1, over which a forwarder is run; the nine files are those of another generator"),
        (1, "generated_load_is_reproducible", "the load of 1 a second time"),
        (0, "generated_load_is_reproducible", "the load of 0"),
        (MOST, "generated_load_is_reproducible", f"the load of {MOST}"),
    ):
        book.case(name, shows)
        book.run(["make", str(number)] + NINE, "made 20000\n", 0)
        files = dict(zip(NINE, _load(number)))
        for file, (length, _) in {"K": K_SUM, **known.get(number, {})}.items():
            assert len(files[file]) == length
        book.sum(**files)
        book.sum(K=K_SUM, **known.get(number, {}))
        if name == "generated_load":
            pairs = [word for port in range(1, 9) for word in (f"IN{port}", f"OUT{port}")]
            book.run(["run", "K", "J"] + pairs, "frames 20000 entries 20281\n", 0)
            book.run(["replay", "K", "J"] + pairs, "legal 20281\n", 0)
            book.room(100_000)
            book.run(["show", "K", "J"] + pairs[::2], _shown(), 0)
    for _ in range(2):
        book.case("generated_load_is_reproducible", "up to the capture of port 2, whose head can't be put")
        book.fail(53)
        book.run(["make", str(MOST)] + NINE, "write fault\n", 4)
        book.sum(K=K_SUM, IN1=known[MOST]["IN1"])
        book.see(IN2=b"")
    numbers = [str(MOST + 1), "99999999999999999999", "01", "00", "+1", "-1", "", " 1", "1 ", "0x1", "one"]
    rows = [["make", number] + NINE for number in numbers]
    rows += ["make 1 K A B C D E F G".split(), "make 1 K A B C D E F G K".split(), "make 1 K A B C D E F G H I".split()]
    for words in rows:
        book.case("words_that_make_nothing")
        book.run(words, "words\n", 2)
        book.see(K=None)
    for text in (str(MOST), "0"):
        book.case("numbers_that_are_taken", "the greatest and the least, and a file with the name of the number; the second page fails")
        book.fail(10)
        book.run(["make", text, text] + "A B C D E F G H".split(), "write fault\n", 4)
        book.sum(**{text: K_SUM})
    for call in (0, 8, 9, 10, 11):
        book.case("a_call_of_make_fails", "the calls are: open the nine, put the configuration, and put the pages of the captures")
        book.fail(call)
        book.run(["make", "1"] + NINE, "write fault\n", 4)
        book.see(IN7=None if call == 0 else b"")
        if call == 10:
            book.sum(K=K_SUM)


def texts(book: Book) -> None:
    book.title("the texts")
    source = (TOP / "crates/fabric_tool/src/help.rt").read_text(encoding="utf-8")
    (text,) = re.findall(r'const HELP: &str = "\\\n(.*?)";', source, re.S)
    book.case("help_and_version", "the text of --help; no line is wider than a terminal")
    book.run(["--help"], text, 0)
    if max(map(len, text.split("\n"))) > 80:
        raise SystemExit("a line of --help is wider than a terminal")
    book.case("help_and_version")
    book.run(["--version"], "fcoe_tool 0.1.0\n", 0)


def all_rows(book: Book) -> None:
    for part in (replays, shows, refusals, converts, migrates, makes, texts):
        part(book)
