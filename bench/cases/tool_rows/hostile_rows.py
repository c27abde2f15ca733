"""Hostile use: captures that are cut at each length, stores of which each call fails, sinks without room, and the limit on frames."""
import re
from typing import Callable, Iterable

from .book import HEAD, Book
from .common import ONE_PORT, REQUEST, TWO_PORTS, inputs, record
from .file_rows import REPLAY, SHOW, checked
from .side_rows import ENODE, LOGGED_IN, SNOOP, bridged
from .worked import Worked, capture, worked
from .worked_rows import WORDS, outputs, stored

THREE = ("two-zones-and-a-target", "two-initiators-and-a-target")
SAID = {3: "read fault\n", 4: "write fault\n"}
WINDOW = 100


def before(made: Worked, start: int) -> dict[str, bytes]:
    """What a run over the windows below this moment leaves: the journal up to their last frame, and what was sent by then."""
    lines = made.second.splitlines()[1:]
    frames = [at for at, line in enumerate(lines) if line.split(" ")[1] != "tick" and int(line.split(" ")[0]) < start]
    kept = lines[: frames[-1] + 1] if frames else []
    clock = int(kept[-1].split(" ")[0]) if kept else -1
    sent = [it for it in made.sent if it.moment <= clock]
    left = {"J": "".join(f"{line}\n" for line in ["journal 2"] + kept).encode()}
    return left | {name: capture(sent, port) for port, name in enumerate("XYZ", 1)}


def _ran(count: int, front: bytes, found: dict[str, int]) -> tuple[Callable[[bytes, int], bool], Callable[[object], bool]]:
    """Whether a run says that it had so many frames, and whether its journal has them behind this front."""

    def ended(said: bytes, status: int) -> bool:
        told = re.fullmatch(rb"frames (\d+) entries (\d+)\n", said)
        found["entries"] = int(told[2]) if told else 0
        return status == 0 and told is not None and int(told[1]) == count

    def journal(data: object) -> bool:
        assert isinstance(data, bytes)
        lines = data.decode().splitlines()
        frames = [line for line in lines[1:] if line.split(" ")[1] != "tick"]
        return data.startswith(front) and len(lines) == found["entries"] + 1 and len(frames) == count

    return ended, journal


def _cut_between(book: Book, made: Worked, whole: str, count: int, moment: int) -> None:
    """A run over a capture that ends behind so many records, the next of which would have come at a moment."""
    end = 24 + sum(16 + len(it.data) for it in [it for it in made.frames if it.port == 1][:count])
    book.case("cut_capture_table", f"{end} bytes, which are {count} records: a shorter capture")
    stored(book, made, 3, A=book.part("cut-capture", whole, 0, end))
    found: dict[str, int] = {}
    others = sum(it.port != 1 for it in made.frames)
    ended, journal = _ran(count + others, before(made, moment // WINDOW * WINDOW)["J"], found)
    book.run_told(["run"] + WORDS[3], ended)
    book.see_told("J", journal)
    book.run_told(["replay"] + WORDS[3], lambda said, status: status == 0 and said == b"legal %d\n" % found["entries"])


def _cut_within(book: Book, made: Worked, whole: str, at: int, end: int, left: dict[str, bytes]) -> None:
    """Runs over a capture that ends within the record that stands at a place: each leaves the same."""
    book.case("cut_capture_table", f"{at + 1} to {end - 1} bytes: the record at {at} is cut, and the windows before the last whole one's stand")
    stored(book, made, 3)
    for length in range(at + 1, end):
        book.given(A=book.part("cut-capture", whole, 0, length))
        book.run(["run"] + WORDS[3], f"capture 1 {at} cut\n", 1)
        book.sum(**left)


def cuts(book: Book) -> None:
    book.title("run over two initiators and a target, of whose captures the first is cut to each length")
    made = worked(*THREE)
    whole = book.names.get(made.came(1)) or book.file("first-capture", made.came(1))
    book.case("cut_capture_table", "0 to 23 bytes: no head, and no output is opened")
    stored(book, made, 3)
    for length in range(24):
        book.given(A=book.part("cut-capture", whole, 0, length))
        book.run(["run"] + WORDS[3], "capture 1 0 short\n", 1)
        book.sum(**dict.fromkeys("JXYZ"))
    at, start = 24, 0
    for count, frame in enumerate(it for it in made.frames if it.port == 1):
        _cut_between(book, made, whole, count, frame.moment)
        end = at + 16 + len(frame.data)
        _cut_within(book, made, whole, at, end, before(made, start))
        at, start = end, frame.moment // WINDOW * WINDOW
    assert at == len(made.came(1))
    book.case("cut_capture_table", f"all its {at} bytes")
    stored(book, made, 3)
    book.run(["run"] + WORDS[3], made.line, 0)
    book.see(**outputs(made, 3))


def _fails(book: Book, name: str, calls: Iterable[int], prepare: Callable[[], None], words: list[str], said: str, left: dict[str, bytes]) -> None:
    """Each call of a command fails in turn, with these statuses; the one behind them isn't made. What is left is then as it was, or a front."""
    for call, status in enumerate([*calls, 0]):
        book.case(name, f"call {call} fails" if status else f"there are {call} calls")
        prepare()
        book.fail(call)
        book.run(words, SAID.get(status, said), status)
        if not status:
            book.see(**left)
            continue
        for file, data in left.items():
            kept = book.names.get(data) or book.file(f"left-{file.lower()}", data)
            book.front(file, kept, lambda count, status=status: status == 4 or count is None)  # type: ignore[misc]


def calls(book: Book) -> None:
    book.title("each call of the store fails in turn: the other commands")
    plain = worked("plain", LOGGED_IN)
    for name in (plain.came(2), plain.left(1), HEAD):
        book.names.get(name) or book.file(f"bridged-{len(name)}", name)
    sent = {"X": plain.came(2), "Y": plain.left(1), "Z": HEAD}
    _fails(book, "a_call_of_snoop_fails", 12 * [3] + 6 * [4], lambda: bridged(book, plain), SNOOP, "passed 3 dropped 1\n", sent)
    _fails(book, "a_call_of_enode_fails", 3 * [3] + 2 * [4], lambda: book.given(IN="head"), ENODE, "asking\n", {"OUT": REQUEST})
    _fails(book, "a_call_of_show_fails", 9 * [3], lambda: checked(book, "vlans"), SHOW, "entries 2\nclock 1000\n", {})
    _fails(book, "a_call_of_replay_fails", 12 * [3], lambda: checked(book, "vlans"), REPLAY, "legal 2\n", {})
    for journal, line in ((b"journal 2\n1100 tick\n1100 1 0 vlans\n", "2 tick"), (b"journal 2\n1000 tick\n1000 1 0 alive\n", "3 verdict")):
        for call in (10, 11):
            book.case("wrong_line_before_a_failing_output", f"call {call} would be a fetch of OUT, and the window's lines come before it")
            checked(book, journal)
            book.fail(call)
            book.run(REPLAY, f"journal {line}\n", 1)
    _fails(book, "a_call_fails", 3 * [3] + 2 * [4], lambda: book.given(IN="pcapng-little"), ["convert", "IN", "OUT"], "records 1\n", {"OUT": REQUEST})
    new = book.shelf["pool-journal"]
    _fails(book, "a_call_of_migrate_fails", 3 * [3] + 2 * [4], lambda: book.given(IN="pool-journal-1"), ["migrate", "IN", "OUT"], "migrated 13\n", {"OUT": new})


def rooms(book: Book) -> None:
    book.title("no room to print: the status is 4, whatever it was, and the outputs are whole")
    made = worked("plain", LOGGED_IN)
    lines: list[tuple[list[str], Callable[[], None], dict[str, bytes]]] = [
        (REPLAY, lambda: checked(book, "vlans"), {}),
        (SHOW, lambda: checked(book, "vlans"), {}),
        (["convert", "IN", "OUT"], lambda: book.given(IN="pcapng-little"), {"OUT": REQUEST}),
        (["migrate", "IN", "OUT"], lambda: book.given(IN="pool-journal-1"), {"OUT": book.shelf["pool-journal"]}),
        (SNOOP, lambda: bridged(book, made), {"X": made.came(2), "Y": made.left(1), "Z": HEAD}),
        (ENODE, lambda: book.given(IN="head"), {"OUT": REQUEST}),
        (["--help"], lambda: None, {}),
        (["--version"], lambda: None, {}),
        (["run"], lambda: None, {}),
        (ONE_PORT, lambda: inputs(book, config="empty"), {"J": b"before"}),
        (ONE_PORT, lambda: book.given(K="plain"), {}),
    ]
    for words, prepare, left in lines:
        book.case("no_room_to_print", " ".join(words[:1]))
        prepare()
        book.room(0)
        book.run(words, "", 4)
        if left:
            book.see(**left)


def orders(book: Book) -> None:
    book.title("replay and show of the two orders of one window")
    for first, second in ((1, 2), (2, 1)):
        rows = [f"1000 {first} 0 vlans", f"1000 {second} 0 vlans"]
        for journal in (["journal 2", "1000 tick"] + rows, ["tick 1000"] + [row[5:] for row in rows]):
            book.case("both_orders_of_a_window", f"port {first} before port {second}")
            inputs(book, two="request")
            book.given(J="".join(f"{row}\n" for row in journal).encode(), OUT="answer", OUT2="answer")
            book.run(["replay"] + TWO_PORTS[1:], "legal 3\n", 0)
            book.run("show K J IN IN2".split(), "entries 3\nclock 1000\n", 0)
    book.title("show before the first tick")
    for text in (b"journal 2\n", b""):
        book.case("show_without_a_clock", "no entry, so that there is no clock")
        checked(book, text, one="head", output="empty")
        book.run(SHOW, "entries 0\nclock none\n", 0)
        book.run(REPLAY, "output 1 0\n", 1)
    made = worked("plain", "heard-once", "node-falls-silent")
    book.case("replay_refuses_another_grant", "in format 2")
    rows = made.second.splitlines()
    assert rows[4] == "1100 1 1 granted 010101"
    rows[4] = "1100 1 1 granted 010100"
    stored(book, made, 3, **{**{k: v for k, v in outputs(made, 3).items() if k != "J"}, "J": "".join(f"{row}\n" for row in rows).encode()})  # type: ignore[misc]
    book.run(["replay"] + WORDS[3], "journal 5 verdict\n", 1)


MOST = 4_000_000


def limits(book: Book) -> None:
    book.title("run: the limit on frames, and how many may stand in one window")
    nothing = book.file("nothing", record(1, 0, b""))
    book.case("many_short_frames", "200,001 records without a byte in one window; the journal by its sum")
    inputs(book, one=book.file("many", HEAD + 200_001 * record(1, 0, b""), [" < head", f" * 200001 {nothing}"]))
    book.run(ONE_PORT, "frames 200001 entries 200002\n", 0)
    lines = [b"1000 1 %d dropped eth-short\n" % index for index in range(200_001)]
    book.sum(J=b"journal 2\n1000 tick\n" + b"".join(lines))
    book.see(OUT=HEAD)
    book.case("limit_on_frames", "4,000,001 records; those of all captures are counted")
    inputs(book, one=book.file("most", HEAD + MOST * record(1, 0, b""), [" < head", f" * {MOST} {nothing}"]), two="request")
    book.run(TWO_PORTS, "limit frames 4000000\n", 6)
    book.see(J=b"journal 2\n", OUT=HEAD, OUT2=HEAD)
    book.run(["replay"] + TWO_PORTS[1:], "limit frames 4000000\n", 6)
    book.run("show K J IN IN2".split(), "limit frames 4000000\n", 6)
    book.run("snoop K IN OUT IN2 OUT2".split(), "limit frames 4000000\n", 6)
    book.see(OUT=HEAD, OUT2=HEAD)
    book.file("many", b"", [])
    book.file("most", b"", [])


def all_rows(book: Book) -> None:
    for part in (cuts, calls, rooms, orders, limits):
        part(book)
