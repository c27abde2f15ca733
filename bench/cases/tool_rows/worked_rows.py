"""The worked journals: `run` over their captures, `replay` and `show` of what it wrote, wishes, and stores that fail."""
from typing import Optional

from .book import Book, digits, records
from .worked import Worked, named, texts_of, worked

WORDS = {1: "K J A X".split(), 2: "K J A X B Y".split(), 3: "K J A X B Y C Z".split()}
INPUTS = {1: "K J A".split(), 2: "K J A B".split(), 3: "K J A B C".split()}

# The name of a case, its ports, its journal's texts, and what it shows.
ROWS = [
    ("first_fabric_login", 1, ("plain", "first-fabric-login"), "the FLOGI is accepted with 010100 (FC-LS-2, FLOGI; FC-BB-5, FPMA)"),
    ("fdisc_before_flogi", 1, ("plain", "fdisc-before-flogi"), "an FDISC without a login is rejected: LS_RJT with reason 09"),
    ("login_again_sends_two_state_changes", 2, ("zoned", "logged-in", "login-again"), "two RSCNs: the login ends, and it comes again"),
    ("pool_of_two_with_quarantine", 3, ("pool-of-two", "logged-in", "quarantine"), "an address is free for another name after more than ten seconds"),
    ("keep_alive_with_a_further_descriptor", 2, ("zoned", "logged-in", "further-descriptor"), "a descriptor of type 200 isn't critical"),
    ("keep_alive_with_a_further_descriptor", 2, ("zoned", "logged-in", "critical-descriptor"), "one of type 100 is"),
    ("node_falls_silent", 2, ("plain", "heard-once", "node-falls-silent"), "20 seconds behind a node's last keep alive its two addresses end"),
    ("keep_alive_after_the_end", 2, ("plain", "heard-once", "keep-alive-after-the-end"), "a keep alive in the window of the end is of nobody"),
    ("port_falls_silent", 2, ("plain", "port-falls-silent"), "225 seconds behind an address's last keep alive it ends, while its node is heard"),
    ("data_frame_without_payload", 2, ("zoned", "logged-in", "data-frame-without-payload"), "it goes on with other MACs"),
    ("two_zones_do_not_join", 2, ("two-zones", "logged-in", "not-joined"), "two ports that no zone has both of"),
    ("source_port_and_source_mac", 2, ("zoned", "logged-in", "other-port"), "data from another port than the login's"),
    ("source_port_and_source_mac", 2, ("zoned", "logged-in", "other-mac"), "data from another MAC than the granted one"),
    ("largest_payload_and_one_more", 2, ("zoned", "logged-in", "largest-payload"), "2112 bytes go on"),
    ("largest_payload_and_one_more", 2, ("zoned", "logged-in", "one-word-more"), "2116 bytes don't"),
    ("largest_payload_and_one_more", 2, ("zoned", "logged-in", "one-bit-changed"), "one bit is changed behind the CRC"),
    ("query_without_name_server_login", 2, ("zoned", "logged-in", "query-without-login"), "GID_FT before a PLOGI to the name server"),
    ("not_zoned_is_not_seen", 3, ("zoned", "logged-in", "not-zoned"), "neither in a query nor by an RSCN nor by data"),
    ("zone_set_activated_between_frames", 3, ("two-sets", "logged-in", "zone-set-activated"), "from 5000 ms on another zone set is active"),
    ("answer_in_two_frames", 1, ("seventy", "answer-in-two-frames"), "70 addresses, of which the node takes 256 bytes at once"),
    ("two_initiators_and_a_target", 3, ("two-zones-and-a-target", "two-initiators-and-a-target"), "from their first frames to their last keep alives"),
]


def stored(book: Book, made: Worked, ports: int, **more: object) -> None:
    """The configuration and the captures of a worked journal, and further files."""
    captures = {name: made.came(port) for port, name in enumerate("ABC"[:ports], 1)}
    files = {"K": made.config.encode(), **captures}
    files.update(more)  # type: ignore[arg-type]
    book.given(**files)  # type: ignore[arg-type]


def outputs(made: Worked, ports: int) -> dict[str, Optional[bytes]]:
    """What `run` leaves."""
    return {"J": made.second.encode(), **{name: made.left(port) for port, name in enumerate("XYZ"[:ports], 1)}}


def runs(book: Book) -> None:
    book.title("run: worked journals, whole, with each frame that is sent")
    for name, ports, texts, shows in ROWS:
        made = worked(*texts)
        book.case(name, shows)
        stored(book, made, ports)
        book.run(["run"] + WORDS[ports], made.line, 0)
        book.see(**outputs(made, ports))
        book.run(["replay"] + WORDS[ports], f"legal {made.entries}\n", 0)


def _shown(made: Worked, said: bytes, status: int) -> bool:
    """Whether `show` tells the entries, the clock, and the logins that the journal leaves."""
    lines = said.decode().splitlines()
    clock = made.second.splitlines()[-1].split(" ")[0]
    held: dict[str, None] = {}
    for line in made.second.splitlines()[1:]:
        words = line.split(" ")
        if words[1] == "tick":
            for address in words[2:]:
                held.pop(address, None)
        elif words[3] == "granted":
            held[words[4]] = None
        elif words[3] == "logout":
            held.pop(words[4], None)
    told = [line.split(" ")[1] for line in lines[2:] if line.startswith("login ")]
    return status == 0 and lines[:2] == [f"entries {made.entries}", f"clock {clock}"] and told == sorted(held)


def checks(book: Book) -> None:
    book.title("replay and show of the worked journals, in both formats")
    for name, ports, texts, _ in ROWS:
        made = worked(*texts)
        book.case(name, "replay and show of the journal as a file, in format 1 and in format 2")
        if made.entries > 200:
            book.room(100_000)
        for journal in (made.journal, made.second):
            left = {f: d for f, d in outputs(made, ports).items() if f != "J"}
            stored(book, made, ports, J=journal.encode(), **left)
            book.run(["replay"] + WORDS[ports], f"legal {made.entries}\n", 0)
            book.run_told(["show"] + INPUTS[ports], lambda said, status, made=made: _shown(made, said, status))  # type: ignore[misc]


def cut_journals(book: Book) -> None:
    book.title("replay of journals that end too early: the line behind the last one is told")
    for name, ports, texts, _ in ROWS:
        made = worked(*texts)
        if made.entries > 40:
            continue
        journal = made.second.encode()
        left = {f: d for f, d in outputs(made, ports).items() if f != "J"}
        stored(book, made, ports, J=journal, **left)
        whole = book.names[journal]
        ends = [at + 1 for at, byte in enumerate(journal) if byte == 10]
        for number, end in enumerate(ends[:-1], 1):
            book.case(name, f"its first {number} lines of {len(ends)}")
            stored(book, made, ports, J=book.part("cut-journal", whole, 0, end), **left)
            book.run(["replay"] + WORDS[ports], f"journal {number + 1} rest\n", 1)
            book.run(["show"] + INPUTS[ports], f"journal {number + 1} rest\n", 1)
    made = worked("plain", "first-fabric-login")
    journal = made.second.encode()
    for end in range(len(journal)):
        if end and journal[end - 1] == 10:
            continue
        book.case("first_fabric_login", f"the first {end} bytes of its journal")
        stored(book, made, 1, J=journal[:end], X=made.left(1))
        line = journal[:end].count(b"\n") + 1
        book.run(["replay"] + WORDS[1], f"journal {line} {'text' if end else 'rest'}\n", 1)


# A line's number, the line with one field changed, and the first line that is wrong with the reason where it is left out, doubled, exchanged with
# the next one, and changed so.
LINES = [
    (2, "900 tick", "2 tick", "3 tick", "2 tick", "2 tick"),
    (3, "1000 2 0 granted 010100", "3 tick", "4 tick", "3 tick", "3 frame"),
    (4, "1200 tick", "4 tick", "5 tick", "4 tick", "4 tick"),
    (5, "1000 2 0 granted 010101", "5 tick", "6 tick", "5 tick", "5 frame"),
    (6, "1200 tock", "6 tick", "7 tick", "6 tick", "6 text"),
    (7, "1200 3 0 rejected 03 29", "7 tick", "8 tick", "7 tick", "7 verdict"),
    (8, "4900 tick", "8 tick", "9 tick", "8 tick", "8 tick"),
    (9, "5000 1 1 logout 010101", "9 tick", "10 tick", "9 tick", "9 verdict"),
    (10, "8000 tick", "10 tick", "11 tick", "10 tick", "10 tick"),
    (11, "15000 tick ", "11 tick", "12 tick", "11 tick", "11 text"),
    (12, "15000 3 2 rejected 09 29", "12 tick", "13 tick", "12 tick", "12 frame"),
    (13, "15100 tick 010101", "13 tick", "14 tick", "13 tick", "13 tick"),
    (14, "15100 3 2 granted 010101", "14 rest", "15 frame", "", "14 verdict"),
]


def lines(book: Book) -> None:
    book.title("show of a journal of thirteen entries with one line changed")
    made = worked("pool-of-two", "logged-in", "quarantine")
    rows = made.second.splitlines()
    for place, other, out, twice, swapped, changed in LINES:
        at = place - 1
        edits = {
            "left out": (out, rows[:at] + rows[at + 1 :]),
            "doubled": (twice, rows[:at] + [rows[at]] + rows[at:]),
            "exchanged with the next one": (swapped, rows[:at] + rows[at + 1 : at + 2] + [rows[at]] + rows[at + 2 :]),
            f"as {other!r}": (changed, rows[:at] + [other] + rows[at + 1 :]),
        }
        for how, (told, text) in edits.items():
            if told:
                book.case("each_line_of_a_journal", f"line {place} {how}")
                stored(book, made, 3, J=book.file("edited-journal", "".join(f"{row}\n" for row in text).encode()))
                book.run(["show"] + INPUTS[3], f"journal {told}\n", 1)


def legal(book: Book) -> None:
    book.title("run, and then replay of what it wrote, in both formats")
    rows: list[tuple[str, tuple[str, ...]]] = [("two_initiators_and_a_target", ("two-zones-and-a-target", "two-initiators-and-a-target"))]
    rows += [("migrate_then_replay_both", ("pool-of-two", "logged-in", "quarantine"))]
    for name, texts in rows:
        made = worked(*texts)
        book.case(name)
        stored(book, made, 3)
        book.run(["run"] + WORDS[3], made.line, 0)
        book.run(["replay"] + WORDS[3], f"legal {made.entries}\n", 0)
        book.given(J=made.journal.encode())
        book.run(["replay"] + WORDS[3], f"legal {made.entries}\n", 0)
        book.run(["migrate", "J", "NEW"], f"migrated {made.entries}\n", 0)
        book.run(["replay", "K", "NEW"] + WORDS[3][2:], f"legal {made.entries}\n", 0)
        book.see(NEW=made.second.encode())
    made = worked("plain", "heard-once", "node-falls-silent")
    book.case("replay_refuses_another_grant", "the second login's line grants the address that the first one holds")
    stored(book, made, 3)
    book.run(["run"] + WORDS[3], made.line, 0)
    rows_of = made.journal.splitlines()
    rows_of[3] = "1 1 granted 010100"
    book.given(J="".join(f"{row}\n" for row in rows_of).encode())
    book.run(["replay"] + WORDS[3], "journal 4 verdict\n", 1)


# The login that is tried, the address that its line grants, and whether it may.
WISHES = [
    ("wishes_that_are_granted", 1300, 3, 0x0C, "010103", True, "a free address"),
    ("wishes_that_are_granted", 1300, 3, 0x0C, "0101ff", True, "the last one of the pool"),
    ("wishes_that_are_granted", 11300, 3, 0x0C, "010101", True, "one more than ten seconds after its end"),
    ("wishes_that_are_granted", 1300, 2, 0x0B, "010101", True, "one for its last holder"),
    ("wishes_that_are_granted", 1300, 1, 0x0A, "010100", True, "that of a login that this one ends"),
    ("wishes_that_are_taken", 1300, 3, 0x0C, "010100", False, "held"),
    ("wishes_that_are_taken", 1300, 3, 0x0C, "010101", False, "in quarantine"),
    ("wishes_that_are_taken", 11200, 3, 0x0C, "010101", False, "in quarantine for ten seconds, and not more"),
    ("wishes_that_are_taken", 1300, 3, 0x0C, "010200", False, "behind the pool"),
    ("wishes_that_are_taken", 1300, 3, 0x0C, "0100ff", False, "before it"),
]


def wishes(book: Book) -> None:
    book.title("show and replay of a login that is granted another address than run would give")
    for name, moment, port, node, address, granted, shows in WISHES:
        ticks = "tick 9000\n< 9000 1 advertisement\n< 9000 2 advertisement\n< 9000 3 advertisement\n" if moment > 9000 else ""
        login = f"> {moment} {port} flogi {node:02x}\n{ticks}tick {moment}\n"
        index = 2 if port == 2 else 1 if port == 1 else 0
        made = worked("plain", "logged-in", "logged-out", login + f"{port} {index} granted {address}\n< {moment} {port} accept {node:02x} {address[4:]}\n")
        book.case(name, shows)
        accept = {f: d for f, d in outputs(made, 3).items() if f != "J"}
        stored(book, made, 3, J=made.second.encode(), **accept)
        said = f"journal {made.entries + 1} verdict\n"
        if granted:
            book.run_told(["show"] + INPUTS[3], lambda text, status, made=made: _shown(made, text, status))  # type: ignore[misc]
            book.run(["replay"] + WORDS[3], f"legal {made.entries}\n", 0)
        else:
            book.run(["show"] + INPUTS[3], said, 1)
            book.run(["replay"] + WORDS[3], said, 1)


def _told_before(made: Worked, fronts: dict[str, Optional[int]], name: str, port: int) -> bool:
    """Whether the journal has the tick of the last whole record of an output."""
    if fronts["J"] is None or fronts[name] is None:
        return True
    journal = made.second.encode()[: fronts["J"]]
    end, last = 24, None
    for seconds, micros, frame in records(made.left(port)) or []:
        end += 16 + len(frame)
        if end <= (fronts[name] or 0):
            last = seconds * 1000 + micros // 1000
    return last is None or f"\n{last} tick".encode() in journal


# The calls of a run over two initiators and a target: open and fetch twice the configuration, open each capture and fetch its head, open the four
# outputs, put what each begins with, fetch each capture's end, and put what each output ends with.
CALLS = 9 * [3] + 8 * [4] + 3 * [3] + 4 * [4]


def stores(book: Book) -> None:
    """Each call of a run fails in turn."""
    book.title("run over two initiators and a target, over a store of which one call fails")
    made = worked("two-zones-and-a-target", "two-initiators-and-a-target")
    book.case("failing_store_table", "the whole run")
    stored(book, made, 3)
    book.run(["run"] + WORDS[3], made.line, 0)
    left = outputs(made, 3)
    book.keep(j=("J", left["J"] or b""), x=("X", left["X"] or b""), y=("Y", left["Y"] or b""), z=("Z", left["Z"] or b""))
    for call, status in enumerate(CALLS + [0]):
        what = "what is left are fronts of the whole run's files, and what is sent is told before" if status else "there are fewer calls"
        book.case("failing_store_table", f"call {call} fails: {what}")
        stored(book, made, 3)
        book.fail(call)
        book.run(["run"] + WORDS[3], {0: made.line, 3: "read fault\n", 4: "write fault\n"}[status], status)
        fronts: dict[str, Optional[int]] = {}
        for name in ("J", "X", "Y", "Z"):

            def fits(count: Optional[int], name: str = name, fronts: dict[str, Optional[int]] = fronts) -> bool:
                fronts[name] = count
                return name == "J" or _told_before(made, fronts, name, "XYZ".index(name) + 1)

            book.front(name, name.lower(), fits)


def published(book: Book) -> int:
    """The frames of published.txt have these bytes here, and stand so in the answers. How many there are."""
    shown = {answer.split(" ", 4)[-1] for answer in book.answers if isinstance(answer, str) and answer.startswith(" @ ")}
    found = texts_of("published.txt")
    for line, text in found.items():
        name, *more = line.split()
        n, s, t = ([int(word, 16) for word in more] + [0, 0, 0])[:3]
        data = bytes.fromhex(text)
        if named(name, n, s, t, 1, True) != data or digits(data) not in shown:
            raise SystemExit(f"{line} isn't as it was published")
    return len(found)


def all_rows(book: Book) -> None:
    runs(book)
    checks(book)
    lines(book)
    legal(book)
    wishes(book)
    cut_journals(book)
    stores(book)
