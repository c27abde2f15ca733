"""`snoop` and `enode`: the rows that are written out."""
from typing import Optional, Union

from .book import HEAD, Book
from .common import ASKED, REQUEST, record
from .worked import Worked, named, worked

SNOOP = "snoop K F X A Y B Z".split()

# A node logs in on port 2 and sends data there. On port 3 the same data is of no login.
LOGGED_IN = """\
> 1000 2 flogi 0a
< 1010 1 accept 0a 00
> 1100 2 data 0a 00 01
> 1200 3 data 0a 00 01
"""

# The forwarder clears the link, and behind that the node's data is of no login.
CLEARED = """\
< 2000 1 clear 0a 00
> 2100 2 data 0a 00 01
"""


def bridged(book: Book, made: Worked, **more: Union[str, bytes]) -> None:
    """The frames of the forwarder in F, and of the nodes in A and B."""
    files: dict[str, Union[str, bytes]] = {"K": made.config.encode(), "F": made.left(1), "A": made.came(2), "B": made.came(3)}
    files.update(more)
    book.given(**files)


def bridges(book: Book) -> None:
    book.title("snoop: which way frames go (FC-BB-5, FIP snooping bridges)")
    bridges_of_logins(book)
    bridges_of_a_span(book)
    bridges_with_faults(book)
    bridges_by_words(book)


def bridges_of_logins(book: Book) -> None:
    rows_of_logins = (
        ("bridge_binds_at_the_answer", ("plain", LOGGED_IN), "passed 3 dropped 1"),
        ("bridge_forgets_at_clear", ("plain", LOGGED_IN, CLEARED), "passed 4 dropped 2"),
    )
    for name, texts, line in rows_of_logins:
        book.case(name, "the forwarder's side gets what the node sends, the node all that the forwarder sends, the other port nothing")
        made = worked(*texts)
        bridged(book, made)
        book.run(SNOOP, f"{line}\n", 0)
        book.see(X=worked("plain", LOGGED_IN).came(2), Y=made.left(1), Z=HEAD)


def bridges_of_a_span(book: Book) -> None:
    first = "> 1000 2 vlan-request 0a\n"
    for moment, line, status in ((21_601_000, "passed 2 dropped 0", 0), (21_601_001, "limit span 21600000", 6)):
        book.case("span_of_all_captures")
        made = worked("plain", first, f"> {moment} 3 vlan-request 0b\n")
        bridged(book, made)
        book.run(SNOOP, f"{line}\n", status)
        both = HEAD + record(1, 0, named("vlan-request", 0x0A)) + record(moment // 1000, 0, named("vlan-request", 0x0B))
        book.see(X=None if status else both)


def bridges_with_faults(book: Book) -> None:
    made = worked("plain")
    rows: list[tuple[Union[str, bytes], str, str, str]] = [(b"vlan 1\n", "request-99", "config 2 missing", "the configuration's comes first")]
    rows += [("plain", "request-99", "capture 1 24 cut", "then that of port 1"), ("plain", "request", "capture 2 0 short", "then that of port 2")]
    for config, one, line, shows in rows:
        book.case("first_fault_in_port_order", shows)
        bridged(book, made, K=config, F=one, A="empty")
        book.run(SNOOP, f"{line}\n", 1)
        book.see(X=None)
    book.case("an_output_cannot_be_opened", "the calls are: open and fetch twice K, F, A and B, and open X, Y and Z")
    bridged(book, made)
    book.fail(13)
    book.run(SNOOP, "write fault\n", 4)
    book.see(X=b"", Y=None)


def bridges_by_words(book: Book) -> None:
    made = worked("plain")
    for count in (1, 2, 64, 65):
        book.case("two_to_sixty_four_pairs", f"{count} pairs")
        names = [f"I{port}" for port in range(count)]
        bridged(book, made, **{name: "head" for name in names})
        taken = 2 <= count <= 64
        words = ["snoop", "K"] + [word for name in names for word in (name, "O" + name[1:])]
        book.run(words, "passed 0 dropped 0\n" if taken else "words\n", 0 if taken else 2)
        book.see(O0=HEAD if taken else None)
    for row in ("snoop K F X A", "snoop K F X A Y B", "snoop K F X A X", "snoop K F X K Y"):
        book.case("words_that_bridge_nothing")
        bridged(book, made)
        book.run(row.split(), "words\n", 2)


MAC, PORT, NODE = "00:1b:21:00:00:0a", "20:00:00:1b:21:00:00:0a", "10:00:00:1b:21:00:00:0a"
ENODE = ["enode", "1000", MAC, PORT, NODE, "IN", "OUT"]


def stands(book: Book, one: Union[str, bytes], line: str, status: int, output: Optional[bytes]) -> None:
    book.given(IN=one)
    book.run(ENODE, f"{line}\n", status)
    book.see(OUT=output)


def nodes(book: Book) -> None:
    book.title("enode: where a node stands (FC-BB-5, ENode)")
    book.case("node_without_answers", "it asks once")
    stands(book, "head", "asking", 0, REQUEST)
    book.case("node_logs_in", "with answers it is up; its solicitation has zeros behind it")
    answers = worked("< 1100 1 vlans 0a\n< 1200 1 solicited 0a\n< 1300 1 accept 0a 00\n").left(1)
    sent = REQUEST + record(1, 100_000, named("solicitation", 0x0A) + bytes(8)) + record(1, 200_000, named("flogi", 0x0A))
    stands(book, answers, "up 010100 0efc00010100", 0, sent)
    book.case("node_without_answers", "what it sent itself is no answer")
    stands(book, HEAD + sent[100:], "asking", 0, REQUEST)
    rows: list[tuple[Union[str, bytes], str, int]] = [(HEAD + record(21_601, 1000, ASKED), "limit span 21600000", 6)]
    rows += [("request-99", "capture 1 24 cut", 1), ("request-23", "capture 1 0 short", 1)]
    for one, line, status in rows:
        book.case("inputs_that_are_not_taken")
        stands(book, one, line, status, None)
    tail = [PORT, NODE, "IN", "OUT"]
    words = [["4294967295999", MAC] + tail, ["4294967296000", MAC] + tail, ["01000", MAC] + tail, ["1000", MAC[:14]] + tail]
    words += [["1000", MAC, MAC, NODE, "IN", "OUT"], ["1000", MAC, PORT, MAC, "IN", "OUT"], ["1000", MAC, PORT, NODE, "IN", "IN"]]
    words += [["1000", MAC, PORT, NODE, "IN"], ["1000", MAC] + tail + ["OUT2"]]
    for number, row in enumerate(words):
        book.case("words_of_a_node")
        book.given(IN="head")
        book.run(["enode"] + row, "words\n" if number else "asking\n", 2 if number else 0)


def all_rows(book: Book) -> None:
    bridges(book)
    nodes(book)
