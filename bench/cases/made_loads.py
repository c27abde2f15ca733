"""Frames of the loads that `make NUMBER` writes, with the verdict of each: part of bench/cases/fabric_cases.

bench/cases/vectors makes the frames. Their verdicts follow from how a load is made: N_Port I of port P gets the address that the load gives it, and it is zoned with the N_Ports I
of the other ports alone. `run` over the captures of that load writes the same lines into its journal: bench/cases/made_loads.py NUMBER JOURNAL compares all 20,000 of them.
"""
import itertools
import pathlib
import sys
from importlib.machinery import SourceFileLoader
from importlib.util import module_from_spec, spec_from_loader

LOADER = SourceFileLoader("vectors", str(pathlib.Path(__file__).resolve().parent / "vectors"))
SPEC = spec_from_loader("vectors", LOADER)
vectors = module_from_spec(SPEC)  # type: ignore[arg-type]
LOADER.exec_module(vectors)

# How many N_Ports of a port ask for something, and how many data frames of a port there are.
FEW, DATA = 2, 4
MOST = 2 + 5 * vectors.LOGINS + 1 + DATA


def number_at(data, at, size):
    return int.from_bytes(data[at : at + size], "big")


def verdict_of(port, frame):
    """The verdict of a frame of a load, by its own fields: a login's exchange counts the N_Ports of its port from 1 on."""
    if frame[12:14] == b"\x89\x14":
        return "vlans"
    body = frame[18:]
    if frame[16:18] == b"\x89\x14":
        return {1: "advertised", 3: "alive"}.get(body[3]) or f"granted {vectors.address(port, number_at(body, 30, 2) - 1):06x}"
    head, payload = body[14:38], body[38:]
    if head[0] == 0x22:
        return {3: "ns-login", 0x62: "watching 3"}[payload[0]]
    if head[0] == 2:
        return "registered" if payload[8] == 2 else "answered"
    receiver, sender = number_at(head, 1, 3) - 0x010100, number_at(head, 5, 3) - 0x010100
    if sender == receiver:
        return "dropped self"
    return f"forwarded {receiver // vectors.LOGINS + 1}" if sender % vectors.LOGINS == receiver % vectors.LOGINS else "dropped zone"


def load(number, most=None):
    """The frames of all ports, or so many of each, in the order of a run: by window, by port, by place in the capture."""
    found = []
    for port in range(1, vectors.PORTS + 1):
        rows = enumerate(itertools.islice(vectors.frames(number, port), most))
        found += [(moment // 100, port, index, frame) for index, (moment, frame) in rows]
    return sorted(found, key=lambda row: row[:3])


def is_taken(index):
    """All logins, without which the addresses would be others; and a few of each other kind."""
    place = index - 2
    if place < vectors.LOGINS:
        return True
    if place < 5 * vectors.LOGINS:
        return place % vectors.LOGINS < FEW
    return True


def remark(text):
    return "# " + text, ["= # " + text]


def steps(rows, clock):
    """The frames, each in its window."""
    for window, port, index, frame in rows:
        if 100 * window > clock:
            clock = 100 * window
            yield f"fabric tick {clock}", ["= ended 0"]
        yield f"fabric step {port} {index} whole {frame.hex()}", [f"= {port} {index} {verdict_of(port, frame)}"]


def loads():
    yield remark("The load of `make 1`: 240 logins, and of each port two N_Ports' requests to the name server and five of its last frames, as `run` judges them.")
    yield "config new", ["= new"]
    for line in vectors.config().decode().splitlines():
        yield "config " + line, ["= noted"]
    yield f"fabric open {vectors.PORTS}", ["= open"]
    yield from steps([row for row in load(1, MOST) if is_taken(row[2])], 0)
    for number in (2, 3):
        yield remark(f"The data frames of `make {number}`, which has the same logins.")
        yield from steps([row for row in load(number, MOST) if is_taken(row[2]) and row[2] > 5 * vectors.LOGINS + 2], 10000)


def main():
    lines = [f"{port} {index} {verdict_of(port, frame)}" for _, port, index, frame in load(int(sys.argv[1]))]
    journal = [line.split(" ", 1)[1] for line in pathlib.Path(sys.argv[2]).read_text(encoding="ascii").splitlines()[1:]]
    found = [line for line in journal if not line.startswith("tick")]
    print(f"{len(lines)} frames, {sum(one != other for one, other in zip(lines, found))} of them with another verdict, {len(found)} in the journal")
    sys.exit(0 if lines == found else 1)


if __name__ == "__main__":
    main()
