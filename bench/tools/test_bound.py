"""tools/bound: its rules of a bridge beside those of bench/cases/models.py, over the demo's frames behind a bridge and over frames that are spoilt."""
import pathlib
import random
import re
import sys
from typing import Iterator

TOP = pathlib.Path(__file__).resolve().parents[2]
sys.path[:0] = [str(TOP / "tools"), str(TOP / "bench/cases")]

import captures  # pylint: disable=wrong-import-position
import models  # pylint: disable=wrong-import-position
import wire  # pylint: disable=wrong-import-position
from fcoe.frames.captures import classic  # pylint: disable=wrong-import-position
from fcoe.frames.columns import Record  # pylint: disable=wrong-import-position
from fcoe.frames.heard import fc_check, hear  # pylint: disable=wrong-import-position
from fcoe.runs.bridge import Bridge, Side, Way  # pylint: disable=wrong-import-position
from fcoe.runs.configs import read_config  # pylint: disable=wrong-import-position

CONFIG = str(TOP / "demo/fabric.conf")
FORWARDER = read_config(CONFIG).mac
PORTS = ("forwarder", "initiator", "target")
Arrived = tuple[int, Record]  # port, and what came on it
TRIES, SPOILT = 40, 30


def demo() -> list[Arrived]:
    """The demo's frames behind a bridge, in the order in which they come."""
    found = [(it.moment, port, it) for port, name in enumerate(PORTS, 1) for it in classic(str(TOP / f"demo/bridge/{name}.pcap")).records]
    return [(port, it) for _, port, it in sorted(found, key=lambda one: one[:2])]


def resealed(data: bytes, random_: random.Random) -> bytes:
    """An FCoE frame with another address of these hosts, and the check sequence that fits."""
    if len(data) < 64 or data[16:18] != b"\x89\x06":
        return data
    frame = bytearray(data[32:-8])
    at = random_.choice((1, 5))
    frame[at : at + 3] = bytes((1, 1, random_.randrange(3)))
    return data[:32] + frame + fc_check(bytes(frame)) + data[-4:]


def clear(data: bytes, random_: random.Random) -> bytes:
    """A clear link message to this frame's sender, of all or of one MAC."""
    listed = wire.descriptor(11, b"\x0e\xfc\0\1\1" + bytes((random_.randrange(3),)) + bytes(12)) if random_.randrange(2) else b""
    body = models.fip(3, 2, 0, wire.descriptor(2, FORWARDER), wire.descriptor(4, bytes(10)), listed)
    return models.ethernet(data[6:12], FORWARDER, 100, body)


def spoilt(frames: list[Arrived], random_: random.Random) -> list[Arrived]:
    """The frames with some left out, cut, changed in a byte or two, on another port, and put elsewhere."""
    made = list(frames)
    for _ in range(SPOILT):
        at = random_.randrange(len(made))
        port, it = made[at]
        data = bytearray(it.data)
        match random_.randrange(8):
            case 0:
                del made[at]
            case 1:
                made[at] = random_.randint(1, len(PORTS)), it
            case 2:
                made.insert(random_.randrange(len(made)), (port, it))
            case 3:
                made[at] = port, Record(it.moment, it.data[: random_.randrange(len(data) + 1)], random_.choice((it.length, 0)), it.number)
            case 4:
                made[at] = port, Record(it.moment, resealed(it.data, random_), it.length, it.number)
            case 5:
                message = clear(it.data, random_)
                made.insert(at, (1, Record(it.moment, message, len(message), 0)))
            case _:
                for _ in range(random_.randint(1, 2) if data else 0):
                    data[random_.randrange(min(len(data), 80))] = random_.choice((0, 1, 2, 4, 7, 9, 11, 255, random_.randrange(256)))
                made[at] = port, Record(it.moment, bytes(data), it.length, it.number)
    return made


def way_of(way: models.Way) -> Way:
    """A way of the model as the tools say it."""
    side = Side[way[0].upper()]
    return Way(side, way[1] if side is Side.DOWN else 0, way[1] if side is Side.DROPPED else "")


def loads() -> Iterator[list[Arrived]]:
    yield demo()
    for seed in range(TRIES):
        yield spoilt(demo(), random.Random(seed))


def test_the_tool_has_the_rules_of_the_model() -> None:
    """Each frame has the way that the model gives it, and the same is bound behind each."""
    seen = set()
    for load, frames in enumerate(loads()):
        model = models.Bridge(captures.forwarder_of(pathlib.Path(CONFIG).read_text(encoding="utf-8")))
        bridge = Bridge(read_config(CONFIG))
        for place, (port, it) in enumerate(frames):
            heard = hear(it.data)
            way = bridge.way(port, it, heard)
            said = model.frame(port, captures.Record(it.milliseconds, it.data, len(it.data) >= it.length))
            assert way == way_of(said), (load, place, heard.kind, way, said)
            seen.add((way.side, way.rule))
            if bridge.learn(port, heard, way):
                bound = {mac: (one.port, one.enode, one.address) for mac, one in bridge.bound.items()}
                assert bound == {mac: (one.port, one.enode, one.address) for mac, one in model.bindings().items()}, (load, place)
    rules = {rule for _, rule in seen} - {""}
    assert rules == set(re.findall(r"^\| (?:any|ENode|1) \| `([a-z-]+)` \|", (TOP / "docs/BRIDGE.md").read_text(encoding="utf-8"), re.M))
    assert {side for side, _ in seen} == set(Side)
