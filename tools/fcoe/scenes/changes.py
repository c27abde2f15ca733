"""What the wire may rewrite in a frame of the forwarder."""
from ..frames.heard import Heard, fc_check, hear
from .script import Change, changed


def body_flags(clear: int, put: int = 0) -> Change:
    """Flags of FIP."""

    def change(frame: bytes) -> bytes:
        heard = hear(frame)
        return changed(frame, heard.at + 8, (heard.flags & ~clear | put).to_bytes(2, "big"))

    return change


def in_descriptor(kind: int, place: int, data: bytes) -> Change:
    """Bytes of the first descriptor of a kind."""

    def change(frame: bytes) -> bytes:
        found = hear(frame).descriptor(kind)
        return frame if found is None else changed(frame, found.at + place, data)

    return change


def priority(value: int) -> Change:
    return in_descriptor(1, 3, bytes([value]))


def period(milliseconds: int) -> Change:
    return in_descriptor(12, 4, milliseconds.to_bytes(4, "big"))


def from_mac(mac: bytes) -> Change:
    """Another forwarder's MAC, as source, and in the MAC descriptor where that is the source's (a login's reply has the granted one)."""

    def change(frame: bytes) -> bytes:
        found = hear(frame).descriptor(2)
        if found is not None and found.data[2:8] == frame[6:12]:
            frame = changed(frame, found.at + 2, mac)
        return changed(frame, 6, mac)

    return change


def both(*changes: Change) -> Change:
    def change(frame: bytes) -> bytes:
        for it in changes:
            frame = it(frame)
        return frame

    return change


def list_end(heard: Heard) -> int:
    return heard.at + 10 + 4 * int.from_bytes(heard.data[heard.at + 6 : heard.at + 8], "big")


def with_descriptor(data: bytes) -> Change:
    """A further descriptor at the end of the list; the frame stays as long where it's padded."""

    def change(frame: bytes) -> bytes:
        heard = hear(frame)
        end = list_end(heard)
        words = (end - heard.at - 10 + len(data)) // 4
        behind = frame[end:]
        grown = frame[:end] + data + (behind[len(data) :] if len(behind) >= len(data) else b"")
        return changed(grown, heard.at + 6, words.to_bytes(2, "big"))

    return change


def without_ports(frame: bytes) -> bytes:
    """Clear Virtual Links that lists no N_Port."""
    heard = hear(frame)
    kept = b"".join(it.data for it in heard.descriptors if it.kind != 11)
    short = frame[: heard.at + 10] + kept
    return changed(short, heard.at + 6, (len(kept) // 4).to_bytes(2, "big")).ljust(60, b"\0")


def wrong_check(frame: bytes) -> bytes:
    """A CRC that isn't that of the FC frame."""
    heard = hear(frame)
    if heard.fc is None:
        return frame
    return changed(frame, heard.fc.end, bytes(it ^ 0xFF for it in frame[heard.fc.end : heard.fc.end + 4]))


def rejected(reason: int, explanation: int) -> Change:
    """An accept as an LS_RJT; its descriptors keep their lengths, and the MAC is none."""

    def change(frame: bytes) -> bytes:
        heard = hear(frame)
        if heard.fc is None:
            return frame
        found = next(it for it in heard.descriptors if it.kind in (7, 8))
        head = found.data[:1] + bytes([9]) + found.data[2:28] + bytes([1, 0, 0, 0, 0, reason, explanation, 0])
        mac = bytes([2, 2]) + bytes(6)
        body = frame[: heard.at + 6] + (len(head + mac) // 4).to_bytes(2, "big") + frame[heard.at + 8 : heard.at + 10] + head + mac
        return body.ljust(60, b"\0")

    return change


def in_payload(place: int, data: bytes) -> Change:
    """Bytes of the payload of an FC frame, which has its right CRC again."""

    def change(frame: bytes) -> bytes:
        fc = hear(frame).fc
        if fc is None or fc.payload_at + place + len(data) > fc.end:
            return frame
        made = changed(frame, fc.payload_at + place, data)
        return changed(made, fc.end, fc_check(made[fc.at : fc.end]))

    return change


def with_port(place: int) -> Change:
    """Clear Virtual Links that lists one N_Port of those that it has."""

    def change(frame: bytes) -> bytes:
        heard = hear(frame)
        ports = [it.data for it in heard.descriptors if it.kind == 11]
        kept = b"".join(it.data for it in heard.descriptors if it.kind != 11 or it.data in ports[place:][:1])
        return changed(frame[: heard.at + 10] + kept, heard.at + 6, (len(kept) // 4).to_bytes(2, "big")).ljust(60, b"\0")

    return change


def without_mac(frame: bytes) -> bytes:
    """A login's reply without its MAC descriptor."""
    heard = hear(frame)
    kept = b"".join(it.data for it in heard.descriptors if it.kind != 2)
    return changed(frame[: heard.at + 10] + kept, heard.at + 6, (len(kept) // 4).to_bytes(2, "big")).ljust(60, b"\0")
