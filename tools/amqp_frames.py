"""Reads the frames of AMQP, for what judges them or writes scripts about them."""
from dataclasses import dataclass

OPEN, BEGIN, ATTACH, FLOW, TRANSFER, DISPOSITION, DETACH, END, CLOSE = range(0x10, 0x19)
RECEIVED, ACCEPTED, REJECTED, RELEASED, MODIFIED = range(0x23, 0x28)
OUTCOMES = {ACCEPTED: "accepted", REJECTED: "rejected", RELEASED: "released", MODIFIED: "modified"}
HEADER = b"AMQP\0\1\0\0"
# What has no bytes behind its constructor.
FIXED = {0x40: None, 0x41: True, 0x42: False, 0x43: 0, 0x44: 0, 0x45: []}
WIDTHS = {4: 0, 5: 1, 6: 2, 7: 4, 8: 8, 9: 16, 0xA: 1, 0xB: 4, 0xC: 1, 0xD: 4, 0xE: 1, 0xF: 4}


@dataclass(frozen=True)
class Described:
    """A value with a descriptor, of which the code is known."""

    code: int
    value: object


@dataclass(frozen=True)
class Frame:
    """A frame: one without a body has no code."""

    channel: int
    code: object
    fields: list
    payload: bytes
    size: int

    def field(self, at, default=None):
        """The field at a place, or the default where it is null or left off."""
        found = self.fields[at] if at < len(self.fields) else None
        return default if found is None else found


def read_value(data, at=0):
    """The value at a place, and the place behind it. A map is a dict; its keys here are never lists."""
    form = data[at]
    if form == 0:
        code, at = read_value(data, at + 1)
        value, at = read_value(data, at)
        return Described(code, value), at
    if form in FIXED:
        return FIXED[form], at + 1
    return read_wide(data, form, at + 1)


def read_wide(data, form, at):
    """A value that has bytes behind its constructor."""
    wide, family = WIDTHS[form >> 4], form >> 4
    number = int.from_bytes(data[at : at + wide], "big")
    start, end = at + wide, at + wide + (number if family >= 0xA else 0)
    if family < 0xA:
        return (number == 1 if form == 0x56 else number), end
    if family < 0xC:
        text = data[start:end]
        return (text if form & 0xF == 0 else text.decode()), end
    count = int.from_bytes(data[start : start + wide], "big")
    items, start = [], start + wide
    if family >= 0xE:
        return items, end
    for _ in range(count):
        item, start = read_value(data, start)
        items.append(item)
    return (dict(zip(items[::2], items[1::2])) if form & 0xF == 1 else items), end


def read_frame(data):
    """A whole frame, with its size in front."""
    channel, start = int.from_bytes(data[6:8], "big"), 4 * data[4]
    if start == len(data):
        return Frame(channel, None, [], b"", len(data))
    body, end = read_value(data, start)
    return Frame(channel, body.code, body.value, data[end:], len(data))


def cut(data):
    """The protocol header and the frames at the front of a stream, each as bytes, and what is left behind them."""
    found = []
    while True:
        size = 8 if data[:4] == HEADER[:4] else int.from_bytes(data[:4], "big")
        if len(data) < max(size, 4):
            return found, data
        found.append(data[:size])
        data = data[size:]


# Places in a message (part 3, 3.4.1): the number of the section, and the bytes into it.


def starts(payload):
    """Where its sections begin; the first one at its first byte."""
    heads = (b"\0\x53", b"\0\x80")
    later = [at for at in range(1, len(payload) - 2) if payload[at : at + 2] in heads]
    return [0, *(at for at in later if 0x70 <= payload[at + 2] <= 0x78)]


def place(payload):
    """The place behind all of its bytes."""
    found = starts(payload)
    return len(found) - 1, len(payload) - found[-1]


def bytes_before(payload, number, offset):
    """How many of its bytes stand before a place, or None where it has no such place."""
    found = starts(payload)
    at = found[number] + offset if number < len(found) else None
    return at if at is not None and at <= len(payload) else None
