"""Scripts of amqp_scenario whose instructions tools/bench counts. docs/SCENARIOS.md says what their lines do."""

HEADER = "a feed 414d515000010000"

# An Empty frame (part 2, 2.4.5), and how many of them a block has.
EMPTY = "0000000802000000"
BLOCK = 2048

# The roles of an Attach's sender, as they are written (part 2, 2.8.1).
SENDER, RECEIVER = 0x42, 0x41

# Performatives of a peer (part 2, 2.7): an Open that takes frames of 512 bytes, a Close, a Begin that answers channel
# 0, and one that answers none.
OPEN = b"\x00\x53\x10\xc0\x0a\x03\xa1\x01b\x40\x70\x00\x00\x02\x00"
CLOSE = b"\x00\x53\x18\x45"
WINDOWS = b"\x43\x70\x00\x00\x08\x00\x70\x00\x00\x08\x00"
ANSWER = b"\x00\x53\x11\xc0\x0f\x04\x60\x00\x00" + WINDOWS
BEGIN = b"\x00\x53\x11\xc0\x0d\x04\x40" + WINDOWS

# A Flow that gives 200 credits, and a Disposition that accepts and settles eight deliveries.
FLOW = b"\x00\x53\x13\xc0\x11\x07\x43\x70\x00\x00\x08\x00\x43\x70\x00\x00\x08\x00\x43\x43\x52\xc8"
DISPOSITION = b"\x00\x53\x15\xc0\x0a\x05\x41\x43\x52\x07\x41\x00\x53\x24\x45"

# The ends of a link that have an address alone, and parts of such in which each field is set (part 3, 3.5.3, 3.5.4).
ENDS = b"\x00\x53\x28\xc0\x08\x01\xa1\x05queue\x00\x53\x29\xc0\x08\x01\xa1\x05queue"
TWO_SYMBOLS = b"\xe0\x14\x02\xb3\x00\x00\x00\x05queue\x00\x00\x00\x05queue"
TWO_OUTCOMES = b"\xe0\x2e\x02\xb3\x00\x00\x00\x12amqp:accepted:list\x00\x00\x00\x12amqp:accepted:list"
LIFETIME = b"\xa1\x05queue\x52\x02\xa3\x05never\x52\x3c\x41\xc1\x0c\x02\xa3\x08lifetime\x40"
FILTER = b"\xa3\x04move\xc1\x0c\x02\xa3\x08selector\x40\x00\x53\x24\x45"
FULL_SOURCE = b"\x00\x53\x28\xc0\x80\x0b" + LIFETIME + FILTER + TWO_OUTCOMES + TWO_SYMBOLS
FULL_ENDS = FULL_SOURCE + b"\x00\x53\x29\xc0\x38\x07" + LIFETIME + TWO_SYMBOLS
REST = b"\x80\x00\x00\x00\x00\x00\x01\x00\x00" + 2 * TWO_SYMBOLS + b"\xc1\x0b\x02\xa3\x07product\x40"


def transfer(number):
    """The first transfer of the delivery with this number, whose tag has eight bytes (part 2, 2.7.5)."""
    return b"\x00\x53\x14\xc0\x10\x05\x43\x52" + bytes([number, 0xA0, 8]) + bytes(7) + bytes([number, 0x43, 0x42])


def attach_of(number, role):
    """An Attach by a handle and a name of this number, whose ends have an address alone (part 2, 2.7.3)."""
    return b"\x00\x53\x12\xc0\x29\x0a\xa1\x04lin%d\x52%c%c\x40\x40" % (number, number, role) + ENDS + b"\x40\x40\x43"


def full_attach_of(number):
    """An Attach in which each field is set."""
    begin = b"\x00\x53\x12\xd0\x00\x00\x01\x18\x00\x00\x00\x0e\xa1\x04lin%d\x52%c\x42\x50\x00\x50\x01"
    return begin % (number, number) + FULL_ENDS + b"\x40\x40\x43" + REST


def detach_of(number):
    """A Detach that closes the link with this handle (part 2, 2.7.7)."""
    return b"\x00\x53\x16\xc0\x04\x02\x52%c\x41" % number


def script(*parts):
    """The text of lists of lines."""
    return "\n".join([*(line for part in parts for line in part), ""])


def repeated(lines_at, count, first=0):
    """The lines of each of so many numbers."""
    return [line for number in range(first, first + count) for line in lines_at(number)]


def move(*ends):
    return [f"move {end} all" for end in ends]


def with_windows(lines_at, count):
    """The same, where `a` hears now and then of a new window of the session, which takes 2,048 transfers."""
    return repeated(lambda number: lines_at(number) + (move("b") if number % 500 == 499 else []), count)


# Two ends. `a` begins sessions, and sends.

TWO = ["two", "settings a a 65536 65535 2048 0", "settings b b 65536 65535 2048 0", "a connect", "b connect"]
OPENED = TWO + move("a", "b", "a", "b")


def begin(channel):
    return ["a begin", "move a all", f"b accept {channel}", "move b all"]


def attach(number):
    """A link of the first session, by its number as its name."""
    return [f"a sender 0 {number} 0 mixed first", "move a all", f"b receiver 0 {number} first", "move b all"]


def grant(link):
    return [f"b grant {link} 1000000", "move b all"]


def send(how, size, link=0):
    return [f"a send {link} {how} {'00' * size}", "move a all"]


# A script keeps what an endpoint tells, and with it the bytes that were fed. Behind a message of 64 KiB the endpoint
# has room for many more.
ROOM = send("settled", 65536)
ATTACHED = OPENED + begin(0) + attach(0) + grant(0) + ROOM


def dispose(message):
    return [f"b dispose 0 {message} accepted mode", "move b all"]


def messages(how, size, count):
    """So many messages of so many bytes; unsettled ones are accepted as they come."""
    if how == "settled":
        return script(ATTACHED, send(how, size) * count)
    return script(ATTACHED, repeated(lambda number: send(how, size) + dispose(number), count, 1))


def turns(links, count):
    """So many settled messages of 100 bytes, over so many links in turn."""
    each = repeated(lambda link: attach(link) + grant(link), links)
    sent = with_windows(lambda number: send("settled", 100, number % links), count)
    return script(OPENED, begin(0), each, ROOM, sent)


def sessions(there, count):
    """So many sessions that begin and end one after the other, where so many are there."""
    ended = repeated(lambda number: [*begin(there), f"a end {number}", *move("a", "b")], count, there)
    return script(OPENED, repeated(begin, there), ended)


def links(there, count):
    """So many links that attach and are detached one after the other, where so many are there."""
    gone = repeated(lambda number: [*attach(number), f"a detach {number}", *move("a", "b")], count, there)
    return script(OPENED, begin(0), repeated(attach, there), gone)


def message_beside(there, count):
    """So many settled messages of 100 bytes by the last of so many links."""
    return script(ATTACHED, repeated(attach, there - 1, 1), grant(there - 1), send("settled", 100, there - 1) * count)


def oldest_accepted(there, count):
    """So many unsettled messages of 100 bytes: each is sent where so many are open, and the oldest accepted then."""
    each = repeated(lambda number: send("unsettled", 100) + dispose(number), count, 1)
    return script(ATTACHED, with_windows(lambda _: send("unsettled", 100), there), each)


def newest_accepted(there, count):
    """The same, but each is accepted itself."""
    each = repeated(lambda number: send("unsettled", 100) + dispose(number), count, there + 1)
    return script(ATTACHED, with_windows(lambda _: send("unsettled", 100), there), each)


# One end, whose peer is the script.


def feed(performative, payload=0, channel=0):
    """The peer's frame with this performative and a payload of so many bytes."""
    frame = bytes([2, 0, 0, channel]) + performative + bytes(payload)
    return [f"a feed {(len(frame) + 4).to_bytes(4, 'big').hex()}{frame.hex()}"]


PULL = ["a pull"]
CONNECTED = ["a connect", HEADER, *feed(OPEN), *PULL * 2]
BEGUN = ["one", *CONNECTED, "a begin", *PULL, *feed(ANSWER)]


def send_by(number):
    return [f"a sender 0 lin{number} 0 mixed first", *PULL, *feed(attach_of(number, RECEIVER))]


SENDS = [*BEGUN, *send_by(0), *feed(FLOW)]
RECEIVES = [*BEGUN, "a receiver 0 lin0 first", *PULL, *feed(attach_of(0, SENDER)), "a grant 0 1000", *PULL]

# A connection that is opened and closed.
CONNECTION = script(["one", *CONNECTED, "a close", *PULL, *feed(CLOSE)])


def empty_frames(blocks, piece):
    """So many blocks of Empty frames, in pieces of so many bytes: of whole frames, or of 1."""
    if piece == 1:
        pieces = [EMPTY[at : at + 2] for at in range(0, len(EMPTY), 2)] * BLOCK
    else:
        pieces = [EMPTY * (piece * 2 // len(EMPTY))] * (BLOCK * len(EMPTY) // 2 // piece)
    return script(["one", *CONNECTED], [f"a feed {it}" for it in pieces] * blocks)


# How many frames of a kind are read and written.
TIMES = 8


def times(lines_at):
    return repeated(lines_at, TIMES)


# What is read: a name, the lines before, and those that feed so many.
READ = [
    ("a first transfer with 100 bytes of payload, of 129 in all", RECEIVES, times(lambda it: feed(transfer(it), 100))),
    ("the same with 200 bytes of payload", RECEIVES, times(lambda it: feed(transfer(it), 200))),
    ("a flow of a link", SENDS, times(lambda _: feed(FLOW))),
    ("a begin", BEGUN, times(lambda it: feed(BEGIN, channel=it + 1))),
    ("a disposition of eight deliveries, accepted", SENDS, times(lambda _: feed(DISPOSITION))),
    ("a detach that closes a link", [*BEGUN, *times(send_by)], times(lambda it: feed(detach_of(it)))),
    ("an attach whose source and target have an address alone", BEGUN, times(lambda it: feed(attach_of(it, SENDER)))),
    ("an attach in which each field is set, of 296 bytes", BEGUN, times(lambda it: feed(full_attach_of(it)))),
]


def pulled(line_at):
    return times(lambda number: [line_at(number), *PULL])


# What is written: a name, the lines before, and those of the calls after which so many are pulled.
WRITTEN = [
    ("a first transfer with 100 bytes of payload", SENDS, pulled(lambda _: "a send 0 settled " + "00" * 100)),
    ("the same with 200 bytes of payload", SENDS, pulled(lambda _: "a send 0 settled " + "00" * 200)),
    ("a flow of a link", RECEIVES, pulled(lambda it: f"a grant 0 {2000 + it}")),
    ("a begin", BEGUN, pulled(lambda _: "a begin")),
    (
        "a disposition of one delivery, accepted",
        [*RECEIVES, *times(lambda it: feed(transfer(it), 100))],
        pulled(lambda it: f"a dispose 0 {it} accepted settled"),
    ),
    ("a detach that closes a link", [*BEGUN, *times(send_by)], pulled(lambda it: f"a closelink {it}")),
    ("an attach without source and target", BEGUN, pulled(lambda it: f"a sender 0 lin{it} 0 mixed first")),
]
