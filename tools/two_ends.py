"""Works out what two ends know of their links and messages, from the calls of a script and the frames that its moves
carry; and what each frame has an end tell."""
from dataclasses import dataclass, field

import amqp_frames as amqp

OTHER = {"a": "b", "b": "a"}
OTHER_ROLE = {"sender": "receiver", "receiver": "sender"}
# A link that waits for the peer's Attach, is attached, or has sent its own Detach, which closes it or not.
WAITS, ATTACHED, LEAVES, CLOSES, RESTS, CLOSED = range(6)


@dataclass
class Entry:
    """An unsettled delivery at its receiver: the bytes that it has, the number of the message once it is whole, and the
    outcome that was given without settling it. Where it is joined to this attachment it can be disposed of."""

    data: bytes
    number: object = None
    outcome: object = None
    is_joined: bool = False


@dataclass
class Coming:
    """A delivery of which more transfers come. Where its receiver has the message whole, `whole` is that entry."""

    tag: bytes
    data: bytes
    is_settled: bool
    whole: object = None


@dataclass
class Link:
    """A link at one end. `words` are those of its attach call behind the session. A sender keeps its open messages by
    their tags, a receiver its entries, both in order."""

    number: int
    words: list
    session: int
    phase: int = WAITS
    open: dict = field(default_factory=dict)
    entries: dict = field(default_factory=dict)
    coming: object = None

    @property
    def role(self):
        return self.words[0]

    @property
    def name(self):
        return self.words[1]

    def leave(self, phase):
        """Its attachment is over: what came of an unsettled message is kept."""
        it, self.coming = self.coming, None
        if it and not it.is_settled and not it.whole:
            self.entries[it.tag] = Entry(it.data)
        for entry in self.entries.values():
            entry.is_joined = False
        self.phase = CLOSED if CLOSED in (phase, self.phase) or self.phase == CLOSES else phase

    def take(self, frame):
        """A transfer comes. It returns the delivery that ends with it, or None."""
        if frame.field(9):
            gone, self.coming = self.coming or Coming(frame.field(2), b"", False), None
            self.entries.pop(gone.tag, None)
            return None
        if not self.coming:
            self.coming = self.first(frame)
        else:
            self.coming.data += frame.payload
        self.coming.is_settled |= frame.field(4, False)
        if frame.field(5):
            return None
        ended, self.coming = self.coming, None
        return ended

    def first(self, frame):
        """The delivery that begins with a transfer."""
        tag, entry, data = frame.field(2), None, b""
        if frame.field(8):
            entry = self.entries[tag]
            entry.is_joined = True
            at = frame.field(7)
            kept = amqp.bytes_before(entry.data, *at.value) if at else len(entry.data)
            data = entry.data[:kept]
        return Coming(tag, data + frame.payload, False, entry if entry and entry.number is not None else None)


@dataclass
class End:
    """An end: its links by their numbers, and how many sessions and messages it counts. Of this connection: the sessions
    that are over, those whose Begin goes yet, and all by the peer's channels and by its own; what the peer's handles stand
    for, by channel; and the deliveries that were sent and taken, by session and number."""

    links: dict = field(default_factory=dict)
    sessions: int = 0
    messages: int = 0
    is_closed: bool = False
    over: set = field(default_factory=set)
    begun: list = field(default_factory=list)
    coming: dict = field(default_factory=dict)
    going: dict = field(default_factory=dict)
    handles: dict = field(default_factory=dict)
    sent: dict = field(default_factory=dict)
    taken: dict = field(default_factory=dict)

    def count_session(self):
        self.sessions += 1
        return self.sessions - 1

    def named(self, name, role, session=None):
        """Its link of this name and role that isn't at rest or closed."""
        found = [it for it in self.links.values() if (it.name, it.role) == (name, role) and it.phase < RESTS]
        return next((it for it in found if session in (None, it.session)), None)

    def leave_all(self, session=None):
        for link in self.links.values():
            if link.phase < RESTS and session in (None, link.session):
                link.leave(RESTS)

    def break_off(self):
        self.leave_all()
        self.is_closed, self.over, self.begun = False, set(), []
        self.coming, self.going, self.handles, self.sent, self.taken = {}, {}, {}, {}, {}


class TwoEnds:
    """Both ends, as they hear of calls and frames."""

    def __init__(self):
        self.ends = {"a": End(), "b": End()}

    def break_off(self):
        for end in self.ends.values():
            end.break_off()

    def call(self, side, words, answer):
        """A call that isn't refused, with what it answers behind `ok`."""
        end = self.ends[side]
        link = end.links.get(int(words[1])) if len(words) > 1 and words[1].isdecimal() else None
        match words:
            case ["begin"]:
                end.begun.append(end.count_session())
            case ["accept", channel]:
                end.begun.append(int(answer[1]))
            case ["sender" | "receiver" as role, session, *rest]:
                end.links[int(answer[1])] = Link(int(answer[1]), [role, *rest], int(session))
            case ["resume", _, session]:
                link.phase, link.session = WAITS, int(session)
            case ["end", session]:
                end.over.add(int(session))
                end.leave_all(int(session))
            case ["close"]:
                end.is_closed = True
                end.leave_all()
            case _ if link:
                self.call_of_link(link, words, answer)

    def call_of_link(self, link, words, answer):
        match words:
            case ["detach", _]:
                link.leave(LEAVES)
            case ["closelink", _]:
                link.leave(CLOSED if link.phase == RESTS else CLOSES)
                link.open = {}
            case ["send", _, word, payload]:
                if "unsettled" == (word if link.words[3] == "mixed" else link.words[3]):
                    link.open[bytes.fromhex(answer[1])] = b"" if payload == "-" else bytes.fromhex(payload)
            case ["dispose", _, message, outcome, word]:
                tag, entry = next(it for it in link.entries.items() if it[1].number == int(message))
                entry.outcome = outcome
                if word == "settled" or word == "mode" and link.words[2] == "first":
                    del link.entries[tag]

    def frame(self, side, frame):
        """A frame comes to an end. It returns what the end tells: each event but its line and end."""
        end, session = self.ends[side], self.ends[side].coming.get(frame.channel)
        match frame.code:
            case amqp.OPEN:
                return [f"opened {frame.field(2, 2**32 - 1)} {frame.field(3, 65535)}"]
            case amqp.BEGIN:
                return self.begin(side, frame)
            case amqp.CLOSE:
                end.is_closed = True
                end.leave_all()
                return ["closed"]
            case amqp.END:
                end.leave_all(session)
                end.over.add(session)
                return [] if end.is_closed else [f"ended {session}"]
        if frame.code is None or end.is_closed or session in end.over:
            return []
        hears = {amqp.ATTACH: self.attach, amqp.TRANSFER: self.transfer, amqp.DISPOSITION: self.disposition}
        hears[amqp.DETACH] = self.detach
        return hears[frame.code](side, session, frame) if frame.code in hears else []

    def begin(self, side, frame):
        end, other = self.ends[side], self.ends[OTHER[side]]
        other.going[frame.channel] = other.begun.pop(0)
        remote = frame.field(0)
        number = end.count_session() if remote is None else end.going[remote]
        end.coming[frame.channel] = number
        return [f"{'session-asked' if remote is None else 'begun'} {number} {frame.channel}"]

    def attach(self, side, session, frame):
        name, role = frame.field(0), "receiver" if frame.field(2) else "sender"
        self.ends[side].handles[frame.channel, frame.field(1)] = (name, OTHER_ROLE[role])
        link = self.ends[side].named(name, OTHER_ROLE[role], session)
        if not link or link.phase != WAITS:
            return [f"link-asked {session} {role} {name}"]
        return attached(link, frame.field(7, {}))

    def transfer(self, side, session, frame):
        end = self.ends[side]
        link = end.named(*end.handles[frame.channel, frame.field(0)])
        self.number(side, session, link, frame)
        ended = link.take(frame) if link and link.phase == ATTACHED else None
        if not ended or ended.whole:
            return []
        number, end.messages = end.messages, end.messages + 1
        if not ended.is_settled:
            link.entries[ended.tag] = Entry(ended.data, number, is_joined=True)
        word = "settled" if ended.is_settled else "unsettled"
        return [f"message {link.number} {number} {word} {ended.tag.hex()} {ended.data.hex() or '-'}"]

    def number(self, side, session, link, frame):
        """Both ends know the delivery's number by its first transfer."""
        number, tag, other = frame.field(1), frame.field(2), self.ends[OTHER[side]]
        if number is not None:
            self.ends[side].taken[session, number] = (link, tag)
            other.sent[other.going[frame.channel], number] = tag

    def disposition(self, side, session, frame):
        end, events = self.ends[side], []
        state = frame.field(4)
        outcome = amqp.OUTCOMES.get(state.code) if state else None
        for number in range(frame.field(1), frame.field(2, frame.field(1)) + 1):
            if not frame.field(0):
                link, tag = end.taken.get((session, number), (None, None))
                if link and frame.field(3):
                    link.entries.pop(tag, None)
                continue
            tag = end.sent.get((session, number))
            for link in end.links.values():
                if tag in link.open and link.role == "sender" and (outcome or frame.field(3)):
                    del link.open[tag]
                    events.append(f"outcome {link.number} {tag.hex()} {outcome or 'failed'}")
        return events

    def detach(self, side, session, frame):
        end = self.ends[side]
        link, closes = end.named(*end.handles.pop((frame.channel, frame.field(0)))), frame.field(1, False)
        if not link:
            return []
        closes |= link.phase == CLOSES
        events = [f"detached {link.number} {'closed' if closes else 'detached'}"]
        link.leave(CLOSED if closes else RESTS)
        if closes:
            events += [f"outcome {link.number} {tag.hex()} failed" for tag in link.open]
            link.open = {}
        return events


def attached(link, listed):
    """What an end tells as the peer's Attach with this list comes for its link, which waited or answers."""
    link.phase = ATTACHED
    own = link.open if link.role == "sender" else {}
    exchange = "resume" if own or listed else "complete"
    events = [f"attached {link.number} {exchange}"]
    for tag in [it for it in link.open if it in listed]:
        state = listed[tag]
        if state and state.code in amqp.OUTCOMES:
            del link.open[tag]
            events.append(f"outcome {link.number} {tag.hex()} {amqp.OUTCOMES[state.code]}")
    return events
