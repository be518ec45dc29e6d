"""Where messages begin and go on, as a script of `one` shows it: what tools/judge makes of that."""
import amqp_frames as amqp
from judged_frames import holds
from two_ends import ATTACHED, CLOSED, CLOSES, LEAVES, OTHER_ROLE, RESTS, WAITS, Entry, Link


class Resumption:
    """Judges the Attach frames and the transfers of an end by its calls, and by what it was fed. Of this connection it
    keeps the attachments that begin, each with what its link has unsettled then; the own links, and the names of the
    peer's, by channels and handles; what the peer's latest Attach of a name lists; the deliveries that came, by their
    numbers; what goes on each handle; and what is to be told of messages."""

    def __init__(self):
        self.links, self.sent, self.messages = {}, {}, 0
        self.connect()

    def connect(self):
        self.begins, self.own, self.peers, self.listed, self.taken, self.going, self.due = [], {}, {}, {}, {}, {}, []

    def hear(self, words):
        link = self.links.get(words[1]) if len(words) > 1 else None
        match words:
            case ["sender" | "receiver" as role, session, *rest, number]:
                self.links[number] = Link(int(number), [role, *rest], int(session))
                self.begin(self.links[number])
            case ["resume", _, session, _]:
                link.phase, link.session = WAITS, int(session)
                self.begin(link)
            case ["attached", _, _]:
                link.phase = ATTACHED
            case ["detach", _]:
                link.leave(LEAVES)
            case ["closelink", _]:
                link.leave(CLOSED if link.phase == RESTS else CLOSES)
            case ["detached", _, word]:
                link.leave(CLOSED if word == "closed" else RESTS)
            case ["end" | "ended" | "close" | "closed" | "break", *session]:
                for it in self.links.values():
                    if it.phase < RESTS and session in ([], [str(it.session)]):
                        it.leave(RESTS)
                if words == ["break"]:
                    self.connect()
            case _ if link:
                self.hear_of_messages(link, words)

    def hear_of_messages(self, link, words):
        match words:
            case ["send", _, word, payload, tag]:
                payload = b"" if payload == "-" else bytes.fromhex(payload)
                self.sent[bytes.fromhex(tag)] = payload
                if "unsettled" == (word if link.words[3] == "mixed" else link.words[3]):
                    link.open[bytes.fromhex(tag)] = payload
            case ["outcome", _, tag, _]:
                del link.open[bytes.fromhex(tag)]
            case ["message", _, number, *said]:
                holds(self.due, "a message is told where its last transfer came")
                wanted, entry = self.due.pop(0)
                holds([words[1], *said] == wanted, "a message has all bytes that its transfers brought")
                entry.number, self.messages = int(number), self.messages + 1
            case ["dispose", _, number, outcome, word]:
                tag = next((tag for tag, it in link.entries.items() if it.number == int(number)), None)
                holds(tag is not None, "a message is disposed of that came, and that its receiver hasn't settled")
                link.entries[tag].outcome = outcome
                if word == "settled" or word == "mode" and link.words[2] == "first":
                    del link.entries[tag]

    def begin(self, link):
        """An attachment begins: its Attach lists what stands now."""
        had = [(tag, None) for tag in link.open]
        self.begins.append((link, had or [(tag, stands(it)) for tag, it in link.entries.items()]))

    def at_the_end(self):
        holds(not self.due, "a message is told where its last transfer came")

    # What goes.

    def pulled(self, frame):
        at = (frame.channel, frame.field(1 if frame.code == amqp.ATTACH else 0))
        if frame.code == amqp.ATTACH:
            self.attach(at, frame)
        elif frame.code == amqp.TRANSFER:
            self.send(at, frame)
        elif frame.code == amqp.END:
            self.own = {it: link for it, link in self.own.items() if it[0] != frame.channel}

    def attach(self, at, frame):
        link, had = self.begins.pop(0)
        is_own = (link.name, link.role) == (frame.field(0), "receiver" if frame.field(2) else "sender")
        holds(is_own, "each link attaches, in the order of the calls")
        self.own[at] = link
        lists = frame.field(7, {})
        holds([*lists] == [tag for tag, _ in had][: len(lists)], "an Attach lists what is unsettled, in order")
        halves = {len(had) >> it for it in range(1 + len(had).bit_length())}
        is_part = len(lists) < len(had)
        holds(len(lists) in halves and frame.field(8, False) == is_part, "an Attach lists all, or half of it and so on")
        for tag, state in had[: len(lists)]:
            holds(lists[tag] == state, f"an Attach lists where {tag.hex()} stands")

    def send(self, at, frame):
        """A transfer goes: the payload goes on where it was, and begins where the peer's Attach says that it stands."""
        link, going = self.own[at], self.going.get(at)
        if not going:
            going = self.going[at] = self.first(link, frame)
        tag, at_byte = going
        if frame.field(9):
            del self.going[at]
            return
        payload, end = self.sent[tag], at_byte + len(frame.payload)
        holds(payload[at_byte:end] == frame.payload, f"the bytes of {tag.hex()} follow each other")
        holds(frame.field(5, False) or end == len(payload), f"all bytes of {tag.hex()} go")
        self.going[at] = (tag, end)
        if not frame.field(5):
            del self.going[at]

    def first(self, link, frame):
        """The tag of a message whose first transfer goes, and the byte that it begins at."""
        tag, lists = frame.field(2), self.listed.get(link.name, {})
        is_resumed = frame.field(8, False)
        holds(is_resumed == (tag in lists), f"{tag.hex()} resumes where the peer's Attach lists it, and only there")
        if frame.field(9):
            holds(tag in lists and tag not in link.open, "what is given up is what the peer alone lists")
            return tag, 0
        if tag not in lists:
            return tag, 0
        number, offset = lists[tag].value if lists[tag] else (0, 0)
        found = amqp.bytes_before(self.sent[tag], number, offset)
        place = [number, offset] if found is not None else [0, 0]
        holds(frame.field(7).value == place, f"{tag.hex()} goes on from the place where it stands")
        return tag, found or 0

    # What comes.

    def fed(self, frame):
        at = (frame.channel, frame.field(1 if frame.code == amqp.ATTACH else 0))
        if frame.code == amqp.ATTACH:
            name, role = frame.field(0), "receiver" if frame.field(2) else "sender"
            self.peers[at], self.listed[name] = (name, OTHER_ROLE[role]), frame.field(7, {})
            link = self.named(*self.peers[at])
            if link and link.phase == WAITS:
                link.phase = ATTACHED
        elif frame.code == amqp.TRANSFER:
            self.take(at, frame)
        elif frame.code == amqp.DISPOSITION and not frame.field(0) and frame.field(3):
            for number in range(frame.field(1), frame.field(2, frame.field(1)) + 1):
                link, tag = self.taken.get((frame.channel, number), (None, None))
                if link:
                    link.entries.pop(tag, None)
        elif frame.code == amqp.DETACH and at in self.peers:
            link = self.named(*self.peers.pop(at))
            if link:
                link.leave(link.phase if link.phase == CLOSES else RESTS)

    def named(self, name, role):
        found = [it for it in self.links.values() if (it.name, it.role) == (name, role) and it.phase < RESTS]
        return found[-1] if found else None

    def take(self, at, frame):
        """A transfer comes; where a message is whole by it that its receiver hasn't, that is to be told."""
        link = self.named(*self.peers[at])
        if not link or link.phase != ATTACHED:
            return
        if frame.field(1) is not None:
            self.taken[frame.channel, frame.field(1)] = (link, frame.field(2))
        ended = link.take(frame)
        if ended and not ended.whole:
            word = "settled" if ended.is_settled else "unsettled"
            entry = Entry(ended.data)
            if not ended.is_settled:
                link.entries[ended.tag] = entry
            text = [str(link.number), word, ended.tag.hex(), ended.data.hex() or "-"]
            self.due.append((text, entry))


def stands(entry):
    """The state that a receiver lists of a delivery: its outcome, or the place behind the bytes that it has."""
    codes = {word: code for code, word in amqp.OUTCOMES.items()}
    if entry.outcome:
        return amqp.Described(codes[entry.outcome], [])
    return amqp.Described(amqp.RECEIVED, [*amqp.place(entry.data)])
