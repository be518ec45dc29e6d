"""Messages and outcomes between two ends, as a script of `two` shows them: what tools/judge makes of them."""
from dataclasses import dataclass, field

from judged_frames import holds

OTHER = {"a": "b", "b": "a"}


@dataclass(eq=False)
class Attachment:
    """An attachment of two links, with a half at either end. `lasts` are the ends whose half began and isn't over.
    `before` are the tags of messages that were open as its sender attached, and `accepted` the messages since; `sent_on`
    and `handed` are those that its receiver handed out of these. The credit `given` last is none where there is none, or
    it isn't known how much; `need` is no less than the number of messages that it has to do for."""

    sender: object = None
    receiver: object = None
    lasts: set = field(default_factory=set)
    before: set = field(default_factory=set)
    accepted: list = field(default_factory=list)
    sent_on: list = field(default_factory=list)
    handed: list = field(default_factory=list)
    is_complete: bool = True
    took_back: bool = False
    given: object = None
    need: int = 0


@dataclass(eq=False)
class Link:
    """A link at one end. `mode` says how a sender's messages go, or when a receiver settles."""

    end: str
    name: str
    role: str
    mode: str
    session: str = ""
    attachment: object = None
    is_closed: bool = False

    def close(self):
        self.is_closed = True
        self.attachment.lasts.discard(self.end)


@dataclass(eq=False)
class Sent:
    """A message that was sent: its link, how it goes, and its bytes. `kept` is the receiving link that handed it out and
    has not settled it, `handed` the attachment in which it was handed out last, and `outcomes` those that its receivers
    gave, each with its attachment, and whether it settled the message."""

    link: Link
    tag: str
    settled: str
    payload: str
    kept: object = None
    handed: object = None
    outcomes: list = field(default_factory=list)


class Messages:
    """Judges two ends by what it hears of each: the calls that aren't refused, with their answers, and the events."""

    def __init__(self):
        self.links, self.sent, self.open, self.came, self.disposed = {}, {}, {}, {}, set()
        self.idle_sessions, self.moved = set(), set()
        self.connections, self.sessions, self.counts, self.attachments = {"a": 0, "b": 0}, {}, {}, {}

    def hear(self, end, words):
        link = self.links.get((end, words[1])) if len(words) > 1 else None
        match words:
            case ["begin", number]:
                self.sessions[end, number] = self.counted(self.connections[end], end, "begun by", end)
            case ["session-asked", number, _]:
                self.sessions[end, number] = self.counted(self.connections[end], end, "begun by", OTHER[end])
            case ["sender", session, name, _, mode, _, number]:
                self.links[end, number] = Link(end, name, "sender", mode)
                self.attach(self.links[end, number], session)
            case ["receiver", session, name, mode, number]:
                self.links[end, number] = Link(end, name, "receiver", mode)
                self.attach(self.links[end, number], session)
            case ["resume", _, session, _]:
                self.attach(link, session)
            case ["attached", _, exchange]:
                link.attachment.is_complete &= exchange != "incomplete"
            case _:
                self.hear_of_ends(end, words, link)

    def counted(self, connection, end, *of):
        """The n-th of these at an end, as the n-th at the other has it too."""
        at = (connection, end, *of)
        self.counts[at] = self.counts.get(at, 0) + 1
        return (connection, *of, self.counts[at])

    def attach(self, link, session):
        sending = link.end if link.role == "sender" else OTHER[link.end]
        key = self.counted(self.sessions[link.end, session], link.end, link.name, sending)
        it = link.attachment = self.attachments.setdefault(key, Attachment())
        link.session = session
        it.lasts.add(link.end)
        if link.role == "receiver":
            it.receiver = link
        else:
            it.sender, it.before = link, {tag for (at, tag), sent in self.open.items() if sent.link is link}

    def hear_of_ends(self, end, words, link):
        """Of what ends an attachment, a session or the connection."""
        match words:
            case ["detach", _] | ["detached", _, "detached"]:
                link.attachment.lasts.discard(end)
            case ["closelink", _]:
                link.close()
            case ["detached", _, "closed"]:
                is_closed = any(it.is_closed for it in self.links.values() if it.name == link.name)
                holds(is_closed, "a link is closed that an end closed")
                link.close()
            case ["refused", _, number, _]:
                link = self.links.get((end, number))
                holds(link and link.attachment.took_back, "no end finds a fault in the other's frames")
                link.close()
            case ["end" | "ended" | "close" | "closed" | "break", *session]:
                self.connections[end] += words == ["break"]
                for it in self.links.values():
                    if it.end == end and session in ([], [it.session]):
                        it.attachment.lasts.discard(end)
            case ["fault", number]:
                holds(number == "2", "no end that is connected finds a fault in the other's frames")
            case _:
                self.hear_of_messages(end, words, link)

    def hear_of_messages(self, end, words, link):
        match words:
            case ["send", _, word, payload, tag]:
                holds((end, tag) not in self.sent, "a tag is given once")
                self.accept(Sent(link, tag, word if link.mode == "mixed" else link.mode, payload.lower()))
            case ["message", _, number, settled, tag, payload]:
                holds(int(number) == sum(it[0] == end for it in self.came), "messages are numbered from 0 on")
                sent = self.came[end, number] = self.sent[OTHER[end], tag]
                holds((settled, payload) == (sent.settled, sent.payload), "a message is handed out as it was sent")
                self.hand_out(link, sent)
            case ["dispose", _, number, outcome, word]:
                holds((end, number) not in self.disposed, "a message is disposed of once")
                self.disposed.add((end, number))
                sent, settles = self.came[end, number], word == "settled" or word == "mode" and link.mode == "first"
                sent.outcomes.append((outcome, link.attachment, settles))
                sent.kept = None if settles else sent.kept
                self.moved = set()
            case ["outcome", _, tag, outcome]:
                sent = self.open.pop((end, tag), None)
                holds(sent and sent.link is link, "an outcome is told once, of an unsettled message of its link")
                is_right = link.is_closed if outcome == "failed" else outcome in (it[0] for it in sent.outcomes)
                holds(is_right, "the receiver gave the outcome, or the link is closed")
            case _:
                self.hear_of_credit(end, words, link)

    def hear_of_credit(self, end, words, link):
        match words:
            case ["grant", _, credit, left]:
                it = link.attachment
                is_open = [sent for sent in self.open.values() if sent.link is it.sender]
                it.took_back |= int(credit) < int(left)
                it.given, it.need = int(credit), len(is_open) + len(it.accepted) - len(it.handed)
            case ["drain", _]:
                link.attachment.given = None
            case ["waiting", session, *turn]:
                self.idle_sessions |= {(end, session)} if turn == ["-"] else set()
                self.moved = set()
            case ["move", "all"]:
                self.moved |= {end}

    def accept(self, sent):
        """A message is sent."""
        self.sent[sent.link.end, sent.tag] = sent
        if sent.settled == "unsettled":
            self.open[sent.link.end, sent.tag] = sent
        sent.link.attachment.accepted.append(sent)
        sent.link.attachment.need += 1
        self.idle_sessions = set()

    def hand_out(self, link, sent):
        """A message is handed out by a receiving link."""
        it = link.attachment
        holds(link.role == "receiver" and it.sender is sent.link, "a message comes by the link that it was sent by")
        holds(not sent.kept or sent.kept.is_closed, "a message is handed out once, while its receiver has it")
        if sent in it.accepted:
            it.handed.append(sent)
            holds(it.handed == it.accepted[: len(it.handed)], "messages come in order")
            holds(not sent.handed, "a message is handed out once in an attachment")
        else:
            it.sent_on.append(sent)
            holds(sent.tag in it.before, "what is sent on was open as its link attached")
            holds(not it.handed, "what is sent on comes before what was accepted since")
            holds(sent.handed is not it, "a message is handed out once in an attachment")
        sent.handed, sent.kept = it, link if sent.settled == "unsettled" else None

    def at_the_end(self):
        """Whether both streams were read out. Where they weren't, it isn't judged what they lack."""
        holds(not any(it.link.is_closed for it in self.open.values()), "the open messages of a closed link fail")
        last = [it for it in self.attachments.values() if it.lasts == {"a", "b"}]
        is_idle = all((it.sender.end, it.sender.session) in self.idle_sessions for it in last)
        if self.moved != {"a", "b"} or not is_idle:
            return False
        for it in last:
            name = it.sender.name
            holds(it.handed == it.accepted, f"read out, all is handed out that {name} accepted since it attached")
            for sent in (sent for sent in self.open.values() if sent.link is it.sender):
                is_given = any(at is it or not settles and it.is_complete for _, at, settles in sent.outcomes)
                holds(not is_given, f"read out, each outcome that was given is told: {sent.tag}")
                is_due = it.is_complete and it.given is not None and it.need <= it.given
                is_there = sent.kept is it.receiver or sent.handed is it
                holds(is_there or not is_due, f"read out, all is handed out that {name} had open: {sent.tag}")
        return True
