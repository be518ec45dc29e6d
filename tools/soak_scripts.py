"""Random scripts for amqp_scenario, of two ends and of one. docs/SCENARIOS.md says what is in them."""
import random
from dataclasses import dataclass, field
from enum import Enum, auto

OTHER = {"a": "b", "b": "a"}
CHANNELS = range(256)
LIMITS = (512, 513, 777, 1024, 4096)
WINDOWS = (1, 2, 3, 7, 50, 2048)
FIRST_NUMBERS = (0, 1, 2**31 - 2, 2**32 - 3)
FIRST_COUNTS = (0, 3, 2**31 - 2, 2**32 - 2)
SENDER_MODES = ("unsettled", "settled", "mixed", "mixed")
RECEIVER_MODES = ("first", "first", "second")
OUTCOMES = ("accepted", "rejected", "released", "modified")
SETTLINGS = ("settled", "unsettled", "mode")

OPEN, BEGIN, ATTACH, FLOW, SOURCE, TARGET = 0x10, 0x11, 0x12, 0x13, 0x28, 0x29
FRAME_LIMITS = (512, 513, 777, 1024)
GIVEN_WINDOWS = (0, 1, 2, 3, 7)
PULLS = ["a pull"] * 50


class Phase(Enum):
    """How far a link is, at both ends. One at rest can attach again, and the name of a closed one is free."""

    LIVE = auto()
    RESTING = auto()
    CLOSED = auto()


@dataclass
class Session:
    """A session, with its number and its channel, which are the same at both ends."""

    number: int
    channel: int
    is_open: bool = True


@dataclass
class Link:
    """A link, whose number is the same at both ends. `credit` is what its sender was told that it may still send, and
    `granted` the most that is left at its receiver. `broken` are messages that go on once it has credit again."""

    number: int
    name: int
    session: Session
    sender: str
    mode: str
    phase: Phase = Phase.LIVE
    credit: int = 0
    granted: int = 0
    is_untold: bool = False
    broken: list = field(default_factory=list)

    @property
    def receiver(self):
        return OTHER[self.sender]

    def attach_again(self, session):
        """It lives again, in this session, and begins without credit."""
        self.phase, self.session, self.credit, self.granted, self.is_untold = Phase.LIVE, session, 0, 0, False

    def tell(self):
        """Its sender hears of the credit that was granted last."""
        if self.is_untold:
            self.credit, self.is_untold = self.granted, False

    def settling(self, word):
        """How a message goes that is sent with this word."""
        return word if self.mode == "mixed" else self.mode


@dataclass
class Message:
    """A message by a link, and whether its receiver can dispose of it."""

    link: Link
    is_open: bool


@dataclass
class End:
    """What an end takes, and the messages to it: those that came, by their numbers, and those on their way. At most
    `pending` of the transfers that were sent to it haven't come."""

    limit: int
    window: int
    came: list = field(default_factory=list)
    coming: list = field(default_factory=list)
    pending: int = 0

    def expect(self, message, size):
        self.coming.append(message)
        self.pending += size // 400 + 2

    def receive(self):
        self.came += self.coming
        self.coming = []

    def break_off(self):
        """What was on its way is lost; an open message of it goes on when its link does."""
        for message in self.coming:
            message.link.broken += [message] if message.is_open else []
        self.coming, self.pending = [], 0

    def drop(self, link):
        self.coming = [it for it in self.coming if it.link is not link]

    def rounds(self):
        """How often all is moved until nothing waits for the window any more."""
        return self.pending // max(self.window // 2, 1)


class TwoEnds:
    """A script of two ends as it grows. Where they stand is a guess: a step that is refused against it makes later ones
    miss."""

    def __init__(self, dice):
        self.dice, self.lines = dice, ["two"]
        self.sessions, self.links, self.free_channels = [], [], []
        self.ends = {side: End(dice.choice(LIMITS), dice.choice(WINDOWS)) for side in OTHER}
        for side, end in self.ends.items():
            first = dice.choice(FIRST_NUMBERS)
            self.lines.append(f"settings {side} {side} {end.limit} {CHANNELS[-1]} {end.window} {first}")

    def turn(self):
        live = sum(it.phase is Phase.LIVE for it in self.links)
        if live < 2 and self.one_in(2):
            return self.attach()
        self.weighted({
            self.talk: 120, self.carry: 50, self.attach: 8, self.leave: 8, self.resume: 8, self.begin: 4, self.end: 2,
            self.connect_anew: 1, self.break_within: 2, self.stray: 5, self.heartbeat: 2,
        })()

    # Choices and lines.

    def one_in(self, count):
        return self.dice.randrange(count) == 0

    def side(self):
        return self.dice.choice("ab")

    def weighted(self, weights):
        return self.dice.choices([*weights], weights.values())[0]

    def any_of(self, values):
        return self.dice.choice(values) if values else None

    def any_session(self):
        return self.any_of([it for it in self.sessions if it.is_open])

    def any_link(self, phase):
        return self.any_of([it for it in self.links if it.phase is phase])

    def say(self, side, call):
        self.lines.append(f"{side} {call}")

    # The bytes on their way.

    def move_all(self, side):
        self.lines.append(f"move {side} all")
        for link in self.links:
            if link.receiver == side:
                link.tell()
        self.ends[OTHER[side]].receive()

    def carry(self):
        side, some = self.side(), self.dice.choice((9, 60, 700))
        if not self.one_in(3):
            return self.move_all(side)
        self.lines.append(f"move {side} {self.dice.randrange(some)}")

    def move_both(self, count):
        for _ in range(count):
            self.move_all("a")
            self.move_all("b")

    def settle(self):
        """All is moved until nothing waits for its window any more."""
        self.move_both(max(it.rounds() for it in self.ends.values()) + 3)
        for end in self.ends.values():
            end.pending = 0
        for link in self.links:
            link.granted = link.credit

    def read_out(self):
        """All is moved, which transfers wait is asked, and all is moved again."""
        self.settle()
        self.move_both(2)
        for session in self.sessions:
            if session.is_open:
                self.say_waiting("a", session)
                self.say_waiting("b", session)
        self.move_both(2)

    def say_waiting(self, side, session):
        self.say(side, f"waiting {session.number}")

    # The connection and its sessions.

    def connect(self):
        """The connection opens at both ends, and a session begins."""
        self.free_channels = [*reversed(CHANNELS)]
        self.say("a", "connect")
        self.say("b", "connect")
        self.move_both(2)
        self.begin()

    def connect_anew(self):
        """The connection is closed or breaks, and both ends connect again."""
        if self.one_in(2):
            self.close()
        self.break_off()
        self.connect()

    def break_off(self):
        self.lines.append("break")
        for end in self.ends.values():
            end.break_off()
        for session in self.sessions:
            self.rest(session)

    def break_within(self):
        """The connection breaks while messages of a link are on their way, mostly within one; on the next one most links
        attach again, and get credit."""
        link = self.any_link(Phase.LIVE)
        if not link:
            return self.attach()
        self.grant(link)
        self.move_all(link.receiver)
        for _ in range(1 + self.dice.randrange(3)):
            self.send(link)
        self.lines.append(f"move {link.sender} {self.dice.randrange(1, self.dice.choice((30, 600, 2000)))}")
        self.break_off()
        self.connect()
        for link in [it for it in self.links if it.phase is Phase.RESTING and not self.one_in(4)]:
            link.attach_again(self.sessions[-1])
            self.meet(self.say_resume, link)
            self.grant(link)

    def close(self):
        """One end closes, and the other at once too or as it hears of it."""
        side = self.side()
        self.say(side, "close")
        self.talk()
        if self.one_in(4):
            self.say(OTHER[side], "close")
        self.move_both(1)

    def heartbeat(self):
        self.say(self.side(), "heartbeat")

    def begin(self):
        """A session begins at one end, and is accepted at the other."""
        side, session = self.side(), Session(len(self.sessions), self.free_channels.pop())
        self.say(side, "begin")
        self.move_all(side)
        self.say(OTHER[side], f"accept {session.channel}")
        self.move_all(OTHER[side])
        self.sessions.append(session)

    def end(self):
        """A session ends, at one end first or at both at once."""
        session = self.any_session()
        if not session:
            return self.begin()
        side = self.side()
        self.rest(session)
        self.say_end(side, session)
        if self.one_in(3):
            self.say_end(OTHER[side], session)
        self.talk()
        self.move_both(2)
        self.free_channels.append(session.channel)

    def say_end(self, side, session):
        for link in self.links:
            if link.session is session:
                self.ends[side].drop(link)
        self.say(side, f"end {session.number}")

    def rest(self, session):
        """The session is over, and its links are at rest."""
        session.is_open = False
        for link in self.links:
            if link.session is session and link.phase is Phase.LIVE:
                link.phase = Phase.RESTING

    # Links: they attach, and are detached, closed and forgotten.

    def attach(self):
        """A link attaches, at one end first or at both at once."""
        session = self.any_session()
        if not session:
            return self.begin()
        link = Link(len(self.links), self.free_name(), session, self.side(), self.dice.choice(SENDER_MODES))
        self.meet(self.say_attach, link)
        self.links.append(link)

    def meet(self, say, link):
        """Both ends have the link attach, so."""
        first = self.side()
        say(first, link)
        if not self.one_in(3):
            self.move_all(first)
        say(OTHER[first], link)
        self.move_all(first)
        self.move_all(OTHER[first])

    def resume(self):
        """A link that is at rest attaches again, in whichever session, as a new one does."""
        link, session = self.any_link(Phase.RESTING), self.any_session()
        if not link or not session:
            return self.carry()
        link.attach_again(session)
        self.meet(self.say_resume, link)

    def say_resume(self, side, link):
        self.say(side, f"resume {link.number} {link.session.number}")

    def free_name(self):
        """The name of a closed link that no other has, or a new one."""
        known = len({it.name for it in self.links})
        name = self.dice.randrange(max(known, 1))
        is_taken = any(it.name == name and it.phase is not Phase.CLOSED for it in self.links)
        return known if is_taken else name

    def say_attach(self, side, link):
        when = self.dice.choice(RECEIVER_MODES)
        if side == link.receiver:
            return self.say(side, f"receiver {link.session.number} link{link.name} {when}")
        count = self.dice.choice(FIRST_COUNTS)
        self.say(side, f"sender {link.session.number} link{link.name} {count} {link.mode} {when}")

    def leave(self):
        """A link is detached or closed, at one end first or at both at once; or one at rest is forgotten."""
        if self.one_in(2):
            return self.forget()
        link = self.any_link(Phase.LIVE)
        if not link:
            return self.attach()
        if self.one_in(2):
            self.settle()
        side, link.phase = self.side(), Phase.RESTING
        words = [self.say_leave(side, link)]
        self.talk()
        if self.one_in(3):
            words.append(self.say_leave(OTHER[side], link))
        self.move_both(2)
        if "closelink" in words:
            link.phase = Phase.CLOSED

    def say_leave(self, side, link):
        word = self.dice.choice(("detach", "closelink"))
        self.ends[side].drop(link)
        self.say(side, f"{word} {link.number}")
        return word

    def forget(self):
        link = self.any_link(Phase.RESTING)
        if link:
            self.say("a", f"closelink {link.number}")
            self.say("b", f"closelink {link.number}")
            link.phase = Phase.CLOSED

    # Messages: credit is given, they are sent, and disposed of.

    def talk(self):
        link = self.any_link(Phase.LIVE)
        if not link:
            return self.carry()
        self.weighted({self.send: 9, self.dispose: 7, self.grant: 2, self.drain: 1, self.ask_waiting: 1})(link)

    def send(self, link):
        """Sends a message; or where there is no credit mostly gives some, or has the sender hear of it."""
        if not link.credit and not self.one_in(6):
            return self.move_all(link.receiver) if link.is_untold else self.grant(link)
        end, word = self.ends[link.receiver], "settled" if self.one_in(3) else "unsettled"
        size = self.size_to(end)
        self.say_send(link, word, size)
        if link.credit:
            link.credit -= 1
            end.expect(Message(link, link.settling(word) == "unsettled"), size)

    def size_to(self, end):
        """The size of a message: none, little, about a frame of the end, or up to several frames."""
        sizes = {range(1): 1, range(40): 6, range(end.limit - 70, end.limit + 10): 2, range(2500): 1}
        return self.dice.choice(self.weighted(sizes))

    def say_send(self, link, word, size):
        self.say(link.sender, f"send {link.number} {word} {self.dice.randbytes(size).hex() or '-'}")

    def grant(self, link):
        """Gives credit, seldom less than was left."""
        is_less, more = self.one_in(30), self.dice.randrange(8)
        link.granted = more if is_less else min(link.granted + more, 1000)
        link.is_untold = True
        self.say(link.receiver, f"grant {link.number} {link.granted}")
        self.go_on(link)

    def go_on(self, link):
        """What its sender has open goes on, and takes credit first."""
        going, link.broken = link.broken[: link.granted], link.broken[link.granted :]
        for message in going:
            self.ends[link.receiver].expect(message, 0)
        link.granted -= len(going)

    def drain(self, link):
        link.tell()
        link.credit = 0
        self.say(link.receiver, f"drain {link.number}")

    def ask_waiting(self, link):
        self.say_waiting(link.sender, link.session)

    def dispose(self, link):
        """Disposes of an open message that came by the link, or now and then of any."""
        came, is_any = self.ends[link.receiver].came, self.one_in(20)
        number = self.any_of([at for at, it in enumerate(came) if is_any or (it.link is link and it.is_open)])
        if number is None:
            return self.carry()
        outcome, settling = self.dice.choice(OUTCOMES), self.dice.choice(SETTLINGS)
        self.say(link.receiver, f"dispose {link.number} {number} {outcome} {settling}")
        came[number].is_open = False

    # Calls that are mostly refused: of a link whatever its phase, by an end whatever its role.

    def stray(self):
        link = self.any_link(self.dice.choice([*Phase]))
        if link:
            self.dice.choice((self.attach_again, self.send_astray, self.dispose_astray))(link)

    def attach_again(self, link):
        self.say_attach(self.side(), link)

    def send_astray(self, link):
        """Sends by a link that doesn't live, or has the sender of one that lives drain it."""
        if link.phase is Phase.LIVE:
            return self.say(link.sender, f"drain {link.number}")
        self.say_send(link, "unsettled", 5)

    def dispose_astray(self, link):
        self.say(self.side(), f"dispose {link.number} {self.dice.randrange(20)} accepted mode")


def two_ends_script(seed, steps):
    """A script in which the connection opens, so many random steps are made or some more, and all is read out."""
    script = TwoEnds(random.Random(seed))
    script.connect()
    last = len(script.lines) + steps
    while len(script.lines) < last:
        script.turn()
    script.read_out()
    return "\n".join([f"# Seed {seed}, {steps} steps.", *script.lines, ""])


def written(item):
    """A number, a name, or what is written already."""
    if isinstance(item, int):
        return b"\x70" + item.to_bytes(4, "big")
    return b"\xa1" + bytes([len(item)]) + item.encode() if isinstance(item, str) else item


def described(code, *fields):
    body = b"".join(written(it) for it in fields)
    sizes = (len(body) + 4).to_bytes(4, "big") + len(fields).to_bytes(4, "big")
    return bytes([0, 0x53, code, 0xD0]) + sizes + body


def fed(channel, code, *fields):
    """The lines that pull all and then feed a frame. The peer's channel is that of the endpoint plus five."""
    body = described(code, *fields)
    frame = (len(body) + 8).to_bytes(4, "big") + bytes([2, 0, 0, channel + 5]) + body
    return [*PULLS, f"a feed {frame.hex()}"]


def frames_script(seed, steps):
    """A script of one end that sends by two links. The windows are near the next transfer, and at times for all."""
    dice, null, true = random.Random(seed), b"\x40", b"\x41"
    limit, first = dice.choice(FRAME_LIMITS), dice.choice(FIRST_NUMBERS)
    lines = ["one", f"settings a a 4096 255 2048 {first}", "a connect", "a pull", "a pull", "a feed 414d515000010000"]
    lines += fed(0, OPEN, "b", null, limit)
    for channel in (0, 1):
        lines += ["a begin", *fed(channel, BEGIN, bytes([0x60, 0, channel]), 0, dice.choice(GIVEN_WINDOWS), 2048)]
        ends = [described(SOURCE), described(TARGET)]
        lines += [f"a sender {channel} link{channel} 0 mixed first"]
        lines += fed(channel, ATTACH, f"link{channel}", 0, true, null, null, *ends)
        lines += fed(channel, FLOW, null, dice.choice(GIVEN_WINDOWS), 0, 2048, 0, 0, 1000000)
    count, frames = [0, 0], {0: 1, 30: 1, limit - 100: 1, 2 * limit: 3}
    for step in range(steps):
        channel, width = dice.randrange(2), dice.choice(GIVEN_WINDOWS)
        if step % 8 == 7:
            channel = step // 8 % 2
            lines += fed(channel, FLOW, null, count[channel], 0, 2048)
        elif dice.randrange(2):
            size, settled = dice.choice(list(frames)), dice.choice(("settled", "unsettled"))
            count[channel] += frames[size]
            lines += [f"a send {channel} {settled} {dice.randbytes(size).hex() or '-'}"]
        else:
            near = (first + count[channel] - dice.randrange(8)) % 2**32
            lines += fed(channel, FLOW, near, width, 0, 2048)
    return "\n".join([*lines, *PULLS, ""])
