"""The frames of one end, as a script of `one` shows them: what tools/judge makes of them."""
import amqp_frames as amqp


def holds(fact, rule):
    if not fact:
        raise AssertionError(rule)


class Frames:
    """Judges what pulls answer by what is fed, in each connection, and has the other judges hear of the frames. What it
    keeps of a session is under the end's own channel: the windows that the peer gave since nothing was left to pull."""

    def __init__(self, *others):
        self.others, self.is_idle = others, False
        self.connect()

    def connect(self):
        self.limit, self.input = 512, b""
        self.own, self.first, self.next, self.windows, self.asked = {}, {}, {}, {}, {}

    def hear(self, _end, words):
        was_idle, self.is_idle = self.is_idle, words == ["pull"]
        holds(words[0] not in ("fault", "refused"), "the frames of the script are without a fault")
        if was_idle:
            self.windows = {own: given[-1:] for own, given in self.windows.items()}
        match words:
            case ["feed", "-"] | ["pull"]:
                pass
            case ["feed", data]:
                frames, self.input = amqp.cut(self.input + bytes.fromhex(data))
                for frame in frames:
                    self.meet(frame, self.fed, "fed")
            case ["pull", data]:
                frames, left = amqp.cut(bytes.fromhex(data))
                holds(len(frames) == 1 and not left, "a pull answers one frame")
                self.meet(frames[0], self.pulled, "pulled")
            case _:
                if words == ["break"]:
                    self.connect()
                for it in self.others:
                    it.hear(words)

    def meet(self, data, own, others):
        """A frame passes, or the protocol header."""
        if data == amqp.HEADER:
            return
        frame = amqp.read_frame(data)
        own(frame)
        for it in self.others:
            getattr(it, others)(frame)

    def fed(self, frame):
        if frame.code == amqp.OPEN:
            self.limit = frame.field(2, 2**32 - 1)
        elif frame.code == amqp.BEGIN and frame.field(0) is None:
            self.asked[frame.channel] = [(None, frame.field(2))]
        elif frame.code == amqp.BEGIN:
            self.own[frame.channel] = frame.field(0)
            self.give(frame.channel, [], None, frame.field(2))
        elif frame.code == amqp.FLOW:
            self.give(frame.channel, self.asked.get(frame.channel, []), frame.field(0), frame.field(1))

    def give(self, channel, asked, base, width):
        """A window is given: in a session that is asked for, it counts from the own Begin on."""
        own = self.own.get(channel)
        given = asked if own is None else self.windows.setdefault(own, [])
        given.append((base if base is not None or own is None else self.first[own], width))

    def pulled(self, frame):
        holds(frame.size <= self.limit, f"a frame has at most {self.limit} bytes, not {frame.size}")
        own = frame.channel
        if frame.code == amqp.BEGIN:
            self.first[own] = self.next[own] = frame.field(1)
            if frame.field(0) is not None:
                self.own[frame.field(0)], self.windows[own] = own, []
                for base, width in self.asked.pop(frame.field(0)):
                    self.give(frame.field(0), [], base, width)
        elif frame.code == amqp.TRANSFER:
            number, given = self.next[own], self.windows[own]
            is_within = any((number - base) % 2**32 < width for base, width in given)
            holds(is_within, f"transfer {number} is one of a window that was given: {given}")
            self.next[own] = (number + 1) % 2**32

    def at_the_end(self):
        for it in self.others:
            it.at_the_end()
        return True
