#!/usr/bin/env python3
"""Scripts of two ends whose connection breaks behind each byte of either direction, and what they print. They are
written from those scripts of the project's table in which two ends send messages. break_scripts PROGRAM EACH prints one
of so many of them as a row; PROGRAM is amqp_scenario, and is built, unproved, where it isn't there.

What a script prints up to the break is what the row says; what it prints behind that is worked out by the rules, from
the calls and frames up to the break (tools/two_ends.py). No run of the script goes into it. Behind the break both ends
connect, a session begins, and each link attaches again that one of them has: by `resume`, or anew at an end that has
none. The receivers grant 10, all is moved, each message is accepted that its receiver has whole, and all is read out.
A script with two breaks is such a one, with another break behind its own.
"""
import copy
import os
import re
import sys
from dataclasses import dataclass, field
from functools import partial

import amqp_frames as amqp
from build_unproved import TOP, build
from two_ends import ATTACHED, CLOSED, OTHER, Entry, Link, TwoEnds, attached
from wire import answers, wires

CREDIT = 10
# How the comment begins behind which a table has rows that are written here.
WRITTEN = "\n# A break behind a byte of either direction"
# Where nothing stands of an open message, one of so many second breaks is tried.
SOME = 7
# Transfers that are within any window that is wider.
FEW = 50
# The bytes of a first transfer but its handle: descriptor and sizes, number, tag, format, settled and more. One that
# resumes has besides, but for the place, a null, the state's descriptor and sizes, and resume.
FIRST = 6 + 5 + 10 + 1 + 1 + 1
PLACED = 1 + 6 + 1


@dataclass
class Script:
    """A script of two ends, the lines that it prints, and what its moves carried."""

    lines: list
    printed: list
    moved: list = field(default_factory=list)

    def told(self, number):
        """What is printed of a line, without its number."""
        return [it.partition(" ")[2] for it in self.printed if it.startswith(f"{number} ")]

    def settings(self, side):
        """The longest frame, channel-max and window of an end."""
        found = re.findall(rf"^settings {side} \S+ (\d+) (\d+) (\d+) ", "\n".join(self.lines), re.M)
        return [int(it) for it in found[0]] if found else [262144, 255, 2048]

    def attaching(self, side, name, role):
        """The words behind the session of the call that attaches such a link, as the script has them somewhere."""
        found = [it.split(" ") for it in self.lines if re.match(rf"{side} {role} \d+ {re.escape(name)} ", it)]
        return found[0][3:] if found else [name, *(["0", "mixed", "first"] if role == "sender" else ["first"])]


@dataclass
class Going:
    """What goes in one direction of a new connection: what the receiver tells by each transfer, how many the sender knows
    that it may send, how many went, and how many had come as the receiver's latest Flow left."""

    window: int
    transfers: list = field(default_factory=list)
    allowed: int = 0
    sent: int = 0
    told: int = 0

    def hear_flows(self):
        """The sender hears of the window, as the receiver told it last."""
        self.allowed = self.told + self.window

    def move(self):
        """What is allowed goes and comes. It returns what is told of it."""
        start, self.sent = self.sent, max(self.sent, min(len(self.transfers), self.allowed))
        for taken in range(start + 1, self.sent + 1):
            if 2 * (taken - self.told) >= self.window:
                self.told = taken
        return [it for it in self.transfers[start : self.sent] if it]

    def is_out(self):
        return self.sent == len(self.transfers)


class Anew:
    """What follows a break: lines, and what they print. It goes on behind lines of a script, with the ends as they are
    then. Where links take turns it isn't worked out what is told when, and `is_known` is false."""

    def __init__(self, script, ends, lines, printed, is_sender_first):
        self.script, self.lines, self.printed = script, [*lines], [*printed]
        self.is_sender_first, self.is_known = is_sender_first, True
        self.say("break", "ok")
        self.broken = len(self.lines)
        ends.break_off()
        self.ends, self.pairs = ends.ends, []
        links = [it for end in ends.ends.values() for it in end.links.values() if it.phase != CLOSED]
        self.is_open = any(it.open for it in links)
        self.stands = [len(entry.data) for it in links for entry in it.entries.values() if entry.number is None]
        self.going = {side: Going(script.settings(OTHER[side])[2]) for side in OTHER}

    def say(self, line, *told):
        self.lines.append(line)
        self.printed += [f"{len(self.lines)} {it}" for it in told]

    def call(self, side, call, answer, *events):
        self.say(f"{side} {call}", *(f"{side} {it}" for it in (f"ok {answer}".rstrip(), *events)))

    def move(self, side, *events):
        other = OTHER[side]
        self.say(f"move {side} all", f"{other} ok", *(f"{other} {it}" for it in events))

    def write(self):
        self.connect()
        for name, sending in self.names():
            self.meet(name, sending)
        for sending, _, receiver in self.pairs:
            self.call(OTHER[sending], f"grant {receiver.number} {CREDIT}", "left 0")
        self.move_out()
        self.accept_all()
        for side, end in self.ends.items():
            self.call(side, f"waiting {end.sessions - 1}", "turn -")
        self.move("a")
        self.move("b")
        return self

    def connect(self):
        """Both connect, and a session begins at a."""
        self.call("a", "connect", "")
        self.call("b", "connect", "")
        opened = {side: "opened {} {}".format(*self.script.settings(OTHER[side])) for side in OTHER}
        self.move("a")
        self.move("b", opened["a"])
        self.move("a", opened["b"])
        numbers = {side: end.count_session() for side, end in self.ends.items()}
        self.call("a", "begin", f"session {numbers['a']}")
        self.move("a", f"session-asked {numbers['b']} 0")
        self.call("b", "accept 0", f"session {numbers['b']}")
        self.move("b", f"begun {numbers['a']} 0")

    def names(self):
        """The names of links that an end has, with the end that sends."""
        found = {}
        for side, end in self.ends.items():
            for link in (it for it in end.links.values() if it.phase != CLOSED):
                sending = side if link.role == "sender" else OTHER[side]
                self.is_known &= found.setdefault(link.name, sending) == sending
        return found.items()

    def half(self, side, name, role):
        """The link of an end, and the call by which it attaches."""
        end, session = self.ends[side], self.ends[side].sessions - 1
        for link in end.links.values():
            if (link.name, link.role) == (name, role) and link.phase != CLOSED:
                link.session = session
                return side, link, f"resume {link.number} {session}"
        words = self.script.attaching(side, name, role)
        link = end.links[len(end.links)] = Link(len(end.links), [role, *words], session)
        return side, link, f"{role} {session} {' '.join(words)}"

    def meet(self, name, sending):
        """Both ends have the link attach. What each lists is what it has before."""
        sender, receiver = self.half(sending, name, "sender"), self.half(OTHER[sending], name, "receiver")
        known = [*sender[1].open]
        lists = {"sender": listed(receiver[1]), "receiver": {it: None for it in known}}
        first, second = (sender, receiver) if self.is_sender_first else (receiver, sender)
        side, link, call = first
        self.call(side, call, f"link {link.number}")
        self.move(side, f"link-asked {second[1].session} {link.role} {name}")
        side, link, call = second
        self.call(side, call, f"link {link.number}", *attached(link, lists[link.role]))
        self.move(side, *attached(first[1], lists[first[1].role]))
        self.going[sending].transfers += self.given_up(sending, receiver[1], known)
        self.going[sending].transfers += self.sent_on(sending, sender[1], receiver[1])
        self.pairs.append((sending, sender[1], receiver[1]))

    def given_up(self, sending, receiver, known):
        """A transfer for each delivery that the sender doesn't know."""
        unknown = [tag for tag in receiver.entries if tag not in known]
        for tag in unknown:
            del receiver.entries[tag]
        self.is_known &= not unknown or self.going[sending].window > FEW
        return [None for _ in unknown]

    def sent_on(self, sending, sender, receiver):
        """What each transfer has the receiver tell: first of what it has a part of, and then of the rest."""
        transfers, end = [], self.ends[OTHER[sending]]
        has_part = {tag: it.number is None for tag, it in receiver.entries.items()}
        for tag in sorted(sender.open, key=lambda it: not has_part.get(it)):
            payload, entry = sender.open[tag], receiver.entries.get(tag)
            count = self.pieces(sending, payload, entry)
            if entry and entry.number is not None:
                transfers += [None] * count
                entry.is_joined = True
                continue
            receiver.entries[tag] = Entry(payload, end.messages, is_joined=True)
            text = f"message {receiver.number} {end.messages} unsettled {tag.hex()} {payload.hex() or '-'}"
            transfers += [*[None] * (count - 1), text]
            end.messages += 1
        is_alone = not transfers or not any(it[0] == sending for it in self.pairs)
        self.is_known &= is_alone or self.going[sending].window > FEW
        return transfers

    def pieces(self, sending, payload, entry):
        """How many transfers a message takes: each has at most the bytes for which the first one leaves room."""
        limit, stands, size = self.script.settings(OTHER[sending])[0], 0, FIRST + (2 if self.pairs else 1)
        if entry:
            stands, (number, offset) = len(entry.data), amqp.place(entry.data)
            size += PLACED + (2 if number else 1) + (9 if offset > 255 else 2 if offset else 1)
        return max(1, -(-(len(payload) - stands) // (limit - 8 - size)))

    def move_out(self):
        """All is moved until nothing waits for a window, and once more."""
        is_out = False
        while not is_out:
            is_out = all(it.is_out() for it in self.going.values())
            for side in ("b", "a"):
                self.going[OTHER[side]].hear_flows()
                self.move(side, *self.going[side].move())

    def accept_all(self):
        """Each message is accepted that its receiver has whole, and its sender is told."""
        told = {side: [] for side in OTHER}
        for sending, sender, receiver in self.pairs:
            for tag, entry in receiver.entries.items():
                if entry.is_joined and not entry.outcome:
                    self.call(OTHER[sending], f"dispose {receiver.number} {entry.number} accepted settled", "")
                    told[sending].append(f"outcome {sender.number} {tag.hex()} accepted")
        for side in OTHER:
            self.move(OTHER[side], *told[side])


def listed(receiver):
    """What a receiver lists: of each delivery the outcome that it gave, or the place where it stands."""
    codes = {word: code for code, word in amqp.OUTCOMES.items()}
    return {
        tag: amqp.Described(codes[it.outcome], []) if it.outcome else amqp.Described(amqp.RECEIVED, [])
        for tag, it in receiver.entries.items()
    }


class Broken:
    """Breaks a script off. It goes through the script once, and knows the ends at each of its frames."""

    def __init__(self, script):
        self.script, self.ends, self.streams = script, TwoEnds(), {side: b"" for side in OTHER}

    def scripts(self, is_wanted=lambda line, count: True):
        """For each wanted line and number of its bytes, what follows a break behind these."""
        moved = {it.line: it for it in self.script.moved}
        for number, line in enumerate(self.script.lines, 1):
            side, *words = line.split(" ")
            if number in moved:
                yield from self.moves(moved[number], is_wanted)
            elif side in OTHER:
                self.call(side, words, [it.split(" ")[1:] for it in self.script.told(number)])
            elif side == "break":
                self.ends.break_off()
                self.streams = {it: b"" for it in OTHER}

    def call(self, side, words, answers):
        if answers[0][0] == "ok":
            self.ends.call(side, words, answers[0][1:])
        for word, number, *rest in answers[1:]:
            link = self.ends.ends[side].links[int(number)]
            if word == "attached":
                link.phase = ATTACHED
            elif word == "outcome":
                link.open.pop(bytes.fromhex(rest[0]), None)

    def moves(self, moved, is_wanted):
        """The breaks within what a move carries, from the one before its first byte on."""
        side, events, start = moved.end, [], -len(self.streams[moved.end])
        frames, self.streams[side] = amqp.cut(self.streams[side] + moved.data)
        for frame in [*frames, None]:
            end = start + len(frame) if frame else len(moved.data) + 1
            for count in range(max(start, 0), end):
                if is_wanted(moved.line, count):
                    yield self.anew(moved, count, events)
            if frame and frame != amqp.HEADER:
                events += self.ends.frame(OTHER[side], amqp.read_frame(frame))
            start = end

    def anew(self, moved, count, events):
        """A break behind so many bytes of a move."""
        lines, other = self.script.lines[: moved.line - 1], OTHER[moved.end]
        printed = [it for it in self.script.printed if int(it.split(" ")[0]) < moved.line]
        if count:
            lines.append(f"move {moved.end} {count}")
            printed += [f"{len(lines)} {other} {it}" for it in ("ok", *events)]
        return Anew(self.script, copy.deepcopy(self.ends), lines, printed, count % 2 == 0).write()


def standing(table):
    """The scripts of two ends in a table of rows that send messages, but for those that were written here."""
    for line in table.partition(WRITTEN)[0].split("\n"):
        script, _, printed = line.partition(" => ")
        lines = script.split(" ; ")
        calls = {it.split(" ")[1] for it in lines if it[:2] in ("a ", "b ")}
        if lines[0] == "two" and {"begin", "send"} <= calls and printed.endswith(" ; status 0"):
            yield Script(lines, printed.split(" ; ")[:-1])


def with_moves(scripts, answered):
    for script, it in zip(scripts, wires([script.lines for script in scripts], answered)):
        script.moved = it.moved
    return scripts


def once(scripts, answered):
    """The scripts with one break more, each once: a list for each script that they are written from."""
    known = set()
    return [[*distinct(Broken(it).scripts(), known)] for it in with_moves(scripts, answered)]


def distinct(found, known):
    for it in found:
        text = "\n".join(it.lines)
        if text not in known:
            known.add(text)
            yield it


def twice(broken, answered):
    """The scripts with a second break, behind each byte where the first one came in the middle of an open message, and
    else behind some bytes. Of first breaks at which as much stood the last is taken."""
    chosen = []
    for found in broken:
        by_stand = {tuple(it.stands): it for it in found if it.is_open and it.is_known}
        chosen += by_stand.values()
    scripts, known = with_moves([Script(it.lines, it.printed) for it in chosen], answered), set()
    for it, script in zip(chosen, scripts):
        each = 1 if any(it.stands) else SOME
        found = Broken(script).scripts(lambda line, count: line > it.broken and count % each == 0)
        yield from distinct(found, known)


def broken_at_random(lines, printed, moved, each):
    """A script with a break behind about one of so many bytes, which are apart."""
    return Broken(Script(lines, printed, moved)).scripts(lambda line, count: (31 * line + count) % each == 0)


def all_scripts(answered):
    """First those with one break more, and then those with a second one, which are written from these."""
    with open(f"{TOP}/crates/amqp_scenario/stdin", encoding="utf-8") as file:
        broken = once([*standing(file.read())], answered)
    yield [it for found in broken for it in found]
    yield [*twice(broken, answered)]


def main():
    if len(sys.argv) != 3:
        sys.exit("break_scripts: name a program, and say which of the scripts are wanted")
    program, each = sys.argv[1], int(sys.argv[2])
    if not os.path.exists(program):
        build("amqp_scenario", program)
    for found in all_scripts(partial(answers, program)):
        for it in (it for it in found[each - 1 :: each] if it.is_known):
            print(" ; ".join(it.lines), "=>", " ; ".join([*it.printed, "status 0"]))


if __name__ == "__main__":
    main()
