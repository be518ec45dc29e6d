"""Runs scripts of two ends as two of one each, and so sees the bytes between them."""
import subprocess
from dataclasses import dataclass, field

OTHER = {"a": "b", "b": "a"}
PULLS = 40
AT_ONCE = 500


@dataclass
class Moved:
    """What a `move` carried: the line of the script, the end whose bytes they are, and the bytes."""

    line: int
    end: str
    data: bytes


@dataclass
class Side:
    """An end: its script of `one`, which line of the script of two some of its lines stand for, and what it wrote that
    isn't fed yet."""

    lines: list
    stands_for: dict = field(default_factory=dict)
    stream: bytes = b""

    def say(self, number, line):
        self.lines.append(line)
        self.stands_for[len(self.lines)] = number

    def pull_all(self):
        """Pulls what is queued: it yields scripts, and is sent what they print."""
        count = PULLS
        while True:
            printed = yield [*self.lines, *["a pull"] * count]
            words = [it.split(" ") for it in printed if int(it.split(" ")[0]) > len(self.lines)]
            pulled = [bytes.fromhex(it[4]) for it in words if it[3] == "bytes"]
            if len(pulled) < count:
                break
            count *= 4
        self.lines += ["a pull"] * (len(pulled) + 1)
        self.stream += b"".join(pulled)


@dataclass
class Wire:
    """What a script of two comes to on the wire: what its moves carried, and each end's script of `one` with what that
    prints."""

    moved: list
    sides: dict
    printed: dict

    def as_two(self):
        """What the script of two prints, by the two of one: the lines, without the status."""
        lines = []
        for end, side in self.sides.items():
            for text in self.printed[end]:
                number, _, *rest = text.split(" ")
                line = side.stands_for.get(int(number))
                if line:
                    lines.append((line, f"{line} {end} {' '.join(rest)}"))
        return [text for _, text in sorted(lines, key=lambda it: it[0])]


def settings(script, end):
    found = [it for it in script if it.startswith(f"settings {end} ")]
    words = found[0].split(" ")[2:] if found else [end, "262144", "255", "2048", "0"]
    return " ".join(["settings a", *words])


def wired(script):
    """Steps through a script of two: it yields scripts of one, is sent what they print, and returns the Wire."""
    sides, moved = {end: Side(["one", settings(script, end)]) for end in OTHER}, []
    for number, line in enumerate(script, 1):
        first, _, rest = line.partition(" ")
        if first == "break":
            for side in sides.values():
                side.lines.append("a break")
                side.stream = b""
        elif first == "move":
            end, count = rest.split(" ")
            side, other = sides[end], sides[OTHER[end]]
            yield from side.pull_all()
            count = len(side.stream) if count == "all" else int(count)
            data, side.stream = side.stream[:count], side.stream[count:]
            other.say(number, f"a feed {data.hex() or '-'}")
            moved.append(Moved(number, end, data))
        elif first in sides:
            sides[first].say(number, f"a {rest}")
    printed = {}
    for end, side in sides.items():
        printed[end] = yield side.lines
    return Wire(moved, sides, printed)


def wires(scripts, answered):
    """The wires of many scripts, side by side. `answered` gives what each of a list of scripts prints, without statuses."""
    going, asked, done = {}, {}, {}
    for at, script in enumerate(scripts):
        going[at] = wired(script)
        asked[at] = next(going[at])
    while asked:
        places = [*asked]
        for at, printed in zip(places, answered([asked[it] for it in places])):
            try:
                asked[at] = going[at].send(printed)
            except StopIteration as end:
                del asked[at]
                done[at] = end.value
    return [done[at] for at in range(len(scripts))]


def answers(program, scripts):
    """What each script prints, its lines without the status: the program answers many as a table's lines."""
    printed = []
    for start in range(0, len(scripts), AT_ONCE):
        table = "\n".join(" ; ".join(it) for it in scripts[start : start + AT_ONCE])
        ran = subprocess.run([program, "rows"], input=table.encode(), capture_output=True)
        found = ran.stdout.decode().rstrip("\n").split("\n")
        printed += [it.split(" ; ")[:-1] for it in found if it.endswith("status 0")]
        if ran.returncode or len(printed) != start + table.count("\n") + 1:
            raise RuntimeError(f"a script isn't run: {(ran.stdout[-500:] + ran.stderr[-2000:]).decode()}")
    return printed
