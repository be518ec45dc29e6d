"""Stands between a client and a broker: cutter.py PORT BROKER BYTES, with the broker's port. It cuts the first of the
connections at both ends, behind so many of the client's bytes, and leaves later ones whole. As each one ends it prints
what its frames said of deliveries, as Qpid Proton reads them."""
import contextlib
import itertools
import socket
import sys
import threading

from proton import Data

ATTACH, TRANSFER, DISPOSITION, RECEIVED = 0x12, 0x14, 0x15, 0x23
# Detach, End and Close, and where the error stands in each.
ENDS = {0x16: 2, 0x17: 0, 0x18: 0}
OUTCOMES = {0x24: "accepted", 0x25: "rejected", 0x26: "released", 0x27: "modified"}
# The protocol header's bytes, and how many bytes are forwarded at a time.
HEADER = 8
MOST = 1 << 16


def words_of(state):
    """A delivery's state. It has none where nothing was told of it."""
    if state is None:
        return "with nothing told"
    if state.descriptor == RECEIVED:
        return "with the place {}, {}".format(*state.value)
    return OUTCOMES.get(state.descriptor, "with another state")


class Way:
    """The bytes that go one way, and what their frames say."""

    def __init__(self, end, said):
        self.end, self.said, self.held, self.is_begun, self.sent = end, said, b"", False, 0

    def take(self, some):
        """Takes bytes, and hears each frame that is whole."""
        self.held += some
        while len(self.held) >= HEADER:
            size = int.from_bytes(self.held[:4], "big") if self.is_begun else HEADER
            if len(self.held) < size:
                return
            frame, self.held = self.held[:size], self.held[size:]
            if self.is_begun and frame[4] * 4 < size:
                self.hear(frame[frame[4] * 4 :])
            self.is_begun = True

    def hear(self, body):
        """Hears a performative, and how long the payload behind it is."""
        data = Data()
        length = data.decode(body)
        data.rewind()
        data.next()
        performative = data.get_object()
        fields = performative.value + [None] * 12
        if performative.descriptor == ATTACH:
            listed = [f"{tag.hex()} {words_of(state)}" for tag, state in (fields[7] or {}).items()]
            self.said.append(f"the {self.end} lists {', '.join(listed) or 'nothing'}")
        elif performative.descriptor == TRANSFER:
            self.transfer(fields, len(body) - length)
        elif performative.descriptor == DISPOSITION:
            self.said.append(f"the {self.end} says {words_of(fields[4])}{', settled' if fields[3] else ''}")
        elif error := fields[ENDS.get(performative.descriptor, -1)]:
            self.said.append(f"the {self.end} ends: {', '.join(it for it in error.value[:2] if it)}")

    def transfer(self, fields, length):
        """Hears a transfer. The first one of a delivery has its number."""
        if fields[1] is not None:
            self.sent = 0
            how = f"goes on {words_of(fields[7])}" if fields[8] else "is sent from its first byte"
            self.said.append(f"{fields[2].hex()} {how}")
        self.sent += length
        if not fields[5]:
            self.said.append(f"{self.sent} bytes, the last of them")


def pump(reader, writer, way, left):
    """Forwards what comes, up to so many bytes where that is said. The connection ends then, or as either end does."""
    with contextlib.suppress(OSError):
        while left != 0 and (some := reader.recv(min(left or MOST, MOST))):
            way.take(some)
            writer.sendall(some)
            left = left and left - len(some)
    for it in (reader, writer):
        with contextlib.suppress(OSError):
            it.shutdown(socket.SHUT_RDWR)


def main():
    port, broker, cut = (int(it) for it in sys.argv[1:])
    listener = socket.create_server(("127.0.0.1", port))
    for number in itertools.count(1):
        said = []
        with listener.accept()[0] as client, socket.create_connection(("127.0.0.1", broker)) as peer:
            back = threading.Thread(target=pump, args=(peer, client, Way("broker", said), None))
            back.start()
            pump(client, peer, Way("client", said), cut)
            back.join()
        if cut:
            said.append(f"cut behind {cut} bytes")
        print(f"connection {number}: {'; '.join(said)}", flush=True)
        cut = None


main()
