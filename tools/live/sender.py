"""Sends the lines of a file over Qpid Proton, once something listens there: sender.py PORT FILE MODE, settled or
unsettled. The status is 0 where each was sent, each unsettled one was accepted, and both ends closed in order."""
import sys
import time

from proton import Message
from proton.handlers import MessagingHandler
from proton.reactor import AtLeastOnce, AtMostOnce, Container

LISTENS = "0A"


def listens(port):
    """Whether a socket listens on the port. It is looked up, since a connection that tries it would count."""
    with open("/proc/net/tcp", encoding="ascii") as table:
        rows = [line.split() for line in table.readlines()[1:]]
    return any(row[1].endswith(f":{port:04X}") and row[3] == LISTENS for row in rows)


class Sender(MessagingHandler):
    def __init__(self, port, lines, settled):
        super().__init__()
        self.port, self.lines, self.settled = port, lines, settled
        self.sent = self.accepted = 0
        self.wrong = []
        self.is_closed = False

    def on_start(self, event):
        connection = event.container.connect(f"127.0.0.1:{self.port}", sasl_enabled=False, reconnect=False)
        event.container.create_sender(connection, "sink", options=AtMostOnce() if self.settled else AtLeastOnce())

    def on_sendable(self, event):
        while event.sender.credit and self.sent < len(self.lines):
            event.sender.send(Message(body=self.lines[self.sent]))
            self.sent += 1
        if self.settled:
            self.close_at_the_end(event)

    def on_accepted(self, event):
        self.accepted += 1
        self.close_at_the_end(event)

    def close_at_the_end(self, event):
        if self.sent == len(self.lines) and self.accepted == (0 if self.settled else self.sent):
            event.link.close()
            event.connection.close()

    def on_rejected(self, event):
        self.wrong.append("a message is rejected")

    def on_connection_closed(self, event):
        self.is_closed = True

    def on_error(self, event, what):
        self.wrong.append(str(what))

    def on_connection_error(self, event):
        self.on_error(event, event.connection.remote_condition)

    def on_session_error(self, event):
        self.on_error(event, event.session.remote_condition)

    def on_link_error(self, event):
        self.on_error(event, event.link.remote_condition)

    def on_transport_error(self, event):
        self.on_error(event, event.transport.condition)


def main():
    port, file, mode = int(sys.argv[1]), sys.argv[2], sys.argv[3]
    while not listens(port):
        time.sleep(0.5)
    with open(file, encoding="utf-8") as lines:
        sender = Sender(port, lines.read().split("\n")[:-1], mode == "settled")
    Container(sender).run()
    print(f"{sender.sent} sent, {sender.accepted} accepted, {'' if sender.is_closed else 'not '}closed")
    for it in sender.wrong:
        print(it)
    sys.exit(not sender.is_closed or bool(sender.wrong) or sender.sent < len(sender.lines))


main()
