"""Takes all that a node of a broker has, over Qpid Proton: taker.py PORT NODE FILE. The status is 0 where that is one
message, whose body is the line of the file."""
import sys

from proton import Timeout
from proton.utils import BlockingConnection

SECONDS = 5


def taken(receiver):
    """The bodies of the messages that come, up to the first that isn't there in time."""
    try:
        while True:
            body = receiver.receive(timeout=SECONDS).body
            receiver.accept()
            yield body
    except Timeout:
        return


def main():
    port, node, file = sys.argv[1:]
    connection = BlockingConnection(f"127.0.0.1:{port}", timeout=30, sasl_enabled=False)
    bodies = list(taken(connection.create_receiver(node, credit=10)))
    connection.close()
    with open(file, encoding="utf-8") as lines:
        right = bodies.count(lines.read()[:-1])
    print(f"what the broker has then: {len(bodies)} whole, {right} of that as it was sent")
    sys.exit((len(bodies), right) != (1, 1))


main()
