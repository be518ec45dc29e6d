"""A broker over Qpid Proton's reactor: broker.py PORT FRAME. It has a queue for each address, in memory, settles as its
peer asks, takes frames of FRAME bytes at most, answers a Close, and prints what ends a connection otherwise."""
import collections
import sys

from proton import Link
from proton.handlers import MessagingHandler
from proton.reactor import Container


class Queue:
    def __init__(self):
        self.messages, self.consumers = collections.deque(), []

    def dispatch(self):
        for link in self.consumers:
            while self.messages and link.credit:
                link.send(self.messages.popleft())


class Broker(MessagingHandler):
    def __init__(self, port, frame):
        super().__init__(prefetch=100, auto_accept=True)
        self.port, self.frame, self.queues = port, frame, collections.defaultdict(Queue)

    def on_start(self, event):
        event.container.listen(f"127.0.0.1:{self.port}")
        print("up", flush=True)

    def on_connection_bound(self, event):
        event.transport.max_frame_size = self.frame

    def on_link_opening(self, event):
        link = event.link
        link.source.address = link.remote_source.address
        link.target.address = link.remote_target.address
        link.snd_settle_mode = link.remote_snd_settle_mode
        if link.is_sender:
            self.queues[link.source.address].consumers.append(link)

    def on_link_closing(self, event):
        for queue in self.queues.values():
            if event.link in queue.consumers:
                queue.consumers.remove(event.link)

    def forget(self, connection):
        for queue in self.queues.values():
            queue.consumers = [link for link in queue.consumers if link.connection != connection]

    def on_connection_closing(self, event):
        self.forget(event.connection)

    def on_disconnected(self, event):
        self.forget(event.connection)

    def on_transport_error(self, event):
        print(f"transport error: {event.transport.condition}", flush=True)

    def on_sendable(self, event):
        self.queues[event.link.source.address].dispatch()

    def on_message(self, event):
        queue = self.queues[event.link.target.address]
        queue.messages.append(event.message)
        queue.dispatch()


Container(Broker(int(sys.argv[1]), int(sys.argv[2]))).run()
