"""A small memcached client for two verbs, with three faults that may be asked for.

- A reply for the wrong caller: a `Client` that threads share. `Locked` is right.
- An incr that isn't answered in time is sent again: a `Client` with `is_hasty`.
- A connection for two threads at once: a `Pool`, which looks whether a connection is alive before
  it takes it out. With `is_right` it takes it out first.

Each is given the seconds that it waits for a reply.
"""

import select
import socket
import threading

STORED = {b"STORED": True, b"NOT_STORED": False}
# How long a hasty incr waits for its reply, in seconds.
PATIENCE = 0.00002


class Client:
    """A connection for one thread."""

    def __init__(self, address, seconds, is_hasty=False):
        self.socket = socket.create_connection(address, seconds)
        self.socket.setsockopt(socket.IPPROTO_TCP, socket.TCP_NODELAY, 1)
        self.lines, self.is_hasty = self.socket.makefile("rb"), is_hasty

    def has_input(self, seconds=0):
        return bool(select.select([self.socket], [], [], seconds)[0])

    def request(self, text, is_hasty=False):
        self.socket.sendall(text + b"\r\n")
        if is_hasty and not self.has_input(PATIENCE):
            # The server may have acted already. The first reply is dropped when it comes.
            self.socket.sendall(text + b"\r\n")
            self.lines.readline()
        return self.lines.readline().strip()

    def set(self, key, body):
        return STORED[self.request(b"set %b 0 0 %d\r\n%b" % (key.encode(), len(body), body))]

    def incr(self, key, number):
        line = self.request(b"incr %b %d" % (key.encode(), number), self.is_hasty)
        return None if line == b"NOT_FOUND" else int(line)


class Locked(Client):
    """A connection that threads may share."""

    def __init__(self, *given):
        super().__init__(*given)
        self.lock = threading.Lock()

    def request(self, *given):
        with self.lock:
            return super().request(*given)


class Pool:
    """Connections, of which each call takes one, or a new one if none is idle."""

    def __init__(self, address, seconds, is_right=False):
        self.given, self.is_right, self.idle = (address, seconds), is_right, []

    def take(self):
        if not self.idle:
            return Client(*self.given)
        client = self.idle.pop() if self.is_right else self.idle[-1]
        # It has ended if there is input. While this looks, another thread may run.
        if client.has_input():
            client = Client(*self.given)
        if client in self.idle:
            self.idle.remove(client)
        return client

    def call(self, verb, *given):
        client = self.take()
        answer = getattr(client, verb)(*given)
        self.idle.append(client)
        return answer

    def set(self, *given):
        return self.call("set", *given)

    def incr(self, *given):
        return self.call("incr", *given)
