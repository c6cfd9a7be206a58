"""The replies of `mcrace serve` to streams of requests: as memcached's, and to changed ones.

The environment may say for how many seconds streams are changed (MCRACE_SECONDS, 5), what is drawn
(MCRACE_SEED, by the commit), and the number of the first round (MCRACE_ROUND, 0).
"""

import os
import re

import mutations

from . import servers
from .program import LiveTest, rows
from .streams import KEYS, Rounds, stream

STREAMS = 200
SECONDS = float(os.environ.get("MCRACE_SECONDS", 5))
SHOWN = re.compile(rb"^(VALUE (\S+) \d+ \d+) (\d+)\r$", re.M)
END = b"VALUE end-of-the-stream 0 1\r\n.\r\nEND\r\n"


def without_numbers(replies):
    """The replies with each cas unique of a key as its order among those that were shown before."""
    order = {}

    def number(shown):
        return b"%b %d\r" % (shown[1], order.setdefault((shown[2], shown[3]), len(order)))

    return SHOWN.sub(number, replies)


class BesideMemcached(LiveTest):
    """The replies of both are the same bytes, but for cas uniques."""

    def ask(self, connection, text):
        connection.sendall(text)
        got = b""
        while not got.endswith(END):
            piece = connection.recv(65536)
            self.assertTrue(piece, f"the connection ended after {got[-200:]!r}")
            got += piece
        return without_numbers(got)

    def test_streams(self):
        ports = (self.enter(it()).port for it in (servers.serving, servers.memcached))
        both = [servers.connect(port) for port in ports]
        for connection in both:
            connection.sendall(b"set end-of-the-stream 0 0 1\r\n.\r\n")
            self.assertEqual(connection.recv(100), b"STORED\r\n")
            connection.sendall(b"".join(b"delete %b noreply\r\n" % key for key in KEYS))
        for number in range(STREAMS):
            ours, theirs = (self.ask(connection, stream(number)) for connection in both)
            at = next((i for i, it in enumerate(zip(ours, theirs)) if it[0] != it[1]), 0)
            shown = ours[max(0, at - 60) : at + 60], theirs[max(0, at - 60) : at + 60]
            self.assertTrue(ours == theirs, f"stream {number}: {shown}")


class ChangedStreams(LiveTest):
    """After changed streams the server answers, and has lost nothing that it acknowledged."""

    def test_rounds(self):
        port = self.enter(servers.serving()).port
        rounds = Rounds(port, int(os.environ.get("MCRACE_SEED", mutations.seed_of_commit())))
        fault = rounds.fault(SECONDS, int(os.environ.get("MCRACE_ROUND", 0)))
        self.assertIsNone(fault)
        self.assertGreater(rounds.count, 0)
        print(f"{rounds.count} rounds of changed streams")


# The longest until a fault is found, and how long none is.
MOST_SECONDS, WITHOUT_FAULT = 60, 2
# The fault shows from this connection on.
FROM = 20
KEPT = re.compile(rb"set (kept-[0-9a-f]+-\d+) ")
# The faults of a server, and how each is told. What an ending one has taken ends or is reset.
FAULTS = [("a lost key", "answers b'get kept-"), ("silence", "timed out"),
          ("an end", "refused|reset by peer|Broken pipe|b'' answers"),
          ("a connection that is held", "isn't ended"), ("other words", "it wrote b'ERROR!")]


class Faulty(servers.Carrying):
    """A proxy that has one of these faults from a connection on."""

    kept = None

    def __init__(self, port, fault):
        super().__init__(port)
        self.fault = fault

    def has(self, fault):
        return self.fault == fault and self.taken > FROM

    def begin(self, client):
        if self.has("an end"):
            self.listener.close()
            raise ConnectionAbortedError
        if self.has("a lost key") and self.kept:
            with servers.connect(self.behind) as stream:
                stream.sendall(b"delete %b\r\n" % self.kept)
                stream.recv(100)
        super().begin(client)

    def request(self, piece):
        self.kept = [self.kept, *KEPT.findall(piece)][-1]
        return piece

    def reply(self, piece):
        if self.has("other words"):
            return piece.replace(b"ERROR\r\n", b"ERROR!\r\n")
        return b"" if self.has("silence") else piece

    def end(self, target):
        if not self.has("a connection that is held"):
            super().end(target)


class FaultyServers(servers.ServedTest):
    """Changed streams find each fault of a server that has one, and none in one that has none."""

    seconds = 9

    @rows((name, name, told) for name, told in FAULTS)
    def test_faults(self, name, told):
        with Faulty(self.port, name) as server:
            self.assertRegex(str(Rounds(server.port, 1).fault(MOST_SECONDS)), told)

    def test_no_fault(self):
        rounds = Rounds(self.enter(servers.Carrying(self.port)).port, 1)
        self.assertIsNone(rounds.fault(WITHOUT_FAULT))
        self.assertGreater(rounds.count, 0)
