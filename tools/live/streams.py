"""Streams of requests that are drawn, and rounds of changed ones over several connections at once.

In each round connections are opened, and each is sent a stream that was changed in a few places, or
random bytes, in pieces that take turns with those of the others. Then the client closes the
connection, resets it, lets it be and reads nothing, or ends its side and reads on. What it reads by
then has to be replies that docs/FORMATS.md has, and the server has to end the connection.
Meanwhile a connection that stays open is served, and after each round a new one; of the first one
each key is as it was when its `set` was acknowledged. No answer may take longer than 5 seconds. The
streams follow from the seed and the round's number; how they meet in the server doesn't.
"""

import contextlib
import random
import re
import select
import socket
import time

import mutations

from . import servers

# How many requests a stream has.
REQUESTS = 60
KEYS = [b"a", b"b", b"key-of-some-length", b"k" * 200]
STORING = [b"set", b"set", b"add", b"replace", b"append", b"prepend"]
# Requests that memcached refuses by the same line. If a get names a key that is too long, memcached
# drops replies that it holds back.
WRONG = [b"no-such-command\r\n", b"\r\n", b"incr %b 1\r\n" % (251 * b"k"), b"set a 0 0 x\r\n"]
# What ends the replies to a stream.
LAST = b"get end-of-the-stream\r\n"
# How many connections a round has, and of what.
CONNECTIONS, SOURCES, MOST_CUTS, MOST_RUBBISH = 6, 60, 8, 65_536
# The most bytes that are told of what is wrong.
MOST_TOLD = 100
ENDINGS = ["close", "reset", "leave", "end", "end", "end"]
# How often a key is kept at a turn, and how many are looked at after each round; in the end all.
KEPT, LOOKED_AT = 0.1, 15
LARGE = b"x" * 65_536
# What memcached isn't sent: what is at a limit or beyond it, and more replies than fit anywhere.
SPECIAL = [
    b"set large 0 0 65536\r\n%b\r\n" % LARGE + b"get large\r\n" * 500,
    b"set large 0 0 65536\r\n%b\r\nget large large\r\n" % LARGE,
    b"set large 0 0 65537\r\n%bx\r\nget large\r\n" % LARGE,
    b"get%b\r\n" % (b" a" * 1_000),
    b"get %b\r\n" % (b"k" * 2_100),
    b"set a 0 0 2147483647\r\n12\r\nget a\r\n",
    b"set a 0 60 2\r\n12\r\nget a\r\nquit\r\nget a\r\n",
    b"set a 0 0 2\r\n123\r\nget a\r\n",
    b"incr a 18446744073709551615\r\n" * 40,
]
REPLY = re.compile(rb"(STORED|NOT_STORED|EXISTS|NOT_FOUND|END|DELETED|TOUCHED|ERROR|\d{1,20}"
                   rb"|CLIENT_ERROR (bad command line format|bad data chunk|line too long"
                   rb"|cannot increment or decrement non-numeric value)"
                   rb"|SERVER_ERROR (expiry not supported|object too large for cache))\r\n")
BLOCK = re.compile(rb"VALUE [^ \r\n]{1,250} \d{1,10} (\d{1,5})( \d{1,20})?\r\n")


class Fault(Exception):
    """What the server did that it may not do."""


def body(lots):
    kind = lots.random()
    if kind < 0.4:
        return b"%d" % lots.randrange(10, 10**9)
    if kind < 0.5:
        return b""
    return b"z" + lots.randbytes(lots.randrange(200))


def request(lots):
    key, noreply = lots.choice(KEYS), lots.choice([b"", b"", b"", b" noreply"])
    verb = lots.choice(["store", "store", *"get gets incr delete touch cas wrong".split()])
    if verb == "store":
        name, text, flags = lots.choice(STORING), body(lots), lots.choice([0, 7, 2**32 - 1])
        return b"%b %b %d 0 %d%b\r\n%b\r\n" % (name, key, flags, len(text), noreply, text)
    if verb in ("get", "gets"):
        return b"%b %b\r\n" % (verb.encode(), b" ".join(lots.sample(KEYS, lots.randrange(1, 4))))
    if verb == "incr":
        return b"incr %b %d%b\r\n" % (key, lots.choice([0, 1, 5, 10**9]), noreply)
    if verb == "delete":
        return b"delete %b%b\r\n" % (key, noreply)
    if verb == "touch":
        return b"touch %b 0%b\r\n" % (key, noreply)
    if verb == "cas":
        # No version has this number.
        number = 2**63 + lots.randrange(1000)
        return b"cas %b 0 0 1 %d%b\r\nz\r\n" % (key, number, noreply)
    return lots.choice(WRONG)


def stream(seed):
    """The stream of this number. No count gets shorter, as memcached would fill it with spaces."""
    lots = random.Random(seed)
    return b"delete a noreply\r\n" + b"".join(request(lots) for _ in range(REQUESTS)) + LAST


def after_replies(text):
    """The first bytes after the replies with which the text begins."""
    at = 0
    while at < len(text):
        reply, block = REPLY.match(text, at), BLOCK.match(text, at)
        if reply:
            at = reply.end()
        elif block and text.startswith(b"\r\n", block.end() + int(block[1])):
            at = block.end() + int(block[1]) + 2
        else:
            break
    return bytes(text[at : at + MOST_TOLD])


def pieces_of(text, drawn):
    cuts = sorted(drawn.randint(0, len(text)) for _ in range(drawn.randint(0, MOST_CUTS)))
    return [text[a:b] for a, b in zip([0, *cuts], [*cuts, len(text)]) if a < b]


class Sender:
    """A connection that is sent a changed stream."""

    def __init__(self, stream, text, drawn):
        self.stream, self.ending, self.got = stream, drawn.choice(ENDINGS), bytearray()
        self.pieces = pieces_of(text, drawn)

    def turn(self):
        """Sends what the server takes of the next piece, and reads what came."""
        leaves = self.ending == "leave"
        try:
            if not leaves and select.select([self.stream], [], [], 0)[0]:
                self.got += self.stream.recv(65_536)
            if select.select([], [self.stream], [], 0 if leaves else 0.01)[1]:
                sent = self.stream.send(self.pieces[0], socket.MSG_DONTWAIT)
                left = self.pieces[0][sent:]
                self.pieces[:1] = [left] if left else []
            elif leaves:
                self.pieces.clear()
        except OSError:
            # The server has closed it, as after a `quit`.
            self.pieces.clear()

    def end(self):
        if self.ending == "end":
            with contextlib.suppress(OSError):
                self.stream.shutdown(socket.SHUT_WR)
            self.read_on()
        elif self.ending == "reset":
            servers.reset_at_close(self.stream)
        if self.ending != "leave":
            self.stream.close()

    def read_on(self):
        """Reads to the end, and looks at all that was read, unless the connection was reset."""
        try:
            while piece := self.stream.recv(65_536):
                self.got += piece
        except socket.timeout:
            told = f"a connection that the client ended isn't ended after {len(self.got)} bytes"
            raise Fault(told) from None
        except OSError:
            return
        rest = after_replies(self.got)
        if rest:
            raise Fault(f"it wrote {rest!r}")


class Keeper:
    """A connection with keys of its own: what it was acknowledged, and that it is still there."""

    def __init__(self, stream, drawn):
        self.stream, self.name = stream, b"kept-%032x" % drawn.getrandbits(128)
        self.reader, self.bodies = self.stream.makefile("rb"), []

    def close(self):
        self.reader.close()
        self.stream.close()

    def require(self, sent, wanted):
        try:
            self.stream.sendall(sent)
            # No answer is shorter than `END`.
            got = self.reader.read(5)
            got += self.reader.read(len(wanted) - 5) if got == wanted[:5] else b""
        except OSError as fault:
            raise Fault(f"no answer to {sent[:60]!r}: {fault}") from None
        if got != wanted:
            raise Fault(f"{got[:200]!r} answers {sent[:60]!r}, and not {wanted[:200]!r}")

    def keep(self, drawn):
        text = drawn.randbytes(drawn.choice([0, 1, 10, 300, 5_000]))
        key = b"%b-%d" % (self.name, len(self.bodies))
        self.require(b"set %b 0 0 %d\r\n%b\r\n" % (key, len(text), text), b"STORED\r\n")
        self.bodies.append(text)

    def look(self, count):
        """Looks at the keys that were kept last."""
        for i in range(max(0, len(self.bodies) - count), len(self.bodies)):
            key, text = b"%b-%d" % (self.name, i), self.bodies[i]
            shown = b"VALUE %b 0 %d\r\n%b\r\nEND\r\n" % (key, len(text), text)
            self.require(b"get %b\r\n" % key, shown)


class Rounds:
    """Rounds at the server on a port, which may leave a client without an answer so long."""

    def __init__(self, port, seed, patience=5):
        self.port, self.seed, self.patience = port, seed, patience
        sources = SPECIAL + [stream(number) for number in range(SOURCES)]
        self.mutator, self.count = mutations.Mutator(sources), 0

    def connect(self):
        connection = servers.connect(self.port)
        connection.settimeout(self.patience)
        return connection

    def text(self, drawn):
        if drawn.random() < 0.1:
            return drawn.randbytes(drawn.randint(1, MOST_RUBBISH))
        return self.mutator.input(drawn)

    def play(self, keeper, drawn):
        """One round."""
        texts = [self.text(drawn) for _ in range(CONNECTIONS)]
        senders = [Sender(self.connect(), text, drawn) for text in texts]
        while sending := [it for it in senders if it.pieces]:
            drawn.choice(sending).turn()
            if drawn.random() < KEPT:
                keeper.keep(drawn)
        for it in senders:
            it.end()
        with contextlib.closing(Keeper(self.connect(), drawn)) as other:
            other.keep(drawn)
            other.look(1)
        keeper.look(LOOKED_AT)
        for it in senders:
            it.stream.close()

    def fault(self, seconds, first=0):
        """What was wrong in the last round that was played in this time, or None."""
        number, until = first, time.monotonic() + seconds
        try:
            with contextlib.closing(Keeper(self.connect(), random.Random())) as keeper:
                while time.monotonic() < until:
                    self.play(keeper, random.Random(f"{self.seed} {number}"))
                    number += 1
                keeper.look(len(keeper.bodies))
        except (Fault, OSError) as fault:
            return f"round {number} of seed {self.seed}: {fault}"
        finally:
            self.count = number - first
        return None
