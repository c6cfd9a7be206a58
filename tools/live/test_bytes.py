"""Clients of `mcrace serve` that write their own bytes, at once or in pieces; and memccapable."""

import shutil
import socket
import subprocess
import time

from cases import written_bytes

from . import servers
from .program import ROOT, LiveTest, rows

# Seconds between the two pieces of a request, so that the server reads them one by one.
APART = 0.001
# Each request with its reply, in this order, beginning with no key.
LINES = (ROOT / "cases/serve/talk.txt").read_text(encoding="ascii").splitlines()
TALK = [tuple(map(written_bytes, line.split(" -> "))) for line in LINES]
ASKED = b"".join(request for request, _ in TALK)
ANSWERED = b"".join(reply for _, reply in TALK)
BAD_DATA = [b"set a 0 0 1\r\n12\r\nget a\r\n", b"set a 0 0 1 noreply\r\n12\r\n"]
TOO_LARGE = [b"set a 0 0 65537%b\r\n%b\r\nget a\r\n" % (end, b"1" * 65537)
             for end in (b"", b" noreply")]
REFUSED = b"SERVER_ERROR object too large for cache\r\nEND\r\n"
TOO_LONG = [b"x" * 2048, b"get " + b"a " * 1022 + b"\r\n", b"delete a noreply" + b" " * 2048]
# What is sent at once after another, each with the reply to all of it.
THOUSAND = b"".join(b"%d\r\n" % number for number in range(1, 1001))
PIPELINES = [
    ("one by one", TALK),
    ("all at once", [(ASKED, ANSWERED)]),
    ("a thousand", [(b"set a 0 0 1\r\n0\r\n", b"STORED\r\n"), (b"incr a 1\r\n" * 1000, THOUSAND),
                    (b"delete a\r\n", b"DELETED\r\n")]),
    ("bodies that are too large", [(asked, REFUSED) for asked in TOO_LARGE]),
]


def read(stream, length):
    """Just these many bytes, or fewer at the end."""
    got = b""
    while len(got) < length and (piece := stream.recv(length - len(got))):
        got += piece
    return got


class OwnBytes(servers.ServedTest):
    """Requests one by one and in pipelines, cut anywhere."""

    def connect(self):
        stream = servers.connect(self.port)
        stream.sendall(b"delete a noreply\r\ndelete b noreply\r\nget a b\r\n")
        self.assertEqual(read(stream, 5), b"END\r\n")
        return stream

    def assert_answers(self, stream, request, reply):
        stream.sendall(request)
        self.assertEqual(read(stream, len(reply)), reply)

    @rows(PIPELINES)
    def test_pipelines(self, talk):
        with self.connect() as stream:
            for request, reply in talk:
                self.assert_answers(stream, request, reply)

    def test_cut_at_each_byte(self):
        with self.connect() as stream:
            for cut in range(1, len(ASKED)):
                stream.sendall(ASKED[:cut])
                time.sleep(APART)
                self.assert_answers(stream, ASKED[cut:], ANSWERED)

    def test_byte_by_byte(self):
        with self.connect() as stream:
            for at in range(len(ASKED)):
                stream.sendall(ASKED[at : at + 1])
            self.assertEqual(read(stream, len(ANSWERED)), ANSWERED)

    def test_client_ends_after_each_byte(self):
        """What it began isn't answered, and doesn't happen."""
        for cut in range(len(ASKED)):
            with self.connect() as stream:
                stream.sendall(ASKED[:cut])
                stream.shutdown(socket.SHUT_WR)
                wanted, end = b"", 0
                for request, reply in TALK:
                    end += len(request)
                    wanted += reply if end <= cut else b""
                self.assertEqual(read(stream, len(ANSWERED)), wanted)

    @rows([("quit", b"get a\r\nquit\r\nget a\r\n", b"END\r\n"),
           *((f"{it[:19]!r}", it, b"CLIENT_ERROR bad data chunk\r\n") for it in BAD_DATA),
           *((f"{line[:9]!r}..", line, b"CLIENT_ERROR line too long\r\n") for line in TOO_LONG)])
    def test_server_closes(self, asked, answered):
        """After a `quit`, a body that is too long for its line, and a line that is too long."""
        with self.connect() as stream:
            stream.sendall(asked)
            self.assertEqual(read(stream, 1000), answered)

    def test_client_leaves_in_a_request(self):
        for cut in (3, 14, 20):
            with self.connect() as stream:
                stream.sendall(b"set a 0 0 100\r\n0123456789"[:cut])
        self.test_pipelines()


# The tests of memccapable, but for `flush_all`, `verbosity`, `stats`, `version`, which aren't here.
STORING = ["set", "add", "replace", "cas", "delete", "incr", "decr", "append", "prepend"]
CAPABLE = ["quit", "get", "gets", "mget", *STORING, *(f"{it} noreply" for it in STORING)]
# These wait for the reply to a `version`, which the proxy answers.
WAITS = {"set", "add", "replace", "cas", *(f"{it} noreply" for it in STORING)}
MARK = b"mark-of-the-proxy"
MARKED = b"VALUE %b 0 0\r\n" % MARK


class Versions(servers.Carrying):
    """A proxy that answers `version`, which the server doesn't know. In its place the server gets a
    key of the proxy's own, and the version is answered once that came: then all before it was."""

    def __init__(self, port):
        super().__init__(port)
        with servers.connect(port) as server:
            server.sendall(b"set %b 0 0 0\r\n\r\n" % MARK)
            server.recv(100)

    def pieces(self, source):
        with source.makefile("rb") as lines:
            for line in lines:
                yield line + lines.readline() + lines.readline() if line == MARKED else line

    def request(self, piece):
        return b"get %b\r\n" % MARK if piece == b"version\r\n" else piece

    def reply(self, piece):
        return b"VERSION 0\r\n" if piece.startswith(MARKED) else piece


class Memccapable(LiveTest):
    """Its tests that ask for nothing that the server doesn't have, each at a server of its own."""

    @rows((test, test) for test in CAPABLE)
    def test_capable(self, test):
        if shutil.which("memccapable") is None:
            self.skipTest("memccapable is not installed; on Debian it is in libmemcached-tools")
        with servers.serving() as (_, port):
            at = self.enter(Versions(port)).port if test in WAITS else port
            words = ["memccapable", "-h", "127.0.0.1", "-p", str(at), "-v", "-a"]
            words += ["-T", f"ascii {test}"]
            ran = subprocess.run(words, capture_output=True, text=True, timeout=120)
        self.assertEqual((ran.returncode, "[pass]" in ran.stdout), (0, True), ran)
