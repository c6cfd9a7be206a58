"""What `mcrace serve` writes and ends with; and what it holds of memory, descriptors and threads,
for connections that wait, for a long answer, and for connections that are gone.

The environment may say how many connections come one after another (MCRACE_CONNECTIONS, 10,000).
"""

import os
import pathlib
import re
import resource
import signal
import socket
import subprocess
import time

from . import servers
from .program import ALL_DONE, SECONDS, LiveTest, play, rows, run

# Open files of a process that has its standard input, output and error, and a listener.
WITH_LISTENER = 4
# How many accepts in a row may fail, and how many seconds it rests after each.
MOST_FAILED, REST = 100, 0.01


class Serve(LiveTest):
    """It serves where and as long as it is to, also if connections get no descriptor or thread."""

    def assert_ends(self, process, status, told=b""):
        """It ends with this, and nothing more on its output."""
        try:
            output, faults = process.communicate(timeout=SECONDS)
        except subprocess.TimeoutExpired:
            self.fail("it went on")
        self.assertEqual((output, process.returncode), (b"", status), faults)
        self.assertTrue(re.fullmatch(told, faults), faults)

    def test_port_is_taken(self):
        with socket.create_server(("127.0.0.1", 0)) as other:
            port = other.getsockname()[1]
            answer = run(["serve", str(port)])
        told = f"mcrace: 127.0.0.1:{port}: Address already in use (os error 98)\n"
        self.assert_answer(answer, b"no listener\n", 4, told)

    def test_port_is_named(self):
        port = servers.free_port()
        answer = run(["serve", str(port), "--connections", "0"])
        self.assert_answer(answer, f"listening 127.0.0.1:{port}\n".encode(), 0)

    @rows([("right",), ("with a race", "--racy")])
    def test_three_connections(self, *words):
        with servers.serving("--connections", 3, *words) as (process, port):
            found = play(port, "--meet", "never")
            self.assertEqual(found.endings, ALL_DONE, found)
            self.assertTrue(found.status == 0 or words, found)
            self.assert_ends(process, 0)

    @rows([("ctrl-C", signal.SIGINT), ("SIGTERM", signal.SIGTERM)])
    def test_signals(self, number):
        with servers.serving() as (process, port), servers.connect(port) as idle:
            idle.sendall(b"get a\r\n")
            idle.recv(100)
            process.send_signal(number)
            self.assert_ends(process, -number)

    def test_failed_accepts_end_it(self):
        began = time.monotonic()
        with servers.serving(files=WITH_LISTENER) as (process, _):
            self.assert_ends(process, 4, b"mcrace: accepted 0 refused %d\n" % MOST_FAILED)
        self.assertGreaterEqual(time.monotonic() - began, (MOST_FAILED - 1) * REST)

    def test_fewer_failed_accepts(self):
        most = resource.getrlimit(resource.RLIMIT_NOFILE)[1]
        with servers.serving("--connections", 1, files=WITH_LISTENER) as (process, port):
            time.sleep(10 * REST)
            resource.prlimit(process.pid, resource.RLIMIT_NOFILE, (64, most))
            with servers.connect(port) as client:
                client.sendall(b"get a\r\n")
                self.assertEqual(client.recv(100), b"END\r\n")
            self.assert_ends(process, 0, rb"mcrace: accepted 1 refused [1-9]\d?\n")

    def test_no_thread(self):
        """There is no memory for a stack: the connection is closed and counted."""
        with servers.serving("--connections", 1) as (process, port):
            pages = int(pathlib.Path(f"/proc/{process.pid}/statm").read_text().split()[0])
            limit = pages * resource.getpagesize(), resource.RLIM_INFINITY
            resource.prlimit(process.pid, resource.RLIMIT_AS, limit)
            with servers.connect(port) as client:
                self.assertEqual(client.recv(100), b"")
            self.assert_ends(process, 4, b"mcrace: accepted 0 refused 1\n")


CONNECTIONS = int(os.environ.get("MCRACE_CONNECTIONS", 10_000))
# Connections that wait for their client, and the most kilobytes that each of them may take.
IDLE, MOST_IDLE = 500, 16
# What they did before.
HIT = b"VALUE held 0 100\r\n%b\r\nEND\r\n" % (b"x" * 100)
SET_HELD = b"set held 0 0 100\r\n%b\r\n" % (b"x" * 100)
BEFORE = [("a get", b"get no-such-key\r\n", b"END\r\n"),
          ("a pipeline of 32", b"get held\r\n" * 32, HIT * 32)]
# Keys of one byte with bodies of the most bytes. A line of 2,048 bytes names a thousand times one.
KEYS = [b"%c" % code for code in range(33, 127)]
NAMED, BODY_BYTES = 1_000, 65_536
# The most that the server may hold for their answer, in kilobytes.
MOST_HELD = 256
# What is read at once of it, and after how many reads the server is looked at. Each look takes
# longer than all of those reads, so the client is slow: the server waits for it most of the time.
PIECE, LOOKS_APART = 16_384, 16
# The first connections leave what the server needs anyway. Kilobytes that the others may leave.
FIRST, MOST_LEFT = 1_000, 1_024


def kilobytes(process):
    """The resident memory of a process by its pages, but for those of files, which rest on the page
    cache. `VmRSS` and `VmHWM` are counters, which may be hundreds of kilobytes behind."""
    text = pathlib.Path(f"/proc/{process.pid}/smaps_rollup").read_text(encoding="ascii")
    return int(re.search(r"^Anonymous:\s+(\d+)", text, re.M)[1])


def descriptors_and_threads(process):
    return [len(os.listdir(f"/proc/{process.pid}/{kind}")) for kind in ("fd", "task")]


class Holdings(LiveTest):
    """Each test has a server of its own."""

    seconds = 8

    def setUp(self):
        self.process, self.port = self.enter(servers.serving())
        self.most = self.reads = 0

    def connect(self):
        return self.enter(servers.connect(self.port))

    def read(self, stream, length):
        """Just these many bytes. Now and then the server is looked at meanwhile."""
        got = bytearray()
        while len(got) < length:
            piece = stream.recv(min(PIECE, length - len(got)))
            self.assertTrue(piece, f"the connection ended after {len(got)} of {length} bytes")
            got += piece
            self.reads += 1
            if self.reads % LOOKS_APART == 0:
                self.most = max(self.most, kilobytes(self.process))
        return bytes(got)

    def ask(self, stream, request, reply):
        stream.sendall(request)
        self.assertTrue(self.read(stream, len(reply)) == reply, f"the answer to {request[:40]!r}")

    @rows(BEFORE)
    def test_connections_that_wait(self, asked, answered):
        self.setUp()
        self.ask(self.connect(), SET_HELD, b"STORED\r\n")
        held = kilobytes(self.process)
        for _ in range(IDLE):
            self.ask(self.connect(), asked, answered)
        self.assertLessEqual((kilobytes(self.process) - held) / IDLE, MOST_IDLE, "kilobytes each")

    def test_answer_of_64_megabytes(self):
        """All is stored over a connection that is closed then. What the server holds is looked at
        before the `get`, over another connection, and while its answer is read."""
        with servers.connect(self.port) as storing:
            for key in KEYS:
                text = b"set %b 0 0 %d\r\n%b\r\n" % (key, BODY_BYTES, key * BODY_BYTES)
                self.ask(storing, text, b"STORED\r\n")
        stream = self.connect()
        self.ask(stream, b"get no-such-key\r\n", b"END\r\n")
        held, self.most = kilobytes(self.process), 0
        named = [KEYS[i % len(KEYS)] for i in range(NAMED)]
        stream.sendall(b"get %b\r\n" % b" ".join(named))
        for at, key in enumerate(named):
            block = b"VALUE %b 0 %d\r\n%b\r\n" % (key, BODY_BYTES, key * BODY_BYTES)
            self.assertTrue(self.read(stream, len(block)) == block, f"key {at}, {key!r}")
        self.assertEqual(self.read(stream, 5), b"END\r\n")
        self.assertLessEqual(self.most, held + MOST_HELD, "kilobytes")

    def connect_in_turn(self, count):
        """So many connections, one after another, each with a request."""
        for _ in range(count):
            with servers.connect(self.port) as stream:
                stream.sendall(b"get no-such-key\r\n")
                self.assertEqual(stream.recv(100), b"END\r\n")

    def test_connections_that_are_gone(self):
        """The first of them leave behind what the server needs anyway."""
        self.connect_in_turn(FIRST)
        time.sleep(0.5)
        before, held = descriptors_and_threads(self.process), kilobytes(self.process)
        self.connect_in_turn(CONNECTIONS - FIRST)
        until = time.monotonic() + SECONDS
        while descriptors_and_threads(self.process) != before and time.monotonic() < until:
            time.sleep(0.1)
        self.assertEqual(descriptors_and_threads(self.process), before)
        self.assertLessEqual(kilobytes(self.process) - held, MOST_LEFT, "kilobytes are left")
