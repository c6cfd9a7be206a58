"""`mcrace record`: what it hands on, what it notes of what client libraries do, which of their
faults show on the wire, and that its record is true of any client and server."""

import concurrent.futures
import contextlib
import importlib
import itertools
import pathlib
import os
import random
import re
import select
import socket
import subprocess
import sys
import tempfile
import threading
import time

from . import servers
from .program import PROGRAM, ROOT, SECONDS, LiveTest, begun, rows, run, three_times
from .test_scripts import ScriptTest

LISTENING = re.compile(rb"mcrace: listening 127\.0\.0\.1:(\d+)\n")
TOTALS = re.compile(r"mcrace: (\w+) (\d+) requests in (\d+) timelines")
THREADS, ROUNDS = 4, 50
# How long a race is open, in microseconds.
WINDOW = 300


class Recorder:
    """`mcrace record` before the server on a port, which writes into a file."""

    def __init__(self, port, *options):
        self.folder = tempfile.TemporaryDirectory()
        self.path = pathlib.Path(self.folder.name) / "recorded.history"
        self.process = begun(["record", "0", f"127.0.0.1:{port}", "--out", self.path, *options])
        self.port = int(LISTENING.fullmatch(self.process.stderr.readline())[1])

    def __enter__(self):
        return self

    def __exit__(self, *_):
        self.process.kill()
        self.process.communicate()
        self.folder.cleanup()

    def ended(self):
        """Its exit status, and what standard error has, once it has ended."""
        faults = self.process.communicate(timeout=SECONDS)[1].decode()
        return self.process.returncode, faults

    def text(self):
        return self.path.read_bytes()


class RecordTest(LiveTest):
    """What the tests have in common."""

    def recorder(self, port, *options):
        return self.enter(Recorder(port, *options))

    def assert_judged(self, recorder, verdict="explained"):
        judged = run(["judge"], recorder.text())
        self.assertEqual(judged.text.split("\n")[0], verdict, recorder.text()[-2000:])


def pymemcache_client(port):
    library = importlib.import_module("pymemcache")
    return library.Client(("127.0.0.1", port), default_noreply=False)


def pylibmc_client(port):
    library = importlib.import_module("pylibmc")
    return library.Client([f"127.0.0.1:{port}"], behaviors={"cas": True})


def python_memcached_client(port):
    library = importlib.import_module("memcache")
    return library.Client([f"127.0.0.1:{port}"], cache_cas=True)


CLIENTS = {"pymemcache": pymemcache_client, "pylibmc": pylibmc_client,
           "memcache": python_memcached_client}


def count_and_read(client, number):
    """Calls of one thread: counts, reads, stores and deletes of keys that all threads have."""
    draw = random.Random(number)
    for _ in range(ROUNDS):
        key = draw.choice(["n-1", "n-2", "text"])
        call = draw.choice(["incr", "get", "get", "set", "delete"])
        with contextlib.suppress(Exception):
            if call == "incr":
                client.incr("n-1", 1)
            elif call == "set":
                client.set(key, str(draw.randrange(100)))
            else:
                getattr(client, call)(key)


class Libraries(RecordTest):
    """Client libraries with threads, before servers that are right."""

    def check_library(self, library, connect, server):
        try:
            importlib.import_module(library)
        except ImportError:
            self.skipTest(f"{library} is not installed")
        with server() as (_, port), Recorder(port, "--judge", "--connections",
                                             str(THREADS + 1)) as recorder:
            first = connect(recorder.port)
            for key in ("n-1", "n-2", "text"):
                first.set(key, "1")
            clients = [connect(recorder.port) for _ in range(THREADS)]
            with concurrent.futures.ThreadPoolExecutor(THREADS) as threads:
                [*threads.map(count_and_read, clients, itertools.count())]
            for client in (first, *clients):
                getattr(client, "close", getattr(client, "disconnect_all", None))()
            status, faults = recorder.ended()
            self.assertEqual(status, 0, faults)
            totals = {name: int(count) for name, count, _ in TOTALS.findall(faults)}
            self.assertEqual((totals["unexplained"], totals["undecided"]), (0, 0), faults)
            self.assertGreater(totals["explained"], THREADS * ROUNDS / 2, faults)
            # a timeline that is cut at a start has its request at its end, and the next one too
            self.assertGreaterEqual(totals["explained"], totals["noted"], faults)
            self.assert_judged(recorder)

    @rows([(f"{library} {name}", library, connect, server)
           for library, connect in CLIENTS.items()
           for name, server in (("serve", servers.serving), ("memcached", servers.memcached))])
    @three_times
    def test_libraries(self, library, connect, server):
        self.check_library(library, connect, server)


class Faults(RecordTest):
    """Faults of clients, by two threads before a right server. No key is unexplained; but where two
    calls share a connection, one sends while the other waits, so it has two clients' numbers."""

    # More connections than any of the clients opens in the rounds of a right one.
    most = 60

    @rows([(it, it, 200) for it in ("wrong-reply", "retried-incr", "shared-connection")] +
          [(it, it, 10) for it in ("locked", "pool", "pymemcache", "pymemcache-pool",
                                   "python-memcached-shared")])
    @three_times
    def test_faults(self, client, rounds):
        is_faulty = rounds > 10
        with servers.serving() as (_, port), Recorder(port, "--judge", "--connections",
                                                      str(self.most)) as recorder:
            words = [sys.executable, ROOT / "examples/clients/two-threads", client,
                     f"127.0.0.1:{recorder.port}", str(rounds)]
            ran = subprocess.run(words, check=False, capture_output=True, timeout=SECONDS,
                                 env={**os.environ, "MCRACE": str(PROGRAM)})
            if b"ModuleNotFoundError" in ran.stderr:
                self.skipTest(f"{client} is not installed")
            self.assertEqual(ran.returncode, int(is_faulty), ran.stderr)
            connections = self.most - self.fill(recorder)
            status, faults = recorder.ended()
            self.assertEqual(status, 0, faults)
            self.assert_judged(recorder)
            numbers = {*re.findall(rb"^(\d+) begin", recorder.text(), re.M)}
            self.assertEqual(len(numbers) > connections, is_faulty, (numbers, faults))
            self.assertEqual("mcrace: pipelined " in faults, is_faulty, faults)

    @staticmethod
    def fill(recorder):
        """Ends the recording by connections that say nothing, and answers how many it took."""
        count = 0
        while recorder.process.poll() is None:
            with contextlib.suppress(OSError), servers.connect(recorder.port) as stream:
                stream.shutdown(socket.SHUT_WR)
                count += stream.recv(1) == b""
        return count


class Races(ScriptTest):
    """A server with a race."""

    @three_times
    def test_found(self):
        """What a racy server answers is found at once, by clients that know nothing of it."""
        with self.faulty("lost-increment", WINDOW) as (_, port), \
                Recorder(port, "--judge") as recorder:
            streams = [servers.connect(recorder.port) for _ in range(8)]
            streams[0].sendall(b"set n 0 0 1\r\n1\r\n")
            self.assertEqual(streams[0].recv(100), b"STORED\r\n")

            def count(stream):
                with stream.makefile("rb") as reader:
                    for _ in range(400):
                        stream.sendall(b"incr n 1\r\n")
                        reader.readline()

            with concurrent.futures.ThreadPoolExecutor(8) as threads:
                [*threads.map(count, streams)]
            # a timeline of many requests is cut at a later start, and judged then
            streams[0].sendall(b"set n 0 0 1\r\n1\r\n")
            self.assertEqual(streams[0].recv(100), b"STORED\r\n")
            told, _, _ = select.select([recorder.process.stderr], [], [], SECONDS)
            self.assertTrue(told, "no race is told")
            self.assertEqual(recorder.process.stderr.readline(),
                             b"mcrace: no order explains a key:\n")
            lines = [recorder.process.stderr.readline() for _ in range(3)]
            self.assertEqual(lines, [b'# k1 is "n"\n', b"history 3\n", b"0 begin set k1 0 =1\n"])
            evidence = b"".join(lines)
            while not evidence.endswith(b"\nwhy\n"):
                evidence += recorder.process.stderr.readline()
            judged = run(["judge"], evidence.removesuffix(b"why\n"))
            self.assertEqual((judged.text, judged.status), ("unexplained\nkey k1\n", 1))
            for stream in streams:
                stream.close()
            time.sleep(1)
            self.assertEqual(run(["judge"], recorder.text()).text, "unexplained\nkey k1\n")


class FaultyServer(ScriptTest, RecordTest):
    """A server in C whose increments race, before the clients of a library."""

    @three_times
    def test_lost_increments(self):
        with self.faulty("lost-increment", WINDOW) as (_, port), \
                Recorder(port, "--judge", "--connections", str(THREADS)) as recorder:
            try:
                clients = [pymemcache_client(recorder.port) for _ in range(THREADS)]
            except ImportError:
                self.skipTest("pymemcache is not installed")
            clients[0].set("n", "1")
            with concurrent.futures.ThreadPoolExecutor(THREADS) as threads:
                [*threads.map(lambda it: [it.incr("n", 1) for _ in range(ROUNDS)], clients)]
            for client in clients:
                client.close()
            status, faults = recorder.ended()
            self.assertEqual(status, 1, faults)
            self.assertIn('mcrace: no order explains a key:\n# k1 is "n"\n', faults)
            self.assert_judged(recorder, "unexplained")


class Handing(RecordTest):
    """What is handed on is what came."""

    def talk(self, recorder, said, length):
        """What the server is sent by a client that says this, and what the client is sent."""
        with servers.connect(recorder.port) as stream:
            sender = threading.Thread(target=self.say, args=(stream, said))
            sender.start()
            got = bytearray()
            while len(got) < length and (piece := stream.recv(65_536)):
                got += piece
            sender.join()
        return bytes(got)

    @staticmethod
    def say(stream, said):
        with contextlib.suppress(OSError):
            stream.sendall(said)
            stream.shutdown(socket.SHUT_WR)

    GARBAGE = {
        "bytes": random.Random(1).randbytes(300_000),
        "no line end": b"x" * 3_000_000,
        "half a request": b"set a 0 0 100\r\nabc",
        "half a line": b"get a",
        "requests": b"set a 0 0 1\r\n1\r\nget a\r\n" * 2_000,
        "nothing": b"",
    }

    @rows(GARBAGE.items())
    def test_both_ways(self, said):
        """An echo gives back each byte."""
        with Echoing() as echo, Recorder(echo.port, "--judge") as recorder:
            self.assertEqual(self.talk(recorder, said, len(said)), said)
            self.assert_goes_on(recorder, echo)

    def assert_goes_on(self, recorder, echo):
        self.assertIsNone(recorder.process.poll())
        self.assertEqual(self.talk(recorder, b"get a\r\n", 7), b"get a\r\n")
        time.sleep(1)
        self.assertEqual(run(["judge"], recorder.text()).status, 0, recorder.text())

    def test_closes_at_any_byte(self):
        """A client that closes within a request, and a server that closes within a reply."""
        talk = b"set a 0 0 1\r\n1\r\nincr a 1\r\nget a\r\ndelete a\r\n"
        with servers.serving() as (_, port), Recorder(port, "--judge") as recorder:
            for length in range(len(talk)):
                with servers.connect(recorder.port) as stream:
                    stream.sendall(talk[:length])
                    if length % 2:
                        servers.reset_at_close(stream)
            self.assertIsNone(recorder.process.poll())
            time.sleep(1)
            self.assert_judged(recorder)

    def test_server_closes_at_any_byte(self):
        reply = b"STORED\r\n2\r\nVALUE a 0 1\r\n2\r\nEND\r\n"
        talks = [[servers.Step.READ, reply[:length]] for length in range(len(reply))]
        with servers.Replying(*talks) as server, Recorder(server.port, "--judge") as recorder:
            for _ in talks:
                with servers.connect(recorder.port) as stream:
                    stream.sendall(b"set a 0 0 1\r\n1\r\nincr a 1\r\nget a\r\n")
                    stream.shutdown(socket.SHUT_WR)
                    while stream.recv(100):
                        pass
            self.assertIsNone(recorder.process.poll())
            time.sleep(1)
            self.assert_judged(recorder)


class Echoing(servers.Listening):
    """A server that sends back each byte."""

    def begin(self, connection):
        threading.Thread(target=self.echo, args=(connection,), daemon=True).start()

    @staticmethod
    def echo(connection):
        with contextlib.suppress(OSError), connection:
            while piece := connection.recv(65_536):
                connection.sendall(piece)


class Ends(RecordTest):
    """When it ends, and what it says then."""

    def test_time(self):
        """After its time open connections are closed."""
        with servers.serving() as (_, port), Recorder(port, "--for", "2s") as recorder:
            with servers.connect(recorder.port) as stream:
                stream.sendall(b"delete a\r\n")
                self.assertEqual(stream.recv(100), b"NOT_FOUND\r\n")
                with self.assert_takes(0.5, 10):
                    self.assertEqual(stream.recv(100), b"")
            status, faults = recorder.ended()
            self.assertEqual((status, faults), (0, "mcrace: accepted 1 refused 0\n"
                                                "mcrace: noted 1 requests in 1 timelines\n"))
            self.assertEqual(recorder.text(), b'history 3\n# k1 is "a"\n0 begin delete k1\n'
                                              b"0 reply NOT_FOUND\nend\n")

    def test_flushes(self):
        """What was noted is in the file within about a second, also if it is killed."""
        with servers.serving() as (_, port), Recorder(port) as recorder:
            with servers.connect(recorder.port) as stream:
                stream.sendall(b"set a 0 0 1\r\n1\r\n")
                self.assertEqual(stream.recv(100), b"STORED\r\n")
                time.sleep(1.5)
                recorder.process.kill()
            self.assertEqual(recorder.text(), b'history 3\n# k1 is "a"\n0 begin set k1 0 =1\n'
                                              b"0 reply STORED\nend\n")
            self.assert_judged(recorder)

    def test_output(self):
        """Without `--out` the recording is the output."""
        with servers.serving() as (_, port):
            process = begun(["record", "0", f"127.0.0.1:{port}", "--connections", "1"])
            found = LISTENING.fullmatch(process.stderr.readline())
            with servers.connect(int(found[1])) as stream:
                stream.sendall(b"version\r\nget a\r\n")
                stream.recv(100)
            output, faults = process.communicate(timeout=SECONDS)
        self.assertEqual((output, process.returncode), (b"history 3\nend\n", 0))
        self.assertIn(b"mcrace: left out 1: the key hadn't started\n", faults)

    def test_pipelined(self):
        """It says how many requests were sent while their connection waited for a reply."""
        read = servers.Step.READ
        with servers.Replying([read, read, b"6\r\n7\r\n", read, b"8\r\n"]) as server, \
                Recorder(server.port, "--connections", "1") as recorder:
            with servers.connect(recorder.port) as stream, stream.makefile("rb") as replies:
                for requests in (2, 1):
                    for _ in range(requests):
                        stream.sendall(b"incr a 1\r\n")
                    for _ in range(requests):
                        replies.readline()
            status, faults = recorder.ended()
        self.assertEqual(status, 0, faults)
        self.assertIn("\nmcrace: pipelined 1: sent while their connection waited for a reply\n",
                      faults)

    def test_many(self):
        """A 65th connection is closed."""
        with servers.serving() as (_, port), Recorder(port) as recorder:
            streams = [servers.connect(recorder.port) for _ in range(65)]
            closed = 0
            for stream in streams:
                stream.settimeout(SECONDS)
                with contextlib.suppress(OSError):
                    stream.sendall(b"delete a\r\n")
                try:
                    closed += stream.recv(100) == b""
                except ConnectionError:
                    closed += 1
            self.assertEqual(closed, 1)
            for stream in streams:
                stream.close()

    def test_no_server(self):
        with Recorder(servers.free_port(), "--connections", "1") as recorder:
            with servers.connect(recorder.port) as stream:
                self.assertEqual(stream.recv(100), b"")
            status, faults = recorder.ended()
            self.assertEqual(status, 0, faults)
            self.assertRegex(faults, r"mcrace: 127\.0\.0\.1:\d+: Connection refused")

    def test_no_listener(self):
        with Echoing() as taken:
            answer = run(["record", str(taken.port), "127.0.0.1:1"])
        self.assertEqual((answer.status, answer.output), (4, b""))
        self.assertRegex(answer.faults, r"mcrace: 127\.0\.0\.1:\d+: Address already in use")
        answer = run(["record", "0", "nowhere"])
        self.assertEqual(answer.status, 4)
