"""Servers on free ports of 127.0.0.1: scripted ones, memcached, and `mcrace serve`."""

import collections
import contextlib
import enum
import itertools
import re
import shutil
import socket
import struct
import subprocess
import sys
import threading
import time
import unittest

from .program import PROGRAM, ROOT, SECONDS, LiveTest

LISTENING = re.compile(rb"listening (?:127\.0\.0\.1:)?(\d+)\n")
WITH_BLOCK = (b"set", b"add", b"replace", b"append", b"prepend", b"cas")
Server = collections.namedtuple("Server", "process port")
# A step that takes a request of just these bytes. If others come, it ends the connection.
Request = collections.namedtuple("Request", "text")


def free_port():
    with socket.create_server(("127.0.0.1", 0)) as server:
        return server.getsockname()[1]


def connect(port):
    stream = socket.create_connection(("127.0.0.1", port), SECONDS)
    stream.setsockopt(socket.IPPROTO_TCP, socket.TCP_NODELAY, 1)
    return stream


def reset_at_close(connection):
    """Has the close of a connection send a reset."""
    connection.setsockopt(socket.SOL_SOCKET, socket.SO_LINGER, struct.pack("ii", 1, 0))


def wait_for(port, process):
    """Waits until the process listens on its port."""
    for _ in range(200):
        with contextlib.suppress(OSError), socket.create_connection(("127.0.0.1", port), 1):
            return
        if process.poll() is not None:
            break
        time.sleep(0.05)
    raise RuntimeError(f"{process.args[0]} doesn't listen on port {port}")


@contextlib.contextmanager
def started(words, port=None, stderr=subprocess.DEVNULL):
    """A server that is a program of its own, as long as the block runs. Its first line says at
    which port it listens, if that isn't given."""
    streams = {"stdin": subprocess.PIPE, "stdout": subprocess.PIPE, "stderr": stderr}
    with subprocess.Popen(list(map(str, words)), **streams) as process:
        try:
            if port:
                wait_for(port, process)
            yield Server(process, port or int(LISTENING.fullmatch(process.stdout.readline())[1]))
        finally:
            process.terminate()


def memcached(threads=1, *more):
    """A memcached with so many threads, not run by root. Without one the test is skipped."""
    program, port = shutil.which("memcached"), free_port()
    if program is None:
        raise unittest.SkipTest("memcached is not installed; on Debian: apt-get install memcached")
    words = [program, "-t", threads, "-u", "nobody", "-l", "127.0.0.1", "-p", port, *more]
    return started(words, port)


def losing_updates(seconds=1):
    """The example server that loses updates. It waits so many seconds for the other one of two."""
    return started([sys.executable, ROOT / "examples/racy-server", 0, seconds])


def serving(*words, files=None):
    """`mcrace serve`, in which so many files may be open, if that is said, until it is raised."""
    limit = ["prlimit", f"--nofile={files}:"] if files else []
    return started([*limit, PROGRAM, "serve", 0, *words], stderr=subprocess.PIPE)


@contextlib.contextmanager
def unanswering():
    """A port at which a connect isn't answered: more clients wait there than it has room for."""
    with socket.socket() as listener, contextlib.ExitStack() as waiting:
        listener.bind(("127.0.0.1", 0))
        listener.listen(0)
        port = listener.getsockname()[1]
        for _ in range(8):
            client = waiting.enter_context(socket.socket())
            client.setblocking(False)
            client.connect_ex(("127.0.0.1", port))
        yield port


class ServedTest(LiveTest):
    """What has a server: `mcrace serve`, but if a class says another one."""

    def setUp(self):
        self.process, self.port = self.enter(serving())


class Step(enum.Enum):
    """What a scripted server does on a connection, beside sending bytes."""

    READ = "read a request"
    PAUSE = "wait 50 ms"
    SOON = "wait 1 ms"
    MEET = "wait until another connection of the run comes to this step too"
    END = "end the connection"
    RESET = "end it by a reset"


def answers(*texts):
    """The steps in which each of these texts answers a request."""
    return [step for text in texts for step in (Step.READ, text)]


def answers_both(text):
    """The steps in which this text answers a branch's request, once the other branch's has come."""
    return [Step.READ, Step.MEET, text]


# The counter's connections: P stores 5, and each branch adds 1 to it while the other one does.
P = answers(b"NOT_FOUND\r\n", b"STORED\r\n")
A = answers_both(b"6\r\n")
B = answers_both(b"7\r\n")


def read_request(reader):
    """The line of a request, with its block read; empty at the end."""
    line = reader.readline()
    words = line.split()
    if words and words[0] in WITH_BLOCK:
        reader.read(int(words[4]) + 2)
    return line


class Listening:
    """A server on a free port, or on this one, as long as the block runs. It counts connections."""

    def __init__(self, port=0):
        self.listener = socket.create_server(("127.0.0.1", port), backlog=100)
        self.port, self.taken = self.listener.getsockname()[1], 0

    def __enter__(self):
        threading.Thread(target=self.serve, daemon=True).start()
        return self

    def __exit__(self, *_):
        # It may be closed already. A close alone doesn't end an accept that waits.
        with contextlib.suppress(OSError):
            self.listener.shutdown(socket.SHUT_RDWR)
        self.listener.close()

    def serve(self):
        with contextlib.suppress(OSError):
            while True:
                self.begin(self.accept())

    def accept(self):
        connection = self.listener.accept()[0]
        connection.setsockopt(socket.IPPROTO_TCP, socket.TCP_NODELAY, 1)
        self.taken += 1
        return connection


class Talking(Listening):
    """A server that does the steps of a talk on each connection, and then reads on to its end.
    `rests` is what came on each connection after its steps."""

    def __init__(self, port=0):
        super().__init__(port)
        self.rests, self.threads = [], []

    def start(self, connection, talk, meeting=None):
        thread = threading.Thread(target=self.talk, args=(connection, talk, meeting), daemon=True)
        thread.start()
        self.threads.append(thread)

    def wait(self):
        """Waits until each connection has ended."""
        for thread in self.threads:
            thread.join(SECONDS)

    def talk(self, connection, talk, meeting):
        broken = (OSError, threading.BrokenBarrierError)
        with contextlib.suppress(*broken), connection, connection.makefile("rb") as reader:
            if all(self.step(connection, reader, step, meeting) for step in talk):
                self.rests.append(reader.read())

    @staticmethod
    def step(connection, reader, step, meeting):
        """Does one step, and answers whether the connection goes on."""
        if step is Step.READ:
            return bool(read_request(reader))
        if isinstance(step, Request):
            return reader.read(len(step.text)) == step.text
        if step in (Step.PAUSE, Step.SOON):
            time.sleep(0.05 if step is Step.PAUSE else 0.001)
        elif step is Step.MEET:
            meeting.wait(SECONDS)
        elif step is Step.RESET:
            reset_at_close(connection)
            return False
        elif step is Step.END:
            return False
        else:
            connection.sendall(step)
        return True


class Scripted(Talking):
    """It takes the connections of one run after another, of each run three, in the order P, A, B,
    and does the steps of each. It listens no more once it has the last one."""

    def __init__(self, *runs, port=0):
        super().__init__(port)
        self.runs = runs

    def serve(self):
        with contextlib.suppress(OSError):
            for number, run in enumerate(self.runs, 1):
                taken, meeting = [(self.accept(), talk) for talk in run], threading.Barrier(2)
                if number == len(self.runs):
                    self.listener.close()
                # A connection that is reset unread is gone before another one is answered.
                is_reset = lambda talk: talk[:1] == [Step.RESET]
                for connection, talk in sorted(taken, key=lambda it: not is_reset(it[1])):
                    (self.talk if is_reset(talk) else self.start)(connection, talk, meeting)


class Replying(Talking):
    """It takes any number of connections, and does these talks in turn."""

    def __init__(self, *talks):
        super().__init__()
        self.talks = itertools.cycle(talks)

    def begin(self, connection):
        self.start(connection, next(self.talks))


class Carrying(Listening):
    """A proxy before the server on a port, which makes no fault."""

    def __init__(self, port):
        super().__init__()
        self.behind = port

    def begin(self, client):
        server = connect(self.behind)
        for way in ((client, server, self.request), (server, client, self.reply)):
            threading.Thread(target=self.carry, args=way, daemon=True).start()

    def carry(self, source, target, changed):
        with contextlib.suppress(OSError):
            for piece in self.pieces(source):
                target.sendall(changed(piece))
        with contextlib.suppress(OSError):
            self.end(target)

    def pieces(self, source):
        while piece := source.recv(65_536):
            yield piece

    def end(self, target):
        target.shutdown(socket.SHUT_WR)

    def request(self, piece):
        return piece

    def reply(self, piece):
        return piece
