"""examples/clients: histories of what the calls of client libraries answered to two threads."""

import importlib
import os
import pathlib
import shutil
import subprocess
import sys
import tempfile
import unittest

from . import servers
from .program import PROGRAM, ROOT, SECONDS, judged, rows, three_times

CLIENTS = ROOT / "examples/clients"
HEADER = pathlib.Path("/usr/include/libmemcached/memcached.h")
ROUNDS, MOST_ROUNDS = 10, 6000
# A fault is found in so many seconds.
MOST_SECONDS = 10


class Recorded(servers.ServedTest):
    """The clients of examples/clients: two that are right, and three with a fault each."""

    needs = "unittest"
    right, wrong = ("locked", "pool"), ("wrong-reply", "retried-incr", "shared-connection")

    def setUp(self):
        try:
            importlib.import_module(self.needs)
        except ImportError:
            raise unittest.SkipTest(f"{self.needs} is not installed") from None
        super().setUp()

    def tried(self, name, port, rounds):
        words = [sys.executable, CLIENTS / "two-threads", name, f"127.0.0.1:{port}", str(rounds)]
        environment = {**os.environ, "MCRACE": str(PROGRAM)}
        ran = subprocess.run(words, capture_output=True, text=True, check=False,
                             timeout=10 * SECONDS, env=environment)
        return ran.returncode, ran.stdout, ran.stderr

    def test_right(self):
        for name in self.right:
            with self.subTest(name):
                status, output, told = self.tried(name, self.port, ROUNDS)
                self.assertEqual((status, output), (0, ""), told)
                self.assertIn(f"rounds {ROUNDS} raised 0 ", told)

    def test_right_with_memcached(self):
        self.port = self.enter(servers.memcached()).port
        self.test_right()

    def test_wrong(self):
        for name in self.wrong:
            with self.subTest(name):
                self.assert_found(name)

    @three_times
    def assert_found(self, name):
        with self.assert_takes(0, MOST_SECONDS):
            status, output, told = self.tried(name, self.port, MOST_ROUNDS)
        self.assertEqual((status, output[:12]), (1, "unexplained\n"), told)
        history = output[output.index("history 2\n") :]
        self.assertEqual(judged(history.encode()), "unexplained\n")


class Dropping(servers.Carrying):
    """It ends a connection in place of its fifth reply, when P has its two."""

    replies = 0

    def reply(self, piece):
        self.replies += 1
        if self.replies == 5:
            raise ConnectionError
        return piece


class WithPymemcache(Recorded):
    """Its pool is for threads, and its plain client isn't."""

    needs = "pymemcache"
    right, wrong = ("pymemcache", "pymemcache-pool"), ("pymemcache-shared",)

    def test_lost_reply(self):
        """It raises an exception, and the call has no answer."""
        status, _, told = self.tried("pymemcache", self.enter(Dropping(self.port)).port, 1)
        self.assertEqual((status, told[:18]), (0, "rounds 1 raised 1 "))


class WithPythonMemcached(Recorded):
    """Its client has a connection for each thread, so that it may be shared."""

    needs = "memcache"
    right, wrong = ("python-memcached", "python-memcached-shared"), ()

    def test_lost_reply(self):
        """It answers as if the item weren't there, or weren't stored."""
        port = self.enter(Dropping(self.port)).port
        status, output, told = self.tried("python-memcached", port, 1)
        self.assertEqual((status, output[:12]), (1, "unexplained\n"), told)


class InC(servers.ServedTest):
    """The same in C, with libmemcached."""

    @rows([("each once", [], "explained\n"), ("one sent again", ["retry"], "unexplained\n")])
    def test_counters(self, more, verdict):
        compiler = shutil.which("gcc")
        if not compiler or not HEADER.exists():
            self.skipTest("gcc or libmemcached is not installed; on Debian: libmemcached-dev")
        program = pathlib.Path(self.enter(tempfile.TemporaryDirectory())) / "counters"
        words = [compiler, "-Wall", "-Wextra", "-Werror", "-o", program, CLIENTS / "counters.c"]
        subprocess.run([*words, "-lmemcached", "-pthread"], check=True)
        words = [program, "127.0.0.1", str(self.port), "n", *more]
        history = subprocess.run(words, capture_output=True, check=True, timeout=SECONDS).stdout
        self.assertEqual(judged(history).split("\n")[0] + "\n", verdict)
