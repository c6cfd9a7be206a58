"""What pymemcache and pylibmc do with `mcrace serve`: one set of tests over two adapters."""

import concurrent.futures
import contextlib
import importlib
import types
import unittest

from . import servers
from .program import LiveTest, rows

SECONDS = 20
EVERY_BYTE = bytes(range(256))
LONGEST = EVERY_BYTE * 256
LENGTHS = [*range(300), 1023, 1024, 2047, 2048, 4095, 4096, 16384, 65535, 65536]
BODIES = [EVERY_BYTE, EVERY_BYTE[::-1], b"\r\n", b"END\r\n", b"\0" * 1000]
# Calls, each with what it answers, beginning with no key.
CALLS = {
    "sets and gets": [
        ("get", "a", None), ("set", "a", b"1", True), ("get", "a", b"1"), ("set", "a", b"", True),
        ("get", "a", b""), ("set", "a", LONGEST, True), ("get", "a", LONGEST)],
    "adds and replaces": [
        ("replace", "a", b"1", False), ("add", "a", b"2", True), ("add", "a", b"3", False),
        ("get", "a", b"2"), ("replace", "a", b"4", True), ("get", "a", b"4")],
    "appends and prepends": [
        ("append", "a", b"x", False), ("prepend", "a", b"x", False), ("set", "a", b"m", True),
        ("append", "a", b"yz", True), ("prepend", "a", b"kl", True), ("get", "a", b"klmyz")],
    "counts": [
        ("incr", "a", 1, None), ("decr", "a", 1, None), ("set", "a", b"9", True),
        ("incr", "a", 1, 10), ("incr", "a", 5, 15), ("decr", "a", 20, 0),
        ("set", "a", b"%d" % (2**64 - 1), True), ("incr", "a", 2, 1)],
    "deletes and touches": [
        ("delete", "a", False), ("touch", "a", 0, False), ("set", "a", b"1", True),
        ("touch", "a", 0, True), ("delete", "a", True), ("get", "a", None)],
    "many keys": [("set_many", {"a": b"1", "b": b"2"}, []),
                  ("get_many", ["a", "b", "c"], {"a": b"1", "b": b"2"})],
}


def side_by_side(count, work):
    with concurrent.futures.ThreadPoolExecutor(count) as threads:
        for it in [threads.submit(work) for _ in range(count)]:
            it.result()


class ClientTests:
    """What both clients do, each verb, all bodies, and several at once."""

    @classmethod
    def setUpClass(cls):
        try:
            cls.library = importlib.import_module(cls.needs)
        except ImportError:
            raise unittest.SkipTest(f"{cls.needs} is not installed") from None
        server = servers.serving()
        cls.port = server.__enter__().port
        cls.addClassCleanup(server.__exit__, None, None, None)

    def call(self, method, *given):
        return getattr(self.client, method)(*given)

    def setUp(self):
        self.client = self.connect()
        for key in ("a", "b", "c"):
            self.client.delete(key)

    @rows(CALLS.items())
    def test_calls(self, calls):
        self.setUp()
        for method, *given, wanted in calls:
            self.assertEqual(self.call(method, *given), wanted, (method, given))

    def test_swaps_by_number(self):
        self.call("set", "a", b"1")
        body, number = self.call("gets", "a")
        self.assertEqual(body, b"1")
        self.assertIs(self.call("cas", "a", b"2", number), True)
        self.assertIs(self.call("cas", "a", b"3", number), False)
        self.assertEqual(self.call("get", "a"), b"2")
        self.assertIsNone(self.call("cas", "b", b"3", number))

    def test_counts_by_cas_loops(self):
        """Four clients each add 50 by gets and cas, and none is lost."""
        self.call("set", "a", b"0")

        def add():
            client, swapped = self.connect(), 0
            while swapped < 50:
                body, number = client.gets("a")
                swapped += client.cas("a", b"%d" % (int(body) + 1), number)

        side_by_side(4, add)
        self.assertEqual(self.call("get", "a"), b"200")

    def test_counts_together(self):
        """Four clients each incr 200 times, and each number is answered once."""
        self.call("set", "a", b"0")
        answered = []

        def add():
            client = self.connect()
            answered.extend([client.incr("a", 1) for _ in range(200)])

        side_by_side(4, add)
        self.assertEqual(sorted(answered), [*range(1, 801)])

    @rows([("every byte", BODIES), ("all lengths", [LONGEST[:length] for length in LENGTHS])])
    def test_bodies(self, bodies):
        for body in bodies:
            self.assertIs(self.call("set", "a", body), True)
            self.assertEqual(self.call("get", "a"), body)

    def test_two_hundred_keys(self):
        """One line asks for all, and has at most 2,048 bytes."""
        many = {f"key-{i}": b"%d" % i for i in range(200)}
        self.assertEqual(self.call("set_many", many), [])
        self.assertEqual(self.call("get_many", [*many]), many)
        for key in many:
            self.client.delete(key)


class WithPymemcache(ClientTests, LiveTest):
    """pymemcache, which is Python's own."""

    needs = "pymemcache"

    def base(self, kind="Client", **more):
        from pymemcache.client import base

        named = {"connect_timeout": SECONDS, "timeout": SECONDS, "default_noreply": False, **more}
        return getattr(base, kind)(("127.0.0.1", self.port), **named)

    def connect(self):
        return self.base(no_delay=True)

    def test_flags(self):
        """What is stored is a pair of a body and flags."""
        pairs = {"serialize": lambda _, pair: pair, "deserialize": lambda _, *pair: pair}
        self.client.serde = types.SimpleNamespace(**pairs)
        for flags in (0, 1, 2**31, 2**32 - 1):
            self.client.set("a", (b"1", flags))
            self.assertEqual(self.client.get("a"), (b"1", flags))

    def test_many_numbers(self):
        self.client.set_many({"a": b"1", "b": b"2"})
        found = self.client.gets_many(["a", "b", "c"])
        self.assertEqual({key: it[0] for key, it in found.items()}, {"a": b"1", "b": b"2"})

    def test_no_replies(self):
        client = self.base(default_noreply=True)
        client.delete("a")
        client.set("a", b"1")
        client.append("a", b"2", noreply=True)
        client.incr("a", 1, noreply=True)
        self.assertEqual(client.get("a"), b"13")
        client.delete("a")
        self.assertIsNone(client.get("a"))

    def test_pool(self):
        pool = self.base("PooledClient", max_pool_size=16)
        pool.set("b", b"x")
        found = []
        side_by_side(16, lambda: found.append(pool.get("b")))
        self.assertEqual(found, [b"x"] * 16)


class WithPylibmc(ClientTests, LiveTest):
    """pylibmc, which is libmemcached, by the text protocol."""

    needs = "pylibmc"

    def connect(self):
        behaviors = {"cas": True, "tcp_nodelay": True}
        return self.library.Client([f"127.0.0.1:{self.port}"], behaviors=behaviors)

    def call(self, method, *given):
        """It raises an exception if a key isn't there, where pymemcache answers None."""
        with contextlib.suppress(self.library.NotFound):
            return super().call(method.replace("many", "multi"), *given)

    def test_flags(self):
        """Numbers and texts are stored with flags of pylibmc's own, which say what they are."""
        for key, value in (("a", 41), ("b", True), ("c", "m")):
            self.client.set(key, value)
            self.assertEqual(self.client.get(key), value)
        self.assertTrue(self.client.append("c", "n"))
        self.assertEqual(self.client.get("c"), "mn")
