"""Rounds of many clients in `mcrace test`: what they find is told with what shows it, right servers
aren't blamed, and servers that fail in a round are told."""

import json
import pathlib
import re
import shlex
import tempfile
import threading
from xml.etree import ElementTree

from . import servers, test_suite
from .program import (ROOT, LiveTest, judged, on_processors, rows, run, see_unblamed,
                      three_times)
from .test_scripts import ScriptTest

# The scripts of the other races are left out, so that rounds come often.
RACE = "add-over-set"
SKIPPED = ",".join(race for race in test_suite.BUGS if race != RACE)
# A script has at most this many requests at once without a reply. On few processors it is alone.
FEW, FEW_PROCESSORS = 2, 3
# More than the requests of all verbs alone, since each has a line.
ALONE = sum(len(it.read_text().splitlines()) for it in (ROOT / "examples/alone").iterdir())
FOUND = re.compile(
    r"^found: stress - no order explains what 8 clients sent and received\n"
    r"  seen in [123] of [\d,]+ rounds\n\n"
    r"(?P<shown>(?:  .*\n)+)\n"
    r"  Proved: no order of these requests gives these replies\.\n"
    r"  Play it again:\n    mcrace (?P<again>.*) \\\n(?P<more>.*)\n\n", re.M)


class Crowded(servers.Carrying):
    """A proxy that changes replies, but only if more requests wait for one than scripts have."""

    def __init__(self, port, changed):
        super().__init__(port)
        self.changed, self.waiting, self.lock = changed, 0, threading.Lock()
        # How many replies came before so many requests first waited.
        self.before, self.is_met = 0, False

    def request(self, piece):
        if piece != b"quit\r\n":
            with self.lock:
                self.waiting += 1
        return piece

    def reply(self, piece):
        with self.lock:
            is_crowd, self.waiting = self.waiting > FEW, self.waiting - 1
            self.is_met = self.is_met or is_crowd
            self.before += not self.is_met
        return self.changed(piece) if is_crowd else piece


def too_large(piece):
    """A reply in which a number is too large, if it is one."""
    return re.sub(rb"\A(\d+)\r\n\Z", lambda it: b"%d\r\n" % (int(it[1]) + 7_000_000_000), piece)


def closing(_):
    raise OSError


class CrowdTest(LiveTest):
    """What the tests have in common."""

    seconds = 40

    def found(self, changed, *options):
        """A test of a server with this race of many clients, and its port."""
        with Crowded(self.enter(servers.serving()).port, changed) as proxy, \
                on_processors(FEW_PROCESSORS):
            return test_suite.tested(proxy.port, "--skip", SKIPPED, *options), proxy.port


class Races(ScriptTest, CrowdTest):
    """Servers with races."""

    @three_times
    def test_found(self):
        """A race that two branches never show is found, and found again by what is printed."""
        with Crowded(self.enter(servers.serving()).port, too_large) as proxy:
            with on_processors(FEW_PROCESSORS):
                found = test_suite.tested(proxy.port, "--for", "6s", "--skip", SKIPPED)
            self.assertEqual((found.status, found.faults), (1, ""), found.text)
            told = FOUND.search(found.text)
            self.assertTrue(told, found.text)
            words = shlex.split(f"{told['again']} {told['more']}")
            self.assertEqual(words[:2], ["stress", f"127.0.0.1:{proxy.port}"])
            again = run([*words, "--quiet"])
        self.assertEqual(again.status, 1, again.text)
        self.assertIn("\nunexplained\nkey k", again.text)
        self.assertIn("^ no order explains this\n", told["shown"])
        self.assertLessEqual(told["shown"].count("\n"), 44)
        self.assertEqual(found.text.count("found: "), 1, found.text)
        self.assertRegex(found.text, r"\nrounds of 8 clients: [1-9]")
        self.assertRegex(found.text, r"\n1 race found in [\d,]+ runs and \d+\.\d s\n\Z")

    @three_times
    def test_faulty(self):
        """Of a race that scripts show too, both are told, and the script's own name first."""
        with self.faulty("lost-increment", test_suite.WIDE_WINDOW) as (_, port):
            found = test_suite.tested(port, "--for", "10s")
        self.assertEqual(found.status, 1, found.text)
        told = re.findall(r"^found: (\S+) -", found.text, re.M)
        self.assertEqual(told[:2], ["lost-increment", "stress"], found.text)
        self.assertTrue(FOUND.search(found.text), found.text)


class Right(CrowdTest):
    """Servers without a race."""

    def assert_nothing(self, found):
        see_unblamed(found.status, found.text)
        self.assertEqual(found.status, 0, found.text)
        self.assertRegex(found.text, r"\nrounds of 8 clients: [1-9]")
        self.assertRegex(found.text, r"\nno race found in ")

    @rows([("1", "1"), ("2", "2"), ("3", "3"), ("4", "4")])
    @three_times
    def test_memcached(self, seed):
        port = self.enter(servers.memcached()).port
        found = test_suite.tested(port, "--for", "3s", "--seed", seed, "--skip", SKIPPED)
        with self.assert_at_memcached():
            self.assert_nothing(found)

    @three_times
    def test_first(self):
        """Rounds come after each verb alone, and before the scripts of any race."""
        with Crowded(self.enter(servers.serving()).port, lambda piece: piece) as proxy:
            self.assert_nothing(test_suite.tested(proxy.port, "--for", "5s"))
        self.assertTrue(proxy.is_met)
        self.assertLess(proxy.before, ALONE)

    def test_carried(self):
        """A proxy of each branch, before the same server."""
        port = self.enter(servers.serving()).port
        a, b = (self.enter(servers.Carrying(port)).port for _ in "ab")
        branches = "--a", f"127.0.0.1:{a}", "--b", f"127.0.0.1:{b}"
        self.assert_nothing(test_suite.tested(port, "--for", "2s", "--skip", SKIPPED, *branches))

    def test_unknown_verb(self):
        """A mix with a verb that the server doesn't know isn't played."""
        proxy = self.enter(test_suite.Unknowing(self.enter(servers.serving()).port))
        found = test_suite.tested(proxy.port, "--for", "3s", "--skip", SKIPPED)
        self.assert_nothing(found)
        self.assertIn("not supported: touch\n", found.text)

    def test_only(self):
        """With `--only` there are no rounds."""
        port = self.enter(servers.serving()).port
        found = test_suite.tested(port, "--for", "1s", "--only", RACE)
        self.assertEqual(found.status, 0, found.text)
        self.assertIn("\nrounds of 8 clients: 0\n", found.text)


class Folders(CrowdTest):
    """What `--out` and `--json` have of rounds."""

    @three_times
    def test_files(self):
        with tempfile.TemporaryDirectory() as made:
            found, _ = self.found(too_large, "--for", "6s", "--out", made)
            files = {it.name: it.read_text() for it in pathlib.Path(made).iterdir()}
        self.assertEqual((found.status, found.faults), (1, ""), found.text)
        names = {*(f"stress-1.{end}" for end in ("history", "svg", "txt"))}
        self.assertEqual({*files}, {*names, "report.json", "junit.xml"})
        verdict = judged(files["stress-1.history"].encode())
        self.assertRegex(verdict, r"\Aunexplained\nkey \S+k[12]\n\Z")
        self.assertTrue(ElementTree.fromstring(files["stress-1.svg"]).tag.endswith("}svg"))
        self.assertIn(files["stress-1.txt"], found.text)
        self.check_report(json.loads(files["report.json"]), files["stress-1.history"])
        self.check_junit(ElementTree.fromstring(files["junit.xml"]), files["stress-1.txt"])

    def check_report(self, report, history):
        told, = report["stress"]["found"]
        self.assertEqual((report["status"], told["name"], told["history"]), (1, "stress", history))
        self.assertLessEqual(1, told["seen"])
        self.assertLessEqual(told["seen"], told["of"])
        self.assertEqual([told[it] for it in ("clients", "requests", "keys")], [8, 50, 2])
        # What other mixes ask isn't answered with numbers.
        self.assertIn(told["mix"], ("all", "counters"))
        self.assertLess(0, report["stress"]["rounds"])
        self.assertRegex(told["seed"], r"\A\d+\Z")

    def check_junit(self, suite, text):
        case, = (it for it in suite if it.get("classname") == "mcrace.stress")
        self.assertEqual(case.get("name"), "rounds of many clients")
        self.assertEqual(case.find("failure").text, text)
        self.assertEqual((suite.get("failures"), suite.get("errors")), ("1", "0"))


class Failing(CrowdTest):
    """Servers that fail once many clients ask at once."""

    @rows([
        ("hangs", lambda _: b"", 5,
         r"failed runs: [1-9]\d*; the first: stress: client \d: no reply to [^:]+ within 300ms"),
        ("closes", closing, 5,
         r"failed runs: [1-9]\d*; the first: stress: client \d: no reply [^:]+: the server closed"),
        ("garbles", lambda _: b"garbage\r\n", 1, r"wrong reply: stress client \d: [^:]+garbage"),
    ])
    @three_times
    def test_failing(self, changed, status, text):
        found, _ = self.found(changed, "--for", "4s", "--timeout", "300ms")
        self.assertEqual(found.status, status, found.text)
        self.assertRegex(re.sub(r"\s+", " ", found.text), text)
        self.assertIn("no race found in ", found.text)
