"""The scripts of examples/races: each finds its bug of examples/faulty_server.c, and no other."""

import itertools
import re
import shutil
import subprocess
import tempfile
import unittest
from concurrent.futures import ThreadPoolExecutor

from . import servers
from .program import ROOT, rows, run, see_unblamed, three_times

# A race or one of its scripts, and a bug that each of these finds.
RACES = [
    ("lost-increment", "lost-increment"), ("lost-increment", "increment-again"),
    ("lost-decrement", "lost-decrement"), ("lost-append", "lost-append"),
    ("lost-prepend", "lost-prepend"), ("lost-update", "lost-append"),
    ("lost-update-2", "lost-decrement"), ("cas-two-winners", "cas-two-winners"),
    ("cas-undoes", "cas-two-winners"), ("add-twice", "add-twice"), ("add-over-set", "add-over-set"),
    ("delete-twice", "delete-twice"), ("replace-after-delete", "replace-after-delete"),
    ("revived-item-1", "lost-increment"), ("revived-item-2", "lost-append"),
    ("revived-item-2", "lost-prepend"), ("revived-item-2", "lost-decrement"),
    ("revived-item-3", "cas-two-winners"), ("set-undone", "lost-increment"),
    ("set-undone-2", "lost-append"), ("set-undone-3", "lost-prepend"),
    ("touch-undoes", "touch-undoes"), ("stale-get", "stale-get"), ("stale-gets", "stale-get"),
    ("torn-gets", "torn-gets"), ("torn-body", "torn-body"), ("torn-flags", "torn-flags"),
    ("lost-flags", "lost-flags"), ("number-again", "number-again"),
]
# The microseconds of the windows that are tried in turn, first of a late store, then of other bugs:
# on a busy machine two threads of a server seldom run at once, so a further try has a wider window.
# In the widest ones the server sleeps.
LATE, WINDOWS = (60, 120, 300), (5, 20, 300)
SCRIPTS = {it.stem: it.read_text(encoding="utf-8")
           for it in sorted((ROOT / "examples/races").glob("*.script"))}
VERBS = "set add replace append prepend cas incr decr delete touch get gets".split()
# The most seconds of a try to find a bug, and the runs that a right server is asked for.
MOST_SECONDS, RUNS = 10, 300
# How many scripts are played at once, and how many right servers share them.
AT_ONCE, RIGHT = 8, 4


def race_of(script):
    return script.rpartition("-")[0]


def scripts_of(name):
    return [it for it in SCRIPTS if name in (it, race_of(it))]


def pairs_in(text):
    """The pairs of verbs of which A sends one, and B the other."""
    verbs = [re.findall(rf"^({'|'.join(VERBS)}) ", part, re.M)
             for part in re.search(r"^A\n(.*)^B\n(.*)\Z", text, re.M | re.S).groups()]
    return {frozenset(it) for it in itertools.product(*verbs)}


def played(script, port, *options):
    return run(["run", f"127.0.0.1:{port}", "--timeout", "5", *options], SCRIPTS[script].encode())


class ScriptTest(servers.LiveTest):
    """What tests of scripts have in common."""

    seconds = 15

    @classmethod
    def setUpClass(cls):
        if not shutil.which("cc"):
            raise unittest.SkipTest("there is no C compiler to make examples/faulty_server.c with")
        folder = tempfile.TemporaryDirectory()
        cls.addClassCleanup(folder.cleanup)
        cls.server = f"{folder.name}/faulty_server"
        words = ["cc", "-O2", "-pthread", "-o", cls.server, ROOT / "examples/faulty_server.c"]
        subprocess.run(words, check=True)

    def faulty(self, bug, window):
        return servers.started([self.server, "--bug", bug, "--window", window])

    def check_at_once(self, check, table):
        with ThreadPoolExecutor(AT_ONCE) as pool:
            checked = [(row, pool.submit(check, *row)) for row in table]
        for row, future in checked:
            with self.subTest(" at ".join(map(str, row))):
                future.result()


class Found(ScriptTest):
    """Each is unexplained at the server with its bug."""

    @three_times
    def check_found(self, script, bug):
        for window in LATE if bug == "stale-get" else WINDOWS:
            with self.faulty(bug, window) as (_, port):
                ran = played(script, port, "--for", f"{MOST_SECONDS}s")
            if ran.status:
                break
        self.assertEqual(ran.status, 1, ran.text)
        self.assertIn(" unexplained 1 other 0 ", ran.text)

    def test_found(self):
        table = [(it, bug) for name, bug in RACES for it in scripts_of(name)]
        self.assertEqual({script for script, _ in table}, {*SCRIPTS})
        self.check_at_once(self.check_found, table)


class Right(ScriptTest):
    """Each is explained at servers that are right."""

    def check_explained(self, script, port):
        ran = played(script, port, "--times", str(RUNS), "--name", script)
        see_unblamed(ran.status, ran.text)
        self.assertIn(f"runs {RUNS} explained {RUNS} ", ran.text)

    def check_all_explained(self, right):
        """All are explained at servers that are entered here, of which each has its share."""
        ports = itertools.cycle([self.enter(right()).port for _ in range(RIGHT)])
        self.check_at_once(self.check_explained, [*zip(SCRIPTS, ports)])

    def test_right(self):
        self.check_all_explained(lambda: self.faulty("none", 0))

    def test_memcached(self):
        self.check_all_explained(servers.memcached)


class Table(unittest.TestCase):
    """The scripts as a table of races."""

    @rows((it, it) for it in sorted({*map(race_of, SCRIPTS)}))
    def test_first_lines(self, race):
        """The first line of a race's scripts, of which there are at most three, is its sentence."""
        lines = {SCRIPTS[it].partition("\n")[0] for it in scripts_of(race)}
        self.assertEqual(len(lines), 1, lines)
        self.assertRegex(lines.pop(), rf"\A# {race}: [^.]+\.\Z")
        numbers = range(1, 1 + len(scripts_of(race)))
        self.assertEqual(scripts_of(race), [f"{race}-{it}" for it in numbers])
        self.assertLessEqual(len(numbers), 3)

    def test_pairs(self):
        """Each pair of the twelve verbs is in a script, one in A and the other in B."""
        wanted = map(frozenset, itertools.combinations_with_replacement(VERBS, 2))
        self.assertEqual({*wanted} - set().union(*map(pairs_in, SCRIPTS.values())), set())
