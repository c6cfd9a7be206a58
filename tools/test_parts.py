"""Tests of what counts the parts of ./test, and the tests of a part: what must fail does, and is
told at the end."""

import contextlib
import io
import pathlib
import runpy
import time
import unittest

from parts import Parts, below, end_all

# A part by its name, with its mark; its command, and how many pass, fail and are skipped.
ROWS = [
    ("counts", "echo 3 passed, 0 failed, 2 skipped", [3, 0, 2]),
    ("a failed one", "sh -c 'echo failed: it; echo 3 passed, 1 failed; exit 1'", [3, 1, 0]),
    ("no counts", "true", [0, 1, 0]),
    ("a status where none is counted", "sh -c 'echo 3 passed, 0 failed; exit 1'", [3, 1, 0]),
    ("an end by a signal", "sh -c 'echo 3 passed, 0 failed; kill -9 $$'", [3, 1, 0]),
    ("=a status that holds", "true", [1, 0, 0]),
    ("=a status that doesn't", "false", [0, 1, 0]),
    ("&beside others", "sh -c 'sleep 0.1; echo 3 passed, 1 failed'", [3, 1, 0]),
]


class PartsOfTest(unittest.TestCase):
    """Each is counted, and each that failed makes the whole fail."""

    def test_counts(self):
        for name, command, wanted in ROWS:
            with self.subTest(name), contextlib.redirect_stdout(io.StringIO()) as said:
                parts = Parts()
                parts.run_all({name: command})
                parts.finish()
                heading = "what failed:\nfailed: " + name.lstrip("=&")
                found = parts.counts, parts.close(""), heading in said.getvalue()
                self.assertEqual(found, (wanted, wanted[1], bool(wanted[1])))

    def test_ends_all(self):
        """What heeds no SIGTERM, and what has a session of its own, ends too."""
        deaf = "sh -c 'trap : TERM; setsid sleep 60 & while :; do sleep 1; done'"
        Parts().run_all({"&deaf": deaf})
        while len(below()) < 3:
            time.sleep(0.05)
        end_all()
        self.assertEqual(below(), set())


class Unsteady(unittest.TestCase):
    """What `TriesOfTest` has run."""

    is_well = False

    def check(self):
        for row in range(3):
            with self.subTest(str(row)):
                self.assertTrue(row or self.is_well)


class Final(Unsteady):
    class failureException(AssertionError):
        is_final = True


class NotBegun(Unsteady):
    @classmethod
    def setUpClass(cls):
        raise OSError


class TriesOfTest(unittest.TestCase):
    """A test that fails counts once no try is left, and all its rows count then."""

    def test_tries(self):
        run_class = runpy.run_path(str(pathlib.Path(__file__).with_name("run-tests")))["run_class"]
        # A class, whether its test passes, and the tries that are left; what counts, and what is
        # tried again.
        for row in [(Unsteady, True, 3, [3, 0, 0], []), (Unsteady, False, 2, [0, 0, 0], [0]),
                    (Unsteady, False, 1, [2, 1, 0], []), (Final, False, 3, [2, 1, 0], []),
                    (NotBegun, True, 2, [0, 0, 0], [0]),
                    (NotBegun, True, 1, [0, 1, 0], [])]:
            tested, is_well, tries, counts, again = row
            with self.subTest(str(row)):
                test = tested("check")
                test.is_well = is_well
                told, *found = run_class([test], tries)
                self.assertEqual(found, [counts, again])
                self.assertEqual("\nagain: " in f"\n{told}", bool(again), told)
