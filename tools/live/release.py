"""The program that is kept: a user runs what was proved here.

`./test --prove` runs these tests, with the program that was just proved and built.
"""

import hashlib
import pathlib
import subprocess
import tempfile

from parts import shell

from .program import PROGRAM, ROOT, LiveTest, rows

KEPT, BUILT_FROM = ROOT / "release/mcrace", ROOT / "release/built-from"
HISTORY = (ROOT / "examples/lost-update.history").read_bytes()


class Release(LiveTest):
    """`release/` and `./mcrace`, which runs what is there."""

    def setUp(self):
        self.kept = KEPT.read_bytes()
        lines = BUILT_FROM.read_text(encoding="utf-8").splitlines()
        self.built_from = dict(line.split(" ", 1) for line in lines)

    def test_built_from(self):
        """It has the sources at hand, the sum of the bytes, and the toolchain that made them."""
        self.assertEqual(list(self.built_from), ["sources", "program", "toolchain"])
        self.assertEqual(self.built_from["sources"], shell("source_hash ."))
        self.assertEqual(self.built_from["program"], hashlib.sha256(self.kept).hexdigest())
        self.assertRegex(self.built_from["toolchain"], r"\Arattle-kit-\S+ logic [0-9a-f]{16}\Z")

    def test_bytes(self):
        """The same toolchain builds the same bytes. Another one may build others."""
        there, here = self.built_from["toolchain"], shell("rt version")
        if self.kept == PROGRAM.read_bytes():
            print(f"{PROGRAM}, built by {here}, is release/mcrace, built by {there}")
        elif there == here:
            self.fail(f"release/mcrace isn't {PROGRAM}, and {here} built both")
        else:
            self.skipTest(f"{there} built release/mcrace, and {here} built other bytes")

    @rows([("itself", 0), ("a link", 1), ("a link to a link", 2)])
    def test_mcrace(self, links):
        folder = pathlib.Path(self.enter(tempfile.TemporaryDirectory()))
        program = ROOT / "mcrace"
        for number in range(links):
            link = folder / f"link-{number}"
            link.symlink_to(program if number == 0 else program.name)
            program = link
        ran = subprocess.run([program, "judge"], input=HISTORY, capture_output=True, check=False)
        self.assertEqual((ran.stdout, ran.returncode), (b"unexplained\n", 1), ran)

    @rows([("sources", "--built-from", ""), ("version", "--version", "mcrace 0.1.0\n"),
           ("V", "-V", "mcrace 0.1.0\n")])
    def test_mcrace_tells_what_it_was_built_from(self, word, before):
        told = subprocess.run([ROOT / "mcrace", word], capture_output=True, check=True).stdout
        self.assertEqual(told.decode(), f"{before}sources {shell('source_hash .')}\n")
