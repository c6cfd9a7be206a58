"""What tools/fuzz finds: each odd end, by programs that end so, and nothing else in one that ends
as is documented; with --lines one that ends by a signal on each kind of input."""

import pathlib
import subprocess
import sys
import tempfile
import unittest

FUZZ = pathlib.Path(__file__).resolve().parent / "fuzz"
SHELL, PYTHON = "#!/bin/sh\n", f"#!{sys.executable}\nimport sys, time\n"
ENDS = "print('unexplained')\nsys.exit(1)\n"
NONE = "it wrote nothing that is documented"
# A program, and a text of what is to be found odd about it; or none.
PROGRAMS = [
    (SHELL + "echo unexplained\nkill -SEGV $$\n", "it ended by signal 11"),
    (SHELL + "echo unexplained\nexit 7\n", "status 7 where 1 belongs to what it wrote"),
    (SHELL + "echo undecided\nexit 0\n", "status 0 where 4 belongs to what it wrote"),
    (SHELL + "echo unexplained\necho oops >&2\nexit 1\n", "it wrote to standard error: b'oops"),
    (SHELL + "echo explained\n", NONE),
    (SHELL + "echo unexplained\necho unexplained\nexit 1\n", NONE),
    (PYTHON + f"while time.process_time() < 2.2: pass\n{ENDS}", "s of processor time"),
    (PYTHON + f"held = b'x' * (650 << 20)\n{ENDS}", "it took 6"),
    (SHELL + "echo out of memory\necho mcrace: why >&2\nexit 4\n", None),
]
AT_NOTES = SHELL + "grep -q 'history 2' && kill -SEGV $$\necho out of memory\nexit 4\n"


class Fuzz(unittest.TestCase):
    def setUp(self):
        folder = tempfile.TemporaryDirectory()
        self.addCleanup(folder.cleanup)
        self.program = pathlib.Path(folder.name, "program")
        self.kept = self.program.with_name("kept")

    def ended(self, text, *words):
        """How the tool ends on a program with this text."""
        self.program.write_text(text)
        self.program.chmod(0o700)
        words = [sys.executable, FUZZ, self.program, *words]
        for _ in range(3):
            its = subprocess.run(words, capture_output=True, text=True, check=False)
            # A loaded machine may give a program less than its seconds of processor time.
            if "it may wait" not in its.stdout:
                break
        return its

    def test_odd_ends(self):
        for text, why in PROGRAMS:
            with self.subTest(text):
                seconds = "60" if why else "2"
                its = self.ended(text, "--seconds", seconds, "--seed", "1", "--keep", self.kept)
                self.assertEqual(its.returncode, 1 if why else 0, its)
                self.assertIn(why or " 0 odd", its.stdout)
                self.assertEqual(self.kept.is_file(), why is not None)
                self.kept.unlink(missing_ok=True)

    def test_lines(self):
        its = self.ended(AT_NOTES, "--lines")
        lines = its.stdout.splitlines()
        self.assertEqual((its.returncode, len(lines)), (1, 2), its)
        self.assertRegex(lines[0], "^failed: judge --why, missed-write.history .*signal 11")
