"""Tries the runner of mutants on a small repository, made for it in a temporary folder."""

import os
import pathlib
import re
import shutil
import signal
import subprocess
import sys
import tempfile
import time
import unittest

TOOLS = pathlib.Path(__file__).resolve().parents[1]
REPOSITORY = (TOOLS / "mutants/small-repository").read_text(encoding="utf-8")
FILES = dict(re.findall(r"(?ms)^== (\S+)\n(.*?)(?=^== |\Z)", REPOSITORY))
# The mutants that are killed, each in a line, without its line `file:`; one `none:`; and those that
# fail, each with the beginning of what is said.
KILLED, NONE, FAILED = (FILES.pop(it) for it in ("killed", "none", "failed"))
WHY = dict(re.findall(r"(?m)^([\w:]+);.* = (.*)$", FAILED)) | {"small::itself": "no mutant stands"}
# Prints the line that keeps the outcome of `small`.
FORGE = """import crates, kept, pathlib
root = pathlib.Path()
print("small", kept.sum_for(root, crates.crates_of(root)["small"]))"""


class Runner(unittest.TestCase):
    """The runner, in a repository of two crates."""

    @classmethod
    def setUpClass(cls):
        folder = tempfile.TemporaryDirectory(prefix="test-mutants-")
        cls.addClassCleanup(folder.cleanup)
        cls.root = pathlib.Path(folder.name)
        cls.runner, cls.kept = cls.root / "tools/mutants/run", cls.root / "tools/mutants/kept"
        ignored = shutil.ignore_patterns("live", "memory")
        shutil.copytree(TOOLS, cls.root / "tools", ignore=ignored)

    def setUp(self):
        self.kept.write_text("", encoding="utf-8")
        for file, text in FILES.items():
            (self.root / file).parent.mkdir(parents=True, exist_ok=True)
            (self.root / file).write_text(text, encoding="utf-8")

    def write(self, text):
        """Writes these mutants."""
        lines = [it.replace("; ", "\n") for it in re.sub(r"(?m) = .*$", "", text).splitlines()]
        blocks = [re.sub(r"\A(\w+)\n", r"\1\nfile: src/lib.rt\n", it) for it in lines]
        (self.root / "crates/small/mutants").write_text("\n\n".join(blocks), encoding="utf-8")

    def run_it(self, *words):
        """What the runner says: what failed and why, its last line, and all."""
        how = {"capture_output": True, "text": True, "check": False}
        said = subprocess.run([self.runner, *words], **how).stdout
        failed = dict(re.findall(r"(?m)^failed: (?:small/)?(\S+): (.*)", said))
        return failed, said.splitlines()[-1], said

    def test_verdicts(self):
        """Each mutant has its verdict, and a crate with one that failed isn't kept."""
        self.write(FAILED + KILLED)
        failed, last, said = self.run_it("--keep")
        self.assertEqual(failed.keys(), WHY.keys(), said)
        for name, why in WHY.items():
            self.assertEqual(failed[name][: len(why)], why)
        self.assertEqual(last, f"6 passed, {len(WHY)} failed")
        self.assertEqual(self.kept.read_text(encoding="utf-8"), "")

    def test_kept_outcomes(self):
        """If all were killed, that is kept, and then only those are tried that always are or are
        drawn. A contract that lets a mutant through has another sum."""
        self.write(KILLED + NONE)
        self.assertEqual(self.run_it("--keep")[1], "6 passed, 0 failed")
        _, last, said = self.run_it()
        tried = int(re.search(r"small: (\d) of 6 tried", said)[1])
        self.assertEqual((last, 3 <= tried < 6), ("6 passed, 0 failed", True), said)
        library = self.root / "crates/small/src/lib.rt"
        weak = FILES["crates/small/src/lib.rt"].replace("third { c ≤", "third { 0 ≤")
        library.write_text(weak, encoding="utf-8")
        failed, _, said = self.run_it()
        self.assertEqual(failed.keys(), {"forgets_the_third"}, said)

    def test_forged_outcomes(self):
        """A kept sum that isn't that of the texts counts for nothing, with --whole none does."""
        self.write(KILLED + NONE + FAILED.splitlines()[0])
        self.kept.write_text(f"small {'0' * 64}\n", encoding="utf-8")
        self.assertEqual(self.run_it()[0].keys(), {"weak"})
        path = f"{self.runner.parent}:{self.root}/tools"
        how = {"cwd": self.root, "env": os.environ | {"PYTHONPATH": path}, "check": True}
        with open(self.kept, "wb") as file:
            subprocess.run([sys.executable, "-c", FORGE], stdout=file, **how)
        self.assertEqual(self.run_it()[0], {})
        self.assertEqual(self.run_it("--whole")[0].keys(), {"weak"})

    def test_signals(self):
        """A signal to the runner alone ends all that it started."""
        self.write(KILLED + NONE)
        words = ["env", f"TMPDIR={self.root}", self.runner]
        with subprocess.Popen(words, stdout=subprocess.PIPE) as started:
            started.stdout.readline()
            time.sleep(3)
            self.assertTrue(running_below(self.root))
            started.send_signal(signal.SIGTERM)
            self.assertEqual(started.wait(60), 143)
        self.assertEqual(running_below(self.root), [])


def running_below(root):
    """The processes that run in the folder of a mutant's copy."""
    folders = map(os.path.realpath, pathlib.Path("/proc").glob("[0-9]*/cwd"))
    return [it for it in folders if it.startswith(f"{root}/mutants-")]
