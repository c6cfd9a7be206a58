"""The scripts of `examples/ci`: what a CI job runs, and a part of a campaign."""

import os
import pathlib
import random
import subprocess
import tempfile
from xml.etree import ElementTree

from .program import PROGRAM, ROOT, LiveTest, judged, run
from .servers import losing_updates, serving

COUNTER = ROOT / "examples/two-increments.script"
REFUSED = ROOT / "examples/flag-race.script"


class ScriptTest(LiveTest):
    """What runs a script, which finds `mcrace`."""

    def setUp(self):
        self.top = pathlib.Path(self.enter(tempfile.TemporaryDirectory()))
        (self.top / "mcrace").symlink_to(PROGRAM)

    def run_script(self, name, *words):
        """Its status, and what it prints."""
        words = [ROOT / "examples/ci" / name, *map(str, words)]
        more = {"env": {**os.environ, "PATH": f"{self.top}:{os.environ['PATH']}"}, "text": True}
        ran = subprocess.run(words, capture_output=True, check=False, **more)
        self.assertEqual(ran.stderr, "")
        return ran.returncode, ran.stdout


class RaceTest(ScriptTest):
    """Its status says what it found, and its folder has the histories."""

    seconds = 12

    def run_at(self, port, seconds, script):
        """Its status, what it prints, and its folder."""
        folder = self.top / "races"
        words = f"127.0.0.1:{port}", f"{seconds}s", 7, folder, script
        return *self.run_script("race-test", *words), folder

    def test_right_server(self):
        with serving() as (_, port):
            status, told, folder = self.run_at(port, 2, COUNTER)
        self.assertEqual(told, "two-increments: exit status 0\ncampaign: exit status 0\n")
        self.assertEqual(status, 0)
        self.assertRegex(judged((folder / "two-increments.history").read_bytes()), r"\Aexplained\n")
        self.assertIn(b"<svg", (folder / "two-increments.svg").read_bytes())
        suite = ElementTree.parse(folder / "campaign.xml").getroot()
        self.assertEqual((suite.get("failures"), suite.get("errors")), ("0", "0"))
        self.assertEqual((folder / "campaign.history").read_bytes(), b"")
        self.assertIn("seed 7,", (folder / "campaign.err").read_text())

    def test_racy_server(self):
        """It stays found, though the campaign meets requests that this server doesn't know."""
        with losing_updates(0.5) as (_, port):
            status, told, folder = self.run_at(port, 1, COUNTER)
        self.assertRegex(told, r"\Atwo-increments: exit status 1\nrun ")
        self.assertEqual(status, 1)
        self.assertEqual(judged((folder / "two-increments.history").read_bytes()), "unexplained\n")

    def test_refused_script(self):
        """That another part found nothing wrong doesn't hide it."""
        with serving() as (_, port):
            status, told, _ = self.run_at(port, 1, REFUSED)
        self.assertRegex(told, r"\Aflag-race: exit status 3\nrefused verify 8 FlagMayBeClear B 0\n")
        self.assertEqual(status, 3)


class CampaignPart(ScriptTest):
    """Parts, joined, are the campaign."""

    def test_parts(self):
        # so that no other test has the ports
        first, reports = 20 * random.randrange(9000), b""
        for at in (first + 20, first):
            self.assertEqual(self.run_script("campaign-part", 3, 20, self.top, at), (0, ""))
            reports += (self.top / f"part-{at:08}.json").read_bytes()
        with serving() as (_, port):
            jobs = ["--seed", "3", "--from", str(first), "--jobs", "40"]
            whole = run(["campaign", f"127.0.0.1:{port}", *jobs, "--json"])
        joined = run(["join"], reports)
        self.assertEqual(joined.output, whole.output)
        self.assertEqual((joined.status, joined.faults), (0, ""))

    def test_parts_as_text(self):
        with serving() as (_, port):
            words = ["campaign", f"127.0.0.1:{port}", "--from"]
            whole = run([*words, "10", "--jobs", "30"])
            parts = [run([*words, str(at), "--jobs", "10"]).output for at in (20, 10, 30)]
        joined = run(["join"], b"".join(parts))
        self.assertEqual(joined.output, whole.output)
        self.assertEqual(joined.status, 0)
        self.assertIn("seed isn't known", joined.faults)
