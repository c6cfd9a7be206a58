"""Campaigns against servers that lose updates: what is found, told at once, shrunk and shown."""

import re

from . import servers
from .campaigns import AHEAD, WORKERS, CampaignTest, campaign, steps_of
from .program import judged, play, rows, run

# How often a campaign is run until it finds a race that depends on how threads meet.
MOST_CAMPAIGNS = 50
# The most requests that are left of a script that shows a race of two increments.
MOST_LEFT = 3
# How often a shrunk script is run until it is unexplained.
MOST_RUNS = 50
# How long the losing server waits for the other one of two updates: short, as many jobs have one.
SECONDS_OF_GATE = 0.03


class RacesTest(CampaignTest):
    """What tests of races have in common."""

    def find(self, options, is_found=lambda found: found.status):
        """The first campaign at the server that finds this, which depends on how threads meet."""
        for _ in range(MOST_CAMPAIGNS):
            found = campaign(self.port, options)
            if is_found(found):
                self.assertEqual((found.status, bool(found.unexplained)), (1, True), found.faults)
                return found
        return self.fail(f"it wasn't found: {found.totals}, {found.shrunk}")

    def assert_told(self, found):
        """The unexplained jobs are told at once, in any order, the first ten."""
        begin = "mcrace: job {0} is unexplained; mcrace generate --seed 1 --job {0}"
        wanted = {begin.format(job) for job in found.unexplained}
        told = {line for line in found.told if line.startswith("mcrace: ")}
        self.assertLessEqual(told, wanted)
        self.assertEqual(len(told), min(10, len(wanted)))

    def assert_left(self, found, job):
        """What is left is of this job, under no name."""
        self.assertIn(f"keys r{job}-0 r{job}-1\n", found.shrunk)
        self.assertNotIn("ci7", found.shrunk.partition("\njob ")[0])

    def shown_of(self, found):
        """The script that is left, and the jobs that are shown with what is shown of each."""
        script, *shown = re.split(r"^job (\d+)\n", found.shrunk, flags=re.M)
        self.assertTrue(script.endswith("end\n"), script)
        self.assertEqual(shown[::2], found.unexplained[:10])
        return script, [*zip(shown[::2], shown[1::2])]


class Races(RacesTest):
    """The race of `mcrace serve --racy` is found, told and shown."""

    def setUp(self):
        self.port = self.enter(servers.serving("--racy")).port

    def test_found(self):
        found = self.find("--jobs 1000")
        self.assertEqual(len(found.jobs), 1000)
        self.assert_told(found)
        self.assert_left(found, found.unexplained[0])
        self.assertTrue(found.shrunk.endswith("end\n"), found.shrunk)

    def test_name(self):
        """The keys of the histories are under the name, and those of the script aren't. Standard
        error has each history as soon as it is known."""
        found = self.find("--jobs 1000 --tries 3 --show --name ci7")
        _, shown = self.shown_of(found)
        for job, history in shown:
            told = f"mcrace generate --seed 1 --job {job}\n"
            self.assertEqual(told in found.faults, f"{told}{history}" in found.faults)
            keys = re.findall(r"^[PAB] begin \w+ (\S+)", history, flags=re.M)
            self.assertLessEqual(set(keys), {f"ci7-r{job}-0", f"ci7-r{job}-1"})
            self.assertEqual(judged(history.encode()), "unexplained\n", history)
        self.assert_left(found, shown[0][0])
        self.assert_told(found)

    def assert_reasons(self, reasons, history):
        """`judge` says this too. What stands before the named line is explained."""
        answer = run(["judge", "--why"], history.encode()).text
        self.assertEqual(answer, f"unexplained\n{reasons}", history)
        line = int(re.match(r"why\nline (\d+) ", reasons)[1])
        lines = history.splitlines(keepends=True)
        cuts = ["".join([*lines[:count], "end\n"]) for count in (line - 1, line)]
        verdicts = [judged(cut.encode()).split()[0] for cut in cuts]
        self.assertEqual(verdicts, ["explained", "unexplained"], cuts)
        self.assert_explained(reasons, lines[: line - 1], lines[line - 1].split()[0])

    def assert_explained(self, reasons, before, section):
        """The replies that are told would be explained after these lines."""
        told = re.findall(r"^explained would be (.*)$", reasons, flags=re.M)
        for reply in told:
            reply = reply.replace("(a new number)", str(2**64 - 1))
            text = "".join([*before, f"{section} reply {reply}\n", "end\n"])
            self.assertEqual(judged(text.encode()).split()[0], "explained", text)

    def test_reasons(self):
        """It is said of each history that is shown from which line on nothing explains it."""
        _, shown = self.shown_of(self.find("--jobs 1000 --show --why"))
        for _, text in shown:
            reasons, _, rest = text.partition("history 2\n")
            self.assert_reasons(reasons, f"history 2\n{rest}")

    def test_statistics(self):
        """Smaller scripts aren't counted."""
        found = self.find("--jobs 1000 --stats", lambda it: it.shrunk)
        self.assertRegex(found.faults, r"(?m)^mcrace: 1000 runs, \d+ overlapped, A's first reply")


class LosingEach(RacesTest):
    """The example server loses each update that it can."""

    def setUp(self):
        self.port = self.enter(servers.losing_updates(SECONDS_OF_GATE)).port


class SmallScripts(LosingEach):
    """A small script is left."""

    seconds = 10

    def find_small(self, options):
        is_small = lambda it: it.shrunk and len(steps_of(it.shrunk)) <= MOST_LEFT
        return self.find(options, is_small).shrunk

    def test_no_name(self):
        script = self.find_small("--jobs 300").encode()
        runs = (play(self.port, script=script) for _ in range(MOST_RUNS))
        self.assertTrue(any(it.status == 1 for it in runs), script)

    def test_name(self):
        self.assertNotIn("ci7", self.find_small("--jobs 300 --name ci7"))


class FirstFindings(LosingEach):
    """A campaign may end soon after the first finding."""

    seconds = 9

    @rows([("of 10,000 jobs", "--jobs 10000"), ("60 s", "--for 60s")])
    def test_stop(self, options):
        found = campaign(self.port, f"--stop-after 1 {options}")
        self.assertEqual((found.status, len(found.reports)), (1, 1), found.faults)
        self.assertEqual(found.rest[:2], ["shrunk", "script 1"])
        self.assertEqual(found.rest.count("shrunk"), 1)
        first = int(found.unexplained[0])
        self.assertEqual(len(found.jobs), first + WORKERS * AHEAD)
        self.assert_left(found, first)
        self.assert_reports(found.reports, 0)
