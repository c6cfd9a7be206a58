"""What `mcrace campaign` writes: its reports, read as data."""

import collections
import re
from dataclasses import dataclass

from .program import SECONDS, LiveTest, run, see_unblamed

JOB = re.compile(r"\d+ (?:explained|unexplained|undecided)(?: [PAB] \w+)*|\d+ no connection [PAB]"
                 r"|\d+ not (?:run|made)")
TOTALS = re.compile(r"jobs (\d+) explained (\d+) unexplained (\d+) other (\d+)")
# How many workers there are by default, and how many jobs of each begin beyond those in the report;
# and the most jobs of a report.
WORKERS, AHEAD = 4, 4
MOST_IN_REPORT = 10_000


@dataclass
class Campaign:
    """What a campaign answered: of each report job lines and totals, and the lines after these."""

    status: int
    reports: list
    rest: list
    faults: str

    def __post_init__(self):
        """Beside these: all job lines, the totals of a single report, the unexplained jobs, what is
        told after the first line, and the script that is left with what is shown after it."""
        self.jobs = [line for jobs, _ in self.reports for line in jobs]
        self.totals = self.reports[0][1] if len(self.reports) == 1 else None
        self.unexplained = [it.split()[0] for it in self.jobs if it.split()[1] == "unexplained"]
        self.told = self.faults.splitlines()[1:]
        is_shrunk = self.rest[:1] == ["shrunk"]
        self.shrunk = "".join(f"{line}\n" for line in self.rest[1:]) if is_shrunk else ""


def campaign(port, options=""):
    """What a campaign against the server on this port of 127.0.0.1 answers."""
    words = ["campaign", f"127.0.0.1:{port}", *options.split()]
    answer = run(words, seconds=10 * SECONDS)
    reports, jobs, rest = [], [], collections.deque(answer.text.splitlines())
    while rest and (JOB.fullmatch(rest[0]) or TOTALS.fullmatch(rest[0])):
        jobs.append(rest.popleft())
        totals = TOTALS.fullmatch(jobs[-1])
        if totals:
            reports.append((jobs[:-1], tuple(map(int, totals.groups()))))
            jobs = []
    return Campaign(answer.status, reports, [*jobs, *rest], answer.faults)


def steps_of(script):
    """The requests of a script."""
    lines = script.splitlines()
    steps = lines[lines.index("P") :]
    return [line for line in steps if line not in ("P", "A", "B", "end") and line[-1:] != ":"]


class CampaignTest(LiveTest):
    """What tests of campaigns have in common."""

    def assert_right(self, port, jobs, options=""):
        """All jobs against a server that is right are explained, and nothing else is said."""
        found = campaign(port, f"--jobs {jobs} {options}")
        see_unblamed(found.status, found)
        self.assertEqual(found.faults, f"mcrace: seed 1, jobs 0 to {jobs - 1}, 4 workers\n")
        self.assertEqual(found.jobs, [f"{job} explained" for job in range(jobs)])
        answered = found.totals, found.status, found.rest
        self.assertEqual(answered, ((jobs, jobs, 0, 0), 0, []))

    def assert_reports(self, reports, first):
        """They are of 10,000 jobs, but the last one, in order from the first on, and add up."""
        sizes = [len(jobs) for jobs, _ in reports]
        for jobs, totals in reports:
            numbers = [int(line.split()[0]) for line in jobs]
            words = [line.split()[1] for line in jobs]
            self.assertEqual(numbers, [*range(first, first + len(jobs))])
            right, wrong = words.count("explained"), words.count("unexplained")
            self.assertEqual(totals, (len(jobs), right, wrong, len(jobs) - right - wrong))
            first += len(jobs)
        self.assertEqual(sizes[:-1], (len(sizes) - 1) * [MOST_IN_REPORT])
        self.assertTrue(0 < sizes[-1] <= MOST_IN_REPORT, sizes)
