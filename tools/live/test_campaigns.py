"""What `mcrace campaign` reports of servers that are right, wrong, late or gone; and `selftest`."""

import concurrent.futures
import contextlib
import pathlib
import re
import time

from . import servers
from .campaigns import MOST_IN_REPORT, CampaignTest, campaign, steps_of
from .program import SECONDS, LiveTest, begun, rows, run, three_times
from .servers import Carrying, Listening, Replying, Step, answers, free_port, reset_at_close

# By how many seconds a campaign for a time may end late at a quick server, as the machine may.
LATE = 2
# How long a campaign may take to play more jobs than a report has.
MOST_SECONDS = 120
# So many connects in a row may fail.
MOST_IN_A_ROW = 64
GAVE_UP = "mcrace: gave up after 64 connects in a row failed"
# What /proc/net/tcp calls a connection of which this side was the first to close.
TIME_WAIT = "06"
# The verbs whose requests a generated script always sends.
SURE = ("set", "add", "append", "incr", "decr", "gets", "delete")


class RightServers(servers.ServedTest, CampaignTest):
    """All jobs are explained, but if a verdict may take no turn."""

    @three_times
    def test_memcached(self):
        with self.assert_at_memcached():
            self.assert_right(self.enter(servers.memcached()).port, 300)

    @rows([("300 jobs", 300), ("in time", 100, "--timeout 20")])
    def test_serve(self, *options):
        self.assert_right(self.port, *options)

    def test_two_at_once(self):
        """They have the same jobs, and each has a name of its own."""
        with concurrent.futures.ThreadPoolExecutor() as threads:
            names = "--name ci7", "--name ci8"
            list(threads.map(lambda name: self.assert_right(self.port, 300, name), names))

    def test_no_turns_for_the_verdicts(self):
        found = campaign(self.port, "--jobs 30 --limit 0")
        self.assertEqual(found.jobs, [f"{job} undecided" for job in range(30)])
        self.assertEqual((found.totals, found.status, found.rest), ((30, 0, 0, 30), 4, []))

    def test_parts(self):
        """The lines of parts are those of the whole, and a brief report has the totals alone."""
        options = "--jobs 30", "--jobs 30 --brief", "--from 0 --jobs 10", "--from 10 --jobs 20"
        whole, brief, *parts = (campaign(self.port, it) for it in options)
        self.assertEqual(len(whole.jobs), 30, whole)
        self.assertEqual([line for part in parts for line in part.jobs], whole.jobs)
        self.assertEqual(parts[1].faults, "mcrace: seed 1, jobs 10 to 29, 4 workers\n")
        self.assertEqual((brief.jobs, brief.totals, brief.status), ([], whole.totals, 0))

    def ports_in_use(self):
        """How many connections to the server this side was the first to close."""
        lines = pathlib.Path("/proc/net/tcp").read_text(encoding="ascii").splitlines()[1:]
        peers = [fields[2] for fields in map(str.split, lines) if fields[3] == TIME_WAIT]
        return sum(int(peer.partition(":")[2], 16) == self.port for peer in peers)

    # How many connections of this side a server may be late to close, now and then.
    @rows([("600 connections", "--reconnect", 60), ("some that are kept", "", 6)])
    @three_times
    def test_ports(self, options, late):
        """It keeps no ports after it closed its connections."""
        before = self.ports_in_use()
        found = campaign(self.port, f"--jobs 200 {options}")
        self.assertEqual(found.status, 0, found)
        self.assertLessEqual(self.ports_in_use() - before, late)


class Times(servers.ServedTest, CampaignTest):
    """Campaigns for a time, and some that may end early."""

    def test_time(self):
        with self.assert_takes(2, 2 + LATE):
            found = campaign(self.port, "--for 2s --from 5")
        self.assertEqual((found.status, found.rest), (0, []), found.faults)
        first, *told = found.faults.splitlines()
        self.assertEqual(first, "mcrace: seed 1, jobs from 5 on, 4 workers")
        self.assertEqual(len(told), int(len(found.reports) > 1), told)
        self.assert_reports(found.reports, 5)

    @three_times
    def test_time_at_a_slow_server(self):
        """What has begun ends, and no job begins after the time. All jobs are explained."""
        server = self.enter(Slow(self.port))
        with self.assert_takes(1, 1 + 2 * SLOW):
            found = campaign(server.port, "--for 1s --from 7")
        self.assertEqual((found.status, found.rest, len(found.told)), (0, [], 0), found.faults)
        self.assert_reports(found.reports, 7)

    @three_times
    def test_time_at_a_server_that_hangs(self):
        """Each job takes a second, and four begin within half a second: so do no more."""
        server = self.enter(Replying([Step.READ]))
        with self.assert_takes(1, 2):
            found = campaign(server.port, "--for 500ms --timeout 1s")
        self.assertEqual(found.jobs, [f"{job} explained P ReadFailed" for job in range(4)])
        self.assertEqual((found.totals, found.status), ((4, 4, 0, 0), 4))
        self.assertEqual(found.told[-1], "mcrace: 4 of 4 jobs had a failed section: 4 ReadFailed")

    def test_several_reports(self):
        """Of 10,000 jobs each, with ranges on standard error. P's connects end each row of those
        that fail, so it doesn't give up."""
        port, other = self.enter(Resetting()).port, free_port()
        seconds = 4
        while True:
            found = campaign(port, f"--for {seconds}s --show --a 127.0.0.1:{other}")
            if len(found.reports) > 1 or seconds > MOST_SECONDS:
                break
            seconds = 1 + int(seconds * 1.2 * MOST_IN_REPORT / len(found.jobs))
        self.assertEqual((found.status, found.rest), (4, []), found.faults[:300])
        self.assertGreater(len(found.reports), 1)
        last = len(found.jobs) - 1
        ends = [*range(MOST_IN_REPORT - 1, last, MOST_IN_REPORT), last]
        told = re.findall(r"\(jobs \d+ to (\d+)\)", found.faults)
        self.assertEqual([*map(int, told)], ends)
        jobs = len(found.jobs)
        totals = f"jobs {jobs} explained 0 unexplained 0 other {jobs}"
        self.assertEqual(found.told[-1], f"mcrace: in all reports: {totals}")
        self.assert_reports(found.reports, 0)

    def test_nothing_to_end_it(self):
        """The lines of a campaign that may end early, but doesn't, are those of the whole."""
        whole = campaign(self.port, "--jobs 150")
        self.assertEqual(campaign(self.port, "--jobs 150 --stop-after 1"), whole)
        self.assertEqual(len(whole.jobs), 150)


class Slow(Carrying):
    """A proxy that carries each request on after some time."""

    def request(self, piece):
        time.sleep(0.02)
        return piece


class Resetting(Listening):
    """A server that resets each connection once the client has closed it, so no port is kept."""

    def begin(self, connection):
        reset_at_close(connection)
        with contextlib.suppress(OSError), connection:
            connection.recv(1)


# The most seconds that a job takes at a slow server: its sections have 24 requests at most.
SLOW = 1


class NoServers(CampaignTest):
    """A campaign gives up when 64 connects in a row failed."""

    @rows([("all jobs", "--jobs 1000", 1000),
           ("until one is unexplained", "--jobs 1000 --stop-after 1", 1000)])
    def test_rest_of_the_jobs(self, options, jobs):
        """No other connect is tried: that of each job would take a second."""
        with servers.unanswering() as port, self.assert_takes(4, 12):
            found = campaign(port, f"{options} --workers 16 --timeout 1s")
        self.assertEqual(found.jobs, [f"{job} no connection P" for job in range(jobs)])
        self.assertEqual((found.totals, found.status), ((jobs, 0, 0, jobs), 4))
        why = f"mcrace: 127.0.0.1:{port}: connection timed out"
        self.assertEqual(found.told, [why, GAVE_UP, f"{why} (jobs 0 to {jobs - 1})"])

    @rows([("one worker", 1), ("four workers", 4)])
    def test_for_a_time(self, workers):
        """No job begins after it gave up, and those that had begun stand in the report."""
        with self.assert_takes(0, 5):
            found = campaign(free_port(), f"--for 1h --workers {workers}")
        jobs = len(found.jobs)
        self.assertTrue(MOST_IN_A_ROW <= jobs < MOST_IN_A_ROW + workers, jobs)
        self.assertEqual(found.jobs, [f"{job} no connection P" for job in range(jobs)])
        self.assertEqual((found.totals, found.status), ((jobs, 0, 0, jobs), 4))
        self.assertEqual(found.told.count(GAVE_UP), 1, found.faults)

    def test_server_goes_away(self):
        """`serve` ends after 30 connections, and later ones are refused."""
        port = self.enter(servers.serving("--connections", 30)).port
        found = campaign(port, "--for 1h --workers 1 --reconnect")
        self.assertEqual(found.jobs[:10], [f"{job} explained" for job in range(10)])
        late = 0 if "no connection" in found.jobs[10] else 1
        jobs = range(10 + late, 10 + late + MOST_IN_A_ROW)
        self.assertEqual(found.jobs[10 + late :], [f"{job} no connection P" for job in jobs])
        self.assertEqual((found.status, found.told.count(GAVE_UP)), (4, 1), found.faults)

    def test_server_ends(self):
        """With all connections that were kept. It gives up as if there were none."""
        server = self.enter(servers.serving())
        words = ["campaign", f"127.0.0.1:{server.port}", "--for", "1h"]
        with begun(words, b"") as process:
            process.stderr.readline()
            time.sleep(0.5)
            server.process.terminate()
            with self.assert_takes(0, 5):
                output, told = process.communicate(timeout=SECONDS)
        self.assertEqual(process.returncode, 4, told)
        self.assertEqual(told.decode().splitlines().count(GAVE_UP), 1, told)
        self.assertRegex(output, rb"\A0 explained\n")

    def test_waits(self):
        """Each wait for a server is one connect, so it doesn't give up while it waits."""
        with self.assert_takes(2, 10):
            found = campaign(free_port(), "--jobs 40 --workers 16 --wait 1s")
        self.assertEqual(found.jobs, [f"{job} no connection P" for job in range(40)])
        self.assertNotIn(GAVE_UP, found.told)


class WrongServers(CampaignTest):
    """Those at which rows differ by how workers meet; others are in cases/campaign."""

    def test_wrong_replies(self):
        """It is said at once of ten jobs what came: a bare LF for each request."""
        with Replying(answers(b"6\n")) as server:
            found = campaign(server.port, "--jobs 12")
        form = r'mcrace: job (\d+): P: to "delete r\1-0" came "6\\n": the line ends without CR'
        *told, last = found.told
        told = [re.fullmatch(form, line) for line in told]
        self.assertTrue(all(told), found.faults)
        self.assertEqual(last, "mcrace: 12 of 12 jobs had a failed section: 12 BadReply")
        self.assertEqual((len(told), len({it[1] for it in told})), (10, 10), found.faults)
        self.assertEqual(found.status, 1)

    def test_server_goes_away(self):
        """`serve` ends after 30 connections, and later ones are refused."""
        port = self.enter(servers.serving("--connections", 30)).port
        found = campaign(port, "--jobs 40 --workers 1 --reconnect")
        self.assertEqual([line.split()[1] for line in found.jobs[:10]], 10 * ["explained"])
        self.assertEqual(found.status, 4)
        for line in found.jobs[11:]:
            self.assertRegex(line, " no connection |ReadFailed|Ended")
        told = rf"mcrace: 127\.0\.0\.1:{port}: Connection refused \(os error 111\)"
        self.assertRegex(found.faults, rf"{told} \(jobs \d+ to 39\)\n")


class StatisticsOfCampaigns(servers.ServedTest, CampaignTest):
    """What `--stats` says at the end of a campaign."""

    def requests(self, jobs):
        """How many requests of each verb the scripts of so many jobs have, and P's deletes."""
        scripts = (run(["generate", "--job", str(job)]).text for job in range(jobs))
        verbs = [step.split()[0] for script in scripts for step in steps_of(script)]
        return {it: verbs.count(it) + (2 * jobs if it == "delete" else 0) for it in SURE}

    def test_sums(self):
        """They are those of the scripts. Each `gets` that hits is followed by a `cas`."""
        found = campaign(self.port, "--jobs 60 --stats")
        told = "mcrace: seed 1, jobs 0 to 59, 4 workers\n"
        told += r"mcrace: 60 runs, (\d+) overlapped, A's first reply first in (\d+) of (\d+)\n"
        of_runs = re.match(told, found.faults)
        self.assertEqual((bool(of_runs), found.status, len(found.jobs)), (True, 0, 60), found)
        lines = found.faults[of_runs.end() :].splitlines()
        form = r"mcrace: ([a-z]+): (\d+ [a-z ]+(?:, \d+ [a-z ]+)*)"
        answers = dict(re.fullmatch(form, line).groups() for line in lines)
        sums = {verb: sum(map(int, re.findall(r"\d+", of))) for verb, of in answers.items()}
        self.assertEqual({verb: sums.get(verb, 0) for verb in SURE}, self.requests(60))
        hits = re.search(r"(\d+) hit", answers["gets"])
        self.assertEqual(sums.get("cas", 0), int(hits[1]) if hits else 0)
        overlapped, a_first, answered = map(int, of_runs.groups())
        self.assertTrue(0 <= a_first <= answered <= 60 and 0 < overlapped <= 60, found.faults)


class Selftest(LiveTest):
    """`mcrace selftest` passes."""

    def test_ten_times(self):
        for _ in range(10):
            answer = run(["selftest"])
            self.assertEqual((answer.status, answer.output.splitlines()[-1:]), (0, [b"ok"]))
