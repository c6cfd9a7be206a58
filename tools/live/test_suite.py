"""`mcrace test`: each race of its table is found, right servers aren't blamed, and servers that
fail are told."""

import json
import os
import pathlib
import re
import tempfile
import unittest
from xml.etree import ElementTree

from . import servers
from .program import LiveTest, on_processors, rows, run, see_unblamed, three_times
from .test_scripts import RACES, SCRIPTS, ScriptTest, race_of

# Each race, with the bug of examples/faulty_server.c that it finds.
BUGS = {race: next(bug for name, bug in RACES if name in (race, f"{race}-1"))
        for race in sorted({*map(race_of, SCRIPTS)})}
# Of a race's own bug, the other races that show it too, as far as they are played beside it.
LIKE = {
    "lost-increment": "lost-decrement,lost-update,set-undone",
    "lost-decrement": "cas-undoes,lost-update,set-undone",
    "lost-append": "lost-flags,lost-prepend,lost-update",
    "lost-prepend": "lost-update,set-undone", "cas-two-winners": "cas-undoes,torn-gets",
    "add-twice": "add-over-set", "delete-twice": "add-twice", "touch-undoes": "set-undone",
    "torn-gets": "cas-two-winners,number-again,torn-flags", "torn-body": "torn-flags",
    "stale-get": "add-over-set,stale-gets,torn-body", "number-again": "revived-item,torn-gets"}
# In microseconds. Where each script has few runs, or the server's threads share a processor, only
# a wide window is sure to be met: the server sleeps in it.
WINDOW, LATE = 20, 120
WIDE_WINDOW = 300
# Where a container says how much of the processors it may have.
QUOTAS = [pathlib.Path("/sys/fs/cgroup", it) for it in ("cpu.max", "cpu/cpu.cfs_quota_us")]


def is_limited(quota):
    return quota.exists() and quota.read_text().split()[0] not in ("max", "-1")


def tested(port, *options):
    return run(["test", f"127.0.0.1:{port}", *options], seconds=60)


class Races(ScriptTest):
    """Faulty servers."""

    seconds = 40

    @three_times
    def check_found(self, race, bug):
        for window in (LATE if bug == "stale-get" else WINDOW, WIDE_WINDOW):
            with self.faulty(bug, window) as (_, port):
                found = tested(port, "--only", race, "--for", "10s")
            if found.status:
                break
        self.assertEqual(found.status, 1, found.text)
        self.assertRegex(found.text, rf"found: {race} -\s")
        self.assertIn("^ no order explains this", found.text)
        self.assertRegex(found.text, r"\n  seen in \d of [\d,]+ runs\n")
        self.assertIn("\n  Proved: no order of these requests gives these replies.\n", found.text)
        self.assertIn("races tried: 1 of 1", found.text)
        script = re.search(r"^script 1$.*?^end$", found.text, re.M | re.S)[0] + "\n"
        self.assertEqual(run(["check"], script.encode()).status, 0, script)

    def test_found(self):
        self.check_at_once(self.check_found, BUGS.items())

    # Nine times, since a busy machine plays few runs, and another race may be seen in these first.
    @three_times
    @three_times
    def check_first(self, bug, like):
        for window in (LATE if bug == "stale-get" else 2 * WINDOW, WIDE_WINDOW):
            with self.faulty(bug, window) as (_, port):
                found = tested(port, "--only", f"{like},{bug}", "--for", "5s")
            if found.status:
                break
        self.assertEqual(found.status, 1, found.text)
        self.assertEqual(re.search(r"^found: (\S+) -", found.text, re.M)[1], bug, found.text)

    def test_first(self):
        """A race of a bug's own name is told first, though others show the bug too."""
        self.check_at_once(self.check_first, LIKE.items())

    @three_times
    def test_all_at_once(self):
        """A test of all races tells the server's own, and plays generated scripts too."""
        with self.faulty("lost-increment", WIDE_WINDOW) as (_, port):
            found = tested(port, "--for", "10s")
        self.assertEqual(found.status, 1, found.text)
        self.assertIn("found: lost-increment - ", found.text)
        self.assertIn("not supported: none\n", found.text)
        self.assertRegex(found.text, r"generated scripts: [1-9]")


class Right(ScriptTest):
    """Servers without a race."""

    def assert_nothing(self, found):
        see_unblamed(found.status, found.text)
        self.assertEqual(found.status, 0, found.text)
        self.assertIn("\nwrong alone: none\nnot supported: none\n", found.text)
        self.assertRegex(found.text, r"\nslowest reply \d+\.\d ms, no failed connection\n")
        self.assertRegex(found.text, r"\nno race found in [\d,]+ runs and \d+\.\d s\n\Z")
        self.assertNotIn("wrong reply", found.text)
        self.assertEqual([it for it in found.text.splitlines() if len(it) > 80], [])

    def test_right(self):
        self.assert_nothing(tested(self.enter(self.faulty("none", 0)).port, "--for", "4s"))

    def test_serve(self):
        self.assert_nothing(tested(self.enter(servers.serving()).port, "--for", "4s"))

    @three_times
    def test_memcached(self):
        port = self.enter(servers.memcached()).port
        found = tested(port, "--for", "4s", "--name", "ours", "--seed", "7")
        with self.assert_at_memcached():
            self.assert_nothing(found)
        version = run(["--version"]).text.splitlines()[0]
        line = rf"{re.escape(version)} on \S+ \(version 1\.[\d.]+\), seed 7, 4\.0 s\n"
        self.assertRegex(found.text, rf"\A{line}")

    def test_wrapped(self):
        """Where the first line is too long, the time stays with its unit."""
        port = self.enter(servers.memcached()).port

        def head(seed):
            words = "--for", "1s", "--only", "add-twice", "--seed", seed
            return tested(port, *words).text.split("\n\n")[0]

        short = head("1")
        # With this seed the line would have 81 columns. The version makes it long enough for that.
        seed = "1" * (82 - len(short))
        self.assertEqual(head(seed), short.replace(" 1, 1.0 s", f" {seed},\n  1.0 s"))

    @three_times
    def test_left_out(self):
        port = self.enter(servers.serving()).port
        found = tested(port, "--for", "2s", "--skip", "lost-increment,torn-gets")
        self.assert_nothing(found)
        self.assertIn(f"races tried: {len(BUGS) - 2} of {len(BUGS) - 2},", found.text)


class Naming(servers.Carrying):
    """A proxy that notes the names before keys."""

    def __init__(self, port):
        super().__init__(port)
        self.names = set()

    def request(self, piece):
        self.names.update(re.findall(rb" ([a-z2-7]{13})-", piece))
        return piece


class AtOnce(LiveTest):
    """Each thread that plays scripts has a name of its own."""

    seconds = 60

    def names_on(self, processors):
        # A slow machine needs longer until it has played a generated script.
        for period in ("2s", "8s", "30s"):
            proxy = self.enter(Naming(self.enter(servers.serving()).port))
            with on_processors(processors):
                found = tested(proxy.port, "--for", period)
            self.assertEqual(found.status, 0, found.text)
            if re.search(r"generated scripts: [1-9]", found.text):
                return len(proxy.names)
        return self.fail(found.text)

    def test_one(self):
        self.assertEqual(self.names_on(1), 1)

    def test_two(self):
        if len(os.sched_getaffinity(0)) < 4 or any(map(is_limited, QUOTAS)):
            self.skipTest("less than four processors")
        self.assertEqual(self.names_on(4), 2)


class Folders(ScriptTest):
    """What `--out` writes, and `--json`."""

    seconds = 30
    ENDS = "history", "script", "svg", "txt"

    def setUp(self):
        self.folder = pathlib.Path(self.enter(tempfile.TemporaryDirectory())) / "made" / "here"

    def racy(self, *options):
        """A test of a server with a race, and what was found."""
        with self.faulty("lost-increment", WIDE_WINDOW) as (_, port):
            return tested(port, "--only", "lost-increment", "--for", "20s", *options), port

    def test_files(self):
        found, port = self.racy("--out", self.folder)
        self.assertEqual((found.status, found.faults), (1, ""), found.text)
        base = "lost-increment-1"
        files = {it.name: it.read_text() for it in self.folder.iterdir()}
        names = {*(f"{base}.{end}" for end in self.ENDS), "report.json", "junit.xml"}
        self.assertEqual({*files}, names)
        self.assertEqual(run(["check"], files[f"{base}.script"].encode()).status, 0)
        self.assertEqual(run(["judge"], files[f"{base}.history"].encode()).status, 1)
        self.assertTrue(ElementTree.fromstring(files[f"{base}.svg"]).tag.endswith("}svg"))
        self.assertIn(files[f"{base}.txt"], found.text)
        command = f"mcrace run 127.0.0.1:{port} --for 1m --why"
        self.assertIn(f"{command} < {self.folder}/{base}.script",
                      re.sub(r" \\\n +", " ", files[f"{base}.txt"]))
        self.assertNotIn("script 1", found.text)
        self.check_report(json.loads(files["report.json"]), files)
        self.check_junit(ElementTree.fromstring(files["junit.xml"]), files[f"{base}.txt"])

    def check_report(self, report, files):
        self.assertEqual((report["status"], report["ended"]), (1, True))
        self.assertEqual(report["not_supported"] + report["wrong_alone"], [])
        race, = report["races"]
        self.assertEqual((race["name"], race["found"]), ("lost-increment", True))
        self.assertLessEqual(1, race["seen"], race["of"])
        self.assertEqual(race["script"], files["lost-increment-1.script"])
        self.assertEqual(race["history"], files["lost-increment-1.history"])
        self.assertIn(race["why"]["reply"], race["history"])
        self.assertLessEqual(1, len(race["why"]["correct"]))

    def check_junit(self, suite, text):
        cases = {(it.get("classname"), it.get("name")): it for it in suite}
        self.assertEqual(suite.get("tests"), str(len(cases)))
        self.assertEqual((suite.get("failures"), suite.get("errors")), ("1", "0"))
        self.assertEqual(cases["mcrace.race", "lost-increment"].find("failure").text, text)
        self.assertIsNone(cases["mcrace.alone", "incr"].find("failure"))
        self.assertIsNotNone(cases["mcrace.generated", "generated scripts"].find("skipped"))

    def test_json(self):
        found, _ = self.racy("--json")
        self.assertEqual((found.status, found.faults), (1, ""))
        report = json.loads(found.text)
        self.assertEqual((report["status"], report["ended"]), (1, True))
        self.assertEqual([it["found"] for it in report["races"]], [True])

    def test_nothing_found(self):
        port = self.enter(servers.serving()).port
        found = tested(port, "--for", "2s", "--json", "--out", self.folder)
        self.assertEqual((found.status, found.faults), (0, ""), found.text)
        self.assertEqual({it.name for it in self.folder.iterdir()}, {"report.json", "junit.xml"})
        self.assertEqual((self.folder / "report.json").read_text(), found.text)
        report = json.loads(found.text)
        self.assertEqual({it["found"] for it in report["races"]}, {False})
        self.assertEqual(len(report["races"]), len(BUGS))
        self.assertLess(0, report["generated"]["scripts"])
        suite = ElementTree.parse(self.folder / "junit.xml").getroot()
        self.assertEqual([suite.get(it) for it in ("failures", "errors", "skipped")], ["0"] * 3)

    def test_link(self):
        """A link of a file's name is replaced, and what it leads to stays."""
        self.folder.mkdir(parents=True)
        other = self.folder.parent / "other"
        other.write_text("kept")
        names = ["report.json", "lost-increment-1.txt"]
        for name in [*names, f"{names[0]}.new-0"]:
            (self.folder / name).symlink_to(other)
        found, _ = self.racy("--out", self.folder)
        self.assertEqual((found.status, found.faults), (1, ""), found.text)
        self.assertEqual(other.read_text(), "kept")
        self.assertEqual([(self.folder / it).is_symlink() for it in names], [False, False])

    def test_unwritable(self):
        """It is told once, and the status is 4 if nothing was found."""
        self.folder.parent.mkdir()
        self.folder.write_text("no folder")
        port = self.enter(servers.serving()).port
        found = tested(port, "--for", "1s", "--out", self.folder)
        self.assertEqual((found.status, found.faults),
                         (4, f"mcrace: {self.folder}/report.json: File exists (os error 17)\n"))
        self.assertRegex(found.text, r"\nno race found in ")
        found, _ = self.racy("--out", self.folder)
        self.assertEqual(found.status, 1, found.text)
        self.assertEqual(found.faults.count("\n"), 1, found.faults)


class Unknowing(servers.Carrying):
    """A proxy through which the server doesn't know a verb."""

    verb = b"touch "

    def request(self, piece):
        return piece.replace(self.verb, b"x" + self.verb)


class Closing(servers.Carrying):
    """A proxy that closes the connection in place of a verb."""

    def pieces(self, source):
        for piece in super().pieces(source):
            if piece.startswith(b"touch "):
                return
            yield piece


class Wrong(servers.Carrying):
    """A proxy that answers each increment with a number too large."""

    def reply(self, piece):
        return re.sub(rb"\A(\d+)\r\n\Z", lambda it: b"%d\r\n" % (int(it[1]) + 1), piece)


class Failing(LiveTest):
    """Servers that fail, or don't know a verb."""

    seconds = 40

    def test_unknown_verb(self):
        proxy = self.enter(Unknowing(self.enter(servers.serving()).port))
        found = tested(proxy.port, "--for", "3s")
        self.assertEqual(found.status, 0, found.text)
        self.assertIn("not supported: touch\n", found.text)
        races = [it for it in BUGS if not any("\ntouch " in SCRIPTS[script] for script in SCRIPTS
                                              if race_of(script) == it)]
        self.assertIn(f"races tried: {len(races)} of {len(BUGS)},", found.text)

    def test_wrong_alone(self):
        proxy = self.enter(Wrong(self.enter(servers.serving()).port))
        found = tested(proxy.port, "--for", "2s", "--only", "add-twice")
        self.assertEqual(found.status, 1, found.text)
        self.assertIn("wrong alone: incr\n", found.text)
        self.assertIn("wrong alone: decr\n", found.text)
        # The script of `gets` increments too.
        self.assertIn("\nwrong alone: incr, decr, gets\n", found.text)

    def test_closing(self):
        """A verb at which the server closes the connection twice isn't supported."""
        proxy = self.enter(Closing(self.enter(servers.serving()).port))
        found = tested(proxy.port, "--for", "3s")
        self.assertEqual(found.status, 0, found.text)
        self.assertIn("not supported: touch (closes)\n", found.text)

    def test_garbage(self):
        """What isn't answered as by a cache isn't asked for races."""
        server = self.enter(servers.Replying(servers.answers(*[b"garbage\r\n"] * 50)))
        found = tested(server.port, "--for", "30s")
        self.assertEqual(found.status, 1, found.text)
        self.assertIn('to "delete ', found.text)
        self.assertIn('came "garbage\\r\\n"', found.text)
        self.assertEqual(found.text.count("wrong reply: "), 3)
        self.assertIn(f"races tried: 0 of {len(BUGS)}; generated scripts: 0\n", found.text)
        self.assertIn("\nno verb was answered as memcached would: is the address right?\n",
                      found.text)

    @rows([("closes", servers.Step.END), ("resets", servers.Step.RESET)])
    def test_ended(self, step):
        server = self.enter(servers.Replying([servers.Step.READ, step]))
        found = tested(server.port, "--for", "2s")
        self.assertIn(found.status, (4, 5), found.text)
        self.assertIn("no race found in ", found.text)

    def test_hang(self):
        """Three replies in a row that don't come in time end the test."""
        server = self.enter(servers.Replying([servers.Step.READ] * 50))
        found = tested(server.port, "--for", "30s", "--timeout", "300ms")
        self.assertEqual(found.status, 5, found.text)
        self.assertIn("no reply to ", found.text)
        self.assertIn("the server was gone before the time was over\n", found.text)

    def test_no_server(self):
        found = tested(servers.free_port())
        self.assertEqual((found.status, found.output), (4, b""))
        self.assertIn("Connection refused", found.faults)

    def reports(self, port, *options):
        """The status of a test, the report in its folder, and the suite there."""
        folder = pathlib.Path(self.enter(tempfile.TemporaryDirectory()))
        found = tested(port, "--out", folder, *options)
        self.assertEqual({it.name for it in folder.iterdir()}, {"report.json", "junit.xml"})
        suite = ElementTree.parse(folder / "junit.xml").getroot()
        return found.status, json.loads((folder / "report.json").read_text()), suite

    def check_error(self, suite, text):
        error, = suite.iter("error")
        self.assertEqual((suite.get("failures"), suite.get("errors")), ("0", "1"))
        self.assertRegex(error.get("message"), text)

    def test_reports_of_no_server(self):
        port = servers.free_port()
        status, report, suite = self.reports(port)
        self.assertEqual((status, report["status"], report["ended"]), (4, 4, True))
        self.assertIn(f"127.0.0.1:{port}: Connection refused", report["fault"])
        self.assertEqual((report["runs"], report["version"]), (0, None))
        text = rf"\Aexit status 4: 127\.0\.0\.1:{port}: Connection refused \(os error 111\)\Z"
        self.check_error(suite, text)

    def test_reports_of_gone_server(self):
        server = self.enter(servers.Replying([servers.Step.READ] * 50))
        status, report, suite = self.reports(server.port, "--for", "30s", "--timeout", "300ms")
        self.assertEqual((status, report["status"], report["ended"]), (5, 5, True))
        self.assertEqual((report["gone"], report["fault"]), (True, None))
        self.check_error(suite, r"\Aexit status 5: [1-9]\d* runs failed, ")


if __name__ == "__main__":
    unittest.main()
