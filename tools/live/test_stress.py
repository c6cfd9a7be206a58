"""`mcrace stress`: rounds of right servers are explained, races are found, and it is told how
servers fail."""

import json
import re
import signal
import time

from . import servers
from .program import LiveTest, begun, judged, rows, run, see_unblamed, three_times
from .servers import Step, answers
from .test_proxies import nutcracker
from .test_scripts import ScriptTest

ROUNDS = 20
# So many clients send each mix.
MIXES = {"all": 6, "counters": 2, "cas": 4, "bodies": 4, "presence": 6}
# The microseconds of its windows that are tried in turn. In the second one it sleeps, so that its
# threads meet there on one processor too.
WINDOWS = 20, 300
# A bug of examples/faulty_server.c, and a mix that finds it.
BUGS = {"lost-increment": "counters", "cas-two-winners": "cas", "lost-append": "bodies",
        "add-twice": "presence", "torn-body": "all"}
# What standard error says with --stats: a line of the rounds, and one of each verb.
STATS = re.compile(r"^mcrace: (\d+) rounds, (\d+) requests in \d+ ms, \d+ a second\n"
                   r"((?:mcrace: \w+: .*\n)+)\Z", re.M)
# What is written of an unexplained round.
FOUND = re.compile(r"round (\d+) of \d+\n"
                   r"rounds (\d+) explained (\d+) unexplained 1 other 0 failed 0\n"
                   r"unexplained\nkey (k\d+)\n(?:why\n.*?^end\n)?(history 3\n.*^end\n)\Z",
                   re.M | re.S)


def stressed(port, *options, **more):
    return run(["stress", f"127.0.0.1:{port}", *options], **more)


class StressTest(LiveTest):
    """What the tests have in common."""

    def assert_explained(self, answer, rounds=ROUNDS):
        # A search may be left undecided, and is tried again.
        see_unblamed(answer.status, answer.text)
        text = (f"round {rounds} of {rounds}\nrounds {rounds} explained {rounds} unexplained 0 "
                "other 0 failed 0\nexplained\n")
        self.assertEqual((answer.text, answer.status), (text, 0), answer.faults)

    def assert_found(self, answer):
        """The history is that of one key, and is unexplained."""
        found = FOUND.fullmatch(answer.text)
        self.assertTrue(found, answer.text)
        number, rounds, explained, key, history = found.groups()
        self.assertEqual((int(number), int(explained)), (int(rounds), int(rounds) - 1))
        self.assertEqual({*re.findall(r"^\d+ begin \w+ (\S+)", history, re.M)}, {key})
        self.assertEqual(judged(history.encode()), f"unexplained\nkey {key}\n")
        self.assertEqual(answer.status, 1)


class Right(StressTest):
    """Servers without a race."""

    @rows([(it, it, clients) for it, clients in MIXES.items()])
    @three_times
    def test_serve(self, mix, clients):
        port = self.enter(servers.serving()).port
        self.assert_explained(stressed(port, "--clients", str(clients), "--mix", mix,
                                       "--rounds", str(ROUNDS)))

    @three_times
    def test_memcached(self):
        port = self.enter(servers.memcached()).port
        answer = stressed(port, "--rounds", str(ROUNDS), "--name", "ours", "--keys", "16")
        with self.assert_at_memcached():
            self.assert_explained(answer)

    @three_times
    def test_many(self):
        port = self.enter(servers.memcached()).port
        options = "--clients 64 --requests 10 --keys 16"
        with self.assert_at_memcached():
            self.assert_explained(stressed(port, "--rounds", str(ROUNDS), *options.split()))

    @three_times
    def test_nutcracker(self):
        port = self.enter(nutcracker(self.enter(servers.memcached()).port)).port
        self.assert_explained(stressed(port, "--rounds", str(ROUNDS), "--mix", "counters"))

    @three_times
    def test_time(self):
        port = self.enter(servers.serving()).port
        with self.assert_takes(0.5, 10):
            answer = stressed(port, "--for", "500ms")
        self.assertRegex(answer.text, r"\Around (\d+)\nrounds \1 explained \1 ")
        self.assertEqual(answer.status, 0)


    @three_times
    def test_json(self):
        port = self.enter(servers.serving()).port
        answer = stressed(port, "--rounds", "5", "--json")
        totals = {"rounds": 5, "explained": 5, "unexplained": 0, "other": 0, "failed": 0}
        self.assertEqual(json.loads(answer.text),
                         {"round": 5, "of": 5, "totals": totals, "verdict": "explained"})
        self.assertEqual((answer.status, answer.text.count("\n")), (0, 1))

    @three_times
    def test_stats(self):
        """Each request is counted once: those of the clients, and those that begin a round."""
        port = self.enter(servers.serving()).port
        options = "--clients 4 --requests 10 --keys 1 --mix counters --rounds 30 --stats"
        answer = stressed(port, *options.split())
        self.assert_explained(answer, 30)
        found = STATS.search(answer.faults)
        self.assertTrue(found, answer.faults)
        rounds, requests, replies = found.groups()
        counted = {verb: sum(int(it) for it in re.findall(r"(\d+) ", counts))
                   for verb, counts in re.findall(r"mcrace: (\w+): (.*)", replies)}
        self.assertEqual(sum(counted.values()), int(requests))
        self.assertEqual((int(rounds), counted["delete"]), (30, 30))
        self.assertIn(int(requests), range(30 * 41, 30 * 42 + 1))
        self.assertLessEqual({*counted}, {"set", "cas", "gets", "incr", "decr", "delete"})

    @three_times
    def test_undecided(self):
        """Undecided rounds don't end it, and the first of them is shown."""
        port = self.enter(servers.serving()).port
        for more in [], ["--keep-going"]:
            answer = stressed(port, "--limit", "0", "--rounds", "3", "--keys", "1", *more)
            totals = "rounds 3 explained 0 unexplained 0 other 3 failed 0\n"
            self.assertTrue(answer.text.startswith("round 1 of 3\n"), answer.text)
            self.assertEqual(answer.text.count(totals), 1, answer.text)
            self.assertIn("undecided\nkey k1\nhistory 3\n0 begin delete k1\n", answer.text)
            self.assertEqual(answer.status, 4)


class Races(ScriptTest, StressTest):
    """Servers with races."""

    @three_times
    def test_json(self):
        port = self.enter(self.faulty("lost-increment", WINDOWS[1])).port
        answer = stressed(port, "--mix", "counters", "--json")
        found = json.loads(answer.text)
        self.assertEqual((found["verdict"], answer.status), ("unexplained", 1), answer.text)
        self.assertEqual(found["totals"]["unexplained"], 1)
        history = found["history"]
        self.assertEqual(history["version"], 3)
        asked = [it["request"]["key"] for it in history["notes"] if "request" in it]
        self.assertEqual({*asked}, {found["key"]})
        self.assertLess(1, len({it["client"] for it in history["notes"]}))

    @three_times
    def test_racy(self):
        port = self.enter(servers.serving("--racy")).port
        self.assert_found(stressed(port, "--mix", "counters", "--why"))

    @three_times
    def test_whole(self):
        port = self.enter(self.faulty("lost-increment", WINDOWS[1])).port
        answer = stressed(port, "--mix", "counters", "--whole")
        self.assertEqual(answer.status, 1, answer.text)
        history = answer.text[answer.text.index("history 3"):]
        self.assertEqual({*re.findall(r"^\d+ begin \w+ (\S+)", history, re.M)}, {"k1", "k2"})
        self.assertRegex(judged(history.encode()), r"\Aunexplained\nkey k[12]\n\Z")

    @three_times
    def test_keep_going(self):
        port = self.enter(self.faulty("lost-increment", WINDOWS[1])).port
        answer = stressed(port, "--mix", "counters", "--keep-going", "--rounds", "300")
        self.assertRegex(answer.text, r"\Around \d+ of 300\nunexplained\nkey k")
        self.assertRegex(answer.text, r"\nend\nrounds 300 explained \d+ unexplained [1-9]\d* ")
        self.assertEqual(answer.status, 1)

    @three_times
    def check_found(self, bug, mix):
        for window in WINDOWS:
            with self.faulty(bug, window) as (_, port):
                found = stressed(port, "--mix", mix, "--for", "8s", "--rounds", "100000")
            if found.status == 1:
                break
        self.assert_found(found)

    def test_found(self):
        self.check_at_once(self.check_found, BUGS.items())


class Failing(StressTest):
    """Servers that fail."""

    @rows([
        ("ends", answers(b"NOT_FOUND\r\n") + [Step.READ, Step.END], "3 Ended", 4,
         "the server closed the connection"),
        ("resets", answers(b"NOT_FOUND\r\n") + [Step.READ, Step.RESET], "2 ReadFailed", 4,
         "Connection reset by peer"),
        ("garbles", answers(b"what?\r\n"), "4 BadReply", 1, "it is no reply to this request"),
        ("an error", answers(b"SERVER_ERROR busy\r\n"), "5 ErrorLine", 4, "SERVER_ERROR busy"),
        ("hangs", [Step.READ], "2 ReadFailed", 4, "within 0.3 s"),
    ])
    def test_failing(self, talk, fault, status, why):
        with servers.Replying(talk, [], []) as server, self.assert_takes(0, 10):
            answer = stressed(server.port, "--keys", "1", "--timeout", "0.3", "--clients", "3")
        self.assertRegex(answer.text, r"\Around 1 of 100\nrounds 1 .* failed 1\n"
                                      rf"client 0 failed {fault}\n"
                                      r"(?:client [12] failed 2 ReadFailed\n)*explained\n"
                                      r"history 3\n0 begin delete k1\n")
        self.assertTrue(answer.text.endswith("\nend\n"), answer.text)
        self.assertEqual(answer.status, status)
        self.assertRegex(answer.faults, r"\Amcrace: round 1: client 0: ")
        self.assertIn(why, answer.faults)

    def test_refused(self):
        answer = stressed(servers.free_port())
        self.assertEqual(answer.text, "round 1 of 100\nrounds 1 explained 0 unexplained 0 other 1 "
                                      "failed 0\nno connection 0\n")
        self.assertEqual(answer.status, 4)
        self.assertIn("Connection refused", answer.faults)
        found = json.loads(stressed(servers.free_port(), "--json").text)
        self.assertEqual((found["outcome"], found["client"]), ("no connection", 0))

    def test_json(self):
        with servers.Replying([Step.READ, Step.END], []) as server:
            answer = stressed(server.port, "--clients", "2", "--json")
        found = json.loads(answer.text)
        self.assertEqual(found["failed"], [{"client": 0, "code": 3, "fault": "Ended"}])
        self.assertEqual((found["verdict"], found["history"]["version"]), ("explained", 3))
        self.assertEqual(answer.status, 4)

    def test_names(self):
        """After a round that failed the keys have another name, and the clients new connections."""
        with servers.Replying([Step.READ, Step.END]) as server:
            answer = stressed(server.port, "--clients", "2", "--rounds", "3", "--keep-going")
            # The last ones may not be accepted yet.
            for _ in range(100):
                if server.taken == 6:
                    break
                time.sleep(0.02)
            self.assertEqual(server.taken, 6)
        self.assertIn("\nrounds 3 explained 0 unexplained 0 other 0 failed 3\n", answer.text)
        told = re.findall(r"round (\d): client 0: no reply to \"delete (\S+)\"", answer.faults)
        self.assertEqual(told, [("1", "k1"), ("2", "2-k1"), ("3", "3-k1")])

    def test_surplus(self):
        """More than a reply is told, and the connection isn't used again."""
        first = answers(b"NOT_FOUND\r\n", b"NOT_FOUND\r\nmore")
        with servers.Replying(first, []) as server:
            answer = stressed(server.port, "--clients", "2", "--timeout", "0.3")
        self.assertEqual(answer.status, 4, answer.text)
        self.assertIn("\"more\"", answer.faults)

    def test_stops(self):
        """Ctrl-C ends it while the server hangs, and leaves nothing running."""
        with servers.Replying([Step.READ]) as server:
            process = begun(["stress", f"127.0.0.1:{server.port}"], b"")
            time.sleep(0.3)
            process.send_signal(signal.SIGINT)
            process.communicate(timeout=5)
        self.assertEqual(process.returncode, -signal.SIGINT)
