"""Servers that close connections: between the runs or jobs that these serve, and after a request on
which they act a moment later. Nothing that a later run receives may be taken for a fault."""

import contextlib
import itertools
import re
import socket
import threading
import time

from . import servers
from .campaigns import campaign
from .program import ALL_DONE, COUNTER, rows, run

# After so many seconds a late server acts, and so many runs there are of each kind.
LATE, RUNS, KEPT_RUNS = 0.004, 400, 60
TOTALS = re.compile(rf"runs {RUNS} explained (\d+) unexplained 0 other 0 overlapped \d+ "
                    r"failed (\d+)")
# A job whose only number is A's, so that the run is unexplained if that is wrong.
JOB = 2
# How many jobs a campaign has, each with two keys.
JOBS, KEYS = 40, 2
# What begins each job: P deletes its keys.
FIRST = re.compile(rb"delete r(\d+)-0\r\n")
OF_JOB = re.compile(rb"[a-z]+ r(\d+)-")
MORE = b"STORED\r\n"


class Exchanging(servers.Carrying):
    """A proxy for clients that wait for each reply, so that a request comes whole."""

    def begin(self, client):
        threading.Thread(target=self.exchange, args=(client, self.taken), daemon=True).start()

    def exchange(self, client, number):
        with contextlib.suppress(OSError), client, servers.connect(self.behind) as server:
            ends, counts = (client, server), itertools.count(1)
            while (request := client.recv(65_536)) not in (b"", b"quit\r\n"):
                if not self.goes_on(*ends, request, number, next(counts)):
                    return


class Closing(Exchanging):
    """It closes each connection with the reply to its last request, in one packet."""

    def __init__(self, port, requests):
        super().__init__(port)
        self.requests = requests

    def goes_on(self, client, server, request, _, count):
        is_last = count == self.requests
        server.sendall(request)
        client.send(server.recv(65_536), socket.MSG_MORE if is_last else 0)
        if is_last:
            client.shutdown(socket.SHUT_WR)
            client.recv(65_536)
        return not is_last


class Late(Exchanging):
    """Of each three requests of branches one is lost: it closes the client's connection, and hands
    the request on a moment later. If it is `wrong`, it changes the next number in a reply."""

    def __init__(self, port, wrong=False):
        super().__init__(port)
        self.wrong, self.lost = wrong, 0
        self.counts, self.lock = itertools.count(1), threading.Lock()

    def loses(self):
        """The request of a branch is lost."""
        with self.lock:
            is_lost = not self.wrong and next(self.counts) % 3 == 0
            self.lost += is_lost
        return is_lost

    def changed(self, reply):
        with self.lock:
            if not self.wrong or not reply.strip().isdigit():
                return reply
            self.wrong = False
        return b"%d\r\n" % (int(reply) + 1)

    def goes_on(self, client, server, request, number, _):
        """Of each three connections the first one is P's."""
        is_lost = number % 3 != 1 and self.loses()
        if is_lost:
            client.shutdown(socket.SHUT_RDWR)
            client.close()
            time.sleep(LATE)
        server.sendall(request)
        reply = server.recv(65_536)
        if not is_lost:
            client.sendall(self.changed(reply))
        return not is_lost


class Parting(Exchanging):
    """With the reply to the last request of each job's P it also does what a subclass says."""

    def __init__(self, port):
        super().__init__(port)
        scripts = (run(["generate", "--job", str(job)]).text for job in range(JOBS))
        self.left = [KEYS + script.partition("\nP\n")[2].partition("\nA\n")[0].count("\n") + 1
                     for script in scripts]
        # The client of each job's P, by the number of the connection, and the job.
        self.of_p = {}

    def goes_on(self, client, server, request, number, _):
        job = int(OF_JOB.match(request)[1])
        first = FIRST.fullmatch(request)
        if first and job not in self.of_p:
            self.of_p[job] = client, number
        self.before(job, number)
        server.sendall(request)
        reply = server.recv(65_536)
        if self.of_p[job][1] == number and self.left[job]:
            self.left[job] -= 1
            if not self.left[job]:
                return self.part(client, reply)
        client.sendall(reply)
        return True

    def before(self, job, number):
        """Before a request of the job is handed on."""

    def part(self, client, reply):
        """Answers P's last request, and whether the connection goes on."""
        client.sendall(reply)
        return True


class Ending(Parting):
    """It ends the connection, in one packet."""

    def part(self, client, reply):
        client.send(reply, socket.MSG_MORE)
        client.shutdown(socket.SHUT_WR)
        client.recv(65_536)
        return False


class Doubling(Parting):
    """It sends another line, in one packet."""

    def part(self, client, reply):
        client.sendall(reply + MORE)
        return True


class Repeating(Parting):
    """It sends another line once P is over: before a branch's first request is answered."""

    def __init__(self, port):
        super().__init__(port)
        self.lock, self.said = threading.Lock(), set()

    def before(self, job, number):
        with self.lock:
            if self.of_p[job][1] != number and job not in self.said:
                self.said.add(job)
                self.of_p[job][0].sendall(MORE)


class KeptByCampaigns(servers.ServedTest):
    """Connections serve later jobs; those of which a proxy ends one, or sends more, are replaced
    before anything is sent."""

    seconds = 10
    TOLD = re.compile(r'mcrace: job \d+: P: after its last reply came 8 bytes more: "STORED\\r\\n"')

    @rows([("one worker", "--workers 1", 3, 3), ("four", "--workers 4", 6, 12),
           ("sixteen", "--workers 16", 6, 48), ("new ones", "--reconnect", 3 * JOBS, 3 * JOBS)])
    def test_kept(self, options, least, most):
        with servers.Carrying(self.port) as server:
            found = campaign(server.port, f"--jobs {JOBS} {options}")
        self.assert_right(found)
        self.assertTrue(least <= server.taken <= most, server.taken)

    def test_own_servers(self):
        """A branch with a server of its own has one connection, and the others share two."""
        with servers.Carrying(self.port) as server, servers.Carrying(self.port) as of_a:
            own = f"--a 127.0.0.1:{of_a.port}"
            found = campaign(server.port, f"--jobs {JOBS} --workers 1 {own}")
        self.assert_right(found)
        self.assertEqual((server.taken, of_a.taken), (2, 1))

    @rows([("ended", Ending, 0), ("in one packet", Doubling, 10), ("a later one", Repeating, 0)])
    def test_replaced(self, kind, told):
        """After each job that of its P is, and no other."""
        with kind(self.port) as server:
            found = campaign(server.port, f"--jobs {JOBS} --workers 1")
        self.assert_right(found, told)
        self.assertEqual(server.taken, 3 + JOBS - 1)

    def assert_right(self, found, told=0):
        """All jobs are explained, and of so many it is told that more came."""
        self.assertEqual(found.jobs, [f"{job} explained" for job in range(JOBS)], found)
        are_told = [bool(self.TOLD.fullmatch(line)) for line in found.told]
        self.assertEqual((found.status, are_told), (0, told * [True]), found)


class ClosingServers(servers.ServedTest):
    """At proxies before `mcrace serve`, which is right."""

    seconds = 15

    # After how many requests, how many connections of P, whose runs have two, and of each branch.
    @rows([("two", 2, 60, 30), ("four", 4, 30, 15), ("six", 6, 20, 10)])
    def test_closed_after_requests(self, requests, of_p, of_branch):
        """Before a run each connection that was closed is replaced, and no other."""
        with Closing(self.port, requests) as server:
            answer = run(["run", f"127.0.0.1:{server.port}", "--times", str(KEPT_RUNS)], COUNTER)
        begin = f"run {KEPT_RUNS} of {KEPT_RUNS}\nruns {KEPT_RUNS} explained {KEPT_RUNS} "
        begin += "unexplained 0 other 0 "
        found = answer.text
        self.assertEqual((answer.status, found[: len(begin)]), (0, begin), answer)
        self.assertEqual(found.splitlines(True)[2:5], ALL_DONE.splitlines(True))
        self.assertEqual(server.taken, of_p + 2 * of_branch)

    def test_runs_that_go_on(self):
        with Late(self.port) as server:
            words = ["run", f"127.0.0.1:{server.port}", "--times", str(RUNS)]
            answer = run([*words, "--keep-going", "--reconnect"], COUNTER)
        found = TOTALS.fullmatch(answer.text.splitlines()[-1])
        explained, failed = map(int, found.groups()) if found else (0, 0)
        self.assertEqual((explained + failed, failed), (RUNS, server.lost), answer)
        self.assertGreater(server.lost, RUNS / 4)

    def test_shrinking(self):
        """Only the first number of the job is made wrong, so no step is left out."""
        with Late(self.port, wrong=True) as server:
            options = f"--from {JOB} --jobs 1 --workers 1 --reconnect --tries {RUNS // 10}"
            found = campaign(server.port, options)
        self.assertEqual(found.unexplained, [str(JOB)], found)
        whole = run(["generate", "--seed", "1", "--job", str(JOB)]).text
        self.assertEqual(found.shrunk, whole)
        self.assertGreater(server.lost, RUNS / 4)
