"""What `mcrace run` does if it gets no connection, and how it ends by ctrl-C."""

import resource
import signal
import threading
import time

from . import servers
from .program import COUNTER, SECONDS, LiveTest, begun, play, rows, run, three_times
from .servers import A, B, P, Replying, Scripted, Step, answers

REFUSED = "Connection refused (os error 111)"
TIMED_OUT = "mcrace: 127.0.0.1:{}: connection timed out\n"
NOBODY = "127.0.0.1:1"
# Open files of a process that has its standard input, output and error, and P's connection.
WITH_P = 4


class NoConnections(LiveTest):
    """No descriptor is left; connects with a time limit, and waits for a server that comes late, or
    for none. Other rows are in cases/run/no-connection.cases."""

    def assert_no_connection(self, section, told, found):
        """There is none for this section, and one line tells why."""
        self.assertEqual((found.text, found.status), (f"no connection {section}\n", 4), found)
        self.assertRegex(found.faults, r"\Amcrace: [^\n]*\n\Z")
        self.assertIn(told, found.faults)

    @rows([("A", "A", WITH_P), ("B", "B", WITH_P + 1)])
    def test_no_descriptor(self, section, files):
        def limit():
            resource.setrlimit(resource.RLIMIT_NOFILE, (files, files))

        with Scripted((P, A, B)) as server:
            found = play(server.port, preexec_fn=limit)
        self.assert_no_connection(section, "Too many open files", found)

    @rows([("one", "--timeout", "0.2"), ("none of several", "--timeout=0.05", "--wait=0.2")])
    def test_connect_of_p_is_not_answered(self, *options):
        with servers.unanswering() as port, self.assert_takes(0.2, 5.2):
            found = play(port, *options)
        self.assert_no_connection("P", TIMED_OUT.format(port), found)

    @rows([("A", "A"), ("B", "B")])
    @three_times
    def test_connect_of_a_branch_is_not_answered(self, section):
        with servers.unanswering() as port, Scripted((P, A, B)) as server:
            own = f"--{section.lower()}", f"127.0.0.1:{port}"
            found = play(server.port, *own, "--timeout", "0.2")
        self.assert_no_connection(section, TIMED_OUT.format(port), found)

    @rows([("A", "a"), ("B", "b")])
    def test_server_of_a_branch_comes_late(self, section):
        """Each server is waited for."""
        # Of two servers nobody knows which one answers first, so either verdict may come.
        talks = dict(zip("ab", (answers(b"6\r\n"), answers(b"7\r\n"))))
        late = talks.pop(section)
        port, done = servers.free_port(), threading.Event()

        def come_late():
            time.sleep(0.3)
            with Scripted((late,), port=port):
                done.wait(SECONDS)

        threading.Thread(target=come_late, daemon=True).start()
        with Scripted((P, *talks.values())) as server, self.assert_takes(0.2, 10):
            found = play(server.port, f"--{section}", f"127.0.0.1:{port}", "--wait", "20")
        done.set()
        self.assert_done(found, int(found.verdict == "unexplained\n"))

    def test_server_comes_late(self):
        port, done = servers.free_port(), threading.Event()

        def come_late():
            time.sleep(0.3)
            with Scripted((P, A, B), port=port):
                done.wait(SECONDS)

        threading.Thread(target=come_late, daemon=True).start()
        with self.assert_takes(0, 10):
            found = play(port, "--wait", "20")
        done.set()
        self.assert_done(found)

    @rows([("no server", NOBODY, REFUSED), ("no address", "127.0.0.1", "write HOST:PORT")])
    def test_no_server_comes(self, target, told):
        with self.assert_takes(0.3, 5.3):
            answer = run(["run", target, "--wait=0.3"], COUNTER)
        self.assert_no_connection("P", told, answer)


class Interrupts(LiveTest):
    """Ctrl-C ends what waits."""

    @rows([("run", COUNTER, b""), ("campaign", b"", b"mcrace: seed 1, jobs 0 to 99, 4 workers\n")])
    def test_waiting(self, given, first_line):
        """The first line of a campaign is there at once."""
        server = self.enter(Replying([Step.READ]))
        command = "run" if given else "campaign"
        process = self.enter(begun([command, f"127.0.0.1:{server.port}"], given))
        self.addCleanup(process.kill)
        if first_line:
            self.assertEqual(process.stderr.readline(), first_line)
        time.sleep(0.2)
        self.assertIsNone(process.poll(), "it ended before")
        process.send_signal(signal.SIGINT)
        output, _ = process.communicate(timeout=5)
        self.assertEqual((output, process.returncode), (b"", -signal.SIGINT))
