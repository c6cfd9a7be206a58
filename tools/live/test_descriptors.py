"""The program with a standard stream closed, which it says, and no server gets what is for that
stream; and at a terminal: what it says before it reads what is typed, and how far it is."""

import contextlib
import os
import pty
import signal
import subprocess

from . import servers
from .program import COUNTER, PROGRAM, SECONDS, LiveTest, begun, rows, run
from .servers import A, B, P, Replying, Scripted, answers, answers_both

NO_INPUT, NO_OUTPUT = (f"mcrace: standard {it}: Bad file descriptor (os error 9)\n"
                       for it in ("input", "output"))
# Three runs. The reply to A in the first one has more bytes, which the end of the second one tells.
SURPLUS = (P, answers_both(b"6\r\nSTORED\r\n"), B)
THREE_RUNS = [SURPLUS, tuple(2 * steps for steps in (P, A, B))]


def run_without(descriptor, words, given=b""):
    """What the program answers with this descriptor closed."""
    return run(words, given, preexec_fn=lambda: os.close(descriptor))


class ClosedStreams(LiveTest):
    """Each of the three is closed."""

    def assert_sent_nothing_else(self, server):
        """Nothing came on the connections but requests, and the one that asks to close them."""
        server.wait()
        self.assertLessEqual(set(server.rests), {b"", b"quit\r\n"})

    def test_judge(self):
        """Without errors. Cases with `<!` or `>!` close the others."""
        answer = run_without(2, ["judge"], b"history 1\nP delete a -> NOT_FOUND\nend\n")
        self.assert_answer(answer, b"explained\nP 0\nend\n", 0)

    @rows([("input", 0, 4, NO_INPUT), ("output", 1, 4, NO_OUTPUT), ("errors", 2, 0, "")])
    def test_run(self, descriptor, status, told):
        with Scripted(*THREE_RUNS) as server:
            words = ["run", f"127.0.0.1:{server.port}", "--times", "3"]
            found = run_without(descriptor, words, COUNTER)
            self.assertEqual((found.status, found.faults.endswith(told)), (status, True), found)
            begin = b"run 3 of 3\nruns 3 explained 3 unexplained 0 "
            self.assertEqual(found.output[: len(begin)], begin if descriptor == 2 else b"")
            self.assertEqual(server.taken, 0 if descriptor == 0 else 6)
            self.assert_sent_nothing_else(server)

    @rows([("input", 0, ""), ("output", 1, NO_OUTPUT), ("errors", 2, "")])
    def test_campaign(self, descriptor, told):
        """Each job fails by a line that reports an error, which is told. It reads no input."""
        with Replying(answers(b"ERROR\r\n")) as server:
            words = ["campaign", f"127.0.0.1:{server.port}", "--jobs", "40"]
            found = run_without(descriptor, words)
            self.assertEqual((found.status, found.faults.endswith(told)), (4, True), found)
            wanted = "".join(f"{job} explained P ErrorLine\n" for job in range(40))
            wanted += "jobs 40 explained 40 unexplained 0 other 0\n"
            self.assertEqual(found.text, "" if descriptor == 1 else wanted)
            self.assert_sent_nothing_else(server)

    @rows([("input", 0), ("errors", 2)])
    def test_serve(self, descriptor):
        """The client reads replies alone, and the program ends as ever."""
        words = ["serve", "0", "--connections", "1"]
        with begun(words, preexec_fn=lambda: os.close(descriptor)) as process:
            port = int(servers.LISTENING.fullmatch(process.stdout.readline())[1])
            with servers.connect(port) as stream:
                stream.sendall(b"get a\r\nquit\r\n")
                self.assertEqual(stream.makefile("rb").read(), b"END\r\n")
            _, told = process.communicate(timeout=SECONDS)
        self.assertEqual((process.returncode, told), (0, b""))

    def test_serve_without_output(self):
        """It can't say where it listens, so it ends at once."""
        self.assert_answer(run_without(1, ["serve", "0"]), b"", 4, NO_OUTPUT)


# Ctrl-D on a line of its own.
END = b"\x04"
NOBODY = "127.0.0.1:1"
HISTORY = b"history 2\nP begin delete a\nP reply NOT_FOUND\nend\n"
UNREACHED = "mcrace: 127.0.0.1:1: Connection refused (os error 111)\n"
# A command line, what is typed, how the output begins, what is read, what else is told, the status.
TYPED = [
    ("judge", HISTORY, b"explained\nP 0\nend\n", "a history", "", 0),
    ("judge --limit 5", b"", b"refused history 1 Header line 1\n", "a history", "", 3),
    ("check", COUNTER, b"accepted\nP 2 26\n", "a script or an image", "", 0),
    ("asm", COUNTER, b"MCR1", "a script", "", 0),
    ("drive", COUNTER + b"steps\nend\n", b"skipped 0\nP running\n", "a script", "", 4),
    (f"run {NOBODY}", COUNTER, b"no connection P\n", "a script", UNREACHED, 4),
    (f"run {NOBODY} --name ci7", b"", b"refused script 1 Header line 1\n", "a script", "", 3),
]
# Command lines that read nothing, with the statuses of theirs.
UNREAD = [("--version", 0), ("judge --help", 0), ("generate", 0), ("serve 0 --connections 0", 0)]
UNREAD += [("", 2), ("judge x", 2), ("run", 2), (f"run {NOBODY} --timeout 0", 2)]
UNREAD += [(f"rnu {NOBODY}", 2)]


class TerminalTest(LiveTest):
    @contextlib.contextmanager
    def at_terminal(self, line, stream, environment=None):
        """The program with a terminal as this stream and pipes as the others, and our end."""
        ours, theirs = pty.openpty()
        streams = dict.fromkeys(("stdin", "stdout", "stderr"), subprocess.PIPE) | {stream: theirs}
        try:
            with subprocess.Popen([PROGRAM, *line.split()], env=environment, **streams) as process:
                os.close(theirs)
                yield process, ours
        finally:
            os.close(ours)


class Typed(TerminalTest):
    """Standard error says what is read, and nothing if nothing is or if it isn't typed."""

    def type(self, line, text=b""):
        """The output, standard error and the status if the text is typed, with its end."""
        with self.at_terminal(line, "stdin") as (process, ours):
            os.write(ours, text + END)
            output, faults = process.communicate(timeout=SECONDS)
        return output, faults.decode(), process.returncode

    @rows((row[0], *row) for row in TYPED)
    def test_typed(self, line, text, begin, what, told, status):
        output, faults, ended = self.type(line, text)
        told = f"mcrace: reading {what} from the terminal; Ctrl-D ends it\n{told}"
        self.assertEqual((output[: len(begin)], faults, ended), (begin, told, status))

    def test_no_port(self):
        """That an address has no port is said before a script is typed in vain."""
        output, faults, ended = self.type("run 127.0.0.1", COUNTER)
        told = "mcrace: 127.0.0.1: write HOST:PORT\n"
        reading = "mcrace: reading a script from the terminal; Ctrl-D ends it\n"
        self.assertEqual((output, faults, ended), (b"no connection P\n", told + reading + told, 4))

    @rows((row[0], *row) for row in TYPED)
    def test_terminal_for_the_output_alone(self, line, text, _, what, told, status):
        with self.at_terminal(line, "stdout") as (process, _):
            faults = process.communicate(text, SECONDS)[1]
        self.assertEqual((faults.decode(), process.returncode), (told, status), what)

    @rows((row[0], *row) for row in UNREAD)
    def test_nothing_is_read(self, line, status):
        """Only of a fault something is told, and nothing is written then."""
        output, faults, ended = self.type(line)
        is_faulty = status == 2
        self.assertEqual((ended, bool(faults), bool(output)), (status, is_faulty, not is_faulty))
        self.assertNotIn("reading", faults)


class Progress(TerminalTest):
    """How far a command is, is told in one line, if standard error is a terminal that can."""

    def setUp(self):
        self.server = f"127.0.0.1:{self.enter(servers.serving()).port}"

    def watch(self, line, text=b"", is_interrupted=False, **environment):
        """The output, what is said at a terminal, with line ends as they were written, and the
        status. The command is interrupted, if it is, once it has said thrice how far it is."""
        known = {it: os.environ[it] for it in os.environ if it not in ("TERM", "COLUMNS")}
        told = b""
        with self.at_terminal(line, "stderr", known | environment) as (process, ours):
            process.stdin.write(text)
            process.stdin.close()
            # The other end of a terminal is gone with whoever had it.
            with contextlib.suppress(OSError):
                while piece := os.read(ours, 4096):
                    told += piece
                    if is_interrupted and told.count(b" unexplained, ") >= 3:
                        process.send_signal(signal.SIGINT)
            output = process.stdout.read()
        return output, told.decode().replace("\r\n", "\n"), process.returncode

    def of_campaign(self, *more, **environment):
        """What is said of 2,000 jobs after the first line."""
        line = f"campaign {self.server} --jobs 2000 {' '.join(more)}"
        told = self.watch(line, **environment)[1]
        begin = "mcrace: seed 1, jobs 0 to 1999, 4 workers\n"
        self.assertEqual(told[: len(begin)], begin)
        return told[len(begin) :]

    def test_wide(self):
        first, *lines, last = self.of_campaign().split("\r\x1b[K")
        self.assertEqual((first, last), ("", ""))
        self.assertTrue(lines)
        for line in lines:
            form = r"^\d+ of 2000 jobs, \d+ a second, 0 unexplained, \d+ s left$"
            self.assertRegex(line, form)

    def test_narrow(self):
        lines = self.of_campaign(COLUMNS="20").split("\r\x1b[K")
        self.assertEqual([line for line in lines if len(line) > 20], [])

    def test_nothing_is_said(self):
        """If it is to be quiet, or the terminal can't."""
        self.assertEqual((self.of_campaign("--quiet"), self.of_campaign(TERM="dumb")), ("", ""))

    def test_interrupt(self):
        """Ctrl-C ends many runs, and how far they were is left."""
        line = f"run {self.server} --times 1000000"
        output, told, status = self.watch(line, COUNTER, is_interrupted=True)
        self.assertEqual((output, status), (b"", -signal.SIGINT))
        last = told.split("\r\x1b[K")[-1]
        self.assertRegex(last, r"^\d+ of 1000000 runs, \d+ a second, 0 unexplained, \d+ s left$")
