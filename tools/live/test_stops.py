"""The program is stopped and goes on, as by ctrl-Z and `fg`, while it waits for a server."""

import signal
import time

from .program import ALL_DONE, COUNTER, SECONDS, LiveTest, begun, rows, three_times
from .servers import A, B, Replying, Scripted, Step, answers

# P's first reply comes half a second after its request.
SLOWLY = [Step.READ, *10 * [Step.PAUSE]]
SLOW = ([*SLOWLY, b"NOT_FOUND\r\n", *answers(b"STORED\r\n")], A, B)
# When the program is stopped and goes on, in seconds.
ONCE, TWICE, LONG = [(0.2, 0.3)], [(0.1, 0.2), (0.3, 0.4)], [(0.2, 1.5)]
REPLIES = [("once", "30", ONCE), ("twice", "30", TWICE),
           ("for longer than the limit, and the reply is there", "1", LONG)]
FAILED = "mcrace: 1 of 1 jobs had a failed section: 1"


class Stops(LiveTest):
    """A read has a time limit. In a campaign a worker waits for the reply to P's first request."""

    seconds = 6

    def stopped(self, command, server, limit, stops):
        """The status, output and lines of errors of the command, stopped so, at the server."""
        words = [command, f"127.0.0.1:{server.port}", "--timeout", limit]
        words += ["--jobs", "1", "--workers", "1"] if command == "campaign" else []
        began = time.monotonic()
        with begun(words, COUNTER) as process:
            for at, number in zip(sum(stops, ()), len(stops) * [signal.SIGSTOP, signal.SIGCONT]):
                time.sleep(max(0, began + at - time.monotonic()))
                process.send_signal(number)
            output, told = process.communicate(timeout=SECONDS)
        return process.returncode, output.decode(), told.decode().splitlines()

    @rows(REPLIES)
    def test_reply_comes(self, limit, stops):
        with Scripted(SLOW) as server:
            status, output, told = self.stopped("run", server, limit, stops)
        self.assertEqual((status, output[: len(ALL_DONE)], told), (0, ALL_DONE, []), output)

    @rows(REPLIES)
    def test_reply_comes_in_a_campaign(self, limit, stops):
        """It is a line that reports an error."""
        with Replying([*SLOWLY, b"ERROR\r\n"], [], []) as server:
            status, output, told = self.stopped("campaign", server, limit, stops)
        self.assertEqual((status, output.splitlines()[0]), (4, "0 explained P ErrorLine"))
        wanted = [r'mcrace: job 0: P: to "delete r0-0" came "ERROR\r\n"', f"{FAILED} ErrorLine"]
        self.assertEqual(told[1:], wanted)

    # What is left of the limit is waited for, but a worker's call begins anew with all of it.
    @rows([("run", "run", 1, 1.3, "P failed 2 ReadFailed", 'P: no reply to "delete a"'),
           ("a campaign", "campaign", 1.3, 1.8, "0 explained P ReadFailed",
            'job 0: P: no reply to "delete r0-0"')])
    @three_times
    def test_no_reply_comes(self, command, least, most, first, told):
        with Replying([Step.READ], [], []) as server, self.assert_takes(least, most):
            status, output, faults = self.stopped(command, server, "1", ONCE)
        self.assertEqual((status, output.splitlines()[0]), (4, first))
        wanted = [f"mcrace: {told} within 1 s"]
        wanted += [f"{FAILED} ReadFailed"] if command == "campaign" else []
        self.assertEqual(faults[command == "campaign" :], wanted)
