"""What standard error says of a section that fails: its request, what came, and why no reply did.
Five servers fail P, A or B at their first request, by `run`, `run --times` and `campaign`. And what
it says of a section that gets a reply too many."""

import itertools

from .program import COUNTER, LiveTest, rows, run, three_times
from .servers import A, B, P, Scripted, Step, answers

# What a server does with the first request of a section whose reply would begin with these bytes,
# and what is said of the request.
FAULTS = {
    "drop": lambda half: [Step.READ, Step.END],
    "reset": lambda half: [Step.READ, Step.RESET],
    "half a reply": lambda half: [Step.READ, half, Step.END],
    "hang": lambda half: [Step.READ],
    "garbage": lambda half: [Step.READ, b"WHAT?\x01\xff\r\n"],
}
TOLD = {
    "drop": 'no reply to "{asked}": the server closed the connection',
    "reset": 'no reply to "{asked}": Connection reset by peer',
    "half a reply": 'no more than "{half}" to "{asked}": the server closed the connection',
    "hang": 'no reply to "{asked}" within 0.5 s',
    "garbage": r'to "{asked}" came "WHAT?\x01\xff\r\n": it is no reply to this request',
}
# By command: the words, what P, A and B are answered, their first requests, and the front of a
# reply to each.
COUNTED = [answers(b"NOT_FOUND\r\n", b"STORED\r\n"), answers(b"6\r\n"), answers(b"7\r\n")]
# In job 0 of seed 1 P sets two keys, and A reads the first.
HIT = b"VALUE r0-0 0 2\r\n37\r\nEND\r\n"
DRAWN = [answers(*2 * [b"NOT_FOUND\r\n"], *2 * [b"STORED\r\n"]), answers(HIT), []]
ASKED = ["delete a", "incr a 1", "incr a 1"], [b"NOT_F", b"6", b"7"]
JOB_ASKED = ["delete r0-0", "get r0-0", r"set r0-1 0 0 1\r\n6"], [b"NOT_F", b"EN", b"STO"]
COMMANDS = {
    "run": ("run", "", COUNTED, *ASKED, "mcrace: "),
    "run --times": ("run", "--times 3", COUNTED, *ASKED, "mcrace: "),
    "run --keep-going": ("run", "--times 1 --keep-going", COUNTED, *ASKED, "mcrace: "),
    "campaign": ("campaign", "--jobs 1 --workers 1", DRAWN, *JOB_ASKED, "mcrace: job 0: "),
}
ROWS = [(" ".join(it), *it) for it in itertools.product(COMMANDS, FAULTS, "PAB")]


class Failures(LiveTest):
    """Each is told."""

    seconds = 15

    @rows(ROWS)
    @three_times
    def test_told(self, command, fault, section):
        word, options, talks, asked, halves, lead = COMMANDS[command]
        at = "PAB".index(section)
        talks = [FAULTS[fault](halves[at]) if it == at else talk for it, talk in enumerate(talks)]
        with Scripted(talks) as server:
            line = [word, f"127.0.0.1:{server.port}", "--timeout", "0.5", *options.split()]
            answer = run(line, COUNTER)
        told = TOLD[fault].format(asked=asked[at], half=halves[at].decode())
        self.assertIn(f"{lead}{section}: {told}\n", answer.faults)
        self.assertEqual(answer.status, 1 if fault == "garbage" else 4, answer)


# The options of `run` with which only a last look finds what comes later.
LOOKS = ["", "--times 1", "--times 1 --keep-going"]


class LateReplies(LiveTest):
    """A reply too many comes 1 ms after the last one, in a segment of its own."""

    @rows([(f"{section} {options}", section, options) for options in LOOKS for section in "PAB"])
    @three_times
    def test_told(self, section, options):
        late = [Step.SOON, b"STORED\r\n"]
        talks = [talk + late if it == section else talk for it, talk in zip("PAB", (P, A, B))]
        with Scripted(talks) as server:
            found = run(["run", f"127.0.0.1:{server.port}", *options.split()], COUNTER)
        told = f'mcrace: {section}: after its last reply came 8 bytes more: "STORED\\r\\n"\n'
        self.assertEqual((found.faults, found.status), (told, 0), found)
