"""The pictures that `draw` makes of histories."""

import re

from .pictures import faults_of
from .program import ROOT, LiveTest, rows, run
from .test_examples import examples

KEYS = ["k" * 39 + end for end in "01"]
# A longest body of each sort of byte, as a history writes it.
WIDE = "=" + "%00<&'\"%7f>" * 9362
BODIES = ["=", "=9%20", WIDE]
# At most so many requests of a timeline are drawn.
MOST_DRAWN = 200


def lines_of(who, requests):
    return [(f"{who} begin {sent}", f"{who} reply {came}") for sent, came in requests]


def full_history():
    """24 requests in each section, with the longest keys, numbers and bodies."""
    number = 2**64 - 1
    hit = f"HIT {2**32 - 1} {WIDE} {number}"
    prefix = [(f"delete {key}", "NOT_FOUND") for key in KEYS]
    prefix += [(f"set {KEYS[0]} {2**32 - 1} {WIDE}", "STORED"), (f"gets {KEYS[0]}", hit)]
    prefix += [(f"get {KEYS[1]}", "MISS")] * (24 - len(prefix))
    one = [(f"cas {KEYS[0]} 0 =x {number}", "EXISTS")] * 24
    other = [(f"append {KEYS[1]} {2**32 - 1} =<&>'\"0123456789012345", "NOT_STORED")] * 24
    yield "history 2"
    for begin, reply in lines_of("P", prefix):
        yield from (begin, reply)
    for (begin, reply), (begin_b, reply_b) in zip(lines_of("A", one), lines_of("B", other)):
        yield from (begin, begin_b, reply, reply_b)
    yield "end"


def one_without_a_reply(body):
    yield from ("history 2", "P begin delete k", "P reply NOT_FOUND", f"A begin set k 0 {body}")
    yield from ("B begin get k", f"B reply HIT 0 {body}", "B begin get k", "B reply MISS", "end")


def many_clients():
    """A timeline of 257 requests: 64 clients read the widest words at once, and again."""
    body, number = "=" + "\"" * 250, 2**64 - 1
    yield from ("history 3", f"0 begin set {KEYS[0]} {2**32 - 1} {body}", "0 reply STORED")
    for _ in range(4):
        yield from (f"{client} begin gets {KEYS[0]}" for client in range(64))
        yield from (f"{client} reply HIT {2**32 - 1} {body} {number}" for client in range(64))
    yield "end"


def clients_in_turns():
    """Each of 64 clients overlaps the one before it and the next; the last reply is wrong."""
    yield from ("history 3", "0 begin set k 0 =5", "0 reply STORED", "0 begin incr k 1")
    for client in range(1, 64):
        yield from (f"{client} begin incr k 1", f"{client - 1} reply NUMBER {client + 5}")
    yield from ("63 reply NUMBER 70", "end")


def text(lines):
    return "".join(line + "\n" for line in lines).encode()


MADE = [("full sections", text(full_history())), ("many clients", text(many_clients())),
        ("clients in turns", text(clients_in_turns())),
        *((f"a body of {len(body)}", text(one_without_a_reply(body))) for body in BODIES)]


class Pictures(LiveTest):
    """Of each history there is a picture that can be read."""

    @rows([*MADE, *((name, given) for name, _, given in examples("history"))])
    def test_svg(self, given):
        ran = run(["draw"], given)
        if ran.status == 3:
            self.assertEqual(ran.output, run(["judge"], given).output)
            return
        self.assertEqual(ran.status, 0)
        is_ordered = b"history 1\n" not in given
        begin = rb"^\w+ begin " if is_ordered else rb"^[PAB] [a-z]+ [a-z0-9-]+"
        requests = min(MOST_DRAWN, len(re.findall(begin, given.split(b"explain\n")[0], re.M)))
        self.assertEqual([*faults_of(ran.output, requests, is_ordered)], [])

    @rows((name, given) for name, _, given in examples("history"))
    def test_text(self, given):
        """The text of an example is ASCII of at most 80 columns."""
        ran = run(["draw", "--text"], given)
        self.assertTrue(ran.output.isascii())
        self.assertLessEqual(max(map(len, ran.output.split(b"\n"))), 80)

    def test_readme(self):
        """The picture in README is drawn from the history above it."""
        page = (ROOT / "README.md").read_text()
        given = page[page.index("history 2\n") : page.index("end\n```")] + "end\n"
        drawn = (ROOT / "docs/lost-update.svg").read_bytes()
        self.assertEqual(run(["draw"], given.encode()).output, drawn)

    @rows((it.name, it) for it in sorted((ROOT / "examples/findings").glob("*.svg")))
    def test_findings(self, picture):
        """The picture of a finding is drawn from its history."""
        given = picture.with_suffix(".history").read_bytes()
        self.assertEqual(run(["draw"], given).output, picture.read_bytes())
