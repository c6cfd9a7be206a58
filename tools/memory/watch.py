"""Whether a branch of `mcrace run` allocates or frees while its request, or the note of its reply,
waits for that (docs/GATE.md). The branches meet before each request.

The notes can't be seen while the program runs, but the history that it prints has their order. So
each call of a branch that allocates or frees is held, in a run of its own, until the other branch
has received a reply and sent its next request, whose Begin was thus noted while the call was held.
If the held branch's own Begin stands before that, it was noted before the call; if the last reply
of the held branch stands after it, the call was made before that reply was noted. Where the other
branch sends nothing meanwhile, it waits for the held one, as it may before the first requests
alone.
"""

import pathlib
import re
import tempfile
from dataclasses import dataclass

from live import servers
from refusal import ran

SECTION = b"get a\nset a 0 =abc\nget a\nget a\n"
HEAD = b"script 1\nkeys a\nbudget P 2 60\nbudget A 4 300\nbudget B 4 300\nP\nset a 0 =120\n"
SCRIPT = HEAD + b"A\n" + SECTION + b"B\n" + SECTION + b"end\n"
HIT = b"VALUE a 0 3\r\nabc\r\nEND\r\n"
BRANCH = servers.answers(HIT, b"STORED\r\n", HIT, HIT)
TALKS = servers.answers(b"NOT_FOUND\r\n", b"STORED\r\n"), BRANCH, BRANCH
# How many bodies the reply to each request has.
BODIES = [1, 0, 1, 1]
CALLS = ("malloc", "calloc", "realloc", "free")
# How long a call is held: before the first requests the branches may meet.
MILLISECONDS_TO_MEET, MILLISECONDS = 100, 5000
# So many unheld runs are made, and as many to come to a call.
TRIES = 3
NOTED = re.compile(r"^([PAB]) (begin|reply) ", re.M)
# When a call was made.
BEFORE_REPLY, BETWEEN, AFTER_BEGIN, AWAITED, UNREACHED = range(5)


@dataclass(frozen=True)
class Seen:
    """What a thread did: a call with its bytes, or what it sent or received over which socket."""

    thread: int
    done: str
    number: int

    def __str__(self):
        return self.done if self.done == "free" else f"{self.done} of {self.number} bytes"


class Watched:
    """A run, with what its branches did."""

    def __init__(self, program, made, **settings):
        with tempfile.TemporaryDirectory() as folder, servers.Replying(*TALKS) as server:
            script, seen = pathlib.Path(folder, "script"), pathlib.Path(folder, "seen")
            script.write_bytes(SCRIPT)
            seen.touch()
            words = [program, "run", f"127.0.0.1:{server.port}", "--meet", "each"]
            settings |= {"ALLOCATIONS_SEEN": seen, "PROLOGUE_REPLIES": 2}
            ended = ran(words, made, script, **settings)
            lines = [line.split() for line in seen.read_text().splitlines()]
        if ended is None or not ended[1].startswith(b"P done\nA done\nB done\n"):
            raise RuntimeError(f"a watched run ended with {ended}")
        self.seen = [Seen(int(thread), done, int(number)) for thread, done, number in lines]
        self.noted = NOTED.findall(ended[1].decode())

    def of_thread(self, thread):
        return [it for it in self.seen if it.thread == thread]

    def calls(self, thread, request):
        """What the thread allocated and freed after the reply before this request."""
        found, requests = [], 0
        for it in self.of_thread(thread):
            requests += it.done == "send"
            if requests == request:
                return found
            found = [] if it.done == "receive" else found + [it] * (it.done in CALLS)
        return []

    def place(self, thread, word, number):
        """Where the history has this Begin or reply of the thread's branch, the first being 1."""
        sockets = [it.number for it in self.seen if it.done == "connect"]
        own = next(it.number for it in self.of_thread(thread) if it.done == "send")
        note = "PAB"[sockets.index(own)], word
        return [at for at, noted in enumerate(self.noted) if noted == note][number - 1]

    def held(self):
        """The call that was held, or None."""
        at = next((at for at, it in enumerate(self.seen) if it.done == "held"), 0)
        return next((it for it in self.seen[:at][::-1] if it.thread == self.seen[at].thread), None)

    def sent_while_held(self, thread):
        """Which request of this thread was sent after a reply while the other was held; or None."""
        requests, held, received = 0, False, False
        for it in self.seen:
            held = it.done == "held" or held and it.done != "released"
            is_sent = it.thread == thread and it.done == "send"
            requests += is_sent
            if held and received and is_sent:
                return requests
            received = held and (received or it.thread == thread and it.done == "receive")
        return None


def held_run(program, made, thread, request, number):
    """A run in which this call before a request was held; None where none came to it."""
    settings = {"HOLD_THREAD": thread, "HOLD_REQUEST": request, "HOLD_CALL": number,
                "HOLD_MILLISECONDS": MILLISECONDS_TO_MEET if request == 1 else MILLISECONDS}
    runs = (Watched(program, made, **settings) for _ in range(TRIES))
    return next((it for it in runs if it.held()), None)


def kind_of(run, thread, request):
    """When the call before this request was made that was held in the run."""
    other = run.sent_while_held(1 - thread)
    if other is None:
        return AWAITED
    shown = run.place(1 - thread, "begin", other)
    if request > 1 and shown < run.place(thread, "reply", request - 1):
        return BEFORE_REPLY
    return AFTER_BEGIN if run.place(thread, "begin", request) < shown else BETWEEN


def calls_before(program, made, thread, request, count):
    """The calls before a request, each held in a run of its own, by when they were made."""
    found = [[] for _ in range(5)]
    for number in range(1, count + 1):
        run = held_run(program, made, thread, request, number)
        kind = UNREACHED if run is None else kind_of(run, thread, request)
        found[kind].append(str(run.held()) if run else f"call {number}")
    return found


def demands(found, request):
    """What is demanded of the calls before a request, each with those that don't meet it."""
    yield "each call could be held", found[UNREACHED]
    yield "nothing after Begin was noted", found[AFTER_BEGIN]
    if request == 1:
        yield "nothing after the branches met", found[BETWEEN]
        return
    yield "the other branch went on while one was held", found[AWAITED]
    before, bodies = found[BEFORE_REPLY], BODIES[request - 2]
    seen = sum(it.startswith("malloc") for it in before[:bodies])
    yield "the body was seen", ["no malloc"] * (bodies - seen)
    yield "nothing but a body before the last reply was noted", before[seen:]


def faults(program, made):
    """Of each demand the calls that don't meet it."""
    unheld = [Watched(program, made) for _ in range(TRIES)]
    for thread in (0, 1):
        for request in range(1, len(BODIES) + 1):
            count = max(len(it.calls(thread, request)) for it in unheld)
            found = calls_before(program, made, thread, request, count)
            for demand, wrong in demands(found, request):
                yield [f"thread {thread}, request {request}: {demand}: {it}" for it in wrong]
