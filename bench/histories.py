"""The histories that `bench/judge` and `bench/instructions` measure, and how they are judged."""

import collections
import random

from common import stop, timed  # which finds the model
from model import GREATEST, Cache, history_text, line_of

CLEARED = "P delete a -> NOT_FOUND"
EMPTY = "P set a 0 = -> STORED"
# A hit that no server gives here: nothing stores this body.
NEVER = "A get a -> HIT 0 =never"
VERBS = "set add replace append prepend cas cas get get gets gets incr incr decr decr delete touch"


class Run:
    """Three sections over one cache, with what each of them was answered."""

    def __init__(self, rng, keys, pads=False):
        self.rng, self.keys, self.history = rng, keys, []
        first = rng.randrange(1, 1000)
        both = ("incr", "decr") if pads else ()
        self.cache = Cache(first, lambda: rng.randrange(1, 4), both)
        # the number that each section was shown last of a key
        self.shown = {"P": {}, "A": {}, "B": {}}
        for key in keys:
            self.send("P", ("delete", key))

    def send(self, actor, request):
        reply = self.cache.answer(request)
        self.history.append((actor, request, reply))
        if request[0] == "gets" and reply[0] == "HIT":
            self.shown[actor][request[1]] = reply[3]

    def set_any(self, key):
        self.send("P", ("set", key, 0, b"%d" % self.rng.randrange(100)))

    def number(self, actor, key):
        """A number that the section may use in a cas of the key."""
        return self.shown[actor].get(key, self.shown["P"].get(key))

    def branch_out(self, counts, make):
        """Lets A and B send so many requests in a random order; `make` makes one for a section."""
        left = dict(zip("AB", counts))
        while left["A"] or left["B"]:
            actor = self.rng.choice([actor for actor in "AB" for _ in range(left[actor])])
            self.send(actor, make(self, actor))
            left[actor] -= 1
        return self.history


def any_request(run, actor):
    """Any of the twelve commands on any key, a cas only if a number was shown."""
    rng = run.rng
    key, verb = rng.choice(run.keys), rng.choice(VERBS.split())
    if verb == "cas":
        number = run.number(actor, key)
        return ("cas", key, 0, b"%d" % rng.randrange(100), number) if number else ("gets", key)
    if verb in ("incr", "decr"):
        return (verb, key, rng.randrange(1, 10))
    if verb in ("get", "gets", "delete", "touch"):
        return (verb, key)
    return (verb, key, 0, b"%d" % rng.randrange(100))


def request_of_one_body(run, actor):
    """A set or a cas of the same body, or a gets."""
    number = run.number(actor, "a")
    store = ("cas", "a", 0, b"1", number) if number else ("gets", "a")
    return run.rng.choice([("set", "a", 0, b"1"), ("gets", "a"), store])


def job(rng):
    """As a campaign's job: two keys, one or both set, and up to three pieces in each branch."""
    run = Run(rng, ["r7-0", "r7-1"])
    run.set_any("r7-0")
    if rng.randrange(2):
        run.set_any("r7-1")
    return run.branch_out([rng.randrange(1, 4), rng.randrange(1, 4)], any_request)


def random_24(rng, keys="abc"):
    """24 requests of all commands in each branch, on three keys."""
    run = Run(rng, list(keys), pads=rng.random() < 0.5)
    for key in keys:
        run.set_any(key)
        run.send("P", ("gets", key))
    return run.branch_out([24, 24], any_request)


def changed_24(rng):
    """The same with one reply of a branch changed: a number by one, or the body of a hit."""
    places = []
    while not places:
        history = random_24(rng)
        places = [at for at, (actor, _, reply) in enumerate(history)
                  if actor != "P" and reply[0] in ("NUMBER", "HIT")]
    place = rng.choice(places)
    actor, request, (word, first, *rest) = history[place]
    if word == "NUMBER":
        changed = (word, (first + 1) & GREATEST)
    else:
        changed = (word, first, rest[0] + b"x", *rest[1:])
    history[place] = (actor, request, changed)
    return history


def numbers_24(rng):
    """Both branches store one body at one key: only the numbers tell the versions apart."""
    return Run(rng, ["a"]).branch_out([24, 24], request_of_one_body)


class Kind(collections.namedtuple("Kind", "name made verdict limit version",
                                  defaults=(None, None, 1))):
    """A kind of histories: the lines of one, or how one is made from a generator of random numbers;
    the verdict if it is known; a limit of its own; and the version of the text."""

    def texts(self, count):
        """So many histories, but one if all are the same; two benches measure the same ones."""
        if isinstance(self.made, list):
            return [history_text(self.made, self.version)]
        rng = random.Random(f"1 {self.name}")
        return [history_text(line_of(*it) for it in self.made(rng)) for _ in range(count)]


# What a server answered has an explanation.
SERVED = {"start": [], "job": job, "random": random_24, "changed": changed_24,
          "keys": lambda rng: random_24(rng, "abcdefgh"), "numbers": numbers_24}
LARGE_SET, LARGE_APPEND = (f"P {verb} a 0 ={65_000 * 'x'} -> STORED" for verb in ("set", "append"))
# These have none: each ends with a hit that no order gives.
HOPELESS = {
    # every merge of the two branches is an order
    **{f"misses-{count}": [CLEARED, *count * ["A get a -> MISS"], "A get a -> HIT 0 =1",
                           *count * ["B get a -> MISS"]] for count in (6, 12)},
    # the same with a large body
    "bodies": [CLEARED, f"P set a 0 ={32_768 * 'x'} -> STORED", *12 * ["A touch a -> TOUCHED"],
               "A touch a -> NOT_FOUND", *12 * ["B touch a -> TOUCHED"]],
    # each request stores a body of its own
    **{f"stores-{count}": [
        CLEARED, *(f"A set a 0 =a{at} -> STORED" for at in range(count - 1)),
        *(f"B set a 0 =b{at} -> STORED" for at in range(count)), NEVER] for count in (8, 16, 24)},
    # another body for each order
    **{f"appends-{size}": [
        CLEARED, EMPTY, *(f"{actor} append a 0 ={size // 2 * f'{actor}{at}'} -> STORED"
                          for actor in "AB" for at in range(7)), NEVER] for size in (6, 60_000)},
    # many orders make one body, of other pieces
    **{f"alike-{verb}s": [
        CLEARED, EMPTY, *23 * [f"A {verb} a 0 =x -> STORED"], *23 * [f"B {verb} a 0 =xx -> STORED"],
        NEVER] for verb in ("append", "prepend")},
    # the same appends in pairs that overlap, and a hit that is one byte short
    "alike-pairs": [
        "P begin delete a", "P reply NOT_FOUND", "P begin set a 0 =", "P reply STORED",
        *23 * ["A begin append a 0 =x", "B begin append a 0 =xx", "A reply STORED",
               "B reply STORED"], "A begin get a", f"A reply HIT 0 ={(3 * 23 - 1) * 'x'}"],
    # spaces that A appends to a number, and that B's decrements keep or drop
    "alike-pads": [CLEARED, "P set a 0 =9 -> STORED", *6 * ["A append a 0 =%20 -> STORED"], NEVER,
                   *6 * ["B decr a 0 -> NUMBER 9"]],
    # a body of 975,000 bytes, which doesn't change or grows
    **{f"grown-{name}": [
        CLEARED, LARGE_SET, *14 * [LARGE_APPEND], *12 * [f"A {line.format('A')}"],
        *12 * [f"B {line.format('B')}"], NEVER]
       for name, line in (("touched", "touch a -> TOUCHED"),
                          ("appended", "append a 0 ={} -> STORED"))},
}
KINDS = [Kind(name, made, None if name == "changed" else "explained")
         for name, made in SERVED.items()]
KINDS += [Kind(name, lines, "unexplained", 10_000 if name == "bodies" else None,
               2 if name == "alike-pairs" else 1) for name, lines in HOPELESS.items()]
# Of the verdicts of `mcrace judge`.
STATUSES = {"explained": 0, "unexplained": 1, "undecided": 4}


def words_of(limit):
    return ["judge", "--limit", str(limit)]


def verdict_of(program, text, limit):
    """The verdict, and the seconds that it took."""
    answer, status, seconds = timed([program, *words_of(limit)], text)
    verdict = answer.split(b"\n", 1)[0].decode()
    if status != STATUSES.get(verdict):
        stop(f"{verdict!r} with status {status} for", text.decode())
    return verdict, seconds


def turns_of(program, kind, text, limit):
    """The verdict, which must not be wrong, and the turns it takes, or the limit."""
    verdict, _ = verdict_of(program, text, limit)
    if verdict == "undecided":
        return verdict, limit
    if verdict != (kind.verdict or verdict):
        stop(f"of kind {kind.name} the verdict is {verdict}, which is wrong, for", text.decode())
    too_few, enough = -1, limit
    while enough - too_few > 1:
        middle = (too_few + enough) // 2
        if verdict_of(program, text, middle)[0] == "undecided":
            too_few = middle
        else:
            enough = middle
    return verdict, enough
