"""The races of faulty_server.c: their scripts, and the programs that play them."""

import collections
import contextlib
import functools
import math
import re
import subprocess
import time
from statistics import fmean, median

from common import in_turns, ran, servers, stop  # which finds the model
from model import STORES

# The runs that a program plays before it is another's turn.
ROUND = 100
# If a get that showed the old value came so long after STORED, in µs, a client can know it.
CLEARLY = 20
TOTALS = re.compile(r"runs (\d+) explained \d+ unexplained (\d+) other 0 overlapped \d+ failed 0")
# A run as mcrace tells it: whether the race is found, and if the first reply to B had been noted
# before A's last request began.
Told = collections.namedtuple("Told", "is_found is_after")
# A run as the server saw it (faulty_server.c); `late` is in µs, or nan.
Visit = collections.namedtuple("Visit", "is_a_first overlapped shown late")
# The server's bug, what P sends, what A and B send again and again, and how many of these show the
# race at least.
Race = collections.namedtuple("Race", "bug prefix a b least", defaults=(1,))
SET, INCR, TOGGLES = ["set a 0 =5"], ["incr a 1"], ["add a 0 =6", "delete a"]
# What is there can't be added, and what isn't can't be
# deleted, so the one undoes the other; after each append is seen whether one is lost.
RACES = {
    "incr": Race("lost-increment", SET, INCR, INCR),
    "decr": Race("lost-decrement", ["set a 0 =50"], INCR, ["decr a 1"]),
    "cas": Race("cas-two-winners", SET, *(["gets a miss:gone >unique", f"cas a 0 ={it} $unique"]
                                          for it in (6, 7)), 2),
    "add": Race("add-twice", [], TOGGLES, TOGGLES),
    "append": Race("lost-append", SET, *([f"append a 0 ={it}", "get a"] for it in (6, 7)), 2),
    "delete": Race("delete-twice", SET, TOGGLES[::-1], TOGGLES[::-1]),
    "late": Race("stale-get", SET, ["get a"], [f"set a 0 ={it}" for it in range(6, 18)]),
}


def script_of(race, of_a, of_b):
    """The text of a script with so many requests of A and of B, whose key is a."""
    is_cas = race is RACES["cas"]
    head = ["script 1", "keys a", *is_cas * ["vars unique"]]
    head += [f"budget {it} 24 1000" for it in "PAB"]
    a, b = ([*(its * count)[:count], *is_cas * ["gone:"]]
            for its, count in ((race.a, of_a), (race.b, of_b)))
    return "\n".join([*head, "P", *race.prefix, "A", *a, "B", *b, "end\n"])


TWELVE = {name: script_of(it, 12, 12) for name, it in RACES.items()}
SHORT = {name: script_of(it, it.least, it.least) for name, it in RACES.items()}
SHORT |= {"incr-4": script_of(RACES["incr"], 4, 4), "late-4": script_of(RACES["late"], 4, 1)}


def job_of(script):
    """The same requests as a job of client.c. P deletes the keys first, as in a run."""
    lines = script.splitlines()
    keys = next(line.split()[1:] for line in lines if line.startswith("keys "))
    found, section = [f"P delete {key}|" for key in keys], ""
    for line in lines[lines.index("P") : -1]:
        if line in ("P", "A", "B"):
            section = line
        elif not line.endswith(":"):
            found.append(f"{section} {request_of(line)}")
    return "\n".join([*found, "end", ""])


def request_of(line):
    """What a line of a script sends. A | ends a line, and $ stands for a number that was shown."""
    verb, *words = [it for it in line.split() if ":" not in it and it[0] not in ">?+-"]
    if verb not in STORES:
        return " ".join([verb, *words]) + "|"
    key, flags, body, *number = words
    words = [verb, key, flags, "0", str(len(body) - 1), *("$" for _ in number)]
    return f"{' '.join(words)}|{body[1:]}|"


@contextlib.contextmanager
def faulty_server(program, bug, window=0, delay=0, is_shared=False):
    """The port of a server with a bug whose window of so many µs opens so late, and a function
    that answers the runs since its last call; if the server is shared, all that came is one."""
    words = [program, "--bug", bug, "--window", window, "--delay", delay]
    with servers.started([*words, "--report", "all" if is_shared else "runs"]) as (process, port):
        def visits():
            process.stdin.write(b"report\n")
            process.stdin.flush()
            lines = iter(process.stdout.readline, b"end\n")
            return [Visit(*map(float, it.split())) for it in lines]

        yield port, visits


def plain(client, *how, is_one_process=False):
    """Plays a script so many times at a port by the plain program, started for each or for all. It
    looks at no reply, so it doesn't answer in which of them the race was found."""
    def play(port, script, runs):
        processes, each = (1, runs) if is_one_process else (runs, 1)
        for _ in range(processes):
            ran([client, port, 1, each, *how], job_of(script))

    return play


def run_of(program, port, script, *options):
    words = [program, "run", f"127.0.0.1:{port}", *options]
    return ran(words, script, statuses=(0, 1)).splitlines()


def mcrace(program, *options):
    """`mcrace run`, started for each run; a race is found if the verdict is `unexplained`."""
    def play(port, script, runs):
        outputs = [run_of(program, port, script, *options) for _ in range(runs)]
        for *endings, verdict in (it[:4] for it in outputs):
            if endings != ["P done", "A done", "B done"] or not verdict.endswith("explained"):
                stop(options, endings, verdict)
        return [Told(it[3] == "unexplained", is_after(it)) for it in outputs]

    return play


def is_after(lines):
    kinds = [line[:7] for line in lines]
    return "B reply" in kinds[: max(at for at, it in enumerate(kinds) if it == "A begin")]


def repeated(program, *options):
    """`mcrace run --times`; only how often the race was found is known, and not in which runs."""
    def play(port, script, runs):
        output = run_of(program, port, script, "--times", runs, "--keep-going", *options)
        totals = TOTALS.fullmatch(output[-1])
        if not totals or int(totals[1]) != runs:
            stop(options, output)
        return [at < int(totals[2]) for at in range(runs)]

    return play


def seen(name, play, server, race, runs):
    """In which runs the race was found, each with what the server saw. mcrace must find what the
    server counts; but of late sets, which rest on its speed, any that have an old value."""
    port, visits_of = server
    found, visits = play(port, SHORT[race], runs), visits_of()
    if len(visits) != runs:
        stop(f"{name}, {race}: {len(visits)} runs came to the server of {runs}")
    for told, it in zip(found or [], visits):
        is_late = race.startswith("late") and not (told.is_found and math.isnan(it.late))
        if told.is_found != bool(it.shown) and not is_late:
            stop(f"{name}, {race}: {told}, but the server saw {it}")
    return list(zip(found or [Told(it.shown > 0, False) for it in visits], visits))


def series(program, race, window, delay, players, runs):
    """What `seen` answers of each player by its name, of about so many runs, in which they take
    turns."""
    rounds = -(-runs // ROUND)
    bug = RACES[race.split("-")[0]].bug
    with faulty_server(program, bug, window, delay) as server:
        plays = {name: functools.partial(seen, name, play, server, race, -(-runs // rounds))
                 for name, play in players.items()}
        found = in_turns(rounds, plays)
    return {name: sum(its, []) for name, its in found.items()}


def shares_of(runs):
    """The shares of the runs that found the race, in which the requests overlapped, and in which A
    came first; and the share that found it of those that broke the recorded order visibly, of those
    that clearly did, and of those in whose history the get comes after the set."""
    def found_of(chosen):
        return fmean([told.is_found for told, _ in chosen] or [0])

    visible = [it for it in runs if it[1].late > 0]
    return {"found": found_of(runs), "overlapped": fmean(it.overlapped for _, it in runs),
            "A first": fmean(it.is_a_first for _, it in runs), "visible": found_of(visible),
            "clear": found_of([it for it in visible if it[1].late >= CLEARLY]),
            "known": found_of([it for it in visible if it[0].is_after])}


def medians_of(count, *asked):
    """The medians of the shares in so many series, by the player's name; but those of late sets,
    which are rare, are of all series at once."""
    found, medians = [series(*asked) for _ in range(count)], {}
    for name in found[0]:
        each = [shares_of(it[name]) for it in found]
        medians[name] = shares_of(sum((it[name] for it in found), [])) | {
            share: median(it[share] for it in each) for share in ("found", "overlapped", "A first")}
    return medians


def by_seed(command, stream, says, program, port, attempt, limit):
    """The seconds until a command with this seed says so on its standard error or output."""
    words = [program, command, f"127.0.0.1:{port}", "--seed", attempt, "--for", f"{limit}s"]
    pipes = dict.fromkeys(["stdin", "stdout", "stderr"], subprocess.DEVNULL)
    pipes[stream] = subprocess.PIPE
    began = time.perf_counter()
    with subprocess.Popen(list(map(str, words)), **pipes, text=True) as process:
        found = any(says in it for it in getattr(process, stream))
        took = time.perf_counter() - began
        process.kill()
    if not found and process.wait():
        stop(words, "ended with", process.returncode)
    return took if found else float("inf")


def seconds_to(ways, program, attempt, limit, *server):
    """The seconds by each of the ways, each at a server of its own."""
    found = {}
    for way, look in ways.items():
        with faulty_server(*server, is_shared=True) as (port, _):
            found[way] = look(program, port, attempt, limit)
    return found


# The ways that need no script: what is asked, and what is said of a finding on which stream.
SEEDED = {"campaign": functools.partial(by_seed, "campaign", "stderr", " is unexplained;"),
          "test": functools.partial(by_seed, "test", "stdout", "found: ")}
